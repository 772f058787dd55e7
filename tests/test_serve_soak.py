"""Sixteen users at a served farm for some minutes: random lines, floods, cuts, restarts, and kills of `live` and of `serve`. Each
user keeps a list of what was sent and what was told; at the end it is held against the records, which `lab rows` does again."""

import collections
import glob
import queue
import random
import re
import subprocess
import threading
import time
from collections.abc import Iterator

import pytest
from support.serving_trials import Client, Served, plan_of_users
from support.transcripts import RESTARTED, Event, Sent, events_of, fault_of
from support.trials import LAB

USERS = 16
FIRST, WORDS = 0x80000100, 48
# ajw 4, then three times mint, ldc and outbyte, which sends "hi\n" by link 0; stopp
GREETING = b"boot 0 b424f22648fe24f22649fe24f24afe21f5"
JOINED = b"config 01000103"
WRONG = [
    b"",
    b"\0",
    b"frob 0",
    b"\xff\xfe 1",
    b"look",
    b"peek 0 0",
    b"poke 0 80000100 zz",
    b"!stop",
    b"user-1 rest",
    b"\r\r",
]
# Records get long, and the machine may have other things to do.
PATIENCE = 120
# More kills than five a minute would end the farm.
SECONDS_OF_KILL = 14
# Nobody else asks this, and it has a short answer: who reads is not to fall behind.
FLOOD = "look 99"
LOST = "error: not answered, send it again if you want it: "


class Ended(Exception):
    """The connection has ended, since `serve` was killed."""


class Listener(Client):
    """A connection that is read all the time, so that it isn't cut off beside a flood of its own user."""

    def __init__(self, served: Served, path: str) -> None:
        super().__init__(served, path)
        self.stream.settimeout(None)
        self.pieces: queue.SimpleQueue[bytes] = queue.SimpleQueue()
        self.ready: collections.deque[bytes] = collections.deque()
        self.half = b""
        threading.Thread(target=self.listen, daemon=True).start()

    def listen(self) -> None:
        try:
            while piece := self.stream.recv(1 << 20):
                self.pieces.put(piece)
        except OSError:
            pass
        self.pieces.put(b"")

    def hear(self) -> str:
        while not self.ready:
            piece = self.pieces.get(timeout=PATIENCE)
            if not piece:
                raise Ended
            *lines, self.half = (self.half + piece).split(b"\n")
            self.ready.extend(lines)
        return self.ready.popleft().decode(errors="backslashreplace")


def listener(served: Served, name: str, end: float) -> Listener:
    """A connection, as soon as there is a socket. Between two runs of `serve` there is none."""
    while True:
        try:
            return Listener(served, f"{served.folder}/{name}.sock")
        except OSError:
            if time.monotonic() > end:
                raise
            time.sleep(0.05)


class User:
    """A user who asks for all that there is, among lines that are wrong."""

    def __init__(self, served: Served, number: int, seed: int) -> None:
        self.served, self.number, self.name = served, number, f"user-{number}"
        self.chance, self.values, self.marks = random.Random(f"{seed} {number}"), 0, 0
        self.waits: collections.deque[Sent] = collections.deque()
        self.sent: list[Sent] = []
        self.loose: list[bytes] = []
        self.faults: list[str] = []
        self.cuts = self.lost = self.heard = self.floods = self.restarts = 0
        self.connected: Listener | None = None
        self.calm = 0.0

    @property
    def client(self) -> Listener:
        """The connection."""
        assert self.connected, f"{self.name} isn't connected"
        return self.connected

    def lines(self) -> list[bytes]:
        """A random line, or two of which the second belongs to the first."""
        kind, address = self.chance.randrange(200), b"%08x" % (FIRST + 4 * self.chance.randrange(WORDS))
        if kind < 90:
            # no other user writes this value, and this one never again
            self.values += 1
            return [b"poke 0 %s %08x" % (address, self.number << 24 | self.values)]
        if kind < 150:
            return [b"peek 0 " + address]
        if kind == 150 and self.number % 4 == 1:
            self.restarts += 1
            return [*([GREETING, b"collect 0"] if self.chance.random() < 0.5 else []), b"restart", JOINED]
        rest = (
            b"reset 0",
            JOINED,
            b"config 0200",
            b"config 0207",
            b"collect 0",
            b"look 0",
            b"rest",
            self.chance.choice(WRONG),
        )
        return [rest[kind % 8]]

    def batch(self, most: int) -> list[bytes]:
        return [line for _ in range(self.chance.randrange(1, most)) for line in self.lines()]

    def connect(self) -> None:
        """A connection, on which only answers to its own lines are due from now on."""
        self.loose += [it.text for it in self.waits]
        self.waits.clear()
        end = time.monotonic() + PATIENCE
        while True:
            self.connected = listener(self.served, self.name, end)
            self.marks += 1
            mark = Sent(b"look %d" % (100 + self.marks % 150), True)
            mark.loose = len(self.loose)
            try:
                self.client.say(mark.text.decode() + "\n")
                while (answer := self.client.hear()) != mark.text.decode() + " nosuch":
                    if answer == LOST + mark.text.decode():
                        self.client.say(mark.text.decode() + "\n")
            except (Ended, OSError):
                continue
            self.sent.append(mark)
            return

    def send(self, texts: list[bytes], half: bytes = b"") -> None:
        lines = [Sent(it) for it in texts]
        for line in lines:
            line.loose = len(self.loose)
        self.waits.extend(lines)
        self.client.stream.sendall(b"".join(it + b"\n" for it in texts) + half)

    def hear_all(self) -> None:
        while self.waits:
            answer = self.client.hear()
            if not answer.startswith(("note: ", "note ", FLOOD, LOST + FLOOD)):
                self.take(self.waits.popleft(), answer)

    def take(self, sent: Sent, answer: str) -> None:
        """The answer to a line, or that there is none."""
        self.sent.append(sent)
        if answer.startswith(LOST):
            self.lost += 1
            text = sent.text.decode(errors="backslashreplace")
            is_right = answer[len(LOST) :].rstrip("\r") == text.rstrip("\r")
        else:
            self.heard += 1
            sent.answer = answer.encode()
            is_right = self.is_of(sent.text, answer)
        if not is_right:
            self.faults.append(f"{self.name}: {answer!r} for {sent.text!r}")

    def is_of(self, text: bytes, answer: str) -> bool:
        """Whether an answer may be that of a line, by its form and by whose value it has. What its value is the records
        say."""
        if text == b"rest":
            return answer in ("rest quiet", "rest busy")
        if text in WRONG:
            return re.fullmatch(r"error \d+ (verb|args|hex)", answer) is not None
        value = re.fullmatch(r"peek 0 ([0-9a-f]{8})", answer)
        if value is not None and int(value[1], 16) >> 24 not in (0, self.number):
            return False
        return answer.startswith(text.decode().split(" ")[0] + " ")

    def cut(self) -> None:
        """Leaves in the middle of a line."""
        self.cuts += 1
        half = self.lines()[0]
        self.send(self.batch(20), half[: self.chance.randrange(len(half) + 1)])
        self.client.leave()
        self.connect()

    def flood(self) -> None:
        """Floods a second connection for a second, and reads it or not. As long as its lines are before `live`, those
        of a connection that is cut off could come after those of the next; so no cut is made."""
        self.floods += 1
        self.calm = time.monotonic() + 4
        is_over = threading.Event()
        threading.Timer(1, is_over.set).start()
        words = (self.name, self.chance.random() < 0.5, is_over, list[str](), FLOOD.encode())
        threading.Thread(target=self.served.flood, args=words).start()

    def go_on(self) -> None:
        """Some lines with their answers, and what comes with them."""
        try:
            self.send(self.batch(20))
            self.hear_all()
            if self.chance.random() < 0.03 and time.monotonic() > self.calm:
                self.cut()
            if self.chance.random() < 0.005:
                self.flood()
        except (Ended, OSError):
            self.connect()

    def run(self, end: float) -> None:
        try:
            self.connect()
            self.send([JOINED])
            while time.monotonic() < end:
                self.go_on()
                time.sleep(0.2 * self.chance.random())
        except (AssertionError, OSError, queue.Empty) as error:
            self.faults.append(f"{self.name}: {error!r}")

    def compare(self, records: str, restarts: tuple[int, int]) -> int:
        """How many events the records have that this user asked for. What is wrong is added to the faults."""
        events = events_of(records, self.name)
        fault = fault_of(self.sent, self.loose + [it.text for it in self.waits], events, restarts)
        if fault:
            self.faults.append(f"{self.name}: {fault}")
        return len(events)


class Operator(threading.Thread):
    """The operator, who restarts every fourth user's domain now and then: how often he was answered, and how often he
    asked."""

    def __init__(self, served: Served, chance: random.Random, end: float) -> None:
        super().__init__()
        self.served, self.chance, self.last = served, chance, end
        self.answered: collections.Counter[str] = collections.Counter()
        self.asked: collections.Counter[str] = collections.Counter()
        self.faults: list[str] = []

    def run(self) -> None:
        client: Listener | None = None
        while time.monotonic() < self.last:
            time.sleep(4 * self.chance.random())
            name = f"user-{4 * self.chance.randrange(USERS // 4) + 2}"
            try:
                client = client or listener(self.served, "operator", time.monotonic() + PATIENCE)
                self.asked[name] += 1
                client.say(f"restart {name}\n")
                while (answer := client.hear()).startswith(("note: ", "note ")):
                    pass
                self.answered[name] += answer == f"!restart {name} ok"
                if answer not in (f"!restart {name} ok", f"{LOST}restart {name}"):
                    self.faults.append(f"operator: {answer!r} for restart {name}")
            except (Ended, OSError):
                client = None
            except queue.Empty as error:
                self.faults.append(f"operator: {error!r}")
                return


def kill_till(served: Served, end: float, chance: random.Random) -> None:
    """Kills `live` now and then, and `serve` at each fourth time, behind which another `serve` is started at once."""
    kills = 0
    while time.monotonic() + SECONDS_OF_KILL < end:
        time.sleep(SECONDS_OF_KILL + 4 * chance.random())
        if kills % 4 == 2:
            served.process.kill()
            served.process.wait()
            served.start()
        else:
            served.kill_live()
        kills += 1


def wrong_rows(records: str) -> tuple[int, list[str]]:
    """How many rows the records have, and what `lab rows` finds wrong there."""
    paths, rows, faults = sorted(glob.glob(f"{records}/*.replay")), 0, list[str]()
    for at in range(0, len(paths), 100):
        told = subprocess.run([LAB, "rows", *paths[at : at + 100]], capture_output=True, encoding="utf-8", check=False)
        rows += sum(int(it) for it in re.findall(r": (\d+) rows, ", told.stdout))
        faults += [it for it in told.stdout.splitlines() if not it.endswith(", 0 wrong")]
        # a record that begins with a restart may have no events yet
        is_said = re.search(r": 0 rows|[1-9]\d* wrong$", told.stdout, re.M) is not None
        if told.returncode != 0 and not (told.returncode == 1 and is_said):
            faults.append(f"lab rows: {told.returncode}: {told.stderr}")
    return rows, faults


class Roomy(Served):
    """A farm with rooms that the lines of an hour don't fill."""

    def call(self, *more: str) -> list[str]:
        return super().call("--room", "1G", "--record-room", "8G", *more)


@pytest.mark.long
def test_soak(minutes: float, seed: int) -> None:
    names = [f"user-{it}" for it in range(USERS)]
    with Roomy(plan_of_users(names)) as served:
        users = [User(served, it, seed) for it in range(USERS)]
        end = time.monotonic() + 60 * minutes
        operator = Operator(served, random.Random(f"{seed} operator"), end)
        threads = [operator, *(threading.Thread(target=user.run, args=(end,)) for user in users)]
        for thread in threads:
            thread.start()
        kill_till(served, end, random.Random(seed))
        for thread in threads:
            thread.join()
        time.sleep(2)
        assert served.stop(PATIENCE)[0] == 0
        records = f"{served.folder}/records"
        events = sum(it.compare(records, (operator.answered[it.name], operator.asked[it.name])) for it in users)
        rows, faults = wrong_rows(records)
    assert faults + operator.faults + [fault for user in users for fault in user.faults] == []
    assert min(user.heard for user in users) > 0
    assert 0 < events <= rows


# A line's answer, and the events with their replies that a record has of it, both by hand: the host has room for one
# byte more.
Row = tuple[bytes, bytes | None]
# Rows, the events of the records, and how often the operator was answered and asked for a restart.
Case = tuple[list[Row], list[Event], tuple[int, int]]
ROWS: list[Row] = [
    (b"config 01000103", b"config -"),
    (b"poke 0 80000100 12345678", b"poke 0 9"),
    (b"rest", b"rest quiet"),
    (b"peek 0 80000100", b"peek 0 12345678"),
    (b"config 0200", b"config 81"),
    (b"restart", b"restart ok"),
    (b"look 0", b"look 0 booting overruns 0 0 0 0"),
    (b"write 0 0102", b"write 0 1"),
    (b"collect 0", b"collect 0 -"),
]
CONFIG = [(b"config %02x" % it, b"nothing") for it in (1, 0, 1, 3)]
POKE = [(b"write 0 %02x" % it, b"written") for it in (0, 0, 1, 0, 0x80, 0x78, 0x56, 0x34, 0x12)]
PEEK = [(b"write 0 %02x" % it, b"written") for it in (1, 0, 1, 0, 0x80)]
PEEK += [(b"read 0", b"%02x" % it) for it in (0x78, 0x56, 0x34, 0x12)]
LATER = [
    (b"config 02", b"nothing"),
    (b"config 00", b"81"),
    RESTARTED,
    (b"look 0", b"booting overruns 0 0 0 0"),
    (b"write 0 01", b"written"),
    (b"write 0 02", b"full"),
    (b"read 0", b"none"),
]
EVENTS = CONFIG + POKE + PEEK + LATER
OTHER = {b"written": b"full", b"full": b"written", b"nothing": b"badport", b"12": b"13"}


def with_mistakes() -> Iterator[Case]:
    """The list and its records with one mistake in each way."""
    for at, (event, reply) in enumerate(EVENTS):
        yield ROWS, EVENTS[:at] + EVENTS[at + 1 :], (0, 0)
        yield ROWS, [*EVENTS[:at], EVENTS[at], *EVENTS[at:]], (0, 0)
        # whether there was room for the last byte of a peek's message no answer says: lab rows does
        if event != RESTARTED[0] and at != len(CONFIG + POKE) + 4:
            yield ROWS, [*EVENTS[:at], (event, OTHER.get(reply, b"12")), *EVENTS[at + 1 :]], (0, 0)
    for at, (text, answer) in enumerate(ROWS):
        if text != b"rest":
            yield [*ROWS[:at], (text, answer and answer[:-1] + b"?"), *ROWS[at + 1 :]], EVENTS, (0, 0)
            yield ROWS[:at] + ROWS[at + 1 :], EVENTS, (0, 0)
    yield [ROWS[1], ROWS[0], *ROWS[2:]], EVENTS, (0, 0)
    yield ROWS, EVENTS, (1, 1)


def without_mistakes() -> Iterator[Case]:
    """The list and its records, with lines that weren't answered and are there in whole, in part or not at all, and
    with a restart that is the operator's."""
    lost: list[Row] = [ROWS[0], (ROWS[1][0], None), *ROWS[2:]]
    restarted = [*ROWS[:5], *ROWS[6:]]
    yield ROWS, EVENTS, (0, 0)
    for length in range(len(POKE) + 1):
        yield lost, CONFIG + POKE[:length] + PEEK + LATER, (0, 0)
    for answered in (0, 1):
        yield restarted, EVENTS, (answered, 1)


@pytest.mark.parametrize("is_right", [True, False])
def test_the_comparison(is_right: bool) -> None:
    """The comparison of the soak finds nothing wrong with a list and its records, and each of many mistakes."""
    cases = list(without_mistakes() if is_right else with_mistakes())
    assert len(cases) == (13 if is_right else 103)
    for rows, events, restarts in cases:
        lines = [Sent(text) for text, _ in rows]
        for line, (_, answer) in zip(lines, rows):
            line.answer = answer
        assert (fault_of(lines, [], events, restarts) is None) == is_right, f"{rows}, {events}, {restarts}"
