"""What the tests of `serve` share: a farm that is served in a folder of its own, its clients, and random lines."""

import contextlib
import os
import random
import signal
import socket
import subprocess
import tempfile
import threading
import time
from collections.abc import Iterable, Iterator, Sequence

from support.trials import TOP, program

SECONDS, START_SECONDS = 20, 120
TIMES = 60
# Keeps what `live` gets beside it.
LOGGING = """#!/bin/bash
exec "{live}" "$@" < <(exec tee -a "{log}" 2> /dev/null)
"""


def plan_of_users(names: Iterable[str]) -> str:
    """A domain for each user: link 0 of his node at port 0, and his host at port 1."""
    plan = "version = 3\n"
    for it, name in enumerate(names):
        plan += f"""
[[domain]]
user = [{{ name = "{name}", host = [1] }}]
range = [[{2 * it}, {2 * it + 1}]]
limit = 1000000000

[[domain.node]]
memory = 2048
links = [0, -1, -1, -1]
"""
    return plan


def hears_ctrl_c() -> None:
    """Lets Ctrl-C and the end of a terminal reach a process that begins, also if whoever runs the trials passes over them."""
    signal.signal(signal.SIGINT, signal.SIG_DFL)
    signal.signal(signal.SIGHUP, signal.SIG_DFL)


class Client:
    """A connection with a socket."""

    def __init__(self, served: "Served", path: str) -> None:
        self.served = served
        self.stream = socket.socket(socket.AF_UNIX, socket.SOCK_STREAM)
        self.stream.settimeout(SECONDS)
        self.stream.connect(path)
        self.lines = self.stream.makefile("rb")

    def leave(self) -> None:
        """Ends the connection at once."""
        self.stream.shutdown(socket.SHUT_RDWR)
        self.lines.close()
        self.stream.close()

    def say(self, text: str) -> None:
        self.stream.sendall(text.encode())

    def hear(self) -> str:
        """The next line; empty at the end."""
        return self.lines.readline().decode(errors="backslashreplace").removesuffix("\n")

    def until(self, start: str) -> str:
        """The next line that begins so."""
        while not (line := self.hear() or f"{start} never came").startswith(start):
            pass
        return line

    def ask(self, line: str) -> str:
        """The answer to a line; empty if the connection has ended."""
        self.say(line + "\n")
        return self.hear()

    def must(self, line: str) -> str:
        """The answer to a line, which is sent again as long as it wasn't answered."""
        self.say(line + "\n")
        while answer := self.hear():
            if answer.startswith("error: not answered"):
                self.served.repeats += 1
                self.say(line + "\n")
            elif not answer.startswith(("note: ", "note ")):
                return answer
        raise AssertionError(f"the connection ended at {line}")


class Served:
    """A farm that is served."""

    def __init__(self, plan: str, logged: bool = False, starts: bool = True) -> None:
        self.room = tempfile.TemporaryDirectory()
        self.folder, self.plan = f"{self.room.name}/farm", f"{self.room.name}/plan.toml"
        self.env, self.repeats, self.starts = {**os.environ}, 0, starts
        self.begun: subprocess.Popen[bytes] | None = None
        with open(self.plan, "w", encoding="utf-8") as it:
            it.write(plan)
        if logged:
            self.env["LIVE"] = f"{self.room.name}/logging"
            with open(self.env["LIVE"], "w", encoding="utf-8") as it:
                it.write(LOGGING.format(log=f"{self.room.name}/log", live=program("live")))
            os.chmod(self.env["LIVE"], 0o755)

    def call(self, *more: str) -> list[str]:
        return [f"{TOP}/serve", *more, self.plan, self.folder]

    @property
    def process(self) -> subprocess.Popen[bytes]:
        """The process of `serve`."""
        assert self.begun
        return self.begun

    def start(self, *more: str) -> None:
        self.begun = subprocess.Popen(
            self.call(*more), env=self.env, stdin=subprocess.DEVNULL, stdout=subprocess.DEVNULL, stderr=subprocess.PIPE
        )
        self.await_start()

    def await_start(self) -> None:
        """Waits until the operator's socket is there, and the farm is up."""
        end = time.monotonic() + START_SECONDS
        while True:
            try:
                client = self.client("operator")
                client.stream.shutdown(socket.SHUT_WR)
                if b"isn't up yet" not in client.lines.read():
                    return
                time.sleep(0.05)
            except OSError:
                if time.monotonic() > end or self.process.poll() is not None:
                    raise
                time.sleep(0.01)

    def __enter__(self) -> "Served":
        if self.starts:
            self.start()
        return self

    def __exit__(self, *_: object) -> None:
        if self.begun is not None and self.process.poll() is None:
            self.process.kill()
            self.process.wait()
        self.room.cleanup()

    def stop(self, seconds: float = SECONDS) -> tuple[int, bytes]:
        self.process.send_signal(signal.SIGTERM)
        errors = self.process.communicate(timeout=seconds)[1]
        return self.process.returncode, errors

    def client(self, name: str) -> Client:
        return Client(self, f"{self.folder}/{name}.sock")

    def ask(self, name: str, line: str) -> str:
        """The answer to a line on a connection of its own."""
        client = self.client(name)
        try:
            return client.ask(line)
        finally:
            client.stream.close()

    def told(self, name: str, what: str) -> int:
        """What the operator is told of a user: his lines, or his events."""
        client = self.client("operator")
        client.say("users\n")
        client.stream.shutdown(socket.SHUT_WR)
        rows = {row[1]: row for row in (line.decode().split() for line in client.lines)}
        return int(rows[name][{"lines": 2, "events": 3}[what]])

    def logged(self) -> list[bytes]:
        """The lines that `live` has got."""
        with open(f"{self.room.name}/log", "rb") as it:
            return it.read().removesuffix(b"\n").split(b"\n")

    def live_process(self) -> int:
        """The number of the process that `serve` has begun last."""
        end = time.monotonic() + SECONDS
        while time.monotonic() < end:
            with open(f"/proc/{self.process.pid}/task/{self.process.pid}/children", encoding="ascii") as it:
                numbers = it.read().split()
            if numbers:
                return int(numbers[-1])
            time.sleep(0.01)
        raise AssertionError("serve has no live")

    @contextlib.contextmanager
    def held_live(self) -> Iterator[int]:
        """Lets `live` do nothing until the end of a block, which gets its number."""
        number = self.live_process()
        os.kill(number, signal.SIGSTOP)
        try:
            yield number
        finally:
            with contextlib.suppress(ProcessLookupError):
                os.kill(number, signal.SIGCONT)

    def kill_live(self) -> None:
        """Kills `live`, and waits until `serve` knows it."""
        number = self.live_process()
        os.kill(number, signal.SIGKILL)
        while os.path.exists(f"/proc/{number}"):
            time.sleep(0.01)

    def flood(self, name: str, reads: bool, is_over: threading.Event, cuts: list[str], line: bytes) -> None:
        """Sends a line without end, and reads the answers or lets them lie. A connection that is cut off is followed by
        another."""
        lines = (line + b"\n") * 100
        while not is_over.is_set():
            try:
                client = self.client(name)
            except OSError:
                time.sleep(0.05)
                continue
            reading = threading.Thread(target=drain, args=(client,), daemon=True)
            client.stream.settimeout(1 if reads else SECONDS)
            if reads:
                reading.start()
            try:
                while not is_over.is_set():
                    client.stream.sendall(lines)
            except TimeoutError:
                pass
            except OSError:
                cuts.append(name)
            try:
                client.leave()
            except OSError:
                pass


def drain(client: Client) -> None:
    """Reads what comes until the connection ends."""
    try:
        while client.stream.recv(1 << 16):
            pass
    except OSError:
        pass


def talk(served: Served, name: str, lines: Sequence[bytes], half: bytes = b"") -> bytes:
    """What a client hears that sends these lines in pieces of any size, and ends its side."""
    client = served.client(name)
    client.stream.settimeout(START_SECONDS)
    heard: list[bytes] = []
    reading = threading.Thread(target=lambda: heard.append(client.lines.read()))
    reading.start()
    text, at, chance = b"".join(line + b"\n" for line in lines) + half, 0, random.Random(name)
    # no more is read of a connection behind a line that is too long
    with contextlib.suppress(BrokenPipeError):
        while at < len(text):
            size = chance.choice((1, 7, 100, 5000, 1 << 20))
            client.stream.sendall(text[at : at + size])
            at += size
        client.stream.shutdown(socket.SHUT_WR)
    reading.join()
    client.leave()
    return heard[0]


def times(client: Client) -> list[float]:
    """How long each of some answers took, the shortest first."""
    took = []
    for _ in range(TIMES):
        begun = time.monotonic()
        assert client.ask("look 0") == "look 0 booting overruns 0 0 0 0"
        took.append(time.monotonic() - begun)
    return sorted(took)


PIECES = [
    b"\r",
    b"\0",
    b" ",
    b"\xff\xfe",
    b"ann ",
    b"bob ",
    b"cas ",
    b"!",
    b"!stop",
    b"!words",
    b"look 0",
    b"collect 0",
    b"rest",
    b"write 0 00",
    b"config 04",
    b"#",
    b"\t",
    b"operator",
    b"zed look 0",
    b"0" * 3000,
    b"#7 ",
]
# So many bytes a line may have, with its line feed (docs/LIVE.md). Now and then one has more.
MOST_LINE, LONG_LINE = 1 << 20, 10_000_000
ONE_LONG = 40_000


def without_tag(line: bytes) -> bytes:
    """A line as `serve` sends it on: without the tag before it, unless it is too long."""
    return line if len(line) >= MOST_LINE else line.removeprefix(b"#7 ")


def fuzzed(chance: random.Random, count: int, name: str) -> list[bytes]:
    """Random lines. The operator's stop nothing, and no user's resets what others look at."""
    lines: list[bytes] = []
    while len(lines) < count:
        line = b"".join(chance.choices(PIECES, k=chance.randrange(5)))
        if name == "operator" and without_tag(line).lstrip(b"!").startswith((b"stop", b"words", b"users")):
            continue
        lines.append(b"look 0" + b"9" * LONG_LINE if chance.randrange(ONE_LONG) == 0 else line)
    return lines


def connections(chance: random.Random, lines: Sequence[bytes], most: int) -> Iterator[tuple[Sequence[bytes], bytes]]:
    """The lines divided among connections, each with some bytes behind its last line feed. A line that is too long is the last
    of its connection."""
    at = 0
    while at < len(lines):
        some = lines[at : at + chance.randrange(1, most)]
        long = next((place for place, line in enumerate(some) if len(line) >= LONG_LINE), None)
        some = some if long is None else some[: long + 1]
        yield some, b"".join(chance.choices(PIECES, k=chance.randrange(3))) if long is None else b""
        at += len(some)
