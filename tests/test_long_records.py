"""Runs of `live` that are longer than any bound in the code."""

import collections
import subprocess

from support.live_lines import CLOSE_SECONDS, PLAN, WAITS, WORD, live_call
from support.trials import LAB, put, run

LOOK = b"ann look 0\n"
BOOTING = b"ann look 0 booting overruns 0 0 0 0\n"
# So many lines wait at once at most: a domain has room for 1,024.
AT_ONCE = 512
# So many configuration bytes fit into a line.
MOST_BYTES = 500_000
SECONDS = 300


class Farm:
    """A farm whose answers are read as they are wanted."""

    def __init__(self, folder: str, *more: str) -> None:
        plan = put(f"{folder}/plan.toml", PLAN.replace("limit = 1000000\n", "limit = 1099511627776\n", 1))
        call = [*live_call(), "--room", "512M", "--record-room", "1G", *more, plan]
        self.process = subprocess.Popen(call, stdin=subprocess.PIPE, stdout=subprocess.PIPE)
        assert self.process.stdin and self.process.stdout
        self.given, self.told = self.process.stdin, self.process.stdout

    def __enter__(self) -> "Farm":
        return self

    def __exit__(self, *_: object) -> None:
        self.process.kill()
        self.process.wait()

    def say(self, text: bytes) -> None:
        self.given.write(text)
        self.given.flush()

    def ask(self, text: bytes, answer: bytes) -> None:
        self.say(text)
        assert self.told.read(len(answer)) == answer

    def ask_mixed(self, text: bytes, answers: "collections.Counter[bytes]") -> None:
        """Asks lines of several users, whose answers come in any order."""
        self.say(text)
        told = self.told.read(sum(len(it) * count for it, count in answers.items()))
        assert collections.Counter(told.splitlines(keepends=True)) == answers

    def ask_why(self) -> list[str]:
        """What ann is told of her domain's node. The first line says up to which event it was done again."""
        self.say(b"ann why\n")
        told = iter(self.told.readline, b"ann why end\n")
        return [it.decode().removeprefix("ann why ").removesuffix("\n") for it in told][1:]

    def end(self) -> None:
        """Ends the input. The farm compares all journals with the lists of its users then, and ends."""
        self.given.close()
        assert self.process.wait(timeout=CLOSE_SECONDS) == 0

    def recorded(self) -> int:
        """How many events ann's domain has recorded, as the operator is told."""
        self.say(b"!users\n")
        return int([self.told.readline() for _ in range(3)][0].split()[3])


def lab(*words: str, given: bytes = b"") -> str:
    status, out, errors = run([LAB, *words], given, seconds=SECONDS)
    assert (status, errors) == (0, b"")
    return out.decode()


def lines_behind_the_head(path: str) -> tuple[int, list[str]]:
    """How many lines of events a record has, and its last two. Each is one event."""
    count, last, is_head = 0, ["", ""], True
    with open(path, encoding="utf-8") as lines:
        for line in lines:
            if not is_head:
                assert line.startswith("0 ") and line.endswith("\n")
                count, last = count + 1, [last[1], line]
            is_head = is_head and line != "---\n"
    return count, last


def record(farm: Farm, lines: int, events: int) -> None:
    """Has looks and configuration bytes recorded, and at last how the switch answers: output 7 is driven by input 0."""
    for begun in range(0, lines, AT_ONCE):
        count = min(AT_ONCE, lines - begun)
        farm.ask(LOOK * count, BOOTING * count)
    left = events - lines - 5
    while left > 0:
        count = min(MOST_BYTES, left)
        farm.ask(b"ann config " + b"03" * count + b"\n", b"ann config -\n")
        left -= count
    farm.ask(b"ann config 0000070207\n", b"ann config 80\n")


def check_whole(folder: str, events: int) -> None:
    """The record has all events, and each that reads it comes to its end."""
    path = f"{folder}/records/ann.replay"
    count, last = lines_behind_the_head(path)
    assert (count, last) == (events, ["0 config 02 @0 = nothing\n", "0 config 07 @0 = 80\n"])
    assert lab("why", path).partition("\n")[0] == f"after {events} events"
    assert (
        lab("debug", path, given=b"quit\n").partition("\n")[0]
        == f"after {events} of {events} events: config 07 @0 = 80"
    )
    assert lab("rows", path).endswith(f": {events} rows, 0 wrong\n")


def test_long_records(folder: str, lines: int = 110_000, events: int = 1_050_000) -> None:
    """A record is recorded to its end, over a kill too, is done again by --resume, and `lab why`, `lab debug` and `lab rows` read it
    to its end."""
    more = ("--record", f"{folder}/records")
    with Farm(folder, *more) as farm:
        record(farm, lines, events)
        # what was answered is recorded, though the farm is killed
        farm.process.kill()
        farm.process.wait()
    check_whole(folder, events)
    with Farm(folder, *more, "--resume") as farm:
        # it is answered when all is replayed, and no event is recorded by it
        farm.ask(b"ann rest\n", b"ann rest quiet\n")
        assert farm.recorded() == events
        farm.ask(b"ann config 0207\n", b"ann config 80\n")
        assert farm.recorded() == events + 2
        farm.end()
    check_whole(folder, events + 2)


def test_long_runs(count: int | None, folder: str) -> None:
    """Of many lines of two users each is done in the own domain, whose node waits meanwhile as it did before them."""
    with Farm(folder) as farm:
        lines = "".join(f"ann {it}\n" for it in [*WORD, "write 0 05"])
        farm.ask(lines.encode(), b"ann config -\nann boot 0 10\nann write 0 1\n")
        # ann's output 7 is driven by input 0, and bob's output 0 by none: who is answered for the other is told otherwise
        answers = collections.Counter({b"ann config 80\n": AT_ONCE, b"bob config 00\n": AT_ONCE})
        for _ in range(-(-(count or 2_100_000) // (2 * AT_ONCE))):
            farm.ask_mixed(b"ann config 0207\nbob config 0200\n" * AT_ONCE, answers)
        farm.ask(b"ann rest\nann look 0\n", b"ann rest quiet\nann look 0 idle overruns 0 0 0 0\n")
        assert farm.ask_why() == WAITS
        farm.ask(b"bob look 0\n", b"bob look 0 booting overruns 0 0 0 0\n")
        farm.end()
