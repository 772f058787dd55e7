"""A running farm whose domains have rooms, for those that try and measure these: what each user is answered by itself, notes
apart, and what the operator is told."""

import collections
import queue
import re
import time
from collections.abc import Callable
from typing import IO, NamedTuple

from support.live_lines import SECONDS, Lines, Live, rest_of

MIB = 1 << 20
# What the command `live` sets, so that memory is kept and given back as there.
ENVIRONMENT = {"MALLOC_TRIM_THRESHOLD_": "268435456", "MALLOC_TOP_PAD_": "1048576"}
OPERATOR = "!"


class Row(NamedTuple):
    """What the operator is told of a user by `!users`."""

    lines: int
    recorded: int
    limit: int
    words: list[str]
    used: int
    room: int
    records: int
    record_room: int


def row_of(words: list[str]) -> Row:
    """The row of the words behind a user's name: three numbers, words, and four numbers."""
    numbers, told, rooms = words[:3], words[3:-4], words[-4:]
    if not told or not all(it.isdecimal() for it in numbers + rooms) or any(it.isdecimal() for it in told):
        raise AssertionError(f"`!users` told {' '.join(words)}")
    lines, recorded, limit = map(int, numbers)
    used, room, records, record_room = map(int, rooms)
    return Row(lines, recorded, limit, told, used, room, records, record_room)


class Farm(Live):
    """A farm with a mailbox for each user and the operator. Notes are kept apart."""

    def __init__(self, plan: str, *more: str, begun: Callable[[], None] | None = None) -> None:
        names = re.findall(r'name = "([a-z0-9-]+)"', plan)
        self.users, self.counts = names, collections.Counter[str]()
        self.notes: list[str] = []
        self.boxes: dict[str, Lines] = {name: queue.Queue() for name in (*names, OPERATOR)}
        super().__init__(plan, more, ENVIRONMENT, begun)

    def listen(self, stream: IO[bytes], lines: Lines) -> None:
        for it in stream:
            text = it.decode()
            if lines is self.errors:
                lines.put(text)
            elif re.match(r"\S+ note ", text):
                self.notes.append(text)
            else:
                self.boxes[OPERATOR if text.startswith(OPERATOR) else text.split(" ")[0]].put(text)
        for box in self.boxes.values() if lines is self.told else (lines,):
            box.put(None)

    def say(self, text: str | bytes) -> None:
        """Sends lines, and counts those of each user."""
        lines = (text if isinstance(text, str) else text.decode()).splitlines()
        self.counts.update(OPERATOR if it.startswith(OPERATOR) else it.split(" ")[0] for it in lines)
        super().say(text)

    def hear(self, name: str = OPERATOR) -> str:
        """The next answer to this user, or to the operator."""
        line = self.boxes[name].get(timeout=SECONDS)
        assert line is not None, "the farm has ended"
        return line

    def end(self) -> tuple[int, list[str], list[str]]:
        """Ends the input: the status, what else was printed, and what standard error was told."""
        status = self.close()
        return status, [line for box in self.boxes.values() for line in rest_of(box)], rest_of(self.errors)

    def ask(self, line: str) -> str:
        self.say(line + "\n")
        return self.hear(OPERATOR if line.startswith(OPERATOR) else line.split(" ")[0])

    def ask_why(self, line: str) -> list[str]:
        told = [self.ask(line)]
        while not told[-1].endswith(" why end\n"):
            told.append(self.hear(line.split(" ")[0]))
        return told

    def drain(self, name: str) -> None:
        """Passes over what is on its way to a user: all that comes before the answer to one more line."""
        self.say(f"{name} rest\n")
        while not self.hear(name).startswith(f"{name} rest "):
            pass

    def row(self, name: str) -> Row:
        self.say("!users\n")
        rows = [self.hear().split() for _ in self.users]
        return next(row_of(it[2:]) for it in rows if it[1] == name)

    def memory(self) -> tuple[int, int]:
        """What the operator is told of the memory of the process, and of all rooms."""
        told = self.ask("!memory").split()
        return int(told[1]), int(told[2])

    def noted(self) -> list[str]:
        """The notes of this run so far, of which the first is waited for."""
        end = time.monotonic() + SECONDS
        while not self.notes and time.monotonic() < end:
            time.sleep(0.01)
        return [*self.notes]

    def resident(self) -> int:
        """The bytes of memory that the process has."""
        with open(f"/proc/{self.process.pid}/status", encoding="ascii") as it:
            return next(int(line.split()[1]) * 1024 for line in it if line.startswith("VmRSS:"))
