"""One run of `live` after another: how it is started, spoken to, and started again if it ends by a fault."""

from __future__ import annotations

import asyncio
import collections
import ctypes
import os
import re
import signal
import time
from collections.abc import Callable

from .folder import Refused
from .holders import live_at
from .lines import Lines

# What is handed each line of a standard error.
Tell = Callable[[str], object]
# If `live` ends more often than so many times in so many seconds, it isn't started again.
MOST_STARTS = 5
WITHIN = 60
# By this call of Linux a process says by which signal it is to end when its parent has ended.
SYSTEM, END_WITH_PARENT = ctypes.CDLL(None), 1
# How long it is waited for another `live` at the records.
LOCK_SECONDS = 60
# The statuses of docs/LIVE.md that the program's words, the plan and the records have, and what it says of records that
# another has.
WORDS, PLAN, FILES = 2, 3, 6
TAKEN = "another farm records there"
# So many lines of its standard error are kept, and so many bytes of each line are read.
KEPT, MOST_TOLD = 20, 4096
# How long is waited before each next start if the program can't be started at all: until a descriptor, memory or the
# program itself is there again.
PAUSES = (1, 2, 4, 8, 16)
# What it says of a line whose user it doesn't know, since it had no memory to read the name.
NOBODYS = re.compile(r"error (\d+) user")


def whose(line: bytes) -> bytes:
    """What the lines of a speaker begin with."""
    return line[:1] if line.startswith(b"!") else line.split(b" ", 1)[0]


def how(status: int) -> str:
    """How a process ended."""
    if status < 0:
        return f"by signal {-status} ({signal.Signals(-status).name})"
    return f"with status {status}"


def end_with(parent: int) -> None:
    """Sees that this process, which is to become `live`, ends when `serve` does, however that ends."""
    SYSTEM.prctl(END_WITH_PARENT, signal.SIGKILL)
    if os.getppid() != parent:
        # serve has ended before
        os._exit(1)


def give_back() -> None:
    """Gives the system back what this process has freed, if the system's library can."""
    if hasattr(SYSTEM, "malloc_trim"):
        SYSTEM.malloc_trim(0)


class Live:
    """One run of `live`. Its lines are counted as it counts them, all together and each speaker's. `tell` is handed each line
    of its standard error."""

    def __init__(self, process: asyncio.subprocess.Process, tell: Tell) -> None:
        assert process.stdin and process.stdout and process.stderr, "all three are pipes"
        self.process, self.tell, self.count = process, tell, 0
        self.counts = collections.Counter[bytes]()
        self.input, self.complaints = process.stdin, process.stderr
        self.errors: collections.deque[str] = collections.deque(maxlen=KEPT)
        self.lines = Lines(process.stdout)
        self.kept: list[bytes] = []
        self.listening = asyncio.ensure_future(self.listen())

    @classmethod
    async def start(cls, words: list[str], tell: Tell) -> Live:
        """Starts it in a group of its own, so that a signal of the terminal reaches `serve` alone. It ends with `serve`, also
        while it replays records and reads no input. As Python does, it passes over the signals by which a write to a
        closed pipe or past a limit of files would end it: the write fails then, and that is told."""
        pipe, serve = asyncio.subprocess.PIPE, os.getpid()
        return cls(
            await asyncio.create_subprocess_exec(
                *words,
                stdin=pipe,
                stdout=pipe,
                stderr=pipe,
                start_new_session=True,
                restore_signals=False,
                preexec_fn=lambda: end_with(serve),
            ),
            tell,
        )

    async def listen(self) -> None:
        """Hands on what it says on standard error, and keeps the end of it."""
        held = b""
        while piece := await self.complaints.read(MOST_TOLD):
            *whole, held = (held + piece).split(b"\n")
            if len(held) > MOST_TOLD:
                whole, held = [*whole, held], b""
            for line in whole:
                self.hear(line)
        if held:
            self.hear(held)

    def hear(self, line: bytes) -> None:
        text = line.decode(errors="backslashreplace")
        self.errors.append(text)
        self.tell(text)

    def say(self, line: bytes) -> tuple[int, int]:
        """Sends a line, and returns its number in this run among those of who says it, and among all."""
        self.count += 1
        self.counts[whose(line)] += 1
        self.input.write(line)
        return self.counts[whose(line)], self.count

    def pass_over(self, line: bytes) -> None:
        """The line isn't among those of who said it, since `live` couldn't read whose it was."""
        self.counts[whose(line)] -= 1

    async def users(self) -> list[str]:
        """The names of the plan's users, in its order; none if the program has ended. What it says besides is kept, as the notes
        of a domain that rests already."""
        self.say(b"!users\n")
        self.say(b"!words\n")
        names, is_told = [], False
        while not is_told and (lines := await self.lines.some()):
            for line in lines:
                if line.startswith(b"!users "):
                    names.append(line.split(b" ")[1].decode())
                elif line.startswith(b"!words "):
                    is_told = True
                else:
                    self.kept.append(line)
        return names if is_told else []

    async def some(self) -> list[bytes]:
        """The lines that it says next, at least one; none at the end. Those that were kept come first."""
        if self.kept:
            lines, self.kept = self.kept, []
            return lines
        return await self.lines.some()

    async def end(self) -> int:
        """Its status, when it has ended."""
        status = await self.process.wait()
        await asyncio.wait({self.listening}, timeout=1)
        return status

    def kill(self) -> None:
        try:
            self.process.kill()
        except ProcessLookupError:
            pass


class Starts:
    """When `live` was started again, and whether it may be once more."""

    def __init__(self) -> None:
        self.times: collections.deque[float] = collections.deque()

    def another(self, has_started: bool = True) -> float | None:
        """How many seconds to wait before the next start; none if there were too many. It is longer if the program couldn't
        be started at all."""
        now = time.monotonic()
        while self.times and self.times[0] < now - WITHIN:
            self.times.popleft()
        count = len(self.times)
        if count >= MOST_STARTS:
            return None
        self.times.append(now)
        return 0.05 * (2**count - 1) if has_started else PAUSES[count]


async def begin(words: list[str], records: str, begun: Callable[[Live], object], tell: Tell) -> tuple[Live, list[str]]:
    """A run of `live` that answers, and its users. `begun` is told of each process, and `tell` of each line of its standard
    error. While another `live` has the records, it is waited."""
    last, has_told = time.monotonic() + LOCK_SECONDS, False
    while True:
        live = await Live.start(words, lambda text: None if TAKEN in text else tell(text))
        begun(live)
        users = await live.users()
        if users:
            return live, users
        status = await live.end()
        if status != FILES or not any(TAKEN in text for text in live.errors):
            raise Ended(status, live.errors)
        number = live_at(records)
        whose = f"another live (process {number})" if number else "another live"
        if time.monotonic() > last:
            raise Refused(f"{whose} has had {records} for {LOCK_SECONDS} seconds: end it, and start serve again")
        if not has_told:
            has_told = True
            tell(f"serve: {whose} still has {records}. It is waited until that ends, {LOCK_SECONDS} seconds at most")
        await asyncio.sleep(0.2)


class Ended(Exception):
    """`live` ended before it answered."""

    def __init__(self, status: int, errors: collections.deque[str]) -> None:
        super().__init__(status)
        self.status, self.errors = status, "\n".join(errors)

    def advice(self, plan: str, faults: str = "") -> str:
        """What to do about it. `faults` says where and why the plan is refused, if that is known."""
        if self.status == PLAN:
            return f"the plan is refused: {faults or f'./lab plan < {plan} says where and why'}"
        if self.status == WORDS:
            return "live refuses its words: see above, and ./live --help"
        return (
            f"live ended {how(self.status)} before it answered ({self.errors or 'it said nothing'}): see docs/LIVE.md"
        )
