"""The verbs of a user. What a line is, and which words are right, is as at a terminal."""

from __future__ import annotations

import os
import tempfile
import time
from collections.abc import Callable, Iterable, Iterator
from typing import Any, TypeAlias

from nadzsumek.course import telling
from nadzsumek.mistakes.verbs import Wrong
from nadzsumek.serving.folder import OPERATOR
from nadzsumek.serving.loads import Hindered, check_load
from nadzsumek.serving.orders import lines_of, loading, text_of
from nadzsumek.serving.own_record import MOST_RESTARTS, VERB, found_in, lines_for, piece_in
from nadzsumek.serving.ports import wiring_of
from nadzsumek.serving.texts import quoted

from .failures import FarmError, NoProgram, Refused
from .results import Loaded, Watched, result_of

# How many bytes of code can be booted at once; longer code is poked first.
MOST_BOOT = 255
# How long a `collect` with a count waits, unless a time is given, and how long it rests between two looks.
COLLECT_SECONDS = 10
FIRST_PAUSE, MOST_PAUSE = 0.005, 0.2

# The file of a program's text, an example's name, or bytes of code.
Program: TypeAlias = str | os.PathLike[str] | bytes | bytearray | memoryview


class Question:
    """Lines that are asked one behind another, what all their answers say, and how many seconds each may take at least. Of a strict
    one a refused line is raised."""

    def __init__(
        self, lines: list[str], result: Callable[[list[list[str]]], Any] | None = None, strict: bool = True
    ) -> None:
        self.lines, self.result, self.strict = lines, result or (lambda answers: result_of(answers[-1])), strict
        self.seconds = telling.SECONDS if any(it.split(" ", 1)[0] in telling.VERBS for it in lines) else 0


def question(line: str) -> Question:
    """A question of one line. A word that is no word of the verb's is refused as at a terminal."""
    try:
        return Question(lines_of("", line))
    except Wrong as wrong:
        raise ValueError(f"{wrong}") from None


def load_question(host: int, program: Program) -> Question:
    """The lines that load a program: the text in a file, an example's name, or bytes of code."""
    code = bytes(program) if isinstance(program, (bytes, bytearray, memoryview)) else None
    if code is not None and len(code) <= MOST_BOOT:
        lines = lines_of("", f"boot {host:d} {code.hex()}") if code else []
    elif code is not None:
        with tempfile.NamedTemporaryFile("w", suffix=".s", encoding="ascii") as text:
            text.writelines(f"byte {it}\n" for it in code)
            text.flush()
            lines = loading("user", f"{host:d}", text.name)
    elif not isinstance(program, (bytes, bytearray, memoryview)):
        lines = loading("user", f"{host:d}", os.fspath(program))
    if not lines:
        raise ValueError("there is no code")
    boot = lines[-1].split(" ")[2]
    return Question(lines, lambda _: Loaded(len(boot) // 2, len(lines) - 1))


def loaded(host: int, program: Program) -> Question:
    """The same, and what is wrong with the program as a wrong value."""
    number(host, "a host", 0, 255)
    if not isinstance(program, (str, os.PathLike, bytes, bytearray, memoryview)):
        raise TypeError(f"a program is a file, an example's name or bytes of code, not {program!r}")
    try:
        return load_question(host, program)
    except Wrong as wrong:
        if isinstance(program, (str, os.PathLike)) and f"{wrong}".startswith("there is no file"):
            raise NoProgram(f"{wrong}") from None
        raise ValueError(f"{wrong}") from None


def refuse_lost(folder: str, name: str, host: int, program: Program) -> None:
    """Refuses a load of which nothing would be booted, as `connect -c` does: no host, nothing joined, or a node that takes no boot."""
    file = os.fspath(program) if isinstance(program, (str, os.PathLike)) else "its code"
    try:
        check_load(folder, name, wiring_of(folder, name), number(host, "a host", 0, 255), file)
    except Hindered as hindered:
        raise Refused(hindered.word, f"load {host} {file}", hindered.why, meaning=hindered.advice) from None
    except Wrong as wrong:
        raise ValueError(f"{wrong}") from None


def number(value: object, what: str, least: int = 0, most: int = 0xFFFFFFFF) -> int:
    """A value that is to be a number within bounds."""
    if not isinstance(value, int) or isinstance(value, bool):
        raise TypeError(f"{what} is a number, not {value!r}")
    if not least <= value <= most:
        raise ValueError(f"{what} is {least} to {most}, not {value}")
    return value


def some(content: Iterable[int]) -> bytes:
    """Bytes, one at least."""
    it = bytes(content)
    if not it:
        raise ValueError("there are no bytes")
    return it


def bytes_of_words(words: Iterable[int]) -> bytes:
    """Words of 32 bits, with a sign or without, as a node sends them: the lowest byte first."""
    return b"".join((number(it, "a word", -(1 << 31)) & 0xFFFFFFFF).to_bytes(4, "little") for it in words)


def words_of_bytes(content: bytes) -> tuple[int, ...]:
    """The words of 32 bits in bytes, with a sign."""
    if len(content) % 4:
        raise ValueError(f"{len(content)} bytes are no whole words: collect has them as bytes")
    return tuple(int.from_bytes(content[at : at + 4], "little", signed=True) for at in range(0, len(content), 4))


def path_of(host: int, program: Program) -> str | None:
    """The path of a program's text; none of bytes of code."""
    if isinstance(program, (bytes, bytearray, memoryview)):
        return None
    return text_of(f"{host:d}", os.fspath(program))


class Recording:
    """What is asked for a record, and what has come of it. If the machine restarts meanwhile it begins again."""

    def __init__(self) -> None:
        self.content, self.left = bytearray(), MOST_RESTARTS
        self.size: tuple[int, int] | None = None

    def questions(self) -> Iterator[Question]:
        """The questions, one after another; each is to be asked before the next is taken."""
        while self.left:
            self.left -= 1
            self.content, self.size = bytearray(), None
            yield Question([VERB], self.begin)
            if self.size is None:
                return
            for lines in lines_for(*self.size):
                yield Question(lines, self.add)
                if self.size is None:
                    break
            else:
                return

    def begin(self, answers: list[list[str]]) -> None:
        self.size = found_in(answers[0][0])

    def add(self, answers: list[list[str]]) -> None:
        for answer in answers:
            piece = piece_in(answer[0])
            if piece is None:
                self.size = None
            elif self.size is not None:
                # the last piece may go on further than the record did
                self.content += piece
                del self.content[self.size[1] :]


class Collecting:
    """What a `collect` has taken so far, and how long it goes on."""

    def __init__(self, count: int | None, seconds: float | None) -> None:
        self.held, self.count, self.pause = bytearray(), count, FIRST_PAUSE / 2
        limit = COLLECT_SECONDS if seconds is None else seconds
        self.end = time.monotonic() + limit if count is not None or seconds is not None else None

    def is_over(self) -> bool:
        """Whether enough has come, or the time is over."""
        if self.end is None or (self.count is not None and len(self.held) >= self.count):
            return True
        return time.monotonic() >= self.end

    def next_pause(self) -> float:
        """How many seconds to wait before the next look."""
        self.pause = min(self.pause * 2, MOST_PAUSE)
        return max(0, min(self.pause, (self.end or 0) - time.monotonic()))

    def __enter__(self) -> Collecting:
        return self

    def __exit__(self, _: object, error: object, __: object) -> None:
        if isinstance(error, FarmError):
            error.collected = bytes(self.held)


# What users have for themselves.
PLUMBING = (
    "await_answer",
    "connection",
    "dialogue",
    "do",
    "exchange",
    "has_closed",
    "hear_rest",
    "late",
    "read",
    "reader",
    "reading",
    "send_all",
    "stream",
    "turn",
    "writer",
)


class Verbs:
    """The verbs of a user. In `User` a call returns what is said here; in `AsyncUser` it is awaited. A word that isn't right for
    its verb is a ValueError, and nothing is sent. What the farm refuses is `Refused`."""

    name: str

    def do(self, asked: Question) -> Any:
        """Asks a question."""
        raise NotImplementedError

    def __dir__(self) -> list[str]:
        """The calls that are for scripts, and not those by which they are made."""
        return [it for it in {*object.__dir__(self)} if not it.startswith("_") and it not in PLUMBING]

    def ask(self, line: str) -> Any:
        """The lines of the answer to any line, also if it is refused."""
        if "\n" in line:
            raise ValueError("a line has no line feed")
        # nothing says which line about users is the last, but that the next answer follows
        more = ["!words"] if self.name == OPERATOR and line.strip() in ("users", "!users") else []
        return self.do(Question([line, *more], lambda answers: answers[0], strict=False))

    def config(self, message: Iterable[int]) -> Any:
        """Sends configuration bytes, and returns those that the switch answered."""
        return self.do(question(f"config {bytes(message).hex()}"))

    def join(self, one: int, other: int) -> Any:
        """Joins two ports both ways and makes them ready."""
        return self.do(
            Question(question(f"join {number(one, 'a port')} {number(other, 'a port')}").lines, lambda _: None)
        )

    def write(self, host: int, content: Iterable[int]) -> Any:
        """Gives a host bytes to send, and returns how many."""
        return self.do(question(f"write {number(host, 'a host')} {some(content).hex()}"))

    def send(self, host: int, text: str) -> Any:
        """Gives a host the bytes of a text in UTF-8, and returns how many."""
        return self.do(question(f"send {number(host, 'a host')} {quoted(text)}"))

    def send_words(self, host: int, *words: int) -> Any:
        """Gives a host words of 32 bits to send, and returns how many bytes it took."""
        return self.write(host, bytes_of_words(words))

    def boot(self, host: int, code: Iterable[int]) -> Any:
        """Boots the node that is joined with the host with this code, and returns how many bytes the host took."""
        return self.do(question(f"boot {number(host, 'a host')} {some(code).hex()}"))

    def poke(self, host: int, address: int, word: int) -> Any:
        """Stores a word of 32 bits in a booting node, through the host."""
        at, value = number(address, "an address"), number(word, "a word", -(1 << 31)) & 0xFFFFFFFF
        return self.do(Question(question(f"poke {number(host, 'a host')} {at:08x} {value:08x}").lines, lambda _: None))

    def peek(self, host: int, address: int) -> Any:
        """A word of 32 bits of a booting node, read through the host; none if no word came."""
        return self.do(question(f"peek {number(host, 'a host')} {number(address, 'an address'):08x}"))

    def reset(self, node: int) -> Any:
        """Resets a node; its memory stays."""
        return self.do(question(f"reset {number(node, 'a node')}"))

    def look(self, node: int) -> Any:
        """A node's `Look`."""
        return self.do(question(f"look {number(node, 'a node')}"))

    def rest(self) -> Any:
        """Whether something goes on in the user's machine, a `Rest`."""
        return self.do(question("rest"))

    def why(self, node: int | None = None) -> Any:
        """Why each node waits, has halted or runs on, or this one: a `Why`."""
        return self.do(question("why" if node is None else f"why {number(node, 'a node')}"))

    def exercises(self) -> Any:
        """The exercises of the user's class, each an `Exercise`."""
        return self.do(question("exercises"))

    def check(self, exercise: str, file: str | os.PathLike[str]) -> Any:
        """Tries the program in a file in an exercise, on a machine of its own: a `Checked`."""
        return self.do(question(f"check {exercise} {os.fspath(file)}"))

    def submit(self, exercise: str, file: str | os.PathLike[str]) -> Any:
        """The same, and hands it in: when this returns it is kept."""
        return self.do(question(f"submit {exercise} {os.fspath(file)}"))

    def submitted(self, which: int | None = None) -> Any:
        """What the user has handed in, the oldest first, each a `HandedIn`; or the one with this number, with its text."""
        return self.do(question("submitted" if which is None else f"submitted {number(which, 'a number')}"))

    def watch(self, last: Watched | None = None) -> Any:
        """What the machine does, a `Watched`: at once, or if the last one is given when it has changed since, or 50 seconds have passed.
        No other call of the connection is answered meanwhile, so give it one of its own."""
        return self.do(Question(["watch" if last is None else f"watch {last.number}"]))

    def restart(self) -> Any:
        """Makes the user's machine as it was opened, if it is his alone."""
        return self.do(question("restart"))
