"""An exercise: what a teacher writes of it, in one text. docs/guides/CLASS.md has the form."""

from __future__ import annotations

import os
import re
from typing import Any, NamedTuple

from ..mistakes.nearness import nearest
from .folder import Refused
from .plans import LIMIT, Machine
from .values import PIECE, Unfit, bytes_of, number_in

# The file of an exercise that is a folder, and how many bytes it may have.
FILE, MOST_BYTES = "exercise.txt", 1 << 20
# The student's program as it is loaded: by itself, or one of several in the student's folder. Its name ends as one of the
# languages wants it, occam or assembly, or without an ending, if the student may choose.
OWN, OWN_FOLDER, LANGUAGES = "student", "student/", {".occ": "occam", ".s": "assembly"}
# How many Steps a test may have, and has unless it says so.
MOST_STEPS, STEPS = 10_000_000, 100_000
MOST_POINTS = 100
# What the lines of an exercise begin with: those of its head, those of a test alone, and those that are done.
HEAD = ("exercise", "nodes", "hosts", "memory")
OF_TEST = ("points",)
DONE = {
    "join": "join PORT PORT",
    "config": "config HEX",
    "load": "load HOST FILE",
    "send": "send HOST VALUES",
    "reset": "reset NODE",
    "expect": "expect HOST VALUES",
    "state": "state NODE STATE",
}
WORDS = (*HEAD, "steps", "before", "test", *OF_TEST, *DONE)
STATES = ("booting", "running", "idle", "halted")


def form_of(words: list[str]) -> str:
    """The form in which values are written, if all have one."""
    forms = {
        "text" if it.startswith('"') else it for it in words if it.startswith('"') or it in ("word", "byte", "hex")
    }
    return forms.pop() if len(forms) == 1 else ""


def is_own(name: str) -> bool:
    """Whether a program is the student's."""
    return (
        name.startswith(OWN_FOLDER)
        or os.path.splitext(name)[0] == OWN
        and os.path.splitext(name)[1] in ("", *LANGUAGES)
    )


class Line(NamedTuple):
    """A line of a test: its number in the text, the line that is sent, if any, and what must come: of a host bytes, of a node a
    state. Bytes have the form in which they are written, `word`, `byte` or `text`; none if that is another, or several. And the line
    as it stands in the exercise.
    """

    number: int
    sent: str
    kind: str = ""
    wanted: bytes | str = b""
    form: str = ""
    text: str = ""


class Test(NamedTuple):
    """A test: its name, the lines that are done, how many Steps they may take, and how many points it gives."""

    name: str
    lines: tuple[Line, ...]
    steps: int
    points: int


class Exercise(NamedTuple):
    """An exercise: its title, the folder in which its own programs are, the machine, and the tests."""

    title: str
    folder: str
    machine: Machine
    tests: tuple[Test, ...]

    def files(self) -> list[str]:
        """The programs that its lines load."""
        loads = (it.sent.split(None, 2)[2] for test in self.tests for it in test.lines if it.sent.startswith("load "))
        return [*dict.fromkeys(loads)]

    def points(self) -> int:
        return sum(it.points for it in self.tests)


class Reader:
    """Reads the text of an exercise. All wrong lines are found, and refused together."""

    def __init__(self, path: str, text: str) -> None:
        self.path, self.number = path, 0
        self.wrong: list[str] = []
        self.head: dict[str, Any] = {}
        self.before: list[Line] = []
        self.tests: list[dict[str, Any]] = []
        self.part = self.in_head
        self.steps = STEPS
        for number, raw in enumerate(text.split("\n"), 1):
            line = raw.removesuffix("\r").strip()
            self.number = number
            if line and not line.startswith("#"):
                try:
                    self.read(*line.split(None, 1))
                except Unfit as unfit:
                    self.wrong.append(f"{path}, line {number}: {unfit}")

    def read(self, first: str, rest: str = "") -> None:
        if first not in WORDS:
            near = nearest(first.lower(), WORDS)
            raise Unfit(
                f"no line begins with {first!r}" + (f": is it {near}?" if near else f": there are {', '.join(WORDS)}")
            )
        if first == "before":
            if self.tests or rest:
                raise Unfit("before stands by itself, above all tests")
            self.part = self.in_before
        elif first == "test":
            if not rest:
                raise Unfit("a test wants a name after it, such as: test one word")
            if rest in [it["name"] for it in self.tests]:
                raise Unfit(f"there is a test {rest} already")
            self.tests.append({"name": rest, "lines": [], "steps": self.steps, "points": 1})
            self.part = self.in_test
        else:
            self.part(first, rest)

    def in_head(self, first: str, rest: str) -> None:
        """A line above the tests."""
        if first in DONE or first in OF_TEST:
            raise Unfit(f"{first} belongs below a line test or before")
        if first in self.head:
            raise Unfit(f"{first} is there already")
        if first == "exercise":
            if not rest:
                raise Unfit("exercise wants a title after it")
            self.head[first] = rest
        elif first == "steps":
            self.steps = self.head[first] = number_in(rest, range(1, MOST_STEPS + 1), "steps")
        else:
            self.head[first] = number_in(rest, range(1, 1 << 20), first)

    def in_before(self, first: str, rest: str) -> None:
        """A line that each test begins with."""
        if first not in DONE:
            raise Unfit(f"{first} belongs to the head of the exercise, or to a test")
        self.before.append(self.done(first, rest)._replace(text=f"{first} {rest}"))

    def in_test(self, first: str, rest: str) -> None:
        """A line of a test."""
        test = self.tests[-1]
        if first == "steps":
            test["steps"] = number_in(rest, range(1, MOST_STEPS + 1), "steps")
        elif first == "points":
            test["points"] = number_in(rest, range(1, MOST_POINTS + 1), "points")
        elif first in HEAD:
            raise Unfit(f"{first} belongs to the head of the exercise, above all tests")
        else:
            test["lines"].append(self.done(first, rest)._replace(text=f"{first} {rest}"))

    def done(self, first: str, rest: str) -> Line:
        """A line that is done in the machine."""
        words = PIECE.findall(rest)
        least = len(DONE[first].split()) - 1
        if len(words) < least or (len(words) > least and first not in ("load", "send", "expect", "state")):
            raise Unfit(f"{first} has another form: {DONE[first]}")
        if first == "config":
            bytes_of(["hex", *words])
            return Line(self.number, f"config {words[0]}")
        numbers = [
            number_in(it, range(256), "a number of a port, a host or a node")
            for it in words[: 2 if first == "join" else 1]
        ]
        if first == "join":
            return Line(self.number, f"join {numbers[0]} {numbers[1]}")
        if first == "load":
            return Line(self.number, f"load {numbers[0]} {self.file(rest.split(None, 1)[1])}")
        if first == "send":
            return Line(self.number, f"write {numbers[0]} {bytes_of(words[1:]).hex()}")
        if first == "expect":
            wanted = b"" if words[1:] == ["nothing"] else bytes_of(words[1:])
            return Line(self.number, f"collect {numbers[0]}", "bytes", wanted, form_of(words[1:]))
        if first == "state":
            if words[1] not in STATES or len(words) > (3 if words[1] == "halted" else 2):
                raise Unfit(f"a state is {', '.join(STATES)}, and a fault may be after halted")
            return Line(self.number, f"look {numbers[0]}", "state", " ".join(words[1:]))
        return Line(self.number, f"{first} {numbers[0]}")

    def file(self, name: str) -> str:
        """The name of a program. It must be the student's, or there beside the exercise."""
        if os.path.isabs(name) or ".." in name.split("/") or "/" in name.removeprefix(OWN_FOLDER):
            raise Unfit(f"{name} is in another folder: programs are beside the exercise, or {OWN} or {OWN_FOLDER}NAME")
        if not is_own(name) and not os.path.isfile(os.path.join(os.path.dirname(self.path), name)):
            raise Unfit(f"there is no file {name} beside the exercise. The student's program is {OWN}")
        return name

    def exercise(self) -> Exercise:
        """The exercise."""
        machine = Machine(
            self.head.get("nodes", 1), self.head.get("hosts", 1), self.head.get("memory", 4096), LIMIT[-1]
        )
        try:
            machine.check()
        except Refused as refused:
            self.wrong.append(f"{self.path}: {str(refused).removeprefix('--')}")
        for test in self.tests:
            if not any(it.kind for it in (*self.before, *test["lines"])):
                self.wrong.append(
                    f"{self.path}: the test {test['name']} expects nothing: give it a line expect or state"
                )
        if not self.tests and not self.wrong:
            self.wrong.append(f"{self.path}: there is no test: a line test NAME begins one")
        self.check_numbers(machine)
        if self.wrong:
            raise Refused("\n".join(self.wrong))
        tests = tuple(Test(it["name"], self.lines_in(it), it["steps"], it["points"]) for it in self.tests)
        title = self.head.get("exercise") or os.path.splitext(os.path.basename(self.path))[0]
        return Exercise(title, os.path.dirname(self.path), machine, tests)

    def lines_in(self, test: dict[str, Any]) -> tuple[Line, ...]:
        """The lines of a test. Where nothing is expected bytes are told in the one form that the test writes."""
        lines = (*self.before, *test["lines"])
        forms = {it.form for it in lines if it.kind == "bytes" and it.wanted}
        form = forms.pop() if len(forms) == 1 else ""
        return tuple(it if it.wanted or it.kind != "bytes" else it._replace(form=form) for it in lines)

    def check_numbers(self, machine: Machine) -> None:
        """Refuses ports, hosts and nodes that the machine hasn't got."""
        most = {
            "join": ("port", machine.ports()),
            "load": ("host", machine.hosts),
            "write": ("host", machine.hosts),
            "collect": ("host", machine.hosts),
            "look": ("node", machine.nodes),
            "reset": ("node", machine.nodes),
        }
        for line in [*self.before, *(it for test in self.tests for it in test["lines"])]:
            verb, *words = line.sent.split()
            what, count = most.get(verb, ("", 0))
            for word in words[: 2 if verb == "join" else 1] if what else ():
                if int(word) >= count:
                    self.wrong.append(
                        f"{self.path}, line {line.number}: there is no {what} {word}: the machine has {count}, "
                        f"counted from 0"
                    )


def exercise_in(place: str) -> Exercise:
    """The exercise in a file, or in a folder."""
    path = os.path.abspath(os.path.join(place, FILE) if os.path.isdir(place) else place)
    try:
        with open(path, "rb") as it:
            text = it.read(MOST_BYTES + 1)
    except FileNotFoundError:
        more = (
            f"the folder of an exercise has a file {FILE}"
            if os.path.isdir(place)
            else "give the file of an exercise, or its folder"
        )
        raise Refused(f"there is no file {path}: {more}") from None
    except OSError as error:
        raise Refused(f"the exercise {path} can't be read: {error.strerror}") from None
    if len(text) > MOST_BYTES:
        raise Refused(f"{path} has more than {MOST_BYTES} bytes, so it is no exercise")
    try:
        return Reader(path, text.decode("utf-8-sig")).exercise()
    except UnicodeDecodeError as error:
        line = text.count(b"\n", 0, error.start) + 1
        raise Refused(f"{path}, line {line}: the byte {text[error.start]:02x} isn't UTF-8") from None
