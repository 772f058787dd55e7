"""What the farm answers, as values of Python, and what it refuses."""

from __future__ import annotations

import dataclasses
import enum
import re
from collections.abc import Callable
from typing import Any

from nadzsumek.course import telling
from nadzsumek.serving.answers import bytes_taken, meaning, refusal, shortfall
from nadzsumek.serving.ports import Wiring, drivers_in

from .failures import NotAnswered, Refused

# So begins what `serve` says in the place of an answer.
UNANSWERED = "error: "


class State(enum.Enum):
    """What a node does."""

    BOOTING = "booting"
    RUNNING = "running"
    IDLE = "idle"
    HALTED = "halted"


class Rest(enum.Enum):
    """Whether something goes on in a user's machine. In one that is FULL nothing does, as its room is used up."""

    QUIET = "quiet"
    BUSY = "busy"
    FULL = "full"


@dataclasses.dataclass(frozen=True)
class Look:
    """A node: its state, the fault that halted it (1 to 5), for fault 2 the number of the operation, and how many bytes each of
    its four links has dropped."""

    state: State
    fault: int | None
    operation: int | None
    overruns: tuple[int, ...]


@dataclasses.dataclass(frozen=True)
class Why:
    """Why nodes wait, have halted or run on: after how many events of the domain, and one line of text after another."""

    events: int
    lines: tuple[str, ...]

    def __str__(self) -> str:
        return "\n".join(self.lines)


@dataclasses.dataclass(frozen=True)
class Watched:
    """What a machine does: a number that changes with it, how many lines its user has sent, the events that are recorded and how many
    may be, the bytes of the rooms that are used and that there are, and of each port the port that drives it, none if none does.
    """

    number: int
    lines: int
    events: int
    limit: int
    rest: Rest
    is_replayed: bool
    used: int | None
    room: int | None
    records_used: int | None
    records_room: int | None
    drivers: dict[int, int | None] = dataclasses.field(hash=False)


@dataclasses.dataclass(frozen=True)
class Used:
    """What the operator is told of a user: how many lines were answered, the events that are recorded and how many may be, and the words
    that say what the machine does."""

    name: str
    lines: int
    events: int
    limit: int
    now: tuple[str, ...]

    @property
    def rest(self) -> Rest:
        return Rest.FULL if "rests" in self.now else Rest.BUSY if "busy" in self.now else Rest.QUIET


@dataclasses.dataclass(frozen=True)
class HostPlace:
    """A host of a machine, and its port."""

    number: int
    port: int


@dataclasses.dataclass(frozen=True)
class NodePlace:
    """A node of a machine, and the ports of its four links, none for one that isn't wired."""

    number: int
    links: tuple[int | None, ...]


@dataclasses.dataclass(frozen=True)
class Machine:
    """A user's machine: its nodes, and the user's own hosts by their numbers."""

    nodes: tuple[NodePlace, ...]
    hosts: dict[int, HostPlace] = dataclasses.field(hash=False)


@dataclasses.dataclass(frozen=True)
class Loaded:
    """A program that was booted: how many bytes the last boot had, and how many words were poked before it."""

    boot: int
    pokes: int


@dataclasses.dataclass(frozen=True)
class Note:
    """What a user hears besides the answers to lines. If his machine rests, `used` and `room` are the bytes of its room, or of
    that of its records, that are used and that there are."""

    text: str
    used: int | None = None
    room: int | None = None


@dataclasses.dataclass(frozen=True)
class Tested:
    """What came of a test of an exercise: `ok`, `wrong` or `too long`; what was wrong, the lines of the exercise that were sent last
    before it, and why the nodes did no more."""

    name: str
    result: str
    remark: str
    sent: tuple[str, ...]
    why: tuple[str, ...]


@dataclasses.dataclass(frozen=True)
class Checked:
    """A program that was tried in an exercise: its points of those that there are, and each test; none if it can't be tried, and
    `remark` says why. Of one that was handed in its number, the time in seconds since 1970, and the SHA-256 of its text.
    """

    exercise: str
    title: str
    points: int
    of: int
    tests: tuple[Tested, ...]
    remark: str
    number: int | None = None
    at: float | None = None
    hash: str | None = None

    def __str__(self) -> str:
        return "\n".join(telling.of_tests(plain(self)))


@dataclasses.dataclass(frozen=True)
class HandedIn:
    """A program that was handed in; with its text if that was asked for."""

    number: int
    exercise: str
    at: float
    kind: str
    hash: str
    points: int
    of: int
    remark: str
    text: str | None = None


@dataclasses.dataclass(frozen=True)
class Exercise:
    """An exercise of the class: what it asks, the names of its tests, when it closes, if it does, and what was handed in last."""

    name: str
    title: str
    task: str
    tests: tuple[str, ...]
    closes: float | None
    closed: bool
    submitted: HandedIn | None


def note_of(text: str) -> Note:
    """A note as it came: `note rests USED ROOM` of the user's machine or another form of it, or `note: TEXT` of the farm."""
    rests = re.fullmatch(r"note rests (?:records )?(\d+) (\d+)", text)
    return Note(text, int(rests[1]), int(rests[2])) if rests else Note(text)


def check(line: str, answer: str) -> None:
    """Raises what an answer refuses."""
    if answer.startswith(UNANSWERED):
        raise NotAnswered(line, answer.removeprefix(UNANSWERED))
    word = refusal(line, answer)
    if word:
        number = re.fullmatch(r"(?:! )?error (\d+) \w+", answer)
        raise Refused(
            word,
            line,
            answer,
            int(number[1]) if number else None,
            bytes_taken(answer) if word == "hostfull" else None,
            meaning(answer) or shortfall(line, answer),
        )


def look_of(words: list[str]) -> Look:
    """A node of the words behind `look NODE`."""
    state, more = State(words[0]), words[1 : words.index("overruns")]
    return Look(
        state,
        int(more[0]) if more else None,
        int(more[1], 16) if more[1:] else None,
        tuple(int(it) for it in words[words.index("overruns") + 1 :]),
    )


def why_of(answers: list[str]) -> Why:
    """The text of the lines of an answer to `why`."""
    first, *lines = [it.removeprefix("why ") for it in answers]
    return Why(int(first.split()[1]), tuple(lines[:-1]))


def tested_of(told: dict[str, Any]) -> Tested:
    return Tested(told["name"], told["result"], told["remark"], (*told["sent"],), (*told["why"],))


def checked_of(told: dict[str, Any]) -> Checked:
    """A program that was tried, of the object in an answer."""
    fields: dict[str, Any] = {**told, "tests": tuple(tested_of(it) for it in told["tests"])}
    return Checked(**fields)


def handed_in_of(told: dict[str, Any]) -> tuple[HandedIn, ...]:
    return tuple(HandedIn(**it, text=told.get("text")) for it in told["submissions"])


def exercise_of(told: dict[str, Any]) -> Exercise:
    last = told["submitted"]
    fields: dict[str, Any] = {**told, "tests": (*told["tests"],), "submitted": HandedIn(**last) if last else None}
    return Exercise(**fields)


# What the object in an answer about exercises says.
OF_COURSE: dict[str, Callable[[dict[str, Any]], object]] = {
    "exercises": lambda told: tuple(exercise_of(it) for it in told["exercises"]),
    "check": checked_of,
    "submit": checked_of,
    "submitted": handed_in_of,
}


def watched_of(words: list[str]) -> Watched:
    """What `watch` tells: its number, what the operator is told of the user, and the ports."""
    at = words.index("ports")
    number, lines, events, limit, *more = words[1:at]
    rooms: list[int | None] = [int(it) for it in more if it.isdigit()]
    used, room, records_used, records_room = rooms if len(rooms) == 4 else [None, None, None, None]
    rest = Rest.FULL if "rests" in more else Rest.BUSY if "busy" in more else Rest.QUIET
    counts = int(number), int(lines), int(events), int(limit)
    drivers = drivers_in(" ".join(words[at:])) or {}
    return Watched(*counts, rest, "replaying" in more, used, room, records_used, records_room, drivers)


def used_of(answer: str) -> Used:
    """A line of the answer to the operator's `users`."""
    _, name, lines, events, limit, *now = answer.split(" ")
    return Used(name, int(lines), int(events), int(limit), tuple(it for it in now if not it.isdigit()))


def machine_of(wiring: Wiring) -> Machine:
    """A machine as its plan has it."""
    nodes = (
        NodePlace(number, tuple(None if port < 0 else port for port in links))
        for number, links in enumerate(wiring.nodes)
    )
    return Machine((*nodes,), {number: HostPlace(number, port) for number, port in wiring.hosts.items()})


def config_of(words: list[str]) -> bytes:
    return bytes.fromhex("".join(it for it in words if it != "-"))


# What the words behind a verb, or behind its host or node, say.
OF_WORDS: dict[str, Callable[[list[str]], object]] = {
    "config": lambda words: config_of(words[1:]),
    "write": lambda words: int(words[2]),
    "boot": lambda words: int(words[2]),
    "poke": lambda words: int(words[2]),
    "peek": lambda words: None if words[2] == "-" else int(words[2], 16),
    "collect": lambda words: b"" if words[2] == "-" else bytes.fromhex(words[2]),
    "reset": lambda words: None,
    "look": lambda words: look_of(words[2:]),
    "rest": lambda words: Rest(words[1]),
    "restart": lambda words: None,
    "watch": lambda words: watched_of(words),
}


def result_of(answers: list[str]) -> Any:
    """The value of the lines of an answer that refuses nothing; none for verbs of which no value is known."""
    if found := telling.read(answers[0]):
        return OF_COURSE[found[0]](found[1])
    words = answers[0].split(" ")
    if words[0] == "why":
        return why_of(answers)
    return OF_WORDS[words[0]](words) if words[0] in OF_WORDS else None


def plain(value: Any) -> Any:
    """A value as JSON has it: bytes by hexadecimal digits."""
    if dataclasses.is_dataclass(value):
        return {name: plain(it) for name, it in vars(value).items()}
    if isinstance(value, enum.Enum):
        return value.value
    if isinstance(value, tuple):
        return [plain(it) for it in value]
    return value.hex() if isinstance(value, bytes) else value
