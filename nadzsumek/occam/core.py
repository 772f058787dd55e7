"""The core: what is left of a program once names and types are gone. Variables are numbers, and each is a word."""
from __future__ import annotations

from collections.abc import Callable, Iterable
from enum import Enum
from typing import NamedTuple, Union

from .mistakes import Place
from .tree import DataType

WORD = 0xFFFF_FFFF
LEAST = 0x8000_0000


class ElementKind(Enum):
    """How the elements of an array are kept: four BYTE in a word, and an INT or a BOOL in one."""

    BYTE = "Byte"
    WORD = "Word"


class CoreArray(NamedTuple):
    """An array of variables: that of its first word, and how many elements it has."""

    first: int
    length: int
    kind: ElementKind


# ---- expressions, whose values are words of 32 bits


class Number(NamedTuple):
    value: int


class Variable(NamedTuple):
    number: int


class Element:
    __slots__ = __match_args__ = ("array", "subscript")

    def __init__(self, array: CoreArray, subscript: Expression) -> None:
        self.array, self.subscript = array, subscript


class One:
    """An operation on one value: `Negate`, `Minus`, `Complement` or `Not`."""

    __slots__ = __match_args__ = ("operation", "operand")

    def __init__(self, operation: str, operand: Expression) -> None:
        self.operation, self.operand = operation, operand


class Two:
    """An operation on two values, by the name that it has in OPERATIONS."""

    __slots__ = __match_args__ = ("operation", "left", "right")

    def __init__(self, operation: str, left: Expression, right: Expression) -> None:
        self.operation, self.left, self.right = operation, left, right


class And:
    __slots__ = __match_args__ = ("left", "right")

    def __init__(self, left: Expression, right: Expression) -> None:
        self.left, self.right = left, right


class Or:
    __slots__ = __match_args__ = ("left", "right")

    def __init__(self, left: Expression, right: Expression) -> None:
        self.left, self.right = left, right


class Below:
    """The value, which is an error unless it is below the bound."""

    __slots__ = __match_args__ = ("bound", "operand")

    def __init__(self, bound: int, operand: Expression) -> None:
        self.bound, self.operand = bound, operand


Expression = Union[Number, Variable, Element, One, Two, And, Or, Below]

OPERATIONS = {
    "+": "Add",
    "-": "Subtract",
    "*": "Multiply",
    "/": "Divide",
    "\\": "Remainder",
    "REM": "Remainder",
    "PLUS": "Plus",
    "MINUS": "Minus",
    "TIMES": "Times",
    "/\\": "BitAnd",
    "\\/": "BitOr",
    "><": "BitXor",
    "<<": "ShiftLeft",
    ">>": "ShiftRight",
    "=": "Equal",
    "<>": "NotEqual",
    "<": "Less",
    ">": "Greater",
    "<=": "AtMost",
    ">=": "AtLeast",
}
MONADIC_OPERATIONS = {"-": "Negate", "MINUS": "Minus", "~": "Complement", "NOT": "Not"}
ORDERING = frozenset(("Less", "Greater", "AtMost", "AtLeast"))
COMPARISONS = ORDERING | {"Equal", "NotEqual"}


# ---- channels


class Link(NamedTuple):
    """0 to 3 are the outputs of links 0 to 3, and 4 to 7 their inputs."""

    number: int


class Inside(NamedTuple):
    """The channel that a variable is."""

    variable: int


Channel = Union[Link, Inside, Element]


class Guard:
    """What a choice waits for: an input by the channel, or nothing if it has none. It is open unless the condition is 0."""

    __slots__ = __match_args__ = ("condition", "channel")

    def __init__(self, condition: Expression, channel: Channel | None) -> None:
        self.condition, self.channel = condition, channel


# ---- processes


class Skip:
    __slots__ = ()


class Stop:
    __slots__ = ()


class Line:
    """The process, which begins at this place of the text."""

    __slots__ = __match_args__ = ("place", "process")

    def __init__(self, place: Place, process: Process) -> None:
        self.place, self.process = place, process


class Assign:
    __slots__ = __match_args__ = ("variable", "value")

    def __init__(self, variable: int, value: Expression) -> None:
        self.variable, self.value = variable, value


class AssignElement:
    __slots__ = __match_args__ = ("array", "subscript", "value")

    def __init__(self, array: CoreArray, subscript: Expression, value: Expression) -> None:
        self.array, self.subscript, self.value = array, subscript, value


class Copy:
    __slots__ = __match_args__ = ("target", "source")

    def __init__(self, target: CoreArray, source: CoreArray) -> None:
        self.target, self.source = target, source


class Channels:
    """The variables from the first on become channels."""

    __slots__ = __match_args__ = ("first", "words")

    def __init__(self, first: int, words: int) -> None:
        self.first, self.words = first, words


class Input:
    __slots__ = __match_args__ = ("channel", "kind", "variable")

    def __init__(self, channel: Channel, kind: ElementKind, variable: int) -> None:
        self.channel, self.kind, self.variable = channel, kind, variable


class InputElement:
    __slots__ = __match_args__ = ("channel", "array", "subscript")

    def __init__(self, channel: Channel, array: CoreArray, subscript: Expression) -> None:
        self.channel, self.array, self.subscript = channel, array, subscript


class InputArray:
    __slots__ = __match_args__ = ("channel", "array")

    def __init__(self, channel: Channel, array: CoreArray) -> None:
        self.channel, self.array = channel, array


class Output:
    __slots__ = __match_args__ = ("channel", "kind", "value")

    def __init__(self, channel: Channel, kind: ElementKind, value: Expression) -> None:
        self.channel, self.kind, self.value = channel, kind, value


class OutputArray:
    __slots__ = __match_args__ = ("channel", "array")

    def __init__(self, channel: Channel, array: CoreArray) -> None:
        self.channel, self.array = channel, array


class Sequence:
    __slots__ = __match_args__ = ("first", "second")

    def __init__(self, first: Process, second: Process) -> None:
        self.first, self.second = first, second


class Parallel:
    __slots__ = __match_args__ = ("first", "others")

    def __init__(self, first: Process, others: Process) -> None:
        self.first, self.others = first, others


class Choose:
    """The process if its guard is ready first, and else what the others do."""

    __slots__ = __match_args__ = ("guard", "process", "others")

    def __init__(self, guard: Guard, process: Process, others: Process) -> None:
        self.guard, self.process, self.others = guard, process, others


class If:
    __slots__ = __match_args__ = ("condition", "process", "others")

    def __init__(self, condition: Expression, process: Process, others: Process) -> None:
        self.condition, self.process, self.others = condition, process, others


class While:
    __slots__ = __match_args__ = ("condition", "process")

    def __init__(self, condition: Expression, process: Process) -> None:
        self.condition, self.process = condition, process


class Repeat:
    """The variable is the index, and the next one counts the turns that are left."""

    __slots__ = __match_args__ = ("variable", "base", "turns", "process")

    def __init__(self, variable: int, base: Expression, turns: Expression, process: Process) -> None:
        self.variable, self.base, self.turns, self.process = variable, base, turns, process


Process = Union[
    Skip,
    Stop,
    Line,
    Assign,
    AssignElement,
    Copy,
    Channels,
    Input,
    InputElement,
    InputArray,
    Output,
    OutputArray,
    Sequence,
    Parallel,
    Choose,
    If,
    While,
    Repeat,
]


def in_sequence(row: list[Process]) -> Process:
    """One process after the other: the row is halved, and each half again, so that a long one isn't deep."""
    if len(row) < 2:
        return row[0] if row else Skip()
    half = len(row) // 2
    return Sequence(in_sequence(row[:half]), in_sequence(row[half:]))


def in_parallel(row: list[Process]) -> Process:
    """All at the same time."""
    if not row:
        return Skip()
    process = row[-1]
    for first in reversed(row[:-1]):
        process = Parallel(first, process)
    return process


def is_number(expression: Expression, value: int) -> bool:
    """Whether an expression is this constant."""
    return isinstance(expression, Number) and expression.value == value


def either(conditions: list[Expression]) -> Expression:
    """Whether one of the conditions isn't 0: the row is halved, and each half again, so that a long one isn't deep."""
    half = len(conditions) // 2
    return Or(either(conditions[:half]), either(conditions[half:])) if half else conditions[0]


# Operations on constants, with their operands, and what they give; as many as were met, each once.
Folds = dict[tuple[str, int] | tuple[str, int, int], int]
# What makes a choice of the rest of its IF.
Arm = Callable[[Process], Process]


def otherwise(process: Process) -> Process:
    """The last choice of an IF."""
    return If(Number(1), process, Stop())


def alternation_of(row: Iterable[tuple[Guard, Process]]) -> Process:
    """The process of the first guard that is ready, and an error if none is open."""
    chain: Process = Stop()
    for guard, process in reversed(list(row)):
        chain = Choose(guard, process, chain)
    return chain


# ---- programs


class ArrayOf:
    """So many elements of a type; None where any number is meant, or it isn't known."""

    __slots__ = __match_args__ = ("length", "element")

    def __init__(self, length: int | None, element: Type) -> None:
        self.length, self.element = length, element

    def __eq__(self, other: object) -> bool:
        return isinstance(other, ArrayOf) and (self.length, self.element) == (other.length, other.element)

    def __str__(self) -> str:
        return f"[{'' if self.length is None else self.length}]{self.element}"


class ChannelOf:
    __slots__ = __match_args__ = ("message",)

    def __init__(self, message: Type) -> None:
        self.message = message

    def __eq__(self, other: object) -> bool:
        return isinstance(other, ChannelOf) and self.message == other.message

    def __str__(self) -> str:
        return f"CHAN OF {self.message}"


class CountedOf:
    """A count, and as many elements of an array, which are messages of their own."""

    __slots__ = __match_args__ = ("number", "array")

    def __init__(self, number: Type, array: Type) -> None:
        self.number, self.array = number, array

    def __eq__(self, other: object) -> bool:
        return isinstance(other, CountedOf) and (self.number, self.array) == (other.number, other.array)

    def __str__(self) -> str:
        return f"{self.number}::{self.array}"


# For each tag its number, and the parts after it.
Tags = dict[str, tuple[int, tuple["Type", ...]]]


class Protocol:
    """The parts of a message, or its tags. ANY has neither."""

    __slots__ = ("name", "parts", "tags")

    def __init__(self, name: str, parts: tuple[Type, ...] = (), tags: Tags | None = None) -> None:
        self.name, self.parts, self.tags = name, parts, tags

    def __str__(self) -> str:
        return self.name


ANY = Protocol("ANY")
Type = Union[DataType, ArrayOf, ChannelOf, CountedOf, Protocol]


class Role(Enum):
    """What words are declared for, besides variables and channels."""

    PLAIN = "Plain"
    INDEX = "Index"
    TABLE = "Table"


class Declaration:
    """What has words of its own, from the first on. What only the core has, and a table without VAL, has no name; what is in a
    PROC of the prelude has no place, but the line of its instance."""

    __slots__ = ("name", "type", "role", "first", "place", "line")

    def __init__(self, name: str | None, of: Type, role: Role, first: int, place: Place | None, line: int) -> None:
        self.name, self.type, self.role, self.first, self.place, self.line = name, of, role, first, place, line

    @property
    def words(self) -> int:
        return 2 if self.role is Role.INDEX else words_of(self.type)


class LinkChannel(NamedTuple):
    """A channel that is placed at a link."""

    number: int
    name: str
    line: int
    type: ChannelOf


class CoreProgram(NamedTuple):
    """The core of a program, what declares its variables, its channels at links, and the words of its tables, which are the first of
    the variables. `folds` are the operations on constants that were evaluated."""

    process: Process
    declarations: list[Declaration]
    links: list[LinkChannel]
    tables: list[int]
    folds: Folds

    @property
    def words(self) -> int:
        """How many words the variables take, those of tables among them."""
        return max((it.first + it.words for it in self.declarations), default=0)


def base_of(of: Type) -> Type:
    """What the elements of an array are, and of an array of arrays those of the inner ones."""
    while isinstance(of, ArrayOf):
        of = of.element
    return of


def size_of(of: Type) -> int:
    """How many elements an array has in all; 1 for each length that isn't known."""
    return (of.length or 1) * size_of(of.element) if isinstance(of, ArrayOf) else 1


def flat(of: Type) -> Type:
    """An array of arrays as one array."""
    return ArrayOf(size_of(of), base_of(of)) if isinstance(of, ArrayOf) else of


def kind_of(data_type: Type) -> ElementKind:
    """How the elements of an array of a type are kept."""
    return ElementKind.BYTE if base_of(data_type) is DataType.BYTE else ElementKind.WORD


def words_of(of: Type) -> int:
    """How many words a variable of a type takes."""
    is_packed = isinstance(of, ArrayOf) and base_of(of) is DataType.BYTE
    return (size_of(of) + 3) // 4 if is_packed else size_of(of)
