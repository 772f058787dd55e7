"""What names mean, which are known where, and what abbreviations forbid."""
from __future__ import annotations

from collections.abc import Iterator
from enum import Enum
from typing import NamedTuple, Union

from . import core, tree
from .core import ArrayOf, ChannelOf, CoreArray, ElementKind
from .mistakes import Mistake, Place, Refused, expected, is_near, quoted
from .tree import DataType

MOST_MISTAKES, MOST_PARTS = 20, 100_000
# Words that write a text elsewhere, and what does it here.
WRITERS = frozenset("print printf println puts write writeln echo cout".split())
SENT_TEXT = 'A PROC sends a text: out.string ("hi", to), where to is a CHAN OF BYTE'
SENT_NUMBER = "A PROC sends a number in digits: out.int (n, to), where to is a CHAN OF BYTE"
LINK_NAMES = [f"link{it}.{way}" for way in ("out", "in") for it in range(4)]


class Access(Enum):
    """What may be done with a name, and what it is called."""

    CHANGING = "a variable"
    INDEX = "an index"
    VALUE = "a VAL"
    # It rests on VAL parameters, and may be a constant where the body is put in place.
    PARAMETER = "a VAL "
    # The index of a replicated PAR or ALT, which is a constant in each component.
    CONSTANT_INDEX = "an index "


class Constant(NamedTuple):
    type: DataType
    value: int


class Variable(NamedTuple):
    """A value, and where it is kept: in a variable or an element of an array."""

    type: DataType
    cell: core.Variable | core.Element
    access: Access


class Array(NamedTuple):
    """An array of variables, or a table. The length of a parameter `[]TYPE` is known in an instance alone. Of a part that begins
    at an offset which isn't known, or within a word, `array` is the whole."""

    type: ArrayOf
    array: CoreArray
    access: Access
    offset: core.Expression | None = None


class ChannelPlace(Enum):
    """Where a channel is that has neither a link nor a word."""

    # Its block of declarations goes on.
    OPEN = 0
    # It is a parameter of a body that is only checked.
    PARAMETER = 1
    WRONG = 2


class DeclaredChannel:
    """A channel, or an array of channels: where it is, or the number of its first variable."""

    __slots__ = ("name", "type", "place")

    def __init__(self, name: tree.Name, of: ChannelOf | ArrayOf, place: ChannelPlace | core.Link | int) -> None:
        self.name, self.type, self.place = name, of, place

    @property
    def length(self) -> int | None:
        return self.type.length if isinstance(self.type, ArrayOf) else 1

    @property
    def message(self) -> core.Type:
        channel = core.base_of(self.type)
        assert isinstance(channel, ChannelOf)
        return channel.message


class Channel(NamedTuple):
    """A channel, which may be an element of an array."""

    declared: DeclaredChannel
    subscript: core.Expression | None


class Formal(NamedTuple):
    """A parameter, and its type unless that is wrong."""

    name: tree.Name
    is_value: bool
    type: core.Type | None


class Procedure(NamedTuple):
    """A procedure, and the names that are known in its body."""

    source: tree.Procedure | tree.Function
    formals: list[Formal]
    scope: Scope
    is_before: bool


# None is the meaning of a name whose declaration is wrong: nothing more is said of it.
Meaning = Union[Constant, Variable, Array, Channel, DeclaredChannel, Procedure, core.Protocol, None]


class Known(NamedTuple):
    """A name, what it means, and how many abbreviations were in scope with it."""

    name: tree.Name
    meaning: Meaning
    rank: int

    @property
    def described(self) -> str:
        """How messages call it."""
        match self.meaning:
            case Constant():
                kind = "a constant"
            case Variable(access=access):
                kind = access.value.strip()
            case Array(access=access):
                kind = "an array" if access is Access.CHANGING else "a VAL array"
            case Channel(subscript=subscript):
                kind = "a channel" if subscript is None else "an element of an array of channels"
            case DeclaredChannel():
                kind = "an array of channels"
            case core.Protocol():
                kind = "a PROTOCOL"
            case Procedure(source=tree.Function()):
                kind = "a FUNCTION"
            case _:
                kind = "a PROC"
        line = self.name.place.line
        return f"{quoted(self.name.text)}, {kind}" + (f" (line {line})" if line else "")


class Scope:
    """Names that are declared together, and the scope around them. What a procedure knows doesn't grow any more."""

    __slots__ = ("names", "outer", "is_complete")

    def __init__(self, outer: Scope | None = None) -> None:
        self.names: dict[str, Known] = {}
        self.outer = outer
        self.is_complete = False

    def find(self, text: str) -> Known | None:
        """What a name means here."""
        scope: Scope | None = self
        while scope is not None:
            known = scope.names.get(text)
            if known is not None:
                return known
            scope = scope.outer
        return None

    def around(self, end: Scope | None = None) -> Iterator[Scope]:
        """This scope and those around it, up to an end."""
        scope: Scope | None = self
        while scope is not None and scope is not end:
            yield scope
            scope = scope.outer

    def nearest(self, text: str) -> Known | None:
        """The name that a mistyped one most likely is: the innermost that differs in small and capital letters, or by a slip, or else
        by two."""
        known = [it for scope in self.around() for it in scope.inner_first()]
        for slips in (0, 1, 2):
            for it in known:
                if it.name.text.lower() == text.lower() or is_near(text, it.name.text, slips):
                    return it
        return None

    def inner_first(self) -> list[Known]:
        """The names of this scope, the last one first; those without a declaration are in their order."""
        return [*self.names.values()] if self.outer is None else [*self.names.values()][::-1]


def link_scope() -> Scope:
    """The names that each text knows without a declaration."""
    scope = Scope()
    for number, text in enumerate(LINK_NAMES):
        scope.names[text] = Known(tree.Name(text, Place(0, 0)), Constant(DataType.INT, number), 0)
    return scope


# ---- abbreviations


class Region(NamedTuple):
    """Some of the bytes of the variables. Each variable has four."""

    start: int
    end: int

    def meets(self, other: Region) -> bool:
        return self.start < other.end and other.start < self.end


def region_of_array(array: CoreArray) -> Region:
    size = 1 if array.kind is ElementKind.BYTE else 4
    return Region(4 * array.first, 4 * array.first + size * array.length)


def region_of(cell: core.Variable | core.Element) -> Region:
    """The bytes in which a value may be: those of the whole array if the subscript isn't known."""
    if isinstance(cell, core.Variable):
        return Region(4 * cell.number, 4 * cell.number + 4)
    whole = region_of_array(cell.array)
    if isinstance(cell.subscript, core.Number) and cell.subscript.value < cell.array.length:
        size = 1 if cell.array.kind is ElementKind.BYTE else 4
        start = whole.start + size * cell.subscript.value
        return Region(start, start + size)
    return whole


class Mark(NamedTuple):
    """What an abbreviation forbids: a change of what it rests on, or another name for it."""

    region: Region
    is_frozen: bool
    name: tree.Name


# ---- what is noted


class Around(NamedTuple):
    """Where the process is whose names are found."""

    # In a body that is only checked, and that of which procedure.
    is_checked: bool = False
    procedure: str | None = None
    # In a body that is put in place: the line of the instance, or its place if the procedure is in no text of the user.
    instance: int | None = None
    prelude: Place | None = None
    is_replicated: bool = False
    # In a function, which neither sends nor receives.
    is_function: bool = False
    # Among the declarations before the text.
    is_before: bool = False

    @property
    def is_in_place(self) -> bool:
        return self.is_replicated or self.instance is not None or self.prelude is not None


class Notes:
    """The mistakes of a text, and how large it is."""

    def __init__(self) -> None:
        self.mistakes: list[Mistake] = []
        self.are_more = False
        self.around = Around()
        self.parts = 0

    def add(self, refused: Refused) -> None:
        """Notes a mistake: once, if it is in a body that is put in place."""
        if not isinstance(refused, Mistake):
            return
        refused.place = self.around.prelude or refused.place
        key = refused.place, refused.number
        if self.around.is_in_place and any((it.place, it.number) == key for it in self.mistakes):
            return
        refused.instance = self.around.instance
        self.mistakes.append(refused)
        self.mistakes.sort(key=lambda it: it.place)
        self.are_more |= len(self.mistakes) > MOST_MISTAKES
        del self.mistakes[MOST_MISTAKES:]

    def count(self, place: Place) -> None:
        """Counts a process, an operator or an operand."""
        self.parts += 1
        if self.parts == MOST_PARTS + 1:
            self.add(expected(place, 38, f"a program of at most {MOST_PARTS} parts", "more"))

    @property
    def has_room(self) -> bool:
        return self.parts <= MOST_PARTS
