"""What a text says, as a tree."""
from __future__ import annotations


from enum import Enum
from typing import NamedTuple, Union

from .mistakes import Place


class DataType(Enum):
    """A type of values."""

    INT = "INT"
    BYTE = "BYTE"
    BOOL = "BOOL"

    def __str__(self) -> str:
        return self.value


# ---- expressions


class Name(NamedTuple):
    text: str
    place: Place


class Literal(NamedTuple):
    """A number, a character, `TRUE` or `FALSE`."""

    type: DataType
    value: int
    place: Place


class Element:
    """`name[subscript][subscript]`"""

    __slots__ = __match_args__ = ("name", "subscripts")

    def __init__(self, name: Name, subscripts: list[Expression]) -> None:
        self.name, self.subscripts = name, subscripts

    @property
    def place(self) -> Place:
        return self.name.place


class Slice:
    """`[original FROM base FOR count]`"""

    __slots__ = __match_args__ = ("place", "original", "base", "length")

    def __init__(self, place: Place, original: Target, base: Expression, length: Expression) -> None:
        self.place, self.original, self.base, self.length = place, original, base, length

    @property
    def name(self) -> Name:
        return self.original if isinstance(self.original, Name) else self.original.name


class Size:
    """`SIZE name`, or of a part of an array"""

    __slots__ = __match_args__ = ("place", "original")

    def __init__(self, place: Place, original: Target) -> None:
        self.place, self.original = place, original


class Monadic:
    __slots__ = __match_args__ = ("operator", "place", "operand")

    def __init__(self, operator: str, place: Place, operand: Expression) -> None:
        self.operator, self.place, self.operand = operator, place, operand


class Converted:
    """A type before an operand."""

    __slots__ = __match_args__ = ("type", "place", "operand")

    def __init__(self, type: DataType, place: Place, operand: Expression) -> None:
        self.type, self.place, self.operand = type, place, operand


class Dyadic:
    """A row of operands with AND, or with OR, is halved, and each half again, so that a long one isn't deep."""

    __slots__ = __match_args__ = ("operator", "place", "left", "right")

    def __init__(self, operator: str, place: Place, left: Expression, right: Expression) -> None:
        self.operator, self.place, self.left, self.right = operator, place, left, right


class Call:
    """`name (value, value)`, by a FUNCTION"""

    __slots__ = __match_args__ = ("place", "name", "actuals")

    def __init__(self, place: Place, name: Name, actuals: list[Value]) -> None:
        self.place, self.name, self.actuals = place, name, actuals


Expression = Union[Name, Literal, Element, Slice, Size, Monadic, Converted, Dyadic, Call]


class Table:
    """A string, as bytes, or `[value, value]`."""

    __slots__ = __match_args__ = ("place", "values")

    def __init__(self, place: Place, values: bytes | list[Value]) -> None:
        self.place, self.values = place, values


class Counted:
    """`count::array`, a part of a message; what is received is no table."""

    __slots__ = __match_args__ = ("place", "number", "array")

    def __init__(self, place: Place, number: Expression, array: Value) -> None:
        self.place, self.number, self.array = place, number, array


Value = Union[Expression, Table]
Target = Union[Name, Element, Slice]
Sent = Union[Expression, Table, Counted]
Received = Union[Name, Element, Slice, Counted]


# ---- types


class ArrayType:
    """`[size]TYPE`, or `[]TYPE`"""

    __slots__ = __match_args__ = ("size", "element")

    def __init__(self, size: Expression | None, element: Type) -> None:
        self.size, self.element = size, element


class ChannelType:
    """`CHAN OF TYPE`, or the name of a protocol, or ANY, which is None."""

    __slots__ = __match_args__ = ("message",)

    def __init__(self, message: Type | Name | None) -> None:
        self.message = message


class CountedType:
    """`TYPE::[]TYPE`"""

    __slots__ = __match_args__ = ("number", "array")

    def __init__(self, number: Type, array: Type) -> None:
        self.number, self.array = number, array


Type = Union[DataType, ArrayType, ChannelType, CountedType]


# ---- declarations


class Variables:
    """`TYPE name, name:`"""

    __slots__ = __match_args__ = ("type", "names")

    def __init__(self, type: Type, names: list[Name]) -> None:
        self.type, self.names = type, names


class Placed:
    """`PLACE name AT number:`"""

    __slots__ = __match_args__ = ("name", "number")

    def __init__(self, name: Name, number: Expression) -> None:
        self.name, self.number = name, number


class NamedValue:
    """`VAL TYPE name IS value:`; the type may be left out."""

    __slots__ = __match_args__ = ("type", "name", "value")

    def __init__(self, type: Type | None, name: Name, value: Value) -> None:
        self.type, self.name, self.value = type, name, value


class Renamed:
    """`TYPE name IS original:`"""

    __slots__ = __match_args__ = ("type", "name", "original")

    def __init__(self, type: Type, name: Name, original: Target) -> None:
        self.type, self.name, self.original = type, name, original


class Formal:
    __slots__ = __match_args__ = ("is_value", "type", "names")

    def __init__(self, is_value: bool, type: Type, names: list[Name]) -> None:
        self.is_value, self.type, self.names = is_value, type, names


class Procedure:
    __slots__ = __match_args__ = ("name", "formals", "process")

    def __init__(self, name: Name, formals: list[Formal], process: Process) -> None:
        self.name, self.formals, self.process = name, formals, process


class Protocol:
    """`PROTOCOL name IS type; type:`, or one with tags, each with the types of the parts after it."""

    __slots__ = __match_args__ = ("name", "parts", "tags")

    def __init__(self, name: Name, parts: list[Type], tags: list[tuple[Name, list[Type]]]) -> None:
        self.name, self.parts, self.tags = name, parts, tags


class Function:
    """`TYPE FUNCTION name (formals)` with declarations, VALOF and RESULT, or with IS instead and no process."""

    __slots__ = __match_args__ = ("name", "types", "formals", "declarations", "process", "results")

    def __init__(
        self,
        name: Name,
        types: list[DataType],
        formals: list[Formal],
        declarations: list[Declaration],
        process: Process,
        results: list[Expression],
    ) -> None:
        self.name, self.types, self.formals, self.declarations, self.process, self.results = (
            name,
            types,
            formals,
            declarations,
            process,
            results,
        )


Declaration = Union[Variables, Placed, NamedValue, Renamed, Procedure, Function, Protocol]


# ---- processes


class Skip(NamedTuple):
    place: Place


class Stop(NamedTuple):
    place: Place


class Assignment:
    __slots__ = __match_args__ = ("place", "target", "value")

    def __init__(self, place: Place, target: Target, value: Expression) -> None:
        self.place, self.target, self.value = place, target, value


class Assignments:
    """`target, target := value, value`"""

    __slots__ = __match_args__ = ("place", "targets", "values")

    def __init__(self, place: Place, targets: list[Target], values: list[Value]) -> None:
        self.place, self.targets, self.values = place, targets, values


class Input:
    """`channel ? target; target`"""

    __slots__ = __match_args__ = ("place", "channel", "targets")

    def __init__(self, place: Place, channel: Target, targets: list[Received]) -> None:
        self.place, self.channel, self.targets = place, channel, targets


class Variant:
    """`tag; target`, and the process below it."""

    __slots__ = __match_args__ = ("tag", "targets", "process")

    def __init__(self, tag: Name, targets: list[Received], process: Process) -> None:
        self.tag, self.targets, self.process = tag, targets, process


class CaseInput:
    """`channel ? CASE`"""

    __slots__ = __match_args__ = ("place", "channel", "variants")

    def __init__(self, place: Place, channel: Target, variants: list[Variant]) -> None:
        self.place, self.channel, self.variants = place, channel, variants


class Output:
    """`channel ! value; value`"""

    __slots__ = __match_args__ = ("place", "channel", "values")

    def __init__(self, place: Place, channel: Target, values: list[Sent]) -> None:
        self.place, self.channel, self.values = place, channel, values


class Instance:
    """`name (value, value)`"""

    __slots__ = __match_args__ = ("place", "name", "actuals")

    def __init__(self, place: Place, name: Name, actuals: list[Value]) -> None:
        self.place, self.name, self.actuals = place, name, actuals


class Replicator:
    """`index = base FOR count`"""

    __slots__ = __match_args__ = ("variable", "base", "turns")

    def __init__(self, variable: Name, base: Expression, turns: Expression) -> None:
        self.variable, self.base, self.turns = variable, base, turns


class Sequence:
    __slots__ = __match_args__ = ("place", "replicator", "processes")

    def __init__(self, place: Place, replicator: Replicator | None, processes: list[Process]) -> None:
        self.place, self.replicator, self.processes = place, replicator, processes


class Parallel:
    __slots__ = __match_args__ = ("place", "replicator", "processes")

    def __init__(self, place: Place, replicator: Replicator | None, processes: list[Process]) -> None:
        self.place, self.replicator, self.processes = place, replicator, processes


class Alternative:
    """A guard and its process: an input, or SKIP if it is None."""

    __slots__ = __match_args__ = ("condition", "input", "process")

    def __init__(self, condition: Expression | None, input: Input | CaseInput | None, process: Process) -> None:
        self.condition, self.input, self.process = condition, input, process


class Alternation:
    """An ALT may have others among its alternatives, which count as theirs in their place."""

    __slots__ = __match_args__ = ("place", "replicator", "alternatives")

    def __init__(
        self, place: Place, replicator: Replicator | None, alternatives: list[Alternative | Alternation]
    ) -> None:
        self.place, self.replicator, self.alternatives = place, replicator, alternatives


class Choice:
    __slots__ = __match_args__ = ("condition", "process")

    def __init__(self, condition: Expression, process: Process) -> None:
        self.condition, self.process = condition, process


class Conditional:
    """An IF may have others among its choices: if none of theirs is true, the next one is looked at."""

    __slots__ = __match_args__ = ("place", "replicator", "choices")

    def __init__(self, place: Place, replicator: Replicator | None, choices: list[Choice | Conditional]) -> None:
        self.place, self.replicator, self.choices = place, replicator, choices


class Option:
    """Constants of a CASE and the process for them; none for ELSE."""

    __slots__ = __match_args__ = ("place", "values", "process")

    def __init__(self, place: Place, values: list[Expression], process: Process) -> None:
        self.place, self.values, self.process = place, values, process


class Case:
    __slots__ = __match_args__ = ("place", "selector", "options")

    def __init__(self, place: Place, selector: Expression, options: list[Option]) -> None:
        self.place, self.selector, self.options = place, selector, options


class Loop:
    """`WHILE condition`"""

    __slots__ = __match_args__ = ("place", "condition", "process")

    def __init__(self, place: Place, condition: Expression, process: Process) -> None:
        self.place, self.condition, self.process = place, condition, process


class Declared:
    """Declarations, and the process in which they hold."""

    __slots__ = __match_args__ = ("declarations", "process")

    def __init__(self, declarations: list[Declaration], process: Process) -> None:
        self.declarations, self.process = declarations, process

    @property
    def place(self) -> Place:
        return self.process.place


Process = Union[
    Skip,
    Stop,
    Assignment,
    Assignments,
    Input,
    CaseInput,
    Output,
    Instance,
    Sequence,
    Parallel,
    Alternation,
    Conditional,
    Case,
    Loop,
    Declared,
]
