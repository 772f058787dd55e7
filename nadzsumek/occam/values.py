"""Names and types of expressions, tables, types, variables and channels."""
from __future__ import annotations

import re
from abc import ABC, abstractmethod
from collections.abc import Callable, Iterator, Sequence as Row
from contextlib import contextmanager
from enum import Enum
from typing import NamedTuple, ParamSpec, TypeVar

from . import core, tree
from .constants import constant_value, error_in, signed
from .core import ArrayOf, ChannelOf, CoreArray, ElementKind, Folds, Number, is_number, kind_of
from .mistakes import Place, Refused, expected, quoted
from .scope import (
    SENT_TEXT,
    WRITERS,
    LINK_NAMES,
    Access,
    Around,
    Array,
    Channel,
    ChannelPlace,
    Constant,
    DeclaredChannel,
    Known,
    Mark,
    Notes,
    Region,
    Scope,
    Variable,
    link_scope,
    region_of,
    region_of_array,
)
from .tree import DataType

INT, BYTE, BOOL = DataType.INT, DataType.BYTE, DataType.BOOL
MOST_VARIABLES, MOST_CHANNELS, MOST_LEVELS = 16_000, 256, 250
ARRAY_VALUE = "An array is written as its name, as a string or as a table"
COMPARE = "A comparison gives a BOOL: n <> 0"
P = ParamSpec("P")
R = TypeVar("R")


class Varying(NamedTuple):
    """A name whose value isn't known from the text, and whether it may be a constant where the body is put in place."""

    place: Place
    described: str
    rests_on_parameters: bool


class Typed(NamedTuple):
    """An expression with its type, and the first name in it that isn't constant."""

    place: Place
    type: DataType
    value: core.Expression
    varies: Varying | None = None


class TypedElement(NamedTuple):
    """A variable or an element where it is used."""

    known: Known
    type: DataType
    cell: core.Variable | core.Element
    access: Access
    region: Region


class Unknown(Enum):
    """Why a constant has no value: it rests on parameters, or it is an error when the program runs."""

    OPEN = 0
    ERROR = 1


def first_varying(left: Varying | None, right: Varying | None) -> Varying | None:
    """The first that isn't known in an instance either, if there is one, and else the first."""
    if left is None or left.rests_on_parameters:
        return right or left
    return left


def fits(wanted: core.Type, met: core.Type) -> bool:
    """Whether a type is another, as far as lengths are known."""
    match wanted, met:
        case ArrayOf(length, element), ArrayOf(other, other_element):
            return (length is None or other is None or length == other) and fits(element, other_element)
        case ChannelOf(message), ChannelOf(other_message):
            return fits(message, other_message)
    return wanted == met


def element_cell(array: CoreArray, subscript: core.Expression) -> core.Variable | core.Element:
    """The element of a subscript; a known one of words is a variable."""
    if isinstance(subscript, Number) and subscript.value < array.length and array.kind is ElementKind.WORD:
        return core.Variable(array.first + subscript.value)
    return core.Element(array, subscript)


def multiplied(left: core.Expression, right: int, folds: Folds) -> core.Expression:
    """The product of an index and a size."""
    return left if right == 1 else both("Times", left, Number(right), folds)


def added(left: core.Expression | None, right: core.Expression, folds: Folds) -> core.Expression:
    """The sum of two indices."""
    if left is None or is_number(left, 0):
        return right
    return left if is_number(right, 0) else both("Plus", left, right, folds)


def both(operation: str, left: core.Expression, right: core.Expression, folds: Folds) -> core.Expression:
    """An operation of indices, whose value is found here if both are constants."""
    two = core.Two(operation, left, right)
    value = constant_value(two, folds) if isinstance(left, Number) and isinstance(right, Number) else None
    return two if value is None else Number(value)


def part_at(array: Array, offset: core.Expression, of: ArrayOf) -> Array:
    """A part of an array, which is an array itself if it begins at a known word."""
    per_word = 4 if array.array.kind is ElementKind.BYTE else 1
    size = core.size_of(of)
    if isinstance(offset, Number) and offset.value % per_word == 0 and offset.value + size <= array.array.length:
        return Array(of, CoreArray(array.array.first + offset.value // per_word, size, array.array.kind), array.access)
    return Array(of, array.array, array.access, offset)


def converting(data_type: core.Type) -> str:
    return COMPARE if data_type is BOOL else f"{data_type} (value) converts it"


class Values(ABC):
    """Finds what expressions mean, and keeps variables and tables."""

    def __init__(self, table_words: int | None) -> None:
        """`table_words` is how many words all tables take, or None to count them."""
        self.notes = Notes()
        self.scope: Scope = link_scope()
        self.ended: dict[str, int] = {}
        self.marks: list[Mark] = []
        self.named: list[Region] = []
        self.declarations: list[core.Declaration] = []
        self.words = table_words or 0
        self.first_table = MOST_VARIABLES if table_words is None else 0
        self.tables: list[int] = []
        self.folds: Folds = {}
        self.table_places: dict[Place, CoreArray] = {}
        self.are_too_many = False
        # What is done before the statement that is found, since it calls functions.
        self.steps: list[core.Process] = []
        # In how many processes and functions it is, and where the last process begins.
        self.levels = 0
        self.at = Place(1, 1)

    @property
    def around(self) -> Around:
        return self.notes.around

    def attempt(self, find: Callable[P, R], *arguments: P.args, **named: P.kwargs) -> R | None:
        """What is found, or None if it is wrong, which is noted."""
        try:
            return find(*arguments, **named)
        except Refused as refused:
            self.notes.add(refused)
            return None

    def goes_deeper(self, place: Place) -> None:
        """Counts a process, or a function, in those around it."""
        if self.levels == MOST_LEVELS:
            raise expected(place, 38, f"processes at most {MOST_LEVELS} deep in one another", "more")
        self.levels += 1

    # ---- variables

    def new_words(self, name: str | None, place: Place, of: core.Type, role: core.Role = core.Role.PLAIN) -> int:
        """The first of the words of a new variable, a new channel, or an array of either."""
        line = (self.around.prelude or place).line
        written = None if self.around.prelude else place
        declaration = core.Declaration(name, core.flat(of), role, self.words, written, line)
        if self.words + declaration.words > MOST_VARIABLES:
            self.too_many(place)
        self.words += declaration.words
        self.declarations.append(declaration)
        return declaration.first

    def too_many(self, place: Place) -> None:
        if self.are_too_many:
            raise Refused
        self.are_too_many = True
        raise expected(place, 38, f"at most {MOST_VARIABLES} variables", "more")

    # ---- names

    def found(self, name: tree.Name) -> Known:
        """What a name means."""
        known = self.scope.find(name.text)
        if known is None:
            raise expected(
                name.place, 16, "a name that is declared", quoted(name.text), self.hint_of_unknown(name.text)
            )
        if known.meaning is None:
            raise Refused
        return known

    def hint_of_unknown(self, text: str) -> str:
        if self.notes.are_more:
            return ""
        if self.around.procedure == text:
            return "A PROC is known after its :, so it can't call itself"
        if text in self.ended:
            return f"It is known only in the process after its declaration in line {self.ended[text]}"
        if text.lower() in WRITERS:
            return SENT_TEXT
        if re.fullmatch(r"(?i)link[0-3]", text):
            return f"The channels of a link have names of their own: {text.lower()}.out and {text.lower()}.in"
        near = self.scope.nearest(text)
        if near is None:
            return ""
        line = near.name.place.line
        return f"Is it {near.name.text} (line {line})?" if line else f"Is it {near.name.text}?"

    def may_name(self, name: tree.Name, known: Known, access: Access, region: Region) -> None:
        """Notes that a name is used for a region, and refuses it if an abbreviation is its name here."""
        self.named.append(region)
        if access is Access.CHANGING:
            for mark in self.marks[known.rank :]:
                if not mark.is_frozen and mark.region.meets(region):
                    met = f"{quoted(name.text)}, which is {quoted(mark.name.text)} (line {mark.name.place.line})"
                    raise expected(name.place, 28, "the name that it has here", met)

    def may_change(self, name: tree.Name, known: Known, access: Access, region: Region) -> None:
        """Refuses the change of what is no variable, or on which an abbreviation rests."""
        self.is_changing(name, known, access)
        for mark in self.marks:
            if mark.is_frozen and mark.region.meets(region):
                met = f"{quoted(name.text)}, on which {quoted(mark.name.text)} (line {mark.name.place.line}) rests"
                raise expected(name.place, 27, "a variable that may be changed here", met)

    def is_changing(self, name: tree.Name, known: Known, access: Access) -> None:
        if access is not Access.CHANGING:
            raise expected(name.place, 26, "a variable that may be changed", known.described)

    # ---- variables and elements where they are used

    def element(self, target: tree.Target, what: tuple[int, str], hint: str = "") -> TypedElement:
        """The variable or the element that is written."""
        if isinstance(target, tree.Slice):
            raise expected(target.place, 25, "one element", "a part of an array")
        if isinstance(target, tree.Element):
            self.found(target.name)
            return self.array_element(target.name, [self.expression(it) for it in target.subscripts], what)
        known = self.found(target)
        if isinstance(known.meaning, Variable):
            data_type, cell, access = known.meaning.type, known.meaning.cell, known.meaning.access
            element = TypedElement(known, data_type, cell, access, region_of(cell))
            self.may_name(target, known, access, element.region)
            return element
        if isinstance(known.meaning, Array):
            raise expected(
                target.place,
                25,
                "a subscript after an array",
                known.described,
                f"An element is {target.text}[subscript]",
            )
        raise expected(target.place, *what, known.described, hint if isinstance(known.meaning, Channel) else "")

    def array_element(self, name: tree.Name, subscripts: list[Typed], what: tuple[int, str]) -> TypedElement:
        known = self.found(name)
        if not isinstance(known.meaning, Array):
            if not isinstance(known.meaning, DeclaredChannel):
                what = 25, "a subscript after an array alone"
            raise expected(name.place, *what, known.described)
        array = known.meaning
        index, data_type = self.index(name, known, array.type, subscripts, array.offset)
        if not isinstance(data_type, DataType):
            raise expected(name.place, 25, "a subscript more", known.described, f"It is of type {array.type}")
        cell = element_cell(array.array, index)
        element = TypedElement(known, data_type, cell, array.access, region_of(cell))
        self.may_name(name, known, array.access, element.region)
        return element

    def subscript(self, typed: Typed, length: int | None) -> core.Expression:
        """The subscript of an array of a length. One that the array hasn't is an error when the program runs, in a body that is
        put in place."""
        typed = self.fold(typed)
        if typed.type is not INT:
            raise expected(typed.place, 19, "INT", str(typed.type), converting(INT))
        value = typed.value
        if isinstance(value, Number) and length is not None and value.value >= length and not self.around.is_in_place:
            raise expected(typed.place, 24, f"a subscript from 0 to {length - 1}", str(signed(value.value)))
        return value

    def index(
        self,
        name: tree.Name,
        known: Known,
        of: core.Type,
        subscripts: list[Typed],
        offset: core.Expression | None = None,
    ) -> tuple[core.Expression, core.Type]:
        """Where the part with these subscripts begins, counted in elements, and its type. Each subscript is checked by itself."""
        index = offset
        is_alone = offset is None and len(subscripts) == 1
        for typed in subscripts:
            if not isinstance(of, ArrayOf):
                raise expected(name.place, 25, "no further subscript", known.described)
            subscript = self.subscript(typed, of.length)
            size = core.size_of(of.element)
            is_inside = isinstance(subscript, Number) and subscript.value < (of.length or 1)
            if not (is_alone and size == 1 or is_inside):
                subscript = core.Below(of.length or 1, subscript)
            index = added(index, multiplied(subscript, size, self.folds), self.folds)
            of = of.element
        assert index is not None
        return index, of

    def array_part(self, value: tree.Value) -> tuple[tree.Name, Known, Array] | None:
        """The array, or the part of one, that is named; None if a value is no array."""
        if isinstance(value, tree.Slice):
            return self.slice(value)
        if not isinstance(value, (tree.Name, tree.Element)):
            return None
        name = value if isinstance(value, tree.Name) else value.name
        known = self.scope.find(name.text)
        if known is None or not isinstance(known.meaning, Array):
            return None
        array = known.meaning
        if isinstance(value, tree.Name):
            return name, known, array
        of: core.Type = array.type
        for _ in value.subscripts:
            of = of.element if isinstance(of, ArrayOf) else of
        if not isinstance(of, ArrayOf):
            return None
        offset, _ = self.index(name, known, array.type, [self.expression(it) for it in value.subscripts], array.offset)
        return name, known, part_at(array, offset, of)

    def slice(self, part: tree.Slice) -> tuple[tree.Name, Known, Array]:
        """`[original FROM base FOR count]`; the count is a constant, and the part is checked to be in the array."""
        found = self.array_part(part.original)
        if found is None:
            raise expected(part.name.place, 18, "an array", self.found(part.name).described)
        name, known, array = found
        base, count = self.value_of(part.base, INT), self.length(part.length, False)
        of, length = ArrayOf(count, array.type.element), array.type.length
        offset = base.value
        if count is not None and length is not None:
            if count > length:
                raise expected(part.length.place, 24, f"a count from 1 to {length}", str(count))
            if not isinstance(self.subscript(base, length - count + 1), Number) or self.around.is_in_place:
                offset = core.Below(length - count + 1, offset)
        offset = multiplied(offset, core.size_of(array.type.element), self.folds)
        return name, known, part_at(array, added(array.offset, offset, self.folds), of)

    def target(self, target: tree.Target, hint: str = "") -> TypedElement:
        """The variable or the element that is changed."""
        name = target if isinstance(target, tree.Name) else target.name
        known = self.scope.find(name.text)
        is_constant = known is not None and isinstance(known.meaning, Constant) and known.name.place.line > 0
        what = (26, "a variable that may be changed") if is_constant else (18, "a variable")
        element = self.element(target, what, hint)
        self.may_change(name, element.known, element.access, element.region)
        return element

    # ---- expressions

    def expression(self, expression: tree.Expression) -> Typed:
        self.notes.count(expression.place)
        match expression:
            case tree.Name():
                return self.named_value(expression)
            case tree.Literal(data_type, value, place):
                return Typed(place, data_type, Number(value))
            case tree.Dyadic("AND" | "OR" as operator, place, left, right):
                return self.truths(operator, place, left, right)
            case tree.Dyadic(operator, place, left, right):
                return self.dyadic(operator, place, *self.operands(left, right))
            case tree.Element() | tree.Slice():
                return self.element_value(expression.place, self.element(expression, (18, "a variable or a constant")))
            case tree.Monadic(operator, place, operand):
                return self.monadic(operator, place, self.expression(operand))
            case tree.Converted(data_type, place, operand):
                return self.converted(data_type, place, self.expression(operand))
            case tree.Size(place, original):
                return self.size(place, original)
            case tree.Call(place):
                results = self.call(expression)
                if len(results) != 1:
                    raise expected(place, 51, f"{len(results)} variables for the results", "1")
                return results[0]

    @abstractmethod
    def call(self, call: tree.Call) -> list[Typed]:
        """The results of a function."""

    @contextmanager
    def hoisting(self) -> Iterator[list[core.Process]]:
        """What is done before a part of a statement."""
        before, self.steps = self.steps, []
        try:
            yield self.steps
        finally:
            self.steps = before

    def operands(self, *expressions: tree.Expression) -> list[Typed]:
        """The values of operands. What is wrong in each of them is noted."""
        found = [self.attempt(self.expression, it) for it in expressions]
        operands = [it for it in found if it is not None]
        if len(operands) < len(found):
            raise Refused
        return operands

    def truths(self, operator: str, place: Place, one: tree.Expression, other: tree.Expression) -> Typed:
        """AND or OR, whose right side is evaluated only if the left one doesn't decide."""
        left = self.attempt(self.expression, one)
        with self.hoisting() as steps:
            (right,) = self.operands(other)
        if left is None:
            raise Refused
        if not steps:
            return self.dyadic(operator, place, left, right)
        self.are_operands(operator, place, left, right)
        number = self.new_words(None, place, BOOL)
        both = core.in_sequence([*steps, core.Assign(number, right.value)])
        goes_on: core.Expression = (
            core.Variable(number) if operator == "AND" else core.One("Not", core.Variable(number))
        )
        self.steps += [core.Assign(number, left.value), core.If(goes_on, both, core.otherwise(core.Skip()))]
        return Typed(left.place, BOOL, core.Variable(number), right.varies)

    def named_value(self, name: tree.Name) -> Typed:
        known = self.found(name)
        if isinstance(known.meaning, Constant):
            return Typed(name.place, known.meaning.type, Number(known.meaning.value))
        hint = f"An input is {name.text} ? variable"
        return self.element_value(name.place, self.element(name, (18, "a variable or a constant"), hint))

    def element_value(self, place: Place, element: TypedElement) -> Typed:
        is_parameter = element.access in (Access.PARAMETER, Access.CONSTANT_INDEX)
        return Typed(place, element.type, element.cell, Varying(place, element.known.described, is_parameter))

    def size(self, place: Place, original: tree.Target) -> Typed:
        """`SIZE name`"""
        if not isinstance(original, tree.Name):
            part = self.array_part(original)
            if part is None or part[2].type.length is None:
                raise expected(original.place, 18, "an array after SIZE", "an element")
            return Typed(place, INT, Number(part[2].type.length))
        name = original
        known = self.found(name)
        if not isinstance(known.meaning, (Array, DeclaredChannel)):
            raise expected(name.place, 18, "an array", known.described)
        length = known.meaning.type.length if isinstance(known.meaning, Array) else known.meaning.length
        if length is None:
            return Typed(place, INT, core.Variable(0), Varying(place, known.described, True))
        return Typed(place, INT, Number(length))

    def monadic(self, operator: str, place: Place, operand: Typed) -> Typed:
        if operator == "NOT":
            self.is_truth(operand)
        elif operand.type is not INT:
            raise self.wrong_operator(operator, place, operand.type)
        value = operand.value
        one = core.One(core.MONADIC_OPERATIONS[operator], value)
        negated = constant_value(one, self.folds) if operator == "-" and isinstance(value, Number) else None
        return Typed(place, operand.type, one if negated is None else Number(negated), operand.varies)

    def converted(self, data_type: DataType, place: Place, operand: Typed) -> Typed:
        value = operand.value
        if data_type is not INT and data_type is not operand.type:
            value = core.Below(256 if data_type is BYTE else 2, value)
        return Typed(place, data_type, value, operand.varies)

    def dyadic(self, operator: str, place: Place, left: Typed, right: Typed) -> Typed:
        self.are_operands(operator, place, left, right)
        if (left.varies is None) != (right.varies is None):
            left, right = self.fold(left), self.fold(right)
        varies = first_varying(left.varies, right.varies)
        if operator == "AND":
            return Typed(left.place, BOOL, core.And(left.value, right.value), varies)
        if operator == "OR":
            return Typed(left.place, BOOL, core.Or(left.value, right.value), varies)
        operation = core.OPERATIONS[operator]
        data_type = BOOL if operation in core.COMPARISONS else INT
        return Typed(left.place, data_type, core.Two(operation, left.value, right.value), varies)

    def are_operands(self, operator: str, place: Place, left: Typed, right: Typed) -> None:
        """Refuses operands that an operator doesn't take."""
        if operator in ("AND", "OR"):
            for it in (left, right):
                self.attempt(self.is_truth, it)
            if left.type is not BOOL or right.type is not BOOL:
                raise Refused
        elif operator in ("=", "<>", "<", ">", "<=", ">="):
            if left.type is right.type is BOOL and operator not in ("=", "<>"):
                raise self.wrong_operator(operator, place, BOOL)
            if left.type is not right.type:
                raise expected(right.place, 19, str(left.type), str(right.type), converting(left.type))
        elif left.type is not INT and right.type is not INT:
            raise self.wrong_operator(operator, place, left.type)
        else:
            for side in (left, right):
                if side.type is not INT:
                    raise expected(side.place, 19, "INT", str(side.type), converting(INT))

    def is_truth(self, operand: Typed) -> None:
        if operand.type is not BOOL:
            raise expected(operand.place, 20, "BOOL", str(operand.type), COMPARE)

    def wrong_operator(self, operator: str, place: Place, data_type: DataType) -> Refused:
        hint = "Only INT has arithmetic: BYTE ((INT b) + 1) is the next BYTE" if data_type is BYTE else ""
        return expected(place, 21, f"an operator for {data_type}", "\\" if operator == "REM" else operator, hint)

    def fold(self, typed: Typed) -> Typed:
        """A number, if it is a constant. Its error is one when the program runs, in a body that is put in place."""
        if typed.varies is not None or isinstance(typed.value, Number):
            return typed
        value = constant_value(typed.value, self.folds)
        if value is not None:
            return Typed(typed.place, typed.type, Number(value))
        if self.around.is_in_place:
            return typed
        raise expected(typed.place, 23, *error_in(typed.value))

    def whole(self, expression: tree.Expression) -> Typed:
        """A whole expression."""
        return self.fold(self.expression(expression))

    def value_of(
        self, expression: tree.Expression, data_type: core.Type, what: tuple[int, str] | None = None, hint: str = ""
    ) -> Typed:
        """A whole expression of a type."""
        typed = self.whole(expression)
        if typed.type is not data_type:
            raise expected(typed.place, *(what or (19, str(data_type))), str(typed.type), hint or converting(data_type))
        return typed

    def condition(self, expression: tree.Expression) -> core.Expression:
        return self.value_of(expression, BOOL, (20, "BOOL"), COMPARE).value

    def constant(self, typed: Typed, hint: str = "") -> int | Unknown:
        """A constant; an expression that is none is refused, unless it rests on parameters."""
        if typed.varies is not None:
            if typed.varies.rests_on_parameters and not hint:
                return Unknown.OPEN
            raise expected(typed.varies.place, 22, "a constant", typed.varies.described, hint)
        return typed.value.value if isinstance(typed.value, Number) else Unknown.ERROR

    # ---- types

    def type_of(self, source: tree.Type, place: Place) -> core.Type:
        """What a type means that is written before this place."""
        match source:
            case tree.ArrayType(size, element):
                is_channel = isinstance(element, tree.ChannelType)
                length = None if size is None else self.length(size, is_channel)
                return ArrayOf(length, self.type_of(element, place))
            case tree.CountedType(count, array):
                return core.CountedOf(self.type_of(count, place), self.type_of(array, place))
            case tree.ChannelType():
                return ChannelOf(self.message_type(source, place))
            case DataType():
                return source

    def message_type(self, channel: tree.ChannelType, place: Place) -> core.Type:
        """What the messages of a channel are."""
        if channel.message is None:
            return core.ANY
        return (
            self.protocol(channel.message)
            if isinstance(channel.message, tree.Name)
            else self.type_of(channel.message, place)
        )

    def protocol(self, name: tree.Name) -> core.Protocol:
        known = self.found(name)
        if not isinstance(known.meaning, core.Protocol):
            raise expected(name.place, 18, "a PROTOCOL", known.described)
        return known.meaning

    def length(self, size: tree.Expression, is_of_channels: bool) -> int | None:
        """How many elements an array has, or None if that rests on parameters."""
        most = MOST_CHANNELS if is_of_channels else MOST_VARIABLES
        typed = self.value_of(size, INT)
        length = self.constant(typed)
        if length is Unknown.OPEN:
            return None
        if isinstance(length, int) and 0 < length <= most:
            return length
        met = "an overflow" if length is Unknown.ERROR else str(signed(length))
        if is_of_channels and isinstance(length, int) and signed(length) > 0:
            raise expected(typed.place, 38, f"an array of at most {most} channels", "more")
        what = f"an array of 1 to {most} " + ("channels" if is_of_channels else "elements")
        raise expected(typed.place, 23, what, met)

    # ---- whole arrays and tables

    def whole_array(self, value: tree.Value) -> tuple[Place, Array] | None:
        """A table or the name of an array, or None if a value is neither."""
        if isinstance(value, tree.Table):
            return value.place, self.table(value)
        found = self.array_part(value)
        if found is None:
            return None
        name, known, array = found
        self.notes.count(value.place)
        self.may_name(name, known, array.access, region_of_array(array.array))
        return value.place, array

    def table(self, table: tree.Table) -> Array:
        if isinstance(table.values, bytes):
            self.notes.count(table.place)
            return self.new_table(table.place, ArrayOf(len(table.values), BYTE), table.values)
        of, values = self.table_values(table)
        return self.new_table(table.place, of, values)

    def table_values(self, table: tree.Table) -> tuple[ArrayOf, list[int]]:
        """The type of a table, and its values, those of inner tables one after another."""
        if isinstance(table.values, bytes):
            return ArrayOf(len(table.values), BYTE), [*table.values]
        values: list[int] = []
        element: core.Type | None = None
        for value in table.values:
            if isinstance(value, tree.Table):
                of, inner = self.table_values(value)
                if element is not None and of != element:
                    raise expected(value.place, 19, str(element), str(of))
                element = of
                values += inner
                continue
            typed = self.value_of(value, element) if element else self.whole(value)
            element = typed.type
            number = self.constant(typed, "A table has constants alone")
            if isinstance(number, Unknown):
                raise Refused
            values.append(number)
        assert element is not None
        return ArrayOf(len(table.values), element), values

    def new_table(self, place: Place, of: ArrayOf, values: Row[int]) -> Array:
        """A table, which has one place among the words however often it is met, and none in a body that is only checked."""
        if self.around.is_checked:
            return Array(of, CoreArray(MOST_VARIABLES, len(values), kind_of(of)), Access.VALUE)
        array = self.table_places.get(place)
        if array is None:
            array = CoreArray(self.first_table + len(self.tables), len(values), kind_of(of))
            self.table_places[place] = array
            self.tables += (
                values
                if array.kind is ElementKind.WORD
                else (int.from_bytes(values[at : at + 4], "little") for at in range(0, len(values), 4))
            )
            written = None if self.around.prelude else place
            self.declarations.append(
                core.Declaration(None, core.flat(of), core.Role.TABLE, array.first, written, place.line)
            )
            if len(self.tables) > MOST_VARIABLES:
                self.too_many(place)
        return Array(of, array, Access.VALUE)

    def is_array_of(self, place: Place, met: core.Type, wanted: core.Type, what: tuple[int, str] | None = None) -> None:
        """Refuses an array that has another type."""
        if not fits(wanted, met):
            raise expected(place, *(what or (19, str(wanted))), str(met))

    # ---- channels

    def named_channel(self, target: tree.Target, hint: str = "") -> Channel:
        """Which channel is named. If it is a variable, the hint helps."""
        name = target if isinstance(target, tree.Name) else target.name
        known = self.found(name)
        if isinstance(known.meaning, Channel):
            if not isinstance(target, tree.Name):
                raise expected(name.place, 25, "a subscript after an array alone", known.described)
            return known.meaning
        if isinstance(known.meaning, DeclaredChannel):
            if not isinstance(target, tree.Element):
                raise expected(
                    name.place,
                    25,
                    "a subscript after an array",
                    known.described,
                    f"An element is {name.text}[subscript]",
                )
            index, rest = self.index(name, known, known.meaning.type, [self.expression(it) for it in target.subscripts])
            if not isinstance(rest, ChannelOf):
                raise expected(
                    name.place, 25, "a subscript more", known.described, f"It is of type {known.meaning.type}"
                )
            return Channel(known.meaning, index)
        if not known.name.place.line and isinstance(known.meaning, Constant):
            hint = f"CHAN OF BYTE c: and PLACE c AT {name.text}: declare a channel that is there"
        elif not (isinstance(known.meaning, Variable) and known.meaning.access is Access.CHANGING):
            hint = ""
        raise expected(name.place, 18, "a channel", known.described, hint)

    def used_channel(self, target: tree.Target, is_sent: bool) -> tuple[core.Channel, core.Type]:
        """A channel by which is sent or received, and the type of its messages."""
        name = target if isinstance(target, tree.Name) else target.name
        if self.around.is_function:
            raise expected(name.place, 48, "a process without messages in a FUNCTION", quoted(name.text))
        channel = self.named_channel(target, f"An assignment is {name.text} := value")
        declared, subscript = channel.declared, channel.subscript
        place = declared.place
        if place is ChannelPlace.WRONG:
            raise Refused
        if isinstance(place, ChannelPlace):
            return core.Link(0), declared.message
        if isinstance(place, core.Link):
            self.may_use_link(name, declared, place.number, is_sent)
            return place, declared.message
        if subscript is None:
            return core.Inside(place), declared.message
        cell = element_cell(CoreArray(place, core.size_of(declared.type), ElementKind.WORD), subscript)
        return core.Inside(cell.number) if isinstance(cell, core.Variable) else cell, declared.message

    def may_use_link(self, name: tree.Name, declared: DeclaredChannel, number: int, is_sent: bool) -> None:
        if is_sent != (number < 4):
            way, end = ("output", "out") if is_sent else ("input", "in")
            met = f"{quoted(declared.name.text)} (line {declared.name.place.line}), which is at {LINK_NAMES[number]}"
            raise expected(
                name.place, 31, f"a channel at the {way} of a link", met, f"The {way} of link 0 is link0.{end}"
            )
