"""Scopes, and what declarations and abbreviations make known."""
from __future__ import annotations

from abc import abstractmethod
from collections.abc import Callable, Iterator
from contextlib import contextmanager
from functools import partial

from . import core, tree
from .constants import signed
from .core import ArrayOf, ChannelOf, CoreArray, Number, kind_of
from .mistakes import Place, Refused, expected, quoted
from .scope import (
    LINK_NAMES,
    Access,
    Array,
    Channel,
    ChannelPlace,
    Constant,
    DeclaredChannel,
    Known,
    Mark,
    Meaning,
    Scope,
    Variable,
    region_of_array,
)
from .tree import DataType
from .values import ARRAY_VALUE, INT, Typed, Unknown, Values

# A tag is sent as a BYTE.
MOST_TAGS = 256


class Declarations(Values):
    """Makes names known."""

    def __init__(self, table_words: int | None) -> None:
        super().__init__(table_words)
        self.links: list[core.LinkChannel] = []
        # The channels that are declared in the blocks around, and may still be placed.
        self.channels: list[DeclaredChannel] = []

    @abstractmethod
    def declare_procedure(self, procedure: tree.Procedure | tree.Function) -> None:
        """Makes a procedure or a function known."""

    # ---- scopes

    def know(self, name: tree.Name, meaning: Meaning, rank: int | None = None) -> None:
        """Makes a name known, with the abbreviations that are in scope or the first of them."""
        if self.scope.is_complete:
            self.scope = Scope(self.scope)
        self.scope.names[name.text] = Known(name, meaning, len(self.marks) if rank is None else rank)

    @contextmanager
    def block(self, outer: Scope | None = None) -> Iterator[None]:
        """What is declared in it is known there alone."""
        before, marks, channels = self.scope, len(self.marks), len(self.channels)
        end = outer or before
        self.scope = Scope(end)
        try:
            yield
        finally:
            if not self.around.is_before and self.around.prelude is None:
                for scope in self.scope.around(end):
                    self.ended.update((text, known.name.place.line) for text, known in scope.names.items())
            self.scope = before
            del self.marks[marks:], self.channels[channels:]

    @contextmanager
    def checked(self, procedure: str | None = None) -> Iterator[None]:
        """A body is only checked, and leaves nothing but its mistakes."""
        around, parts, words, declared = self.around, self.notes.parts, self.words, len(self.declarations)
        self.notes.around = around._replace(is_checked=True, procedure=procedure or around.procedure)
        self.notes.parts = 0
        try:
            with self.block(), self.hoisting():
                yield
        finally:
            self.notes.around, self.notes.parts, self.words = around, parts, words
            del self.declarations[declared:]

    def at_line(self, place: Place, process: core.Process) -> core.Process:
        """A process that begins at a place, unless it is in no text of the user."""
        return process if self.around.prelude else core.Line(place, process)

    # ---- declarations

    def declare(self, declaration: tree.Declaration, is_outermost: bool, row: list[core.Process]) -> None:
        """Makes known what a line declares. What it evaluates is added to a row."""
        match declaration:
            case tree.Variables(of, names):
                self.declare_variables(of, names)
            case tree.Placed(name, number):
                self.attempt(self.place, name, number, is_outermost)
            case tree.Procedure() | tree.Function():
                self.declare_procedure(declaration)
            case tree.Protocol(name):
                self.know(name, self.attempt(self.new_protocol, declaration))
            case tree.NamedValue(name=name):
                self.abbreviate(name, row, partial(self.named_value_meaning, declaration))
            case tree.Renamed(name=name):
                self.abbreviate(name, row, partial(self.renamed_meaning, declaration))

    def abbreviate(
        self, name: tree.Name, row: list[core.Process], find: Callable[[list[core.Process]], Meaning]
    ) -> None:
        """Makes a name known that means what is found."""
        with self.hoisting() as steps:
            meaning = self.attempt(find, steps)
        row += (self.at_line(name.place, step) for step in steps)
        self.know(name, meaning)

    def named_value_meaning(self, value: tree.NamedValue, row: list[core.Process]) -> Meaning:
        of = None if value.type is None else self.type_of(value.type, value.name.place)
        return self.value_meaning(value.name, of, value.value, row)

    def renamed_meaning(self, renamed: tree.Renamed, row: list[core.Process]) -> Meaning:
        return self.renamed(renamed.name, self.type_of(renamed.type, renamed.name.place), renamed.original, row)

    def declare_variables(self, of: tree.Type, names: list[tree.Name]) -> None:
        found = self.attempt(self.type_of, of, names[0].place)
        declared: set[str] = set()
        for name in names:
            if name.text in declared:
                self.notes.add(
                    expected(name.place, 17, "each name once in a declaration", f"{quoted(name.text)} again")
                )
                continue
            declared.add(name.text)
            self.know(name, self.attempt(self.new_meaning, name, found, Access.CHANGING, ChannelPlace.OPEN))

    def new_meaning(self, name: tree.Name, of: core.Type | None, access: Access, place: ChannelPlace) -> Meaning:
        """What a new name of a type means."""
        match of:
            case ArrayOf() | ChannelOf() if isinstance(core.base_of(of), ChannelOf):
                channel = DeclaredChannel(name, of, place)
                self.channels.append(channel)
                return Channel(channel, None) if isinstance(of, ChannelOf) else channel
            case ArrayOf():
                return Array(
                    of, CoreArray(self.new_words(name.text, name.place, of), core.size_of(of), kind_of(of)), access
                )
            case DataType():
                return Variable(of, core.Variable(self.new_words(name.text, name.place, of)), access)
        raise Refused

    def new_protocol(self, protocol: tree.Protocol) -> core.Protocol:
        """What the name of a protocol means. Tags are sent as their numbers, which are BYTE."""
        place = protocol.name.place
        if len(protocol.tags) > MOST_TAGS:
            raise expected(place, 38, f"a PROTOCOL of at most {MOST_TAGS} tags", "more")
        for number, (tag, _) in enumerate(protocol.tags):
            if any(tag.text == other.text for other, _ in protocol.tags[:number]):
                raise expected(tag.place, 17, "each tag once in a PROTOCOL", f"{quoted(tag.text)} again")
        tags = {
            tag.text: (number, tuple(self.type_of(it, tag.place) for it in parts))
            for number, (tag, parts) in enumerate(protocol.tags)
        }
        return core.Protocol(protocol.name.text, tuple(self.type_of(it, place) for it in protocol.parts), tags or None)

    def give_words(self, count: int, row: list[core.Process]) -> None:
        """Gives words to the channels of a block of declarations that aren't placed: those after the first `count`."""
        first = self.words
        opened = [it for it in self.channels[count:] if it.place is ChannelPlace.OPEN]
        for channel in opened:
            number = self.attempt(self.new_words, channel.name.text, channel.name.place, channel.type)
            channel.place = ChannelPlace.WRONG if number is None else number
        if opened:
            row.append(self.at_line(opened[0].name.place, core.Channels(first, self.words - first)))

    def place(self, name: tree.Name, number: tree.Expression, is_outermost: bool) -> None:
        """`PLACE name AT number:`"""
        if not is_outermost:
            raise expected(name.place, 30, "PLACE among the first declarations of the program", "within a process")
        declared = self.attempt(self.channel_to_place, name)
        link = self.attempt(self.link_number, number)
        if declared is not None:
            declared.place = ChannelPlace.WRONG if link is None else core.Link(link)
            if link is not None:
                assert isinstance(declared.type, ChannelOf)
                self.links.append(core.LinkChannel(link, declared.name.text, declared.name.place.line, declared.type))

    def channel_to_place(self, name: tree.Name) -> DeclaredChannel:
        known = self.found(name)
        if not isinstance(known.meaning, Channel) or known.meaning.subscript is not None:
            is_link = isinstance(known.meaning, Constant) and not known.name.place.line
            hint = f"CHAN OF BYTE c: and PLACE c AT {name.text}: declare a channel that is there" if is_link else ""
            raise expected(name.place, 18, "a channel", known.described, hint)
        declared = known.meaning.declared
        if isinstance(declared.place, core.Link):
            met = f"{quoted(name.text)} (line {declared.name.place.line}), which is at {LINK_NAMES[declared.place.number]}"
            raise expected(name.place, 30, "a channel that isn't placed yet", met)
        return declared

    def link_number(self, expression: tree.Expression) -> int:
        """The number of a link's channel at which no channel is yet."""
        typed = self.value_of(expression, INT)
        number = self.constant(typed)
        if isinstance(number, Unknown):
            raise Refused
        if number >= 8:
            hint = (
                "8 is the channel of events, which no link has" if number == 8 else "link0.out is 0, and link0.in is 4"
            )
            raise expected(typed.place, 30, "a number from 0 to 7", str(signed(number)), hint)
        for link in self.links:
            if link.number == number:
                met = f"{number}, where {quoted(link.name)} (line {link.line}) is"
                raise expected(typed.place, 30, "a number at which no channel is placed yet", met)
        return number

    # ---- abbreviations and parameters

    def freeze(self, name: tree.Name) -> None:
        """Lets what was named not change, since this abbreviation rests on it."""
        self.marks += (Mark(region, True, name) for region in self.named)

    def value_meaning(
        self, name: tree.Name, of: core.Type | None, value: tree.Value, row: list[core.Process]
    ) -> Meaning:
        """What a name means that is the value. Its evaluation is added to a row."""
        self.named = []
        whole = self.whole_array(value)
        if whole is not None:
            return self.array_as_value(name, of, *whole, row)
        assert not isinstance(value, tree.Table)
        if isinstance(of, ArrayOf):
            typed = self.whole(value)
            raise expected(typed.place, 19, str(of), str(typed.type), ARRAY_VALUE)
        return self.kept_value(name, self.value_of(value, of) if isinstance(of, DataType) else self.whole(value), row)

    def array_as_value(
        self, name: tree.Name, of: core.Type | None, place: Place, array: Array, row: list[core.Process]
    ) -> Array:
        self.freeze_offset(name, array)
        if of is not None:
            self.is_array_of(place, array.type, of)
        last = self.declarations[-1] if self.declarations else None
        if last and last.role is core.Role.TABLE and last.first == array.array.first:
            last.name = name.text
        self.marks.append(Mark(region_of_array(array.array), True, name))
        return Array(array.type, array.array, Access.VALUE, self.kept_offset(name, array, row))

    def freeze_offset(self, name: tree.Name, array: Array) -> None:
        """Lets nothing change that the place of a part of an array rests on."""
        if array.offset is not None:
            self.freeze(name)

    def kept_offset(self, name: tree.Name, array: Array, row: list[core.Process]) -> core.Expression | None:
        """Where a part of an array begins, which is evaluated once."""
        if array.offset is None or isinstance(array.offset, Number):
            return array.offset
        return self.kept_subscript(name, array.offset, row)

    def kept_value(self, name: tree.Name, typed: Typed, row: list[core.Process]) -> Meaning:
        """A constant, or a variable that has the value and doesn't change."""
        self.freeze(name)
        if isinstance(typed.value, Number):
            return Constant(typed.type, typed.value.value)
        is_parameter = typed.varies is not None and typed.varies.rests_on_parameters
        cell = typed.value
        if not isinstance(cell, core.Variable):
            cell = core.Variable(self.new_words(name.text, name.place, typed.type))
            row.append(core.Assign(cell.number, typed.value))
        return Variable(typed.type, cell, Access.PARAMETER if is_parameter else Access.VALUE)

    def renamed(self, name: tree.Name, of: core.Type, original: tree.Target, row: list[core.Process]) -> Meaning:
        """What a name means that is another name of this. The evaluation of a subscript is added to a row."""
        match of:
            case ChannelOf():
                return self.renamed_channel(name, of, original, row)
            case ArrayOf() if isinstance(core.base_of(of), ChannelOf):
                return self.renamed_channels(of, original)
            case ArrayOf():
                return self.renamed_array(name, of, original, row)
            case DataType():
                return self.renamed_element(name, of, original, row)
        raise Refused

    def renamed_element(
        self, name: tree.Name, of: DataType, original: tree.Target, row: list[core.Process]
    ) -> Variable:
        self.notes.count(original.place)
        if isinstance(original, tree.Element):
            self.named = []
            subscripts = [self.expression(it) for it in original.subscripts]
            self.freeze(name)
            element = self.array_element(original.name, subscripts, (18, "a variable"))
        else:
            hint = f"An input is {original.text} ? variable" if isinstance(original, tree.Name) else ""
            element = self.element(original, (18, "a variable"), hint)
        self.is_changing(original if isinstance(original, tree.Name) else original.name, element.known, element.access)
        if element.type is not of:
            raise expected(original.place, 19, str(of), str(element.type))
        self.marks.append(Mark(element.region, False, name))
        return Variable(of, self.kept_cell(name, element.cell, row), element.access)

    def kept_cell(
        self, name: tree.Name, cell: core.Variable | core.Element, row: list[core.Process]
    ) -> core.Variable | core.Element:
        """The element, whose subscript is evaluated once."""
        if (
            isinstance(cell, core.Variable)
            or isinstance(cell.subscript, Number)
            and cell.subscript.value < cell.array.length
        ):
            return cell
        return core.Element(cell.array, self.kept_subscript(name, cell.subscript, row))

    def kept_subscript(self, name: tree.Name, subscript: core.Expression, row: list[core.Process]) -> core.Variable:
        """The variable that has the value of a subscript; one of its own, if the subscript is none."""
        if isinstance(subscript, core.Variable):
            return subscript
        number = self.new_words(None, name.place, INT)
        row.append(core.Assign(number, subscript))
        return core.Variable(number)

    def renamed_array(self, name: tree.Name, of: ArrayOf, original: tree.Target, row: list[core.Process]) -> Array:
        self.notes.count(original.place)
        self.named = []
        found = self.array_part(original)
        if found is None and not isinstance(original, tree.Name):
            raise expected(original.place, 19, str(of), str(self.element(original, (18, "a variable")).type))
        if found is None or not isinstance(found[1].meaning, Array):
            assert isinstance(original, tree.Name)
            known = self.found(original)
            if isinstance(known.meaning, DeclaredChannel):
                raise expected(original.place, 19, str(of), str(known.meaning.type))
            raise expected(original.place, 18, "an array", known.described)
        self.freeze_offset(name, found[2])
        original_name, known, array = found
        self.is_array_of(original.place, array.type, of)
        self.is_changing(original_name, known, array.access)
        region = region_of_array(array.array)
        self.may_name(original_name, known, array.access, region)
        self.marks.append(Mark(region, False, name))
        return Array(array.type, array.array, array.access, self.kept_offset(name, array, row))

    def renamed_channel(
        self, name: tree.Name, of: ChannelOf, original: tree.Target, row: list[core.Process]
    ) -> Channel:
        self.named = []
        channel = self.named_channel(original)
        self.freeze(name)
        declared, subscript = channel.declared, channel.subscript
        self.is_array_of(original.place, ChannelOf(declared.message), of, (29, f"a {of}"))
        if subscript is not None and not isinstance(subscript, Number):
            subscript = self.kept_subscript(name, subscript, row)
        return Channel(declared, subscript)

    def renamed_channels(self, of: ArrayOf, original: tree.Target) -> DeclaredChannel:
        if not isinstance(original, tree.Name):
            declared = self.named_channel(original).declared
            raise expected(original.place, 29, str(of), str(ChannelOf(declared.message)))
        known = self.found(original)
        if not isinstance(known.meaning, DeclaredChannel):
            raise expected(original.place, 18, "an array of channels", known.described)
        self.is_array_of(original.place, known.meaning.type, of, (29, str(of)))
        return known.meaning
