"""Assignments, inputs and outputs."""
from __future__ import annotations

from collections.abc import Sequence as Row
from functools import partial

from . import core, tree
from .constants import signed
from .core import Arm, ArrayOf, CoreArray, ElementKind, Number, kind_of
from .mistakes import Place, expected, nearest, quoted
from .procedures import Procedures
from .reading import OPERAND
from .scope import Access, Array, Known, region_of_array
from .values import ARRAY_VALUE, BYTE, INT, Typed, TypedElement, added


class Statements(Procedures):
    """Finds what statements of one line mean."""

    # ---- assignments

    def changing_array(self, name: tree.Name, known: Known, array: Array) -> None:
        """Refuses an array that may not change."""
        region = region_of_array(array.array)
        self.is_changing(name, known, array.access)
        self.may_name(name, known, array.access, region)
        self.may_change(name, known, array.access, region)

    def assignment(self, target: tree.Target, value: tree.Expression) -> core.Process:
        part = self.array_part(target)
        if part is not None:
            return self.copy(target.place, *self.array_assignment(part, value))
        name = target if isinstance(target, tree.Name) else target.name
        element = self.attempt(self.target, target, f"An output is {name.text} ! value")
        if element is None:
            # what is wrong on the other side is told too
            self.attempt(self.whole, value)
            return core.Skip()
        return self.assigned(element, self.value_of(value, element.type).value)

    def assignments(self, targets: list[tree.Target], values: list[tree.Value]) -> core.Process:
        """All values are found before any variable changes."""
        found: list[core.Process] = []
        assigned: list[core.Process] = []
        if isinstance(values[0], tree.Call) and len(values) < len(targets):
            return self.assigned_results(targets, values[0])
        for target, value in zip(targets, values):
            part = self.array_part(target)
            if part is not None:
                array, source = self.array_assignment(part, value)
                kept = self.new_array(target.place, array.type)
                found.append(self.copy(target.place, kept, source))
                assigned.append(self.copy(target.place, array, kept))
            elif isinstance(value, tree.Table):
                raise expected(value.place, *OPERAND, "a table")
            else:
                element = self.target(target)
                number = self.new_words(None, target.place, element.type)
                found.append(core.Assign(number, self.value_of(value, element.type).value))
                assigned.append(self.assigned(element, core.Variable(number)))
        return core.in_sequence(found + assigned)

    def assigned_results(self, targets: list[tree.Target], call: tree.Call) -> core.Process:
        """The results of a function, one for each variable."""
        elements = [self.target(it) for it in targets]
        results = self.call(call)
        if len(results) != len(elements):
            raise expected(call.place, 51, f"{len(elements)} results", str(len(results)))
        numbers = [self.new_words(None, call.place, it.type) for it in results]
        for element, typed in zip(elements, results):
            if element.type is not typed.type:
                raise expected(call.place, 19, str(element.type), str(typed.type))
        return core.in_sequence(
            [
                *(core.Assign(number, it.value) for number, it in zip(numbers, results)),
                *(self.assigned(it, core.Variable(number)) for number, it in zip(numbers, elements)),
            ]
        )

    def assigned(self, element: TypedElement, value: core.Expression) -> core.Process:
        if isinstance(element.cell, core.Variable):
            return core.Assign(element.cell.number, value)
        return core.AssignElement(element.cell.array, element.cell.subscript, value)

    def array_assignment(self, part: tuple[tree.Name, Known, Array], value: tree.Value) -> tuple[Array, Array]:
        """The array that changes, and the one that is assigned to it."""
        name, _, array = part
        self.changing_array(*part)
        source = self.whole_array(value)
        if source is None:
            assert not isinstance(value, tree.Table)
            typed = self.whole(value)
            raise expected(typed.place, 19, str(array.type), str(typed.type), f"An element is {name.text}[subscript]")
        self.is_array_of(source[0], source[1].type, array.type)
        return array, source[1]

    def new_array(self, place: Place, of: ArrayOf) -> Array:
        """An array that only the core has."""
        return Array(of, CoreArray(self.new_words(None, place, of), core.size_of(of), kind_of(of)), Access.CHANGING)

    def copy(self, place: Place, target: Array, source: Array) -> core.Process:
        """The assignment of an array. A part that isn't an array itself is copied element by element, and by a third array if it may
        overlap."""
        are_apart = not region_of_array(target.array).meets(region_of_array(source.array))
        if target.offset is source.offset is None and (are_apart or target.array == source.array):
            return core.Copy(target.array, source.array)
        if not are_apart:
            kept = self.new_array(place, source.type)
            return core.Sequence(self.copy(place, kept, source), self.copy(place, target, kept))
        row: list[core.Process] = []
        to, at = (self.kept_start(place, it, row) for it in (target, source))
        index = self.new_words(None, place, INT, core.Role.INDEX)
        element = core.Element(source.array, added(at, core.Variable(index), self.folds))
        turn = core.AssignElement(target.array, added(to, core.Variable(index), self.folds), element)
        return core.in_sequence([*row, core.Repeat(index, Number(0), Number(core.size_of(source.type)), turn)])

    def kept_start(self, place: Place, array: Array, row: list[core.Process]) -> core.Expression | None:
        """Where a part of an array begins, which is evaluated once."""
        if array.offset is None or isinstance(array.offset, (Number, core.Variable)):
            return array.offset
        number = self.new_words(None, place, INT)
        row.append(core.Assign(number, array.offset))
        return core.Variable(number)

    # ---- messages

    def inputs(self, process: tree.Input | tree.CaseInput, is_guard: bool = False) -> list[core.Process]:
        """The inputs of the parts of a message, and with tags what follows them."""
        channel, message = self.used_channel(process.channel, False)
        row: list[core.Process] = []
        # what is before the input of a guard is done before the whole ALT
        before = self.steps if is_guard else row
        if isinstance(process, tree.CaseInput):
            channel = self.kept_channel(process.place, channel, before)
            return row + self.case_inputs(channel, message, process)
        types = self.types_of_parts(process.place, message, len(process.targets))
        if len(types) > 1 or isinstance(types[0], core.CountedOf):
            channel = self.kept_channel(process.place, channel, before)
        return row + self.received_parts(channel, types, process.targets, False)

    def received_parts(
        self, channel: core.Channel, types: Row[core.Type], targets: Row[tree.Received], is_after: bool
    ) -> list[core.Process]:
        """The inputs of parts, one after another. What a part calls is called after those before it, and after a tag."""
        row: list[core.Process] = []
        for of, target in zip(types, targets):
            with self.hoisting() as steps:
                found = self.received(channel, of, target)
            if is_after:
                row += steps
            else:
                self.steps += steps
            row += found
            is_after = True
        return row

    def case_inputs(self, channel: core.Channel, message: core.Type, process: tree.CaseInput) -> list[core.Process]:
        """The input of a tag, and a choice for each."""
        number = self.new_words(None, process.place, BYTE)
        others: core.Process = core.Stop()
        lines: dict[str, int] = {}
        arms = [self.attempt(self.variant, channel, message, number, it, lines) for it in process.variants]
        for arm in reversed(arms):
            others = arm(others) if arm else others
        return [core.Input(channel, ElementKind.BYTE, number), others]

    def variant(
        self, channel: core.Channel, message: core.Type, number: int, variant: tree.Variant, lines: dict[str, int]
    ) -> Arm:
        tag, types = self.tag(message, variant.tag)
        name, place = variant.tag.text, variant.tag.place
        if lines.setdefault(name, place.line) != place.line:
            raise expected(place, 46, "each tag in one variant", f"{quoted(name)} of line {lines[name]} again")
        self.is_as_long(place, types, len(variant.targets))
        row = self.received_parts(channel, types, variant.targets, True)
        process = core.in_sequence([*row, self.process(variant.process)])
        return partial(core.If, core.Two("Equal", core.Variable(number), Number(tag)), process)

    def tag(self, message: core.Type, name: tree.Name) -> tuple[int, tuple[core.Type, ...]]:
        """The number of a tag, and the parts after it."""
        tags = message.tags if isinstance(message, core.Protocol) else None
        if tags is None:
            raise expected(name.place, 29, f"a message of type {message}", "a tag", "PROTOCOL with CASE has tags")
        if name.text not in tags:
            near = nearest(name.text, tags)
            raise expected(name.place, 16, f"a tag of {message}", quoted(name.text), f"Is it {near}?" if near else "")
        return tags[name.text]

    def types_of_parts(self, place: Place, message: core.Type, count: int) -> tuple[core.Type, ...]:
        """The types of the parts of a message without a tag."""
        if not isinstance(message, core.Protocol):
            types: tuple[core.Type, ...] = (message,)
        elif message is core.ANY:
            types = (message,) * count
        elif message.tags is not None:
            raise expected(
                place, 29, f"a tag of {message}", "another message", "c ? CASE receives a message with a tag"
            )
        else:
            types = message.parts
        self.is_as_long(place, types, count)
        return types

    def is_as_long(self, place: Place, types: tuple[core.Type, ...], count: int) -> None:
        if len(types) != count:
            raise expected(place, 47, f"{len(types)} part{'s' * (len(types) != 1)} of the message", str(count))

    def kept_channel(self, place: Place, channel: core.Channel, row: list[core.Process]) -> core.Channel:
        """A channel whose subscript is evaluated once."""
        if isinstance(channel, core.Element) and not isinstance(channel.subscript, Number):
            number = self.new_words(None, place, INT)
            row.append(core.Assign(number, channel.subscript))
            return core.Element(channel.array, core.Variable(number))
        return channel

    def received(self, channel: core.Channel, message: core.Type, target: tree.Received) -> list[core.Process]:
        """The input of one part of a message, and what moves it to its place."""
        if isinstance(message, core.CountedOf):
            return self.received_elements(channel, message, target)
        if isinstance(target, tree.Counted):
            raise expected(target.place, 29, f"a message of type {message}", "a counted array")
        part = self.array_part(target)
        if message is core.ANY and part is not None:
            message = part[2].type
        if isinstance(message, ArrayOf):
            return self.received_array(channel, message, target, part)
        element = self.target(target)
        message = element.type if message is core.ANY else message
        if element.type is not message:
            hint = f"{message} v: declares a variable that can receive it"
            raise expected(target.place, 29, f"a message of type {message}", str(element.type), hint)
        if isinstance(element.cell, core.Variable):
            return [core.Input(channel, kind_of(message), element.cell.number)]
        return [core.InputElement(channel, element.cell.array, element.cell.subscript)]

    def received_elements(
        self, channel: core.Channel, message: core.CountedOf, target: tree.Received
    ) -> list[core.Process]:
        """The input of a count, and of as many elements."""
        if not isinstance(target, tree.Counted) or not isinstance(target.number, (tree.Name, tree.Element)):
            raise expected(target.place, 29, f"a message of type {message}", "one variable", "It is received by n::a")
        assert not isinstance(target.array, tree.Table)
        count, array = self.target(target.number), self.counted_array(message, target.array)
        self.changing_array(*array)
        row = self.received(channel, message.number, target.number)
        to = self.kept_start(target.place, array[2], row)
        index = self.new_words(None, target.place, INT, core.Role.INDEX)
        turn = core.InputElement(channel, array[2].array, added(to, core.Variable(index), self.folds))
        return [*row, core.Repeat(index, Number(0), core.Below(core.size_of(array[2].type) + 1, count.cell), turn)]

    def counted_array(self, message: core.CountedOf, target: tree.Value) -> tuple[tree.Name, Known, Array]:
        part = self.array_part(target)
        if part is None:
            raise expected(target.place, 18, "an array after ::")
        self.is_array_of(target.place, part[2].type, message.array)
        return part

    def received_array(
        self, channel: core.Channel, message: ArrayOf, target: tree.Target, part: tuple[tree.Name, Known, Array] | None
    ) -> list[core.Process]:
        what = 29, f"a message of type {message}"
        if part is None:
            raise expected(target.place, *what, str(self.target(target).type))
        array = part[2]
        self.is_array_of(target.place, array.type, message, what)
        self.changing_array(*part)
        if array.offset is None:
            return [core.InputArray(channel, array.array)]
        kept = self.new_array(target.place, array.type)
        return [core.InputArray(channel, kept.array), self.copy(target.place, array, kept)]

    def outputs(self, target: tree.Target, values: list[tree.Sent]) -> list[core.Process]:
        """`channel ! value; value`"""
        name = target if isinstance(target, tree.Name) else target.name
        channel, message = self.used_channel(target, True)
        if isinstance(message, core.Protocol) and message.tags is not None:
            if not isinstance(values[0], tree.Name):
                raise expected(values[0].place, 16, f"a tag of {message}")
            tag, types = self.tag(message, values[0])
            self.is_as_long(values[0].place, types, len(values) - 1)
            row: list[core.Process] = [core.Output(channel, ElementKind.BYTE, Number(tag))]
            return row + [self.output(channel, it, name.text, value) for it, value in zip(types, values[1:])]
        types = self.types_of_parts(target.place, message, len(values))
        return [self.output(channel, it, name.text, value) for it, value in zip(types, values)]

    def output(self, channel: core.Channel, message: core.Type, name: str, value: tree.Sent) -> core.Process:
        """The output of one part of a message."""
        if isinstance(message, core.CountedOf):
            return self.sent_elements(channel, message, value)
        if isinstance(value, tree.Counted):
            raise expected(value.place, 29, f"a message of type {message}", "a counted array")
        what = 29, f"a message of type {message}"
        whole = self.whole_array(value)
        if whole is not None:
            place, array = whole
            if not isinstance(message, ArrayOf) and message is not core.ANY:
                hint = "SEQ i = 0 FOR SIZE a sends its elements one after another"
                if isinstance(value, tree.Table) and isinstance(value.values, bytes):
                    hint = f"{name} ! 'a' sends one character, and out.string (\"text\", {name}) sends a string"
                raise expected(place, *what, str(array.type), hint)
            if message is not core.ANY:
                self.is_array_of(place, array.type, message, what)
            if array.offset is None:
                return core.OutputArray(channel, array.array)
            kept = self.new_array(place, array.type)
            return core.Sequence(self.copy(place, kept, array), core.OutputArray(channel, kept.array))
        assert not isinstance(value, tree.Table)
        if isinstance(message, ArrayOf):
            typed = self.whole(value)
            raise expected(typed.place, *what, str(typed.type), ARRAY_VALUE)
        typed = self.whole(value) if message is core.ANY else self.value_of(value, message, what)
        return core.Output(channel, kind_of(typed.type), typed.value)

    def sent_elements(self, channel: core.Channel, message: core.CountedOf, value: tree.Sent) -> core.Process:
        """The output of a count, and of as many elements."""
        if not isinstance(value, tree.Counted):
            raise expected(value.place, 29, f"a message of type {message}", "one value", "It is sent as n::a")
        typed = self.value_of(value.number, message.number)
        count = self.new_words(None, value.place, typed.type)
        whole = self.whole_array(value.array)
        if whole is None:
            raise expected(value.array.place, 18, "an array after ::")
        array = whole[1]
        self.is_array_of(whole[0], array.type, message.array)
        index = self.new_words(None, value.place, INT, core.Role.INDEX)
        element = core.Element(array.array, added(array.offset, core.Variable(index), self.folds))
        elements = core.Repeat(index, Number(0), core.Variable(count), core.Output(channel, array.array.kind, element))
        first = core.Output(channel, kind_of(message.number), core.Variable(count))
        return core.in_sequence([core.Assign(count, self.count_of(typed, array.type)), first, elements])

    def count_of(self, typed: Typed, of: ArrayOf) -> core.Expression:
        """How many elements of an array are sent. More than it has are an error before the message."""
        value, most = typed.value, core.size_of(of)
        is_checked = self.around.is_in_place or of.length is None
        if isinstance(value, Number) and value.value > most and not is_checked:
            raise expected(typed.place, 24, f"a count from 0 to {most}", str(signed(value.value)))
        return value if isinstance(value, Number) and value.value <= most else core.Below(most + 1, value)
