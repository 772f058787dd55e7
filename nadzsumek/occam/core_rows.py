"""A core as rows in postfix order: a row names others by their places in its list, which are always earlier ones, so that nothing that
reads them goes deeper than one row."""

from __future__ import annotations

from typing import Any, Union

from . import core
from .core import CoreArray, Expression
from .mistakes import Place, WrongText, expected

# How deep processes are in one another at most: choices of an IF count, each with those after it.
MOST_DEPTH = 4_500

# A row: the name of what it is alone, or with its fields.
Row = Union[str, dict[str, Any]]


class CoreRows:
    """The rows of a core: those of its expressions, and those of its processes, of which the last is the whole program."""

    def __init__(self, process: core.Process) -> None:
        self.expressions: list[Row] = []
        self.processes: list[Row] = []
        self.add(process)

    # ---- processes

    def add(self, process: core.Process) -> None:
        """Adds the rows of a process, each after those of its parts."""
        rest: list[tuple[core.Process, bool]] = [(process, False)]
        # the rows that are still to be named, and how deep each is
        done: list[int] = []
        depths: list[int] = []
        while rest:
            process, are_parts_done = rest.pop()
            parts = parts_of(process)
            if parts and not are_parts_done:
                rest.append((process, True))
                rest.extend((it, False) for it in reversed(parts))
                continue
            first = len(done) - len(parts)
            depth = 1 + max(depths[first:], default=0)
            if depth > MOST_DEPTH:
                raise WrongText(
                    [expected(Place(1, 1), 38, f"a core whose processes are at most {MOST_DEPTH} deep", "more")]
                )
            self.processes.append(self.process(process, done[first:]))
            done[first:], depths[first:] = [len(self.processes) - 1], [depth]

    def process(self, process: core.Process, parts: list[int]) -> Row:
        """The row of a process whose parts have rows."""
        match process:
            case core.Skip() | core.Stop():
                return type(process).__name__
            case core.Line(place):
                return {"Line": [*place, *parts]}
            case core.Choose(guard):
                return {"Choose": [self.guard(guard), *parts]}
            case core.If(condition) | core.While(condition):
                return {type(process).__name__: [self.expression(condition), *parts]}
            case core.Repeat(variable, base, turns):
                return {"Repeat": [variable, self.expression(base), self.expression(turns), *parts]}
            case core.Sequence() | core.Parallel():
                return {type(process).__name__: parts}
        return {type(process).__name__: self.fields(process)}

    def fields(self, process: core.Process) -> list[Any]:
        """The fields of a process without parts."""
        match process:
            case core.Assign(variable, value):
                return [variable, self.expression(value)]
            case core.AssignElement(array, subscript, value):
                return [array_row(array), self.expression(subscript), self.expression(value)]
            case core.Copy(target, source):
                return [array_row(target), array_row(source)]
            case core.Channels(first, words):
                return [first, words]
            case core.Input(channel, kind, variable):
                return [self.channel(channel), kind.value, variable]
            case core.InputElement(channel, array, subscript):
                return [self.channel(channel), array_row(array), self.expression(subscript)]
            case core.InputArray(channel, array) | core.OutputArray(channel, array):
                return [self.channel(channel), array_row(array)]
            case core.Output(channel, kind, value):
                return [self.channel(channel), kind.value, self.expression(value)]
        raise TypeError(type(process).__name__)

    # ---- channels and guards

    def channel(self, channel: core.Channel) -> Row:
        match channel:
            case core.Link(number):
                return {"Link": number}
            case core.Inside(variable):
                return {"Inside": variable}
            case core.Element(array, subscript):
                return {"Element": [array_row(array), self.expression(subscript)]}

    def guard(self, guard: core.Guard) -> Row:
        condition = self.expression(guard.condition)
        return {"Skip": condition} if guard.channel is None else {"Input": [condition, self.channel(guard.channel)]}

    # ---- expressions, which are as deep as a text of 64 parentheses may be

    def expression(self, expression: Expression) -> int:
        """Adds the rows of an expression, and gives the place of its own."""
        row = self.expression_row(expression)
        self.expressions.append(row)
        return len(self.expressions) - 1

    def expression_row(self, expression: Expression) -> Row:
        match expression:
            case core.Number(value):
                return {"Number": value}
            case core.Variable(number):
                return {"Variable": number}
            case core.Element(array, subscript):
                return {"Element": [array_row(array), self.expression(subscript)]}
            case core.One(operation, operand):
                return {"One": [operation, self.expression(operand)]}
            case core.Two(operation, left, right):
                return {"Two": [operation, self.expression(left), self.expression(right)]}
            case core.And(left, right) | core.Or(left, right):
                return {type(expression).__name__: [self.expression(left), self.expression(right)]}
            case core.Below(bound, operand):
                return {"Below": [bound, self.expression(operand)]}


def array_row(array: CoreArray) -> list[int | str]:
    return [array.first, array.length, array.kind.value]


def parts_of(process: core.Process) -> tuple[core.Process, ...]:
    """The processes in a process."""
    match process:
        case core.Line(_, inner) | core.While(_, inner) | core.Repeat(_, _, _, inner):
            return (inner,)
        case core.Sequence(first, second) | core.Parallel(first, second):
            return first, second
        case core.If(_, inner, others) | core.Choose(_, inner, others):
            return inner, others
    return ()
