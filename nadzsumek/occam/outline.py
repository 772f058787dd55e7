"""The processes of a core in a row, and the words that each of them uses."""

from __future__ import annotations

from collections.abc import Iterator
from enum import Enum
from typing import NamedTuple

from . import core
from .core import Expression
from .mistakes import Place


class Node:
    """A process before its parts, and these in the order of the text. Its role is what it is in its parent: `whole`, `item`,
    `component`, `turn`, `scope`, `choice` with a condition, or `alternative` with a guard and its input. Its place is where it
    begins in the text, or else where its parent does. `end` is the index after its parts, and after theirs."""

    __slots__ = ("process", "role", "parent", "place", "condition", "guard", "input", "end")

    def __init__(self, process: core.Process, role: str, parent: int, place: Place) -> None:
        self.process, self.role, self.parent, self.place = process, role, parent, place
        self.condition: Expression | None = None
        self.guard: core.Guard | None = None
        self.input: core.Process | None = None
        self.end = 0

    @property
    def is_channels(self) -> bool:
        """Whether it makes channels, and its part is all that may use them."""
        return isinstance(self.process, core.Sequence) and channels_in(self.process.first) is not None


def bare(process: core.Process) -> core.Process:
    """A process without its place."""
    while isinstance(process, core.Line):
        process = process.process
    return process


def channels_in(process: core.Process) -> core.Channels | None:
    """The channels that a process makes of variables, if it does nothing else."""
    process = bare(process)
    return process if isinstance(process, core.Channels) else None


def outline(process: core.Process) -> list[Node]:
    """The processes of a core."""
    nodes: list[Node] = []
    # What is still to be added, the next one last; a number is the index of a process that ends there.
    rest: list[Node | int] = [Node(process, "whole", 0, Place(1, 1))]
    while rest:
        node = rest.pop()
        if isinstance(node, int):
            nodes[node].end = len(nodes)
            continue
        while isinstance(node.process, core.Line):
            node.place, node.process = node.process.place, node.process.process
        index = len(nodes)
        nodes.append(node)
        rest.append(index)
        rest.extend(reversed(parts_of(node, index)))
    return nodes


def parts_of(node: Node, index: int) -> list[Node]:
    """The parts of a process with this index."""
    process, place = node.process, node.place
    match process:
        case core.Sequence(first, second):
            if node.is_channels:
                return [Node(second, "scope", index, place)]
            return [Node(first, "item", index, place), Node(second, "item", index, place)]
        case core.While(_, inner) | core.Repeat(_, _, _, inner):
            return [Node(inner, "turn", index, place)]
        case core.Parallel():
            return [Node(it, "component", index, place) for it in components_of(process)]
        case core.If():
            return choices_of(process, index, place)
        case core.Choose():
            return alternatives_of(process, index, place)
    return []


def components_of(process: core.Process) -> list[core.Process]:
    """What is done at the same time."""
    row = []
    while isinstance(process, core.Parallel):
        row.append(process.first)
        process = process.others
    return [*row, process]


def choices_of(process: core.Process, index: int, place: Place) -> list[Node]:
    """The choices of an IF."""
    row = []
    while isinstance(process, core.If):
        node = Node(process.process, "choice", index, place)
        node.condition = process.condition
        row.append(node)
        process = process.others
    return row


def alternatives_of(process: core.Process, index: int, place: Place) -> list[Node]:
    """The alternatives of an ALT. The process of one begins with the input of its guard, if it has one."""
    row = []
    while isinstance(process, core.Choose):
        node = Node(process.process, "alternative", index, place)
        node.guard = process.guard
        if process.guard.channel is not None and isinstance(node.process, core.Sequence):
            node.input, node.process = node.process.first, node.process.second
        row.append(node)
        process = process.others
    return row


# ---- uses


class Way(Enum):
    """What is done with a word."""

    READS = 0
    CHANGES = 1
    SENDS = 2
    RECEIVES = 3


class Use(NamedTuple):
    """A use of words: the first of them, and how many they are; of an array of variables it is the first word alone. `is_known` is
    whether each of them is used, and not one that isn't known. `node` is the index of the process that uses them itself.
    """

    way: Way
    first: int
    words: int
    is_known: bool
    node: int
    place: Place


class Uses:
    """The uses of all processes of an outline, in the order of the text."""

    def __init__(self, nodes: list[Node]) -> None:
        self.list: list[Use] = []
        for index, it in enumerate(nodes):
            self.node, self.place = it.parent, it.place
            self.add_role(it)
            self.node, self.place = index, it.place
            self.add_form(it.process)

    def add(self, way: Way, first: int, words: int = 1, is_known: bool = True) -> None:
        self.list.append(Use(way, first, words, is_known, self.node, self.place))

    def add_role(self, node: Node) -> None:
        """What the process uses that has a part with this role."""
        if node.condition is not None:
            self.add_expression(node.condition)
        if node.guard is not None:
            self.add_expression(node.guard.condition)
        if node.input is not None:
            self.add_statement(node.input)

    def add_form(self, process: core.Process) -> None:
        """What a process uses itself."""
        match process:
            case core.While(condition, _):
                self.add_expression(condition)
            case core.Repeat(number, base, turns, _):
                self.add_expression(base)
                self.add_expression(turns)
                self.add(Way.CHANGES, number)
            case _:
                self.add_statement(process)

    def add_expression(self, expression: Expression) -> None:
        """What an expression reads; of an array it is the first word."""
        match expression:
            case core.Variable(number):
                self.add(Way.READS, number)
            case core.Element(array, subscript):
                self.add_expression(subscript)
                self.add(Way.READS, array.first)
            case core.One(_, operand) | core.Below(_, operand):
                self.add_expression(operand)
            case core.Two(_, left, right) | core.And(left, right) | core.Or(left, right):
                self.add_expression(left)
                self.add_expression(right)

    def add_channel(self, way: Way, channel: core.Channel) -> None:
        """A channel by which is sent or received."""
        match channel:
            case core.Inside(number):
                self.add(way, number)
            case core.Element(array, subscript):
                self.add_expression(subscript)
                self.add(way, array.first, array.length, False)

    def add_statement(self, process: core.Process) -> None:
        """What a process uses that has no parts."""
        while isinstance(process, core.Line):
            self.place, process = process.place, process.process
        match process:
            case core.Assign(number, value):
                self.add_expression(value)
                self.add(Way.CHANGES, number)
            case core.AssignElement(array, subscript, value):
                self.add_expression(value)
                self.add_expression(subscript)
                self.add(Way.CHANGES, array.first)
            case core.Copy(target, source):
                self.add(Way.READS, source.first)
                self.add(Way.CHANGES, target.first)
            case core.Output(channel, _, value):
                self.add_expression(value)
                self.add_channel(Way.SENDS, channel)
            case core.OutputArray(channel, array):
                self.add(Way.READS, array.first)
                self.add_channel(Way.SENDS, channel)
            case core.Input(channel, _, number):
                self.add_channel(Way.RECEIVES, channel)
                self.add(Way.CHANGES, number)
            case core.InputElement(channel, array, subscript):
                self.add_channel(Way.RECEIVES, channel)
                self.add_expression(subscript)
                self.add(Way.CHANGES, array.first)
            case core.InputArray(channel, array):
                self.add_channel(Way.RECEIVES, channel)
                self.add(Way.CHANGES, array.first)
