"""Which names of a text are used, and which procedure or function each instance is of. What a name means is found by where it is declared
alone, so of a text whose names and types are right."""

from __future__ import annotations

from collections.abc import Iterable
from typing import NamedTuple

from . import tree
from .mistakes import Place


class Instance(NamedTuple):
    """Where an instance is, and the index of what it is one of."""

    place: Place
    procedure: int


class Walked:
    """A name that is known, whether it is used or needn't be, and the index of the procedure that it means, if it means one."""

    __slots__ = ("name", "is_used", "procedure", "hidden")

    def __init__(self, name: tree.Name, is_used: bool, procedure: int | None, hidden: Walked | None) -> None:
        self.name, self.is_used, self.procedure, self.hidden = name, is_used, procedure, hidden


class SourceNames:
    """What is known of the names of a text: those that are declared and not used, but for indices and parameters, which needn't be;
    the procedures and functions in the order of their declarations; and their instances."""

    def __init__(self, prelude: Iterable[tree.Declaration], program: tree.Process) -> None:
        """`prelude` is declared before each text, and needs no use."""
        self.known: list[Walked] = []
        self.meant: dict[str, Walked | None] = {}
        self.unused: list[tree.Name] = []
        self.procedures: list[tree.Name] = []
        self.instances: list[Instance] = []
        for declaration in prelude:
            if isinstance(declaration, tree.Procedure):
                self.know_procedure(tree.Name(declaration.name.text, Place(0, 0)), True)
        self.process(program)

    # ---- names

    def know(self, name: tree.Name, is_used: bool = False, procedure: int | None = None) -> None:
        walked = Walked(name, is_used, procedure, self.meant.get(name.text))
        self.meant[name.text] = walked
        self.known.append(walked)

    def know_procedure(self, name: tree.Name, is_used: bool = False) -> None:
        self.know(name, is_used, len(self.procedures))
        self.procedures.append(name)

    def leave(self, count: int) -> None:
        """Forgets all names but the first `count`, and notes those that weren't used."""
        while len(self.known) > count:
            walked = self.known.pop()
            self.meant[walked.name.text] = walked.hidden
            if not walked.is_used:
                self.unused.append(walked.name)

    def use(self, name: tree.Name) -> None:
        """Notes that a name is used."""
        walked = self.meant.get(name.text)
        if walked is not None:
            walked.is_used = True

    def instance(self, process: tree.Instance | tree.Call) -> None:
        walked = self.meant.get(process.name.text)
        self.use(process.name)
        if walked is not None and walked.procedure is not None:
            self.instances.append(Instance(process.place, walked.procedure))
        for actual in process.actuals:
            self.value(actual)

    # ---- values and types

    def value(self, value: tree.Sent) -> None:
        """A value, or what is received or gets a value."""
        match value:
            case tree.Name():
                self.use(value)
            case tree.Element(name, subscripts):
                self.use(name)
                for subscript in subscripts:
                    self.value(subscript)
            case tree.Slice(_, original, base, length):
                for part in (original, base, length):
                    self.value(part)
            case tree.Size(_, original) | tree.Monadic(_, _, original) | tree.Converted(_, _, original):
                self.value(original)
            case tree.Dyadic(_, _, left, right):
                self.value(left)
                self.value(right)
            case tree.Counted(_, number, array):
                self.value(number)
                self.value(array)
            case tree.Call():
                self.instance(value)
            case tree.Table(_, values) if isinstance(values, list):
                self.values(values)

    def values(self, values: Iterable[tree.Sent]) -> None:
        for value in values:
            self.value(value)

    def type_of(self, of: tree.Type) -> None:
        """The sizes in a type, and the protocol of a channel."""
        match of:
            case tree.ArrayType(size, element):
                if size is not None:
                    self.value(size)
                self.type_of(element)
            case tree.ChannelType(message):
                if isinstance(message, tree.Name):
                    self.use(message)
                elif message is not None:
                    self.type_of(message)
            case tree.CountedType(number, array):
                self.type_of(number)
                self.type_of(array)

    # ---- declarations

    def declare(self, declaration: tree.Declaration) -> None:
        match declaration:
            case tree.Variables(of, names):
                self.type_of(of)
                for name in names:
                    self.know(name)
            case tree.Placed(name, number):
                self.use(name)
                self.value(number)
            case tree.NamedValue(of, name, value):
                if of is not None:
                    self.type_of(of)
                self.value(value)
                self.know(name)
            case tree.Renamed(of, name, original):
                self.type_of(of)
                self.value(original)
                self.know(name)
            case tree.Protocol(name, parts, tags):
                for part in (*parts, *(part for _, after in tags for part in after)):
                    self.type_of(part)
                self.know(name)
            case tree.Procedure() | tree.Function():
                self.procedure(declaration)

    def procedure(self, procedure: tree.Procedure | tree.Function) -> None:
        """A procedure or a function, which is known after its body."""
        count = len(self.known)
        for formal in procedure.formals:
            self.type_of(formal.type)
        for formal in procedure.formals:
            for name in formal.names:
                self.know(name, True)
        if isinstance(procedure, tree.Function):
            for declaration in procedure.declarations:
                self.declare(declaration)
        self.process(procedure.process)
        if isinstance(procedure, tree.Function):
            self.values(procedure.results)
        self.leave(count)
        self.know_procedure(procedure.name)

    # ---- processes

    def process(self, process: tree.Process) -> None:
        count = len(self.known)
        match process:
            case tree.Sequence(_, replicator, processes) | tree.Parallel(_, replicator, processes):
                self.replicator(replicator)
                for inner in processes:
                    self.process(inner)
            case tree.Loop(_, condition, inner):
                self.value(condition)
                self.process(inner)
            case tree.Declared(declarations, inner):
                for declaration in declarations:
                    self.declare(declaration)
                self.process(inner)
            case tree.Conditional():
                self.conditional(process)
            case tree.Alternation():
                self.alternation(process)
            case tree.Case(_, selector, options):
                self.value(selector)
                for option in options:
                    self.values(option.values)
                    self.process(option.process)
            case _:
                self.statement(process)
        self.leave(count)

    def statement(self, process: tree.Process) -> None:
        """A process that has no others in it, but for what follows a tag."""
        match process:
            case tree.Assignment(_, target, value):
                self.values((target, value))
            case tree.Assignments(_, targets, values):
                self.values((*targets, *values))
            case tree.Output(_, channel, sent):
                self.values((channel, *sent))
            case tree.Input() | tree.CaseInput():
                self.input(process)
            case tree.Instance():
                self.instance(process)

    def input(self, process: tree.Input | tree.CaseInput) -> None:
        self.value(process.channel)
        if isinstance(process, tree.Input):
            self.values(process.targets)
            return
        for variant in process.variants:
            self.values(variant.targets)
            self.process(variant.process)

    def replicator(self, replicator: tree.Replicator | None) -> None:
        """The base and the count of a replicator, and then its index, which needn't be used."""
        if replicator is not None:
            self.value(replicator.base)
            self.value(replicator.turns)
            self.know(replicator.variable, True)

    def conditional(self, conditional: tree.Conditional) -> None:
        count = len(self.known)
        self.replicator(conditional.replicator)
        for choice in conditional.choices:
            if isinstance(choice, tree.Conditional):
                self.conditional(choice)
            else:
                self.value(choice.condition)
                self.process(choice.process)
        self.leave(count)

    def alternation(self, alternation: tree.Alternation) -> None:
        count = len(self.known)
        self.replicator(alternation.replicator)
        for alternative in alternation.alternatives:
            if isinstance(alternative, tree.Alternation):
                self.alternation(alternative)
                continue
            if alternative.condition is not None:
                self.value(alternative.condition)
            if alternative.input is not None:
                self.input(alternative.input)
            self.process(alternative.process)
        self.leave(count)
