"""Procedures and functions, whose bodies are put in place."""
from __future__ import annotations

from abc import abstractmethod

from . import core, tree
from .core import ChannelOf
from .declarations import Declarations
from .mistakes import Place, Refused, expected, quoted
from .scope import Access, ChannelPlace, Formal, Known, Mark, Meaning, Procedure, Region
from .values import Typed, Varying


class Procedures(Declarations):
    """Puts the bodies of procedures and functions in place."""

    @abstractmethod
    def process(self, process: tree.Process, is_outermost: bool = False) -> core.Process:
        """A process of the core."""

    def declare_procedure(self, procedure: tree.Procedure | tree.Function) -> None:
        """Makes a procedure known. Its body is checked once with parameters of its own, unless it is in one that is put in
        place."""
        formals = [
            Formal(name, it.is_value, of)
            for it in procedure.formals
            for of in [self.attempt(self.type_of, it.type, it.names[0].place)]
            for name in it.names
        ]
        if not self.around.is_in_place:
            with self.checked(procedure.name.text):
                for formal in formals:
                    self.declare_formal(formal)
                if isinstance(procedure, tree.Function):
                    self.attempt(self.results, procedure)
                else:
                    self.process(procedure.process)
        self.scope.is_complete = True
        is_before = self.around.is_before
        name = tree.Name(procedure.name.text, Place(0, 0)) if is_before else procedure.name
        self.know(name, Procedure(procedure, formals, self.scope, is_before), 0)

    def declare_formal(self, formal: Formal) -> None:
        """Makes a parameter known in a body that is only checked."""
        name = formal.name
        if name.text in self.scope.names:
            self.notes.add(
                expected(name.place, 17, "each name once among the parameters", f"{quoted(name.text)} again")
            )
            return
        access = Access.PARAMETER if formal.is_value else Access.CHANGING
        self.know(name, self.attempt(self.new_meaning, name, formal.type, access, ChannelPlace.PARAMETER))

    def instance(self, process: tree.Instance) -> core.Process:
        """The evaluation of the actual parameters, and then the body with them."""
        known = self.found(process.name)
        procedure = known.meaning
        if not isinstance(procedure, Procedure) or isinstance(procedure.source, tree.Function):
            raise expected(process.place, 18, "a PROC", known.described)
        marks = len(self.marks)
        row: list[core.Process] = []
        bound = self.bound_names(process, procedure, row)
        if bound is not None and not self.around.is_checked and self.notes.has_room:
            row.append(self.put_in_place(process.place, procedure, bound))
        del self.marks[marks:]
        return self.at_line(process.place, core.in_sequence(row))

    def call(self, call: tree.Call) -> list[Typed]:
        """The results of a function, whose body is done before the statement."""
        known = self.found(call.name)
        function = known.meaning
        if not isinstance(function, Procedure) or not isinstance(function.source, tree.Function):
            raise expected(call.place, 18, "a FUNCTION", known.described)
        named, marks = self.named, len(self.marks)
        self.goes_deeper(call.place)
        try:
            values = self.called(call, function)
        finally:
            self.levels -= 1
            self.named = named
            del self.marks[marks:]
        varies = Varying(call.place, known.described, False)
        return [Typed(call.place, of, value, varies) for of, value in zip(function.source.types, values)]

    def called(self, call: tree.Call, function: Procedure) -> list[core.Expression]:
        """The results of a function: constants, or variables of its own. What evaluates them is done before the statement."""
        assert isinstance(function.source, tree.Function)
        around, first, place = self.around, self.words, call.place
        row: list[core.Process] = []
        bound = self.bound_names(call, function, row)
        if bound is None:
            raise Refused
        if around.is_checked or not self.notes.has_room:
            return [core.Variable(0) for _ in function.source.types]
        self.notes.around = around._replace(instance=place.line)
        with self.block(function.scope), self.hoisting() as steps:
            for it in bound:
                self.know(it.name, it.meaning, it.rank)
            results = self.attempt(self.results, function.source)
        self.notes.around = around
        if results is None:
            raise Refused
        values = [self.kept_result(place, it, first, steps) for it in results]
        self.steps.append(self.at_line(place, core.in_sequence([*row, *steps])))
        return values

    def kept_result(self, place: Place, typed: Typed, first: int, row: list[core.Process]) -> core.Expression:
        """A result, which no other variable changes: a constant, or a word after the first ones."""
        value = typed.value
        if isinstance(value, core.Number) or isinstance(value, core.Variable) and value.number >= first:
            return value
        number = self.new_words(None, place, typed.type)
        row.append(core.Assign(number, value))
        return core.Variable(number)

    def results(self, function: tree.Function) -> list[Typed]:
        """The results of a function whose parameters are known. It changes nothing that was there before, and has no messages."""
        self.marks.append(Mark(Region(0, 4 * self.words), True, function.name))
        around, self.notes.around = self.around, self.around._replace(is_function=True)
        row: list[core.Process] = []
        for declaration in function.declarations:
            self.declare(declaration, False, row)
        self.steps.append(core.in_sequence([*row, self.process(function.process)]))
        self.notes.around = around
        if len(function.types) != len(function.results):
            raise expected(function.name.place, 51, f"{len(function.types)} results", str(len(function.results)))
        return [self.value_of(it, of) for it, of in zip(function.results, function.types)]

    def bound_names(
        self, process: tree.Instance | tree.Call, procedure: Procedure, row: list[core.Process]
    ) -> list[Known] | None:
        """The parameters with what they mean in an instance, or None if any is wrong."""
        wanted, met = len(procedure.formals), len(process.actuals)
        if wanted != met:
            raise expected(process.place, 32, f"{wanted} actual parameter{'s' if wanted != 1 else ''}", str(met))
        bound = []
        for formal, actual in zip(procedure.formals, process.actuals):
            if procedure.is_before:
                formal = formal._replace(name=tree.Name(formal.name.text, process.place))
            meaning = self.attempt(self.bound_meaning, formal, actual, row)
            if meaning is not None:
                bound.append(Known(formal.name, meaning, len(self.marks)))
        return bound if len(bound) == wanted else None

    def bound_meaning(self, formal: Formal, actual: tree.Value, row: list[core.Process]) -> Meaning:
        if formal.type is None:
            raise Refused
        if formal.is_value:
            return self.value_meaning(formal.name, formal.type, actual, row)
        if isinstance(actual, (tree.Name, tree.Element, tree.Slice)):
            return self.renamed(formal.name, formal.type, actual, row)
        what = (
            str(formal.type)
            if isinstance(core.base_of(formal.type), ChannelOf)
            else f"a variable of type {formal.type}"
        )
        if isinstance(actual, tree.Table):
            raise expected(actual.place, 33, what, "a table")
        raise expected(self.whole(actual).place, 33, what, "an expression")

    def put_in_place(self, place: Place, procedure: Procedure, bound: list[Known]) -> core.Process:
        """The body of a procedure with these parameters."""
        around = self.around
        if around.prelude is None:
            self.notes.around = (
                around._replace(prelude=place) if procedure.is_before else around._replace(instance=place.line)
            )
        with self.block(procedure.scope):
            for known in bound:
                self.know(known.name, known.meaning, known.rank)
            body = self.process(procedure.source.process)
        self.notes.around = around
        return body
