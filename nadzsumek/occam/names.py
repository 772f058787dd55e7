"""From a text to its core."""
from __future__ import annotations

from collections.abc import Callable
from functools import cache, partial
from typing import TypeVar

from . import core, tree
from .constants import signed
from .core import Arm, CoreProgram, Number, otherwise
from .mistakes import Place, Refused, WrongText, expected, own_mistake
from .reader import tree_of
from .scope import Access, Constant, Variable
from .statements import Statements
from .values import BOOL, INT, Typed, Unknown

R = TypeVar("R")
MOST_CHOICES, MOST_COMPONENTS = 1_000, 256
# Procedures that each text may use without declaring them. They have no tables, and change nothing but variables of their own.
PRELUDE = b"""\
PROC out.string (VAL []BYTE s, CHAN OF BYTE c)
  SEQ i = 0 FOR SIZE s
    c ! s[i]
:
PROC out.int (VAL INT n, CHAN OF BYTE c)
  [10]BYTE digits:
  INT rest, first:
  SEQ
    IF
      n < 0
        SEQ
          c ! '-'
          rest := n
      TRUE
        rest := MINUS n
    first := 9
    digits[9] := BYTE (48 - (rest \\ 10))
    rest := rest / 10
    WHILE rest <> 0
      SEQ
        first := first - 1
        digits[first] := BYTE (48 - (rest \\ 10))
        rest := rest / 10
    SEQ i = first FOR 10 - first
      c ! digits[i]
:
SKIP
"""


@cache
def prelude() -> list[tree.Declaration]:
    """What is declared before each text."""
    process = tree_of(PRELUDE)
    assert isinstance(process, tree.Declared)
    return process.declarations


def core_of_tree(process: tree.Process) -> CoreProgram:
    """The core of a text.

    Raises WrongText.
    """
    program = core_with(Namer(None), process)
    # The words of tables come before all others, so that these are counted first.
    return core_with(Namer(len(program.tables)), process) if program.tables else program


def core_with(namer: Namer, process: tree.Process) -> CoreProgram:
    try:
        return namer.program(process)
    except WrongText:
        raise
    except Exception as error:  # pylint: disable=broad-exception-caught
        place = namer.around.prelude or (Place(1, 1) if namer.around.is_before else namer.at)
        raise WrongText([own_mistake(error, place)]) from error


class Namer(Statements):
    """Finds what the processes of a text mean."""

    def program(self, process: tree.Process) -> CoreProgram:
        """The core of a whole text.

        Raises WrongText.
        """
        row: list[core.Process] = []
        self.notes.around = self.around._replace(is_before=True)
        for declaration in prelude():
            self.declare(declaration, False, row)
        self.notes.around = self.around._replace(is_before=False)
        row.append(self.process(process, True))
        if self.notes.mistakes:
            raise WrongText(self.notes.mistakes, self.notes.are_more)
        return CoreProgram(core.in_sequence(row), self.declarations, self.links, self.tables, self.folds)

    # ---- processes

    def process(self, process: tree.Process, is_outermost: bool = False) -> core.Process:
        """A process of the core. What is wrong with it is noted, and then it does nothing."""
        return self.attempt(self.deeper_process, process, is_outermost) or core.Skip()

    def deeper_process(self, process: tree.Process, is_outermost: bool) -> core.Process:
        self.at = process.place
        self.goes_deeper(process.place)
        self.notes.count(process.place)
        with self.hoisting() as steps:
            found = self.attempt(self.process_of, process, is_outermost)
        self.levels -= 1
        if found is None:
            raise Refused
        return self.at_line(process.place, core.in_sequence([*steps, found])) if steps else found

    def process_of(self, process: tree.Process, is_outermost: bool) -> core.Process:
        match process:
            case tree.Assignment(place, target, value):
                return self.at_line(place, self.assignment(target, value))
            case tree.Assignments(place, targets, values):
                return self.at_line(place, self.assignments(targets, values))
            case tree.Input(place) | tree.CaseInput(place):
                return self.at_line(place, core.in_sequence(self.inputs(process)))
            case tree.Output(place, channel, values):
                return self.at_line(place, core.in_sequence(self.outputs(channel, values)))
            case tree.Sequence(place, None, processes):
                return core.in_sequence([self.process(it) for it in processes])
            case tree.Sequence(place, tree.Replicator() as replicator, [body]):
                return self.repetition(place, replicator, body)
            case tree.Conditional(place):
                return self.at_line(place, self.conditional(process))
            case tree.Declared(declarations, body):
                return self.with_declarations(declarations, body, is_outermost)
            case tree.Instance():
                return self.instance(process)
            case tree.Case(place):
                return self.at_line(place, self.case(process))
            case tree.Loop(place, condition, body):
                return self.loop(place, condition, body)
            case tree.Parallel():
                return self.parallel(process)
            case tree.Alternation():
                return self.alternation(process)
            case tree.Stop(place):
                return self.at_line(place, core.Stop())
            case _:
                return core.Skip()

    def with_declarations(
        self, declarations: list[tree.Declaration], body: tree.Process, is_outermost: bool
    ) -> core.Process:
        row: list[core.Process] = []
        channels = len(self.channels)
        with self.block():
            for declaration in declarations:
                self.declare(declaration, is_outermost, row)
            self.give_words(channels, row)
            row.append(self.process(body))
        return core.in_sequence(row)

    def repetition(self, place: Place, replicator: tree.Replicator, body: tree.Process) -> core.Process:
        """`SEQ` with a replicator."""
        base = self.attempt(self.value_of, replicator.base, INT)
        count = self.attempt(self.repeat_count, replicator.turns)
        index = self.attempt(self.new_words, replicator.variable.text, replicator.variable.place, INT, core.Role.INDEX)
        with self.block():
            self.know(replicator.variable, None if index is None else Variable(INT, core.Variable(index), Access.INDEX))
            inner = self.process(body)
        if base is None or count is None or index is None:
            return core.Skip()
        return self.at_line(place, core.Repeat(index, base.value, count, inner))

    def repeat_count(self, expression: tree.Expression) -> core.Expression:
        count = self.value_of(expression, INT)
        if isinstance(count.value, Number) and signed(count.value.value) < 0 and not self.around.is_in_place:
            raise expected(count.place, 23, "a count from 0 on", str(signed(count.value.value)))
        return count.value

    def loop(self, place: Place, expression: tree.Expression, body: tree.Process) -> core.Process:
        """`WHILE`; what its condition calls is done before each turn."""
        with self.hoisting() as steps:
            condition = self.attempt(self.condition, expression)
        inner = self.process(body)
        if condition is None:
            return core.Skip()
        if not steps:
            return self.at_line(place, core.While(condition, inner))
        number = self.new_words(None, place, BOOL)
        turn = core.If(core.Variable(number), inner, otherwise(core.Skip()))
        turns = core.While(core.Variable(number), core.in_sequence([*steps, core.Assign(number, condition), turn]))
        return self.at_line(place, core.Sequence(core.Assign(number, Number(1)), turns))

    def conditional(self, process: tree.Conditional) -> core.Process:
        arms = self.arms(process)
        if len(arms) > MOST_CHOICES:
            self.notes.add(expected(process.place, 38, f"an IF of at most {MOST_CHOICES} choices", "more"))
        chain: core.Process = core.Stop()
        for arm in reversed(arms):
            chain = arm(chain)
        return chain

    def arms(self, conditional: tree.Conditional) -> list[Arm]:
        """The choices of an IF, those of inner ones among them. Each is made with what is done if it isn't taken."""
        if conditional.replicator is not None:
            searched = self.attempt(self.search, conditional.replicator, conditional.choices[0])
            return [] if searched is None else [searched]
        found: list[Arm] = []
        for choice in conditional.choices:
            if isinstance(choice, tree.Conditional):
                found += self.arms(choice)
                continue
            with self.hoisting() as steps:
                condition = self.attempt(self.condition, choice.condition)
            process = self.process(choice.process)
            if condition is not None and steps:
                found.append(self.arm_after(steps, condition, process))
            elif condition is not None:
                found.append(partial(core.If, condition, process))
        return found

    def arm_after(self, steps: list[core.Process], condition: core.Expression, process: core.Process) -> Arm:
        """A choice before whose condition something is done."""
        return lambda others: otherwise(core.in_sequence([*steps, core.If(condition, process, others)]))

    def search(self, replicator: tree.Replicator, choice: tree.Choice | tree.Conditional) -> Arm:
        """The choices for each value of an index: they are looked at in turn until one is taken."""
        name = replicator.variable
        with self.hoisting() as steps:
            base, turns = self.value_of(replicator.base, INT).value, self.repeat_count(replicator.turns)
        index, left = self.new_words(name.text, name.place, INT), self.new_words(None, name.place, INT)
        found = self.new_words(None, name.place, BOOL)
        with self.block():
            self.know(name, Variable(INT, core.Variable(index), Access.INDEX))
            arms = self.arms(tree.Conditional(name.place, None, [choice]))
        goes_on = core.And(core.One("Not", core.Variable(found)), core.Two("Greater", core.Variable(left), Number(0)))
        turn: core.Process = otherwise(core.in_sequence(next_turn(index, left, found)))
        for arm in reversed(arms):
            turn = arm(turn)
        is_negative = core.Two("Less", core.Variable(left), Number(0))
        row = [
            *(*steps, core.Assign(index, base), core.Assign(left, turns), core.Assign(found, Number(0))),
            core.If(is_negative, core.Stop(), otherwise(core.Skip())),
            core.While(goes_on, core.Sequence(core.Assign(found, Number(1)), turn)),
        ]
        loop = core.in_sequence(row)
        return lambda others: otherwise(core.Sequence(loop, core.If(core.Variable(found), core.Skip(), others)))

    def case(self, process: tree.Case) -> core.Process:
        """A choice for each option, between which the order makes no difference. What isn't a variable is found once."""
        row: list[core.Process] = []
        selector = self.attempt(self.selector, process.selector, row)
        lines: dict[int | None, int] = {}
        arms: list[Arm] = []
        others: core.Process = core.Stop()
        if len(process.options) > MOST_CHOICES:
            self.notes.add(expected(process.place, 38, f"a CASE of at most {MOST_CHOICES} options", "more"))
        for option in process.options:
            condition = selector and self.attempt(self.option_condition, option, selector, lines)
            inner = self.process(option.process)
            if not option.values:
                others = otherwise(inner)
            elif condition is not None:
                arms.append(partial(core.If, condition, inner))
        for arm in reversed(arms):
            others = arm(others)
        return core.in_sequence([*row, others])

    def selector(self, expression: tree.Expression, row: list[core.Process]) -> Typed:
        """The value of a selector: a constant or a variable."""
        typed = self.whole(expression)
        if isinstance(typed.value, (Number, core.Variable)):
            return typed
        number = self.new_words(None, typed.place, typed.type)
        row.append(core.Assign(number, typed.value))
        return typed._replace(value=core.Variable(number))

    def option_condition(self, option: tree.Option, selector: Typed, lines: dict[int | None, int]) -> core.Expression:
        """Whether a selector is one of the values of an option. `lines` has those of the options before it; that of ELSE is None."""
        conditions: list[core.Expression] = []
        if not option.values and lines.setdefault(None, option.place.line) != option.place.line:
            raise expected(option.place, 46, "ELSE once in a CASE", f"that of line {lines[None]} again")
        for expression in option.values:
            typed = self.value_of(expression, selector.type)
            value = self.constant(typed)
            if isinstance(value, int) and lines.setdefault(value, option.place.line) != option.place.line:
                raise expected(
                    typed.place,
                    46,
                    "each value in one option of CASE",
                    f"one of the option in line {lines[value]} again",
                )
            conditions.append(core.Two("Equal", selector.value, typed.value))
        return core.either(conditions) if conditions else Number(1)

    # ---- PAR and ALT

    def index_values(self, replicator: tree.Replicator, few: str) -> range | Unknown | None:
        """The values of an index, or None if they are wrong, which is noted."""
        base = self.attempt(self.index_base, replicator.base)
        count = self.attempt(self.index_count, replicator.turns, few)
        if base is None or count is None or Unknown.OPEN in (base, count):
            return Unknown.OPEN if base is not None and count is not None else None
        return Unknown.ERROR if isinstance(base, Unknown) or isinstance(count, Unknown) else range(base, base + count)

    def index_base(self, expression: tree.Expression) -> int | Unknown:
        return self.constant(self.value_of(expression, INT))

    def index_count(self, expression: tree.Expression, few: str) -> int | Unknown:
        typed = self.value_of(expression, INT)
        count = self.constant(typed)
        if isinstance(count, Unknown) or count <= MOST_COMPONENTS:
            return count
        if signed(count) > 0:
            raise expected(typed.place, 38, few, "more")
        if self.around.is_in_place:
            return Unknown.ERROR
        raise expected(typed.place, 23, "a count from 0 on", str(signed(count)))

    def each_value(self, replicator: tree.Replicator, few: str, find: Callable[[], R]) -> list[R] | core.Process:
        """What is found for each value of an index, or the process that is there if that isn't known. It is found once with an
        index that rests on parameters, unless that was done where the body was checked in which it is."""
        index = replicator.variable
        values = self.index_values(replicator, few)
        if not self.around.is_in_place:
            with self.checked():
                number = self.attempt(self.new_words, index.text, index.place, INT)
                self.know(
                    index, None if number is None else Variable(INT, core.Variable(number), Access.CONSTANT_INDEX)
                )
                find()
        if values is Unknown.ERROR:
            return core.Stop()
        if not isinstance(values, range) or self.around.is_checked:
            return core.Skip()
        row: list[R] = []
        around = self.around
        self.notes.around = around._replace(is_replicated=True)
        for value in values:
            if self.notes.has_room:
                with self.block():
                    self.know(index, Constant(INT, value & core.WORD))
                    row.append(find())
        self.notes.around = around
        return row

    def parallel(self, process: tree.Parallel) -> core.Process:
        few = f"at most {MOST_COMPONENTS} components of PAR"
        if process.replicator is None:
            if len(process.processes) > MOST_COMPONENTS:
                self.notes.add(expected(process.place, 38, few, "more"))
            row = [self.process(it) for it in process.processes]
        else:
            found = self.each_value(process.replicator, few, lambda: self.process(process.processes[0]))
            if not isinstance(found, list):
                return found if isinstance(found, core.Skip) else self.at_line(process.place, found)
            row = found
        inner = core.in_parallel(row)
        return inner if len(row) < 2 else self.at_line(process.place, inner)

    def alternation(self, process: tree.Alternation) -> core.Process:
        row = self.alternatives(process)
        if not isinstance(row, list):
            return row if isinstance(row, core.Skip) else self.at_line(process.place, row)
        return self.at_line(process.place, core.alternation_of(row))

    def alternatives(self, process: tree.Alternation) -> list[tuple[core.Guard, core.Process]] | core.Process:
        """Guards and their processes, those of inner ALTs among them."""
        few = f"at most {MOST_COMPONENTS} alternatives of ALT"
        if process.replicator is None:
            found: list[list[tuple[core.Guard, core.Process]]] | core.Process = [
                self.alternative(it) for it in process.alternatives
            ]
        else:
            found = self.each_value(process.replicator, few, lambda: self.alternative(process.alternatives[0]))
        if not isinstance(found, list):
            return found
        row = [it for part in found for it in part]
        if len(row) > MOST_COMPONENTS:
            self.notes.add(expected(process.place, 38, few, "more"))
        return row

    def alternative(self, alternative: tree.Alternative | tree.Alternation) -> list[tuple[core.Guard, core.Process]]:
        """A guard and its process, which begins with the input of the guard; nothing if the guard is wrong."""
        if isinstance(alternative, tree.Alternation):
            inner = self.alternatives(alternative)
            return inner if isinstance(inner, list) else []
        condition: core.Expression | None = Number(1)
        if alternative.condition is not None:
            condition = self.attempt(self.condition, alternative.condition)
        received = alternative.input and self.attempt(self.inputs, alternative.input, True)
        process = self.process(alternative.process)
        if condition is None or (alternative.input is not None and received is None):
            return []
        if alternative.input is None or not received:
            return [(core.Guard(condition, None), process)]
        first, *others = received
        assert isinstance(first, (core.Input, core.InputElement, core.InputArray))
        process = core.Sequence(self.at_line(alternative.input.place, first), core.in_sequence([*others, process]))
        return [(core.Guard(condition, first.channel), process)]


def next_turn(index: int, left: int, found: int) -> list[core.Process]:
    """What is done in IF with a replicator where no choice is taken: the index grows, and fewer turns are left."""
    return [
        core.Assign(found, Number(0)),
        core.Assign(index, core.Two("Plus", core.Variable(index), Number(1))),
        core.Assign(left, core.Two("Subtract", core.Variable(left), Number(1))),
    ]
