"""Reads the tree of a text: recursive descent over its statements, with one word of lookahead."""
from __future__ import annotations

from . import tree
from .mistakes import Place, expected, left_out
from .reading import (
    ACTIONS,
    COLON_ENDS_PROCEDURE,
    CONDITION_BEFORE_INPUT,
    CONDITION_BELOW_IF,
    CONSTRUCT,
    CONSTRUCTS,
    DECLARED_BEFORE_ALT,
    DECLARING,
    GUARD_IS_INPUT,
    INPUT_GUARD,
    LINE_END,
    LINE_END_OR_OPERATOR,
    LINE_END_OR_REPLICATOR,
    PROCESS,
    STEP,
)
from .statement_reader import StatementReader
from .words import OPERATORS, statements_of


def tree_of(text: bytes) -> tree.Process:
    """The tree of a text.

    Raises Mistake: the first one of the text.
    """
    return Reader(statements_of(text)).text()


class Reader(StatementReader):
    """Reads processes."""

    def text(self) -> tree.Process:
        """The one process of a text."""
        below = "The process of a text begins without blanks"
        if not self.is_at(0, below):
            raise expected(self.end_place(), *PROCESS, "the end of the text")
        process = self.process(0, below)
        self.no_second(0, below)
        return process

    def process(self, blanks: int, below: str) -> tree.Process:
        """The process of the next statements, with what it declares."""
        declarations = self.declarations(blanks, below)
        process = self.statement(blanks)
        return tree.Declared(declarations, process) if declarations else process

    def statement(self, blanks: int) -> tree.Process:
        """A process without declarations."""
        token = self.begin()
        if token.kind == "name":
            return self.action(blanks)
        if self.has_slice():
            return self.element_action(token.place, blanks)
        if token.kind in CONSTRUCTS:
            return self.nested(CONSTRUCT, self.construct, blanks)
        if token.kind in ("SKIP", "STOP"):
            self.take()
            self.line_end()
            return tree.Skip(token.place) if token.kind == "SKIP" else tree.Stop(token.place)
        self.wrong(PROCESS, COLON_ENDS_PROCEDURE if token.kind == ":" else "")

    def construct(self, blanks: int) -> tree.Process:
        keyword = self.take()
        place, inner = keyword.place, blanks + STEP
        below = f"A component is 2 blanks further in than {keyword.kind} in line {place.line}"
        match keyword.kind:
            case "SEQ":
                return tree.Sequence(place, *self.components(inner, below))
            case "PAR":
                return tree.Parallel(place, *self.components(inner, below))
            case "IF":
                return self.conditional(place, inner, below)
            case "CASE":
                return tree.Case(place, self.expression_line(), self.options(inner, below))
            case "WHILE":
                condition = self.expression_line()
                return tree.Loop(place, condition, self.body(inner, below))
            case "PRI" if self.kind == "PAR":
                raise left_out(place, "PRI PAR", "There is one priority")
            case "PRI" if not self.takes("ALT"):
                self.wrong((12, "ALT after PRI"))
        below = f"A component is 2 blanks further in than ALT in line {place.line}"
        return self.alternation(place, inner, below)

    def components(self, blanks: int, below: str) -> tuple[tree.Replicator | None, list[tree.Process]]:
        """What is after `SEQ` or `PAR`."""
        if self.kind == "name":
            replicator = self.replicator("Its processes are in the lines below it")
            return replicator, [self.body(blanks, below)]
        self.line_end(LINE_END_OR_REPLICATOR)
        processes = []
        while self.is_at(blanks, below):
            processes.append(self.process(blanks, below))
        return None, processes

    def replicator(self, hint: str) -> tree.Replicator:
        """`index = base FOR count`, and the end of the line."""
        if self.ahead() in (":=", "?", "!", "(", "["):
            self.wrong(LINE_END_OR_REPLICATOR, hint)
        index = self.name(LINE_END_OR_REPLICATOR)
        if not self.takes("="):
            self.wrong((12, "= after the index of a replicator"))
        base = self.expression()
        if not self.takes("FOR"):
            self.wrong((12, "FOR and a count"))
        return tree.Replicator(index, base, self.expression_line())

    def conditional(self, place: Place, blanks: int, below: str) -> tree.Conditional:
        replicator = None
        if self.kind != "end" and any(it.kind == "FOR" for it in self.words):
            replicator = self.replicator(CONDITION_BELOW_IF)
            if not self.is_at(blanks, below):
                self.without_body(blanks, below, (6, "a condition"))
        elif self.kind != "end":
            self.wrong(LINE_END, CONDITION_BELOW_IF)
        choices: list[tree.Choice | tree.Conditional] = []
        while self.is_at(blanks, below):
            if choices and replicator:
                raise expected(
                    self.end_place(), 15, "one choice", "a second one", "IF with a replicator has one choice"
                )
            choices.append(self.choice(blanks))
        return tree.Conditional(place, replicator, choices)

    def choice(self, blanks: int) -> tree.Choice | tree.Conditional:
        """A condition and the process below it, or another IF."""
        token = self.begin()
        what = 6, "a condition"
        if token.kind == "IF":
            inner = self.nested(CONSTRUCT, self.construct, blanks)
            assert isinstance(inner, tree.Conditional)
            return inner
        if token.kind in ("SKIP", "STOP") or token.kind in CONSTRUCTS:
            self.wrong(what, CONDITION_BELOW_IF)
        if token.kind in ("VAL", "PROC", "CHAN", "PLACE"):
            self.wrong(what, "A declaration is before the whole IF")
        condition = self.expression()
        if self.kind in ACTIONS:
            self.wrong(LINE_END_OR_OPERATOR, CONDITION_BELOW_IF)
        if self.kind == ":":
            self.wrong(
                LINE_END_OR_OPERATOR, "A colon ends a declaration alone, which is before a whole process or a whole IF"
            )
        self.line_end(LINE_END_OR_OPERATOR)
        below = f"A component is 2 blanks further in than the condition in line {token.place.line}"
        return tree.Choice(condition, self.body(blanks + STEP, below))

    def options(self, blanks: int, below: str) -> list[tree.Option]:
        """The options of a CASE: constants, or ELSE, and the process below them."""
        options = []
        while self.is_at(blanks, below):
            token = self.begin()
            values = [] if self.takes("ELSE") else self.list_of(self.expression)
            self.line_end(LINE_END if token.kind == "ELSE" else LINE_END_OR_OPERATOR)
            inner = f"A component is 2 blanks further in than the option in line {token.place.line}"
            options.append(tree.Option(token.place, values, self.body(blanks + STEP, inner)))
        return options

    # ---- alternatives

    def alternation(self, place: Place, blanks: int, below: str) -> tree.Alternation:
        if self.kind == "name":
            replicator = self.replicator("Its guards are in the lines below it")
            if not self.is_at(blanks, below):
                self.without_body(blanks, below, INPUT_GUARD)
            alternative = self.alternative(blanks)
            if self.is_at(blanks, below):
                hint = "ALT with a replicator has one guard, which is there for each value of its index"
                raise expected(self.end_place(), 15, "one guard", "a second one", hint)
            return tree.Alternation(place, replicator, [alternative])
        self.line_end(LINE_END_OR_REPLICATOR)
        if self.has_guard_at(blanks - STEP):
            self.without_body(blanks, below)
        alternatives = []
        while self.is_at(blanks, below):
            alternatives.append(self.alternative(blanks))
        return tree.Alternation(place, None, alternatives)

    def has_guard_at(self, blanks: int) -> bool:
        """Whether a guard begins with as many blanks: an input or a condition, and something further in below it."""
        if self.next + 1 >= len(self.statements):
            return False
        guard, below = self.statements[self.next : self.next + 2]
        return guard.indentation == blanks < below.indentation and any(it.kind in "?&" for it in guard.words)

    def alternative(self, blanks: int) -> tree.Alternative | tree.Alternation:
        """A guard and the process below it, or another ALT."""
        token = self.begin()
        if token.kind in ("ALT", "PRI"):
            inner = self.nested(CONSTRUCT, self.construct, blanks)
            assert isinstance(inner, tree.Alternation)
            return inner
        below = f"Below the guard of line {token.place.line} is its process, 2 blanks further in: SKIP if nothing is to be done"
        condition = None
        if self.has_condition():
            if self.kind == "&":
                self.wrong((6, "a condition"), "A guard without a condition is an input alone: c ? x")
            condition = self.expression((7, "& or one operator"))
            if not self.takes("&"):
                self.wrong((34, "& or an operator after the condition of a guard"))
        guard = self.guard(condition is not None, blanks)
        if isinstance(guard, tree.CaseInput):
            return tree.Alternative(condition, guard, tree.Skip(token.place))
        return tree.Alternative(condition, guard, self.body(blanks + STEP, below))

    def has_condition(self) -> bool:
        """Whether `&` is before anything is received, sent or assigned."""
        for token in self.words:
            if token.kind == "&":
                return True
            if token.kind in ACTIONS:
                return False
        return False

    def guard(self, has_condition: bool, blanks: int) -> tree.Input | tree.CaseInput | None:
        """What a guard waits for, and the end of its line."""
        if self.kind == "name":
            return self.guard_input(blanks)
        if has_condition:
            if not self.takes("SKIP"):
                self.wrong((34, "an input or SKIP after &"), GUARD_IS_INPUT)
            self.line_end()
            return None
        match self.kind:
            case "SKIP":
                raise expected(self.token.place, 34, "a condition and & before SKIP", "", "TRUE & SKIP is always ready")
            case "STOP" | "SEQ" | "PAR" | "IF" | "WHILE":
                hint = GUARD_IS_INPUT
            case "(" | "~" | "NOT" | "TRUE" | "FALSE" | "number" | "MOSTPOS" | "MOSTNEG" | "SIZE":
                hint = CONDITION_BEFORE_INPUT
            case ":":
                hint = COLON_ENDS_PROCEDURE
            case kind:
                hint = DECLARED_BEFORE_ALT if kind in DECLARING else ""
        self.wrong(INPUT_GUARD, hint)

    def guard_input(self, blanks: int) -> tree.Input | tree.CaseInput:
        place, text = self.token.place, self.token.text
        if self.ahead() in ("name", "end", "number", "ALT", "PAR") and (hint := self.hint_of_first_word(text)):
            self.wrong(INPUT_GUARD, hint)
        channel = self.element(INPUT_GUARD)
        if not self.takes("?"):
            hints = {
                ":=": GUARD_IS_INPUT,
                "(": GUARD_IS_INPUT,
                "end": GUARD_IS_INPUT,
                "IS": DECLARED_BEFORE_ALT,
                ":": DECLARED_BEFORE_ALT,
                "!": "ALT waits for inputs alone: an output is below a guard",
                "&": "A guard has one condition: (a AND b) & c ? x",
                "name": CONDITION_BEFORE_INPUT,
                "SKIP": CONDITION_BEFORE_INPUT,
            } | dict.fromkeys(OPERATORS, CONDITION_BEFORE_INPUT)
            hint = CONDITION_BEFORE_INPUT if self.token.text == "&&" else hints.get(self.kind, "")
            self.wrong((34, "? after the channel of a guard"), hint)
        return self.input(place, channel, blanks)
