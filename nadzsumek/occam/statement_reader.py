"""Reads processes of one line: assignments, messages and instances."""
from __future__ import annotations

from typing import NoReturn

from . import tree
from .declaration_reader import DeclarationReader
from .mistakes import Place, expected, quoted
from .reading import ACTIONS, CONDITION_BEFORE_INPUT, LINE_END, LINE_END_OR_OPERATOR, PROCESS, STEP
from .scope import SENT_NUMBER, SENT_TEXT, WRITERS


class StatementReader(DeclarationReader):
    """Reads processes of one line."""

    def action(self, blanks: int) -> tree.Process:
        """What a name begins: an assignment, an input, an output or an instance."""
        place = self.token.place
        if self.ahead() == "(":
            return self.instance()
        if self.ahead() not in ACTIONS and self.ahead() not in ("[", ","):
            self.wrong_action()
        return self.element_action(place, blanks)

    def element_action(self, place: Place, blanks: int) -> tree.Process:
        """What is done with a variable or a channel."""
        element = self.element(PROCESS)
        match self.kind:
            case "?":
                self.take()
                return self.input(place, element, blanks)
            case "!":
                self.take()
                values = self.parts(self.sent_part)
                self.line_end(LINE_END_OR_OPERATOR)
                return tree.Output(place, element, values)
            case ":=":
                self.take()
                return tree.Assignment(place, element, self.expression_line())
            case ",":
                return self.assignments(place, element)
        self.wrong((12, ":=, ? or ! after the element"), "= compares, and := assigns" if self.kind == "=" else "")

    def assignments(self, place: Place, first: tree.Target) -> tree.Assignments:
        """`target, target := value, value`"""
        targets = [first]
        while self.takes(","):
            targets.append(self.element((6, "a variable after the comma")))
        if not self.takes(":="):
            self.wrong((12, ":= after the variables"))
        values = self.list_of(self.value)
        self.line_end(LINE_END_OR_OPERATOR)
        is_call = len(values) == 1 and isinstance(values[0], tree.Call)
        if len(targets) != len(values) and not is_call:
            raise expected(
                place, 51, f"{len(targets)} values", str(len(values)), "Each variable has a value: x, y := 1, 2"
            )
        return tree.Assignments(place, targets, values)

    def wrong_action(self) -> NoReturn:
        """Refuses a name with which nothing is done."""
        name = self.take()
        if hint := hint_of_writing(name.text, self.kind):
            raise expected(name.place, *PROCESS, quoted(name.text), hint)
        if self.kind not in (",", "IS", "wrong", "=") and (hint := self.hint_of_first_word(name.text)):
            raise expected(name.place, *PROCESS, quoted(name.text), hint)
        if self.kind == "IS":
            advice = "Write the type before it, as in INT x IS y: or VAL before a value, as in VAL n IS 5:"
            self.left_out("IS without a type", advice)
        hints = {
            "=": "= compares, and := assigns",
            "end": "An instance of a PROC has parentheses: p ()",
            "&": "A condition with & is in a guard, below ALT",
        }
        self.wrong((12, ":=, ?, ! or ( after the name"), hints.get(self.kind, ""))

    def input(self, place: Place, channel: tree.Target, blanks: int) -> tree.Input | tree.CaseInput:
        """What is after `?`, up to the end of the line or of the variants below it."""
        if not self.takes("CASE"):
            targets = self.parts(self.received_part, (6, "a variable after ?"))
            if self.kind == "&":
                self.wrong(LINE_END, CONDITION_BEFORE_INPUT)
            self.line_end()
            return tree.Input(place, channel, targets)
        if self.kind == "name":
            tag, targets = self.variant()
            return tree.CaseInput(place, channel, [tree.Variant(tag, targets, tree.Skip(place))])
        self.line_end()
        variants = []
        below = f"A variant is 2 blanks further in than the input in line {place.line}"
        while self.is_at(blanks + STEP, below):
            line = self.begin().place.line
            tag, targets = self.variant()
            inner = f"A component is 2 blanks further in than the variant in line {line}"
            variants.append(tree.Variant(tag, targets, self.body(blanks + 2 * STEP, inner)))
        return tree.CaseInput(place, channel, variants)

    def sent_part(self) -> tree.Sent:
        place, value = self.token.place, self.value()
        if self.kind == "::" and not isinstance(value, tree.Table):
            self.take()
            return tree.Counted(place, value, self.value())
        return value

    def received_part(self, what: tuple[int, str]) -> tree.Received:
        target = self.element(what)
        return (
            tree.Counted(target.place, target, self.element((6, "an array after ::"))) if self.takes("::") else target
        )

    def variant(self) -> tuple[tree.Name, list[tree.Received]]:
        """`tag; target`, and the end of the line."""
        tag = self.name((6, "the name of a tag"))
        targets = self.parts(self.received_part, (6, "a variable after ;")) if self.takes(";") else []
        self.line_end()
        return tag, targets

    def instance(self) -> tree.Instance:
        """`name (value, value)`"""
        token = self.token
        if token.text.upper() in ("SEQ", "IF", "WHILE"):
            self.wrong(PROCESS, f"It is written in capitals: {token.text.upper()}")
        name, actuals = self.called(PROCESS)
        self.line_end()
        return tree.Instance(token.place, name, actuals)


def hint_of_writing(word: str, behind: str) -> str:
    """How a text or a number is sent, where a word is there that does it elsewhere, or a PROC of the prelude without parentheses."""
    if word.lower() in WRITERS:
        return SENT_TEXT if behind == "string" else SENT_NUMBER
    is_call = word in ("out.string", "out.int") and behind not in ("end", "wrong", ":=", "=")
    return f"The values of a PROC are in parentheses: {word} (.., to)" if is_call else ""
