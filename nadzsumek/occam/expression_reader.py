"""Reads values: expressions, tables, and what is named."""
from __future__ import annotations

from typing import NoReturn

from . import tree
from .mistakes import Place, expected
from .reading import (
    LINE_END_OR_OPERATOR,
    LIST,
    MONADIC,
    ONE_OPERATOR,
    OPERAND,
    PARENTHESIS,
    TABLE,
    TIGHTNESS,
    TYPES,
    Reading,
)
from .tree import DataType
from .words import OPERATORS

BRACKET = 7, "a closing bracket or one operator"


class ExpressionReader(Reading):
    """Reads values."""

    # ---- values

    def has_slice(self) -> bool:
        """Whether `[` is here, and FROM before its `]`."""
        depth = 0
        if self.kind != "[":
            return False
        for at in range(self.at, len(self.words)):
            kind = self.words[at].kind
            depth += (kind == "[") - (kind == "]")
            if depth == 0 or depth == 1 and kind == "FROM":
                return depth == 1
        return False

    def element(self, what: tuple[int, str]) -> tree.Target:
        """A name, an element or a part of an array."""
        if self.has_slice():
            return self.nested(PARENTHESIS, self.slice)
        name = self.name(what)
        subscripts = []
        while self.kind == "[":
            subscripts.append(self.subscript())
        return tree.Element(name, subscripts) if subscripts else name

    def slice(self) -> tree.Slice:
        """`[original FROM base FOR count]`"""
        place = self.take().place
        original = self.element(OPERAND)
        if not self.takes("FROM"):
            self.wrong((12, "FROM and the first element of a part"))
        base = self.expression()
        if not self.takes("FOR"):
            self.wrong((12, "FOR and a count"))
        part = tree.Slice(place, original, base, self.expression(BRACKET))
        if not self.takes("]"):
            self.wrong((10, "a closing bracket or an operator"))
        return part

    def subscript(self) -> tree.Expression:
        """`[expression]`"""
        self.take()
        if self.kind == "]":
            self.wrong(OPERAND, "The first element of a is a[0]")
        subscript = self.nested(PARENTHESIS, self.expression, BRACKET)
        if not self.takes("]"):
            self.wrong((10, "a closing bracket or an operator"))
        return subscript

    def value(self, single: tuple[int, str] = ONE_OPERATOR) -> tree.Value:
        """A table or an expression; of a second operator it is said that it is one too much by `single`."""
        token = self.token
        if token.kind == "string" and isinstance(token.value, bytes):
            self.take()
            return tree.Table(token.place, token.value)
        if token.kind == "[" and not self.has_slice():
            return self.nested(TABLE, self.table)
        return self.expression(single)

    def table(self) -> tree.Table:
        """`[expression, expression]`"""
        place = self.take().place
        if self.kind == "]":
            self.wrong(OPERAND, "A table has one value at least: [1, 2]")
        values = self.list_of(self.value, (7, "a comma, a closing bracket or one operator"))
        if not self.takes("]"):
            self.wrong((10, "a comma, a closing bracket or an operator"))
        return tree.Table(place, values)

    def called(self, what: tuple[int, str]) -> tuple[tree.Name, list[tree.Value]]:
        """`name (value, value)`"""
        name = self.name(what)
        self.take()
        actuals: list[tree.Value] = []
        if self.kind != ")":
            actuals = self.list_of(self.value, LIST)
        if self.kind == ";":
            self.wrong((10, "a comma, a closing parenthesis or an operator"), "Parameters have commas between them")
        if not self.takes(")"):
            self.wrong((10, "a comma, a closing parenthesis or an operator"))
        return name, actuals

    # ---- expressions: no operator binds tighter than another, so an expression has one, but for rows of AND or of OR

    def expression_line(self) -> tree.Expression:
        expression = self.expression()
        self.line_end(LINE_END_OR_OPERATOR)
        return expression

    def expression(self, single: tuple[int, str] = ONE_OPERATOR) -> tree.Expression:
        start = self.at
        token = self.token
        if token.kind in MONADIC:
            self.take()
            expression: tree.Expression = tree.Monadic(token.kind, token.place, self.operand())
            last = self.at
        elif token.kind in TYPES:
            self.take()
            expression = tree.Converted(TYPES[token.kind], token.place, self.operand())
            last = self.at
        elif token.kind == "SIZE":
            expression, last = self.size(), self.at
        else:
            expression, last = self.operands()
        if self.kind in OPERATORS:
            self.second_operator(expression, start, last, single)
        return expression

    def size(self) -> tree.Size:
        """`SIZE name`"""
        place = self.take().place
        return tree.Size(place, self.element((6, "the name of an array after SIZE")))

    def operands(self) -> tuple[tree.Expression, int]:
        """An operand, or operands with an operator between them, and where the last one begins."""
        row: list[tuple[Place, tree.Expression]] = []
        last, left = self.at, self.operand()
        sign = self.kind
        if sign not in OPERATORS:
            return left, last
        row.append((self.token.place, left))
        while self.kind == sign and (len(row) == 1 or sign in ("AND", "OR")):
            place = self.take().place
            last = self.at
            row.append((place, self.operand()))
        return tree_of_row(sign, row), last

    def operand(self) -> tree.Expression:
        """A name, an element, a literal, or an expression in parentheses."""
        token = self.token
        match token.kind:
            case "name":
                if self.ahead() == "(":
                    return self.nested(PARENTHESIS, self.call)
                return self.element(OPERAND)
            case "number" | "character" if isinstance(token.value, int):
                self.take()
                return tree.Literal(DataType.INT if token.kind == "number" else DataType.BYTE, token.value, token.place)
            case "TRUE" | "FALSE":
                self.take()
                return tree.Literal(DataType.BOOL, int(token.kind == "TRUE"), token.place)
            case "(":
                return self.nested(PARENTHESIS, self.parentheses)
            case "MOSTPOS" | "MOSTNEG":
                self.take()
                if not self.takes("INT"):
                    self.wrong((6, "INT after MOSTPOS or MOSTNEG"))
                return tree.Literal(DataType.INT, 0x7FFF_FFFF + (token.kind == "MOSTNEG"), token.place)
        if self.has_slice():
            return self.element(OPERAND)
        self.wrong(OPERAND)

    def call(self) -> tree.Call:
        """`name (value, value)`, by a FUNCTION"""
        return tree.Call(self.token.place, *self.called(OPERAND))

    def parentheses(self) -> tree.Expression:
        self.take()
        expression = self.expression((7, "a closing parenthesis or one operator"))
        if not self.takes(")"):
            self.wrong((10, "a closing parenthesis or an operator"))
        return expression

    def second_operator(self, before: tree.Expression, start: int, last: int, single: tuple[int, str]) -> NoReturn:
        """Refuses an operator after an operation, and says where parentheses are missing."""
        tight = TIGHTNESS[before.operator] if isinstance(before, tree.Dyadic) else 5
        sign = self.token
        shown = (
            self.words[self.at + 1].text if self.ahead() in ("name", "number", "TRUE", "FALSE", "character") else "(..)"
        )
        if self.ahead() == "name" and self.ahead(2) == "[":
            shown = "(..)"
        if tight == TIGHTNESS[sign.kind] == 2:
            hint = "Write (a < b) AND (b < c)"
        elif TIGHTNESS[sign.kind] > tight:
            hint = (
                f"No operator binds tighter: write {self.spelled(start, last, ' ')}({self.spelled(last, self.at)} "
                f"{sign.text} {shown})"
            )
        else:
            hint = f"No operator binds tighter: write ({self.spelled(start, self.at)}) {sign.text} {shown}"
        raise expected(sign.place, *single, "a second one", hint)

    def spelled(self, start: int, end: int, after: str = "") -> str:
        """Words as they are written, but for blanks."""
        pieces: list[str] = []
        for token, before in zip(self.words[start:end], [None, *self.words[start:end]]):
            if before and before.place.column + len(before.text) < token.place.column:
                pieces.append(" ")
            pieces.append(token.text)
        return "".join(pieces) + after


def tree_of_row(sign: str, row: list[tuple[Place, tree.Expression]]) -> tree.Expression:
    """One expression of a row of operands, each with the place of the operator before it."""
    while len(row) > 1:
        pairs = [(left[0], tree.Dyadic(sign, right[0], left[1], right[1])) for left, right in zip(row[::2], row[1::2])]
        row = pairs + row[len(row) - len(row) % 2 :]
    return row[0][1]
