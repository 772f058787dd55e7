"""The statements of a text while it is read, and what is said of mistakes in them."""
from __future__ import annotations

from abc import ABC, abstractmethod
from collections import Counter
from collections.abc import Callable
from typing import NoReturn, ParamSpec, TypeVar

from . import tree
from .mistakes import Mistake, Place, expected, left_out, nearest, quoted
from .tree import DataType
from .words import KEYWORDS, NAMES_TOO, OPERATORS, Statement, Token

P = ParamSpec("P")
R = TypeVar("R")
# How much further in what belongs to a construct is, and how deep constructs and parentheses are in one another.
STEP, MOST_NESTING = 2, 64

# What may be nested.
CONSTRUCT, PARENTHESIS, TABLE = "construct", "parenthesis", "table"
TYPES = {it.value: it for it in DataType}
DECLARING = frozenset({*TYPES, "[", "CHAN", "PLACE", "VAL", "PROC", "PROTOCOL"})
CONSTRUCTS = frozenset("SEQ PAR ALT PRI IF CASE WHILE".split())
FIRST_WORDS = "SKIP STOP SEQ PAR ALT PRI IF WHILE INT BYTE BOOL CHAN PLACE VAL PROC CASE PROTOCOL".split()
ACTIONS = frozenset(":= ? !".split())
MONADIC = {"-": "-", "MINUS": "MINUS", "~": "~", "NOT": "NOT"}
# How tight operators bind elsewhere, which tells a hint what was meant.
TIGHTNESS = (
    dict.fromkeys(OPERATORS, 4)
    | dict.fromkeys(("AND", "OR"), 1)
    | dict.fromkeys("= <> < > <= >=".split(), 2)
    | dict.fromkeys("+ - PLUS MINUS".split(), 3)
)

FOREIGN_SIGNS = {
    "//": "A comment begins with --",
    "/*": "A comment begins with --",
    ";": "No semicolon ends a line",
    "==": "= compares",
    "!=": "<> compares",
    "=>": "It is written >=",
    "=<": "It is written <=",
    "&&": "It is written AND",
    "&": "It is written AND, or /\\ for bits",
    "||": "It is written OR",
    "|": "It is written OR, or \\/ for bits",
    "^": "It is written >< for bits",
    "%": "It is written \\ or REM",
    "++": "Write x := x + 1",
    "+=": "Write x := x + 1",
    "-=": "Write x := x - 1",
    "**": "There is no power",
    "{": "What belongs together is further in",
    "}": "What belongs together is further in",
    "_": "Names have letters, digits and dots: a.b",
    "$": "Hexadecimal digits are after #",
}
LINE_END = 11, "the end of the line"
LINE_END_OR_OPERATOR = 11, "the end of the line or an operator"
LINE_END_OR_REPLICATOR = 11, "the end of the line or a replicator, as i = 0 FOR 10"
LIST = 7, "a comma, a closing parenthesis or one operator"
ONE_OPERATOR = 7, "the end of the line or one operator"
OPERAND = 6, "an operand"
PROCESS = 4, "a process"
COLON = 13, ": at the end of the declaration"
NAME = 13, "a name"
INPUT_GUARD = 34, "an input as a guard"

CONDITION_BELOW_IF = "A condition is below IF, and its process 2 blanks further in"
SEVERAL_PROCESSES = "Several processes are below SEQ"
BELOW_DECLARATIONS = "The process of a declaration is below it, with as many blanks"
COLON_ENDS_PROCEDURE = "The colon that ends a PROC is below its P"
COLON_BELOW_PROCEDURE = "A PROC ends by a colon alone in a line, which is below its process"
CONDITION_BEFORE_INPUT = "A condition is before its input, with & between them: ready & c ? x"
GUARD_IS_INPUT = "A guard is c ? x, and its process is below it, 2 blanks further in"
DECLARED_BEFORE_ALT = "A declaration is before the whole ALT"
VALUE_BY_IS = "A value is named by IS: VAL INT n IS 5:"
VALUE_NEEDS_VAL = "VAL names a value: VAL INT n IS 5:"
UNMATCHED = {"(": "( and ) don't match", "[": "[ and ] don't match"}


class Reading(ABC):
    """The statements of a text, and how far they were read."""

    def __init__(self, statements: list[Statement]) -> None:
        self.statements = statements
        self.next = 0
        self.words: list[Token] = []
        self.at = 0
        self.depths: Counter[str] = Counter()

    # ---- words

    @property
    def token(self) -> Token:
        """The next word of the statement."""
        return self.words[self.at]

    @property
    def kind(self) -> str:
        return self.words[self.at].kind

    def ahead(self, count: int = 1) -> str:
        """The kind of a word after the next one."""
        at = self.at + count
        return self.words[at].kind if at < len(self.words) else "end"

    def take(self) -> Token:
        token = self.words[self.at]
        self.at += 1
        return token

    def takes(self, kind: str) -> bool:
        """Takes the next word if it is of this kind."""
        is_taken = self.words[self.at].kind == kind
        self.at += is_taken
        return is_taken

    def begin(self) -> Token:
        """Begins the next statement, and gives its first word."""
        self.words = self.statements[self.next].words
        self.next += 1
        self.at = 0
        return self.words[0]

    def first_kind(self) -> str:
        """The kind of the first word of the next statement."""
        return self.statements[self.next].words[0].kind if self.next < len(self.statements) else "end"

    def name(self, what: tuple[int, str]) -> tree.Name:
        if self.kind != "name":
            self.wrong(what)
        token = self.take()
        return tree.Name(token.text, token.place)

    def line_end(self, what: tuple[int, str] = LINE_END) -> None:
        """Makes sure that the statement ends here."""
        if self.kind != "end":
            self.wrong(what)

    # ---- mistakes

    def wrong(self, what: tuple[int, str], hint: str = "") -> NoReturn:
        """Refuses the next word, since this was expected. A mistake in the word itself comes first."""
        token = self.token
        if token.kind == "wrong" and isinstance(token.value, Mistake):
            raise token.value
        if token.kind == "FROM":
            raise expected(token.place, *what, '"FROM"', "A part of an array is in brackets: [a FROM 0 FOR n]")
        met = {"end": "the end of the line", "string": "a string"}.get(token.kind) or quoted(token.text)
        raise expected(token.place, *what, met, hint or self.hint(what, token))

    def left_out(self, what: str, instead: str) -> NoReturn:
        raise left_out(self.token.place, what, instead)

    def hint(self, what: tuple[int, str], token: Token) -> str:
        """What helps where this was expected and that is there."""
        last = self.words[self.at - 1] if self.at else token
        if token.text in FOREIGN_SIGNS:
            return FOREIGN_SIGNS[token.text]
        if what == OPERAND:
            if token.kind == "string":
                return "A string is an array: it is sent, named by VAL or given to a PROC. One character is 'a'"
            if token.kind in ")]" and last.kind == ",":
                return "A comma is between two values"
            if token.kind == "[":
                return "A table is sent, named by VAL or given to a PROC"
            if token.kind == "ELSE":
                return "ELSE is an option of CASE; the last choice of an IF is TRUE"
            if token.kind in MONADIC or token.kind in TYPES or token.kind == "SIZE":
                return "An operation as an operand is in parentheses: a + (-1)"
        if token.kind in (")", "]"):
            return UNMATCHED["(" if token.kind == ")" else "["]
        if what[0] == 10 and token.kind == "end":
            return UNMATCHED["[" if "bracket" in what[1] else "("]
        if what in (LINE_END, LINE_END_OR_OPERATOR):
            if token.kind == ":":
                return COLON_BELOW_PROCEDURE
            for word in (token, last):
                if word.kind == "name" and (hint := hint_of_capitals(word.text)):
                    return hint
        first = self.words[0].place.line
        if token.place.line != first:
            return f"The line continues line {first}, which ends with an operator, a comma, :=, IS or FOR"
        return ""

    def hint_of_first_word(self, word: str) -> str:
        """Which keyword a word at the beginning of a process most likely is."""
        near = nearest(word, FIRST_WORDS)
        return hint_of_capitals(word) or (f"Is it {near}?" if near else "")

    # ---- lines

    def end_place(self) -> Place:
        """Where the text ends, or the next statement begins."""
        if self.next < len(self.statements):
            return self.statements[self.next].words[0].place
        return self.statements[-1].words[-1].place if self.statements else Place(1, 1)

    def is_at(self, blanks: int, below: str) -> bool:
        """Whether the next statement begins with as many blanks, as what belongs to a construct; with fewer, it belongs to
        something else. `below` says where it is expected."""
        if self.next == len(self.statements):
            return False
        indentation = self.statements[self.next].indentation
        if indentation < 0:
            self.begin()
            self.wrong(PROCESS)
        if indentation > blanks or indentation % 2:
            raise expected(self.end_place(), 2, f"an indentation of {blanks} blanks", str(indentation), below)
        return indentation == blanks

    def without_body(self, blanks: int, below: str, what: tuple[int, str] = PROCESS) -> NoReturn:
        """Refuses that nothing is below a construct."""
        if self.next < len(self.statements):
            indentation = self.statements[self.next].indentation
            raise expected(self.end_place(), 2, f"an indentation of {blanks} blanks", str(indentation), below)
        raise expected(self.end_place(), *what, "the end of the text", below)

    def no_second(self, blanks: int, below: str) -> None:
        """Makes sure that no second process is where one is."""
        if self.is_at(blanks, below):
            self.second_process()

    def second_process(self) -> NoReturn:
        kind = self.first_kind()
        if kind == ":":
            met, hint = '":"', COLON_ENDS_PROCEDURE
        elif kind in DECLARING:
            met, hint = "a declaration too", "A declaration is before the process in which it is used"
        else:
            met, hint = "a second one", SEVERAL_PROCESSES
        raise expected(self.end_place(), 15, "one process", met, hint)

    def nested(self, what: str, read: Callable[P, R], *arguments: P.args, **named: P.kwargs) -> R:
        """What is read one construct, or one parenthesis, further in."""
        if self.depths[what] == MOST_NESTING:
            raise expected(self.token.place, 38, f"nesting of at most {MOST_NESTING}")
        self.depths[what] += 1
        try:
            return read(*arguments, **named)
        finally:
            self.depths[what] -= 1

    def body(self, blanks: int, below: str) -> tree.Process:
        """The one process below a construct."""
        if not self.is_at(blanks, below):
            self.without_body(blanks, below)
        process = self.process(blanks, below)
        self.no_second(blanks, below)
        return process

    def parts(self, read: Callable[P, R], *arguments: P.args, **named: P.kwargs) -> list[R]:
        """The parts of a message, with semicolons between them."""
        parts = [read(*arguments, **named)]
        while self.kind == ";" and self.ahead() != "end":
            self.take()
            parts.append(read(*arguments, **named))
        return parts

    def list_of(self, read: Callable[P, R], *arguments: P.args, **named: P.kwargs) -> list[R]:
        """One or more, with commas between them."""
        items = [read(*arguments, **named)]
        while self.takes(","):
            items.append(read(*arguments, **named))
        return items

    @abstractmethod
    def process(self, blanks: int, below: str) -> tree.Process:
        """The process of the next statements, with what it declares."""


def hint_of_capitals(word: str) -> str:
    """That a word is a keyword, but for small letters."""
    upper = word.upper()
    return f"It is written in capitals: {upper}" if upper in KEYWORDS and upper not in NAMES_TOO else ""
