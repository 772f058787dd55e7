"""How the expressions of occam are read into what finds their values: operators, names, elements, arrays and tables. What may be named
and changed is looked at here, too."""
import re
from collections.abc import Callable
from dataclasses import dataclass
from typing import NoReturn, Union

from occam.uses import Uses, interval
from occam.values import BOOL, BYTE, DYADIC, Dyadic, Halts, INT, MONADIC, MOST_NEGATIVE, MOST_POSITIVE, Rules, wrapped

SIZES = {INT: 4, BYTE: 1}
# What each cell of variables, elements and tables has, and how a number is found from that.
Store = list[int]
Finds = Callable[[Store], int]
# Cells or channels from one on and below another.
Region = tuple[int, int]
ESCAPES = {"n": 10, "c": 13, "t": 9, "s": 32, "'": 39, '"': 34, "*": 42}
# The constants that each program knows: where a channel is placed.
LINKS = {f"link{link}.{way}": link + first for way, first in (("out", 0), ("in", 4)) for link in range(4)}
KEYWORDS = set(
    """AFTER ALT AND ANY AT BOOL BYTE CASE CHAN ELSE FALSE FOR FROM FUNCTION GUY IF INT INT16 INT32 INT64 IS MINUS MOSTNEG
MOSTPOS NOT OF OR PAR PLACE PLACED PLUS PORT PRI PROC PROCESSOR PROTOCOL REAL32 REAL64 REM RESULT RETYPES ROUND SEQ SIZE SKIP STOP TIMER
TIMES TRUE TRUNC VAL VALOF WHILE""".split()
)
TOKEN = re.compile(
    r"""(?P<blank>\ +)|(?P<comment>--.*)|(?P<name>[A-Za-z][A-Za-z0-9.]*)|(?P<number>[0-9]+)|(?P<digits>\#[0-9A-Fa-f]+)
|(?P<character>'(?:\*\#[0-9A-Fa-f]{2}|\*[nctss'"*]|[^*'])')|(?P<string>"(?:\*\#[0-9A-Fa-f]{2}|\*[nctss'"*]|[^*"])+")
|(?P<sign>:=|/\\|\\/|><|<<|>>|<=|>=|<>|[-+*/\\~=<>():,?!&\[\]])""",
    re.X,
)
LETTER = re.compile(r"""\*\#[0-9A-Fa-f]{2}|\*.|.""")
MOST_ELEMENTS = 16_000
# The size of an array that isn't known where the body of a PROC is read by itself.
UNKNOWN = 1 << 31
# What a line may end with that goes on in the next one.
GOES_ON = {
    "+",
    "-",
    "*",
    "/",
    "\\",
    "REM",
    "PLUS",
    "MINUS",
    "TIMES",
    "/\\",
    "\\/",
    "><",
    "<<",
    ">>",
    "=",
    "<>",
    "<",
    ">",
    "<=",
    ">=",
    "AND",
    "OR",
    ",",
    ":=",
    "IS",
    "FOR",
}


class Wrong(Exception):
    """The text isn't a program: a line, and what is wrong there."""

    def __init__(self, line: int, text: str) -> None:
        super().__init__(f"line {line}: {text}")
        self.line = line


# ---- texts


@dataclass
class Token:
    kind: str
    text: str
    line: int
    column: int


def tokens_of(line: str, number: int) -> list[Token]:
    """The tokens of a line of text."""
    at, tokens = 0, list[Token]()
    while at < len(line):
        found = TOKEN.match(line, at)
        if not found:
            raise Wrong(number, f"column {at + 1}: {line[at]!r} begins nothing")
        if found.lastgroup not in ("blank", "comment"):
            kind = "sign" if found[0] in KEYWORDS else found.lastgroup or ""
            tokens.append(Token(kind, found[0], number, at + 1))
        at = found.end()
    return tokens


def statements_of(text: str) -> list[tuple[int, list[Token]]]:
    """Each statement of a text: its indentation and its tokens, the lines of one that goes on put together."""
    statements: list[tuple[int, list[Token]]] = []
    for number, line in enumerate(text.split("\n"), 1):
        tokens = tokens_of(line.removesuffix("\r"), number)
        if not tokens:
            continue
        indent = tokens[0].column - 1
        if statements and statements[-1][1][-1].text in GOES_ON:
            if indent < statements[-1][0]:
                raise Wrong(number, "goes on further out than it began")
            statements[-1][1].extend(tokens)
            continue
        if indent % 2:
            raise Wrong(number, f"{indent} blanks")
        statements.append((indent, tokens))
    return statements


@dataclass
class Value:
    """An expression: its type, how it is found from the variables, about how many bytes of code, and its number if it is constant."""

    type: str
    of: Finds
    cost: int
    constant: int | None = None
    # from where to where it is, if it is the index of a SEQ with constant bounds, and a constant more or less
    span: tuple[int, int] | None = None


def number_cost(number: int) -> int:
    """How many bytes a constant takes as an instruction."""
    digits = 1
    while not -(16 ** (digits - 1 or 1)) <= number < 16**digits and digits < 8:
        digits += 1
    return digits + (1 if number < 0 else 0)


class Root:
    """What a name means in the end: the names by which it is known, of which the last alone may be used, and on how many abbreviations
    it can't be changed."""

    def __init__(self) -> None:
        self.names: list[Name] = []
        self.frozen = 0


@dataclass(eq=False)
class Name:
    """What a name is: a `variable`, an `index` or a `value` with a cell, a `constant` with its number, a `channel` with its place, an
    `array` or a `table` with its first cell, or a `proc`. A size is that of an array, or of a channel's messages. The cell of a variable
    may be found while running."""

    kind: str
    type: str
    number: int | Finds | None
    level: int = 0
    size: int | None = None
    root: Root | None = None
    # of an array of channels: how many they are
    many: int | None = None
    # of an index: its first and last value if they are constant; of what is found while running: which cells or channels it may be
    span: tuple[int, int] | None = None
    region: Region | None = None

    @property
    def first(self) -> int:
        """Its number, where that isn't found while running."""
        assert isinstance(self.number, int), self
        return self.number


@dataclass
class Kind:
    """A type as it is written: its data type, its size if it is an array, with 0 for an open one, and that of a channel's messages."""

    type: str
    size: int | None = None
    is_channel: bool = False
    message: int | None = None
    is_val: bool = False
    many: int | None = None


def outside(_: Store) -> int:
    """The cell of an element that an array hasn't."""
    raise Halts


@dataclass(eq=False)
class Procedure:
    """A PROC: its formals, which are pairs of kind and name, its statements, its indentation and the scope of its declaration."""

    formals: list[tuple[Kind, str]]
    first: int
    behind: int
    indent: int
    scope: "Scope"


# What each name means.
Scope = dict[str, Union[Name, Procedure]]


@dataclass
class Place:
    """An element, or a whole: its type, its size if it is an array, its cell, or how that is found, what it costs, and its name."""

    type: str
    size: int | None
    cell: int | Finds
    cost: int
    name: Name
    # which cells it may have, from one on and below another
    region: Region | None = None

    def cell_of(self) -> Finds:
        """How the cell is found from the store."""
        cell = self.cell
        if isinstance(cell, int):
            fixed = cell
            return lambda store: fixed
        return cell

    @property
    def first(self) -> int:
        """The first cell of an array or a table."""
        assert isinstance(self.cell, int), self
        return self.cell

    def value(self) -> Finds:
        cell = self.cell
        if isinstance(cell, int):
            fixed = cell
            return lambda store: store[fixed]
        found = cell
        return lambda store: store[found(store)]


def character(text: str) -> int:
    """The code of a character as it is written between quotes."""
    if not text.startswith("*"):
        return ord(text)
    return int(text[2:], 16) if text[1] == "#" else ESCAPES[text[1]]


class Expressions(Uses):
    """The part of a reader that reads tokens and expressions."""

    rules: Rules
    # the next of the tokens, and how many cells there are
    here: int
    slots: int
    tables: list[tuple[int, list[int]]]
    # what the expression that is read names, and how many PROCs are put in place around it
    used: set[Root]
    depth: int

    # -- tokens of the statement that is read

    def peek(self, ahead: int = 0) -> str:
        return self.tokens[self.here + ahead].text if self.here + ahead < len(self.tokens) else ""

    def fail(self, text: str) -> NoReturn:
        token = self.tokens[min(self.here, len(self.tokens) - 1)]
        raise Wrong(token.line, f"column {token.column}: {text}, not {self.peek()!r}")

    def take(self, text: str | None = None) -> Token:
        if self.here >= len(self.tokens) or text is not None and self.peek() != text:
            self.fail(f"expected {text or 'more'}")
        self.here += 1
        return self.tokens[self.here - 1]

    def name(self) -> str:
        if self.here >= len(self.tokens) or self.tokens[self.here].kind != "name":
            self.fail("expected a name")
        return self.take().text

    def known(self, scope: Scope) -> Name | Procedure:
        name = self.name()
        if name not in scope:
            self.here -= 1
            self.fail("expected a name that is declared")
        return scope[name]

    def end(self) -> None:
        if self.here != len(self.tokens):
            self.fail("expected the end of the line")

    # -- expressions

    def expression(self, scope: Scope, wanted: str | None = None) -> Value:
        value = self.unchecked(scope)
        if wanted and value.type != wanted:
            self.fail(f"expected {wanted}, not {value.type}")
        return value

    def unchecked(self, scope: Scope) -> Value:
        first = self.peek()
        if first == "SIZE":
            self.take()
            left = self.size(scope)
            if self.peek() in DYADIC or self.peek() in ("AND", "OR"):
                self.fail("expected the end or one operator")
            return left
        if first in MONADIC:
            self.take()
            return self.one(first, self.operand(scope))
        left = self.operand(scope)
        operator = self.peek()
        if operator in ("AND", "OR"):
            while self.peek() == operator:
                self.take()
                left = self.choice(operator, left, self.operand(scope))
        elif operator in DYADIC:
            self.take()
            left = self.two(operator, left, self.operand(scope))
        if self.peek() in DYADIC or self.peek() in ("AND", "OR"):
            self.fail("expected the end or one operator")
        return left

    def operand(self, scope: Scope) -> Value:
        token = self.take()
        if token.text == "(":
            value = self.unchecked(scope)
            self.take(")")
            return value
        if token.text in ("TRUE", "FALSE"):
            return self.constant(BOOL, int(token.text == "TRUE"))
        if token.text in ("MOSTPOS", "MOSTNEG"):
            self.take(INT)
            return self.constant(INT, MOST_POSITIVE if token.text == "MOSTPOS" else MOST_NEGATIVE)
        if token.kind == "number" and int(token.text) <= MOST_POSITIVE:
            return self.constant(INT, int(token.text))
        if token.kind == "digits" and int(token.text[1:], 16) < 1 << 32:
            return self.constant(INT, wrapped(int(token.text[1:], 16)))
        if token.kind == "character":
            return self.constant(BYTE, character(token.text[1:-1]))
        self.here -= 1
        known = scope.get(token.text) if token.kind == "name" else None
        if isinstance(known, Name) and known.kind == "constant":
            self.take()
            if self.peek() == "[":
                self.fail("expected no subscript behind a constant")
            return self.constant(known.type, known.first)
        place = self.element(scope)
        if place.size is not None:
            self.fail("expected a subscript behind an array")
        self.use("reads", place.region)
        return Value(place.type, place.value(), place.cost, span=place.name.span)

    def element(self, scope: Scope) -> Place:
        """A name, or an element, that is read or changed."""
        known = self.known(scope)
        if not isinstance(known, Name) or known.kind not in ("variable", "index", "value", "array", "table"):
            self.here -= 1
            self.fail("expected a variable")
        self.name_root(known)
        if self.peek() != "[":
            region = known.region or (known.first, known.first + (known.size or 1))
            return Place(
                known.type, known.size, known.first if known.number is None else known.number, 2, known, region
            )
        if known.size is None:
            self.fail("expected no subscript behind a scalar")
        self.take()
        index = self.expression(scope, INT)
        self.take("]")
        return self.subscripted(known, index)

    def name_root(self, known: Name) -> None:
        """Uses a name, which must be the last of what it means."""
        if known.root:
            if known.root.names[-1] is not known:
                self.here -= 1
                self.fail("expected its other name")
            self.used.add(known.root)

    def subscripted(self, known: Name, index: Value) -> Place:
        assert known.size is not None
        first, size, of, rules = known.first, known.size, index.of, self.rules
        if index.constant is not None:
            if not 0 <= index.constant < size and self.depth:
                return Place(known.type, None, outside, 9, known)
            if not 0 <= index.constant < size:
                self.fail(f"expected a subscript from 0 to {size - 1}")
            return Place(known.type, None, first + index.constant, 3, known, interval(first, size, index))

        def cell(store: Store) -> int:
            at = of(store)
            if rules.is_outside(at, size):
                raise Halts
            at = min(max(at, 0), size - 1)
            return first + (at if rules.is_straight else size - 1 - at)

        return Place(known.type, None, cell, index.cost + 9, known, interval(first, size, index))

    def change(self, place: Place) -> None:
        """Changes a place, on which no abbreviation may rest."""
        if place.name.kind not in ("variable", "array"):
            self.fail("expected a variable that may be changed")
        if place.name.root and place.name.root.frozen:
            self.fail("expected no change of what an abbreviation rests on")

    def is_whole(self, scope: Scope) -> bool:
        """Whether an array without a subscript comes."""
        token = self.tokens[self.here] if self.here < len(self.tokens) else None
        if token is None or token.kind != "name":
            return token is not None and (token.kind == "string" or token.text == "[")
        known = scope.get(token.text)
        return isinstance(known, Name) and known.kind in ("array", "table") and self.peek(1) != "["

    def whole(self, scope: Scope) -> Place:
        """An array, or a table, without a subscript."""
        token = self.tokens[self.here]
        if token.kind == "name":
            return self.element(scope)
        if token.kind == "string":
            self.take()
            return self.table(BYTE, [character(it) for it in LETTER.findall(token.text[1:-1])])
        self.take("[")
        values = [self.expression(scope)]
        while self.peek() == ",":
            self.take()
            values.append(self.expression(scope, values[0].type))
        self.take("]")
        numbers = [it.constant for it in values if it.constant is not None]
        if len(numbers) < len(values):
            self.fail("expected constants")
        return self.table(values[0].type, numbers)

    def cells(self, count: int) -> int:
        """The first of so many new cells."""
        self.slots += count
        return self.slots - count

    def table(self, kind: str, numbers: list[int]) -> Place:
        first = self.cells(len(numbers))
        self.tables.append((first, numbers))
        return Place(kind, len(numbers), first, 2, Name("table", kind, first, size=len(numbers)))

    def size(self, scope: Scope) -> Value:
        """The number of elements of an array."""
        known = self.known(scope)
        if not isinstance(known, Name):
            self.fail("expected an array")
        if known.kind == "channel" and known.many is not None:
            if known.many == UNKNOWN:
                return Value(INT, lambda store: UNKNOWN, 2)
            return self.constant(INT, known.many)
        if known.kind not in ("array", "table") or known.size is None:
            self.fail("expected an array")
        self.name_root(known)
        if known.size == UNKNOWN:
            return Value(INT, lambda store: UNKNOWN, 2)
        left_out = self.rules.left_out if known.kind == "table" else 0
        return self.constant(INT, known.size - left_out)

    def constant(self, kind: str, number: int) -> Value:
        return Value(kind, lambda store: number, number_cost(number), number)

    def folded(self, value: Value, *parts: Value) -> Value:
        """A value whose parts may all be constants: then it is one itself, if it exists."""
        if all(it.constant is not None for it in parts):
            try:
                return self.constant(value.type, value.of([]))
            except Halts:
                if self.depth:
                    # by the constants of an instance: an error if it comes there
                    return value
                self.here -= 1
                self.fail("expected a constant that exists")
        return value

    def one(self, operator: str, operand: Value) -> Value:
        _, types, result = MONADIC[operator]
        if operand.type not in types:
            self.fail(f"expected another operator than {operator} for {operand.type}")
        does, inner = self.rules.monadic[operator], operand.of
        return self.folded(Value(result, lambda store: does(inner(store)), operand.cost + 5), operand)

    def two(self, operator: str, left: Value, right: Value) -> Value:
        _, types, result = DYADIC[operator]
        if left.type != right.type or left.type not in types:
            self.fail(f"expected another operator than {operator} for {left.type} and {right.type}")
        does, first, second = self.rules.dyadic[operator], left.of, right.of
        cost = left.cost + right.cost + 4 + (5 if operator in ("<<", ">>") else 4)
        span = None
        if operator in ("+", "-") and left.span and right.constant is not None:
            more = right.constant if operator == "+" else -right.constant
            span = left.span[0] + more, left.span[1] + more
        return self.folded(Value(result, lambda store: does(first(store), second(store)), cost, span=span), left, right)

    def choice(self, operator: str, left: Value, right: Value) -> Value:
        if left.type != BOOL or right.type != BOOL:
            self.fail(f"expected BOOL at both sides of {operator}")
        first, second, cost = left.of, right.of, left.cost + right.cost + 8
        if not self.rules.is_short:
            both: Dyadic = (lambda a, b: a & b) if operator == "AND" else (lambda a, b: a | b)
            return self.folded(Value(BOOL, lambda store: both(first(store), second(store)), cost), left, right)
        if operator == "AND":
            return self.folded(Value(BOOL, lambda store: first(store) and second(store), cost), left, right)
        return self.folded(Value(BOOL, lambda store: first(store) or second(store), cost), left, right)
