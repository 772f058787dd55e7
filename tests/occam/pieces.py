"""What random occam programs are made of: sizes, names and signs, and parts of programs with what is known of them."""
from dataclasses import dataclass
from typing import NamedTuple

from occam.values import BYTE, INT, MOST_NEGATIVE, MOST_POSITIVE

Span = tuple[int, int]
WHOLE, SMALL = (MOST_NEGATIVE, MOST_POSITIVE), (-10_000, 10_000)
# What each program sends last at its first output, as BYTE and as INT.
LAST = {BYTE: 0xEE, INT: 0x1EE7C0DE}
# How much comes at each link at most, and how much a program may send and cost.
MOST_COMING, MOST_SAID, MOST_COST = 1_000, 1_500, 1_000_000
# What the language allows and a compiler might not: it is in programs unless it is taken from here.
FEATURES = {
    "hiding",
    "equal bools",
    "odd continuation",
    "blank at the end",
    "arrays of INT",
    "arrays of BYTE",
    "arrays of BOOL",
    "array messages",
    "copies",
    "SIZE",
    "tables",
    "strings",
    "VAL",
    "VAL of arrays",
    "renamed variables",
    "renamed elements",
    "renamed arrays",
    "renamed channels",
    "PROC",
    "PROC in PROC",
    "written PROC",
    "prelude",
    "PAR",
    "ALT",
    "arrays of channels",
}
# How often each of these is met where it may be, if it is in a program at all.
WEIGHTS = {
    "arrays": 0.7,
    "fill": 0.85,
    "element": 0.45,
    "copies": 0.15,
    "SIZE": 0.05,
    "VAL": 0.15,
    "renamed": 0.2,
    "PROC": 0.10,
    "written PROC": 0.06,
    "call": 0.4,
    "prelude": 0.1,
    "array messages": 0.25,
    "over": 0.6,
}
# Which share of programs has what a weight is of.
SHARE = 0.75
# What it leaves open: it is in programs if it is put there.
OPEN = {"INT of BOOL"}
NAMES = tuple(
    "x y z n count total a.b value x1 x2 last.byte Sum hash flag is.even "
    "left right mask w v.0 difference.of.words K seen digit carry p q step bits a.name.with.dots".split()
)
EDGES = (
    0,
    1,
    2,
    3,
    7,
    8,
    15,
    16,
    17,
    255,
    256,
    257,
    4095,
    4096,
    65535,
    65536,
    1 << 20,
    1 << 28,
    MOST_POSITIVE,
    MOST_POSITIVE - 1,
)
SIGNS = set("[ ] + - * / \\ /\\ \\/ >< << >> = <> < > <= >= := ? ! & , : ( )".split())
OPERATORS = ("+", "-", "*", "/", "\\", "REM", "PLUS", "MINUS", "TIMES", "/\\", "\\/", "><", "<<", ">>", "+", "-", "*")
REMARKS = ("", " ", " a remark", " x := 1", " 'not a character", ' "', " ü, ≤", "-- :")
UNARY = "\0"


@dataclass
class Part:
    """An expression: its tokens, the span of its numbers, whether it is an operand, and whether it is constant."""

    tokens: list[str]
    low: int = 0
    high: int = 1
    is_operand: bool = True
    is_constant: bool = False


@dataclass(eq=False)
class Variable:
    """A variable: its name and type, the span that its values keep to, and whether it may be changed."""

    name: str
    type: str
    span: Span = WHOLE
    is_free: bool = True
    # of an array: how many elements it has, or 0 if that isn't known where it is used; of an index: the array over which it goes
    size: int | None = None
    over: "Variable | None" = None
    is_constant: bool = False

    @property
    def length(self) -> int:
        """How many elements an array has, or 0."""
        return self.size or 0


class Formal(NamedTuple):
    """A formal of a PROC: its way, its type, and its size if it is an array."""

    way: str
    kind: str
    size: int | None = None


class Channel(NamedTuple):
    """A channel: its name and type, and its link, or -1 if it is a formal."""

    name: str
    kind: str
    link: int = -1


class ArrayChannel(NamedTuple):
    """A channel of arrays: its name, the type and size of its messages, and its link."""

    name: str
    kind: str
    size: int
    link: int


@dataclass(eq=False)
class Proc:
    """A PROC: its name, its formals, and what of the names around it its body uses, and may change: those of channels by themselves."""

    name: str
    formals: list[Formal]
    used: set["Variable | Proc | str"]
    type: str = "PROC"
    is_free: bool = False
    size: int | None = None


Named = Variable | Proc
