"""The values of occam, its operators, and the rules by which programs are run. Arithmetic has 32 bits."""
from collections.abc import Callable
from dataclasses import dataclass, field
from typing import Literal

MOST_NEGATIVE, MOST_POSITIVE = -(1 << 31), (1 << 31) - 1
INT, BYTE, BOOL = "INT", "BYTE", "BOOL"

Monadic = Callable[[int], int]
Dyadic = Callable[[int, int], int]


class Halts(Exception):
    """The program erred."""


def wrapped(number: int) -> int:
    """The number modulo 2^32, with a sign."""
    return ((number + (1 << 31)) & 0xFFFFFFFF) - (1 << 31)


def checked(number: int) -> int:
    if not MOST_NEGATIVE <= number <= MOST_POSITIVE:
        raise Halts
    return number


def quotient(left: int, right: int) -> int:
    """Towards 0."""
    if right == 0:
        raise Halts
    whole = abs(left) // abs(right)
    return checked(whole if (left < 0) == (right < 0) else -whole)


def remainder(left: int, right: int) -> int:
    """With the sign of the left side."""
    if right == 0:
        raise Halts
    rest = abs(left) % abs(right)
    return -rest if left < 0 else rest


def shift_count(count: int) -> int:
    if not 0 <= count <= 32:
        raise Halts
    return count


def within(count: int) -> Monadic:
    """A conversion to a type that has so many values."""

    def convert(number: int) -> int:
        if not 0 <= number < count:
            raise Halts
        return number

    return convert


# Each dyadic operator, but for AND and OR: what it does, which types its sides may have, and the type of its result, or that of the
# sides.
ARITHMETIC, EQUAL, ORDER = (INT,), (INT, BYTE, BOOL), (INT, BYTE)
DYADIC: dict[str, tuple[Dyadic, tuple[str, ...], str]] = {
    "+": (lambda a, b: checked(a + b), ARITHMETIC, INT),
    "-": (lambda a, b: checked(a - b), ARITHMETIC, INT),
    "*": (lambda a, b: checked(a * b), ARITHMETIC, INT),
    "/": (quotient, ARITHMETIC, INT),
    "\\": (remainder, ARITHMETIC, INT),
    "REM": (remainder, ARITHMETIC, INT),
    "PLUS": (lambda a, b: wrapped(a + b), ARITHMETIC, INT),
    "MINUS": (lambda a, b: wrapped(a - b), ARITHMETIC, INT),
    "TIMES": (lambda a, b: wrapped(a * b), ARITHMETIC, INT),
    "/\\": (lambda a, b: a & b, ARITHMETIC, INT),
    "\\/": (lambda a, b: a | b, ARITHMETIC, INT),
    "><": (lambda a, b: a ^ b, ARITHMETIC, INT),
    "<<": (lambda a, b: wrapped(a << shift_count(b)), ARITHMETIC, INT),
    ">>": (lambda a, b: wrapped((a & 0xFFFFFFFF) >> shift_count(b)), ARITHMETIC, INT),
    "=": (lambda a, b: int(a == b), EQUAL, BOOL),
    "<>": (lambda a, b: int(a != b), EQUAL, BOOL),
    "<": (lambda a, b: int(a < b), ORDER, BOOL),
    ">": (lambda a, b: int(a > b), ORDER, BOOL),
    "<=": (lambda a, b: int(a <= b), ORDER, BOOL),
    ">=": (lambda a, b: int(a >= b), ORDER, BOOL),
}
MONADIC: dict[str, tuple[Monadic, tuple[str, ...], str]] = {
    "-": (lambda a: checked(-a), (INT,), INT),
    "MINUS": (lambda a: wrapped(-a), (INT,), INT),
    "~": (lambda a: ~a, (INT,), INT),
    "NOT": (lambda a: 1 - a, (BOOL,), BOOL),
    INT: (lambda a: a, (INT, BYTE, BOOL), INT),
    BYTE: (within(256), (INT, BYTE, BOOL), BYTE),
    BOOL: (within(2), (INT, BYTE, BOOL), BOOL),
}


@dataclass
class Rules:
    """The rules by which programs are run. A judge is judged by changing one of them."""

    dyadic: dict[str, Dyadic] = field(default_factory=lambda: {name: it[0] for name, it in DYADIC.items()})
    monadic: dict[str, Monadic] = field(default_factory=lambda: {name: it[0] for name, it in MONADIC.items()})
    # AND and OR look at their right side only if they need it
    is_short: bool = True
    # what an IF without a true choice does
    halts_without_choice: bool = True
    # what a negative count of a replicator does, and from where the index counts
    halts_at_negative: bool = True
    first_turn: int = 0
    # whether a WHILE tests before its first turn
    tests_first: bool = True
    order: Literal["little", "big"] = "little"
    # what is heard of a byte
    byte_mask: int = 255
    # which subscripts are errors: those for which this is true of the subscript and the size
    is_outside: Callable[[int, int], bool] = lambda at, size: not 0 <= at < size
    # whether the elements of an array come one after another, and whether a copy has all of them
    is_straight: bool = True
    copies_all: bool = True
    # whether the body of a PROC is read where it is declared, or where an instance is
    is_read_there: bool = True
    # whether an abbreviation is evaluated once, and how many of a VAL array's elements SIZE leaves out
    is_evaluated: bool = True
    left_out: int = 0
    # how out.int writes a number
    digits: Callable[[int], str] = str
    # whether a PAR waits for all its components, how many it leaves out, and from where the index of a replicated one counts
    waits_for_all: bool = True
    components_left_out: int = 0
    first_component: int = 0
    # whether who sends waits for who hears, and which element of an array of channels is meant
    is_synchronous: bool = True
    channel_at: Callable[[int, int], int] = lambda at, size: at
    # whether an ALT takes a guard whose condition is FALSE, the last guard that is ready, and whether it errs if none is open
    takes_closed: bool = False
    takes_last: bool = False
    halts_without_guard: bool = True
