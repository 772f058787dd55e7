"""The values of expressions without variables, and which error there is in one."""
from __future__ import annotations

from .core import LEAST, WORD, And, Below, Element, Expression, Folds, Number, One, Or, Two, Variable


def signed(word: int) -> int:
    """A word as an INT."""
    return word - 2**32 if word & LEAST else word


def constant_value(expression: Expression, folds: Folds | None = None) -> int | None:
    """The value of an expression without variables, or None if it is an error. Each operation that has a value is added to `folds`."""
    match expression:
        case Number(number):
            return number
        case Variable():
            return 0
        case Element(array, subscript):
            value = constant_value(subscript, folds)
            return 0 if value is not None and value < array.length else None
        case Below(bound, operand):
            value = constant_value(operand, folds)
            return value if value is not None and value < bound else None
        case One(operation, operand):
            value = constant_value(operand, folds)
            return None if value is None else folded(folds, (operation, value), one_value(operation, value))
        case And(left, right):
            value = constant_value(left, folds)
            return constant_value(right, folds) if value else value
        case Or(left, right):
            value = constant_value(left, folds)
            if value != 0:
                return None if value is None else 1
            value = constant_value(right, folds)
            return None if value is None else int(value != 0)
        case Two(operation, left, right):
            first, second = constant_value(left, folds), constant_value(right, folds)
            if first is None or second is None:
                return None
            return folded(folds, (operation, first, second), two_value(operation, first, second))


def folded(folds: Folds | None, key: tuple[str, int] | tuple[str, int, int], value: int | None) -> int | None:
    """The value of an operation, which is noted."""
    if folds is not None and value is not None:
        folds[key] = value
    return value


def one_value(operation: str, value: int) -> int | None:
    """What an operation on one value gives."""
    match operation:
        case "Negate":
            return None if value == LEAST else -value & WORD
        case "Minus":
            return -value & WORD
        case "Complement":
            return value ^ WORD
        case _:
            return int(value == 0)


def two_value(operation: str, left: int, right: int) -> int | None:
    """What an operation on two values gives."""
    first, second = signed(left), signed(right)
    match operation:
        case "Add" | "Subtract" | "Multiply":
            value = {"Add": first + second, "Subtract": first - second, "Multiply": first * second}[operation]
            return value & WORD if -(2**31) <= value < 2**31 else None
        case "Divide" | "Remainder":
            if second == 0 or operation == "Divide" and (left, second) == (LEAST, -1):
                return None
            quotient = abs(first) // abs(second) * (1 if (first < 0) == (second < 0) else -1)
            return (quotient if operation == "Divide" else first - quotient * second) & WORD
        case "Plus" | "Minus" | "Times":
            return {"Plus": left + right, "Minus": left - right, "Times": left * right}[operation] & WORD
        case "BitAnd" | "BitOr" | "BitXor":
            return {"BitAnd": left & right, "BitOr": left | right, "BitXor": left ^ right}[operation]
        case "ShiftLeft" | "ShiftRight":
            if right > 32:
                return None
            return left << right & WORD if operation == "ShiftLeft" else left >> right
        case _:
            return int(
                {
                    "Equal": left == right,
                    "NotEqual": left != right,
                    "Less": first < second,
                    "Greater": first > second,
                    "AtMost": first <= second,
                    "AtLeast": first >= second,
                }[operation]
            )


def error_in(expression: Expression) -> tuple[str, str]:
    """What is expected, and what is met, in an expression without variables whose value is an error."""
    match expression:
        case One(_, operand) | Below(_, operand):
            parts = [operand]
        case Two(_, left, right) | And(left, right) | Or(left, right):
            parts = [left, right]
        case _:
            parts = []
    for part in parts:
        if constant_value(part) is None:
            return error_in(part)
    what, met = "a constant that has a value", "an overflow"
    match expression:
        case Below(bound, operand):
            what = "a constant that is 0 or 1" if bound == 2 else "a constant from 0 to 255"
            met = str(signed(constant_value(operand) or 0))
        case Two("Divide" | "Remainder", _, right) if constant_value(right) == 0:
            met = "a division by 0"
        case Two("ShiftLeft" | "ShiftRight", _, _):
            met = "a shift by more than 32 places"
    return what, met
