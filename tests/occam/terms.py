"""How random occam programs have expressions, whose numbers are known to be within a span."""
from collections.abc import Sequence

from occam.draft import Draft
from occam.pieces import EDGES, FEATURES, OPERATORS, Part, SMALL, Span, UNARY, Variable, WHOLE
from occam.values import BOOL, BYTE, INT, MOST_NEGATIVE, MOST_POSITIVE, wrapped


class Terms(Draft):
    """The part of a writer of programs that is about expressions."""

    def operand(self, part: Part) -> list[str]:
        """The tokens of a part as an operand."""
        return part.tokens if part.is_operand and not self.chance(0.03) else ["(", *part.tokens, ")"]

    def number(self, low: int = MOST_NEGATIVE, high: int = MOST_POSITIVE) -> Part:
        """A constant within a span."""
        choices = [it for it in (*EDGES, *(-it for it in EDGES), MOST_NEGATIVE) if low <= it <= high]
        number = (
            self.random.choice(choices)
            if choices and self.chance(0.5)
            else self.random.randint(max(low, -100), min(high, 1000))
            if max(low, -100) <= min(high, 1000)
            else self.random.randint(low, high)
        )
        return self.constant(number)

    def constant(self, number: int) -> Part:
        ways = ["digits"] if self.chance(0.2) or number < -MOST_POSITIVE else ["decimal"]
        if number == MOST_NEGATIVE and self.chance(0.7):
            return Part(["MOSTNEG", INT], number, number, True, True)
        if number == MOST_POSITIVE and self.chance(0.5):
            return Part(["MOSTPOS", INT], number, number, True, True)
        if ways == ["digits"]:
            digits = f"{number & 0xFFFFFFFF:X}"
            digits = digits.lower() if self.chance(0.3) else digits
            return Part(
                [f"#{'0' * self.random.choice((0, 0, 0, 8 - len(digits)))}{digits}"], number, number, True, True
            )
        if number < 0:
            if self.chance(0.2):
                return Part([UNARY + "~", str(-number - 1)], number, number, False, True)
            sign = "MINUS" if self.chance(0.3) else UNARY + "-"
            return Part([sign, str(-number)], number, number, False, True)
        return Part([str(number)], number, number, True, True)

    def int_leaf(self) -> Part:
        element = self.element(INT)
        if element:
            return element
        sizes = self.arrays()
        if sizes and "SIZE" in FEATURES and self.weighs("SIZE"):
            array = self.random.choice(sizes)
            span = (array.size, array.size) if array.size else (1, 16_000)
            return Part(["SIZE", array.name], *span, False, bool(array.size))
        found = self.readable(INT)
        if found and self.chance(0.75):
            it = self.random.choice(found)
            return Part([it.name], *it.span, True, it.is_constant)
        return self.number()

    def int_part(self, depth: int) -> Part:
        """An expression of INT."""
        if depth <= 0 or self.chance(0.15):
            return self.int_leaf()
        way = self.random.random()
        if way < 0.08 and (self.readable(BYTE) or self.chance(0.3)):
            return Part([INT, *self.operand(self.byte_part(depth - 1))], 0, 255, False, False)
        if way < 0.10 and "INT of BOOL" in FEATURES:
            return Part([INT, *self.operand(self.bool_part(depth - 1))], 0, 1, False, False)
        if way < 0.20:
            return self.one(depth)
        return self.two(depth)

    def one(self, depth: int) -> Part:
        inner = self.int_part(depth - 1)
        sign = self.random.choice(("-", "MINUS", "~"))
        if (
            inner.low == inner.high
            and sign == "-"
            and inner.low == MOST_NEGATIVE
            or inner.low == MOST_NEGATIVE
            and not self.risk()
        ):
            sign = self.random.choice(("MINUS", "~")) if sign == "-" else sign
        if sign == "~":
            low, high = -inner.high - 1, -inner.low - 1
        else:
            low, high = -inner.high, -inner.low
            low, high = (low, high) if high <= MOST_POSITIVE else WHOLE
            if inner.is_constant and inner.low == MOST_NEGATIVE:
                low = high = MOST_NEGATIVE
        return Part(
            [sign if sign == "MINUS" else UNARY + sign, *self.operand(inner)], low, high, False, inner.is_constant
        )

    def two(self, depth: int) -> Part:
        left, right = self.int_part(depth - self.random.choice((1, 1, 2))), self.int_part(
            depth - self.random.choice((1, 1, 1, 2))
        )
        operator = self.random.choice(OPERATORS)
        if operator in ("<<", ">>"):
            return self.shift(operator, left, right)
        if operator in ("/", "\\", "REM"):
            if operator != "/" and self.chance(0.1):
                return self.lowest(operator)
            return self.division(operator, left, right)
        if operator in ("+", "-", "*"):
            corners = [
                {"+": a + b, "-": a - b, "*": a * b}[operator]
                for a in (left.low, left.high)
                for b in (right.low, right.high)
            ]
            low, high = min(corners), max(corners)
            if WHOLE[0] <= low and high <= WHOLE[1]:
                return self.joined(left, operator, right, low, high)
            if (left.is_constant and right.is_constant) or not self.risk():
                operator = {"+": "PLUS", "-": "MINUS", "*": "TIMES"}[operator]
        low, high = self.bits(operator, left, right)
        return self.joined(left, operator, right, low, high)

    def lowest(self, operator: str) -> Part:
        """The least number, or 0, and its remainder by -1, or by -2."""
        few = self.joined(self.int_leaf(), "/\\", self.constant(1), 0, 1)
        if few.is_constant:
            return self.number()
        least, by = self.joined(few, "<<", self.constant(31), *WHOLE), self.joined(few, "-", self.constant(2), -2, -1)
        return self.joined(least, operator, by, -1, 1)

    def bits(self, operator: str, left: Part, right: Part) -> Span:
        """The span of a result that never errs."""
        if left.is_constant and right.is_constant:
            a, b = left.low, right.low
            number = wrapped(
                {"PLUS": a + b, "MINUS": a - b, "TIMES": a * b, "/\\": a & b, "\\/": a | b, "><": a ^ b}[operator]
            )
            return number, number
        if operator == "/\\" and (left.low >= 0 or right.low >= 0):
            return 0, min(it.high for it in (left, right) if it.low >= 0)
        return WHOLE

    def joined(self, left: Part, operator: str, right: Part, low: int, high: int) -> Part:
        return Part(
            [*self.operand(left), operator, *self.operand(right)],
            low,
            high,
            False,
            left.is_constant and right.is_constant,
        )

    def masked(self, part: Part, most: int) -> Part:
        """The low bits of a value. The span of a constant is its value alone."""
        mask = self.constant(most)
        return self.joined(part, "/\\", mask, *self.bits("/\\", part, mask))

    def shift(self, operator: str, left: Part, right: Part) -> Part:
        if right.low < 0 or right.high > 32 or self.chance(0.4):
            right = self.constant(self.random.choice((0, 1, 2, 4, 8, 16, 31, 32)))
            if self.risk() and not left.is_constant:
                right = self.constant(self.random.choice((33, 33, 34, 64, MOST_POSITIVE, -1, MOST_NEGATIVE)))
            elif self.chance(0.4):
                most = 15 if self.chance(0.5) else 31
                right = self.masked(self.int_leaf(), most)
        if left.is_constant and right.is_constant:
            number = wrapped((left.low << right.low) if operator == "<<" else ((left.low & 0xFFFFFFFF) >> right.low))
            return self.joined(left, operator, right, number, number)
        low, high = WHOLE
        if operator == ">>" and right.low > 0:
            low, high = 0, 0xFFFFFFFF >> min(right.low, 32)
        return self.joined(left, operator, right, low, high)

    def division(self, operator: str, left: Part, right: Part) -> Part:
        if right.low <= 0 <= right.high and not (self.risk() and not right.is_constant):
            most = self.random.choice((1, 9, 99, 255, 4095))
            right = self.constant(
                self.random.choice((1, 2, 3, 7, 10, 16, 100, 1000, MOST_POSITIVE, MOST_NEGATIVE, -2, -3, -10))
            )
            if self.chance(0.4):
                few = self.masked(self.int_leaf(), most)
                right = self.joined(few, "+", self.constant(1), few.low + 1, few.high + 1)
        overflows = right.low <= -1 <= right.high and left.low == MOST_NEGATIVE and operator == "/"
        if overflows and not (self.risk() and not right.is_constant):
            right = self.constant(self.random.choice((3, 5, -7, 1)))
        if left.is_constant and right.is_constant:
            whole = abs(left.low) // abs(right.low) * (1 if (left.low < 0) == (right.low < 0) else -1)
            number = whole if operator == "/" else left.low - whole * right.low
            return self.joined(left, operator, right, number, number)
        if operator == "/":
            most = max(abs(left.low), abs(left.high))
            return self.joined(left, operator, right, max(-most, MOST_NEGATIVE), min(most, MOST_POSITIVE))
        most = max(abs(right.low), abs(right.high)) - 1
        return self.joined(left, operator, right, -most if left.low < 0 else 0, most if left.high > 0 else 0)

    def fitting(self, depth: int, span: Span) -> Part:
        """An expression of INT within a span."""
        part = self.int_part(depth)
        if span[0] <= part.low and part.high <= span[1]:
            return part
        if part.is_constant:
            return self.number(*span)
        if self.chance(0.5) and span[0] <= 0:
            most = self.random.choice([it for it in (0, 1, 3, 7, 15, 255, 4095) if it <= span[1]])
            return self.joined(part, "/\\", self.constant(most), 0, most)
        count = self.random.choice([it for it in (1, 2, 7, 10, 100, 10_000) if it - 1 <= span[1] and 1 - it >= span[0]])
        return self.joined(part, self.random.choice(("\\", "REM")), self.constant(count), 1 - count, count - 1)

    def byte_part(self, depth: int) -> Part:
        """An expression of BYTE."""
        found = self.readable(BYTE)
        if depth <= 0 or self.chance(0.3):
            element = self.element(BYTE)
            if element:
                return Part(element.tokens)
            if found and self.chance(0.7):
                return Part([self.random.choice(found).name])
            return Part([self.character()], is_constant=True)
        if self.risk():
            part = self.int_part(depth - 1)
            if not part.is_constant:
                return Part([BYTE, *self.operand(part)], is_operand=False)
        if self.chance(0.1):
            number = self.constant(self.random.choice((0, 1, 127, 128, 255)))
            return Part([BYTE, *self.operand(number)], is_operand=False, is_constant=True)
        part = self.int_part(depth - 1)
        if part.is_constant and not 0 <= part.low <= 255:
            part = self.number(0, 255)
        if part.low < 0 or part.high > 255:
            most = self.random.choice((1, 15, 127, 255))
            part = self.joined(part, "/\\", self.constant(most), 0, most)
        return Part([BYTE, *self.operand(part)], is_operand=False, is_constant=part.is_constant)

    def character(self) -> str:
        way = self.random.random()
        if way < 0.5:
            letter = chr(self.random.randrange(32, 127))
            return "'*" + letter + "'" if letter in "'*\"" else f"'{letter}'"
        if way < 0.8:
            return f"'*{self.random.choice('nctsncts*')}'"
        return f"'*#{self.random.randrange(256):02{self.random.choice('xX')}}'"

    def bool_part(self, depth: int) -> Part:
        """An expression of BOOL."""
        found = self.readable(BOOL)
        if depth <= 0 or self.chance(0.12):
            element = self.element(BOOL)
            if element:
                return Part(element.tokens)
            if found and self.chance(0.8):
                return Part([self.random.choice(found).name])
            return Part([self.random.choice(("TRUE", "FALSE"))], is_constant=True)
        way = self.random.random()
        if way < 0.12:
            return Part(["NOT", *self.operand(self.bool_part(depth - 1))], is_operand=False)
        if way < 0.20:
            part = self.int_part(depth - 1)
            if part.is_constant:
                part = self.number(0, 1)
            elif not (part.low >= 0 and part.high <= 1) and not self.risk():
                part = self.joined(part, "/\\", self.constant(1), 0, 1)
            return Part([BOOL, *self.operand(part)], is_operand=False, is_constant=part.is_constant)
        if way < 0.42:
            tokens, operator = self.operand(self.bool_part(depth - 1)), self.random.choice(("AND", "OR"))
            for _ in range(self.random.choice((1, 1, 1, 2, 3))):
                tokens = [*tokens, operator, *self.operand(self.bool_part(depth - 1))]
            return Part(tokens, is_operand=False)
        if way < 0.45:
            return self.guarded()
        if way < 0.49 and "equal bools" in FEATURES:
            return self.joined(
                self.bool_part(depth - 1), self.random.choice(("=", "<>")), self.bool_part(depth - 1), 0, 1
            )
        make = self.byte_part if way < 0.62 else self.int_part
        operator = self.random.choice(("=", "<>", "<", ">", "<=", ">="))
        return self.joined(make(depth - 1), operator, make(depth - 1), 0, 1)

    def expression(self, kind: str, depth: int) -> Part:
        """An expression of a type."""
        return self.int_part(depth) if kind == INT else self.byte_part(depth) if kind == BYTE else self.bool_part(depth)

    def value(self, variable: Variable, depth: int | None = None) -> Part:
        """An expression for a variable."""
        depth = self.depth if depth is None else depth
        if variable.type == INT:
            return self.fitting(depth, variable.span)
        return self.expression(variable.type, depth)

    def guarded(self) -> Part:
        """A choice whose right side would err if it was looked at without need."""
        found = self.readable(INT)
        if not found:
            return Part(["TRUE"], is_constant=True)
        by, over = self.random.choice(found).name, self.fitting(1, SMALL)
        if over.is_constant:
            over = self.joined(Part([by]), "/\\", self.constant(255), 0, 255)
        quotient = ["(", *self.operand(over), self.random.choice(("/", "\\")), by, ")"]
        side = ["(", *quotient, self.random.choice(("<", ">", "=")), *self.operand(self.number(-5, 9)), ")"]
        if self.chance(0.5):
            return Part(["(", by, "<>", "0", ")", "AND", *side], is_operand=False)
        return Part(["(", by, "=", "0", ")", "OR", *side], is_operand=False)

    # -- elements

    def element(self, kind: str) -> Part | None:
        """An element of a filled array, or none."""
        found = self.filled(kind)
        if not found or self.inside_index > 1 or not self.weighs("element"):
            return None
        array = self.random.choice(found)
        return Part([array.name, "[", *self.index(array).tokens, "]"], *array.span)

    def index(self, array: Variable, avoided: Sequence[Variable] = ()) -> Part:
        """A subscript of an array, whose variables aren't among those avoided."""
        self.inside_index += 1
        hidden, self.hidden = self.hidden, [*self.hidden, *avoided]
        # whether an element that gets another name is looked for there, or where it is used, is left open
        is_risky, self.is_risky = self.is_risky, self.is_risky and not avoided
        part = self.any_index(array)
        self.hidden, self.is_risky = hidden, is_risky
        self.inside_index -= 1
        return part

    def size_of(self, array: Variable) -> list[str]:
        if array.size and not (self.chance(0.3) and "SIZE" in FEATURES):
            return [str(array.size)]
        return ["(", "SIZE", array.name, ")"]

    def any_index(self, array: Variable) -> Part:
        size = array.size
        fitting = [
            it for it in self.readable(INT) if it.over is array or size and it.span[0] >= 0 and it.span[1] < size
        ]
        if fitting and self.chance(0.5):
            return Part([self.random.choice(fitting).name], 0, (size or 16_000) - 1)
        if self.chance(0.3):
            at = self.random.choice((0, (size or 1) - 1, self.random.randrange(size or 1)))
            return self.constant(at)
        part = self.int_part(self.random.choice((0, 1, 1, 2)))
        if part.is_constant:
            return self.constant(self.random.randrange(size or 1))
        if self.risk():
            return part
        masks = [it for it in (1, 3, 7, 15, 31, 63) if size and it < size]
        if masks and self.chance(0.5):
            mask = self.random.choice(masks)
            return self.joined(part, "/\\", self.constant(mask), 0, mask)
        masked = self.joined(
            part, "/\\", self.constant(self.random.choice((15, 255, 4095, MOST_POSITIVE))), 0, MOST_POSITIVE
        )
        return Part(
            ["(", *masked.tokens, ")", self.random.choice(("\\", "REM")), *self.size_of(array)], 0, (size or 16_000) - 1
        )
