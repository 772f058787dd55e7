"""How occam programs are printed, in styles of their own: blanks, lines that go on, remarks."""
import random

from occam.expressions import KEYWORDS
from occam.pieces import FEATURES, REMARKS, SIGNS, UNARY
from occam.values import BOOL, BYTE, INT


class Printer:
    """Prints the lines of a program, in a style of its own."""

    def __init__(self, seed: int | str) -> None:
        self.random = random.Random(f"{seed} printed")
        self.style = self.random.choice(("wide", "wide", "tight", "mixed"))
        self.breaks = self.random.choice((0, 0, 0.03, 0.15))
        self.remarks = self.random.choice((0, 0.05, 0.2))
        self.end = "\r\n" if self.random.random() < 0.15 else "\n"

    def gap(self, left: str, right: str) -> str:
        """What is between two tokens."""
        plain = left.lstrip(UNARY)
        is_needed = plain not in SIGNS and right.lstrip(UNARY) not in SIGNS
        if left.startswith(UNARY) and not is_needed:
            return ""
        wants = not (plain in ("(", "[") or right in (")", ",", ":", "]"))
        if right == "[" and plain not in SIGNS and plain not in KEYWORDS or plain == "]" and right in (INT, BYTE, BOOL):
            wants = self.style == "mixed" and wants
        if self.style == "wide":
            return " " if is_needed or wants and not left.startswith(UNARY) else ""
        if self.style == "tight":
            return " " if is_needed else ""
        return " " * self.random.choice((1, 1, 2, 3)) if is_needed else " " * self.random.choice((0, 0, 1, 2))

    @staticmethod
    def goes_on(tokens: list[str], at: int) -> bool:
        """Whether a line may end with this token."""
        token, before = tokens[at], tokens[at - 1] if at else "("
        if token == "MINUS":
            return (before not in SIGNS or before == ")") and before not in ("FOR", "WHILE", INT, "NOT", BYTE, BOOL)
        return token in SIGNS - {"?", "!", "&", "(", ")", ":", "[", "]"} or token in (
            "REM",
            "PLUS",
            "TIMES",
            "AND",
            "OR",
            "FOR",
            "IS",
        )

    def line(self, indent: int, tokens: list[str]) -> str:
        """The lines of text of a statement."""
        text = " " * indent
        for at, token in enumerate(tokens):
            text += token.lstrip(UNARY)
            if at + 1 == len(tokens):
                break
            if self.goes_on(tokens, at) and self.random.random() < self.breaks:
                extra = self.random.randrange(9) if "odd continuation" in FEATURES else 2 * self.random.randrange(4)
                text += (" " if token == "-" else "") + self.remark() + self.end + " " * (indent + extra)
            else:
                text += self.gap(token, tokens[at + 1])
        return text

    def remark(self) -> str:
        if self.random.random() < self.remarks:
            return " " * self.random.randrange(4) + "--" + self.random.choice(REMARKS)
        return " " if "blank at the end" in FEATURES and self.random.random() < 0.01 else ""

    def text(self, lines: list[tuple[int, list[str]]]) -> str:
        text = self.remark().lstrip() + self.end if self.remarks else ""
        for indent, tokens in lines:
            text += self.line(indent, tokens) + self.remark() + self.end
            if self.random.random() < self.remarks:
                below = (
                    "",
                    "    ",
                    " " * indent + "-- below",
                    "-- at the left",
                    " " * (indent + 3) + "-- at the right",
                )
                text += self.random.choice(below) + self.end
        return text.removesuffix(self.end) if self.random.random() < 0.1 else text
