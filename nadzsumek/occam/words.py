"""The words of a text: statements, each with its indentation and its words."""
from __future__ import annotations

import re
from typing import NamedTuple

from .mistakes import Mistake, Place, expected, left_out, quoted

MOST_BYTES, MOST_LINES = 1_000_000, 65_535
OPERATORS = frozenset("+ - * / \\ REM PLUS MINUS TIMES /\\ \\/ >< << >> = <> < > <= >= AND OR".split())
KEYWORDS = frozenset(
    "SKIP STOP SEQ PAR ALT PRI IF WHILE INT BYTE BOOL CHAN VAL PROC OF PLACE AT FOR FROM IS SIZE TRUE FALSE "
    "MOSTPOS MOSTNEG NOT AND OR REM PLUS MINUS TIMES CASE ELSE PROTOCOL ANY FUNCTION VALOF RESULT".split()
)
SIGNS = OPERATORS | frozenset(": :: ( ) [ ] , := ? ! ~ ; &".split())
# A statement whose last word is one of these goes on in the next line.
GOES_ON = OPERATORS | {",", ":=", "IS", "FOR"}
BYTE_ORDER_MARK = "\ufeff"
# Keywords that hardly are meant where a name in small letters is.
NAMES_TOO = frozenset(("ANY", "RESULT"))
DIRECTIVES = {"#USE", "#INCLUDE", "#COMMENT", "#OPTION", "#PRAGMA"}

NO_TIMERS = "The farm's processors have no timers"
NO_REALS = "There is no floating point, and INT has 32 bits"
ONE_INTEGER = "INT has 32 bits"
ONE_FILE = "Each node has a file of its own: load HOST FILE"
NO_ASSEMBLY = "Write the whole program for lab assemble instead"
LEFT_OUT = {
    "PLACED": ONE_FILE,
    "PROCESSOR": ONE_FILE,
    "TIMER": NO_TIMERS,
    "AFTER": NO_TIMERS,
    "REAL32": NO_REALS,
    "REAL64": NO_REALS,
    "ROUND": NO_REALS,
    "TRUNC": NO_REALS,
    "INT16": ONE_INTEGER,
    "INT32": ONE_INTEGER,
    "INT64": ONE_INTEGER,
    "RETYPES": "INT x, BYTE x and BOOL x convert a value",
    "PORT": "There are channels at links alone",
    "INLINE": "Write PROC alone: its process is put in at each instance",
    "GUY": NO_ASSEMBLY,
    "ASM": NO_ASSEMBLY,
    "BITAND": "Write /\\",
    "BITOR": "Write \\/",
    "BITNOT": "Write ~",
}

WORD = re.compile(
    r"""
    (?P<name>[A-Za-z][A-Za-z0-9.]*)
  | (?P<number>[0-9][A-Za-z0-9.]*)
  | (?P<hexadecimal>\#[A-Za-z0-9.]*)
  | (?P<character>'(?: [ -&(-)+-~] | \*(?: [ncts'"*NCTS] | \#[0-9A-Fa-f]{2} ) )')
  | (?P<string>"(?: [ !\#-)+-~] | \*(?: [ncts'"*NCTS] | \#[0-9A-Fa-f]{2} ) )+")
  | (?P<sign>:= | /\\ | \\/ | >< | << | >> | <> | <= | >= | :: | // | /\* | == | != | => | =< | && | \|\| | \+\+ | \+= | -=
      | \*\* | [!-~])
""",
    re.VERBOSE,
)
CHARACTER = re.compile(r"\*#(?P<code>..)|\*(?P<letter>.)|(?P<plain>.)")
ESCAPES = {"n": 10, "c": 13, "t": 9, "s": 32}
CHARACTERS = "a printed character of ASCII, or * and one of n c t s ' \" * or # with two hexadecimal digits"


class Token(NamedTuple):
    """A word. Its kind is itself if it is a keyword or a sign, and else what it is: `name`, `number`, `character`, `string`,
    `foreign` for signs of other languages, `end` for the end of a statement, and `wrong` where reading stops."""

    kind: str
    text: str
    place: Place
    value: int | bytes | Mistake | None = None


class Statement(NamedTuple):
    """A line, and those that continue it. The last word is of the kind `end`, or `wrong`."""

    indentation: int
    words: list[Token]


def statements_of(text: bytes) -> list[Statement]:
    """The statements of a text, up to its end or to the first wrong word.

    Raises Mistake (fault 44) if the text is too long.
    """
    lines = text.decode("utf-8", "surrogateescape").split("\n")
    if len(text) > MOST_BYTES or len(lines) - (not lines[-1]) > MOST_LINES:
        raise too_long(Place(1 if len(text) > MOST_BYTES else MOST_LINES + 1, 1))
    statements: list[Statement] = []
    goes_on = False
    for number, line in enumerate(lines, 1):
        line = line.removesuffix("\r")
        rest = line.lstrip(" \t")
        if not rest or rest.startswith("--") and is_utf8(rest):
            continue
        blanks = len(line) - len(line.lstrip(" "))
        if goes_on:
            words = statements[-1].words
            words.pop()
            if blanks < statements[-1].indentation:
                words.append(too_far_left(Place(number, blanks + 1), blanks, statements[-1]))
                break
        else:
            words = []
            statements.append(Statement(-1 if rest[0] != line[blanks] or rest.startswith("--") else blanks, words))
        read_words(line, number, blanks, words)
        if words[-1].kind == "wrong":
            break
        goes_on = words[-2].kind in GOES_ON
    return statements


def too_long(place: Place) -> Mistake:
    """The mistake of a text that is too long."""
    return expected(place, 44, f"a text of at most {MOST_LINES} lines and {MOST_BYTES} bytes")


def is_utf8(text: str) -> bool:
    """Whether decoding found only UTF-8."""
    return text.isascii() or not any("\udc80" <= letter <= "\udcff" for letter in text)


def too_far_left(place: Place, blanks: int, statement: Statement) -> Token:
    """The mistake of a line that goes on, and begins before the first one."""
    hint = (
        f"The line continues line {statement.words[0].place.line}, which ends with an operator, a comma, :=, IS or FOR"
    )
    wrong = expected(place, 2, f"an indentation of at least {statement.indentation} blanks", str(blanks), hint)
    return Token("wrong", "", place, wrong)


def read_words(line: str, number: int, at: int, words: list[Token]) -> None:
    """Adds the words of a line from a column on, and its end or what is wrong."""
    match_at, length = WORD.match, len(line)
    while at < length:
        if line[at] == " ":
            at += 1
            continue
        found = match_at(line, at)
        place = Place(number, at + 1)
        if found is None or line.startswith("--", at):
            if not line[at:].strip(" \t"):
                break
            if line.startswith("--", at) and is_utf8(line[at:]):
                break
            words.append(Token("wrong", "", place, unreadable(line, at, place)))
            return
        text = found[0]
        at = found.end()
        kind = found.lastgroup
        if kind == "name" and text not in KEYWORDS and text not in LEFT_OUT:
            words.append(Token("name", text, place))
        elif text in KEYWORDS or text in SIGNS:
            words.append(Token(text, text, place))
        else:
            word = other_word(kind, text, place, line)
            words.append(word)
            if word.kind == "wrong":
                return
    words.append(Token("end", "", Place(number, words[-1].place.column + len(words[-1].text))))


def other_word(kind: str | None, text: str, place: Place, line: str) -> Token:
    """A literal, a sign that isn't occam's, or what is wrong."""
    try:
        match kind:
            case "number":
                return Token(kind, text, place, decimal(text, place))
            case "hexadecimal":
                return Token("number", text, place, hexadecimal(text, place))
            case "character" | "string":
                data = bytes(map(code_of, CHARACTER.finditer(text[1:-1])))
                return Token(kind, text, place, data if kind == "string" else data[0])
            case "name":
                raise left_out(place, text, LEFT_OUT[text])
            case _ if text in "'\"":
                raise open_quote(text, line, place)
        return Token("foreign", text, place)
    except Mistake as mistake:
        return Token("wrong", text, place, mistake)


def code_of(character: re.Match[str]) -> int:
    """The byte of a character between quotes."""
    if character["code"]:
        return int(character["code"], 16)
    letter = character["letter"]
    return ESCAPES.get(letter.lower(), ord(letter)) if letter else ord(character["plain"])


def decimal(text: str, place: Place) -> int:
    """The value of decimal digits."""
    value = int(text) if text.isdigit() else None
    if value is not None and value < 2**31:
        return value
    hint = ""
    if text[:2] in ("0x", "0X"):
        hint = f"Hexadecimal digits are after #: #{text[2:]}"
    elif value is None:
        hint = "There is no floating point" if "." in text else ""
    elif value == 2**31:
        hint = "-2147483648 is MOSTNEG INT"
    elif value < 2**32:
        hint = "A larger word is written in hexadecimal digits, to #FFFFFFFF"
    raise expected(place, 8, "a number to 2147483647", quoted(text), hint)


def hexadecimal(text: str, place: Place) -> int:
    """The value of one to eight hexadecimal digits after `#`."""
    if re.fullmatch("#[0-9A-Fa-f]{1,8}", text):
        return int(text[1:], 16)
    if text in DIRECTIVES:
        raise left_out(place, "a directive", "The whole program is in one file")
    raise expected(place, 8, "one to eight hexadecimal digits after #", quoted(text))


def open_quote(quote: str, line: str, place: Place) -> Mistake:
    """What is wrong with a string, or a character, that isn't one."""
    inside = (
        r"(?:[ !#-)+-~]|\*(?:[ncts'\"*NCTS]|#[0-9A-Fa-f]{2}))*"
        if quote == '"'
        else r"(?:[ -&(-)+-~]|\*(?:[ncts'\"*NCTS]|#[0-9A-Fa-f]{2}))?"
    )
    found = re.compile(inside).match(line, place.column)
    end = found.end() if found else place.column
    at, rest = Place(place.line, end + 1), line[end:]
    if rest.startswith('"') and quote == '"':
        return expected(place, 9, "a string of at least one character", "an empty one")
    met = quoted(rest[:2] if rest.startswith("*") else rest[:1]) if rest else "the end of the line"
    if quote == '"' and rest in ("", "*"):
        what = (10, "a closing quote") if not rest else (9, CHARACTERS)
        return expected(at, *what, "the end of the line", "A string ends in its line")
    if quote == "'" and end > place.column:
        return expected(
            at, 10, "a closing quote", met, 'Several characters are a string, between " and "' if rest else ""
        )
    return expected(at, 9, CHARACTERS, met)


def unreadable(line: str, at: int, place: Place) -> Mistake:
    """What is wrong where no word is."""
    if line.startswith("--", at):
        return expected(place, 1, "a comment in UTF-8")
    if line[at] == "\t":
        return expected(place, 3, "blanks", "a tab")
    letter = line[at]
    if letter == BYTE_ORDER_MARK:
        hint = "An editor puts this byte order mark before a file: save it as UTF-8 without one"
        return expected(place, 1, "printed characters of ASCII outside comments", quoted(letter), hint)
    met = f"the byte {ord(letter) - 0xDC00:02x}" if "\udc80" <= letter <= "\udcff" else quoted(letter)
    return expected(place, 1, "printed characters of ASCII outside comments", met)
