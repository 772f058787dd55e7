"""What is wrong with a text in the form that editors know: `FILE:LINE:COLUMN: what`, and below it the line with a mark at the column."""

from __future__ import annotations

import os
import re
import sys
from collections.abc import Callable, Sequence
from typing import NamedTuple, NoReturn

from nadzsumek.beside import begun, end_as

# What the lab says of a place in a text, and of a text as a whole.
PLACED = re.compile(r"line (\d+), column (\d+): ((?:fault|warning) \d+: .*)")
WHOLE = re.compile(r"fault \d+: .*")
# The same in the form of editors, behind the name of the file.
SHOWN = re.compile(r"(\d+):(\d+): (.*)")
# A longer line isn't shown. What is shown of one begins behind so many blanks.
MOST_LETTERS, MARGIN = 200, "    "
# The words of `lab occam` that have values.
VALUES = {"--pokes": 2, "--memory": 1}


class Said(NamedTuple):
    """What is said of a text, with its place if it has one."""

    line: int | None
    column: int | None
    text: str


def lines_of(file: str, told: str, text: Sequence[str]) -> list[str]:
    """A line that the lab says of the text in a file, as it is shown; `text` are the lines of the file."""
    placed = PLACED.fullmatch(told)
    if not placed:
        return [f"{file}: {told}" if WHOLE.fullmatch(told) else told]
    number, column = int(placed[1]), int(placed[2])
    return [f"{file}:{number}:{column}: {placed[3]}", *marked(text, number, column)]


def marked(text: Sequence[str], number: int, column: int) -> list[str]:
    """A line of a text, and a mark below its column; nothing of one that is too long, or isn't printed as it is."""
    line = text[number - 1] if number <= len(text) else ""
    if not line.strip() or len(line) > MOST_LETTERS or not line.replace("\t", " ").isprintable():
        return []
    before = "".join("\t" if it == "\t" else " " for it in line[: column - 1].ljust(column - 1))
    return [MARGIN + line, f"{MARGIN}{before}^"]


def text_in(file: str) -> list[str]:
    """The lines of a file; none if it can't be read."""
    try:
        with open(file, "rb") as it:
            return [line.removesuffix("\r") for line in it.read().decode(errors="replace").split("\n")]
    except OSError:
        return []


def shown(file: str, told: str) -> str:
    """All that the lab says of the text in a file, as it is shown."""
    text = text_in(file)
    return "".join(f"{it}\n" for line in told.splitlines() for it in lines_of(file, line, text))


def said_in(file: str, told: str) -> list[Said]:
    """What is said of a text in what was shown of it."""
    found = []
    for line in told.splitlines():
        if line.startswith(f"{file}:"):
            rest = line.removeprefix(f"{file}:")
            placed = SHOWN.fullmatch(rest)
            found.append(Said(int(placed[1]), int(placed[2]), placed[3]) if placed else Said(None, None, rest.strip()))
        elif not line.startswith(MARGIN):
            found.append(Said(None, None, line))
    return found


def sentence(it: Said) -> str:
    """One of them without the name of the file."""
    return it.text if it.line is None else f"line {it.line}, column {it.column}: {it.text}"


def file_in(words: Sequence[str]) -> str:
    """The file that the words of `lab occam` name."""
    rest = iter(words)
    for word in rest:
        for _ in range(VALUES.get(word, 0)):
            next(rest, None)
        if not word.startswith("-"):
            return word
    return ""


def run_told(start: Callable[[], NoReturn], words: Sequence[str]) -> NoReturn:
    """Has a child become the lab, and shows what it says of a text in the form of editors. The words are those behind `occam`."""
    told, status = begun(start, 2)
    try:
        sys.stderr.write(shown(file_in(words), told.decode(errors="replace")))
        sys.stderr.flush()
    except OSError:
        os._exit(os.waitstatus_to_exitcode(status) or 6)
    end_as(status)
