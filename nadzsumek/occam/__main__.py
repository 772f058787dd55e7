"""Shows what becomes of a text of occam: its core as a text of occam, its unit in JSON, or only what is wrong with it.

usage: python3 -m nadzsumek.occam FILE [--core | --json | --check]

Mistakes and warnings are on standard error, as `lab occam` shows them, and the status is 4 if there are mistakes. Faults 35 to 40 are
found by the proved program alone.
"""

from __future__ import annotations

import os
import sys

from ..mistakes.places import shown
from .compiling import compiled
from .core_text import text_of_core
from .mistakes import WrongText
from .unit import unit_of

USAGE, NO_FILE, WRONG_TEXT = 2, 6, 4


def main(words: list[str]) -> int:
    """Does what the words ask, and gives the status."""
    match words:
        case [file]:
            form = "--core"
        case [file, "--core" | "--json" | "--check" as form]:
            pass
        case _:
            print(__doc__, file=sys.stderr, end="")
            return USAGE
    try:
        with open(file, "rb") as opened:
            text = opened.read()
    except OSError as error:
        print(f"{file}: {error.strerror}", file=sys.stderr)
        return NO_FILE
    return show(file, text, form)


def show(file: str, text: bytes, form: str) -> int:
    """Shows the text of a file in a form."""
    try:
        program, _, warnings = compiled(text)
    except WrongText as wrong:
        print(shown(file, "\n".join(wrong.lines)), end="", file=sys.stderr)
        if form == "--json":
            print(unit_of(text))
        return WRONG_TEXT
    if warnings:
        print(shown(file, "\n".join(warnings)), end="", file=sys.stderr)
    if form == "--core":
        print(text_of_core(program), end="")
    elif form == "--json":
        print(unit_of(text))
    return 0


if __name__ == "__main__":
    try:
        status = main(sys.argv[1:])
        sys.stdout.flush()
    except BrokenPipeError:
        # who reads it has enough
        os.dup2(os.open(os.devnull, os.O_WRONLY), sys.stdout.fileno())
        status = 0
    sys.exit(status)
