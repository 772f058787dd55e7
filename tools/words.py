"""Answers `--help` and wrong words of a program that isn't built yet, from packaging/help.json. That file has what the program prints
for `--help`, and the gate compares it.

usage: python3 -S tools/words.py PROGRAM WORD..

The status is 0 if help was shown, 2 if the words are refused, and 100 if only the program can answer. They are refused if an option
or a subcommand is unknown, or an argument lacks. What else is wrong only the program knows.
"""

import json
import re
import sys
from typing import NoReturn

from manual import Help
from tree import TOP

HELPS = f"{TOP}/packaging/help.json"
SHOWN, REFUSED, UNKNOWN = 0, 2, 100


class Done(Exception):
    """The words are answered, with this status."""


def texts() -> dict[str, str]:
    """What each command and subcommand prints for --help."""
    with open(HELPS, encoding="utf-8") as it:
        return dict(json.load(it))


def refuse(said: str, told: Help) -> NoReturn:
    """Refuses words, as the programs do it."""
    print(f"error: {said}\n\nUsage: {told.usage[0]}\n\nFor more information, try '--help'.", file=sys.stderr)
    raise Done(REFUSED)


def show(text: str) -> NoReturn:
    print(text, end="")
    raise Done(SHOWN)


def look_at(call: str, words: list[str], kept: dict[str, str]) -> None:
    """Answers the words of a command or subcommand, if it can be known."""
    told = Help(kept[call])
    values = {
        it: entry.count("<")
        for entry, _ in told.section("OPTIONS")
        for it in re.findall(r"(?<!\w)--?[a-z][a-z-]*", entry)
    }
    below = [entry for entry, _ in told.section("COMMANDS")]
    left, plain = list(words), []
    while left and left[0] != "--":
        word = left.pop(0)
        option = word.partition("=")[0]
        if option in ("-h", "--help"):
            show(kept[call])
        if len(word) > 1 and word.startswith("-"):
            if option not in values:
                refuse(f"unexpected argument '{option}' found", told)
            left = left[values[option] if option == word else 0 :]
        elif below and word == "help":
            show_help_of(call, left, kept)
        elif below:
            if word not in below:
                refuse(f"unrecognized subcommand '{word}'", told)
            look_at(f"{call} {word}", left, kept)
            return
        else:
            plain.append(word)
    if below:
        refuse(f"'{call}' requires a subcommand but one was not provided\n  [subcommands: {', '.join(below)}]", told)
    check_arguments([*plain, *left[1:]], told)


def check_arguments(given: list[str], told: Help) -> None:
    """Refuses too few words that are no options."""
    wanted = [entry for entry, _ in told.section("ARGUMENTS") if entry.startswith("<")]
    if lacking := wanted[len(given) :]:
        refuse("the following required arguments were not provided:" + "".join(f"\n  {it}" for it in lacking), told)


def show_help_of(call: str, words: list[str], kept: dict[str, str]) -> NoReturn:
    """Shows the help of a subcommand, or of the command if none is named."""
    asked = " ".join([call, *words])
    if asked not in kept:
        refuse(f"unrecognized subcommand '{' '.join(words)}'", Help(kept[call]))
    show(kept[asked])


def answer(name: str, words: list[str]) -> int:
    """Answers the words of a program, and gives the status."""
    kept = texts()
    try:
        if name in kept:
            look_at(name, words, kept)
    except Done as done:
        return int(done.args[0])
    return UNKNOWN


if __name__ == "__main__":
    sys.exit(answer(sys.argv[1], sys.argv[2:]))
