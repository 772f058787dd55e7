"""Which lines of a script are wrong, and why: the first word that is wrong, what would be right there, and what often helps."""

from __future__ import annotations

import re
from collections.abc import Callable, Iterator
from typing import NamedTuple

from .nearness import in_other_letters, nearest
from .verbs import ADDRESS, HEX, HOST, NODE, OF_SCRIPTS, SHORTHAND, USERS, WORD, Kind, is_of
from .words import BLANK, CAPITALS, REMARK, help_of_characters, help_of_digits, shown

# How many users are named at most, and how many wrong lines have a sentence of their own.
MOST_NAMES, MOST_TOLD = 8, 100
VERBS = f"{', '.join(OF_SCRIPTS[:-1])} or {OF_SCRIPTS[-1]}"
IN_LAB = "in `lab run`; `lab expand` spells its line out"
REFUSALS = {
    HOST: " is no host number: decimal digits, 0 to 255",
    NODE: " is no node number: decimal digits, 0 to 255",
    HEX: " spells no bytes: two hexadecimal digits for each, and at least one byte",
    ADDRESS: " is no address: eight hexadecimal digits",
    WORD: " is no word of memory: eight hexadecimal digits",
}


class WrongLine(NamedTuple):
    """The word by which `farm` refuses a line, and what makes the sentence about it, which comes after the number of the line."""

    kind: str
    told: Callable[[], str]


def divided(text: bytes) -> tuple[bytes, bytes | None]:
    """The plan of a text, and the script after the line `---`, if there is such a line."""
    mark = re.search(rb"^---\r?$", text, re.MULTILINE)
    if mark is None:
        return text, None
    return text[: mark.start()], text[mark.end() + 1 :]


def lines_of(text: bytes) -> list[bytes]:
    """The lines of a text, each without one carriage return at its end."""
    return [line.removesuffix(b"\r") for line in text.removesuffix(b"\n").split(b"\n")]


def text_of(word: bytes) -> str:
    """A word as a text; nothing if it isn't UTF-8."""
    try:
        return word.decode()
    except UnicodeDecodeError:
        return ""


def in_brackets(told: str | None) -> str:
    """What helps, as it follows a sentence."""
    return f" ({told})" if told else ""


def wrong_line(names: list[str], line: bytes) -> WrongLine | None:
    """Why a line is wrong, if it is. `names` are those of the users."""
    if not line or line.startswith(b"#"):
        return None
    user, *words = line.split(b" ")
    name = text_of(user)
    if name not in names:
        said = f": {shown(user)} is no user of the plan: {listed(names)}"
        return WrongLine("user", lambda: said + help_of_user(user, names))
    if not words or text_of(words[0]) not in OF_SCRIPTS:
        return WrongLine("verb", lambda: f", {name}: {told_of_verb(words)}")
    return wrong_arguments(name, text_of(words[0]), words[1:])


def listed(names: list[str]) -> str:
    """The first users, and how many more there are."""
    more = len(names) - MOST_NAMES
    return ", ".join(names[:MOST_NAMES]) + (f" and {more} more" if more > 0 else "")


def help_of_user(user: bytes, names: list[str]) -> str:
    """What helps where the name of a user should be."""
    word = text_of(user)
    if not user:
        return in_brackets(BLANK)
    same = in_other_letters(word, names)
    if same:
        return in_brackets(CAPITALS + same)
    if word in OF_SCRIPTS or word.lower() in SHORTHAND:
        return in_brackets("a line begins with the name of its user, and then comes the verb")
    return in_brackets(help_of_characters(word))


def told_of_verb(words: list[bytes]) -> str:
    """What is said of the words after a user's name, of which the first is no verb."""
    if not words:
        return f"a verb is missing: {VERBS}"
    return f"{shown(words[0])} is no verb: {VERBS}{help_of_verb(words[0])}"


def help_of_verb(written: bytes) -> str:
    """What helps where a verb should be."""
    word = text_of(written)
    if not written:
        return in_brackets(BLANK)
    if word.lower() in SHORTHAND:
        return in_brackets(f"{word.lower()} helps, in small letters, {IN_LAB}")
    same = in_other_letters(word, OF_SCRIPTS)
    near = nearest(word, OF_SCRIPTS + SHORTHAND)
    if help_of_characters(word) or same or not near:
        return in_brackets(help_of_characters(word) or (CAPITALS + same if same else None))
    return in_brackets(f"is it {near}? That helps {IN_LAB}" if near in SHORTHAND else f"is it {near}?")


def wrong_arguments(name: str, verb: str, words: list[bytes]) -> WrongLine | None:
    """What is wrong with the words after a verb, if something is."""
    kinds, begin = USERS[verb].kinds, f", {name} {verb}: "
    if len(words) != len(kinds):
        form = " ".join([name, verb, *(kind.letters for kind in kinds)])
        many = "few" if len(words) < len(kinds) else "many"
        return WrongLine("args", lambda: f"{begin}too {many} words: {form}{help_of_words(words)}")
    wrong = [(kind, word) for kind, word in zip(kinds, words) if not is_of(kind, text_of(word))]
    if not wrong:
        return None
    kind, word = wrong[0]
    told = "args" if any(kind in (HOST, NODE) for kind, _ in wrong) else "hex"
    return WrongLine(told, lambda: f"{begin}{shown(word)}{REFUSALS[kind]}{help_of_argument(kind, word)}")


def help_of_words(words: list[bytes]) -> str:
    """What helps where there are too few words or too many."""
    if words and not words[-1]:
        return in_brackets("there is a space at the end of the line")
    told = (BLANK if not word else help_of_characters(text_of(word)) or help_of_remark(word) for word in words)
    return in_brackets(next(filter(None, told), None))


def help_of_remark(word: bytes) -> str | None:
    """What helps where a remark is at the end of a line."""
    return REMARK if word.startswith(b"#") else None


def help_of_argument(kind: Kind, word: bytes) -> str:
    """What helps where a word doesn't spell what it stands for."""
    text = text_of(word)
    if not word:
        return in_brackets(BLANK)
    told = help_of_characters(text) or help_of_digits(text, are_pairs=False)
    if told or kind in (HOST, NODE):
        return in_brackets(told)
    wrong = re.search(rb"[^0-9a-fA-F]", word)
    if wrong is None:
        return in_brackets(f"it has {len(word)} digit{'s' * (len(word) != 1)}")
    letter = text_of(word[wrong.start() :])[:1].encode() or word[wrong.start() : wrong.start() + 1]
    return in_brackets(f"{shown(letter)}, its character {wrong.start() + 1}, is none")


def wrong_lines(names: list[str], script: bytes) -> Iterator[tuple[int, WrongLine]]:
    """The wrong lines of a script with their numbers, from 1."""
    for number, line in enumerate(lines_of(script), 1):
        wrong = wrong_line(names, line)
        if wrong:
            yield number, wrong


def told_lines(names: list[str], script: bytes) -> list[str]:
    """What is said of the wrong lines of a script: of the first hundred, and then how many more there are."""
    wrong = list(wrong_lines(names, script))
    more = len(wrong) - MOST_TOLD
    rest = [f"and {more} more line{'s are' if more > 1 else ' is'} wrong"] if more > 0 else []
    return [f"line {number}{it.told()}" for number, it in wrong[:MOST_TOLD]] + rest
