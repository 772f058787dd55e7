"""Values as people write them, in exercises, at a terminal and for `lab run`: texts, bytes, words and hexadecimal digits. And how bytes
that came are shown: as letters, as numbers and as bytes."""

from __future__ import annotations

import re

from ..mistakes.verbs import Wrong
from .texts import ESCAPES, bytes_meant

# What values begin with, each with the numbers that may follow, and as how many bytes each is sent.
NUMBERS = {"byte": (range(-128, 256), 1), "word": (range(-(1 << 31), 1 << 32), 4)}
VALUES = 'values are "text", byte 1 2, word 1 -2 or hex 0a0b'
PIECE = re.compile(r'"(?:[^"\\]|\\.)*"|\S+')
# A text that was typed without quotes, and is numbers.
NUMERIC = re.compile(r"(?:byte|word)\s+[-#]?[0-9].*|hex\s+(?:[0-9a-fA-F]{2})+", re.DOTALL)
WORD_BYTES = 4
SHOWN = {meant: f"\\{letter}" for letter, meant in ESCAPES.items() if meant != "\0"}


class Unfit(Exception):
    """What is wrong with a value, or with a line that has values."""


def number_in(word: str, among: range, what: str) -> int:
    """A number: decimal digits, or hexadecimal ones behind #."""
    if not re.fullmatch(r"-?[0-9]{1,20}|#[0-9a-fA-F]{1,8}", word):
        raise Unfit(f"{word!r} is no number where {what} is wanted")
    number = int(word[1:], 16) if word.startswith("#") else int(word)
    if number not in among:
        raise Unfit(f"{what} is {among[0]} to {among[-1]}, and not {word}")
    return number


def bytes_of(pieces: list[str]) -> bytes:
    """The bytes that values are."""
    made, at = b"", 0
    while at < len(pieces):
        word = pieces[at]
        at += 1
        if word.startswith('"'):
            try:
                made += bytes_meant(word)
            except Wrong as wrong:
                raise Unfit(str(wrong).partition(" Try: ")[0].rstrip(".")) from None
        elif word == "hex":
            if at == len(pieces) or not re.fullmatch(r"([0-9a-fA-F]{2})+", pieces[at]):
                raise Unfit("hex wants an even number of hexadecimal digits after it, such as hex 0a0b")
            made += bytes.fromhex(pieces[at])
            at += 1
        elif word in NUMBERS:
            among, size = NUMBERS[word]
            begun = at
            while at < len(pieces) and re.match(r"[-#0-9]", pieces[at]):
                made += (number_in(pieces[at], among, f"a {word}") % (1 << 8 * size)).to_bytes(size, "little")
                at += 1
            if at == begun:
                raise Unfit(f"{word} wants numbers after it, such as {word} 1 2")
        else:
            raise Unfit(f"{word!r} is no value: {VALUES}")
    if not made:
        raise Unfit(f"values are missing: {VALUES}")
    return made


def numeric_bytes(text: str) -> bytes | None:
    """The bytes of a text that was typed as numbers; none if it is a text of letters, which it always is in quotes."""
    if not NUMERIC.fullmatch(text):
        return None
    try:
        return bytes_of(PIECE.findall(text))
    except Unfit as unfit:
        raise Wrong(f"{unfit}. In quotes it is a text") from None


def typed_bytes(text: str) -> bytes:
    """The bytes of values that were typed: numbers, several values of which the first is in quotes, or a plain text."""
    made = numeric_bytes(text)
    if made is not None:
        return made
    pieces = PIECE.findall(text)
    if len(pieces) > 1 and text.startswith('"'):
        try:
            return bytes_of(pieces)
        except Unfit as unfit:
            raise Wrong(f"{unfit}") from None
    return bytes_meant(text)


def as_letters(content: bytes) -> str | None:
    """Bytes as a text in quotes; none if it can't be printed."""
    try:
        text = content.decode()
    except UnicodeDecodeError:
        return None
    if not all(it.isprintable() or it in "\n\r\t" for it in text):
        return None
    return '"' + "".join(SHOWN.get(it, it) for it in text) + '"'


def as_numbers(content: bytes) -> str | None:
    """Bytes as numbers with a sign, each of a word whose least significant byte came first; none if they aren't whole words."""
    if not content or len(content) % WORD_BYTES:
        return None
    words = (content[at : at + WORD_BYTES] for at in range(0, len(content), WORD_BYTES))
    return " ".join(f"{int.from_bytes(it, 'little', signed=True)}" for it in words)
