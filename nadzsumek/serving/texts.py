"""Texts in quotes, as `send` has them, and exercises too. `live` alone decides what a line of a user means (docs/LIVE.md). Here a text
that was typed is put in quotes, and a terminal says what is wrong with one before it sends it."""

from __future__ import annotations

import re

from ..mistakes.verbs import Wrong

# What a letter behind a backslash means, and how that is written.
ESCAPES = {"n": "\n", "r": "\r", "t": "\t", "0": "\0", "\\": "\\", '"': '"'}
WRITTEN = {meant: f"\\{letter}" for letter, meant in ESCAPES.items()}
# An escape with two digits, another escape, what is between escapes, a backslash by itself, and a quote by itself.
PIECE = re.compile(r'\\x[0-9a-fA-F]{2}|\\.|[^\\"]+|\\|"', re.DOTALL)


def pieces_of(word: str) -> list[str]:
    """The pieces of a text with quotes round it or without: escapes, and what is between them."""
    between = re.fullmatch(r'"((?:[^"\\]|\\.)*)"', word, re.DOTALL)
    if not between and word.startswith('"'):
        raise Wrong(f'{word} has no closing quote, or something behind it. Try: send 0 "hello\\n"')
    pieces = PIECE.findall(between[1] if between else word)
    for piece in pieces:
        if piece.startswith("\\") and len(piece) < 4 and piece[1:] not in ESCAPES:
            raise Wrong(f'{piece} is no escape: there are \\n \\r \\t \\0 \\\\ \\" and \\x41')
    if not pieces:
        raise Wrong('the text is empty. Try: send 0 "hello\\n"')
    return pieces


def in_quotes(word: str) -> str:
    """A text that was typed, with quotes round it or without, in quotes."""
    return '"' + "".join('\\"' if it == '"' else it for it in pieces_of(word)) + '"'


def bytes_meant(word: str) -> bytes:
    """The bytes that a text means, with quotes round it or without."""
    made = b""
    for it in pieces_of(word):
        if it.startswith("\\x"):
            made += bytes.fromhex(it[2:])
        else:
            made += (ESCAPES[it[1:]] if it.startswith("\\") else it).encode("utf-8", "surrogateescape")
    return made


def quoted(text: str) -> str:
    """A text in quotes that means these characters. Those that only control something are written as digits."""
    return (
        '"' + "".join(WRITTEN.get(it, it if it >= " " and it != "\x7f" else f"\\x{ord(it):02x}") for it in text) + '"'
    )
