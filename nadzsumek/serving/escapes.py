"""Texts that come from outside, as they are printed."""

import io
from typing import TextIO

# What `surrogateescape` makes of bytes that are no UTF-8: each byte above this number.
BYTES = 0xDC00


def set_errors(stream: TextIO, how: str) -> None:
    """Sets what a standard stream does with what its encoding lacks."""
    if isinstance(stream, io.TextIOWrapper):
        stream.reconfigure(errors=how)


def escaped(text: str, kept: str = "") -> str:
    """A text on which no terminal acts. Each character that can't be printed becomes an escape, such as `\\x1b`, unless it is
    among those that are kept, and so does each byte that is no UTF-8."""
    if text.isprintable():
        return text
    return "".join(it if it.isprintable() or it in kept else escape(ord(it)) for it in text)


def escape(number: int) -> str:
    """The escape of the character of this number."""
    if BYTES + 0x80 <= number <= BYTES + 0xFF:
        number -= BYTES
    if number < 0x100:
        return f"\\x{number:02x}"
    return f"\\u{number:04x}" if number < 0x10000 else f"\\U{number:08x}"
