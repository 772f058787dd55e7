"""Cores of texts without their places, so that two texts can be compared."""

from __future__ import annotations

from typing import Any

from nadzsumek.occam import core
from nadzsumek.occam.compiling import compiled
from nadzsumek.occam.mistakes import WrongText

HEAD = "CHAN OF INT in:\nPLACE in AT link0.in:\nCHAN OF INT out:\nPLACE out AT link0.out:\n"


def plain(part: Any) -> Any:
    """A part of a core as tuples, without its places; sequences are flat, and what does nothing is left out of them."""
    match part:
        case core.Line(_, process):
            return plain(process)
        case core.Sequence():
            row = flat(part)
            return row[0] if len(row) == 1 else ("Sequence", *row)
        case core.Skip() | core.Stop():
            return type(part).__name__
        case core.CoreArray() | core.Place():
            return tuple(part)
    names = getattr(type(part), "__match_args__", None)
    if names is None or isinstance(part, core.ElementKind):
        return part
    return (type(part).__name__, *(plain(getattr(part, name)) for name in names))


def flat(part: Any) -> list[Any]:
    """What comes one after another."""
    while isinstance(part, core.Line):
        part = part.process
    if isinstance(part, core.Sequence):
        return flat(part.first) + flat(part.second)
    return [] if isinstance(part, core.Skip) else [plain(part)]


def core_of(text: str, head: str = HEAD) -> Any:
    """The core of a text, below the declarations of two channels."""
    return plain(compiled((head + text).encode()).program.process)


def mistakes_of(text: str, head: str = "") -> list[str]:
    """What is said of a wrong text; nothing of a right one."""
    try:
        compiled((head + text).encode())
    except WrongText as wrong:
        return wrong.lines
    return []
