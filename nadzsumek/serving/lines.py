"""Streams of bytes as lines."""

from __future__ import annotations

import asyncio
from typing import TYPE_CHECKING

if TYPE_CHECKING:
    from .pace import Pace

# A line may have so many bytes for `live`, its user's name and its line feed among them. Of a longer one just so much
# is kept that it is too long.
MOST_LINE = 1 << 20
PIECE = 1 << 16


class Lines:
    """The lines of a stream, which ends when there are no more, or where a line has more than `most` bytes: of that line no
    more is read. What comes without a line feed is read at a pace, if there is one."""

    def __init__(self, reader: asyncio.StreamReader, most: int | None = None, pace: Pace | None = None) -> None:
        self.reader, self.most, self.pace = reader, most, pace
        self.held, self.looked, self.is_long = bytearray(), 0, False

    async def some(self) -> list[bytes]:
        """The lines that are there, without their line feeds; at least one, or none at the end of the stream."""
        while not self.is_long:
            end = self.held.rfind(b"\n", self.looked)
            if end >= 0:
                whole = bytes(self.held[:end])
                del self.held[: end + 1]
                self.looked = 0
                return self.bounded(whole.split(b"\n"))
            if self.most is not None and len(self.held) > self.most:
                return self.bounded([bytes(self.held)])
            self.looked = len(self.held)
            piece = await self.reader.read(PIECE)
            if not piece:
                return []
            self.held += piece
            if self.pace is not None and b"\n" not in piece:
                await asyncio.sleep(self.pace.pause(len(piece)))
        return []

    def bounded(self, lines: list[bytes]) -> list[bytes]:
        """The lines up to the first that is too long, and of that its beginning."""
        at = next((at for at, line in enumerate(lines) if self.most is not None and len(line) > self.most), None)
        if at is None:
            return lines
        self.is_long = True
        self.held.clear()
        return [*lines[:at], lines[at][: self.most]]

    def half(self) -> bytes:
        """What stands behind the last line feed."""
        return bytes(self.held)
