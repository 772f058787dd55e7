"""What clients are to read and haven't read yet. What several clients of a user are told is held once."""

from __future__ import annotations

import asyncio
import collections

from .lines import PIECE

# A client for which more bytes wait is cut off when there is more for it. If more wait for all clients of a user, the one for
# which most wait is cut off.
MOST_BACKLOG, MOST_OF_USER = 1 << 20, 8 << 20
# What is shorter is copied for each client.
SHORT = 1 << 12


class Held:
    """How many bytes are held for the clients of a user."""

    def __init__(self) -> None:
        self.size = 0
        self.uses: dict[int, int] = {}

    def take(self, piece: bytes | bytearray) -> None:
        """One more client is to read this."""
        uses = self.uses.get(id(piece), 0)
        self.uses[id(piece)] = uses + 1
        self.size += 0 if uses else len(piece)

    def give(self, piece: bytes | bytearray) -> None:
        """One client fewer is."""
        uses = self.uses.pop(id(piece))
        if uses > 1:
            self.uses[id(piece)] = uses - 1
        else:
            self.size -= len(piece)

    def grow(self, piece: bytearray, text: bytes) -> None:
        """Adds to what one client alone is to read."""
        piece += text
        self.size += len(text)


class Backlog:
    """What waits for one client."""

    def __init__(self, writer: asyncio.StreamWriter, held: Held) -> None:
        self.writer, self.held, self.size, self.is_last = writer, held, 0, False
        self.pieces: collections.deque[bytes | bytearray] = collections.deque()
        self.handing: asyncio.Task[None] | None = None
        writer.transport.set_write_buffer_limits(high=PIECE)

    def tell(self, text: bytes) -> None:
        """Hands text over as soon as the client reads what comes before it."""
        if self.handing is None and len(text) <= PIECE and not self.writer.transport.get_write_buffer_size():
            self.writer.write(text)
            return
        self.size += len(text)
        last = self.pieces[-1] if self.pieces else None
        if len(text) >= SHORT:
            self.held.take(text)
            self.pieces.append(text)
        elif isinstance(last, bytearray) and len(last) < PIECE:
            self.held.grow(last, text)
        else:
            self.pieces.append(bytearray(text))
            self.held.take(self.pieces[-1])
        if self.handing is None:
            self.handing = asyncio.ensure_future(self.hand_over())

    async def hand_over(self) -> None:
        """Hands over what waits, as fast as the client reads."""
        try:
            while self.pieces:
                await self.hand_first()
                # a client that was cut off meanwhile has none any more
                if self.pieces:
                    self.held.give(self.pieces.popleft())
        except OSError:
            self.writer.transport.abort()
            self.drop()
        self.handing = None
        if self.is_last:
            self.writer.close()

    async def hand_first(self) -> None:
        """Hands over the first piece, which may become longer meanwhile. An error keeps what is here, so no piece is."""
        at = 0
        while self.pieces and at < len(self.pieces[0]) and not self.writer.transport.is_closing():
            self.writer.write(bytes(self.pieces[0][at : at + PIECE]))
            size = min(PIECE, len(self.pieces[0]) - at)
            self.size, at = self.size - size, at + size
            await self.writer.drain()

    def end(self) -> None:
        """Ends the connection as soon as all is handed over."""
        self.is_last = True
        if self.handing is None:
            self.writer.close()

    def drop(self) -> None:
        """Gives back what a client that has gone hasn't read."""
        while self.pieces:
            self.held.give(self.pieces.popleft())
