"""Lines that `serve` answers by itself, beside all others: each by a task of its own."""

from __future__ import annotations

import asyncio
from typing import TYPE_CHECKING

if TYPE_CHECKING:
    from .speakers import Asked, Speaker


class Beside:
    """What answers such lines."""

    def __init__(self) -> None:
        self.answering = set[asyncio.Task[None]]()

    def answer(self, speaker: Speaker, asked: Asked) -> None:
        """Answers a line, beside all others."""
        assert asked.client, "a client has asked"
        asked.client.waits += 1
        task = asyncio.ensure_future(self.tell(speaker, asked))
        self.answering.add(task)
        task.add_done_callback(self.answering.discard)

    async def tell(self, speaker: Speaker, asked: Asked) -> None:
        assert asked.client, "a client has asked"
        client, text = asked.client, await self.text(speaker.name, asked.text)
        client.waits -= 1
        speaker.free(asked)
        speaker.tell_answers([(text + b"\n", asked)])
        speaker.rest()

    async def text(self, user: str, line: bytes) -> bytes:
        """The answer to a line of a user."""
        raise NotImplementedError

    async def end(self) -> None:
        """Waits until nothing is being answered."""
        if self.answering:
            await asyncio.wait([*self.answering])
