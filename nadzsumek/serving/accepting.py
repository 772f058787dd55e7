"""How the connections of a socket are let in."""

from __future__ import annotations

import asyncio
import socket
from collections.abc import Awaitable, Callable

from .lines import PIECE
from .pace import Pace

# So many connections of a socket are let in at once, and then so many in a second. Others wait before the socket, so who
# connects again and again delays only who comes by the same socket.
MOST_AT_ONCE, MOST_A_SECOND = 20, 20
# How long is waited if the system has no descriptor or no memory for a connection.
PAUSE = 1
# What serves a connection.
Serve = Callable[[asyncio.StreamReader, asyncio.StreamWriter], Awaitable[None]]


async def accept(listening: socket.socket, serve: Serve, refused: Callable[[OSError], object]) -> None:
    """Lets the connections of a socket in, one after another, and serves each until it ends. `refused` is told why one can't
    be let in."""
    loop, serving = asyncio.get_running_loop(), set()
    pace = Pace(MOST_AT_ONCE, MOST_A_SECOND)
    try:
        while True:
            try:
                one, _ = await loop.sock_accept(listening)
            except OSError as error:
                refused(error)
                await asyncio.sleep(PAUSE)
                continue
            task = asyncio.ensure_future(serve_one(one, serve))
            serving.add(task)
            task.add_done_callback(serving.discard)
            await asyncio.sleep(pace.pause(1))
    finally:
        listening.close()
        if serving:
            await asyncio.wait(serving, timeout=1)


async def serve_one(one: socket.socket, serve: Serve) -> None:
    """Serves one connection by its two streams."""
    try:
        reader, writer = await asyncio.open_unix_connection(sock=one, limit=PIECE)
    except OSError:
        one.close()
        return
    await serve(reader, writer)
