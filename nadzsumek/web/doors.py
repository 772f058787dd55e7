"""Who is connected with a site: how many connections there are, and which of them are ended if there are too many. Those by which no
secret has come go first, the oldest before the others, so that a crowd of strangers keeps nobody out who has one."""

from __future__ import annotations

import asyncio
import time

from aiohttp import web

# How many connections there are at most, and of one who has a secret.
MOST_CONNECTIONS, MOST_OF_ONE = 2000, 48
# How long a stranger's connection may be there without a whole request.
IDLE_SECONDS = 15


class Doors:
    """The connections of a site."""

    def __init__(self, most: int = MOST_CONNECTIONS) -> None:
        self.most = most
        # since when each is there, the oldest first
        self.strangers, self.known = dict[asyncio.BaseTransport, float](), dict[asyncio.BaseTransport, str]()
        self.asked = set[asyncio.BaseTransport]()

    def hang(self, server: web.Server) -> None:
        """Lets a server tell which connections there are."""
        came, left = server.connection_made, server.connection_lost
        transports = dict[web.RequestHandler, asyncio.BaseTransport]()

        def connection_made(handler: web.RequestHandler, transport: asyncio.Transport) -> None:
            transports[handler] = transport
            came(handler, transport)
            self.came(transport)

        def connection_lost(handler: web.RequestHandler, error: BaseException | None = None) -> None:
            self.left(transports.pop(handler))
            left(handler, error)

        setattr(server, "connection_made", connection_made)
        setattr(server, "connection_lost", connection_lost)

    def came(self, transport: asyncio.BaseTransport) -> None:
        self.strangers[transport] = time.monotonic()
        if len(self.strangers) + len(self.known) > self.most:
            self.end(next(iter(self.strangers)))

    def left(self, transport: asyncio.BaseTransport) -> None:
        self.strangers.pop(transport, None)
        self.known.pop(transport, None)
        self.asked.discard(transport)

    def end(self, transport: asyncio.BaseTransport) -> None:
        self.left(transport)
        if isinstance(transport, asyncio.Transport):
            transport.abort()

    def has_asked(self, transport: asyncio.BaseTransport, who: str | None) -> None:
        """A whole request has come by a connection: of whom, if it has a secret."""
        self.asked.add(transport)
        if who is None or transport in self.known:
            return
        self.strangers.pop(transport, None)
        own = [it for it, name in self.known.items() if name == who]
        if len(own) >= MOST_OF_ONE:
            self.end(own[0])
        self.known[transport] = who

    def look(self) -> None:
        """Ends the connections of strangers by which no whole request has come in time."""
        now = time.monotonic()
        for it, since in [*self.strangers.items()]:
            if it not in self.asked and now > since + IDLE_SECONDS:
                self.end(it)
