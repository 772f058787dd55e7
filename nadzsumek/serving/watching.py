"""Lines that `serve` answers by itself for programs that stand between people and a farm, as a server of pages does:

    watch [N]      what the machine does, told when it isn't what was told by the number N any more
    hear all|own   whether this connection hears also what others of this user are answered, though it has sent a tag
    client NAME    who is behind this connection, with a bound of its own

None of them is an event of the machine, and `live` isn't asked them. docs/SERVE.md has their rules."""

from __future__ import annotations

import asyncio
import re
import time
from typing import TYPE_CHECKING

from .ports import ports_told
from .speakers import Asked

if TYPE_CHECKING:
    from .server import Server
    from .speakers import Client, Hear, Speaker

# How the lines begin, and their forms.
VERBS = (b"watch", b"hear", b"client")
WATCH, HEAR, NAME = rb"watch(?: ([0-9]{1,18}))?", rb"hear (all|own)", rb"client ([a-z0-9-]{1,32})"
# How often it is looked while somebody waits, how soon after an answer of the machine, and after how many seconds it is told in any case.
LOOK_SECONDS, SOON_SECONDS, MOST_SECONDS = 0.5, 0.1, 50.0
# How many lines one connection may have waiting, and how many connections may have one name.
MOST_WAITING, MOST_OF_NAME = 4, 8
# Words of `!users` behind a user's name: those that change all the time while a machine computes are told, but tell nobody anew.
BUSY = "busy"


class Waiting:
    """A `watch` that isn't answered yet: what was told last, who asks, and until when it is waited."""

    def __init__(self, speaker: Speaker, asked: Asked, known: int | None) -> None:
        self.speaker, self.asked, self.known, self.end = speaker, asked, known, time.monotonic() + MOST_SECONDS


class Seen:
    """What was seen of a user's machine last, and the number by which that is told."""

    def __init__(self) -> None:
        # another serve begins with other numbers
        self.number, self.text, self.compared = time.time_ns() // 1_000_000, "", ""

    def take(self, words: list[str], ports: str) -> None:
        """Takes what is told of the machine, and gives it a new number if it is something else."""
        self.text = f"{' '.join(words)} {ports}"
        compared = f"{words[0]} {BUSY} {ports}" if BUSY in words else self.text
        if compared != self.compared:
            self.number, self.compared = self.number + 1, compared


class Watches:
    """What is told of machines when they change. `live` is asked for all users at once, and only while somebody waits."""

    def __init__(self, server: Server) -> None:
        self.server, self.waiting = server, list[Waiting]()
        self.seen = dict[str, Seen]()
        self.wanted, self.soon = asyncio.Event(), asyncio.Event()
        self.rows, self.words, self.is_heard = dict[str, list[str]](), "", asyncio.Event()

    def answers(self, speaker: Speaker, client: Client, tag: bytes, text: bytes) -> bool:
        """Answers one of these lines, and says whether it was one."""
        line = text.removesuffix(b"\r")
        if line.split(b" ")[0] not in VERBS or speaker is self.server.operator:
            return False
        asked = Asked(line, client, 0, tag)
        if found := re.fullmatch(WATCH, line):
            self.watch(speaker, client, asked, int(found[1]) if found[1] else None)
        elif found := re.fullmatch(HEAR, line):
            client.hears_all = found[1] == b"all"
            self.tell(speaker, asked, line.decode())
        elif found := re.fullmatch(NAME, line):
            self.tell(speaker, asked, self.named(speaker, client, found[1].decode()))
        else:
            self.tell(speaker, asked, f"{line.split(b' ')[0].decode()} args")
        return True

    def tell(self, speaker: Speaker, asked: Asked, text: str) -> None:
        speaker.tell_answers([(text.encode() + b"\n", asked)])

    def named(self, speaker: Speaker, client: Client, name: str) -> str:
        """Gives a connection a name, if not too many have it."""
        if sum(it.called == name for it in speaker.clients if it is not client) >= MOST_OF_NAME:
            return "client many"
        client.called = name
        return f"client {name}"

    def watch(self, speaker: Speaker, client: Client, asked: Asked, known: int | None) -> None:
        if sum(it.asked.client is client for it in self.waiting) >= MOST_WAITING:
            self.tell(speaker, asked, "watch many")
            return
        client.waits += 1
        self.waiting.append(Waiting(speaker, asked, known))
        self.wanted.set()
        self.soon.set()

    def changed(self, speaker: Speaker) -> None:
        """A user was answered something: what is told next is looked for soon."""
        if any(it.speaker is speaker for it in self.waiting):
            self.soon.set()

    async def look(self) -> None:
        """Looks at all machines as long as somebody waits."""
        while True:
            await self.wanted.wait()
            await self.server.goes.wait()
            self.soon.clear()
            if await self.is_asked():
                self.take()
            self.answer()
            self.waiting = [it for it in self.waiting if it.asked.client and not it.asked.client.is_gone()]
            if not self.waiting:
                self.wanted.clear()
                continue
            await asyncio.sleep(SOON_SECONDS)
            try:
                await asyncio.wait_for(self.soon.wait(), LOOK_SECONDS - SOON_SECONDS)
            except asyncio.TimeoutError:
                pass

    async def is_asked(self) -> bool:
        """Asks `live` what all users' machines do, and whether it has answered."""
        self.rows, self.words, self.is_heard = {}, "", asyncio.Event()
        for line in (b"!users\n", b"!words\n"):
            asked = Asked(line[:-1], None, 0)
            asked.hear = self.hearing(asked, self.is_heard if line == b"!words\n" else None)
            self.server.operator.sent(*self.server.current_live().say(line), asked)
        await self.is_heard.wait()
        return bool(self.words)

    def hearing(self, asked: Asked, last: asyncio.Event | None) -> Hear:
        """What hears the answer to one of the two lines; nobody else is told it."""

        def hear(answer: bytes | None) -> tuple[Speaker, bytes, Asked]:
            text = "" if answer is None else answer.decode()
            if text.startswith("!users "):
                _, name, *words = text.split(" ")
                self.rows[name] = words
            elif text:
                self.words = text
            if last is not None:
                last.set()
            return self.server.operator, b"", asked

        return hear

    def take(self) -> None:
        for name, words in self.rows.items():
            wiring = self.server.wirings.get(name)
            ports = ports_told(self.words, wiring.physical) if wiring else "ports"
            self.seen.setdefault(name, Seen()).take(words, ports)

    def answer(self) -> None:
        """Answers whoever doesn't know yet what there is now, or has waited for long."""
        now, left = time.monotonic(), list[Waiting]()
        for it in self.waiting:
            seen = self.seen.get(it.speaker.name)
            if seen is None or (it.known == seen.number and now < it.end):
                left.append(it)
                continue
            assert it.asked.client, "a client has asked"
            it.asked.client.waits -= 1
            self.tell(it.speaker, it.asked, f"watch {seen.number} {seen.text}")
            it.speaker.rest()
        self.waiting = left
