"""Who speaks to `live`: the users and the operator, each with his clients and the lines that aren't answered yet."""

from __future__ import annotations

import asyncio
import re
import socket
import weakref
from collections.abc import Awaitable, Callable
from typing import TYPE_CHECKING

from ..course.telling import VERBS
from ..mistakes.verbs import goes_on
from .backlogs import MOST_BACKLOG, MOST_OF_USER, Backlog, Held
from .lines import MOST_LINE, PIECE, Lines
from .pace import Pace

if TYPE_CHECKING:
    from .running import Live

# So many lines of a speaker may be on their way at once. `live` keeps 1,024 lines for a domain, which has four users at
# most, so no line of a client is refused as too many.
MOST_ON_WAY = 250
# The operator's lines are answered by the thread that reads, so all others wait for them.
MOST_OF_OPERATOR = 16
# A longer line counts as several.
BYTES_OF_ONE = 1 << 12
# `why` may do many Steps before it is answered, so it counts as so many lines: the operator's restart waits for few of them.
WHY, OF_WHY = b"why", 50
MOST_CLIENTS = 16
# Of these lines so many may be of connections with one name, so that one who stands between people and a farm leaves room to others.
MOST_OF_NAMED = 100
# So many bytes of a speaker's half lines are read at once, and then so many in a second.
HALF_AT_ONCE, HALF_A_SECOND = 2 << 20, 1 << 20
# Each restart begins a file of its own, however little is in it: a speaker's are sent so many at once, and then so many in a second.
RESTART, RESTARTS_AT_ONCE, RESTARTS_A_SECOND = b"restart", 20, 1
# So much of a line is told to its user if it wasn't answered.
MOST_TOLD = 200
# What `live` is asked now and then. The thread that reads answers it, without a lock.
WATCHED = b"!words\n"
# What tells whose machine is replayed, among other things.
USERS = b"!users\n"
# By what stands behind this, the operator tells all users something. `serve` does it by itself.
TELL = b"!tell "
# A user's line that `serve` answers by itself, by what the words of the switch say of the user's own ports.
PORTS = b"ports"
# A user's line that `serve` answers by itself too, by the record of the user's domain.
RECORD = b"record"
# What begins so behind a user's name answers no line: `live` says it by itself, as soon as there is something to say.
NOTE = b"note "
# What is told of a line that wasn't answered, before the line.
UNANSWERED = b"error: not answered, send it again if you want it: "
# What a client may put before a line, so that the answer goes to it alone, with the same before each of its lines.
TAG = re.compile(rb"#[0-9]{1,9} ")


# What is called with an answer, or with none if there will be none.
Hear = Callable[[bytes | None], tuple["Speaker", bytes, "Asked"]]


class Asked:
    """A line on its way: its text, who sent it (nobody if `serve` itself asks), as how many lines it counts, the tag that
    stood before it, and what is called with its answer, or with none if there will be none: that makes of it what a speaker is
    told, and of which line. `place` is its number among all lines of this run of `live`."""

    def __init__(
        self, text: bytes, client: Client | None, size: int, tag: bytes = b"", hear: Hear | None = None
    ) -> None:
        self.text, self.client, self.size, self.tag, self.hear = text, client, size, tag, hear
        self.place = 0
        self.share: asyncio.Semaphore | None = None


def without_tag(line: bytes) -> tuple[bytes, bytes]:
    """The tag of a client's line, and the line without it. One that is too long keeps its tag, so that it stays too long."""
    found = TAG.match(line)
    tag = found[0] if found else b""
    return tag, line if len(line) >= MOST_LINE else line[len(tag) :]


class Speaker:
    """A user, with his name before each of his lines."""

    def __init__(self, name: str, most: int = MOST_ON_WAY) -> None:
        self.name, self.most = name, most
        self.prefix = name.encode() + b" "
        self.clients: set[Client] = set()
        self.held = Held()
        self.asked: dict[int, Asked] = {}
        self.room, self.turn = asyncio.Semaphore(most), asyncio.Lock()
        # of these, those that connections of one name may have
        self.shares = weakref.WeakValueDictionary[str, asyncio.Semaphore]()
        self.half_lines = Pace(HALF_AT_ONCE, HALF_A_SECOND)
        self.restarts = Pace(RESTARTS_AT_ONCE, RESTARTS_A_SECOND)

    def line(self, text: bytes) -> bytes:
        """The line of `live` for a client's line."""
        return self.prefix + text + b"\n"

    def told(self, answer: bytes) -> bytes:
        """What a client is told of an answer."""
        return answer[len(self.prefix) :]

    async def enter(self, text: bytes, client: Client, tag: bytes) -> Asked:
        """Waits until one more line may be on its way. Clients of one speaker take turns."""
        most = min(self.most, MOST_OF_NAMED) if client.called else self.most
        asked = Asked(text, client, min(OF_WHY if text.startswith(WHY) else 1 + len(text) // BYTES_OF_ONE, most), tag)
        if client.called:
            asked.share = self.shares.setdefault(client.called, asyncio.Semaphore(most))
            for _ in range(asked.size):
                await asked.share.acquire()
        async with self.turn:
            for _ in range(asked.size):
                await self.room.acquire()
            if text.removesuffix(b"\r") == RESTART:
                await asyncio.sleep(self.restarts.pause(1))
        return asked

    def stops(self, _: bytes) -> bool:
        """Whether a line stops the farm."""
        return False

    def news(self, _: bytes) -> bytes | None:
        """What a line says to all users; none if it is another line."""
        return None

    def asks_ports(self, text: bytes) -> bool:
        """Whether a line asks which ports are joined."""
        return text.removesuffix(b"\r") == PORTS

    def asks_record(self, text: bytes) -> bool:
        """Whether a line asks for the record."""
        return text.removesuffix(b"\r").split(b" ")[0] == RECORD

    def asks_course(self, text: bytes) -> bool:
        """Whether a line asks something about exercises."""
        return text.removesuffix(b"\r").split(b" ")[0].decode(errors="replace") in VERBS

    def sent(self, number: int, place: int, asked: Asked) -> None:
        """The line is that of this number among the speaker's lines of this run of `live`, and of this place among all."""
        self.asked[number], asked.place = asked, place
        if asked.client is not None:
            asked.client.waits += 1

    def answered(self, answer: bytes) -> Asked | None:
        """The line that is answered, none by a note: an error has its number, and all others are answered in their order. By
        the last line of its answer it is taken off."""
        told = self.told(answer)
        if told.startswith(NOTE):
            return None
        error = re.fullmatch(rb"error (\d+) \w+", told)
        number = int(error[1]) if error else next(iter(self.asked), 0)
        return self.asked.get(number) if goes_on(told.decode(errors="replace")) else self.take(number)

    def take(self, number: int) -> Asked | None:
        asked = self.asked.pop(number, None)
        if asked is not None:
            self.free(asked)
            if asked.client is not None:
                asked.client.waits -= 1
        return asked

    def free(self, asked: Asked) -> None:
        """The line is no longer on its way."""
        for _ in range(asked.size):
            self.room.release()
            if asked.share:
                asked.share.release()

    def tell(self, text: bytes) -> None:
        for client in [*self.clients]:
            client.tell(text)

    def tell_answers(self, answers: list[tuple[bytes, Asked | None]]) -> None:
        """Tells each client its share of these lines in one piece. With each is given what was asked, or none if it is a
        note."""
        if not any(client.has_tags for client in self.clients) and not any(asked and asked.tag for _, asked in answers):
            self.tell(b"".join(text for text, asked in answers if asked is None or asked.client is not None))
            return
        for client in [*self.clients]:
            client.tell(b"".join(client.share(text, asked) for text, asked in answers))

    def forget(self) -> None:
        """Names the lines that weren't answered to the clients."""
        self.give_up([*self.asked])

    def give_up(self, numbers: list[int]) -> None:
        """Names the lines of these numbers, which won't be answered any more, to the clients."""
        lost = [it for number in numbers if (it := self.take(number))]
        self.tell_answers([(UNANSWERED + shown(it.text) + b"\n", it) for it in lost])
        for it in lost:
            if it.hear:
                speaker, text, asked = it.hear(None)
                speaker.tell_answers([(text, asked)])
                speaker.rest()
        self.rest()

    def pass_over(self, place: int) -> Asked | None:
        """Names the line of this place among all to its client, if it is this speaker's: `live` couldn't read whose it is, and
        so doesn't count it among them."""
        number = next((number for number, asked in self.asked.items() if asked.place == place), None)
        if number is None:
            return None
        lost = self.asked[number]
        self.give_up([number])
        self.asked = {it - (it > number): asked for it, asked in self.asked.items()}
        return lost

    def rest(self) -> None:
        """Ends the clients that send nothing more and wait for nothing."""
        for client in [*self.clients]:
            client.rest()


def shown(text: bytes) -> bytes:
    """A line as its user is told of it, cut if it is long."""
    return text[:MOST_TOLD] + (b".." if len(text) > MOST_TOLD else b"")


class Operator(Speaker):
    """The operator, whose lines and answers begin with an exclamation mark. `serve` asks as he does whether `live` still
    answers."""

    def __init__(self, name: str, users: int, remark: str) -> None:
        """The remark, if there is one, is told after the last row of `!users`."""
        super().__init__(name, MOST_OF_OPERATOR)
        self.prefix, self.users, self.heard = b"!", users, 0
        self.remark = f"\n{remark}".encode() if remark else b""

    def line(self, text: bytes) -> bytes:
        return (b"" if text.startswith(b"!") else b"!") + text + b"\n"

    def told(self, answer: bytes) -> bytes:
        """What a client is told of an answer, after `answered` has counted it."""
        return answer + (self.remark if answer.startswith(b"!users ") and not self.heard else b"")

    def words(self, text: bytes) -> list[bytes]:
        """The words of a line as `live` gets it."""
        return self.line(text)[:-1].removesuffix(b"\r").split(b" ")

    def stops(self, text: bytes) -> bool:
        return self.words(text) == [b"!stop"]

    def news(self, text: bytes) -> bytes | None:
        line = self.line(text)[:-1].removesuffix(b"\r")
        return line.removeprefix(TELL) if line.startswith(TELL) else None

    def asks_ports(self, _: bytes) -> bool:
        return False

    def asks_record(self, _: bytes) -> bool:
        return False

    def asks_course(self, _: bytes) -> bool:
        return False

    def watch(self, live: Live, hear: Hear | None = None) -> Callable[[], bool]:
        """Asks whether `live` still answers, and returns how that is seen: the question is asked no longer. `hear` is called with
        the answer."""
        asked = Asked(WATCHED[:-1], None, 0, hear=hear)
        self.sent(*live.say(WATCHED), asked)
        return lambda: asked not in self.asked.values()

    def ask_users(self, live: Live, hear: Hear) -> None:
        """Asks for the state of all users. `hear` is called with the row of each."""
        self.sent(*live.say(USERS), Asked(USERS[:-1], None, 0, hear=hear))

    def answered(self, answer: bytes) -> Asked | None:
        """`!users` has a line for each user; `!restart` is answered when its domain has begun anew."""
        words, is_last = answer.split(b" "), True
        if words[:2] == [b"!", b"error"]:
            return self.take(int(words[2]))
        if words[0] == b"!users":
            self.heard = (self.heard + 1) % self.users
            is_last = self.heard == 0
        wanted = words[:2] if words[0] == b"!restart" else words[:1]
        number = next((number for number, asked in self.asked.items() if self.words(asked.text) == wanted), 0)
        return self.take(number) if is_last else self.asked.get(number)

    def forget(self) -> None:
        self.heard = 0
        super().forget()


class Client:
    """One connection of a speaker."""

    def __init__(self, speaker: Speaker, reader: asyncio.StreamReader, writer: asyncio.StreamWriter) -> None:
        self.speaker, self.writer = speaker, writer
        self.lines = Lines(reader, MOST_LINE, speaker.half_lines)
        self.waits, self.has_ended, self.has_tags = 0, False, False
        # whether it hears what others are answered though it has sent a tag, and who is behind it, if it has said that
        self.hears_all, self.called = False, ""
        self.backlog = Backlog(writer, speaker.held)

    def tell(self, text: bytes) -> None:
        """Hands over what the client is to read. A client that lets too much wait is cut off."""
        if self.is_gone() or not text:
            return
        if self.backlog.size > MOST_BACKLOG:
            self.cut_off()
            return
        self.backlog.tell(text)
        while self.speaker.held.size > MOST_OF_USER and self.speaker.clients:
            max(self.speaker.clients, key=lambda it: it.backlog.size).cut_off()

    def cut_off(self) -> None:
        self.writer.transport.abort()
        self.backlog.drop()
        self.speaker.clients.discard(self)

    def share(self, text: bytes, asked: Asked | None) -> bytes:
        """What this client gets of a line of an answer: all of a note; what answers its own line, behind the line's tag; and
        what answers others, unless that line had a tag or this client has sent one and doesn't hear all."""
        if asked is None:
            return text
        if asked.client is self:
            return asked.tag + text
        hears = self.hears_all or not self.has_tags
        return b"" if asked.client is None or asked.tag or not hears else text

    async def read_no_more(self) -> None:
        """Lets the client send nothing more. What is there is taken: else it couldn't read what it is told."""
        self.writer.get_extra_info("socket").shutdown(socket.SHUT_RD)
        while await self.lines.reader.read(PIECE):
            pass

    def is_gone(self) -> bool:
        """It was cut off, or has vanished: what it sent before isn't done any more."""
        return self.writer.transport.is_closing()

    def rest(self) -> None:
        if self.has_ended and self.waits == 0:
            self.backlog.end()

    async def serve(self, send: Callable[[Speaker, Client, bytes], Awaitable[None]]) -> None:
        """Sends each line of the client until it ends, and keeps it until all of them are answered."""
        if len(self.speaker.clients) >= MOST_CLIENTS:
            self.tell(b"error: %d connections are open, close one of them first\n" % MOST_CLIENTS)
            self.writer.close()
            return
        self.speaker.clients.add(self)
        try:
            while not self.is_gone() and (lines := await self.lines.some()):
                for line in lines:
                    # thousands of lines may be left of a client that was cut off, and to pass them over takes time too
                    if self.is_gone():
                        break
                    await send(self.speaker, self, line)
            if self.lines.is_long:
                self.tell(b"error: a line has %d bytes at most, so no more is read of this connection\n" % MOST_LINE)
                await self.read_no_more()
            elif self.lines.half():
                self.tell(b"error: the last line has no line feed, so it is not sent\n")
            self.has_ended = True
            self.rest()
            await self.writer.wait_closed()
        except OSError:
            self.writer.transport.abort()
        finally:
            self.backlog.drop()
            self.speaker.clients.discard(self)
