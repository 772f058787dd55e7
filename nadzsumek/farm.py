"""A farm that `serve` keeps up, and its users: one call after another, or for asyncio."""

from __future__ import annotations

import asyncio
import contextlib
import os
import socket
import subprocess
import tempfile
import threading
import time
from collections.abc import Callable, Iterator
from typing import TYPE_CHECKING, Any

from nadzsumek.serving import folder as folders
from nadzsumek.serving import own_texts
from nadzsumek.serving.by_line import told_by_line
from nadzsumek.serving.connections import opened
from nadzsumek.serving.kept import class_in, place_of
from nadzsumek.serving.ports import ports_of, wiring_of

from .dialogue import AT_ONCE, Dialogue
from .failures import NoFarm, NotAnswered
from .results import Machine, Note, Used, check, machine_of, used_of
from .verbs import (
    Collecting,
    Program,
    Recording,
    Verbs,
    loaded,
    number,
    path_of,
    question,
    refuse_lost,
    words_of_bytes,
)

if TYPE_CHECKING:
    from nadzsumek.serving.ports import Ports

    from .dialogue import Pending
    from .verbs import Question

# What is called with each note.
Noted = Callable[[Note], object]
# How long an answer is waited for unless another time is given.
SECONDS = 60
PIECE = 1 << 16


class Farm:
    """The farm in a folder, as `serve PLAN DIR` has it; or the farms of a class, by the folder of the class."""

    def __init__(self, folder: str) -> None:
        self.folder = os.fspath(folder)

    def users(self) -> list[str]:
        """The names of those who have sockets in the folder, sorted, without the operator; of a class, the names of all students."""
        try:
            if os.path.isfile(os.path.join(self.folder, folders.CLASS)):
                return sorted(name for names in class_in(self.folder).farms.values() for name in names)
            return folders.users_of(self.folder)
        except folders.Refused as refused:
            raise NoFarm(f"{refused}") from None
        except OSError as error:
            raise NoFarm(f"{self.folder}: {error.strerror}") from None

    def place(self, name: str) -> tuple[str, str]:
        """The folder of the farm in which a user is, and the user's name there."""
        try:
            return place_of(self.folder, name)
        except folders.Refused as refused:
            raise NoFarm(f"{refused}") from None

    def user_ports(self, name: str) -> Ports | None:
        """The ports of this user; none if the plan can't be read."""
        return ports_of(*self.place(name))

    def user(self, name: str, noted: Noted | None = None, seconds: float = SECONDS) -> User:
        """A connection as this user, to be used in `with`. `noted` is called with each note that comes, and `seconds` is how long
        an answer is waited for."""
        return User(*self.place(name), noted, seconds)

    def operator(self, noted: Noted | None = None, seconds: float = SECONDS) -> Operator:
        """A connection as the operator, to be used in `with`. Each farm of a class has one of its own."""
        return Operator(*self.place(folders.OPERATOR), noted, seconds)

    def async_user(self, name: str, noted: Noted | None = None, seconds: float = SECONDS) -> AsyncUser:
        """The same for asyncio, to be used in `async with`."""
        return AsyncUser(*self.place(name), noted, seconds)


@contextlib.contextmanager
def serve(plan: str | os.PathLike[str], *words: str) -> Iterator[Farm]:
    """A farm on the plan of this file for as long as a `with` lasts, in a folder of its own that is removed then. The words are those
    of `serve`, such as `--room 16M`."""
    with tempfile.TemporaryDirectory(prefix="nadzsumek-") as room:
        call = [folders.program("serve"), *words, os.fspath(plan), room]
        with subprocess.Popen(
            call, stdin=subprocess.DEVNULL, stdout=subprocess.DEVNULL, stderr=subprocess.PIPE, encoding="utf-8"
        ) as it:
            assert it.stderr
            told = []
            for line in it.stderr:
                told.append(line.rstrip("\n"))
                if "their sockets are in " in line:
                    break
            else:
                raise NoFarm("\n".join(told[-3:]).removeprefix("serve: "))
            hearing = threading.Thread(target=it.stderr.read, daemon=True)
            hearing.start()
            try:
                yield Farm(room)
            finally:
                it.terminate()
                it.wait()
                hearing.join()


def connected(folder: str, name: str) -> socket.socket:
    """A connection with the socket of this name."""
    try:
        return opened(folder, name)
    except folders.Refused as refused:
        raise NoFarm(f"{refused}") from None
    except OSError as error:
        raise NoFarm(f"{folder}: {error.strerror}") from None


def pieces(lines: list[str]) -> list[list[str]]:
    """Lines as they are sent, some at once."""
    return [lines[at : at + AT_ONCE] for at in range(0, len(lines), AT_ONCE)]


class Speaking(Verbs):
    """What both kinds of user have: `name`, and `ports`, which are those of the first wired link of node 0 and of the user's first
    host, and the number of this host; none if the plan can't be read."""

    def __init__(self, folder: str, name: str, noted: Noted | None, seconds: float) -> None:
        self.folder, self.name, self.seconds, self.dialogue = folder, name, seconds, Dialogue(noted)

    def __repr__(self) -> str:
        return f"<{type(self).__name__} {self.name} of {self.folder}>"

    @property
    def ports(self) -> Ports | None:
        return ports_of(self.folder, self.name)

    @property
    def machine(self) -> Machine:
        """The user's machine: `machine.nodes[1].links[0]` is the port of link 0 of node 1, and `machine.hosts[0].port` that of host 0."""
        wiring = wiring_of(self.folder, self.name)
        if wiring is None:
            raise NoFarm(f"the plan in {self.folder} can't be read, or has no user {self.name}")
        return machine_of(wiring)

    def way(self, node: int, host: int | None) -> tuple[int, int, int]:
        """The ports of a node's first wired link and of a host, and the host's number: the user's first unless one is said."""
        machine = self.machine
        if number(node, "a node") >= len(machine.nodes):
            raise ValueError(f"there is no node {node}: there are {len(machine.nodes)}, from 0 on")
        own = min(machine.hosts) if host is None else number(host, "a host")
        if own not in machine.hosts:
            raise ValueError(f"there is no host {own}: the user has {', '.join(map(str, machine.hosts))}")
        link = next(port for port in machine.nodes[node].links if port is not None)
        return link, machine.hosts[own].port, own

    def kept(self, host: int, program: Program, ports: str) -> None:
        """Keeps the text of a program that was loaded, by what `ports` answers then."""
        own_texts.OwnTexts(self.folder, self.name).loaded(
            wiring_of(self.folder, self.name), host, path_of(host, program), lambda _: ports
        )

    def by_line(self, record: bytes, node: int | None) -> tuple[str, ...]:
        """What `waits` says of a record."""
        return (*told_by_line(record, own_texts.OwnTexts(self.folder, self.name).all(), node),)

    def late(self, pending: Pending, seconds: float) -> NotAnswered:
        """What is raised if no answer has come in this time."""
        return NotAnswered(pending.line, f"no answer has come in {seconds:g} seconds")


class User(Speaking):
    """A user's connection, whose calls return when the farm has answered. Several threads may share it: their calls take turns."""

    def __init__(self, folder: str, name: str, noted: Noted | None, seconds: float) -> None:
        super().__init__(folder, name, noted, seconds)
        self.stream, self.turn, self.has_closed = connected(folder, name), threading.RLock(), False

    def __enter__(self) -> User:
        return self

    def __exit__(self, *_: None) -> None:
        self.close()

    def close(self) -> None:
        """Ends the connection."""
        self.has_closed = True
        self.stream.close()

    @property
    def notes(self) -> list[Note]:
        """The notes that have come so far, the newest last."""
        with self.turn:
            self.hear_rest()
        return [*self.dialogue.notes]

    def hear_rest(self) -> None:
        """Hears what is there already."""
        with contextlib.suppress(OSError):
            self.stream.setblocking(False)
            while piece := self.stream.recv(PIECE):
                self.dialogue.feed(piece)

    def do(self, asked: Question) -> Any:
        if self.has_closed:
            raise NoFarm("this connection was closed")
        with self.turn:
            answers = [it for piece in pieces(asked.lines) for it in self.exchange(piece, asked)]
        return asked.result(answers)

    def exchange(self, lines: list[str], asked: Question) -> list[list[str]]:
        """Sends some lines of a question, and returns the answer to each."""
        seconds = max(self.seconds, asked.seconds)
        waiting = [self.dialogue.ask(line) for line in lines]
        try:
            self.send_all(b"".join(it.message() for it in waiting))
            for it in waiting:
                self.await_answer(it, seconds)
                if asked.strict:
                    check(it.line, it.answers[0])
            return [it.answers for it in waiting]
        except TimeoutError:
            raise self.late(next(it for it in waiting if not it.is_whole), seconds) from None
        except OSError:
            self.hear_rest()
            raise self.dialogue.ended() from None
        finally:
            for it in waiting:
                self.dialogue.forget(it)

    def send_all(self, message: bytes) -> None:
        """Sends lines. If they aren't taken in time the connection ends, since the last may be half sent."""
        try:
            self.stream.settimeout(self.seconds)
            self.stream.sendall(message)
        except TimeoutError:
            self.close()
            raise

    def await_answer(self, pending: Pending, seconds: float) -> None:
        end = time.monotonic() + seconds
        while not pending.is_whole:
            self.stream.settimeout(max(0.001, end - time.monotonic()))
            piece = self.stream.recv(PIECE)
            if not piece:
                raise self.dialogue.ended()
            self.dialogue.feed(piece)
            if time.monotonic() > end and not pending.is_whole:
                raise self.late(pending, seconds)

    def load(self, host: int, program: Program, checked: bool = True) -> Any:
        """Boots a program: the file of its text, an example's name, or bytes of code. A `Loaded`. It is refused if nothing would be
        booted, as when the node runs already, unless it isn't to be checked. The text is kept for `waits`."""
        asked = loaded(host, program)
        if checked:
            refuse_lost(self.folder, self.name, host, program)
        done = self.do(asked)
        self.kept(host, program, self.ask("ports")[0])
        return done

    def place(self, program: Program, node: int = 0, host: int | None = None) -> Any:
        """Joins a node with a host, the user's first unless one is said, and boots a program there. A `Loaded`."""
        link, port, own = self.way(node, host)
        self.join(link, port)
        return self.load(own, program)

    def collect_words(self, host: int, count: int, seconds: float | None = None) -> tuple[int, ...]:
        """So many words of 32 bits that came to a host, with a sign; fewer if the time is over, 10 seconds unless it is said."""
        return words_of_bytes(self.collect(host, 4 * number(count, "a count"), seconds))

    def record(self) -> bytes:
        """The record of the user's machine since its last restart, as far as it goes now; no bytes if there is none."""
        recording = Recording()
        for asked in recording.questions():
            self.do(asked)
        return bytes(recording.content)

    def waits(self, node: int | None = None) -> tuple[str, ...]:
        """In which lines of the texts that were loaded the processes of the nodes wait, or of this one, with the variables that the
        lines name."""
        self.why()
        return self.by_line(self.record(), node)

    def collect(self, host: int, count: int | None = None, seconds: float | None = None) -> bytes:
        """The bytes that came to a host; with a count or a time all that come until there are as many, or the time is over, 10
        seconds if only a count is given."""
        with Collecting(count, seconds) as it:
            while True:
                it.held += self.do(question(f"collect {number(host, 'a host')}"))
                if it.is_over():
                    return bytes(it.held)
                time.sleep(it.next_pause())


class Operator(User):
    """The operator's connection."""

    def users(self) -> tuple[Used, ...]:
        """What each user has done."""
        return tuple(used_of(it) for it in self.ask("users"))

    def tell(self, text: str) -> None:
        """Tells all users something, as a note."""
        with self.turn:
            if "\n" in text:
                raise ValueError("a line has no line feed")
            self.send_all(f"!tell {text}\n".encode())

    def restart_user(self, name: str) -> None:
        """Makes the machine of a user as it was opened, for all who share it."""
        answer = self.ask(f"restart {name}")[0]
        check(f"restart {name}", answer)


class AsyncUser(Speaking):
    """A user's connection for asyncio. Several tasks may share it: their calls take turns."""

    def __init__(self, folder: str, name: str, noted: Noted | None, seconds: float) -> None:
        super().__init__(folder, name, noted, seconds)
        self.turn, self.has_ended = asyncio.Lock(), False
        self.reader: asyncio.StreamReader
        self.writer: asyncio.StreamWriter
        self.reading: asyncio.Task[None]

    async def __aenter__(self) -> AsyncUser:
        stream = await asyncio.to_thread(connected, self.folder, self.name)
        self.reader, self.writer = await asyncio.open_unix_connection(sock=stream)
        self.reading = asyncio.ensure_future(self.read())
        return self

    async def __aexit__(self, *_: object) -> None:
        self.writer.close()
        await asyncio.wait({self.reading})

    @property
    def notes(self) -> list[Note]:
        """The notes that have come so far, the newest last."""
        return [*self.dialogue.notes]

    async def read(self) -> None:
        """Hears what comes until the connection ends."""
        try:
            while piece := await self.reader.read(PIECE):
                self.dialogue.feed(piece)
        except OSError:
            pass
        finally:
            self.has_ended = True
            for pending in [*self.dialogue.waiting.values()]:
                if pending.tell:
                    pending.tell()

    async def do(self, asked: Question) -> Any:
        async with self.turn:
            answers: list[list[str]] = []
            for piece in pieces(asked.lines):
                answers += await self.exchange(piece, asked)
        return asked.result(answers)

    async def exchange(self, lines: list[str], asked: Question) -> list[list[str]]:
        """Sends some lines of a question, and returns the answer to each."""
        waiting = [(self.dialogue.ask(line), asyncio.Event()) for line in lines]
        for pending, is_heard in waiting:
            pending.tell = is_heard.set
        try:
            self.writer.write(b"".join(it.message() for it, _ in waiting))
            await self.writer.drain()
            for pending, is_heard in waiting:
                await self.await_answer(pending, is_heard, max(self.seconds, asked.seconds))
                if asked.strict:
                    check(pending.line, pending.answers[0])
            return [it.answers for it, _ in waiting]
        except OSError:
            await asyncio.wait({self.reading}, timeout=self.seconds)
            raise self.dialogue.ended() from None
        finally:
            for pending, _ in waiting:
                self.dialogue.forget(pending)

    async def await_answer(self, pending: Pending, is_heard: asyncio.Event, seconds: float) -> None:
        try:
            if not self.has_ended:
                await asyncio.wait_for(is_heard.wait(), seconds)
        except TimeoutError:
            raise self.late(pending, seconds) from None
        if not pending.is_whole:
            raise self.dialogue.ended()

    async def load(self, host: int, program: Program, checked: bool = True) -> Any:
        """Boots a program: the file of its text, an example's name, or bytes of code. A `Loaded`. It is refused if nothing would be
        booted, as when the node runs already, unless it isn't to be checked. The text is kept for `waits`."""
        asked = await asyncio.to_thread(loaded, host, program)
        if checked:
            await asyncio.to_thread(refuse_lost, self.folder, self.name, host, program)
        done = await self.do(asked)
        ports = await self.ask("ports")
        await asyncio.to_thread(self.kept, host, program, ports[0])
        return done

    async def place(self, program: Program, node: int = 0, host: int | None = None) -> Any:
        """Joins a node with a host, the user's first unless one is said, and boots a program there. A `Loaded`."""
        link, port, own = self.way(node, host)
        await self.join(link, port)
        return await self.load(own, program)

    async def collect_words(self, host: int, count: int, seconds: float | None = None) -> tuple[int, ...]:
        """So many words of 32 bits that came to a host, with a sign; fewer if the time is over, 10 seconds unless it is said."""
        return words_of_bytes(await self.collect(host, 4 * number(count, "a count"), seconds))

    async def record(self) -> bytes:
        """The record of the user's machine since its last restart, as far as it goes now; no bytes if there is none."""
        recording = Recording()
        for asked in recording.questions():
            await self.do(asked)
        return bytes(recording.content)

    async def waits(self, node: int | None = None) -> tuple[str, ...]:
        """In which lines of the texts that were loaded the processes of the nodes wait, or of this one, with the variables that the
        lines name."""
        await self.why()
        record = await self.record()
        return await asyncio.to_thread(self.by_line, record, node)

    async def collect(self, host: int, count: int | None = None, seconds: float | None = None) -> bytes:
        """The bytes that came to a host; with a count or a time all that come until there are as many, or the time is over, 10
        seconds if only a count is given."""
        with Collecting(count, seconds) as it:
            while True:
                it.held += await self.do(question(f"collect {number(host, 'a host')}"))
                if it.is_over():
                    return bytes(it.held)
                await asyncio.sleep(it.next_pause())
