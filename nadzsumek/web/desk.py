"""A student's machine, as a page uses it: a program is run by one call, any line of a terminal is answered, and it is said what the
machine does as soon as it is something else. Calls for one student take turns."""

from __future__ import annotations

import asyncio
import contextlib
import os
import re
import time
from typing import TYPE_CHECKING, Any, NamedTuple

from ..failures import FarmError
from ..mistakes.places import said_in
from ..mistakes.verbs import ALL, OF_FILES, OF_RECORD, Wrong, help_lines
from ..results import Rest
from ..serving.answers import with_meaning
from ..serving.orders import lines_of, split, table_of
from ..serving.ports import joins_told, wiring_of
from ..serving.records import records_of
from ..serving.values import as_letters, as_numbers, typed_bytes
from ..verbs import Question, question
from .labs import MOST_FILM, Labs
from .listing import Listing, by_line, listing_of
from .picture import picture_of

if TYPE_CHECKING:
    from collections.abc import Iterator

    from ..farm import AsyncUser, Farm
    from ..serving.ports import Ports, Wiring

# What this calls itself at the farm, which has a bound for it beside terminals.
CALLED = "pages"
# How long an answer is waited for, and how long a program that is run may send before it is said what came till then.
ANSWER_SECONDS, RUN_SECONDS = 20, 2.0
FIRST_PAUSE, MOST_PAUSE = 0.005, 0.1
# How long it is waited before a farm that is away is asked again, and how often what a machine does is told at most.
AWAY_SECONDS, TELL_SECONDS = 1.0, 0.2
# How many Steps of a record are done again to say why nodes wait, how many seconds that may take, and how long a record may be.
MOST_STEPS, WHY_SECONDS, MOST_RECORD = 50_000_000, 5, 8 << 20
# How many bytes are sent to a program by one run, and how many of what came are shown.
MOST_SENT, MOST_SHOWN = 4096, 4096
# What is wrong with a text of assembly, as the lab says it: the place, and what follows it.
MISTAKE = re.compile(r"line (\d+)(?:, column (\d+))?: (.*)")
# What is said of a node that has another program than the one that is named.
OTHER_CODE = "has other code than its program"
# The event of a record by which a node takes another program.
RESET = re.compile(rb"^0 reset ", re.M)
# Lines that a page doesn't ask: a file is one of the server's, and the program of the page is run by its button.
FILES = "the page takes the program that it shows: press Run, Check or Submit"

Answer = dict[str, Any]


class Program(NamedTuple):
    """A text with its language, `occ` or `s`."""

    kind: str
    text: str

    def file(self) -> str:
        return f"program.{self.kind}"

    def files(self) -> dict[str, str]:
        return {self.file(): self.text}


class Mistaken(Exception):
    """What is wrong with a text."""

    def __init__(self, told: str) -> None:
        super().__init__(told)
        self.mistakes = mistakes_of(told)


def mistakes_of(told: str) -> list[Answer]:
    """What is wrong with a text, each with its line and column if it has a place."""
    path = next((it.file() for it in (Program("occ", ""), Program("s", "")) if it.file() in told), "")
    found = []
    for it in said_in(path, told):
        place = MISTAKE.fullmatch(it.text) if it.line is None else None
        if place:
            found.append({"line": int(place[1]), "column": int(place[2] or 1), "text": place[3]})
        else:
            found.append({"line": it.line, "column": it.column, "text": it.text})
    return found


def shown(content: bytes) -> Answer:
    """Bytes as letters, as numbers and as hexadecimal digits."""
    kept = content[:MOST_SHOWN]
    return {
        "count": len(content),
        "letters": as_letters(kept),
        "numbers": as_numbers(kept),
        "hex": kept.hex(" "),
    }


def translation_of(program: Program, *more: str) -> list[str]:
    """The words of the lab by which a program is translated. What begins with `@` is a file of the run, and with `<` its input."""
    if program.kind == "occ":
        return ["occam", f"@{program.file()}", *(more or ["--code"])]
    return ["assemble", f"<{program.file()}", *more]


class Desk:
    """What a page asks for one student."""

    def __init__(self, farm: Farm, name: str, labs: Labs) -> None:
        self.farm, self.name, self.labs = farm, name, labs
        self.turn, self.running, self.looking, self.waiting = asyncio.Lock(), asyncio.Lock(), asyncio.Lock(), 0
        self.user: AsyncUser | None = None
        # the program that node 0 has, if it has one of a page, and up to where the record is known to say nothing else; and what the
        # machine did when it was told last
        self.program: Program | None = None
        self.known: tuple[str, int] | None = None
        self.told: Answer = {}
        self.number, self.changed = 0, asyncio.Condition()
        self.hearing = 0
        self.task: asyncio.Task[None] | None = None

    async def close(self) -> None:
        """Ends the connections with the farm."""
        if self.task is not None:
            self.task.cancel()
            await asyncio.wait({self.task})
        await self.leave()

    async def leave(self) -> None:
        user, self.user = self.user, None
        if user:
            with contextlib.suppress(OSError):
                await user.__aexit__()

    async def opened(self) -> AsyncUser:
        """A connection of its own with the farm."""
        user = await self.farm.async_user(self.name, seconds=ANSWER_SECONDS).__aenter__()
        await user.ask(f"client {CALLED}")
        return user

    async def connected(self) -> AsyncUser:
        """The connection with the farm, which is made again if it has ended."""
        if self.user is not None and self.user.has_ended:
            await self.leave()
        if self.user is None:
            self.user = await self.opened()
        return self.user

    async def asked(self, work: Any) -> Answer:
        """What a work answers that is given the connection, or why it can't."""
        async with self.turn:
            try:
                return dict(await work(await self.connected()))
            except Mistaken as wrong:
                return {"mistakes": wrong.mistakes}
            except FarmError as error:
                return {"error": f"{error}"}
            except (Wrong, ValueError) as error:
                return {"error": f"{error}"}
            except OSError as error:
                await self.leave()
                return {"error": f"the farm can't be reached: {error.strerror or error}"}

    def wiring(self) -> Wiring | None:
        """The student's machine; none if the plan can't be read."""
        return wiring_of(self.farm.place(self.name)[0], self.name)

    def record(self) -> str | None:
        """The newest record of the student's domain."""
        records = records_of(os.path.join(self.farm.place(self.name)[0], "records"), self.name)
        return records[-1] if records else None

    # ---- programs

    async def mistakes(self, program: Program) -> Answer:
        """What is wrong with a text; the machine isn't asked."""
        try:
            await self.loading(program, 0, False)
        except Mistaken as wrong:
            return {"mistakes": wrong.mistakes}
        return {"mistakes": []}

    async def listing(self, program: Program, is_run: bool = True) -> Listing:
        """The code of a program of occam, and its lines."""
        ran = await self.labs.known(translation_of(program, "--listing"), program.files(), is_run)
        if ran.status != 0:
            raise Mistaken(ran.err)
        return listing_of(ran.out)

    async def loading(self, program: Program, host: int, is_run: bool = True) -> list[str]:
        """The lines that load a program by a host: its code, or pokes and a jump if it is too long for a boot."""
        if program.kind == "occ":
            listing = await self.listing(program, is_run)
            if listing.is_booted():
                return [f"boot {host} {listing.code.hex()}"]
        else:
            ran = await self.labs.known(translation_of(program), program.files(), is_run)
            if ran.status == 0 and ran.out.strip():
                return [f"boot {host} {ran.out.splitlines()[0]}"]
        ran = await self.labs.known(translation_of(program, "--pokes", f"{host}", self.name), program.files(), is_run)
        if ran.status != 0 or not ran.out.strip():
            raise Mistaken(ran.err or "there is no code")
        return [line.removeprefix(f"{self.name} ") for line in ran.out.splitlines()]

    async def run(self, program: Program, sends: str) -> Answer:
        """Begins with a fresh machine, joins host and node 0, loads the text, sends what is to be sent, and says what came. A text
        that is wrong changes nothing."""
        content = typed_bytes(sends) if sends.strip() else b""
        if len(content) > MOST_SENT:
            raise Wrong(f"{len(content)} bytes are to be sent, and {MOST_SENT} are the most")
        return await self.asked(lambda user: self.run_program(user, program, content))

    async def run_program(self, user: AsyncUser, program: Program, content: bytes) -> Answer:
        ports = user.ports
        if ports is None:
            return {"error": "the plan of the farm can't be read: ask whoever runs it"}
        loading = await self.loading(program, ports.host)
        lines = ["restart", *question(f"join {ports.link} {ports.port}").lines, *loading]
        if content:
            lines.append(f"write {ports.host} {content.hex()}")
        self.program, self.known = None, None
        await user.do(Question(lines))
        self.program, self.known = program, self.place()
        return {"came": shown(await self.sent(user, ports))}

    async def sent(self, user: AsyncUser, ports: Ports) -> bytes:
        """What a program sends till it rests, or till the time is over."""
        came, pause, end = bytearray(), FIRST_PAUSE, time.monotonic() + RUN_SECONDS
        both = Question(["rest", f"collect {ports.host}"], lambda it: it)
        while True:
            (rest,), (collected,) = await user.do(both)
            words = collected.split(" ")
            came += b"" if words[2] == "-" else bytes.fromhex(words[2])
            if rest != f"rest {Rest.BUSY.value}" or time.monotonic() > end:
                return bytes(came)
            await asyncio.sleep(pause)
            pause = min(2 * pause, MOST_PAUSE)

    async def film(self) -> tuple[int, str]:
        """The status of `lab film` of the newest record, and its page."""
        record = self.record()
        if record is None:
            return 1, "nothing was done yet"
        words, files = self.with_program(["film", record])
        ran = await self.labs.run(words, files, MOST_FILM)
        return ran.status, ran.out if ran.status == 0 else ran.err

    def with_program(self, words: list[str]) -> tuple[list[str], dict[str, str]]:
        """These words of the lab with the bound of Steps and the program of node 0, and its files."""
        words = [*words, "--steps", f"{MOST_STEPS}"]
        if self.program is None:
            return words, {}
        return [*words, "--program", "0", f"@{self.program.file()}"], self.program.files()

    # ---- lines

    async def line(self, line: str) -> Answer:
        """The answer to a line as at a terminal."""

        async def work(user: AsyncUser) -> Answer:
            if "\n" in line or not line.split():
                raise Wrong("one line is wanted, such as ports")
            first, _, words = split(self.name, line, user.ports)
            if first in OF_FILES:
                raise Wrong(FILES)
            if first == "help":
                return {"lines": help_lines(self.verbs(user.ports), words[0] if words else None)}
            if first in ALL:
                raise Wrong(f"{first} is for a terminal: close this page instead")
            if first in OF_RECORD:
                raise Wrong(f"{first} is for a terminal: this page shows all of it")
            lines, wiring = lines_of(self.name, line, user.ports), self.wiring()
            answers: list[list[str]] = await user.do(Question(lines, lambda it: it, strict=False))
            told = [one for asked, answer in zip(lines, answers) for it in answer for one in with_meaning(asked, it)]
            return {"lines": told + (joins_told(answers[0][0], wiring) if first == "ports" and wiring else [])}

        return await self.asked(work)

    def verbs(self, ports: Ports | None) -> dict[str, Any]:
        """The verbs that the field takes."""
        return {name: verb for name, verb in table_of(self.name, ports).items() if name not in (*OF_FILES, "quit")}

    def completions(self) -> list[Answer]:
        """What the field completes: each verb with its form and what it does, from the table of terminals."""
        ports = None
        with contextlib.suppress(FarmError):
            ports = self.farm.user_ports(self.name)
        return [
            {"name": name, "form": " ".join([name, *(kind.letters or kind.meaning for kind in verb.kinds)])}
            | {"example": verb.example, "meaning": verb.meaning}
            for name, verb in self.verbs(ports).items()
        ]

    # ---- what the machine does

    async def state(self) -> Answer:
        """What the machine does: what is joined, what each node does, and why, by the lines of the program that was run. None of it
        is an event of the machine."""

        async def work(user: AsyncUser) -> Answer:
            seen = await user.watch()
            answer = await user.ask("ports")
            lines = [] if seen.rest is Rest.BUSY else await self.why(user)
            told = {"rest": seen.rest.value, "ports": answer[0], "why": lines, "events": seen.events}
            told |= {"replaying": seen.is_replayed, "used": seen.used, "room": seen.room}
            wiring = self.wiring()
            return told | ({"picture": picture_of(wiring, answer[0], lines, seen.rest.value)} if wiring else {})

        return await self.asked(work)

    async def why(self, user: AsyncUser) -> list[str]:
        """Why the nodes do no more: as the farm says it, and behind that the lines of the program, by the record."""
        lines = [*(await user.why()).lines]
        self.look_for_others()
        if self.program is None:
            return lines
        if self.known is not None and self.program.kind == "occ":
            return by_line(lines, await self.listing(self.program))
        record = self.record()
        if record is None or os.path.getsize(record) > MOST_RECORD:
            return lines
        words, files = self.with_program(["why", record])
        ran = await self.labs.run(words, files, seconds=WHY_SECONDS)
        told = ran.out.splitlines()[1:]
        if ran.status != 0 or not told or OTHER_CODE in ran.out:
            return lines
        self.known = self.place()
        return told

    def place(self) -> tuple[str, int] | None:
        """The newest record, and its end."""
        record = self.record()
        return None if record is None else (record, os.path.getsize(record))

    def look_for_others(self) -> None:
        """Forgets the program if another may be in its node: since a restart, or since the node was reset."""
        if self.known is None:
            return
        record, at = self.known
        with contextlib.suppress(OSError):
            with open(record, "rb") as it:
                it.seek(at)
                more = it.read(MOST_RECORD)
            if self.record() == record and len(more) < MOST_RECORD and not RESET.search(more):
                self.known = record, at + more.rfind(b"\n") + 1
                return
        self.program, self.known = None, None

    async def keep_telling(self) -> None:
        """Keeps what was told up to date, as long as a page hears it."""
        user, last = None, None
        try:
            while True:
                try:
                    if user is None or user.has_ended:
                        user, last = await self.opened(), None
                    last = await user.watch(last)
                    # a run tells what came by itself, and what the machine does is asked when it is over
                    async with self.running:
                        pass
                    await self.tell(await self.state())
                except (FarmError, OSError, ValueError, LookupError) as error:
                    await self.tell({"error": f"{error}"})
                    if user is not None:
                        user.writer.close()
                        user = None
                    await asyncio.sleep(AWAY_SECONDS)
                await asyncio.sleep(TELL_SECONDS)
        finally:
            if user is not None:
                user.writer.close()

    async def tell(self, told: Answer) -> None:
        if told != self.told:
            async with self.changed:
                self.told, self.number = told, self.number + 1
                self.changed.notify_all()

    @contextlib.contextmanager
    def heard(self) -> Iterator[None]:
        """As long as a page hears what the machine does."""
        self.hearing += 1
        if self.task is None or self.task.done():
            self.task = asyncio.ensure_future(self.keep_telling())
        try:
            yield
        finally:
            self.hearing -= 1
            if not self.hearing:
                self.task.cancel()
                self.task, self.told = None, {}

    async def after(self, number: int) -> tuple[int, Answer]:
        """What the machine does as soon as it is something else than what was told by this number."""
        async with self.changed:
            await self.changed.wait_for(lambda: self.number != number and bool(self.told))
            return self.number, self.told
