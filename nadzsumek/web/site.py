"""The site of a class: who comes in, what is answered, and what bounds it."""

from __future__ import annotations

import asyncio
import contextlib
import json
import os
import sqlite3
import time
from collections.abc import AsyncIterator, Awaitable, Callable, Coroutine, Iterator
from concurrent.futures import ThreadPoolExecutor
from functools import partial
from typing import Any, TypeVar

from aiohttp import web

from ..course.book import MOST_TEXT, TEACHER, Book, hashed
from ..course.judging import Judge
from ..course.telling import REFUSED
from ..farm import Farm
from ..mistakes.verbs import Wrong
from ..serving.folder import CLASS, Refused
from ..serving.programs import ASSEMBLY, OCCAM
from ..serving.wall import Nodes
from .desk import Desk, Program
from .doors import Doors
from .guide import guide
from .labs import Labs
from .stepping import Debuggers
from .teacher import Teacher

STATIC = os.path.join(os.path.dirname(os.path.abspath(__file__)), "static")
ENDINGS = {"css": "text/css", "js": "text/javascript"}
FILES = ("page.css", "student.js", "editor.js", "picture.js", "shared.js", "teacher.js")
COOKIE, COOKIE_SECONDS = "nadzsumek", 180 * 24 * 3600
# What a request may hold, and how long its bytes are waited for.
MOST_BODY, BODY_SECONDS = 4 * MOST_TEXT, 10
# How often it is looked who is connected, and whether the class has changed; and how often it is tried whether a page is still there.
LOOK_SECONDS, BEAT_SECONDS = 1.0, 15
# How many pages of one student hear what the machine does, how many programs of one student may wait, and how many students' programs
# are run at the same time: they mostly wait for the farm.
MOST_HEARING, MOST_WAITING, MOST_RUNS = 4, 8, 16
# How often it is read again whose secrets there are, and the file with the teacher's address.
HOLDERS_SECONDS, TEACHER_SHEET = 5.0, "teacher.page.txt"
# What the debugger is asked.
HOWS = ("first", "last", "next", "back", "next line", "back line")
# Nothing is loaded from elsewhere, and no page of another site shows these.
POLICY = (
    "default-src 'none'; script-src 'self'; style-src 'self'; img-src 'self'; connect-src 'self'; frame-src 'self'; "
    "form-action 'none'; base-uri 'none'; frame-ancestors 'self'"
)
# A film is a page by itself, which can do nothing as the student.
FILM_POLICY = (
    "sandbox allow-scripts; default-src 'none'; script-src 'unsafe-inline'; style-src 'unsafe-inline'; img-src data:"
)
HEADERS = {
    "X-Content-Type-Options": "nosniff",
    "Referrer-Policy": "no-referrer",
    "Cache-Control": "no-store",
    "Cross-Origin-Opener-Policy": "same-origin",
}
# The cookie isn't sent on a way that another site began, so the page is left before it is shown.
ENTER = '<!DOCTYPE html><meta charset="utf-8"><meta http-equiv="refresh" content="0; url=/"><title>Nadzsumek</title>'
STRANGER = (
    "This page wants the address on your sheet: open that first. If it was made again since, ask for the new one.\n"
)

It = TypeVar("It")
Handler = Callable[[web.Request], Awaitable[web.StreamResponse]]
# What a page asks with a body is answered by such a call.
Work = Callable[[Desk, dict[str, Any]], Awaitable[dict[str, Any]]]


def text_of(name: str) -> str:
    """A file of the site."""
    with open(os.path.join(STATIC, name), encoding="utf-8") as it:
        return it.read()


def page(text: str, status: int = 200, policy: str = POLICY) -> web.Response:
    return web.Response(text=text, status=status, content_type="text/html", headers={"Content-Security-Policy": policy})


def plain(text: str, status: int) -> web.Response:
    return web.Response(text=text, status=status)


async def handled(handler: Handler, request: web.Request) -> web.StreamResponse:
    """What a handler answers, also if it refuses."""
    try:
        return await handler(request)
    except web.HTTPException as refusal:
        return plain(refusal.text or "", refusal.status)


def program_of(asked: dict[str, Any]) -> Program:
    """The text of a request."""
    kind, text = asked["kind"], asked["text"]
    if f".{kind}" not in (OCCAM, ASSEMBLY) or len(text.encode()) > MOST_TEXT:
        raise ValueError
    return Program(kind, text)


async def until_first(*works: Coroutine[Any, Any, object]) -> None:
    """Does works until the first has ended."""
    tasks = [asyncio.ensure_future(it) for it in works]
    try:
        done, _ = await asyncio.wait(tasks, return_when=asyncio.FIRST_COMPLETED)
        for it in done:
            it.result()
    finally:
        for it in tasks:
            it.cancel()
        await asyncio.gather(*tasks, return_exceptions=True)


class Site:
    """The pages of one class. `hosts` are the names, with ports, by which the site may be called, and `is_secure` says whether
    that is over TLS."""

    def __init__(self, course: str, hosts: set[str], is_secure: bool) -> None:
        self.course, self.hosts, self.is_secure = os.path.abspath(course), hosts, is_secure
        self.book, self.farm, self.desks = Book(course), Farm(course), dict[str, Desk]()
        self.judge = Judge(self.course)
        self.hearing: dict[str, int] = {}
        self.doors, self.labs, self.debuggers = Doors(), Labs(), Debuggers()
        self.runs, self.nodes = asyncio.Semaphore(MOST_RUNS), Nodes()
        # called when the class has changed: who came since gets an address
        self.came: Callable[[], None] = lambda: None
        self.teacher = Teacher(self)
        # the file of the class as the thread has it, and whose secrets there are
        self.pool = ThreadPoolExecutor(1)
        self.own_book: Book | None = None
        self.holders, self.marks, self.holders_at = dict[bytes, str](), tuple[int, ...](), 0.0

    def application(self) -> web.Application:
        app = web.Application(middlewares=[self.guarded], client_max_size=MOST_BODY)
        app.router.add_get("/enter/{secret}", self.enter)
        app.router.add_get("/", self.front)
        app.router.add_get("/files/{name}", self.file)
        app.router.add_get("/live", self.live)
        app.router.add_get("/film", self.film)
        app.router.add_get("/text", self.text)
        app.router.add_get("/versions", self.versions)
        app.router.add_get("/verbs", self.verbs)
        app.router.add_get("/state", self.state)
        app.router.add_get("/guide/{name}", self.guide)
        app.router.add_get("/exercises", self.exercises)
        self.teacher.add_to(app)
        works: dict[str, Work] = {
            "/run": self.run,
            "/mistakes": self.mistakes,
            "/steps": self.steps,
            "/line": self.line,
            "/text": self.keep,
            "/check": partial(self.judged, "check"),
            "/submit": partial(self.judged, "submit"),
        }
        for path, work in works.items():
            app.router.add_post(path, partial(self.posted, work))
        app.on_cleanup.append(self.close)
        return app

    async def close(self, _: web.Application) -> None:
        self.judge.end()
        self.debuggers.close()
        for desk in self.desks.values():
            await desk.close()
        self.labs.close()
        self.pool.shutdown()
        self.book.close()

    async def booked(self, work: Callable[[Book], It]) -> It:
        """What a work answers that is given the file of the class, in a thread of its own: the disk may take its time."""

        def done() -> It:
            if self.own_book is None:
                self.own_book = Book(self.course)
            return work(self.own_book)

        return await asyncio.get_running_loop().run_in_executor(self.pool, done)

    async def who(self, secret: str) -> str | None:
        """Whose secret this is. What the file says of that is read again when an address or the class was written, and now and then."""
        marks = tuple(self.written(it) for it in ("sheets", TEACHER_SHEET, CLASS))
        now = time.monotonic()
        if marks != self.marks or now > self.holders_at + HOLDERS_SECONDS:
            self.holders = await self.booked(lambda book: book.secrets())
            self.marks, self.holders_at = marks, now
        return self.holders.get(hashed(secret))

    def written(self, name: str) -> int:
        """When a file of the class was written last, or a folder changed."""
        try:
            return os.stat(os.path.join(self.course, name)).st_mtime_ns
        except OSError:
            return 0

    @web.middleware
    async def guarded(self, request: web.Request, handler: Handler) -> web.StreamResponse:
        """Lets in who has a secret, and only if the page that asks is one of this site."""
        who = await self.who(request.cookies.get(COOKIE, ""))
        if request.transport is not None:
            self.doors.has_asked(request.transport, who)
        if request.host not in self.hosts:
            answer: web.StreamResponse = plain("there is no such site here\n", 421)
        elif request.path.startswith("/enter/"):
            answer = await handled(handler, request)
        else:
            request["who"] = who
            changes = request.method != "GET" or "Upgrade" in request.headers
            origin = request.headers.get("Origin", "").partition("://")[2]
            if request["who"] is None:
                answer = plain(STRANGER, 401)
            elif changes and origin != request.host:
                answer = plain("this is asked by a page of another site\n", 403)
            else:
                answer = await handled(handler, request)
        if not answer.prepared:
            answer.headers.setdefault("Content-Security-Policy", POLICY)
            answer.headers.update(HEADERS)
        return answer

    async def enter(self, request: web.Request) -> web.Response:
        """Takes the secret out of the address bar and into a cookie."""
        secret = request.match_info["secret"]
        if await self.who(secret) is None:
            return plain(STRANGER, 401)
        answer = page(ENTER)
        answer.set_cookie(
            COOKIE, secret, max_age=COOKIE_SECONDS, httponly=True, samesite="Strict", secure=self.is_secure, path="/"
        )
        return answer

    async def front(self, request: web.Request) -> web.Response:
        return page(text_of("teacher.html" if request["who"] == TEACHER else "student.html"))

    async def file(self, request: web.Request) -> web.Response:
        name = request.match_info["name"]
        if name not in FILES:
            raise web.HTTPNotFound
        return web.Response(text=text_of(name), content_type=ENDINGS[name.rpartition(".")[2]])

    def desk(self, request: web.Request) -> Desk:
        """The machine that a request is about: the student's own. The teacher only looks."""
        name = request["who"]
        if name == TEACHER:
            raise web.HTTPForbidden(text="this is for a student of the class\n")
        return self.desk_of(name)

    def desk_of(self, name: str) -> Desk:
        """The machine of a student of the class."""
        if name not in self.farm.users():
            raise web.HTTPForbidden(text="there is no such student in the class\n")
        if name not in self.desks:
            self.desks[name] = Desk(self.farm, name, self.labs)
            if newest := self.book.newest(name):
                # it may be what an earlier site has run; if it isn't, the lab says so
                self.desks[name].program = Program(newest.kind, newest.text)
        return self.desks[name]

    def looked_at(self, request: web.Request) -> Desk:
        """The machine that a request looks at: the student's own, or for the teacher that of the student who is named."""
        return self.desk_of(request.query.get("of", "")) if request["who"] == TEACHER else self.desk(request)

    async def posted(self, work: Work, request: web.Request) -> web.Response:
        """Answers a request with a body, which is a JSON object with texts."""
        desk = self.desk(request)
        try:
            asked = json.loads(await asyncio.wait_for(request.read(), BODY_SECONDS))
            if not isinstance(asked, dict) or not all(isinstance(it, str) for it in asked.values()):
                raise ValueError
            return web.json_response(await work(desk, asked))
        except asyncio.TimeoutError:
            raise web.HTTPRequestTimeout from None
        except (ValueError, LookupError, RecursionError):
            raise web.HTTPBadRequest(text="the request isn't as the page sends it\n") from None

    async def run(self, desk: Desk, asked: dict[str, Any]) -> dict[str, Any]:
        """Keeps the text, and runs it meanwhile; the answer is given when both are done."""
        program = program_of(asked)
        kept = asyncio.ensure_future(self.keep(desk, asked))
        try:
            async with self.turn(desk):
                return await desk.run(program, asked["send"])
        except Wrong as wrong:
            return {"error": f"{wrong}"}
        finally:
            await kept

    async def mistakes(self, desk: Desk, asked: dict[str, Any]) -> dict[str, Any]:
        """What is wrong with a text that is being written."""
        async with self.look(desk):
            return await desk.mistakes(program_of(asked))

    async def steps(self, desk: Desk, asked: dict[str, Any]) -> dict[str, Any]:
        """A step of the debugger through the newest record."""
        if asked["how"] not in HOWS:
            raise ValueError
        async with self.look(desk):
            line = int(asked["line"] or 0)
            return await self.debuggers.ask(desk.name, desk.record(), desk.program, asked["how"], line)

    async def judged(self, verb: str, desk: Desk, asked: dict[str, Any]) -> dict[str, Any]:
        """Keeps the text, and tries it in an exercise, or hands it in."""
        await self.keep(desk, asked)
        return await self.asked(desk, verb, asked["exercise"], asked["kind"], asked["text"])

    async def asked(self, desk: Desk, verb: str, *words: str) -> dict[str, Any]:
        """What is answered about exercises, as at a terminal."""
        told = await self.judge.ask(desk.name, verb, *words) or {REFUSED: "the site ends: ask again when it is back"}
        return {"error": told[REFUSED]} if REFUSED in told else told

    @contextlib.asynccontextmanager
    async def turn(self, desk: Desk) -> AsyncIterator[None]:
        """Waits until a program of a student may be run. A student's own programs wait for each other first, so that they hold up
        nobody else's."""
        with self.waiting(desk):
            async with desk.running, self.runs:
                yield

    @contextlib.asynccontextmanager
    async def look(self, desk: Desk) -> AsyncIterator[None]:
        """Waits until a text or a record of a student may be looked at, which holds up no program."""
        with self.waiting(desk):
            async with desk.looking:
                yield

    @staticmethod
    @contextlib.contextmanager
    def waiting(desk: Desk) -> Iterator[None]:
        """Counts what a student asks, and refuses what is too much."""
        if desk.waiting >= MOST_WAITING:
            raise web.HTTPTooManyRequests(text=f"{MOST_WAITING} programs of yours wait already\n")
        desk.waiting += 1
        try:
            yield
        finally:
            desk.waiting -= 1

    async def exercises(self, request: web.Request) -> web.Response:
        """The exercises of the class, each with what the student has handed in last."""
        return web.json_response(await self.asked(self.desk(request), "exercises"))

    async def line(self, desk: Desk, asked: dict[str, Any]) -> dict[str, Any]:
        return await desk.line(asked["line"])

    async def keep(self, desk: Desk, asked: dict[str, Any]) -> dict[str, Any]:
        """Keeps a version of a text."""
        program = program_of(asked)
        await self.booked(lambda book: book.keep(desk.name, *program))
        return {}

    async def verbs(self, request: web.Request) -> web.Response:
        """What the field of lines completes."""
        return web.json_response(self.desk(request).completions())

    async def guide(self, request: web.Request) -> web.Response:
        text = guide(request.match_info["name"])
        if text is None:
            raise web.HTTPNotFound
        return page(text)

    async def state(self, request: web.Request) -> web.Response:
        """What a machine does now. None of it is an event."""
        return web.json_response(await self.looked_at(request).state())

    async def versions(self, request: web.Request) -> web.Response:
        """When the versions of a student's text were kept, the newest first, or the one of a number."""
        name, number = self.looked_at(request).name, request.query.get("number", "")
        if number.isascii() and number.isdigit() and len(number) < 16:
            it = await self.booked(lambda book: book.version(name, int(number)))
            if it is None:
                raise web.HTTPNotFound
            return web.json_response(it._asdict())
        there = await self.booked(lambda book: book.versions(name))
        return web.json_response([{"number": number, "at": at} for number, at in there])

    async def text(self, request: web.Request) -> web.Response:
        """The newest version of a student's text, for the student or the teacher."""
        name = self.looked_at(request).name
        newest = await self.booked(lambda book: book.newest(name))
        return web.json_response({"name": name, **(newest._asdict() if newest else {})})

    async def film(self, request: web.Request) -> web.Response:
        desk = self.looked_at(request)
        async with self.look(desk):
            status, text = await desk.film()
        return page(text, policy=FILM_POLICY) if status == 0 else plain(f"{text}\n", 409)

    async def live(self, request: web.Request) -> web.StreamResponse:
        """Says what the machine does, each time that it has changed, until the page is left."""
        desk = self.desk(request)
        if self.hearing.get(desk.name, 0) >= MOST_HEARING:
            raise web.HTTPTooManyRequests(text=f"{MOST_HEARING} pages are open already\n")
        self.hearing[desk.name] = self.hearing.get(desk.name, 0) + 1
        stream = web.WebSocketResponse(heartbeat=BEAT_SECONDS, max_msg_size=1024)
        try:
            await stream.prepare(request)
            with desk.heard():
                # a page says nothing: what it sends ends this, and so does its end
                await until_first(self.tell(desk, stream), stream.receive())
        except (OSError, asyncio.TimeoutError):
            pass
        finally:
            self.hearing[desk.name] -= 1
        return stream

    @staticmethod
    async def tell(desk: Desk, stream: web.WebSocketResponse) -> None:
        """Tells a page what the machine does, each time that it is something else."""
        number = 0
        while not stream.closed:
            number, state = await desk.after(number)
            await asyncio.wait_for(stream.send_str(json.dumps(state)), BODY_SECONDS)

    async def watch(self) -> None:
        """Looks who is connected, and who has come into the class."""
        changed = self.written(CLASS)
        while True:
            await asyncio.sleep(LOOK_SECONDS)
            self.doors.look()
            if self.written(CLASS) != changed:
                changed = self.written(CLASS)
                with contextlib.suppress(Refused, OSError, sqlite3.Error):
                    await asyncio.to_thread(self.came)
