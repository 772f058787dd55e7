"""What the teacher's page asks: a tile for each student, who has handed in what with which result, and marks for a spreadsheet."""

from __future__ import annotations

import asyncio
import csv
import io
import time
from typing import TYPE_CHECKING, Any

from aiohttp import web

from ..course.book import TEACHER
from ..course.orders import mark_rows
from ..serving.marks import plain
from ..serving.sheets import person_of
from ..serving.tiles import tiles_of

if TYPE_CHECKING:
    from .site import Site

# How often the tiles are made again at most, and how many of what was handed in last are shown.
WALL_SECONDS, MOST_SHOWN = 3.0, 200


class Teacher:
    """The teacher's side of a site."""

    def __init__(self, site: Site) -> None:
        self.site, self.turn, self.at = site, asyncio.Lock(), 0.0
        self.tiles = list[dict[str, str]]()

    def add_to(self, app: web.Application) -> None:
        app.router.add_get("/wall", self.wall)
        app.router.add_get("/submissions", self.submissions)
        app.router.add_get("/marks.csv", self.marks)

    @staticmethod
    def check(request: web.Request) -> None:
        if request["who"] != TEACHER:
            raise web.HTTPForbidden(text="this is for the teacher\n")

    async def wall(self, request: web.Request) -> web.Response:
        """A tile for each student, those who need help first. No machine is asked anything."""
        self.check(request)
        async with self.turn:
            if time.monotonic() > self.at + WALL_SECONDS:
                self.tiles = await asyncio.to_thread(self.made)
                self.at = time.monotonic()
        return web.json_response(self.tiles)

    def made(self) -> list[dict[str, str]]:
        return [
            {"name": it.user, "person": it.person, "kind": it.kind, "told": it.told, "why": "\n".join(it.lines)}
            for it in tiles_of(self.site.course, self.site.nodes)
        ]

    async def submissions(self, request: web.Request) -> web.Response:
        """What was handed in, the newest first: by whom, for which exercise, when, with which result."""
        self.check(request)
        course, every = self.site.course, await self.site.booked(lambda book: book.submissions())
        newest = every[::-1][:MOST_SHOWN]
        told: list[dict[str, Any]] = [
            {"number": it.number, "name": it.name, "person": person_of(course, it.name), "exercise": it.exercise}
            | {"at": it.at, "points": it.points, "of": it.most, "remark": it.remark, "kind": it.kind, "text": it.text}
            for it in newest
        ]
        return web.json_response(told)

    async def marks(self, request: web.Request) -> web.Response:
        """Each student's points as a file for a spreadsheet."""
        self.check(request)
        rows = await asyncio.to_thread(mark_rows, self.site.course)
        with io.StringIO(newline="") as it:
            csv.writer(it).writerows([plain(cell) for cell in row] for row in rows)
            text = it.getvalue()
        return web.Response(
            text=text, content_type="text/csv", headers={"Content-Disposition": 'attachment; filename="marks.csv"'}
        )
