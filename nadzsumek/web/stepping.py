"""The debugger's steps in a page: a student's newest record is gone through line by line, forwards and back, by the engine that editors
use (`nadzsumek/debugging`). A few students at a time have one; who hasn't asked for a while gives it up."""

from __future__ import annotations

import asyncio
import contextlib
import os
import tempfile
import time
from typing import TYPE_CHECKING, Any

from ..debugging.engine import Engine, Process
from ..debugging.engine import Refused as Unanswered
from ..serving.folder import program as command

if TYPE_CHECKING:
    from .desk import Program

# How many debuggers there are at once, how long one is kept that isn't asked, how long an answer may take, and how long a record may be.
MOST_OPEN, KEEP_SECONDS, ANSWER_SECONDS, MOST_RECORD = 6, 120, 15, 1 << 20
# How many variables and elements are shown.
MOST_SHOWN = 64
Answer = dict[str, Any]


class Steps:
    """A record that is gone through."""

    def __init__(self, record: str, program: Program) -> None:
        self.key, self.used = (record, os.path.getsize(record), program), time.monotonic()
        self.room, self.turn = tempfile.TemporaryDirectory(prefix="nadzsumek-"), asyncio.Lock()
        path = os.path.join(self.room.name, program.file())
        with open(path, "w", encoding="utf-8", newline="") as it:
            it.write(program.text)
        self.engine: Engine | None = None
        self.record, self.path = record, path

    def close(self) -> None:
        engine, self.engine = self.engine, None
        if engine is not None:
            engine.child.kill()
            with contextlib.suppress(OSError):
                engine.quit()
        self.room.cleanup()

    def do(self, how: str, line: int) -> Answer:
        """Does a step, and says where it is then."""
        if self.engine is None:
            self.engine = Engine.open([command("lab")], self.record, {0: self.path}, 0)
        engine = self.engine
        {"first": self.first, "last": self.last}.get(how, lambda: self.go(how, line))()
        found = engine.processes()
        return {
            "event": engine.here,
            "events": engine.events,
            "processes": [
                {"node": it.node, "does": it.state, "line": it.spot.line, "at": f"{it.address or 0:08x}"}
                for it in found
            ],
            "variables": self.variables(),
        }

    def first(self) -> None:
        assert self.engine
        self.engine.go(0)

    def last(self) -> None:
        assert self.engine
        self.engine.go(self.engine.events)

    def go(self, how: str, line: int) -> None:
        """Goes to the next line or to the last one, or to a line."""
        assert self.engine
        engine, is_back = self.engine, how.startswith("back")
        if how.endswith("line"):
            has_code = engine.line_with_code(0, line)
            if has_code is None:
                raise Unanswered(f"line {line} has no code, and no line behind it has any")
            engine.seek([f"node 0 at line {has_code}"], is_back)
        elif engine.tables[0].spots:
            at = next((it for it in engine.processes() if it.node == 0), None)
            engine.step(at or Process(0, 0, "", None, engine.tables[0].around(None)), "into", is_back, set())
        else:
            engine.ask("back 1" if is_back else "next 1")

    def variables(self) -> list[Answer]:
        """The variables of node 0 with their values, or its registers if the program has no variables."""
        assert self.engine
        found = self.engine.variables(0)[:MOST_SHOWN] if self.engine.tables[0].spots else []
        if found:
            return [{"name": it.name, "line": it.line, "value": it.value[:200]} for it in found]
        return [{"name": name, "line": None, "value": value} for name, value in self.engine.registers(0)]


class Debuggers:
    """The debuggers that are open, by the names of their students."""

    def __init__(self) -> None:
        self.steps = dict[str, Steps]()

    def close(self) -> None:
        for name in [*self.steps]:
            self.steps.pop(name).close()

    def make_room(self) -> None:
        """Ends those that weren't asked for a while, and the one that was asked least lately if there are too many."""
        now = time.monotonic()
        for name, it in [*self.steps.items()]:
            if now > it.used + KEEP_SECONDS and not it.turn.locked():
                self.steps.pop(name).close()
        while len(self.steps) >= MOST_OPEN:
            name = min(self.steps, key=lambda it: self.steps[it].used)
            self.steps.pop(name).close()

    async def ask(self, name: str, record: str | None, program: Program | None, how: str, line: int) -> Answer:
        """Does a step of a student's record, and says where it is then."""
        if record is None or program is None:
            return {"error": "press Run first: the steps are those of the program that was run"}
        if os.path.getsize(record) > MOST_RECORD:
            return {"error": "the record is too long to be gone through here: press Run again"}
        key = (record, os.path.getsize(record), program)
        if name in self.steps and self.steps[name].key != key:
            self.steps.pop(name).close()
        if name not in self.steps:
            self.make_room()
            self.steps[name] = Steps(record, program)
        steps = self.steps[name]
        try:
            async with steps.turn:
                steps.used = time.monotonic()
                return await asyncio.wait_for(asyncio.to_thread(steps.do, how, line), ANSWER_SECONDS)
        except Unanswered as refused:
            return {"error": f"{refused}"}
        except (asyncio.TimeoutError, OSError, ValueError, LookupError):
            self.steps.pop(name, steps).close()
            return {"error": "the debugger has taken too long: press Run again, or send less"}
