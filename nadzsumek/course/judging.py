"""Answers what students ask about exercises: each question in a process of its own (`handing.py`), with bounds of time, memory and
number, so that no program that is tried delays what others are answered."""

from __future__ import annotations

import asyncio
import contextlib
import json
import os
import signal
import sys
import time
from typing import Any

from ..serving.folder import TOP
from ..serving.running import end_with
from .telling import REFUSED

# How long an answer may take at all, how many questions of one student may wait, and how many are answered at the same time.
MOST_SECONDS, MOST_WAITING, MOST_AT_ONCE = 300, 8, 2
# What is said where it isn't known.
KEPT = ". submitted says whether it was kept"
CHILD = f"import sys; sys.path.insert(0, {TOP!r}); from nadzsumek.course.handing import main; main()"
Answer = dict[str, Any]


class Asker:
    """A student who asks: whose questions are answered one after another, so that they hold up nobody else's."""

    def __init__(self) -> None:
        self.turn, self.waiting = asyncio.Lock(), 0


class Judge:
    """Answers questions about the exercises of the class in this folder."""

    def __init__(self, course: str) -> None:
        self.course, self.askers = course, dict[str, Asker]()
        self.room, self.children = asyncio.Semaphore(MOST_AT_ONCE), set[asyncio.subprocess.Process]()
        self.has_ended = False

    async def ask(self, user: str, verb: str, *words: str) -> Answer | None:
        """What a student is answered: an object that has REFUSED, with why, if nothing was done; none if it isn't known, as this
        ends."""
        asker, at = self.askers.setdefault(user, Asker()), time.time()
        if asker.waiting >= MOST_WAITING:
            return {REFUSED: f"{MOST_WAITING} questions of yours about exercises wait already: wait for an answer"}
        asker.waiting += 1
        try:
            async with asker.turn, self.room:
                return None if self.has_ended else await self.answer(user, verb, at, [*words])
        finally:
            asker.waiting -= 1

    async def answer(self, user: str, verb: str, at: float, words: list[str]) -> Answer | None:
        """The answer of a process."""
        asked = json.dumps({"course": self.course, "user": user, "verb": verb, "at": at, "words": words}).encode()
        try:
            child = await self.begun()
        except OSError as error:
            return {REFUSED: f"the machine of the class can't do it ({error.strerror}), so nothing was kept"}
        self.children.add(child)
        try:
            told, _ = await asyncio.wait_for(child.communicate(asked), MOST_SECONDS)
            answered = json.loads(told)
            return answered if isinstance(answered, dict) else None
        except asyncio.TimeoutError:
            return {REFUSED: f"it took more than {MOST_SECONDS} seconds{KEPT}"}
        except ValueError:
            return None if self.has_ended else {REFUSED: f"it took too much of the machine{KEPT}"}
        finally:
            end(child)
            self.children.discard(child)

    @staticmethod
    async def begun() -> asyncio.subprocess.Process:
        """A process that answers a question, and ends when this one does."""
        pipe, parent = asyncio.subprocess.PIPE, os.getpid()
        return await asyncio.create_subprocess_exec(
            *[sys.executable, "-S", "-E", "-P", "-B", "-c", CHILD],
            stdin=pipe,
            stdout=pipe,
            stderr=asyncio.subprocess.DEVNULL,
            start_new_session=True,
            preexec_fn=lambda: end_with(parent),
        )

    def end(self) -> None:
        """Answers nothing more."""
        self.has_ended = True
        for child in [*self.children]:
            end(child)


def end(child: asyncio.subprocess.Process) -> None:
    """Ends a process with all that it has begun, unless it has ended."""
    if child.returncode is None:
        with contextlib.suppress(ProcessLookupError):
            os.killpg(child.pid, signal.SIGKILL)
