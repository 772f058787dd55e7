"""The lab for pages: what is asked is run beside the site, by a process that has the front end ready (`nadzsumek/occam/answering.py`),
with bounds of time, of what is printed, and of how many run at once."""

from __future__ import annotations

import asyncio
import collections
import contextlib
import json
import os
import signal
import subprocess
import tempfile
import time
from typing import NamedTuple

from ..occam.asking import SOCKET
from ..serving.folder import program
from ..serving.running import end_with

# How many runs there are at once of texts that are to be run, of those that are only looked at, and of records; how many seconds one may
# take, and how many bytes it may print; of a film more.
MOST_RUNS, MOST_LOOKS, MOST_RECORDS, SECONDS, MOST_PRINTED, MOST_FILM = 3, 3, 2, 20, 1 << 20, 24 << 20
# How many answers about texts are kept: who has looked for mistakes while typing runs the text next.
MOST_KEPT, MOST_KEPT_BYTES = 256, 8 << 20
# How long it may take to begin.
BEGIN_SECONDS = 30
PIECE = 1 << 16
BUSY = "the machine of the class is too busy: try again in a moment"


class Ran(NamedTuple):
    """The status of a run, what it prints, and what it says."""

    status: int
    out: str
    err: str

    def size(self) -> int:
        return len(self.out) + len(self.err)


class Labs:
    """Runs the lab. Runs that only look at a text are answered from what is kept, if the same was asked before."""

    def __init__(self) -> None:
        self.room = tempfile.TemporaryDirectory(prefix="nadzsumek-")
        self.path = os.path.join(self.room.name, "lab.sock")
        self.process: subprocess.Popen[bytes] | None = None
        self.turn = asyncio.Lock()
        # texts that are to be run, those that are only looked at, and records have places of their own, so that none waits for the next
        self.runs, self.looks, self.records = (asyncio.Semaphore(it) for it in (MOST_RUNS, MOST_LOOKS, MOST_RECORDS))
        # the runs whose answers others wait for too
        self.going: dict[tuple[object, ...], asyncio.Task[Ran]] = {}
        self.kept, self.size = collections.OrderedDict[tuple[object, ...], Ran](), 0

    def close(self) -> None:
        if self.process is not None:
            with contextlib.suppress(ProcessLookupError):
                os.killpg(self.process.pid, signal.SIGKILL)
            self.process.wait()
        self.room.cleanup()

    async def begun(self) -> None:
        """Begins what runs it, if it isn't there or has ended."""
        async with self.turn:
            if self.process is not None and self.process.poll() is None:
                return
            with contextlib.suppress(FileNotFoundError):
                os.unlink(self.path)
            parent = os.getpid()
            # pylint: disable-next=consider-using-with
            self.process = subprocess.Popen(
                [program("lab"), "occam", "none.occ"],
                env={**os.environ, SOCKET: self.path},
                stdin=subprocess.DEVNULL,
                stdout=subprocess.DEVNULL,
                start_new_session=True,
                preexec_fn=lambda: end_with(parent),
            )
            end = time.monotonic() + BEGIN_SECONDS
            while not os.path.exists(self.path):
                if self.process.poll() is not None or time.monotonic() > end:
                    raise OSError(0, "the lab can't be started")
                await asyncio.sleep(0.02)

    async def run(
        self,
        words: list[str],
        files: dict[str, str],
        most: int = MOST_PRINTED,
        seconds: int = SECONDS,
        places: asyncio.Semaphore | None = None,
    ) -> Ran:
        """Runs it once. A word that begins with `@` names one of the files. It reads a record unless it has other places."""
        asked = {"words": words, "files": files, "seconds": seconds, "most": most}
        async with places or self.records:
            try:
                await self.begun()
                reader, writer = await asyncio.open_unix_connection(self.path)
                try:
                    writer.write(json.dumps(asked).encode())
                    writer.write_eof()
                    told = json.loads(await asyncio.wait_for(reader.read(), SECONDS + BEGIN_SECONDS))
                finally:
                    writer.close()
            except (OSError, ValueError, asyncio.TimeoutError):
                return Ran(1, "", BUSY)
        if told["cut"]:
            why = f"it took more than {seconds} seconds" if told["cut"] == "time" else "it is too long to be shown"
            return Ran(1, "", why)
        return Ran(told["status"], told["out"], told["err"])

    async def known(self, words: list[str], files: dict[str, str], is_run: bool) -> Ran:
        """The same of a run whose answer depends on its words and files alone. Who asks what another waits for waits with that one."""
        key = (*words, *files.items())
        if key in self.kept:
            self.kept.move_to_end(key)
            return self.kept[key]
        if key not in self.going:
            places = self.runs if is_run else self.looks
            task = self.going[key] = asyncio.ensure_future(self.run(words, files, places=places))
            task.add_done_callback(lambda _: self.going.pop(key, None))
        ran = await asyncio.shield(self.going[key])
        if ran.err != BUSY and key not in self.kept:
            self.kept[key], self.size = ran, self.size + ran.size()
            while len(self.kept) > MOST_KEPT or self.size > MOST_KEPT_BYTES:
                self.size -= self.kept.popitem(last=False)[1].size()
        return ran
