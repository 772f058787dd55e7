"""How far the replay of a domain's record is, and how long it takes yet."""

from __future__ import annotations

import contextlib
import re
import time

# What `live` says of a record that it replays: whose record it is, and how many MiB of how many are read, or how many Steps done.
REPLAYED = re.compile(r"(.*/)?([^/]+)\.replay: (\d+) (?:of (\d+) MiB|Steps) are replayed")
# What a record says of Steps that were done one after another.
MANY_STEPS = re.compile(rb"(?m)^(\d{1,18}) times ")
# Beside a user's name in `!users`: what the user's machine did is replayed.
REPLAYING = "replaying"
# Users are told of it no more often than this, in seconds.
SAY_SECONDS = 5
# So much of a record is read at a time, in bytes.
PIECE = 1 << 20


def steps_in(path: str) -> int:
    """How many Steps the lines of a record say that have many of them."""
    steps, held = 0, b""
    with contextlib.suppress(OSError), open(path, "rb") as record:
        while piece := record.read(PIECE):
            whole, cut, held = (held + piece).rpartition(b"\n")
            steps += sum(int(it) for it in MANY_STEPS.findall(whole + cut))
    return steps


class Replay:
    """The replay of one record, from the first that was said of it."""

    def __init__(self, path: str) -> None:
        self.path, self.begun, self.told = path, time.monotonic(), 0.0
        self.first: int | None = None
        self.steps: int | None = None

    def all_of(self, mebibytes: str | None) -> int:
        """How much there is to do, in MiB or in Steps."""
        if mebibytes:
            return int(mebibytes)
        if self.steps is None:
            self.steps = steps_in(self.path)
        return self.steps

    def words(self, done: int, mebibytes: str | None) -> str | None:
        """How far it is, as a user is told; none if he was told a moment ago."""
        now = time.monotonic()
        if self.told and now < self.told + SAY_SECONDS:
            return None
        self.told, every = now, self.all_of(mebibytes)
        if self.first is None:
            self.first = done
        if done >= every:
            return "nearly all is done"
        gained = done - self.first
        left = f", some {round((every - done) * (now - self.begun) / gained)} s left" if gained else ""
        return f"{100 * done // every} %{left}"
