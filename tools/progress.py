"""What is shown while programs are built or proved, and how many seconds each crate took on this machine the last time."""

import json
import os
import shutil
import sys
import time
from collections.abc import Iterable

from tree import TOP

# The seconds of each crate that was proved here, and of each build without a proof.
KEPT = f"{TOP}/out/seconds.json"
# What took less was there already.
LEAST_SECONDS = 2.0
# How often the line of a terminal is written anew, in seconds.
PAUSE = 1.0
MINUTE = 60


def kept_seconds() -> dict[str, float]:
    """The seconds that are kept, by the name of the crate; none if nothing was proved here yet."""
    try:
        with open(KEPT, encoding="utf-8") as it:
            return {name: float(seconds) for name, seconds in json.load(it).items()}
    except (OSError, ValueError, AttributeError, TypeError):
        return {}


def keep_seconds(name: str, seconds: float) -> None:
    """Keeps what a crate took. Nothing depends on it but what is shown and which crate goes first, so a fault is passed over."""
    if seconds < LEAST_SECONDS:
        return
    try:
        os.makedirs(os.path.dirname(KEPT), exist_ok=True)
        with open(f"{KEPT}.{os.getpid()}", "w", encoding="utf-8") as it:
            json.dump({**kept_seconds(), name: round(seconds, 1)}, it, indent=1, sort_keys=True)
        os.replace(f"{KEPT}.{os.getpid()}", KEPT)
    except OSError:
        pass


def minutes(seconds: float) -> str:
    """A length of time in whole minutes."""
    whole = round(seconds / MINUTE)
    return "under a minute" if whole == 0 else f"{whole} minute{'s' * (whole != 1)}"


def clock(seconds: float) -> str:
    """A length of time as minutes and seconds, such as 2:05."""
    return f"{int(seconds) // MINUTE}:{int(seconds) % MINUTE:02}"


class Progress:
    """How far a work of so many parts is: at a terminal one line on standard error that is written anew, else a line for each part."""

    def __init__(self, total: int, what: str) -> None:
        self.total, self.what, self.begun = total, what, time.monotonic()
        self.is_terminal = sys.stderr.isatty()

    def show(self, done: int, left: float, at_work: Iterable[str]) -> None:
        """Writes the line of a terminal: how many parts are done, the time gone, the seconds left, and what is at work."""
        if self.is_terminal:
            gone = time.monotonic() - self.begun
            text = f"{done} of {self.total} {self.what}, {clock(gone)} gone, about {clock(left)} left: {', '.join(at_work)}"
            sys.stderr.write(f"\r{text[:shutil.get_terminal_size().columns - 1]}\x1b[K")
            sys.stderr.flush()

    def clear(self) -> None:
        """Takes the line of a terminal away, so that something else can be written."""
        if self.is_terminal:
            sys.stderr.write("\r\x1b[K")
            sys.stderr.flush()

    def part_is_done(self, done: int, name: str, seconds: float) -> None:
        """Keeps the seconds of a part, and writes its line if there is no terminal."""
        keep_seconds(name, seconds)
        if not self.is_terminal:
            print(f"{done} of {self.total}, {name}, {seconds:.0f} s", file=sys.stderr, flush=True)
