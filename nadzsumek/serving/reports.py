"""What `serve` says on standard error. Nobody waits until somebody reads it."""
import os
import queue
import sys
import threading
import time

from .escapes import escaped

# So many lines wait for a reader at most. Those that come then are left out, and counted.
MOST_WAITING = 1000
# How long the last lines may take at the end.
END_SECONDS = 1
ERRORS = 2


class Reports:
    """Lines for standard error, each with its time, which a thread of its own writes."""

    def __init__(self) -> None:
        self.waiting: queue.Queue[str | None] = queue.Queue(MOST_WAITING)
        self.left_out = 0
        self.thread = threading.Thread(target=self.write, daemon=True)
        self.thread.start()

    def say(self, text: str) -> None:
        """Writes a line, as soon as those before it are read."""
        line = f"{time.strftime('%Y-%m-%d %H:%M:%S')} {escaped(text)}\n"
        try:
            if self.left_out:
                self.waiting.put_nowait(f"({self.left_out} lines are left out here, since nobody read them)\n")
                self.left_out = 0
            self.waiting.put_nowait(line)
        except queue.Full:
            self.left_out += 1

    def write(self) -> None:
        # not by sys.stderr, whose lock this thread would have for ever if nobody reads
        while (line := self.waiting.get()) is not None:
            rest = line.encode(errors="backslashreplace")
            while rest:
                try:
                    rest = rest[os.write(ERRORS, rest) :]
                except OSError:
                    break

    def end(self) -> None:
        """Waits a little until all is written."""
        try:
            self.waiting.put_nowait(None)
        except queue.Full:
            pass
        self.thread.join(END_SECONDS)


def open_streams() -> None:
    """Opens nothing in place of each standard stream that is closed, so that no other file gets its number."""
    for number in range(ERRORS + 1):
        try:
            os.fstat(number)
        except OSError:
            os.open(os.devnull, os.O_RDWR)
    if sys.stderr is None:
        sys.stderr = open(os.devnull, "w", encoding="utf-8")  # pylint: disable=consider-using-with
