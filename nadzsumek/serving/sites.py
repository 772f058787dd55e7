"""The pages of a class as its orders see them: who serves them, and how they are started and ended."""

from __future__ import annotations

import contextlib
import os
import select
import signal
import subprocess
import time

from .folder import OWN_FILE, Refused, check_own_file, holder_of, program
from .upkeep import PAUSE, Work

# What the process locks that keeps the pages up, in the folder of the class. It has the number of that process and the address of the
# pages, and nothing once they were stopped. And what it says if `class start` has begun it.
LOCK, LOG = "web.lock", "web.log"
# How long pages may take to come up and to end.
START_SECONDS, STOP_SECONDS = 60, 15
# How many bytes of the end of the log are looked at.
LAST_BYTES = 4096
# What every order calls the pages.
NAME = "pages"


def keeper_of(course: str) -> int | None:
    """The number of the process that keeps the pages of a class up; none if there is none."""
    return holder_of(os.path.join(course, LOCK))


def address_of(course: str) -> str | None:
    """How browsers call the pages; none if they aren't up."""
    if keeper_of(course) is None:
        return None
    with contextlib.suppress(OSError):
        with open(os.path.join(course, LOCK), encoding="utf-8") as it:
            return next(iter(it.read().splitlines()[1:2]), None)
    return None


def was_stopped(course: str) -> bool:
    """Whether the pages ended since they were stopped."""
    try:
        return os.path.getsize(os.path.join(course, LOCK)) == 0
    except FileNotFoundError:
        return False


def begun(course: str, words: list[str]) -> subprocess.Popen[bytes]:
    """The process that keeps the pages up, whose words go into the log."""
    path = os.path.join(course, LOG)
    with open(os.open(path, os.O_WRONLY | os.O_APPEND | os.O_CREAT | os.O_NOFOLLOW, OWN_FILE), "ab") as log:
        check_own_file(path)
        # pylint: disable-next=consider-using-with
        return subprocess.Popen(
            [program("class"), "web", *words, course],
            stdin=subprocess.DEVNULL,
            stdout=log,
            stderr=log,
            start_new_session=True,
        )


class StartSite(Work):
    """The pages of a class, which are started unless they are up."""

    def __init__(self, course: str, words: list[str]) -> None:
        super().__init__(os.path.join(course, NAME), course)
        self.words, self.size = words, 0

    def done(self) -> tuple[bool, str]:
        log, process = os.path.join(self.course, LOG), None
        while (address := address_of(self.course)) is None:
            if process is not None and process.poll() is not None and keeper_of(self.course) is None:
                return False, f"they did not start, see {log}{self.told()}"
            if process is None and keeper_of(self.course) is None:
                self.size = os.path.getsize(log) if os.path.exists(log) else 0
                process = begun(self.course, self.words)
            if time.monotonic() > self.begun + START_SECONDS:
                return False, f"they aren't up after {START_SECONDS} seconds, see {log}{self.told()}"
            time.sleep(PAUSE)
        return True, f"up at {address}"

    def told(self) -> str:
        """The last line of what they have said, behind a colon."""
        with contextlib.suppress(OSError), open(os.path.join(self.course, LOG), "rb") as it:
            it.seek(max(self.size, it.seek(0, os.SEEK_END) - LAST_BYTES))
            lines = [line for line in it.read().decode(errors="replace").split("\n") if line]
            return f": {lines[-1].removeprefix('class: ')}" if lines else ""
        return ""

    def waited(self) -> str:
        return f"not up yet after {self.seconds()} seconds{self.told()}"

    def left(self) -> str:
        return f"not up yet after {self.seconds()} seconds, and they go on{self.told()}"


class StopSite(Work):
    """The pages of a class, which are ended."""

    def __init__(self, course: str) -> None:
        super().__init__(os.path.join(course, NAME), course)

    def done(self) -> tuple[bool, str]:
        number = keeper_of(self.course)
        try:
            process = os.pidfd_open(number) if number is not None else None
        except ProcessLookupError:
            process = None
        if process is not None:
            try:
                if keeper_of(self.course) == number:
                    signal.pidfd_send_signal(process, signal.SIGTERM)
                if not select.select([process], [], [], STOP_SECONDS)[0]:
                    return False, f"process {number} did not end in {STOP_SECONDS} seconds"
            except OSError as error:
                return False, f"process {number} can't be ended: {error.strerror}"
            finally:
                os.close(process)
        return True, "off"

    def waited(self) -> str:
        return f"not off yet after {self.seconds()} seconds"

    def left(self) -> str:
        return "not off yet, but asked to stop"


def refuse_second(course: str) -> None:
    """Refuses to keep pages up that another process keeps up."""
    number = keeper_of(course)
    if number is not None:
        raise Refused(f"the pages of {course} are served already, by process {number}: stop it first")
