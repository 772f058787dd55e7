"""Keeps the pages of a class up: the site is a child of this process, and is begun again when it ends by itself. The socket at which it
listens stays open meanwhile, so who comes then waits for the next one."""

from __future__ import annotations

import fcntl
import os
import signal
import socket
import sys
import time
from collections.abc import Callable

from ..serving.folder import OWN_FILE, Refused
from ..serving.running import Starts, end_with, how
from ..serving.sites import LOCK, refuse_second

STOPPING = {signal.SIGTERM, signal.SIGINT, signal.SIGHUP}
# How long the site may take to end, how long is waited after it has ended too often, and how long for the place to listen at.
END_SECONDS, OFTEN_SECONDS, BIND_SECONDS = 5, 10.0, 3
# So many connections wait before the socket.
MOST_WAITING = 4096


def listening_at(host: str, port: int) -> socket.socket:
    """The socket at which the site listens. An earlier site may need a moment to end."""
    family, end = (socket.AF_INET6 if ":" in host else socket.AF_INET), time.monotonic() + BIND_SECONDS
    while True:
        try:
            return socket.create_server((host, port), family=family, backlog=MOST_WAITING)
        except OSError as error:
            if time.monotonic() > end:
                raise Refused(f"the site can't listen at {host}:{port}: {os.strerror(error.errno or 0)}") from None
            time.sleep(0.1)


class Keeper:
    """The process that keeps the pages of a class up."""

    def __init__(self, course: str) -> None:
        self.course, path = course, os.path.join(course, LOCK)
        self.file = os.open(path, os.O_RDWR | os.O_CREAT | os.O_NOFOLLOW | os.O_CLOEXEC, OWN_FILE)
        try:
            fcntl.lockf(self.file, fcntl.LOCK_EX | fcntl.LOCK_NB)
        except OSError:
            refuse_second(course)
            raise Refused(f"the pages of {course} are ending just now: try again") from None
        self.number = os.getpid()
        self.mark(f"{self.number}\n")

    def mark(self, text: str) -> None:
        """Writes what others can see of the pages."""
        os.ftruncate(self.file, 0)
        os.pwrite(self.file, text.encode(), 0)

    def is_up(self, address: str) -> None:
        """Says, in the site, where it is."""
        self.mark(f"{self.number}\n{address}\n")

    def has_been_up(self) -> bool:
        return os.pread(self.file, 4096, 0).count(b"\n") > 1

    def begin(self, site: Callable[[], int]) -> int:
        """A process in which the site is served; its number."""
        sys.stdout.flush()
        child = os.fork()
        if child:
            return child
        status = 1
        try:
            end_with(self.number)
            signal.pthread_sigmask(signal.SIG_UNBLOCK, {*STOPPING, signal.SIGCHLD})
            status = site()
            sys.stdout.flush()
        except Refused as refused:
            print(f"class: {refused}", file=sys.stderr, flush=True)
        except Exception as error:  # pylint: disable=broad-exception-caught
            print(f"class: the site can't be served: {error!r}", file=sys.stderr, flush=True)
        finally:
            os._exit(status)

    def wait(self, child: int, seconds: float | None = None) -> int | None:
        """How the site has ended; none if it goes on, as this process is asked to end or the time is over."""
        end = None if seconds is None else time.monotonic() + seconds
        while True:
            number, status = os.waitpid(child, os.WNOHANG)
            if number:
                return os.waitstatus_to_exitcode(status)
            signals = {signal.SIGCHLD} | (STOPPING if end is None else set())
            left = 3600.0 if end is None else end - time.monotonic()
            came = signal.sigtimedwait(signals, left) if left > 0 else None
            if (came is not None and came.si_signo in STOPPING) or (came is None and end is not None):
                return None

    def keep(self, site: Callable[[], int]) -> int:
        """Keeps the site up until this process is asked to end; the status."""
        signal.pthread_sigmask(signal.SIG_BLOCK, {*STOPPING, signal.SIGCHLD})
        starts = Starts()
        while True:
            child = self.begin(site)
            status = self.wait(child)
            if status is None:
                self.end(child)
                return 0
            if not self.has_been_up():
                return status or 1
            print(f"class: the site ended {how(status)}, and is begun again", file=sys.stderr, flush=True)
            pause = starts.another()
            if signal.sigtimedwait(STOPPING, OFTEN_SECONDS if pause is None else pause) is not None:
                break
        self.mark("")
        return 0

    def end(self, child: int) -> None:
        """Ends the site, and lets others see that it was stopped."""
        os.kill(child, signal.SIGTERM)
        if self.wait(child, END_SECONDS) is None:
            os.kill(child, signal.SIGKILL)
            os.waitpid(child, 0)
        self.mark("")
