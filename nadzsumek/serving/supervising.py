"""All farms of a class as the children of one process, which runs until it is stopped, as a unit of systemd wants it."""

from __future__ import annotations

import contextlib
import fcntl
import os
import select
import signal
import subprocess
import sys
import time

from . import sites
from .escapes import escaped
from .folder import Refused, holder, is_locked, own_plan, program, was_stopped
from .holders import serve_of
from .kept import Kept, class_in
from .upkeep import Start, is_up

# What starts all farms that are off, and what starts those whose plan has changed since they were started, and new ones.
ALL, CHANGED = signal.SIGUSR1, signal.SIGUSR2
# What lets farms be off that are to be started again. A process that doesn't know it passes over it.
LEAVE_OFF = signal.SIGURG
STOPPING = (signal.SIGTERM, signal.SIGINT, signal.SIGHUP)
# After how many seconds a farm is started again that didn't end by a stop.
AGAIN_SECONDS = 60
# How long a farm may be off that the supervisor was asked to start.
OFF_SECONDS = 30
PAUSE = 0.05
# How often it is looked whether the pages are up.
PAGES_SECONDS = 2.0


def is_class(number: int) -> bool:
    """Whether a process is a `class`."""
    try:
        with open(f"/proc/{number}/cmdline", "rb") as it:
            return b"class" in {os.path.basename(word) for word in it.read().split(b"\0")}
    except OSError:
        return False


def supervisor_of(course: str) -> int | None:
    """The number of the process that has all farms of a class as its children; none if there is none."""
    number = holder(course)
    return number if number is not None and is_class(number) else None


def tell(course: str, how: signal.Signals) -> None:
    """Sends a signal to the supervisor of a class, if there is one."""
    number = supervisor_of(course)
    if number is not None:
        os.kill(number, how)


class Awaited(Start):
    """A farm that the supervisor of its class starts."""

    HOW = ALL

    def done(self) -> tuple[bool, str]:
        seen = time.monotonic()
        if not is_locked(self.folder):
            tell(self.course, self.HOW)
        while not is_up(self.folder):
            if is_locked(self.folder):
                seen = time.monotonic()
            if time.monotonic() > seen + OFF_SECONDS:
                return False, "it did not start, see what the unit of the class says (journalctl)"
            if self.is_quiet():
                return (
                    False,
                    f"it isn't up after {self.seconds()} seconds, and {self.whose()} doesn't answer. {self.next_steps()}",
                )
            time.sleep(PAUSE)
        return True, self.is_well()


class AwaitedChange(Awaited):
    """One whose plan has changed."""

    HOW = CHANGED


class Supervisor:
    """The farms of a class, each with its `serve`."""

    def __init__(self, course: str, more: list[str], has_pages: bool = True) -> None:
        self.course, self.more, self.has_pages = os.path.abspath(course), more, has_pages
        # the process that keeps the pages up, if it was begun here, and when it is to be begun
        self.pages: subprocess.Popen[bytes] | None = None
        self.pages_due = 0.0
        self.children: dict[str, subprocess.Popen[bytes]] = {}
        self.plans: dict[str, tuple[int, int]] = {}
        self.begun: dict[str, float] = {}
        self.due: dict[str, float] = {}
        self.asked: set[signal.Signals] = set()
        # the farms that are to be started as soon as they have ended
        self.pending: set[str] = set()
        # those that had just been started, and are to be off
        self.leaving: set[str] = set()
        # the `serve` of each farm that somebody else has started, and what was said last of each farm that can't be started
        self.others: dict[str, int] = {}
        self.faults: dict[str, str] = {}
        self.kept = class_in(self.course)
        self.wakes, self.waking = os.pipe2(os.O_NONBLOCK | os.O_CLOEXEC)
        # before another process can see whom it may tell
        for it in (ALL, CHANGED, LEAVE_OFF, signal.SIGCHLD, *STOPPING):
            signal.signal(it, lambda *_: None)
        signal.set_wakeup_fd(self.waking, warn_on_full_buffer=False)
        self.lock()

    def lock(self) -> None:
        """Has the class for itself, as far as supervisors go."""
        self.file = os.open(os.path.join(self.course, "lock"), os.O_RDWR | os.O_CREAT | os.O_NOFOLLOW, 0o600)
        try:
            fcntl.lockf(self.file, fcntl.LOCK_EX | fcntl.LOCK_NB)
        except OSError:
            raise Refused(f"{self.course} is served already, by process {holder(self.course)}: stop it first") from None
        os.ftruncate(self.file, 0)
        os.pwrite(self.file, f"{os.getpid()}\n".encode(), 0)

    def say(self, text: str) -> None:
        print(f"class: {escaped(text)}", file=sys.stderr, flush=True)

    def plan(self, farm: str) -> tuple[int, int]:
        """Which plan a farm has: each that is written is another file."""
        it = os.stat(os.path.join(farm, "plan.toml"))
        return it.st_ino, it.st_mtime_ns

    def start(self, farm: str, kept: Kept) -> None:
        """Starts a farm, unless somebody else has it. One that is just ending is started when it has ended."""
        self.due.pop(farm, None)
        if farm in self.children:
            is_old = time.monotonic() > self.begun[farm] + OFF_SECONDS
            if self.plans[farm] != self.plan(farm) or (is_old and not is_locked(farm)):
                self.pending.add(farm)
            return
        if is_locked(farm):
            self.take_over(farm)
            return
        self.pending.discard(farm)
        self.leaving.discard(farm)
        self.plans[farm], self.begun[farm] = self.plan(farm), time.monotonic()
        call = [program("serve"), *self.more, *kept.rights, *kept.rooms.words(), own_plan(farm), farm]
        # pylint: disable-next=consider-using-with
        self.children[farm] = subprocess.Popen(call, stdin=subprocess.DEVNULL, start_new_session=True)

    def take_over(self, farm: str) -> None:
        """Keeps in sight a farm that somebody else has started, as an earlier process of this kind."""
        number = serve_of(farm)
        if number is not None and farm not in self.others:
            with contextlib.suppress(ProcessLookupError):
                self.others[farm] = os.pidfd_open(number)

    def try_start(self, farm: str) -> None:
        """Starts a farm if it can be started. Else that is said once, and it is tried again after a while."""
        try:
            self.start(farm, self.kept)
            self.faults.pop(farm, None)
        except (OSError, Refused) as error:
            self.due[farm] = time.monotonic() + AGAIN_SECONDS
            if self.faults.get(farm) != f"{error}":
                self.faults[farm] = f"{error}"
                self.say(f"{os.path.basename(farm)} can't be started: {error}")

    def is_changed(self, farm: str) -> bool:
        """Whether a farm has another plan than that with which it was started."""
        try:
            return farm not in self.plans or self.plans[farm] != self.plan(farm)
        except OSError:
            return True

    def look_at_others(self) -> None:
        """Takes off the farms of others that have ended. One that wasn't stopped is started again after a while."""
        for farm, process in [*self.others.items()]:
            if select.select([process], [], [], 0)[0]:
                os.close(self.others.pop(farm))
                if not was_stopped(farm):
                    self.say(f"{os.path.basename(farm)} has failed, and is started again in {AGAIN_SECONDS} seconds")
                    self.due[farm] = time.monotonic() + AGAIN_SECONDS

    def look(self) -> None:
        """Takes off the farms that have ended. One that wasn't stopped is started again after a while."""
        self.look_at_others()
        for farm, process in [*self.children.items()]:
            status = process.poll()
            if status is None:
                continue
            del self.children[farm]
            if farm in self.pending:
                self.due[farm] = time.monotonic()
            elif farm not in self.leaving and not was_stopped(farm) and not self.asked & {*STOPPING}:
                self.say(
                    f"{os.path.basename(farm)} ended with status {status}, and is started again in {AGAIN_SECONDS} seconds"
                )
                self.due[farm] = time.monotonic() + AGAIN_SECONDS

    def leave_off(self) -> None:
        """Starts no farm again that is off, and ends those that nobody can ask yet to stop."""
        self.due, self.pending = {}, set()
        for farm, process in self.children.items():
            with contextlib.suppress(OSError, Refused):
                if not is_locked(farm):
                    self.leaving.add(farm)
                    process.terminate()

    def go_on(self) -> None:
        """Starts what is to be started now."""
        asked, self.asked = self.asked, set()
        try:
            self.kept = class_in(self.course)
            self.faults.pop(self.course, None)
        except (OSError, Refused) as error:
            if self.faults.get(self.course) != f"{error}":
                self.faults[self.course] = f"{error}"
                self.say(f"{error}; the farms that were there go on")
        if LEAVE_OFF in asked:
            self.leave_off()
        self.due = {farm: when for farm, when in self.due.items() if farm in self.kept.farms}
        self.keep_pages(ALL in asked)
        for farm in self.kept.farms:
            is_due = self.due.get(farm, float("inf")) <= time.monotonic()
            if ALL in asked or is_due or (CHANGED in asked and self.is_changed(farm)):
                self.try_start(farm)

    def keep_pages(self, is_asked: bool) -> None:
        """Begins what keeps the pages up if it has ended, unless it was stopped and isn't asked for."""
        if self.pages is not None and self.pages.poll() is not None:
            self.pages, self.pages_due = None, time.monotonic() + PAGES_SECONDS
        if self.kept.web is None or not self.has_pages or self.pages is not None:
            return
        with contextlib.suppress(OSError, Refused):
            is_due = is_asked or (time.monotonic() > self.pages_due and not sites.was_stopped(self.course))
            if is_due and sites.keeper_of(self.course) is None:
                self.pages = sites.begun(self.course, self.kept.web)

    def wait(self) -> None:
        """Waits until a signal comes or a farm is due."""
        pause = max(0, min(self.due.values()) - time.monotonic()) if self.due else None
        if self.kept.web is not None and self.has_pages:
            pause = min(PAGES_SECONDS, PAGES_SECONDS if pause is None else pause)
        if self.wakes in select.select([self.wakes, *self.others.values()], [], [], pause)[0]:
            self.asked |= {signal.Signals(it) for it in os.read(self.wakes, 4096)}

    def is_removed(self) -> bool:
        """Whether somebody has removed the folder of the class. The farms end by themselves then."""
        return os.fstat(self.file).st_nlink == 0

    def run(self) -> int:
        """Keeps the farms up until this process is stopped, and then stops them; the status."""
        self.asked |= {ALL}
        while not self.asked & {*STOPPING} and not self.is_removed():
            self.look()
            self.go_on()
            self.wait()
        for process in self.children.values():
            process.send_signal(signal.SIGTERM)
        for process_of_others in self.others.values():
            with contextlib.suppress(ProcessLookupError):
                signal.pidfd_send_signal(process_of_others, signal.SIGTERM)
        # serve ends by itself within a minute
        if self.has_pages and sites.keeper_of(self.course) is not None:
            sites.StopSite(self.course).done()
        statuses = [process.wait() for process in self.children.values()]
        for process_of_others in self.others.values():
            select.select([process_of_others], [], [])
        return 1 if any(statuses) else 0
