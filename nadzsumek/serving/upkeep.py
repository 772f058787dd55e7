"""How the farms of a class are started and stopped: all side by side, each with what became of it."""

from __future__ import annotations

import os
import re
import shlex
import socket
import subprocess
import sys
import threading
import time
from collections.abc import Sequence
from typing import TypeVar

from .escapes import escaped
from .folder import LOG, OWN_FILE, Refused, is_locked, own_plan, program
from .holders import end_serve, live_at, serve_of, work_of
from .sheets import count
from .status import ask_operator, operators_stream

# How long a farm that begins is waited for after its last word, or after its `live` last took a second of processor time: what
# a student did for hours is done again for as long.
QUIET_SECONDS = 120
# `serve` ends a farm that was asked to stop after 60 seconds at most, and needs a moment for itself.
STOP_SECONDS = 65
TICKS = os.sysconf("SC_CLK_TCK")
# How often it is said what is waited for.
SAY_SECONDS = 5
# How long an operator's socket may take for an answer, and how often it is asked.
ANSWER_SECONDS, PAUSE = 3, 0.05
# How long a farm that has ended the operator's connection may still have its folder, and how long it is tried to ask one that
# can't be asked yet.
LAST_SECONDS = 5
# How long it is waited until the process of a farm has begun.
BEGIN_SECONDS = 1
# How often a `serve` is begun that finds the folder in use for a moment.
MOST_BEGUN = 3
TAKEN = "is served already"
# The time with which a line of `serve` begins.
TIME = re.compile(r"^\d{4}-\d\d-\d\d \d\d:\d\d:\d\d ")
# What it says of connections, such as those by which it is asked; and with that what it says as long as nothing is new.
OF_CONNECTIONS = re.compile(r"the operator's socket$")
# How many bytes of the end of its log are looked at.
LAST_BYTES = 4096
# The status of a program that Ctrl-C has ended.
INTERRUPTED = 130


def say(text: str) -> None:
    """Says how it goes on. That nobody reads it any more, as when a terminal is closed, hinders nothing."""
    try:
        print(escaped(text), flush=True)
    except OSError:
        os.dup2(os.open(os.devnull, os.O_WRONLY), sys.stdout.fileno())


def last_of(said: str, besides: re.Pattern[str]) -> str:
    """The last line of what was said, besides those that are like this."""
    return next((it for it in reversed(said.split("\n")) if it and not besides.search(it)), "")


def is_up(farm: str) -> bool:
    """Whether the operator of a farm is answered."""
    try:
        return any(it.startswith("!words ") for it in ask_operator(farm, "!words", ANSWER_SECONDS))
    except OSError:
        return False


It = TypeVar("It", bound="Work")


class Work(threading.Thread):
    """What is done with one farm, beside the others. `outcome` is at last whether it went well, and what became of the
    farm."""

    def __init__(self, folder: str, course: str) -> None:
        super().__init__(daemon=True)
        self.folder, self.course, self.name = folder, course, os.path.basename(folder)
        self.begun = time.monotonic()
        self.outcome: tuple[bool, str] | None = None

    def run(self) -> None:
        try:
            self.outcome = self.done()
        except (OSError, Refused) as error:
            self.outcome = False, f"{error}"

    def begin(self) -> None:
        """Begins it unless it has begun, or the system has no thread for it."""
        try:
            if self.ident is None:
                self.start()
        except RuntimeError as error:
            self.outcome = False, f"nothing is done with it: {error}. See ulimit -u, and give the order again"

    def done(self) -> tuple[bool, str]:
        """Does it, and returns the outcome."""
        raise NotImplementedError

    def waited(self) -> str:
        """What is waited for."""
        raise NotImplementedError

    def left(self) -> str:
        """What goes on when nobody waits any longer."""
        raise NotImplementedError

    def told_at_last(self) -> str:
        """What became of it, if that is known."""
        return self.outcome[1] if self.outcome else "see above"

    def seconds(self) -> int:
        """For how many seconds it has been waited."""
        return round(time.monotonic() - self.begun)

    def whose(self) -> str:
        """Who has the folder."""
        number = serve_of(self.folder)
        return f"its serve (process {number})" if number else f"what has locked {os.path.join(self.folder, 'lock')}"


class Start(Work):
    """A farm that is started, unless it is up."""

    def __init__(self, folder: str, course: str, users: int, rights: list[str]) -> None:
        super().__init__(folder, course)
        self.users, self.rights, self.starts = users, rights, 0
        self.process: subprocess.Popen[bytes] | None = None
        self.log, self.last = os.path.join(folder, LOG), self.begun
        self.size: int | None = None
        self.news = ("", "", 0)

    def done(self) -> tuple[bool, str]:
        while not is_up(self.folder):
            if self.process is not None and self.process.poll() is not None:
                if TAKEN not in self.said() or self.starts == MOST_BEGUN:
                    return False, f"it did not start, see {self.log}{self.told()}"
                self.process = None
            if self.process is None and not is_locked(self.folder):
                self.start_serve()
            if self.is_quiet():
                return (
                    False,
                    f"it isn't up after {self.seconds()} seconds, and {self.whose()} says nothing more{self.told()}. "
                    f"{self.next_steps()}",
                )
            time.sleep(PAUSE)
        return True, self.is_well()

    def is_well(self) -> str:
        """What is said when it is up."""
        return f"up, {count(self.users, 'user')}"

    def start_serve(self) -> None:
        plan = own_plan(self.folder)
        self.starts += 1
        self.size = os.path.getsize(self.log) if os.path.exists(self.log) else 0
        with open(os.open(self.log, os.O_WRONLY | os.O_APPEND | os.O_CREAT | os.O_NOFOLLOW, OWN_FILE), "ab") as log:
            os.fchmod(log.fileno(), OWN_FILE)
            # pylint: disable-next=consider-using-with
            self.process = subprocess.Popen(
                [program("serve"), *self.rights, plan, self.folder],
                stdin=subprocess.DEVNULL,
                stdout=log,
                stderr=log,
                start_new_session=True,
            )

    def is_quiet(self) -> bool:
        """Whether it isn't waited any longer, since nothing new was seen, and nothing is done again."""
        number = serve_of(self.folder)
        said = self.log_from(0) if os.path.exists(self.log) else ""
        news = self.whose(), last_of(said, OF_CONNECTIONS), work_of(number) // TICKS if number else 0
        if news != self.news:
            self.news, self.last = news, time.monotonic()
        return time.monotonic() > self.last + QUIET_SECONDS

    def log_from(self, size: int) -> str:
        """The end of the log, behind so many bytes."""
        with open(self.log, "rb") as log:
            end = log.seek(0, os.SEEK_END)
            log.seek(max(size, end - LAST_BYTES))
            return log.read().decode(errors="surrogateescape")

    def said(self) -> str:
        """What the `serve` that was begun here has said last."""
        return "" if self.size is None else self.log_from(self.size)

    def told(self) -> str:
        """The last line of that without its time, behind a colon."""
        line = last_of(self.said(), OF_CONNECTIONS)
        return f": {TIME.sub('', line)}" if line else ""

    def next_steps(self) -> str:
        course = shlex.quote(self.course)
        return f"class status {course} shows when it is up, and class stop {course} ends it"

    def waited(self) -> str:
        return f"no answer yet after {self.seconds()} seconds from {self.whose()}{self.told()}"

    def left(self) -> str:
        return (
            f"not up yet after {self.seconds()} seconds, and {self.whose()} goes on{self.told()}. {self.next_steps()}"
        )


class Stop(Work):
    """A farm that is stopped: by its operator's socket, or by a signal as long as it has none that takes anything."""

    # what its operator says
    LINES = b"!stop\n"

    def __init__(self, folder: str, course: str) -> None:
        super().__init__(folder, course)
        self.stream: socket.socket | None = None
        self.has_signalled, self.why = False, ""

    def done(self) -> tuple[bool, str]:
        try:
            is_well, told = self.stopped()
        finally:
            if self.stream is not None:
                self.stream.close()
        return self.without_live(told) if is_well else (False, told)

    def without_live(self, told: str) -> tuple[bool, str]:
        """The outcome of a farm that no `serve` has. A `live` by itself has only a moment to end."""
        records, end = os.path.join(self.folder, "records"), time.monotonic() + LAST_SECONDS
        while number := live_at(records):
            if time.monotonic() > end:
                return (
                    False,
                    f"no serve has it, but a live (process {number}) has its records still: kill {number} ends it",
                )
            time.sleep(PAUSE)
        return True, told

    def stopped(self) -> tuple[bool, str]:
        """Asks it as soon as it can be asked, and waits until nobody has the folder."""
        ended = None
        while is_locked(self.folder):
            now = time.monotonic()
            if self.stream is not None and ended is None and self.is_cut():
                ended = now
            if self.stream is None or (ended is not None and now > ended + LAST_SECONDS):
                self.ask()
            if not self.is_asked() and now > self.begun + LAST_SECONDS:
                return False, f"it can't be asked to stop: {self.why}"
            if now > self.begun + STOP_SECONDS:
                return False, f"it did not stop in {STOP_SECONDS} seconds: {self.whose()} is there still"
            time.sleep(PAUSE)
        return True, "off, ended by a signal" if self.has_signalled else "off"

    def is_asked(self) -> bool:
        return self.stream is not None or self.has_signalled

    def ask(self) -> None:
        """Asks it once. The connection stays open, so that the line isn't lost."""
        if self.stream is None:
            try:
                self.stream = operators_stream(self.folder, ANSWER_SECONDS)
                self.stream.sendall(self.LINES)
                self.stream.setblocking(False)
                return
            except OSError as error:
                self.why = f"{error.strerror or error}"
                if self.stream is not None:
                    self.stream.close()
                    self.stream = None
        if not self.has_signalled:
            try:
                self.has_signalled = end_serve(self.folder)
                self.why = f"{self.whose()} is no serve that this account can see"
            except OSError as error:
                self.why = f"{self.whose()} can't be ended: {error.strerror}"

    def is_cut(self) -> bool:
        """Whether the farm has ended the connection."""
        try:
            while self.stream and (piece := self.stream.recv(LAST_BYTES)):
                del piece
            return True
        except BlockingIOError:
            return False
        except OSError:
            return True

    def waited(self) -> str:
        if not self.is_asked():
            return f"it can't be asked to stop yet: {self.why}"
        return f"not off yet after {self.seconds()} seconds: {self.whose()} ends when all that waits there is answered"

    def left(self) -> str:
        if not self.is_asked():
            return "it isn't asked to stop"
        return f"not off yet, but asked to stop: {self.whose()} goes on with that"


def begin_all(works: Sequence[Work]) -> None:
    for work in works:
        work.begin()


def begin_surely(works: Sequence[Work]) -> None:
    """Begins works, and gives each the time to begin its process, which then goes on whatever becomes of this one."""
    begin_all(works)
    end = time.monotonic() + BEGIN_SECONDS
    for work in works:
        if work.ident is not None:
            work.join(max(0, end - time.monotonic()))


def all_done(works: Sequence[It]) -> list[It]:
    """Does works side by side, and says each few seconds what is waited for; those that failed."""
    begin_all(works)
    while waiting := [it for it in works if it.is_alive()]:
        waiting[0].join(SAY_SECONDS)
        if waiting[0].is_alive():
            say(f"{waiting[0].name}: {waiting[0].waited()}")
    return [it for it in works if not (it.outcome or (False, ""))[0]]


def must_all(works: Sequence[Work]) -> None:
    """Does works side by side, and refuses to go on if one fails."""
    if failed := all_done(works):
        raise Refused("\n".join(f"{it.name}: {it.told_at_last()}" for it in failed))


def do_all(works: Sequence[Work]) -> int:
    """Does works side by side, and says what became of each, in their order, and each few seconds what is waited for; the
    status."""
    begin_all(works)
    failed = at = 0
    try:
        while at < len(works):
            if works[at].is_alive():
                works[at].join(SAY_SECONDS)
            if works[at].is_alive():
                waiting = [it for it in works if it.is_alive()]
                more = f" ({len(waiting)} farms are waited for)" if len(waiting) > 1 else ""
                if waiting:
                    say(f"{waiting[0].name}: {waiting[0].waited()}{more}")
                continue
            is_well, told = works[at].outcome or (False, "see above")
            failed += not is_well
            say(f"{works[at].name}: {told}")
            at += 1
    except KeyboardInterrupt:
        for work in works[at:]:
            say(f"{work.name}: {work.outcome[1] if work.outcome else work.left()}")
        return INTERRUPTED
    return 1 if failed else 0
