"""A change of a class: its files, and the farms that are stopped and started for it. After a refusal all is as it was."""

from __future__ import annotations

import contextlib
import fcntl
import os
import re
import shlex
import signal
import time
from collections.abc import Iterator
from typing import TYPE_CHECKING, NoReturn

from ..course.book import follow_names
from .folder import CLASS, CLASS_LOCK, OWN_FILE, PLAN, Refused, build, contents, is_locked, locker, put_whole
from .holders import serve_of
from .kept import own_class
from .places import parts_of, text_of
from .records import PIECE, records_of
from .replacement import Replacement, discard, go_back, is_left, mend
from .replays import REPLAYING
from .sheets import count
from .status import ask_operator
from .supervising import Awaited, AwaitedChange, supervisor_of
from .upkeep import INTERRUPTED, Start, Stop, all_done, begin_surely, do_all, must_all, say

if TYPE_CHECKING:
    from .kept import Kept
    from .places import Part
    from .plans import Machine

# Which units of systemd run the farms of a class.
UNIT = re.compile(r"class@.*\.service")
# The line between the plan of a record and its events, and how many bytes its plan has at most.
DIVIDER, MOST_HEAD = b"\n---\n", 1 << 16
ANSWER_SECONDS = 10
# The farms that an order has stopped for a moment, a line each, in the folder of the class.
AWAY = "class.away"
# So many seconds an order waits for a replay, which is over in a moment as a rule, and looks so often.
REPLAY_SECONDS, LOOK_SECONDS = 5, 0.1


class StopForChange(Stop):
    """A farm that is stopped for a moment, which its users are told first."""

    LINES = (
        b"!tell a student comes or goes, so this farm is stopped. It goes on where it was in a moment: connect again then\n"
        b"!stop\n"
    )


def lock(course: str, file: int, how: int) -> None:
    """Locks the open file of a class, or says who has it."""
    try:
        fcntl.lockf(file, how | fcntl.LOCK_NB)
    except OSError:
        raise Refused(
            f"another class is at work at {course}, process {locker(file)}: wait until it has ended"
        ) from None


@contextlib.contextmanager
def away(course: str, farms: list[str]) -> Iterator[None]:
    """Notes farms that are stopped for a moment. If this process is killed before they are started, the next order starts them."""
    path = os.path.join(course, AWAY)
    if farms:
        put_whole(path, "".join(f"{os.path.basename(it)}\n" for it in farms).encode(), OWN_FILE)
    try:
        yield
    finally:
        forget_away(course)


def forget_away(course: str) -> None:
    """Notes that no farm is to be started by the next order."""
    with contextlib.suppress(FileNotFoundError):
        os.unlink(os.path.join(course, AWAY))


def bring_back(course: str) -> None:
    """Starts the farms that an order has stopped which was killed before it started them."""
    names = contents(os.path.join(course, AWAY)).decode(errors="replace").split()
    kept = own_class(course)
    farms = [it for it in kept.farms if os.path.basename(it) in names and not is_locked(it)]
    for it in farms:
        say(f"{os.path.basename(it)}: an order that was killed had stopped it, so it is started")
    do_all([starting(kept, it, course, kept.farms[it]) for it in farms])
    forget_away(course)


@contextlib.contextmanager
def hold(course: str, how: int, mends: bool = True, brings_back: bool = True) -> Iterator[None]:
    """Holds a class, for this process alone (LOCK_EX) or beside others that start and stop its farms (LOCK_SH). An order that was
    cut short is ended before, and farms that it had stopped are started, unless that isn't to be."""
    file = os.open(os.path.join(course, CLASS_LOCK), os.O_RDWR | os.O_CREAT | os.O_NOFOLLOW, OWN_FILE)
    try:
        lock(course, file, how)
        are_away = brings_back and os.path.lexists(os.path.join(course, AWAY))
        if mends and (is_left(course) or are_away):
            lock(course, file, fcntl.LOCK_EX)
            with undisturbed():
                mend(course)
                if are_away:
                    bring_back(course)
            lock(course, file, how)
        yield
    finally:
        os.close(file)


@contextlib.contextmanager
def changing(course: str) -> Iterator[Change]:
    """A change of a class that no other process changes, starts or stops meanwhile."""
    own_class(course)
    with hold(course, fcntl.LOCK_EX):
        # before anybody can get a name that another had
        follow_names(os.path.abspath(course))
        yield Change(course)


@contextlib.contextmanager
def undisturbed() -> Iterator[list[int]]:
    """Passes over Ctrl-C and other signals that would end this, so that nothing is left half done, and notes them."""
    noted: list[int] = []
    ends = (signal.SIGINT, signal.SIGTERM, signal.SIGHUP)
    before = {it: signal.signal(it, lambda number, _: noted.append(number)) for it in ends}
    try:
        yield noted
    finally:
        for it, does in before.items():
            signal.signal(it, does)


def unit_of(number: int) -> str | None:
    """The unit of systemd by which a farm of a class runs; none if it runs otherwise."""
    with contextlib.suppress(OSError):
        with open(f"/proc/{number}/cgroup", encoding="utf-8") as it:
            return next((name for line in it if UNIT.fullmatch(name := os.path.basename(line.strip()))), None)
    return None


def starting(kept: Kept, farm: str, course: str, users: list[str], supervised: type[Start] = Awaited) -> Start:
    """The start of a farm: by the supervisor of its class, if there is one."""
    words = [*kept.rights, *kept.rooms.words()]
    if supervisor_of(course) is None:
        return Start(farm, course, len(users), words)
    return supervised(farm, course, len(users), words)


def renamed(path: str, old: str, name: str) -> Iterator[bytes]:
    """A record with another name of its user in its plan, in pieces."""
    with open(path, "rb") as it:
        head, divider, rest = it.read(MOST_HEAD).partition(DIVIDER)
        yield head.replace(b'name = "%s"' % old.encode(), b'name = "%s"' % name.encode(), 1) if divider else head
        yield divider + rest
        while piece := it.read(PIECE):
            yield piece


def number_of(path: str, name: str) -> int:
    """The number of a record among those of a user."""
    return int(os.path.basename(path).removesuffix(".replay")[len(name) + 1 :] or 1)


def words_of_users(farm: str) -> list[list[str]]:
    """What the operator of a farm is told of each user: the words of each line."""
    try:
        return [it.split(" ") for it in ask_operator(farm, "!users", ANSWER_SECONDS)]
    except OSError as error:
        raise Refused(
            f"{os.path.basename(farm)} is up, but its operator isn't answered ({error.strerror or error}): try again "
            "when class status shows it"
        ) from None


def outs(farm: str) -> set[str]:
    """The users whose records couldn't be taken. A farm that replays a record for longer than a moment is refused: it would begin
    with that anew."""
    end = time.monotonic() + REPLAY_SECONDS
    while True:
        users = words_of_users(farm)
        replayed = [words[1] for words in users if REPLAYING in words[5:]]
        if not replayed:
            break
        if time.monotonic() > end:
            raise Refused(
                f"{os.path.basename(farm)} replays what was done by {', '.join(replayed)}: try again when class status "
                f"shows nobody as {REPLAYING}"
            )
        time.sleep(LOOK_SECONDS)
    return {words[1] for words in users if "out" in words[5:]}


class Change:
    """What is to become of a class. Until it is done nothing is written."""

    def __init__(self, course: str) -> None:
        self.course, self.kept = os.path.abspath(course), own_class(course)
        self.farms = {farm: [*names] for farm, names in self.kept.farms.items()}
        self.removed, self.earlier = dict(self.kept.removed), dict(self.kept.earlier)
        self.parts: dict[str, list[Part]] = {}
        self.touched: list[str] = []
        self.files: dict[str, bytes | None] = {}
        # whose records begin, and whose go on under another name: the farm with the user, and with the new name
        self.begun: list[tuple[str, str]] = []
        self.renamed: list[tuple[str, str, str]] = []

    def of(self, farm: str) -> list[Part]:
        """The parts of a farm's plan, as they are to be."""
        if farm not in self.parts:
            self.parts[farm] = parts_of(farm, self.kept.farms[farm]) if farm in self.kept.farms else []
        return self.parts[farm]

    def machine(self) -> Machine:
        """What each new student gets. An earlier version hasn't kept it."""
        if self.kept.machine is None:
            farm = next(iter(self.kept.farms), None)
            if farm is None:
                raise Refused(f"there is no student in {self.course}: make a new class")
            return self.of(farm)[0].machine
        return self.kept.machine

    def farm_of(self, user: str) -> str:
        """The folder of the farm of a student, who is there."""
        farm = self.kept.farm_of(user)
        if farm is None:
            raise Refused(f"there is no student {user} in {self.course}")
        return farm

    def part(self, user: str) -> Part:
        """The part of a student."""
        return next(it for it in self.of(self.farm_of(user)) if it.name == user)

    def put(self, farm: str, part: Part, at: int | None = None) -> None:
        """Puts a student into a farm: behind all others, or where one was taken out."""
        self.of(farm).append(part)
        names = self.farms.setdefault(farm, [])
        names.insert(len(names) if at is None else at, part.name)
        self.parts[farm].sort(key=lambda it: names.index(it.name))
        self.touch(farm)

    def take(self, farm: str, user: str) -> int:
        """Takes a student out of a farm, which is none of the class any more if nobody else is in it. Where he was."""
        self.parts[farm] = [it for it in self.of(farm) if it.name != user]
        at = self.farms[farm].index(user)
        del self.farms[farm][at]
        self.touch(farm)
        return at

    def touch(self, farm: str) -> None:
        if farm not in self.touched:
            self.touched.append(farm)

    def written(self) -> None:
        """Adds the plans and what is kept to the files."""
        for farm in self.touched:
            text = text_of(self.of(farm)).encode()
            if self.of(farm):
                self.files[os.path.join(farm, "plan.toml")] = text
                if os.path.exists(os.path.join(farm, PLAN)):
                    self.files[os.path.join(farm, PLAN)] = text
            else:
                del self.farms[farm]
        after = self.kept._replace(farms=self.farms, machine=self.machine(), removed=self.removed, earlier=self.earlier)
        self.files[os.path.join(self.course, CLASS)] = after.text().encode()

    def apply(self, it: Replacement) -> None:
        """Puts all into its place, when no farm that is touched is up. Of a student whose machine begins anew an empty record
        comes last, for his next record would begin there."""
        new = [(farm, user) for farm, _, user in self.renamed] + self.begun
        records = {(farm, user): records_of(os.path.join(farm, "records"), user) for farm, user in new}
        for farm, before, user in self.renamed:
            for path in records_of(os.path.join(farm, "records"), before):
                name = user + os.path.basename(path)[len(before) :]
                it.put_record(os.path.join(farm, "records", name), renamed(path, before, user))
                it.put(path, None)
        for farm, user in self.begun:
            if paths := records[farm, user]:
                it.put_record(os.path.join(farm, "records", f"{user}.{number_of(paths[-1], user) + 1}.replay"), [])
        it.commit(
            [
                (
                    os.path.relpath(os.path.join(farm, "records"), self.course),
                    user,
                    [os.path.basename(path) for path in paths],
                )
                for (farm, user), paths in records.items()
            ]
        )

    def start_of(self, farm: str, users: list[str], supervised: type[Start] = AwaitedChange) -> Start:
        """The start of a farm: by the supervisor of the class, if it has one."""
        return starting(self.kept, farm, self.course, users, supervised)

    def up(self) -> list[str]:
        """The farms that are up, if the class may stop and start those that it touches."""
        up = [farm for farm in self.kept.farms if is_locked(farm)]
        for farm in (it for it in up if it in self.touched and supervisor_of(self.course) is None):
            number = serve_of(farm)
            unit = unit_of(number) if number is not None else None
            if unit:
                raise Refused(
                    f"{os.path.basename(farm)} is run by the unit {unit}: systemctl stop {shlex.quote(unit)} first, "
                    "and start it after that"
                )
        return up

    def carry_out(self) -> int:
        """Does it: the farms that it touches are stopped, the files written, and if the class is up they are started. The
        status."""
        self.written()
        up = self.up()
        if up:
            build("class", "live")
        stopping = [farm for farm in self.touched if farm in up]
        before = {farm: outs(farm) for farm in stopping}
        begun, why = time.monotonic(), ""
        with undisturbed() as noted, away(self.course, stopping):
            try:
                draft = Replacement(self.course)
                for path, text in self.files.items():
                    draft.put(path, text)
                must_all([StopForChange(farm, self.course) for farm in stopping])
                self.apply(draft)
                starts = [self.start_of(farm, self.farms[farm]) for farm in self.touched if up and farm in self.farms]
            except (OSError, Refused) as error:
                why, starts = self.go_back(stopping, f"{error}")
            begin_surely(starts)
        if why:
            refuse(why, starts)
        return self.started(starts, stopping, before, begun, bool(noted))

    def started(
        self, starts: list[Start], stopping: list[str], before: dict[str, set[str]], begun: float, is_ended: bool
    ) -> int:
        """Starts farms, and says how long each was away. If one can't be started, or a record can't be taken any more, all is
        made as it was. Nobody waits for the farms if this is to end."""
        try:
            if is_ended:
                raise KeyboardInterrupt
            wrong = [f"{it.name}: {it.told_at_last()}" for it in all_done(starts)]
            wrong += [
                f"{it.name}: the record of {', '.join(sorted(more))} can't be taken, see {it.log}"
                for it in starts
                if not wrong and (more := outs(it.folder) - before.get(it.folder, set()))
            ]
        except KeyboardInterrupt:
            discard(self.course)
            for it in starts:
                say(f"{it.name}: {it.outcome[1] if it.outcome else it.left()}")
            return INTERRUPTED
        if wrong:
            with undisturbed(), away(self.course, stopping):
                all_done([Stop(it.folder, self.course) for it in starts])
                why, starts = self.go_back(stopping, "\n".join(wrong))
                begin_surely(starts)
            refuse(why, starts)
        discard(self.course)
        for it in starts:
            away = f", and was away for {time.monotonic() - begun:.1f} s" if it.folder in stopping else ""
            say(f"{it.name}: up, {count(it.users, 'user')}{away}")
        return 0

    def go_back(self, stopping: list[str], why: str) -> tuple[str, list[Start]]:
        """Makes all as it was; what is said of it, and the starts of the farms that were up."""
        try:
            go_back(self.course)
            told = "all is as it was"
        except (OSError, Refused) as error:
            told = f"{error}\nthe next order makes all as it was"
        return f"{why}\n{told}", [self.start_of(farm, self.kept.farms[farm], Awaited) for farm in stopping]


def refuse(why: str, starts: list[Start]) -> NoReturn:
    """Refuses an order when the farms that were up are up again, or nobody waits for them any longer."""
    try:
        left = all_done(starts)
    except KeyboardInterrupt:
        left = [it for it in starts if it.is_alive()]
    raise Refused("\n".join([why, *(f"{it.name}: {it.outcome[1] if it.outcome else it.left()}" for it in left)]))
