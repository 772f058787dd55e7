"""Whether a file is what the farm itself has recorded of a student."""

from __future__ import annotations

import os
import re
import shlex
import tempfile
from collections.abc import Iterator
from typing import TYPE_CHECKING, NamedTuple

from .escapes import escaped
from .folder import Refused
from .kept import student_in
from .records import PIECE, records_of
from .sheets import count

if TYPE_CHECKING:
    from .kept import Kept

# The line between the plan of a record and its events, also if its lines got carriage returns.
DIVIDER = re.compile(rb"\n---\r?\n")
# How many bytes at the beginning of a record are looked through for it.
MOST_HEAD = 1 << 16
# How many bytes of a line are shown.
MOST_SHOWN = 200
# Steps of a node one after another are one line of a record.
TIMES = re.compile(rb"(\d+) times ")
# The statuses of `class verify`: the file is the record or a beginning of it, it isn't, or it is the record of an earlier
# restart.
SAME, OTHER, EARLIER = 0, 1, 3


class Compared(NamedTuple):
    """How far a file is a record: how many bytes are the same, and how many each of them had."""

    path: str
    same: int
    size: int
    recorded: int

    def is_beginning(self) -> bool:
        return self.same == self.size

    def is_whole(self) -> bool:
        return self.same == self.size == self.recorded


def sizes_of(file: int, other: int) -> tuple[int, int]:
    """The sizes of two open files, that of the first before the other's, which may grow."""
    return os.fstat(file).st_size, os.fstat(other).st_size


def same_bytes(file: int, other: int, size: int) -> int:
    """How many of the first `size` bytes of two open files are the same."""
    at = 0
    while at < size:
        here, there = (os.pread(it, min(PIECE, size - at), at) for it in (file, other))
        if here != there or not here:
            return at + len(os.path.commonprefix([here, there]))
        at += len(here)
    return at


def compared(file: int, path: str) -> Compared:
    """How far an open file is the record at a path."""
    other = os.open(path, os.O_RDONLY)
    try:
        size, recorded = sizes_of(file, other)
        return Compared(path, same_bytes(file, other, min(size, recorded)), size, recorded)
    finally:
        os.close(other)


def whole_lines(file: int, size: int) -> Iterator[bytes]:
    """The whole lines among the first bytes of an open file, in pieces."""
    at, rest = 0, b""
    while at < size and (piece := os.pread(file, min(PIECE, size - at), at)):
        at += len(piece)
        *lines, rest = (rest + piece).split(b"\n")
        yield from lines


def events_in(file: int, size: int) -> int:
    """How many events the whole lines have among the first bytes of a record."""
    head = os.pread(file, min(MOST_HEAD, size), 0)
    divider = DIVIDER.search(head)
    if divider is None:
        return 0
    before = head.count(b"\n", 0, divider.end())
    return sum(
        int(times[1]) if (times := TIMES.match(line)) else 1
        for at, line in enumerate(whole_lines(file, size))
        if at >= before
    )


def line_at(file: int, at: int) -> tuple[int, str | None]:
    """The line of an open file that has this byte: its number, and its text as it is shown; none after the end."""
    number, begun, place = 1, 0, 0
    while place < at and (piece := os.pread(file, min(PIECE, at - place), place)):
        number += piece.count(b"\n")
        begun = place + piece.rfind(b"\n") + 1 if b"\n" in piece else begun
        place += len(piece)
    line = os.pread(file, MOST_SHOWN + 1, begun)
    if not line:
        return number, None
    line, end, _ = line.partition(b"\n")
    text = escaped(line[:MOST_SHOWN].decode(errors="surrogateescape"))
    return number, text if end or len(line) <= MOST_SHOWN else f"{text}.."


def difference(name: str, given: str, file: int, it: Compared) -> list[str]:
    """What is said of a file that isn't the record: the first line that differs, as the file and the record have it."""
    number, here = line_at(file, it.same)
    other = os.open(it.path, os.O_RDONLY)
    try:
        there = line_at(other, it.same)[1]
        events = count(events_in(file, it.same), "event")
    finally:
        os.close(other)
    rows = [f"{name}: {given} differs from {it.path} in line {number}, after {events}"]
    rows += [
        f"  {given}: {here if here is not None else '(it ends here)'}",
        f"  {it.path}: {there if there is not None else '(it ends here)'}",
    ]
    if os.pread(file, 1, it.same) == b"\r":
        rows.append(
            f"  The lines of {given} end with carriage returns, which it has got on its way. Take them out (tr -d '\\r')"
        )
    return rows


def with_removed(kept: Kept) -> dict[str, list[str]]:
    """The farms of a class, with those too who were removed."""
    farms = {farm: [*names] for farm, names in kept.farms.items()}
    for name, farm in kept.removed.items():
        farms.setdefault(farm, []).append(name)
    return farms


def under_this_name(file: int, user: str, earlier: list[str]) -> int:
    """An open file as it is under the name that its student has now, if it is a record from before he was renamed."""
    head, divider, _ = os.pread(file, MOST_HEAD, 0).partition(b"\n---\n")
    here = next((it for it in earlier if b'name = "%s"' % it.encode() in head), None)
    if not divider or here is None:
        return file
    with tempfile.TemporaryFile() as renamed:
        renamed.write(head.replace(b'name = "%s"' % here.encode(), b'name = "%s"' % user.encode(), 1))
        os.lseek(file, len(head), os.SEEK_SET)
        while piece := os.read(file, PIECE):
            renamed.write(piece)
        renamed.flush()
        return os.dup(renamed.fileno())


def verify(course: str, kept: Kept, name: str, given: str) -> tuple[int, list[str]]:
    """Compares a file with the records of a student: the status, and what is said."""
    folder, user = student_in(with_removed(kept), name, course)
    records = os.path.join(course, os.path.basename(folder), "records")
    try:
        paths = records_of(records, user)
    except PermissionError:
        raise Refused(f"this account may not read {records}: ask the account that runs the farm") from None
    if not paths:
        raise Refused(f"the farm has no record of {user} yet: class start {shlex.quote(course)} begins one")
    if not os.path.isfile(given):
        raise Refused(f"{given} is no file: give the record that the student has")
    file = os.open(given, os.O_RDONLY)
    compared_file = file
    try:
        compared_file = under_this_name(file, user, kept.earlier.get(user, []))
        return verified(user, given, compared_file, paths)
    finally:
        for it in {file, compared_file}:
            os.close(it)


def verified(user: str, given: str, file: int, paths: list[str]) -> tuple[int, list[str]]:
    """The same of an open file and of the records of a user, in their order."""
    size = os.fstat(file).st_size
    if DIVIDER.search(os.pread(file, MOST_HEAD, 0)) is None:
        raise Refused(f"{given} is no record: it has no plan with a line --- behind it")
    *earlier, newest = [compared(file, path) for path in paths]
    if newest.is_beginning():
        events = events_in(file, size)
        how = (
            f"the same as {newest.path}, {count(events, 'event')}"
            if newest.is_whole()
            else f"a beginning of {newest.path}, up to its event {events}"
        )
        return SAME, [f"{user}: {given} is {how}"]
    for it in reversed(earlier):
        if it.is_beginning():
            how = "the same as" if it.is_whole() else "a beginning of"
            return EARLIER, [
                f"{user}: {given} is {how} {it.path}, up to its event {events_in(file, size)}. A restart has ended "
                f"that record, and since then {newest.path} goes on"
            ]
    return OTHER, difference(
        user, given, file, max(earlier + [newest], key=lambda it: (it.same, it.path == newest.path))
    )
