"""The end of a class: all that its students did in one archive."""

from __future__ import annotations

import argparse
import collections
import contextlib
import lzma
import os
import re
import signal
import stat
import sys
import tarfile
import time
from collections.abc import Iterator
from concurrent.futures import Future, ThreadPoolExecutor
from typing import IO, TYPE_CHECKING, NamedTuple, cast

from ..course.book import BOOK, copy_of
from ..course.given import FOLDER as EXERCISES
from .changing import away, changing, outs, undisturbed
from .coming import REMOVED
from .escapes import escaped
from .folder import CLASS, LOG, OWN_FILE, PLAN, Refused, build, new_file, sync
from .records import PIECE, records_of
from .replacement import Replacement, discard
from .rooms import shown
from .sheets import count
from .sites import LOG as PAGES_LOG, StopSite, keeper_of
from .supervising import Awaited, tell
from .upkeep import SAY_SECONDS, Start, Stop, Work, all_done, begin_surely, must_all, say

if TYPE_CHECKING:
    from .changing import Change

ENDING = ".tar.xz"
# What `class`, `serve` and `live` make for themselves, and that is nobody's work.
OWN = re.compile(r"^(((class|web)\.)?lock|pace|teacher\.page\.txt|pages\.sqlite-journal)$|\.sock$")
# How much an archive is squeezed, in pieces of so many bytes, of which so many are on their way. Records of thirty students are
# squeezed in minutes.
PRESET, SQUEEZED, MOST_PIECES = 0, 1 << 22, min(os.cpu_count() or 1, 8)


def entries_of(folder: str) -> list[str]:
    return sorted(os.listdir(folder)) if os.path.isdir(folder) else []


def below(folder: str) -> Iterator[str]:
    """A folder with all that is in it, unless it is empty."""
    entries = entries_of(folder)
    if entries:
        yield folder
    for it in entries:
        path = os.path.join(folder, it)
        yield from below(path) if os.path.isdir(path) and not os.path.islink(path) else [path]


def users_of(change: Change) -> list[tuple[str, str]]:
    """Each student with the folder of the farm where the records are: those who are there, and those who were removed."""
    users = [(name, farm) for farm, names in change.kept.farms.items() for name in names]
    return users + [*change.kept.removed.items()]


def paths_of(change: Change) -> Iterator[str]:
    """What the archive has, folders before what is in them."""
    users, course = users_of(change), change.course
    yield course
    yield from (it for name in (CLASS, BOOK, PAGES_LOG) if os.path.exists(it := os.path.join(course, name)))
    for folder in ("sheets", REMOVED, EXERCISES):
        yield from below(os.path.join(course, folder))
    for farm in dict.fromkeys(farm for _, farm in users):
        yield farm
        yield from (it for name in ("plan.toml", PLAN, LOG) if os.path.exists(it := os.path.join(farm, name)))
        records = os.path.join(farm, "records")
        if os.path.isdir(records):
            yield records
            yield from (path for name, place in users if place == farm for path in records_of(records, name))


def plain(it: tarfile.TarInfo) -> tarfile.TarInfo:
    """An entry of the archive without the account of the farm: whoever opens it has it."""
    it.uid = it.gid = 0
    it.uname = it.gname = ""
    return it


class Item(NamedTuple):
    """What the archive has: its path, its name there, another name of the same file that stays while the farm goes on, and how
    many bytes are taken of it. Of a file that is changed in place a copy is held, and when that was made."""

    path: str
    name: str
    held: str
    size: int
    made: tuple[int, int] | None = None

    def is_as_taken(self, now: os.stat_result) -> bool:
        """Whether the file is now as it was taken."""
        if self.made:
            return self.made == (now.st_mtime_ns, now.st_size)
        return now.st_size == self.size and os.path.samestat(now, os.lstat(self.held))


def checked(change: Change) -> list[str]:
    """The paths of what the archive is to have. What is neither a file nor a folder is refused."""
    paths = [*paths_of(change)]
    for path in paths[1:]:
        kind = os.lstat(path).st_mode
        if not stat.S_ISREG(kind) and not stat.S_ISDIR(kind):
            raise Refused(f"{path} is no file of its own: move it away, or put a copy of the file in its place")
    return paths


def taken(change: Change) -> list[Item]:
    """Takes what is there, when no farm is up: each file gets a second name, and what comes behind its bytes isn't taken."""
    draft, top = Replacement(change.course).draft, os.path.dirname(change.course)
    items = []
    for number, path in enumerate(checked(change)):
        held, made = path if os.path.isdir(path) else os.path.join(draft, f"{number}"), None
        if os.path.basename(path) == BOOK:
            # students may hand in at their pages meanwhile
            made = copy_of(change.course, held)
        elif held != path:
            os.link(path, held, follow_symlinks=False)
        items.append(Item(path, os.path.relpath(path, top), held, os.lstat(held).st_size, made))
    return items


class Progress:
    """What of so many bytes is done, which is said now and then to the person who waits."""

    def __init__(self, size: int, what: str) -> None:
        self.size, self.what, self.done, self.last = size, what, 0, time.monotonic()

    def count(self, size: int) -> None:
        self.done += size
        if time.monotonic() > self.last + SAY_SECONDS:
            self.last = time.monotonic()
            say(f"{shown(self.done)} of {shown(self.size)} {self.what}")


class Squeezed:
    """A file into which an archive is squeezed in pieces, side by side."""

    def __init__(self, file: IO[bytes], pool: ThreadPoolExecutor, progress: Progress) -> None:
        self.file, self.pool, self.progress, self.held = file, pool, progress, bytearray()
        self.pieces: collections.deque[Future[bytes]] = collections.deque()

    def write(self, piece: bytes) -> int:
        self.held += piece
        self.progress.count(len(piece))
        if len(self.held) >= SQUEEZED:
            self.hand_on(MOST_PIECES)
        return len(piece)

    def hand_on(self, most: int) -> None:
        """Squeezes what is held, and writes what was squeezed, until no more pieces than these are on their way."""
        self.pieces.append(self.pool.submit(lzma.compress, bytes(self.held), preset=PRESET))
        self.held.clear()
        while len(self.pieces) > most:
            self.file.write(self.pieces.popleft().result())


def write(items: list[Item], file: IO[bytes]) -> None:
    """Writes the archive, and reads it again."""
    size = sum(it.size for it in items)
    with ThreadPoolExecutor(MOST_PIECES) as pool:
        squeezed = Squeezed(file, pool, Progress(size, "are in the archive"))
        with tarfile.open(fileobj=cast(IO[bytes], squeezed), mode="w|", bufsize=PIECE) as archive:
            for it in items:
                info = plain(archive.gettarinfo(it.held, it.name))
                with open(os.devnull if info.isdir() else it.held, "rb") as here:
                    info.size = 0 if info.isdir() else it.size
                    archive.addfile(info, here)
        squeezed.hand_on(0)
    os.fsync(file.fileno())
    file.seek(0)
    progress = Progress(size, "are read again and compared")
    with lzma.open(file) as unpacked, tarfile.open(fileobj=unpacked, mode="r|") as archive:
        for entry, it in zip(archive, items, strict=True):
            if entry.name != it.name or (entry.isfile() and not is_same(archive.extractfile(entry), it, progress)):
                raise Refused(f"{it.path} isn't in the archive as it is, so nothing is removed")


def put_archive(items: list[Item], path: str) -> None:
    """Writes the archive at a path, whole or not at all."""
    try:
        with open(new_file(f"{path}.new", OWN_FILE), "w+b") as file:
            write(items, file)
        os.rename(f"{path}.new", path)
        sync(os.path.dirname(path))
    finally:
        with contextlib.suppress(FileNotFoundError):
            os.unlink(f"{path}.new")


def is_same(there: IO[bytes] | None, it: Item, progress: Progress) -> bool:
    """Whether what the archive has is the file as it was taken."""
    left = it.size
    with open(it.held, "rb") as here:
        while there and left:
            piece = here.read(min(PIECE, left))
            if not piece or piece != there.read(len(piece)):
                return False
            left -= len(piece)
            progress.count(len(piece))
    return not left


def without(course: str, items: list[Item]) -> list[str]:
    """Removes what the archive has, and the locks and sockets, which have nothing in them; the files that stay."""
    folders = [it.path for it in items if os.path.isdir(it.path)]
    for it in items:
        now = None if it.path in folders or not os.path.lexists(it.path) else os.lstat(it.path)
        if now and it.is_as_taken(now):
            os.unlink(it.path)
    discard(course)
    for path in [os.path.join(at, it) for at in folders for it in os.listdir(at) if OWN.search(it)]:
        os.unlink(path)
    for folder in reversed(folders):
        with contextlib.suppress(OSError):
            os.rmdir(folder)
    return sorted(os.path.join(at, it) for at, _, names in os.walk(course) for it in names)


def check_place(change: Change, path: str) -> None:
    """Refuses a place where no archive can be, before a farm is stopped."""
    folder = os.path.dirname(path)
    if not path.endswith(ENDING):
        raise Refused(f"the archive {path} is to end with {ENDING}")
    if os.path.lexists(path):
        raise Refused(f"{path} is there already: choose another name, or move it away")
    if not os.path.isdir(folder) or not os.access(folder, os.W_OK):
        raise Refused(f"there can be no file in {folder}: choose another folder for the archive")
    if os.path.commonpath([os.path.realpath(path), os.path.realpath(change.course)]) == os.path.realpath(change.course):
        raise Refused(f"the archive {path} would be in the folder of the class: choose another folder")


@contextlib.contextmanager
def stopped(change: Change, is_last: bool) -> Iterator[tuple[list[Item], list[Start]]]:
    """What the archive is to have, and the farms that start again when that is taken; if the class ends none does. If it fails, or
    is broken off, all that were up are started."""
    checked(change)
    change.touched = [*change.kept.farms]
    up = change.up()
    if up:
        build("class", "live")
    for farm in up:
        outs(farm)
    ended: list[Work] = [Stop(farm, change.course) for farm in up]
    # pages go on while the farms begin again
    ended += [StopSite(change.course)] if is_last and keeper_of(change.course) is not None else []
    starts = [change.start_of(farm, change.kept.farms[farm], Awaited) for farm in up]
    try:
        with undisturbed(), away(change.course, [] if is_last else up):
            must_all(ended)
            items = taken(change)
            if not is_last:
                begin_surely(starts)
        yield items, [] if is_last else starts
    except BaseException as error:
        with undisturbed():
            begin_surely(starts)
        # one more Ctrl-C ends the waiting alone
        told = [f"{it.name}: {it.told_at_last()}" for it in all_done(starts)]
        if not isinstance(error, OSError | Refused):
            print("".join(f"{escaped(it)}\n" for it in told), end="", file=sys.stderr)
            raise
        raise Refused("\n".join([f"{error}", *(told or ["all is as it was"])])) from None
    finally:
        discard(change.course)


def finish(words: list[str]) -> int:
    """Puts all that the students of a class did into one archive."""
    parser = argparse.ArgumentParser(
        prog="class finish",
        usage="class finish [--remove] DIR [ARCHIVE]",
        description="Puts all that the students of a class did into one archive.",
    )
    parser.add_argument(
        "--remove",
        action="store_true",
        help="stops the class, and removes from its folder what the archive has, when that is whole",
    )
    parser.add_argument("DIR", help="the folder of the class")
    parser.add_argument("ARCHIVE", nargs="?", help=f"the archive, DIR{ENDING} unless given")
    it = parser.parse_args(words)
    left: list[str] = []
    with changing(it.DIR) as change:
        path = os.path.abspath(it.ARCHIVE or f"{change.course}{ENDING}")
        check_place(change, path)
        users = users_of(change)
        with stopped(change, it.remove) as (items, starts):
            put_archive(items, path)
            records = sum(os.path.basename(os.path.dirname(item.path)) == "records" for item in items)
            if it.remove:
                with undisturbed():
                    tell(change.course, signal.SIGTERM)
                    left = without(change.course, items)
        failed = all_done(starts)
    print("".join(f"note: {escaped(path)} stays: the archive hasn't it\n" for path in left), end="")
    gone = f", {len(change.kept.removed)} of them removed" if change.kept.removed else ""
    print(
        escaped(
            f"{count(len(users), 'student')}{gone}, with {count(records, 'record')}: {it.ARCHIVE or path} has "
            f"{count(os.path.getsize(path), 'byte')}"
        )
    )
    for work in failed:
        say(f"{work.name}: {work.told_at_last()}")
    return 1 if failed else 0
