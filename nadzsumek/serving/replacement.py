"""Files of a class that are replaced together: all of them or none, wherever an order is cut short and whatever room the disk has.

What is to be there is written into a folder first, beside second names of what is there. When all of it is on the disk the
folder gets another name, and from then on files are renamed and removed and nothing is written. So no room is needed to go on
or to go back, and the folder's name says which of them the next order does."""

from __future__ import annotations

import contextlib
import json
import os
import shutil
import time
from collections.abc import Iterable, Iterator

from .folder import (
    CLASS_BACK,
    CLASS_READY,
    COPY_MODE,
    FOLDER_MODE,
    LOCK_SECONDS,
    OWN_FILE,
    OWN_MODE,
    Refused,
    is_locked,
    made,
    new_file,
    sync,
)
from .records import records_of

# The folder while it counts for nothing, and when all is in its place. The latter is kept as long as that may be taken back.
DRAFT, DONE = "class.draft", "class.done"
LIST = "list.json"
# How the name of a sheet ends.
SHEET = ".txt"
# Who begins a record: the folder of the records below that of the class, and the user, with the records that were there before.
Begun = list[tuple[str, str, list[str]]]
# What is replaced: its path below the folder of the class, whether something was there, and whether something comes there.
Entry = tuple[str, bool, bool]


def write(path: str, pieces: Iterable[bytes], mode: int) -> None:
    """Writes a new file with this mode, and sees that what it has is on the disk."""
    file = new_file(path, mode)
    try:
        for piece in pieces:
            left = memoryview(piece)
            while left:
                left = left[os.write(file, left) :]
        os.fsync(file)
    finally:
        os.close(file)


class Replacement:
    """What is to become of the files of a class. Nothing of it is seen until it is committed."""

    def __init__(self, course: str) -> None:
        self.course, self.draft = course, os.path.join(course, DRAFT)
        self.entries: dict[str, tuple[int, bool, bool]] = {}
        discard(course)
        made(self.draft, OWN_MODE)

    def place(self, path: str, comes: bool = True) -> str:
        """Where the new file for a path is to be written. A folder that isn't there comes with all that is in it."""
        top = path
        while not os.path.isdir(os.path.dirname(top)):
            top = os.path.dirname(top)
        name = os.path.relpath(top, self.course)
        number, _, _ = self.entries.setdefault(name, (len(self.entries), os.path.lexists(top), comes))
        stem = os.path.join(self.draft, f"{number}")
        if os.path.lexists(top) and not os.path.lexists(f"{stem}.old"):
            os.link(top, f"{stem}.old", follow_symlinks=False)
        new = f"{stem}.new{path[len(top):]}"
        made(os.path.dirname(new), FOLDER_MODE)
        return new

    def put(self, path: str, text: bytes | None) -> None:
        """A file that is to be at a path, with the mode that an earlier one has; none if it is to go. A new sheet is for this
        account alone, and what else is new may be read by all."""
        new, mode = self.place(path, text is not None), OWN_FILE if path.endswith(SHEET) else COPY_MODE
        if text is not None:
            write(new, [text], os.lstat(path).st_mode & FOLDER_MODE if os.path.lexists(path) else mode)

    def put_record(self, path: str, pieces: Iterable[bytes]) -> None:
        """A record that is to be at a path where none may be."""
        if os.path.lexists(path):
            raise Refused(f"{path} is there already: move it away")
        write(self.place(path), pieces, OWN_FILE)

    def commit(self, begun: Begun | None = None) -> None:
        """Puts all into its place. If that fails, it is to be taken back."""
        entries = [(name, old, new) for name, (_, old, new) in self.entries.items()]
        text = json.dumps({"entries": entries, "begun": begun or []})
        write(os.path.join(self.draft, LIST), [text.encode()], OWN_FILE)
        for at, _, _ in os.walk(self.draft):
            sync(at)
        rename(self.course, DRAFT, CLASS_READY)
        go_on(self.course)


def rename(course: str, before: str, after: str) -> None:
    os.rename(os.path.join(course, before), os.path.join(course, after))
    sync(course)


def listed(course: str, state: str) -> tuple[list[Entry], Begun]:
    """What is replaced, and whose records begin."""
    with open(os.path.join(course, state, LIST), "rb") as it:
        said = json.load(it)
    return said["entries"], said["begun"]


def places(course: str, state: str, entries: list[Entry]) -> Iterator[tuple[str, str, bool, bool]]:
    """Each path that is replaced, with the beginning of the names that its files have in the folder."""
    for number, (name, old, new) in enumerate(entries):
        yield os.path.join(course, name), os.path.join(course, state, f"{number}"), old, new


def sync_all(course: str, entries: list[Entry]) -> None:
    """Sees that the names of all that was replaced are on the disk."""
    for it in sorted({os.path.dirname(os.path.join(course, name)) for name, _, _ in entries}):
        sync(it)


def check_off(course: str, entries: list[Entry]) -> None:
    """Refuses to go on while somebody serves a farm whose files are replaced. A `serve` that begins now refuses it soon."""
    end = time.monotonic() + 2 * LOCK_SECONDS
    for top in sorted({name.partition("/")[0] for name, _, _ in entries if "/" in name}):
        while is_locked(os.path.join(course, top)):
            if time.monotonic() > end:
                raise Refused(f"{top} is up, and an order is half done: class stop first, and then the order again")
            time.sleep(0.05)


def go_on(course: str) -> None:
    """Puts all that is ready into its place."""
    entries, _ = listed(course, CLASS_READY)
    check_off(course, entries)
    for path, stem, _, comes in places(course, CLASS_READY, entries):
        if os.path.lexists(f"{stem}.new"):
            os.replace(f"{stem}.new", path)
        elif not comes:
            with contextlib.suppress(FileNotFoundError):
                os.unlink(path)
    sync_all(course, entries)
    rename(course, CLASS_READY, DONE)


def go_back(course: str) -> None:
    """Makes all as it was, however far the last order came."""
    for state in (CLASS_READY, DONE):
        if os.path.exists(os.path.join(course, state)):
            rename(course, state, CLASS_BACK)
    if not os.path.exists(os.path.join(course, CLASS_BACK)):
        discard(course)
        return
    entries, begun = listed(course, CLASS_BACK)
    for path, stem, was, _ in places(course, CLASS_BACK, entries):
        if os.path.lexists(f"{stem}.old"):
            os.replace(f"{stem}.old", path)
        elif not was and os.path.lexists(path) and not os.path.lexists(f"{stem}.new"):
            os.rename(path, f"{stem}.new")
    for records, user, before in begun:
        for path in records_of(os.path.join(course, records), user):
            if os.path.basename(path) not in before:
                os.unlink(path)
    sync_all(course, entries)
    rename(course, CLASS_BACK, DRAFT)
    discard(course)


def discard(course: str) -> None:
    """Removes what counts for nothing, and what nobody takes back any more."""
    for state in (DRAFT, DONE):
        with contextlib.suppress(FileNotFoundError):
            shutil.rmtree(os.path.join(course, state))


def is_left(course: str) -> bool:
    """Whether an order was cut short, or is at work."""
    return any(os.path.exists(os.path.join(course, it)) for it in (DRAFT, CLASS_READY, CLASS_BACK, DONE))


def mend(course: str) -> None:
    """Ends an order that was cut short: if all was ready it is done, else all is as it was."""
    if os.path.exists(os.path.join(course, CLASS_READY)):
        go_on(course)
    if os.path.exists(os.path.join(course, CLASS_BACK)):
        go_back(course)
    discard(course)


def replace(course: str, files: dict[str, bytes]) -> None:
    """Writes files of a class anew, all of them or none."""
    try:
        it = Replacement(course)
        for path, text in files.items():
            it.put(path, text)
        it.commit()
    except (OSError, Refused):
        go_back(course)
        raise
    discard(course)
