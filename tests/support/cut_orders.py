"""Cuts an order of `class` short at each of its writes, syncs, and changes of names, and says what the next order makes of it.

Run as a program: MODE, a number, the folder of the class, and the words of the order. MODE is `kill`; `power`, after which all that
wasn't synced is gone; `full`, after which nothing can be written; or `kill-back` and `power-back`, where the order fails when all
is in its place and goes back. With a number the order is cut at that call alone. With 0 it is cut at each call in turn, each time
from the same class, and a line of JSON for each says how the class is after one more order."""

import contextlib
import errno
import json
import os
import shutil
import signal
import sys
from collections.abc import Callable, Iterator

sys.path.insert(0, os.path.dirname(os.path.dirname(os.path.dirname(os.path.abspath(__file__)))))

# pylint: disable-next=wrong-import-position
from nadzsumek.serving import classes, replacement

# The calls at which an order is cut, and those that a full disk refuses.
CALLS = ("open", "write", "fsync", "rename", "replace", "link", "unlink", "mkdir", "rmdir", "chmod", "fchmod")
FILLING = ("open", "write", "link", "mkdir")
# What isn't compared: locks.
OWN = ("class.lock", "lock")
# The status of an order that was done in whole though it was to be cut.
WHOLE = 77
Kept = dict[str, tuple[int, bytes]]


def failing() -> None:
    raise OSError(errno.EIO, os.strerror(errno.EIO))


class Disk:
    """What is done to the disk, and what of it would be gone without power."""

    def __init__(self, mode: str, last: int, course: str) -> None:
        self.mode, _, self.fails = mode.partition("-")
        self.last, self.course, self.count = last, course, 0
        self.real = {name: getattr(os, name) for name in CALLS}
        self.saved = f"{course}-saved"
        # the changes of names that aren't synced, each with its folder and how it is undone; and files that aren't synced
        self.names: list[tuple[str, Callable[[], object]]] = []
        self.files: dict[int, int] = {}

    def take(self) -> None:
        """Takes the place of the calls."""
        for name in CALLS:
            setattr(os, name, self.call(name))
        if self.fails:
            rename = replacement.rename
            replacement.rename = lambda at, old, new: rename(at, old, new) if new != replacement.DONE else failing()

    def call(self, name: str) -> Callable[..., object]:
        def done(*given: object, **more: object) -> object:
            path = self.path_of(given[0], more.get("dir_fd"))
            if not path.startswith(self.course) or (name == "open" and not self.makes(given)):
                return self.real[name](*given, **more)
            self.count += 1
            if self.count >= self.last > 0:
                self.cut(name)
            if self.mode == "power":
                self.note(name, path, given)
            answer = self.real[name](*given, **more)
            if name == "open" and self.mode == "power":
                self.files[os.fstat(answer).st_ino] = os.dup(answer)
            return answer

        return done

    @staticmethod
    def makes(given: tuple[object, ...]) -> bool:
        return len(given) > 1 and isinstance(given[1], int) and bool(given[1] & os.O_CREAT)

    @staticmethod
    def path_of(it: object, folder: object) -> str:
        if isinstance(it, int):
            return os.readlink(f"/proc/self/fd/{it}")
        return (
            os.path.join(os.readlink(f"/proc/self/fd/{folder}"), str(it))
            if folder is not None
            else os.path.abspath(str(it))
        )

    def cut(self, name: str) -> None:
        if self.mode == "full":
            if name in FILLING:
                raise OSError(errno.ENOSPC, os.strerror(errno.ENOSPC))
            return
        for call, real in self.real.items():
            setattr(os, call, real)
        if self.mode == "power":
            for file in self.files.values():
                os.ftruncate(file, 0)
            for _, undo in reversed(self.names):
                undo()
        os.kill(os.getpid(), signal.SIGKILL)

    def note(self, name: str, path: str, given: tuple[object, ...]) -> None:
        """Notes how a call is undone, or which are on the disk now."""
        real, kept = self.real, f"{self.saved}-{self.count}"
        if name == "fsync":
            self.files.pop(os.stat(path).st_ino, None)
            self.names = [it for it in self.names if it[0] != path]
        elif name in ("open", "link"):
            made = str(given[1]) if name == "link" else path
            if not os.path.lexists(made):
                self.names.append((os.path.dirname(made), lambda: real["unlink"](made)))
        elif name == "unlink":
            real["link"](path, kept, follow_symlinks=False)
            self.names.append((os.path.dirname(path), lambda: real["rename"](kept, path)))
        elif name == "mkdir" and not os.path.lexists(path):
            self.names.append((os.path.dirname(path), lambda: shutil.rmtree(path)))
        elif name == "rmdir":
            self.names.append((os.path.dirname(path), lambda: real["mkdir"](path)))
        elif name in ("rename", "replace"):
            self.note_rename(path, str(given[1]), kept)

    def note_rename(self, path: str, target: str, kept: str) -> None:
        there = os.path.isfile(target)
        if there:
            self.real["link"](target, kept)

        def undo() -> None:
            self.real["rename"](target, path)
            if there:
                self.real["rename"](kept, target)

        self.names.append((os.path.dirname(os.path.abspath(target)), undo))


def kept_in(course: str) -> Kept:
    """All folders and files of a class with their modes."""
    found: Kept = {}
    for at, _, names in os.walk(course):
        found[os.path.relpath(at, course)] = os.stat(at).st_mode, b""
        for name in (it for it in names if it not in OWN):
            path = os.path.join(at, name)
            with open(path, "rb") as it:
                found[os.path.relpath(path, course)] = os.stat(path).st_mode, it.read()
    return found


def order(words: list[str]) -> int:
    """The status of an order, which says nothing here."""
    nowhere = os.open(os.devnull, os.O_RDWR)
    for it in (1, 2):
        os.dup2(nowhere, it)
    return classes.main(words)


def forked(does: Callable[[], int]) -> int:
    """How a process of its own ends that does this: its status, or the signal below 0."""
    number = os.fork()
    if number == 0:
        status = 99
        try:
            status = does()
        finally:
            os._exit(status)
    return os.waitstatus_to_exitcode(os.waitpid(number, 0)[1])


def cut(mode: str, last: int, course: str, words: list[str]) -> int:
    """The status of an order that is cut at this call, or WHOLE if it hasn't so many."""
    disk = Disk(mode, last, course)
    disk.take()
    status = order(words)
    return WHOLE if disk.count < last else status


def renewed(course: str, copy: str) -> None:
    shutil.rmtree(course, ignore_errors=True)
    shutil.copytree(copy, course, symlinks=True)


def trials(mode: str, course: str, words: list[str]) -> Iterator[dict[str, object]]:
    """Cuts an order at each of its calls."""
    copy, folder = f"{course}-copy", os.path.dirname(course)
    shutil.copytree(course, copy, symlinks=True)
    before = kept_in(course)
    assert forked(lambda: order(words)) == 0
    after, number, status = kept_in(course), 0, 0
    while status != WHOLE:
        number += 1
        renewed(course, copy)
        status = forked(lambda: cut(mode, number, course, words))
        # an order that is refused changes nothing of its own
        refused = forked(lambda: order(["rename", course, "nobody-of-this-name", "Else"]))
        now = kept_in(course)
        how = "before" if now == before else "after" if now == after else "else"
        differs = sorted(it for it in {*now, *before} if now.get(it) != before.get(it)) if how == "else" else []
        yield {"number": number, "status": status, "refused": refused, "how": how, "differs": differs}
        for name in os.listdir(folder):
            if name.startswith(f"{os.path.basename(course)}-saved"):
                os.unlink(os.path.join(folder, name))
    renewed(course, copy)
    shutil.rmtree(copy)


def main() -> int:
    mode, number, course, *words = sys.argv[1:]
    if int(number):
        return cut(mode, int(number), course, words)
    for it in trials(mode, course, words):
        print(json.dumps(it), flush=True)
    return 0


if __name__ == "__main__":
    sys.exit(main())
