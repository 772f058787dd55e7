"""The rooms of domains: how much memory a domain may take for its journal and lists, and how much of the disk for its records,
and what all domains of a farm may take together."""

from __future__ import annotations

import argparse
import contextlib
import os
import re
from collections.abc import Iterator

# The bounds of a domain: what each is unless another is given, as `live` has it, and what it bounds.
BOUNDS = {
    "room": ("64M", "the memory for the journal and the lists of a domain, such as 16M or 2G"),
    "record-room": ("256M", "the bytes on the disk for the records of a domain"),
    "line-steps": ("16G", "the Steps that the nodes of a domain may do after a line of its users"),
    "restart-steps": ("64G", "the Steps that the nodes of a domain may do until it restarts"),
}
ROOM, RECORD_ROOM = BOUNDS["room"][0], BOUNDS["record-room"][0]
UNITS = {"": 1, "K": 1 << 10, "M": 1 << 20, "G": 1 << 30}
LEAST, MOST = 1 << 20, 64 << 30
# Where the system says what a service may have of memory, below the path of its group.
GROUPS = "/sys/fs/cgroup"


def bytes_of(word: str) -> int | None:
    """How many a size is, such as 64M; none if it is no size, or one that no bound may have."""
    size = re.fullmatch(r"([0-9]{1,12})([KMG]?)", word, re.ASCII)
    count = int(size[1]) * UNITS[size[2]] if size else 0
    return count if LEAST <= count <= MOST else None


def size_of(word: str) -> str:
    """A word of the command line that is a bound, as it is handed to `live`."""
    if bytes_of(word) is None:
        raise argparse.ArgumentTypeError("a number is wanted, from 1M to 64G, such as 64M")
    return word


def add_bounds(parser: argparse.ArgumentParser, has_defaults: bool = False) -> None:
    """The words for the bounds of a domain. One that isn't given is none, unless there are defaults."""
    for name, (default, what) in BOUNDS.items():
        given = default if has_defaults else None
        text = f"{what}, default {default}"
        parser.add_argument(f"--{name}", type=size_of, default=given, metavar="SIZE", help=text)


def words_of_bounds(bounds: dict[str, str | None]) -> list[str]:
    """The words of the command line that say these bounds, without those that are none."""
    return [word for name in BOUNDS if (value := bounds.get(name)) for word in (f"--{name}", value)]


def bounds_in(words: argparse.Namespace) -> dict[str, str | None]:
    """What the words of the command line say of each bound."""
    return {name: getattr(words, name.replace("-", "_")) for name in BOUNDS}


def shown(count: int) -> str:
    """Bytes as a person reads them."""
    return f"{count / UNITS['G']:.1f} GiB" if count >= UNITS["G"] else f"{count / UNITS['M']:.1f} MiB"


def group_bounds() -> Iterator[int]:
    """What the groups of this process may have of memory: its own, and those above it."""
    with contextlib.suppress(OSError):
        with open("/proc/self/cgroup", encoding="utf-8") as it:
            path = next((line[len("0::") :].strip() for line in it if line.startswith("0::/")), "/")
        names = path.strip("/").split("/")
        for count in range(len(names), -1, -1):
            with contextlib.suppress(OSError):
                with open(os.path.join(GROUPS, *names[:count], "memory.max"), encoding="ascii") as it:
                    if (most := it.read().strip()).isdigit():
                        yield int(most)


def memory_there() -> tuple[int, str]:
    """How much memory there is, and whose bound that is: the machine's, or that of the service in which this process runs."""
    machine = os.sysconf("SC_PHYS_PAGES") * os.sysconf("SC_PAGE_SIZE")
    service = min(group_bounds(), default=machine)
    return (service, "this service may have") if service < machine else (machine, "this machine has")


class Needed:
    """What the rooms of some domains may take together, beside what is there."""

    def __init__(self, domains: int, room: str, record_room: str, folder: str) -> None:
        self.domains, self.folder = domains, folder
        self.memory, self.disk = (domains * (bytes_of(it) or 0) for it in (room, record_room))
        self.there, self.whose = memory_there()
        disk = os.statvfs(folder)
        self.free = disk.f_bavail * disk.f_frsize

    def told(self) -> str:
        rooms = "the room of 1 domain" if self.domains == 1 else f"the rooms of {self.domains} domains"
        return (
            f"{rooms} may take {shown(self.memory)} of memory ({self.whose} {shown(self.there)}) and {shown(self.disk)} on "
            f"disk ({self.folder} has {shown(self.free)} free)"
        )

    def warnings(self) -> Iterator[str]:
        """What is said besides if there is less than the rooms may take."""
        if self.memory > self.there:
            yield "warning: if all rooms are used up there isn't memory for them: give smaller ones by --room"
        if self.disk > self.free:
            yield "warning: if all record rooms are used up the disk is full: give smaller ones by --record-room"
