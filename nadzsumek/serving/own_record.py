"""A user's own record: `serve` answers `record` by it, and terminals and scripts put it together again.

    record              RECORD and SIZE: the number of the newest record of the user's domain, and the bytes of its whole lines
    record RECORD AT    the bytes from there on, a piece at most, in hexadecimal digits

A hyphen instead says that there is no such record, or none any more. Nothing else of the folder is read: the number must be that of
the newest record, whose head must have this domain alone."""

from __future__ import annotations

import asyncio
import os
import re
from collections.abc import Callable, Iterator

import tomllib

from .beside import Beside
from .ports import UNREAD, users_in
from .records import number_of, records_of

# How many bytes a piece has, and how many pieces are asked for at once: together less than a client may leave unread.
PIECE, AT_ONCE = 1 << 15, 8
# So many bytes are read at a time from the end, in search of a line feed, and the head of a record has no more.
LOOKED, MOST_HEAD = 1 << 16, 1 << 16
VERB, NOTHING = "record", "-"
ASKED = re.compile(r"record(?: ([1-9][0-9]{0,8}) ([0-9]{1,15}))?")
TOLD = re.compile(r"record ([1-9]\d*) (\d+)")
PART = re.compile(r"record \d+ \d+ ((?:[0-9a-f]{2})+)")
# How often a record is begun again if the machine restarts meanwhile.
MOST_RESTARTS = 8


class Given(Beside):
    """Gives the users of the farm in this folder their records. `plan` says the path of its plan."""

    def __init__(self, records: str, plan: Callable[[], str]) -> None:
        super().__init__()
        self.records, self.plan = records, plan

    async def text(self, user: str, line: bytes) -> bytes:
        """The answer to a line."""
        return (await asyncio.to_thread(self.told, user, line.removesuffix(b"\r").decode(errors="replace"))).encode()

    def told(self, user: str, line: str) -> str:
        found = ASKED.fullmatch(line)
        users = next((names for names in users_in(self.plan()) if user in names), None)
        if not found or users is None:
            return f"{VERB} {NOTHING}"
        try:
            paths = records_of(self.records, users[0])
            if not paths:
                return f"{VERB} {NOTHING}"
            file = os.open(paths[-1], os.O_RDONLY | os.O_NOFOLLOW)
        except OSError:
            return f"{VERB} {NOTHING}"
        try:
            return told_of(file, number_of(paths[-1]), users, found[1], found[2])
        except OSError:
            return f"{VERB} {NOTHING}"
        finally:
            os.close(file)


def told_of(file: int, number: int, users: list[str], wanted: str | None, at: str | None) -> str:
    """What is told of a record: its size, or the bytes from a place on."""
    size = whole_lines(file)
    if wanted is None or at is None:
        return f"{VERB} {number} {size}" if is_of(os.pread(file, min(size, MOST_HEAD), 0), users) else f"{VERB} -"
    if int(wanted) != number or int(at) >= size or not is_of(os.pread(file, min(size, MOST_HEAD), 0), users):
        return f"{VERB} {wanted} {at} {NOTHING}"
    return f"{VERB} {wanted} {at} {os.pread(file, min(PIECE, size - int(at)), int(at)).hex()}"


def whole_lines(file: int) -> int:
    """How many bytes the whole lines of a file have."""
    end = os.fstat(file).st_size
    while end > 0:
        begin = max(0, end - LOOKED)
        place = os.pread(file, end - begin, begin).rfind(b"\n")
        if place >= 0:
            return begin + place + 1
        end = begin
    return 0


def is_of(content: bytes, users: list[str]) -> bool:
    """Whether a record that begins so is of the domain with these users, and of no other; one without a head says nothing yet."""
    head, mark, _ = content.partition(b"\n---\n")
    if not mark:
        return not content
    try:
        domains = tomllib.loads(head.decode())["domain"]
        return [[it["name"] for it in domain.get("user", [domain])] for domain in domains] == [users]
    except UNREAD:
        return False


# ---- what those do who ask


def found_in(answer: str) -> tuple[int, int] | None:
    """The number and the size of a record by the answer to `record`; none if there is none."""
    told = TOLD.fullmatch(answer)
    return (int(told[1]), int(told[2])) if told else None


def lines_for(number: int, size: int) -> Iterator[list[str]]:
    """The lines that ask for all pieces of a record, as they are sent at once."""
    lines = [f"{VERB} {number} {at}" for at in range(0, size, PIECE)]
    for first in range(0, len(lines), AT_ONCE):
        yield lines[first : first + AT_ONCE]


def piece_in(answer: str) -> bytes | None:
    """The bytes of an answer; none if the record isn't the newest any more."""
    told = PART.fullmatch(answer)
    return bytes.fromhex(told[1]) if told else None


def fetched(ask: Callable[[str], str]) -> bytes | None:
    """The newest record, by a call that answers a line; none if there is none. One that grows meanwhile is as it was at first."""
    for _ in range(MOST_RESTARTS):
        found = found_in(ask(VERB))
        if found is None:
            return None
        pieces = [piece_in(ask(line)) for lines in lines_for(*found) for line in lines]
        if None not in pieces:
            return b"".join(it for it in pieces if it is not None)[: found[1]]
    return None
