"""The listing of a program: its code, and which line of its text has an address. So what a farm says of addresses is said by lines,
without doing a record again."""

from __future__ import annotations

import re
from typing import NamedTuple

# A row of a listing: an address with bytes, or the remark that a line of the text begins there.
ROW = re.compile(r"([0-9a-f]{8})  ((?:[0-9a-f]{2}(?: |$))+)")
REMARK = re.compile(r"([0-9a-f]{8}) +-- line (\d+)(?: \(\d+\))?: (.*)")
# What is said of a node, where a process of it is, and whether it has erred there.
NODE, PLACE = re.compile(r"node (\d+) "), re.compile(r"(?:process at|It was at) ([0-9a-f]{8})\b")
ERRED = "It was at"
# Where a listing begins, and how many bytes further code is that is poked, as it is if it is longer than a boot.
BEGIN, POKED, MOST_BOOT = 0x80000048, 8, 255


class Line(NamedTuple):
    """A line of a text whose code begins at an address."""

    address: int
    number: int
    text: str


class Listing(NamedTuple):
    """The code of a program, and its lines by their addresses."""

    code: bytes
    lines: tuple[Line, ...]

    def is_booted(self) -> bool:
        """Whether it is short enough to be booted as it is."""
        return 2 <= len(self.code) <= MOST_BOOT

    def line_at(self, address: int) -> Line | None:
        """The line whose code has an address of memory; none if that is outside."""
        at = address - (0 if self.is_booted() else POKED)
        if not BEGIN <= at < BEGIN + len(self.code):
            return None
        return next((it for it in reversed(self.lines) if it.address <= at), None)


def listing_of(told: str) -> Listing:
    """What a listing says."""
    code, lines = bytearray(), list[Line]()
    for row in told.splitlines():
        if found := ROW.match(row):
            # what is left free has no row with bytes
            code += bytes(max(0, int(found[1], 16) - BEGIN - len(code))) + bytes.fromhex(found[2])
        elif remark := REMARK.fullmatch(row):
            lines.append(Line(int(remark[1], 16), int(remark[2]), remark[3]))
    return Listing(bytes(code), tuple(lines))


def by_line(lines: list[str], listing: Listing, node: int = 0) -> list[str]:
    """What is said of a node, and behind it in which lines of its program its processes are, as `lab why` says that."""
    told, now = list[str](), -1
    for line in lines:
        if found := NODE.match(line):
            now = int(found[1])
        for place in PLACE.finditer(line) if now == node else ():
            at = listing.line_at(int(place[1], 16))
            if at is not None:
                does = "erred" if place[0].startswith(ERRED) else "waits"
                told.append(f"node {node} at {place[1]} {does} in line {at.number}: {at.text}")
    return [*lines, *dict.fromkeys(told)]
