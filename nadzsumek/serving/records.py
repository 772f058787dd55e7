"""The records of a user's domain: which there are, and what they say."""

from __future__ import annotations

import itertools
import os
import re
from collections.abc import Iterator

# How many bytes of a record are read at a time.
PIECE = 1 << 18
# In so many pieces from the end of a record a fault is looked for.
MOST_PIECES = 256
# What a node's Steps are answered that ended with a fault: its number, and the instruction if the fault has one.
FAULT = re.compile(rb"\bstep (\d+)\b.* fault (\d+(?: [0-9a-f]+)?)$")


def records_of(records: str, name: str) -> list[str]:
    """The records of a user's domain, in their order: each restart begins another."""
    numbers = {}
    for entry in os.listdir(records) if os.path.isdir(records) else ():
        number = re.fullmatch(rf"{re.escape(name)}(?:\.([2-9]|[1-9]\d+))?\.replay", entry)
        if number:
            numbers[int(number[1] or 1)] = entry
    return [os.path.join(records, numbers[it]) for it in sorted(numbers)]


def number_of(path: str) -> int:
    """The number of a record among those of its domain."""
    found = re.search(r"\.(\d+)\.replay$", path)
    return int(found[1]) if found else 1


def pieces_from_the_end(file: int) -> Iterator[bytes]:
    """The lines of a file in pieces of some lines, the last ones first. A record may be cut off meanwhile."""
    at, rest = os.fstat(file).st_size, b""
    while at:
        size = min(PIECE, at)
        at -= size
        piece = os.pread(file, size, at) + rest
        rest, _, whole = piece.partition(b"\n") if at else (b"", b"", piece)
        yield whole


def fault_in(piece: bytes) -> str | None:
    """The last fault in some lines: node and fault; none if there is none."""
    end = len(piece)
    while (at := piece.rfind(b" fault ", 0, end)) >= 0:
        begun, over = piece.rfind(b"\n", 0, at) + 1, piece.find(b"\n", at)
        fault = FAULT.search(piece[begun : over if over >= 0 else len(piece)])
        if fault:
            return f"node {fault[1].decode()}: {fault[2].decode()}"
        end = begun
    return None


def last_fault(records: str, name: str) -> str:
    """The last fault that is recorded of a user's nodes since the last restart, or a hyphen; a question mark if only the
    end of a long record was looked at."""
    try:
        file = os.open(records_of(records, name)[-1], os.O_RDONLY)
    except (OSError, IndexError):
        return "-"
    try:
        pieces = itertools.islice(pieces_from_the_end(file), MOST_PIECES)
        unknown = "?" if os.fstat(file).st_size > MOST_PIECES * PIECE else "-"
        return next((fault for piece in pieces if (fault := fault_in(piece))), unknown)
    except OSError:
        return "-"
    finally:
        os.close(file)
