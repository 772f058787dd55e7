"""What the students of a class have done: as the operator is told of them, and as their records say."""

from __future__ import annotations

import contextlib
import os
import re
import socket

from .escapes import escaped
from .folder import NOT_PROVED, OPERATOR, is_locked, socket_path
from .records import last_fault
from .replays import REPLAYING

# How long a farm may take for what its operator asks.
SECONDS = 10
# A burst of the farm's own may be so long, and is done only if all of it can be recorded. So a node can't go on with
# less room.
BURST = 256
HEAD = ("user", "farm", "lines", "events", "used", "room", "records", "now", "last fault")
# How many words `!users` has after a user's name at least: three numbers, and `quiet` or `busy`. Behind the words come four
# numbers: the bytes of the domain's room that are used, and how many there are, and the same of its records. An earlier `live`
# has none of the four.
WORDS, ROOMS = 4, 4
# What a row has in their place if no `serve` has the farm, and if one has it and doesn't answer.
OFF, SILENT = "off", "no answer"
MIB = 1 << 20


def operators_stream(folder: str, seconds: int = SECONDS) -> socket.socket:
    """A connection with the operator's socket of a farm, for which nothing takes longer than this."""
    stream = socket.socket(socket.AF_UNIX, socket.SOCK_STREAM)
    try:
        stream.settimeout(seconds)
        stream.connect(socket_path(folder, OPERATOR))
        return stream
    except OSError:
        stream.close()
        raise


def ask_operator(folder: str, line: str, seconds: int = SECONDS) -> list[str]:
    """What the operator of a farm is answered, line by line."""
    with operators_stream(folder, seconds) as stream:
        stream.sendall(line.encode() + b"\n")
        stream.shutdown(socket.SHUT_WR)
        with stream.makefile("r", encoding="utf-8", errors="surrogateescape", newline="\n") as lines:
            return [it.rstrip("\n") for it in lines]


def is_number(word: str) -> bool:
    return word.isascii() and word.isdecimal()


def used_of(recorded: int, limit: int) -> str:
    """How much of a domain's limit its events are: `full` if all, and `little` if a node can't go on with what is left."""
    return "full" if recorded >= limit else "little" if limit - recorded < BURST else f"{100 * recorded / limit:.1f}%"


def row_of(folder: str, name: str, said: list[str] | str) -> tuple[str, ...]:
    """A student's row, of the words that `!users` has of him, or of why there are none."""
    farm, fault = os.path.basename(folder), last_fault(os.path.join(folder, "records"), name)
    if isinstance(said, str):
        return (name, farm, "-", "-", "-", "-", "-", said, fault)
    (lines, recorded, limit), more = (int(it) for it in said[: WORDS - 1]), said[WORDS - 1 :]
    now, rooms = [it for it in more if not is_number(it)], [int(it) for it in more if is_number(it)]
    room, records = "-", "-"
    if len(rooms) >= ROOMS and rooms[1]:
        room, records = f"{100 * rooms[0] / rooms[1]:.1f}%", f"{rooms[2] / MIB:.1f}M"
    return (name, farm, str(lines), str(recorded), used_of(recorded, limit), room, records, " ".join(now), fault)


def told_of(words: list[str]) -> list[str] | str:
    """The words after a user's name in an answer to `!users`, if they have the form that they should have."""
    numbers = words[: WORDS - 1]
    fits = len(words) >= WORDS and all(is_number(it) for it in numbers) and int(numbers[-1]) > 0
    return words if fits else SILENT


def remarks_of(folder: str, answers: list[str]) -> list[str]:
    """What is said of a farm below the rows: the memory that it has and that its rooms may take, if that was told, and that its
    program isn't proved yet."""
    farm, remarks = os.path.basename(folder), list[str]()
    words: list[str] = next((it.split(" ") for it in answers if it.startswith("!memory ")), [])
    if len(words) >= 3 and all(is_number(it) for it in words[1:3]):
        has, may = (f"{int(it) / MIB:.0f} MiB" for it in words[1:3])
        remarks.append(f"{farm} has {has} of memory, and its rooms may take {may}")
    if NOT_PROVED in answers:
        remarks.append(f"{farm} isn't proved yet: ./prove proves it, and it is proved from its next start on")
    return remarks


def told_by(folder: str, names: list[str]) -> tuple[list[tuple[str, ...]], list[str]]:
    """The rows of a farm's students, and what is said of the farm."""
    answers, without = list[str](), OFF
    if is_locked(folder):
        without = SILENT
        with contextlib.suppress(OSError):
            answers = ask_operator(folder, "!users\n!memory")
    users = {
        words[1]: told_of(words[2:]) for it in answers if (words := it.split(" "))[0] == "!users" and len(words) > 1
    }
    return [row_of(folder, name, users.get(name, without)) for name in names], remarks_of(folder, answers)


def table(rows: list[tuple[str, ...]]) -> list[str]:
    """Rows as lines with columns; numbers stand on the right."""
    rows = [HEAD, *(tuple(escaped(cell) for cell in row) for row in rows)]
    widths = [max(len(row[at]) for row in rows) for at in range(len(HEAD))]
    right = {2, 3, 4, 5, 6}
    return [
        "  ".join(
            cell.rjust(width) if at in right else cell.ljust(width) for at, (cell, width) in enumerate(zip(row, widths))
        ).rstrip()
        for row in rows
    ]
