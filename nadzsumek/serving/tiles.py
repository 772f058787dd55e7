"""A tile for each student of a class, those who need help first: what is the matter with the machine, and what its nodes wait for. It
goes by what the operator is told and by the records, so that no student's machine is asked anything, and none has an event of it."""

from __future__ import annotations

import re
import unicodedata
from collections.abc import Iterable
from concurrent.futures import ThreadPoolExecutor
from typing import TYPE_CHECKING, NamedTuple

from .escapes import escaped
from .kept import own_class
from .sheets import person_of
from .status import OFF, SILENT, told_by

if TYPE_CHECKING:
    from .wall import Nodes

# Where the columns of a row of `class status` are.
USER, FARM, LINES, EVENTS, USED, ROOM, RECORDS, NOW, FAULT = range(9)
# How many records are done again together.
MOST_WORKS = 2
# What can be the matter, by the need for help: a word for it and its color at a terminal.
FAULTY, FULL, STUCK, AWAY, BUSY, QUIET, FRESH = "fault", "full", "deadlock", "off", "busy", "quiet", "fresh"
KINDS = (FAULTY, FULL, STUCK, AWAY, BUSY, QUIET, FRESH)
COLORS = {FAULTY: "97;41", FULL: "30;43", STUCK: "97;45", AWAY: "2", BUSY: "30;46", QUIET: "30;42", FRESH: "7"}
# The narrowest tile, and how many lines it has at least.
LEAST_WIDTH, LEAST_HEIGHT = 15, 2
# What is said of a node that nobody has used.
UNUSED = re.compile(r"^node \d+ waits for a control byte\.")


class Tile(NamedTuple):
    """A student, what is the matter, a word for it, and the lines that are known of the nodes."""

    user: str
    person: str
    farm: str
    kind: str
    told: str
    lines: tuple[str, ...]
    row: tuple[str, ...]


def used_lines(lines: Iterable[str]) -> tuple[str, ...]:
    """The lines of nodes that were used."""
    kept, is_used = [], True
    for line in lines:
        if not line.startswith(" "):
            is_used = not UNUSED.match(line)
        kept += [line] if is_used else []
    return (*kept,)


def kind_of(row: tuple[str, ...], lines: Iterable[str]) -> tuple[str, str]:
    """What is the matter with a student's machine, and how it is told."""
    now = row[NOW].split(" ")
    if row[FAULT] not in ("-", "?"):
        return FAULTY, f"fault {row[FAULT].partition(': ')[2] or row[FAULT]}"
    if "rests" in now:
        return FULL, "room is full"
    if row[NOW] in (OFF, SILENT) or now[0] == "again":
        return AWAY, row[NOW]
    if any("a deadlock" in it for it in lines):
        return STUCK, STUCK
    if row[EVENTS] == "0":
        return FRESH, "nothing yet"
    return (BUSY, "computes") if now[0] == BUSY else (QUIET, "rests")


def tiles_of(course: str, nodes: Nodes) -> list[Tile]:
    """The tiles of a class."""
    farms = own_class(course).farms
    with ThreadPoolExecutor(len(farms) or 1) as pool:
        rows = [row for rows, _ in pool.map(told_by, farms.keys(), farms.values()) for row in rows]
    places = {user: farm for farm, names in farms.items() for user in names}
    with ThreadPoolExecutor(MOST_WORKS) as pool:
        told = [*pool.map(lambda row: nodes.of(places[row[USER]], row[USER]), rows)]
    made = [
        Tile(row[USER], person_of(course, row[USER]), row[FARM], *kind_of(row, lines), used_lines(lines), row)
        for row, lines in zip(rows, told)
    ]
    return sorted(made, key=lambda it: KINDS.index(it.kind))


def summary(tiles: list[Tile]) -> str:
    """How many students there are, and of how many each thing is the matter."""
    counts = {kind: sum(it.kind == kind for it in tiles) for kind in KINDS}
    return f"{len(tiles)} students: " + ", ".join(f"{count} {kind}" for kind, count in counts.items() if count)


def wide(letter: str) -> int:
    """How many columns of a screen a letter takes."""
    if unicodedata.combining(letter):
        return 0
    return 2 if unicodedata.east_asian_width(letter) in "WF" else 1


def fitted(text: str, width: int) -> str:
    """A text in just so many columns of a screen, cut or with blanks behind it."""
    kept, left = "", width
    for letter in escaped(text):
        if wide(letter) > left:
            break
        kept, left = kept + letter, left - wide(letter)
    return kept + " " * left


def columns_of(count: int, width: int, height: int) -> int:
    """In how many columns so many tiles stand: as few as let each have its lines."""
    most = max(1, (width + 1) // (LEAST_WIDTH + 1))
    fits = (it for it in range(1, most) if -(-count // it) * (LEAST_HEIGHT + 1) <= height)
    return next(fits, most)


def on_screen(tiles: list[Tile], head: str, width: int, height: int, has_colors: bool) -> list[str]:
    """The lines of a screen: the head, and the tiles, row by row, those who need help first. What doesn't fit is told."""
    columns = columns_of(len(tiles), width, height - 1)
    rows = -(-len(tiles) // columns) or 1
    tall = max(LEAST_HEIGHT, min((height - 1) // rows, LEAST_HEIGHT + 2))
    shown = min(rows, (height - 1) // tall)
    size = (width + 1) // columns - 1
    hidden = len(tiles) - shown * columns
    lines = [fitted((f"({hidden} more don't fit) " if hidden > 0 else "") + head, width)]
    for at in range(0, shown * columns, columns):
        parts = [tile_lines(it, size, tall, has_colors) for it in tiles[at : at + columns]]
        lines += [" ".join(line) for line in zip(*parts)]
    return lines


def tile_lines(it: Tile, width: int, height: int, has_colors: bool) -> list[str]:
    """The lines of a tile: who it is and what is the matter, and of the nodes as much as there is room for."""
    told = [it.person, it.told, *(line.strip() for line in it.lines if it.kind != FRESH)]
    lines = [fitted(line, width) for line in (told + [""] * height)[:height]]
    if has_colors:
        lines[0] = f"\x1b[{COLORS[it.kind]}m{lines[0]}\x1b[0m"
    return lines
