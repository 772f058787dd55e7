"""The wall of a classroom: a tile for each student, on a screen or as a page for a browser."""
import argparse
import html
import os
import re
import shutil
import subprocess
import sys
import time

from .checking import written
from .escapes import escaped
from .folder import Refused, build, program
from .kept import own_class
from .pages import page
from .records import records_of
from .tiles import FAULT, LINES, ROOM, Tile, on_screen, summary, tiles_of

# How often the page is written unless another time is given, and what is allowed.
SECONDS, TIMES = 5, range(1, 3601)
# A record that is longer, or asks for more Steps, isn't done again every few seconds, and no `lab` may take longer.
MOST_BYTES, MOST_STEPS, MOST_SECONDS = 8 << 20, 50_000_000, 20
# How many lines of what is said of a student's nodes are shown.
MOST_LINES = 16
SHEET = """
.tiles { display: grid; grid-template-columns: repeat(auto-fill, minmax(12em, 1fr)); gap: .5em }
.tile { border: 1px solid #bbb; border-left: .5em solid #9c9; padding: .3em .5em; color: inherit; text-decoration: none; overflow: hidden }
.tile strong, .tile span { display: block; white-space: nowrap; overflow: hidden; text-overflow: ellipsis }
.fault { border-left-color: #c00; background: #f8d5d5 } .full, .deadlock { border-left-color: #d80; background: #fbe6c6 }
.busy { border-left-color: #28c } .off, .fresh { border-left-color: #bbb; color: #666 }
.tile pre, .tile small { display: none; margin: .3em 0 0; white-space: pre-wrap } .tile:target { grid-column: 1 / -1 }
.tile:target pre, .tile:target small { display: block } p { color: #444 }
"""
TOLD = "Nodes are as they were when the student was last answered. Nothing of this page is an event of any machine."


class Nodes:
    """What is said of the nodes of each student by the newest record, which is read again only if it has grown."""

    def __init__(self) -> None:
        self.kept: dict[tuple[str, str], tuple[tuple[str, int, int], list[str]]] = {}

    def of(self, farm: str, user: str) -> list[str]:
        """What each node waits for, as lines; or why that isn't said."""
        paths = records_of(os.path.join(farm, "records"), user)
        if not paths:
            return ["nothing was done yet"]
        try:
            it = os.stat(paths[-1])
        except OSError as error:
            return [f"the record can't be read: {error.strerror}"]
        key = paths[-1], it.st_size, it.st_ino
        if (farm, user) not in self.kept or self.kept[farm, user][0] != key:
            self.kept[farm, user] = key, read(paths[-1], it.st_size)
        return self.kept[farm, user][1]


def read(path: str, size: int) -> list[str]:
    """What `lab why` says of a record."""
    if size > MOST_BYTES:
        return ["the record is too long to be done again for this page"]
    if not size:
        return ["nothing was done yet"]
    try:
        done = subprocess.run(
            [program("lab"), "why", path, "--steps", f"{MOST_STEPS}"],
            stdin=subprocess.DEVNULL,
            capture_output=True,
            timeout=MOST_SECONDS,
            check=False,
        )
    except subprocess.TimeoutExpired:
        return ["the record takes too long to be done again for this page"]
    if done.returncode != 0:
        return [
            "the nodes have done too many Steps to be done again for this page"
            if done.returncode == 7
            else f"the record can't be done again: {done.stderr.decode(errors='replace').strip()}"
        ]
    lines = done.stdout.decode(errors="replace").splitlines()[1:]
    return lines[:MOST_LINES] + ([".."] if len(lines) > MOST_LINES else [])


def tile_of(it: Tile) -> str:
    """A student's tile on the page. A click shows what the nodes wait for."""
    person, told, user = (html.escape(escaped(text)) for text in (it.person, it.told, it.user))
    room, lines, fault = it.row[ROOM], it.row[LINES], it.row[FAULT]
    more = html.escape(escaped(f"{it.user}, {it.farm}: {lines} lines, {room} of the room, last fault {fault}"))
    nodes = html.escape(escaped("\n".join(it.lines), "\n"))
    return (
        f'<a class="tile {it.kind}" id="{user}" href="#{user}"><strong>{person}</strong><span>{told}</span><small>{more}</small>'
        f"<pre>{nodes}</pre></a>\n"
    )


def wall_of(course: str, nodes: Nodes, seconds: int | None) -> str:
    """The page."""
    tiles = tiles_of(course, nodes)
    return page(
        os.path.basename(os.path.abspath(course)),
        f'<p>{time.strftime("%Y-%m-%d %H:%M:%S")}. {summary(tiles)}. {TOLD}</p>\n'
        f'<div class="tiles">\n{"".join(tile_of(it) for it in tiles)}</div>',
        SHEET,
        seconds,
    )


def show(course: str, nodes: Nodes) -> None:
    """Shows the tiles on the screen, in place of what was there."""
    tiles, (width, height) = tiles_of(course, nodes), shutil.get_terminal_size()
    head = f"{time.strftime('%H:%M:%S')}  {summary(tiles)}"
    is_screen = sys.stdout.isatty()
    # the last line stays free, so that nothing moves
    lines = on_screen(tiles, head, width, height - 1, is_screen)
    print(
        ("\x1b[H\x1b[2J" if is_screen else "") + "\n".join(it if is_screen else it.rstrip() for it in lines), flush=True
    )


def seconds_of(word: str) -> int:
    if not re.fullmatch("[0-9]{1,4}", word) or int(word) not in TIMES:
        raise argparse.ArgumentTypeError(f"whole seconds are wanted, {TIMES[0]} to {TIMES[-1]}")
    return int(word)


def wall(words: list[str]) -> int:
    """Shows what the students of a class do, again and again, on the screen or as a page."""
    parser = argparse.ArgumentParser(
        prog="class wall",
        usage="class wall [--seconds N] [--once] DIR [FILE]",
        description="Shows a tile for each student, those who need help first, again and again; or writes a page of them for a "
        "browser. Ctrl-C ends it.",
    )
    parser.add_argument(
        "--seconds", type=seconds_of, default=SECONDS, metavar="N", help=f"how often it is written, default {SECONDS}"
    )
    parser.add_argument("--once", action="store_true", help="writes it once, and ends")
    parser.add_argument("DIR", help="the folder of the class")
    parser.add_argument("FILE", nargs="?", help="the page's file; without it the tiles are on the screen")
    it = parser.parse_args(words)
    own_class(it.DIR)
    if it.FILE and (os.path.isdir(it.FILE) or not os.path.isdir(os.path.dirname(os.path.abspath(it.FILE)))):
        raise Refused(f"there can be no file {it.FILE}: choose another")
    build("class", "lab")
    nodes = Nodes()
    while True:
        if it.FILE:
            written(it.FILE, wall_of(it.DIR, nodes, None if it.once else it.seconds))
        else:
            show(it.DIR, nodes)
        if it.once:
            return 0
        sys.stdout.flush()
        time.sleep(it.seconds)
