"""Makes the page of `lab film`. The program prints a film as JSON, and here it becomes one file for a browser, which asks
for no other: the page of this folder with its style, its scripts and the film in their places."""

from __future__ import annotations

import json
import os
import re
import sys
from collections.abc import Callable
from typing import NoReturn

from nadzsumek.beside import begun, end_as

FOLDER = os.path.dirname(os.path.abspath(__file__))
# What a film begins with. The help of the program doesn't, and is printed as it is.
BEGINS = b'{"version":1,'
OUTSIDE = re.compile(rb'<link rel="stylesheet" href="(?P<style>[^"]+)">|<script src="(?P<script>[^"]+)"></script>')
PLACE, STORY = b'<script id="film" type="application/json">', b'<script id="story" type="application/json">'


def contents(name: str) -> bytes:
    """A file of this folder."""
    with open(os.path.join(FOLDER, name), "rb") as it:
        return it.read()


def put_inside(link: re.Match[bytes]) -> bytes:
    """The style or the script that a link of the page names."""
    if name := link["style"]:
        return b"<style>\n" + contents(name.decode()) + b"</style>"
    return b"<script>\n" + contents(link["script"].decode()) + b"</script>"


def page_of(film: bytes, story: bytes = b"null") -> bytes:
    """The page of a film, and of the story of its processes. In JSON `<` is in texts alone, and is written there so that it ends no
    element of the page."""
    page = OUTSIDE.sub(put_inside, contents("page.html"))
    for place, text in ((PLACE, film), (STORY, story)):
        before, behind = page.split(place)
        page = before + place + text.replace(b"<", b"\\u003c") + behind
    return page


def told_of(film: bytes, lab: list[str], words: list[str]) -> bytes:
    """The story of the film that the lab made of these words."""
    # what asks the debugger is there only once there is a film
    from nadzsumek.film.story import story_of

    return json.dumps(story_of(json.loads(film), lab, words), separators=(",", ":")).encode()


def print_whole(text: bytes) -> None:
    """Writes to standard output. The program says `io` and ends with status 6 if it can't, and so does this."""
    try:
        while text:
            text = text[os.write(1, text) :]
    except OSError:
        print("io", file=sys.stderr)
        sys.exit(6)


def run_beside(start: Callable[[], NoReturn], lab: list[str], words: list[str]) -> NoReturn:
    """Has a child become the program, and prints the page of the film that it prints, or what else it prints. `lab` is the command of
    the lab, and the words are those behind `film`."""
    film, status = begun(start, 1)
    if status == 0:
        print_whole(page_of(film, told_of(film, lab, words)) if film.startswith(BEGINS) else film)
    end_as(status)
