"""Copies the pages below PREFIX, for tools/install. A page says there what is so of an installation: commands are called by their names
alone, examples and the package for Python are where they are installed, and what is of a clone of the repository alone is left out. Each
link leads to what is there, or is left out and its words stay. Beside each page in Markdown is one for a browser, if this Python can make
it (tools/reading.py).

usage: python3 -B tools/installed.py PREFIX
       python3 -B tools/installed.py --places    tells where the pages are put below PREFIX
"""
import os
import re
import sys
from collections.abc import Iterator

from reading import NEEDED, is_possible, page_of
from tree import TOP

# What is called README.md at the top has another name beside the one of docs/.
OVERVIEW = "OVERVIEW.md"
LINK = re.compile(r"(!?)\[([^\]]*)\]\(([^)#\s]*)(#[^)\s]*)?\)")
# The pages for people who change the sources, which aren't installed.
OF_SOURCES = ("CHANGING.md", "CODE_NOTES.md", "SCRIPTS.md")
# What is of a clone alone: sections of pages, and what is written instead of sentences.
SECTIONS = {"README.md": "What you need", "docs/PROGRAM.md": "Before the proof"}
SENTENCES = (
    (re.compile(r" ?All commands are given at the top of the repository\."), ""),
    (re.compile(r"All commands are given at the top of the repository, and each output"), "Each output"),
    (re.compile(r"^With the \[toolchain\][^.]*a fresh clone answers[^.]*\. "), ""),
    (re.compile(r" ?Before the proof a command runs a build that isn't proved.*$"), ""),
)
COMMAND = re.compile(r"(?<![\w/.])\./(?=(?:farm|live|lab|serve|connect|class)\b(?![/.]))")
EXAMPLE = re.compile(r"(?<![\w/.-])examples/(?:[\w./-]*\w)?")


def pages() -> Iterator[tuple[str, str]]:
    """Each page of the tree, with its place in the installed folder."""
    yield f"{TOP}/README.md", OVERVIEW
    for folder in ("docs", "docs/guides"):
        for name in sorted(os.listdir(f"{TOP}/{folder}")):
            if name.endswith(".md") and name not in OF_SOURCES:
                yield f"{TOP}/{folder}/{name}", os.path.relpath(f"{TOP}/{folder}/{name}", f"{TOP}/docs")


def place_of(target: str, prefix: str, places: dict[str, str]) -> str | None:
    """Where a file of the tree is installed; none if it isn't."""
    if target in places:
        return places[target]
    if target == f"{TOP}/docs/pictures" or target.startswith(f"{TOP}/docs/pictures/"):
        return f"{prefix}/share/doc/nadzsumek{target.removeprefix(f'{TOP}/docs')}"
    if target == f"{TOP}/examples" or target.startswith(f"{TOP}/examples/"):
        there = f"{prefix}/lib/nadzsumek{target.removeprefix(TOP)}"
        return there if os.path.exists(there) else None
    return None


def is_left_out(page: str, heading: str | None) -> bool:
    """Whether a link leads to a section that isn't installed."""
    head = SECTIONS.get(os.path.relpath(page, TOP))
    return head is not None and heading == f"#{head.lower().replace(' ', '-')}"


def kept_lines(text: str, page: str) -> Iterator[tuple[str, bool]]:
    """The lines of a page that are so of an installation, each with whether it is in a block."""
    head, is_block, is_kept = SECTIONS.get(os.path.relpath(page, TOP)), False, True
    for line in text.split("\n"):
        if line.lstrip().startswith("```"):
            is_block = not is_block
        elif not is_block and line.startswith("## "):
            is_kept = line != f"## {head}"
        if is_kept:
            yield line, is_block


def called_as_installed(text: str, prefix: str) -> str:
    """A piece of code, with the commands and paths of an installation."""

    def example(found: re.Match[str]) -> str:
        path = f"{prefix}/lib/nadzsumek/{found[0]}"
        return path if os.path.exists(path) else found[0]

    text = COMMAND.sub("", EXAMPLE.sub(example, text))
    return text.replace("PYTHONPATH=. ", f"PYTHONPATH={prefix}/lib/nadzsumek ")


def installed(text: str, page: str, prefix: str, places: dict[str, str]) -> str:
    """The text of a page for the place where it is installed."""

    def of(link: re.Match[str]) -> str:
        mark, words, path, heading = link.groups()
        if "://" in path:
            return link[0]
        target = os.path.normpath(os.path.join(os.path.dirname(page), path)) if path else page
        place = place_of(target, prefix, places)
        if place is None or is_left_out(target, heading):
            return str(words)
        if not path:
            return link[0]
        if os.path.basename(place) == OVERVIEW:
            words = words.replace("README.md", OVERVIEW)
        return f"{mark}[{words}]({os.path.relpath(place, os.path.dirname(places[page]))}{heading or ''})"

    lines = []
    for line, is_block in kept_lines(text, page):
        if is_block:
            lines.append(called_as_installed(line, prefix))
            continue
        for sentence, instead in SENTENCES:
            line = sentence.sub(instead, line)
        lines.append(re.sub(r"`[^`]+`", lambda code: called_as_installed(code[0], prefix), LINK.sub(of, line)))
    return re.sub(r"\n{3,}", "\n\n", "\n".join(lines)).rstrip("\n") + "\n"


def for_browser(place: str) -> str:
    """The place of a page for a browser, beside that of the page in Markdown."""
    return f"{os.path.splitext(place)[0]}.html"


def put(place: str, text: str) -> None:
    """Writes a page, whole."""
    with open(f"{place}.new", "w", encoding="utf-8") as it:
        it.write(text)
    os.replace(f"{place}.new", place)


def main(words: list[str]) -> int:
    if words == ["--places"]:
        for _, place in pages():
            print(f"share/doc/nadzsumek/{place}")
            if is_possible():
                print(f"share/doc/nadzsumek/{for_browser(place)}")
        return 0
    (prefix,) = words
    places = {page: f"{prefix}/share/doc/nadzsumek/{place}" for page, place in pages()}
    for page, place in places.items():
        os.makedirs(os.path.dirname(place), exist_ok=True)
        with open(page, encoding="utf-8") as it:
            text = installed(it.read(), page, prefix, places)
        put(place, text)
        if is_possible():
            put(for_browser(place), page_of(text))
    if not is_possible():
        print(f"install: note: {NEEDED}", file=sys.stderr)
    return 0


if __name__ == "__main__":
    sys.exit(main(sys.argv[1:]))
