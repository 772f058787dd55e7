"""The guides beside a page: texts in Markdown as these repositories write them, made into HTML. Whatever a text says is shown as it is: no
markup of its own comes through."""

from __future__ import annotations

import html
import os
import re

from ..serving.folder import TOP

# The guides by their names, each with its title.
GUIDES = {
    "USER": "Your machine",
    "LEARNING_OCCAM": "Learning occam",
    "OCCAM_EXERCISES": "Exercises in occam",
    "PROGRAMMING": "Assembly",
    "DEBUGGING": "Why a program doesn't answer",
}
# Where the guides are: here, or where an installation has put them.
FOLDERS = (os.path.join(TOP, "docs", "guides"), os.path.join(TOP, "..", "..", "share", "doc", "nadzsumek", "guides"))
LINK = re.compile(r"\[([^\]]+)\]\(([^)\s]+)\)")
HEADING, ITEM, NUMBERED = re.compile(r"(#{1,6}) (.*)"), re.compile(r"(\s*)- (.*)"), re.compile(r"(\s*)\d+\. (.*)")
FENCE, ROW, RULE = re.compile(r"\s*```(.*)"), re.compile(r"\|(.*)\|\s*"), re.compile(r"\|[-:| ]+\|\s*")


def text_of(name: str) -> str | None:
    """The text of a guide; none if there is none of this name."""
    if name not in GUIDES:
        return None
    for folder in FOLDERS:
        path = os.path.join(folder, f"{name}.md")
        if os.path.isfile(path):
            with open(path, encoding="utf-8") as it:
                return it.read()
    return None


def anchor_of(heading: str) -> str:
    """How links name a heading."""
    return re.sub(r"[^\w\- ]", "", heading.lower()).replace(" ", "-")


def link_of(found: re.Match[str]) -> str:
    """A link to a guide or to a place of the same one. Others aren't there, so their words alone are shown."""
    words, target = found[1], html.unescape(found[2])
    name, _, place = target.partition("#")
    guide = os.path.basename(name).removesuffix(".md")
    if not name or guide in GUIDES:
        there = f"/guide/{guide}" if name else ""
        return f'<a href="{there}{"#" + html.escape(place) if place else ""}">{words}</a>'
    return words


def spans(text: str) -> str:
    """A line with its code, its links and what stands out."""
    parts = re.split(r"(`+[^`].*?`+)", text)
    made = []
    for it in parts:
        if it.startswith("`"):
            made.append(f"<code>{html.escape(it.strip('`'))}</code>")
            continue
        it = LINK.sub(link_of, html.escape(it))
        it = re.sub(r"\*\*([^*]+)\*\*", r"<strong>\1</strong>", it)
        made.append(re.sub(r"(?<!\w)\*([^*]+)\*(?!\w)", r"<em>\1</em>", it))
    return "".join(made)


def cells(line: str) -> list[str]:
    """The cells of a row of a table."""
    return [it.strip() for it in re.split(r"(?<!\\)\|", line.strip().strip("|"))]


class Page:
    """The HTML of a text, line by line."""

    def __init__(self) -> None:
        self.made: list[str] = []
        self.held: list[str] = []
        self.open = ""

    def end(self) -> None:
        """Ends the paragraph, and the list or table."""
        if self.held:
            self.made.append(f"<p>{spans(' '.join(self.held))}</p>")
            self.held = []
        if self.open:
            self.made.append(f"</{self.open}>")
            self.open = ""

    def begin(self, kind: str) -> None:
        """Begins a list or a table, unless it is open."""
        if self.open != kind:
            self.end()
            self.made.append(f"<{kind}>")
            self.open = kind

    def line(self, line: str) -> None:
        if found := HEADING.fullmatch(line):
            self.end()
            level = min(len(found[1]) + 1, 6)
            self.made.append(f'<h{level} id="{html.escape(anchor_of(found[2]))}">{spans(found[2])}</h{level}>')
        elif RULE.fullmatch(line):
            return
        elif ROW.fullmatch(line):
            self.begin("table")
            self.made.append("<tr>" + "".join(f"<td>{spans(it)}</td>" for it in cells(line)) + "</tr>")
        elif found := ITEM.fullmatch(line):
            self.begin("ul")
            self.made.append(f"<li>{spans(found[2])}</li>")
        elif found := NUMBERED.fullmatch(line):
            self.begin("ol")
            self.made.append(f"<li>{spans(found[2])}</li>")
        elif line.strip():
            self.held.append(line.strip())
        else:
            self.end()


def html_of(text: str) -> str:
    """The elements of a text."""
    page, code = Page(), list[str]()
    is_code = False
    for line in text.split("\n"):
        if FENCE.fullmatch(line):
            if is_code:
                page.made.append(f"<pre>{html.escape(chr(10).join(code))}</pre>")
            page.end()
            is_code, code = not is_code, []
        elif is_code:
            code.append(line)
        else:
            page.line(line)
    page.end()
    return "\n".join(page.made)


def guide(name: str) -> str | None:
    """A guide as a page by itself; none if there is none of this name."""
    text = text_of(name)
    if text is None:
        return None
    links = " · ".join(f'<a href="/guide/{it}">{html.escape(title)}</a>' for it, title in GUIDES.items())
    return (
        f'<!DOCTYPE html><html lang="en"><meta charset="utf-8"><meta name="viewport" content="width=device-width">'
        f'<title>{html.escape(GUIDES[name])}</title><link rel="stylesheet" href="/files/page.css">'
        f'<body class="guide"><nav>{links}</nav>{html_of(text)}</body></html>'
    )
