"""Pages for a browser: makes HTML of a page in Markdown, by Python's `markdown` (Debian: python3-markdown). A page fetches nothing but
its pictures, and its links lead to other such pages.

usage: python3 -B tools/reading.py OUT    makes the pages of README.md and docs/ below the folder OUT, to look at them
"""

import html
import importlib.util
import os
import re
import sys
from importlib import import_module

NEEDED = "Debian's python3-markdown makes pages for a browser of the documents: apt-get install python3-markdown"
STYLE = """body { max-width: 46rem; margin: 2rem auto; padding: 0 1rem; font: 1rem/1.5 sans-serif; color: #222; background: #fff }
pre { padding: 0.6rem; overflow-x: auto; background: #f3f3f0; font-size: 0.85rem; line-height: 1.35 }
code { font-family: monospace; background: #f3f3f0 }
table { border-collapse: collapse } th, td { padding: 0.25rem 0.5rem; border: 1px solid #ccc; text-align: left; vertical-align: top }
blockquote { margin: 1rem 0; padding: 0.2rem 1rem; border: 1px solid #888 } img { max-width: 100% }"""
PAGE = """<!DOCTYPE html>
<html lang="en">
<head><meta charset="utf-8"><meta name="viewport" content="width=device-width"><title>{title}</title><style>{style}</style></head>
<body>
{body}
</body>
</html>
"""
LINK = re.compile(r'(<a href="[^":]*)\.md(#[^"]*)?"')


def is_possible() -> bool:
    """Whether this Python has what makes pages."""
    return importlib.util.find_spec("markdown") is not None


def name_of(heading: str, separator: str = "-") -> str:
    """The name by which links lead to a heading, as in the Markdown."""
    return re.sub(r"[^\w\s-]", "", heading.lower()).replace(" ", separator)


def page_of(text: str) -> str:
    """The page of a text in Markdown."""
    title = re.search(r"^# (.*)$", text, re.M)
    body = import_module("markdown").markdown(
        text, extensions=["tables", "fenced_code", "toc", "sane_lists"], extension_configs={"toc": {"slugify": name_of}}
    )
    linked = LINK.sub(lambda it: f'{it[1]}.html{it[2] or ""}"', body)
    return PAGE.format(title=html.escape(title[1] if title else "Nadzsumek"), style=STYLE, body=linked)


def main(words: list[str]) -> int:
    from installed import OVERVIEW, pages

    if len(words) != 1 or not is_possible():
        print(f"reading: {NEEDED}" if len(words) == 1 else __doc__, file=sys.stderr)
        return 2
    for page, place in pages():
        path = os.path.join(words[0], os.path.splitext(place)[0] + ".html")
        os.makedirs(os.path.dirname(path), exist_ok=True)
        with open(page, encoding="utf-8") as it:
            made = page_of(it.read())
        with open(path, "w", encoding="utf-8") as it:
            it.write(made)
    print(f"{words[0]}/{os.path.splitext(OVERVIEW)[0]}.html")
    return 0


if __name__ == "__main__":
    sys.exit(main(sys.argv[1:]))
