"""What `docs/check` asks of the text of pages and comments: that words are plain, and that links lead to something."""
import re
from collections.abc import Iterator
from pathlib import Path

# A file, a line of it, and what is wrong there.
Wrong = tuple[Path, int, str]
# The pages in plain words.
PLAIN_PAGES = ("README.md", "crates/README.md", "docs/*.md", "docs/guides/*.md")
# The page whose rows begin with words that it explains, whatever they are.
GLOSSARY = "GLOSSARY.md"
# The words that these pages don't have, each with what to write instead. `stands for` a name or a number is plain.
PLAIN_WORDS = {
    r"(?:stands?|stood)(?! for\b)|standing": "is, is in, comes, stays, or depends on",
    r"behind": "after",
    r"told": "said, shown, answered, or given",
    r"so many": "a number of, or that many",
    r"want of memory": "out of memory",
    r"whoever": "anyone who, or who it is",
    r"in place of": "instead of",
    r"at once": "immediately, or together",
    r"anew": "again, or from the beginning",
    r"he|his|him|himself": "they, or the name",
    r"of which": "two sentences, or whose",
    r"(?<!has )(?<!have )just": "exactly, or only",
}


# The promise, in the words that were fixed: it stays as it is, whatever words it has.
HEADLINE = (
    "Under a plan that the checker accepted, for every interleaving of the users' commands and the processors' steps in which no call "
    "met want of memory, each user's enquiries, peeked words, output and faults are those of a farm that holds his domain alone and "
    "takes his own commands and steps in the same order; two farms that agree on his domain answer him alike."
)
# Where it is: a page, and the comment of the call that keeps it.
HEADLINE_PLACES = ("docs/PROMISES.md", "crates/farm_core/src/calls.rt")
# A line of fewer letters isn't taken for a part of it.
HEADLINE_PART = 20
# As many words as a sentence, and a row of a table, may have.
MOST_IN_SENTENCE, MOST_IN_ROW = 40, 60
# The comments in plain words: each kind of file, and how a line of its comments begins.
PLAIN_COMMENTS = (
    ("crates/*/src/**/*.rt", r"\s*//"),
    ("crates/*/specs/**/*.antt", r"\s*--"),
    ("crates/*/proofs/**/*.antt", r"\s*--"),
)


def lines_of(page: Path) -> Iterator[tuple[int, str]]:
    """The lines of a page that are in no block, with their numbers."""
    is_block = False
    for number, line in enumerate(page.read_text(encoding="utf-8").split("\n"), 1):
        if line.lstrip().startswith("```"):
            is_block = not is_block
        elif not is_block:
            yield number, line


def plain_lines(top: Path) -> Iterator[tuple[Path, int, str]]:
    """Each line that has plain words alone, as file, number and text."""
    for pattern in PLAIN_PAGES:
        for page in sorted(top.glob(pattern)):
            for number, line in lines_of(page):
                yield page, number, re.sub(r"^\| [^|]*", "", line) if page.name == GLOSSARY else line
    for pattern, begins in PLAIN_COMMENTS:
        for file in sorted(top.glob(pattern)):
            for number, line in enumerate(file.read_text(encoding="utf-8").split("\n"), 1):
                if re.match(begins, line):
                    yield file, number, line


def is_of_headline(line: str) -> bool:
    """Whether a line of a page or a comment is a part of the promise."""
    part = line.strip("/> ")
    return len(part) >= HEADLINE_PART and (part in HEADLINE or HEADLINE in part)


def lost_headlines(top: Path) -> Iterator[Wrong]:
    """Each file that is to have the promise and hasn't, as file, line and what is wrong."""
    for place in HEADLINE_PLACES:
        text = " ".join(line.strip("/> ") for line in (top / place).read_text(encoding="utf-8").split("\n"))
        if HEADLINE not in text:
            yield top / place, 1, f"the promise isn't there word for word: {HEADLINE}"


def wrong_words(top: Path) -> Iterator[Wrong]:
    """Each word of a page or comment in plain words that isn't plain, as file, line and what is wrong. What is in backticks, or
    in a link's target, isn't looked at."""
    for file, number, line in plain_lines(top):
        if is_of_headline(line):
            continue
        text = re.sub(r"`[^`]*`|\]\([^)]*\)", "", line)
        for words, better in PLAIN_WORDS.items():
            for found in re.findall(rf"\b(?:{words})\b", text, re.I):
                yield file, number, f"{found!r} is no plain word here: write {better}"


def long_texts(pages: list[Path]) -> Iterator[Wrong]:
    """Each sentence and each row that has too many words, as page, line and what is wrong. What is in backticks is one word."""
    for page in pages:
        for number, line in lines_of(page):
            plain = re.sub(r"\]\([^)]*\)", "]", re.sub(r"`[^`]*`", "name", line))
            is_row = line.startswith("|")
            what, most = ("row", MOST_IN_ROW) if is_row else ("sentence", MOST_IN_SENTENCE)
            for part in [plain] if is_row else re.split(r"(?<=[.!?])[)\"*]*\s+", plain):
                count = len(re.findall(r"[\w'’]+(?:[-.][\w'’]+)*", part))
                if count > most and not is_of_headline(part):
                    yield page, number, f"a {what} of {count} words: divide it, {most} are the most: {part[:60].strip()} .."


def headings_of(page: Path) -> set[str]:
    """The names by which links lead to the headings of a page, as the usual viewers make them."""
    names = set()
    for _, line in lines_of(page):
        heading = re.match(r"#+ (.*)", line)
        if heading:
            text = re.sub(r"\]\([^)]*\)|[^\w\s-]", "", heading[1].lower())
            names.add(text.replace(" ", "-"))
    return names


def wrong_numbers(page: Path) -> Iterator[Wrong]:
    """Each number of DECISIONS.md that isn't greater than the one before it in its section, or that is there twice, and each
    section whose numbers its table doesn't have. A choice is a line `- **N.** ..`: as `N. ..` it would be shown by another number.
    """
    sections: dict[str, list[int]] = {}
    seen: set[int] = set()
    table: dict[str, tuple[int, str]] = {}
    for number, line in lines_of(page):
        heading, row = re.match(r"## (.*)", line), re.match(r"\| ([\d, to]+) \| \[(.*)\]\(", line)
        choice = re.match(r"(?:- \*\*)?(\d+)\.", line)
        if heading:
            sections[heading[1]] = []
        elif row:
            table[row[2]] = number, row[1]
        elif choice:
            its, those = int(choice[1]), sections[[*sections][-1]]
            if not line.startswith("- **") or its in seen or its < max(those, default=0):
                yield page, number, f"choice {its} isn't `- **{its}.** ..`, is there twice, or comes after a greater number"
            seen.add(its)
            those.append(its)
    for name, those in sections.items():
        number, text = table.get(name, (1, ""))
        spans = [[int(it) for it in span.split(" to ")] for span in text.split(", ") if span]
        if [it for span in spans for it in range(span[0], span[-1] + 1)] != those:
            yield page, number, f"{name} has the choices {', '.join(map(str, those))}"


def links_of(pages: list[Path]) -> tuple[int, list[Wrong]]:
    """How many links to files and headings pages have, and each that leads to none, as page, line and what is wrong."""
    total, wrong = 0, []
    for page in pages:
        for number, line in lines_of(page):
            for path, name in re.findall(r"\]\(([^)#\s]*)(?:#([^)\s]+))?\)", line):
                if "://" in path:
                    continue
                total += 1
                target = (page.parent / path).resolve() if path else page
                if not target.exists():
                    wrong.append((page, number, f"there is no {path}"))
                elif name and name not in headings_of(target):
                    wrong.append((page, number, f"{target.name} has no heading {name}"))
    return total, wrong


def quotes_of(top: Path) -> tuple[int, list[Wrong]]:
    """How many blocks of guides quote a file, and each that doesn't, as page, line and what is wrong. A block of Rust begins with a
    line `// FILE`, and a block of text may begin with `# FILE`: what follows are lines of that file, one after another.
    """
    total, wrong = 0, []
    for page in sorted(top.glob("docs/guides/*.md")):
        text = page.read_text(encoding="utf-8")
        for found in re.finditer(r"^( *)```(rust|text)\n(.*?)^ *```$", text, re.M | re.S):
            line = text[: found.start()].count("\n") + 1
            indent, kind, block = found.groups()
            head, _, quoted = re.sub(rf"^{indent}", "", block, flags=re.M).partition("\n")
            named = re.fullmatch(r"(?:// |# )([\w./]+)", head)
            if not named or not (top / named[1]).is_file():
                if kind == "rust":
                    wrong.append((page, line, "a block of Rust that doesn't begin with the file that it quotes"))
                continue
            total += 1
            if "\n" + quoted not in "\n" + (top / named[1]).read_text(encoding="utf-8"):
                wrong.append((page, line, f"{named[1]} has no such lines"))
    return total, wrong
