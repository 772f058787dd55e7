"""Right occam programs with one mistake each, and where it must be said. Scripts use `mistakes`."""
import functools
import random
import re
from collections.abc import Iterator, Sequence
from dataclasses import dataclass
from pathlib import Path
from typing import NamedTuple

from occam.expressions import Wrong, tokens_of
from occam.meaning import read
from occam.parallel import ParallelWriter
from occam.pieces import FEATURES
from occam.printing import Printer
from occam.uses import Clash
from occam.writing import Writer


@dataclass
class Mistake:
    """A text with a mistake: its kind, and the fault's numbers that are right, and its line, or some of which each is right, and its
    column if they are fixed."""

    kind: str
    text: str
    faults: tuple[int, ...]
    line: int | frozenset[int] | None
    column: int | None
    # whether no other line is wrong
    is_alone: bool = True

    def is_at(self, line: int, column: int) -> bool:
        """Whether a place is right."""
        lines = self.line if isinstance(self.line, frozenset) else {self.line}
        return (self.line is None or line in lines) and self.column in (None, column)


class Row(NamedTuple):
    """A row of `planted.txt`: the kind of mistake, the fault's numbers that are right, the lines, those that are put at the program's head,
    and whether the mistake may be said at any line, and whether several are said."""

    kind: str
    faults: tuple[int, ...]
    lines: list[str]
    head: list[str]
    is_anywhere: bool
    is_several: bool


class Marked(NamedTuple):
    """Lines without their mark, which of them has it, and at which column, or none."""

    lines: list[str]
    number: int
    column: int | None


class Change(NamedTuple):
    """A line of a program that is changed: the kind of mistake, the fault's number, which line, the column if it is fixed, and what it
    becomes."""

    kind: str
    fault: int
    at: int
    column: int | None
    line: str


@functools.cache
def rows_planted() -> dict[str, list[Row]]:
    """The rows of `planted.txt`, by what is said of where they are put."""
    found: dict[str, list[Row]] = {}
    for line in Path(__file__).with_name("planted.txt").read_text(encoding="utf-8").splitlines():
        if line.startswith("=== "):
            rows = found.setdefault(line[4:], [])
        elif line and not line.startswith("#"):
            kind, said, text, *channel = line.split(" // ")
            lines = placed(text.replace("{skips}", "|  SKIP" * 257)).split("|")
            way, _, message = channel[0].partition(" ") if channel else ("", "", "")
            head = [f"CHAN OF {message} q.9:", placed(f"PLACE q.9 AT {{{way}}}:")] if way else []
            numbers = tuple(int(it) for it in said.split() if it.isdigit())
            rows.append(Row(kind, numbers, lines, head, said.endswith("any line"), said.endswith("several")))
    return found


Lines = tuple[str, ...]
# In how many programs of a seed mistakes are planted, how many clashes are made by chance at most, and of how many tries.
MOST_LINES, MOST_CLASHES, MOST_TRIES = 40, 4, 60
IN_SEQ, IN_PAR = "before the first process of a SEQ, 2 further in", "the same, of processes that run at the same time"
AT_HEAD, AFTER = "in the outermost declarations, before the program", "after the program"


def at_mark(lines: list[str]) -> Marked:
    for number, line in enumerate(lines):
        if "@" in line:
            return Marked([it.replace("@", "") for it in lines], number, line.index("@"))
        if "%" in line:
            return Marked([it.replace("%", "", 1) for it in lines], number, None)
    raise ValueError(lines)


@functools.cache
def program_lines(seed: str, is_plain: bool = False, is_clashing: bool = False) -> tuple[str, ...]:
    """The lines of text of a right program without continued lines, which has none at link 3, and no PROC if it is plain; one with several
    processes if it is for clashes."""
    for again in range(100):
        chance = random.Random(f"{seed}/{again} kind")
        kind = (
            ParallelWriter if "PAR" in FEATURES and not is_plain and (is_clashing or chance.random() < 0.4) else Writer
        )
        writer = kind(f"{seed}/{again} to be wrong")
        writer.program()
        printer = Printer(seed)
        printer.breaks, printer.end = 0, "\n"
        text = printer.text(writer.lines).rstrip("\n")
        if is_plain and ("PROC" in text or " IS " in text):
            continue
        if writer.links < 4 and any(tokens == ["SEQ"] for _, tokens in writer.lines) and is_right(text):
            return tuple(text.split("\n"))
    raise ValueError(seed)


def is_right(text: str) -> bool:
    try:
        read(text)
    except Wrong:
        return False
    return True


def placed(text: str) -> str:
    """A text with places that no program has here: those of link 3."""
    return text.replace("{in}", "link3.in").replace("{out}", "link3.out")


def in_procs(lines: Lines) -> set[int]:
    """Which lines are in a PROC, or below a replicator of PAR or ALT, which are put in place: there a mistake of names may be said more
    often, or not at all."""
    inside: set[int] = set()
    indent: int | None = None
    is_proc = False
    for at, line in enumerate(lines):
        further = len(line) - len(line.lstrip())
        if (
            indent is not None
            and not is_proc
            and line.strip()
            and further <= indent
            and not line.lstrip().startswith("--")
        ):
            indent = None
        if indent is None and re.match(r" *(?:PROC\b|PAR +\w|ALT +\w|PRI +ALT +\w)", line):
            indent, is_proc = further, line.lstrip().startswith("PROC")
        if indent is not None:
            inside.add(at)
            if is_proc and re.match(" " * indent + r":\s*(?:--.*)?$", line):
                indent = None
    return inside


def before(lines: Lines, chance: random.Random, row: Row) -> Mistake:
    """A mistake in a process that is put into a SEQ."""
    inside = in_procs(lines)
    at = chance.choice([at for at, it in enumerate(lines) if re.fullmatch(r" *SEQ\s*(--.*)?", it) and at not in inside])
    indent = len(lines[at]) - len(lines[at].lstrip()) + 2
    return mistake_of(row, [*row.head, *lines[: at + 1]], lines[at + 1 :], indent)


def mistake_of(row: Row, above: Sequence[str], below: Sequence[str], indent: int = 0) -> Mistake:
    """A program with the lines of a row between its own, so far in."""
    planted, number, column = at_mark(row.lines)
    text = "\n".join([*above, *(" " * indent + it for it in planted), *below]) + "\n"
    line = None if row.is_anywhere else len(above) + 1 + number
    return Mistake(
        row.kind, text, row.faults, line, None if column is None else indent + column + 1, not row.is_several
    )


def changed(lines: Lines, chance: random.Random) -> Iterator[Change]:
    """Mistakes that change a line of the program itself."""
    declared = [
        at
        for at, it in enumerate(lines)
        if re.match(r" *(?:INT|BYTE|BOOL|CHAN|PLACE|VAL|\[)[^-\"']*:\s*(?:--.*)?$", it)
    ]
    at = chance.choice(declared)
    yield Change("a colon that is dropped", 13, at, None, re.sub(r":(\s*(?:--.*)?)$", r"\1", lines[at]))
    inner = [
        at
        for at, it in enumerate(lines)
        if it.startswith("  ") and not it.lstrip().startswith(("--", ":")) and it.strip()
    ]
    inside = in_procs(lines)
    if not inner:
        return
    at = chance.choice(inner)
    indent = len(lines[at]) - len(lines[at].lstrip())
    yield Change("a line that is one blank further in", 2, at, indent + 2, " " + lines[at])
    closed = [it for it in inner if re.fullmatch(r" *[\w.]+\s*(?::=|!)[^-']*\)", lines[it])]
    if closed:
        at = chance.choice(closed)
        yield Change("the last bracket dropped", 10, at, None, lines[at][:-1])
    heard = [it for it in inner if re.match(r" *[\w.]+\s*\?", lines[it]) and it not in inside]
    if heard:
        at = chance.choice(heard)
        yield Change("an input that is made an output", 31, at, None, lines[at].replace("?", "!", 1))
    at = chance.choice(inner)
    yield Change("a tab for blanks", 3, at, 1, "\t" + lines[at].lstrip())
    at = chance.choice(inner)
    indent = len(lines[at]) - len(lines[at].lstrip())
    tabbed = lines[at][:indent] + "\t" + lines[at][indent:]
    yield Change("a tab behind the blanks", 3, at, indent + 1, tabbed)


def first_wrong(text: str) -> int | None:
    """The first line of a text that the reader of this folder finds wrong, or none."""
    try:
        read(text)
    except Wrong as wrong:
        return wrong.line
    return None


def unlike_types(lines: Lines, chance: random.Random) -> Iterator[Mistake]:
    """Mistakes in what is declared, which show where it is used: the first line that is wrong must be the first that is shown."""
    declared = [
        (at, found[1])
        for at, it in enumerate(lines)
        if (found := re.match(r" *(INT|BYTE|BOOL)\b[^-]*:\s*(?:--.*)?$", it))
    ]
    at, kind = chance.choice(declared)
    other = chance.choice([it for it in ("INT", "BYTE", "BOOL") if it != kind])
    swapped = "\n".join([*lines[:at], lines[at].replace(kind, other, 1), *lines[at + 1 :]]) + "\n"
    line = first_wrong(swapped)
    if line:
        yield Mistake(f"{other} for {kind}", swapped, (18, 19, 20, 21, 23, 29), line, None, False)
    missing = "\n".join([*lines[:at], *lines[at + 1 :]]) + "\n"
    line = first_wrong(missing)
    if line:
        yield Mistake("a declaration that is left out", missing, (16, 18, 19, 20, 21, 23, 26, 29), line, None, False)


def clashing(seed: int, chance: random.Random) -> Iterator[Mistake]:
    """Programs in which one name is put for another, so that two components use what one of them changes, or one channel."""
    lines = program_lines(f"{seed} clashing", False, True)
    tokens = [(at, it) for at, line in enumerate(lines) for it in tokens_of(line, at) if it.kind == "name"]
    first = next((at for at, line in enumerate(lines) if re.match(r" *PAR\b", line)), len(lines))
    inner, found = [it for it in tokens if it[0] > first], 0
    for _ in range(MOST_TRIES if "PAR" in FEATURES and inner else 0):
        (at, old), (_, new) = chance.choice(inner), chance.choice(inner)
        begin = old.column - 1
        line = lines[at][:begin] + new.text + lines[at][begin + len(old.text) :]
        text = "\n".join([*lines[:at], line, *lines[at + 1 :]]) + "\n"
        clashes = clashes_of(text) if old.text != new.text else []
        if clashes:
            known = [it.lines for it in clashes if it.lines is not None]
            every = frozenset(it for lines in known for it in lines) if len(known) == len(clashes) else None
            faults = tuple({fault for it in clashes for fault in it.faults})
            yield Mistake(f"{new.text} for {old.text} in line {at + 1}", text, faults, every, None, False)
            found += 1
        if found == MOST_CLASHES:
            return


def clashes_of(text: str) -> list[Clash]:
    """What the components of a right program use against the rules, or nothing of another text."""
    try:
        return read(text).clashes
    except Wrong:
        return []


def whole_texts(seed: int) -> Iterator[Mistake]:
    """Mistakes of a whole text."""
    deep = "".join(f"{'  ' * it}SEQ\n" for it in range(70)) + "  " * 70 + "SKIP\n"
    yield Mistake("declarations alone", "INT x:\n", (15,), None, None)
    yield Mistake("a text without a line", "", (4, 15), None, None)
    yield Mistake("a line that goes on further out", f"INT x{seed}:\nSEQ\n  x{seed} := 1 +\n 2\n", (2,), 4, 2)
    yield Mistake("SEQ 70 deep", deep, (38,), None, None)
    yield Mistake("PLACE that isn't outermost", "CHAN OF INT c:\nSEQ\n  PLACE c AT 0:\n  c ! 1\n", (30,), 3, None)
    yield Mistake("IF with a process for a choice", "IF\n  SKIP\n", (4, 6), 2, 3)


def mistakes(seed: int) -> Iterator[Mistake]:
    """One mistake of each kind, in programs of a seed."""
    chance = random.Random(f"{seed} planted")
    rows = rows_planted()
    for number, row in enumerate([*rows[IN_SEQ], *(rows[IN_PAR] if "PAR" in FEATURES else [])]):
        yield before(program_lines(f"{seed}.{number % MOST_LINES}"), chance, row)
    for number, row in enumerate(rows[AT_HEAD]):
        yield mistake_of(row, [], program_lines(f"{seed}.{number}"))
    for number, row in enumerate(rows[AFTER]):
        yield mistake_of(row, program_lines(f"{seed}.{number}"), [])
    lines = program_lines(f"{seed}.c")
    for it in changed(lines, chance):
        text = "\n".join([*lines[: it.at], it.line, *lines[it.at + 1 :]]) + "\n"
        yield Mistake(it.kind, text, (it.fault,), it.at + 1, it.column)
    yield from unlike_types(program_lines(f"{seed}.u", True), chance)
    yield from clashing(seed, chance)
    yield from whole_texts(seed)
