"""What came of an exercise, as a table of text, as a file for a spreadsheet, and as a page for a browser."""

from __future__ import annotations

import csv
import html
import io
from collections.abc import Iterator
from typing import TYPE_CHECKING

from .escapes import escaped
from .pages import page

if TYPE_CHECKING:
    from .checking import Outcome, Row
    from .exercises import Exercise

# So begins a cell that a spreadsheet would take for a formula. An apostrophe before it makes it a text.
FORMULA = ("=", "+", "-", "@", "\t", "\r")
# How many letters of a remark the table of text shows.
MOST_REMARK = 100
SHEET = """
td.ok { background: #d9f2d9 } td.wrong { background: #f8d5d5 } td.too { background: #fbe6c6 } td.number { text-align: right }
pre { margin: .3em 0 0; white-space: pre-wrap; color: #444 }
"""


def head_of(exercise: Exercise) -> list[str]:
    return [
        "user",
        "program",
        "points",
        "steps",
        *(f"{number}" for number in range(1, len(exercise.tests) + 1)),
        "remark",
    ]


def steps_of(row: Row) -> str:
    """How many Steps all its tests took; a hyphen if that isn't known of one."""
    steps = [it.steps for it in row.outcomes if it.steps is not None]
    return f"{sum(steps)}" if len(steps) == len(row.outcomes) else "-"


def cells_of(exercise: Exercise, row: Row) -> list[str]:
    return [
        row.user,
        row.program,
        f"{row.points} of {exercise.points()}",
        steps_of(row),
        *(it.result for it in row.outcomes),
        row.remark,
    ]


def short(text: str) -> str:
    """A remark on one line of the table."""
    line = " ".join(escaped(text, "\n").split("\n"))
    return line if len(line) <= MOST_REMARK else f"{line[:MOST_REMARK - 2]}.."


def summary(exercise: Exercise, rows: list[Row]) -> Iterator[str]:
    """What is said below the table: how many have all points, and of each test how many came through."""
    whole = sum(row.points == exercise.points() for row in rows)
    yield f"{exercise.title}: {whole} of {len(rows)} have all {exercise.points()} points"
    for at, test in enumerate(exercise.tests):
        yield f"{at + 1} {test.name}: {sum(row.outcomes[at].result == 'ok' for row in rows)} of {len(rows)}"


def as_table(exercise: Exercise, rows: list[Row]) -> list[str]:
    """The lines of a table."""
    cells = [head_of(exercise), *(cells_of(exercise, row) for row in rows)]
    cells = [[*(escaped(it) for it in row[:-1]), short(row[-1])] for row in cells]
    widths = [max(len(row[at]) for row in cells) for at in range(len(cells[0]))]
    right = {3}
    lines = [
        "  ".join(
            it.rjust(width) if at in right else it.ljust(width) for at, (it, width) in enumerate(zip(row, widths))
        ).rstrip()
        for row in cells
    ]
    return [*lines, "", *(escaped(it) for it in summary(exercise, rows))]


def plain(cell: str) -> str:
    """A cell that no spreadsheet takes for a formula."""
    text = escaped(cell, "\n")
    return f"'{text}" if text.startswith(FORMULA) and text != "-" else text


def as_csv(exercise: Exercise, rows: list[Row]) -> str:
    """The table for a spreadsheet, with the students' names as they are."""
    it = io.StringIO()
    table = csv.writer(it)
    table.writerow(
        plain(cell)
        for cell in [
            "user",
            "name",
            "program",
            "points",
            "of",
            "steps",
            *(test.name for test in exercise.tests),
            "remark",
        ]
    )
    for row in rows:
        table.writerow(
            plain(f"{cell}")
            for cell in [
                row.user,
                row.person,
                row.program,
                row.points,
                exercise.points(),
                steps_of(row),
                *(one.result for one in row.outcomes),
                row.remark,
            ]
        )
    return it.getvalue()


def cell_of(outcome: Outcome) -> str:
    """A test's cell on the page."""
    more = "".join(
        f"<div>{html.escape(escaped(it))}</div>"
        for it in [outcome.remark, *(f"after {one}" for one in outcome.sent)]
        if it
    )
    why = f"<pre>{html.escape(escaped(outcome.why, chr(10)))}</pre>" if outcome.why else ""
    kind = outcome.result.split(" ")[0].replace("-", "none")
    return f'<td class="{kind}">{html.escape(outcome.result)}{more}{why}</td>'


def as_page(exercise: Exercise, rows: list[Row]) -> str:
    """The page: all that is known of each test."""
    heads = "".join(
        f"<th>{html.escape(escaped(it))}</th>"
        for it in ["student", "points", "steps", *(t.name for t in exercise.tests)]
    )
    body = ""
    for row in rows:
        is_done = any(it.result != "-" for it in row.outcomes)
        tests = (
            "".join(cell_of(it) for it in row.outcomes)
            if is_done
            else f'<td class="wrong" colspan="{len(exercise.tests)}">{html.escape(escaped(row.remark))}</td>'
        )
        who = f"{html.escape(escaped(row.person))}<br><small>{html.escape(escaped(row.program))}</small>"
        body += (
            f'<tr><td>{who}</td><td class="number">{row.points} of {exercise.points()}</td>'
            f'<td class="number">{steps_of(row)}</td>{tests}</tr>\n'
        )
    told = "".join(f"<li>{html.escape(escaped(it))}</li>" for it in summary(exercise, rows))
    return page(exercise.title, f"<table>\n<tr>{heads}</tr>\n{body}</table>\n<ul>{told}</ul>", SHEET)
