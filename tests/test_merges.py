"""Wild programs and routes beside a neighbour, in every merge: each part of wild.replay, whose answers were worked by hand for
ann's domain alone, is merged line by line with a run of bob's, who pokes, peeks and boots a program. Each line must be answered
in each merge as it is alone. The farm of `lab rows` answers, on one thread; test_bad_input runs wild programs beside a neighbour in
threads."""

import itertools
from collections.abc import Iterator
from math import comb

import pytest
from support.trials import TOP, run, text_of

OPENED = "reopen = opened"
NEIGHBOUR = [
    "1 configs 01000703 = 4 nothing",
    "1 writes 0 0048000080785634120148000080 = 14 written",
    "1 settle 256 10000 = quiet",
    "1 writes 0 08b524f22441fe21f5 = 9 written",
    "1 settle 256 10000 = quiet",
    "6 times 1 read 0 = 78, 56, 34, 12, 41, none",
    "1 look 0 = idle overruns 0 0 0 0",
]


def parts() -> Iterator[tuple[str, str, list[str]]]:
    """Each part of the text: what it shows, its plan, and its lines."""
    for farm in text_of(f"{TOP}/crates/lab/data/wild.replay").split("===\n"):
        plan, script = farm.split("---\n", 1)
        for paragraph in script.split("\n\n"):
            lines = paragraph.strip("\n").split("\n")
            rows = [it for it in lines if it and it != OPENED and not it.startswith("#")]
            if rows:
                yield lines[0], plan, rows


def merges(ours: list[str], theirs: list[str]) -> Iterator[list[str]]:
    """Every merge of two lists."""
    for places in itertools.combinations(range(len(ours) + len(theirs)), len(theirs)):
        left, right, taken = iter(ours), iter(theirs), set(places)
        yield [next(right) if place in taken else next(left) for place in range(len(ours) + len(theirs))]


PARTS = list(parts())


@pytest.mark.long
@pytest.mark.parametrize(("plan", "rows"), [it[1:] for it in PARTS], ids=[it[0] for it in PARTS])
def test_merges(plan: str, rows: list[str], lab: str, folder: str) -> None:
    with open(f"{folder}/merges.replay", "w", encoding="ascii") as file:
        file.write(f"{plan}---\n")
        for merge in merges(rows, NEIGHBOUR):
            file.write("\n".join([OPENED, *merge]) + "\n")
    status, output, errors = run([lab, "rows", file.name], seconds=600)
    assert (status, errors) == (0, b"")
    # each line is a row, and so is the opening of each merge
    count = comb(len(rows) + len(NEIGHBOUR), len(NEIGHBOUR))
    assert output.decode().endswith(f": {count * (1 + len(rows) + len(NEIGHBOUR))} rows, 0 wrong\n")
