"""Units of occam that no front end should write: the lab refuses each with fault 45 and the place of what is wrong, and a right one
beside it is compiled. What is expected is worked by hand from what nadzsumek/occam/unit.py says of a unit."""

import json
import os
import threading
from typing import Any

import pytest
from support.trials import Ran, program, put, run

WRONG_TEXT = 4
HEAD = "line 1: fault 45: the compiler made a mistake, and its front end gave no program: "
# x := 3 + 4, twice, at lines 2 and 3 of a text, and x sent by the output of link 0.
RIGHT: dict[str, Any] = {
    "version": 1,
    "text": "INT x:\nSEQ\n  x := 7\n",
    "mistakes": [],
    "warnings": [],
    "tables": [],
    "variables": [{"name": "x", "type": "INT", "line": 1, "first": 0, "words": 1, "length": None}],
    "links": [{"number": 0, "name": "to", "line": 1}],
    "procedures": [{"name": "p", "line": 1}],
    "instances": [{"line": 2, "column": 1, "procedure": 0}],
    "folds": [{"Two": ["Add", 3, 4, 7]}, {"One": ["Negate", 1, 0xFFFFFFFF]}],
    "expressions": [{"Number": 7}, {"Variable": 0}],
    "processes": [{"Assign": [0, 0]}, {"Line": [3, 3, 0]}, {"Output": [{"Link": 0}, "Word", 1]}, {"Sequence": [1, 2]}],
}
DEEP = 5_000
# ajw 3, sethalterr, ldc 7, stl 1, then mint, as the output of link 0 is at 80000000, ldl 1 and outword; stopp.
CODE = "b3" "25f8" "47d1" "24f2" "71ff" "21f5"


def changed(**members: Any) -> str:
    """The right unit with other members, as a line."""
    return json.dumps({**RIGHT, **members})


def without(member: str) -> str:
    return json.dumps({name: value for name, value in RIGHT.items() if name != member})


def replaced(list_name: str, index: int, row: Any) -> str:
    """The right unit with another row."""
    rows = [*RIGHT[list_name]]
    rows[index] = row
    return changed(**{list_name: rows})


def variable(**members: Any) -> list[dict[str, Any]]:
    return [{**RIGHT["variables"][0], **members}]


def nested() -> str:
    """A unit whose expression is one level too deep."""
    rows: list[Any] = [{"Number": 1}, *({"One": ["Not", it]} for it in range(DEEP)), {"Variable": 0}]
    processes = [
        {"Assign": [0, DEEP]},
        *RIGHT["processes"][1:2],
        {"Output": [{"Link": 0}, "Word", DEEP + 1]},
        RIGHT["processes"][3],
    ]
    return changed(expressions=rows, processes=processes)


BOUNDS = "a process names a word or a link that isn't there"
AGAIN = " names a row that isn't before it, or that another row names"
# Each unit with what is said of it.
WRONG: list[tuple[str, str]] = [
    ("", "nothing answered (the command `lab` starts the front end)"),
    (changed(version=2), "it has version 2, not 1"),
    (replaced("folds", 0, {"Two": ["Add", 3, 4, 8]}), "folds[0] has another result"),
    (replaced("folds", 1, {"One": ["Negate", 0x80000000, 0x80000000]}), "folds[1] has another result"),
    (replaced("folds", 0, {"Two": ["Divide", 3, 0, 0]}), "folds[0] has another result"),
    (replaced("processes", 0, {"Assign": [1, 0]}), BOUNDS),
    (replaced("expressions", 1, {"Variable": 1}), BOUNDS),
    (replaced("processes", 2, {"Output": [{"Link": 4}, "Word", 1]}), BOUNDS),
    (replaced("processes", 2, {"Output": [{"Inside": 1}, "Word", 1]}), BOUNDS),
    (replaced("processes", 0, {"Repeat": [0, 0, 1, 2]}), "processes[0]" + AGAIN),
    (replaced("processes", 1, {"Line": [3, 3, 1]}), "processes[1]" + AGAIN),
    (replaced("processes", 3, {"Sequence": [1, 1]}), "processes[3]" + AGAIN),
    (replaced("processes", 2, {"Output": [{"Link": 0}, "Word", 0]}), "processes[2]" + AGAIN),
    (replaced("processes", 2, "Skip"), "no row names expressions[1]"),
    (changed(processes=[*RIGHT["processes"], "Skip"]), "no row names processes[3]"),
    (changed(expressions=[], processes=[]), "it has no process"),
    (nested(), f"expressions[{DEEP}] is nested too deeply"),
    (
        changed(variables=variable(first=1)),
        "variables[0] doesn't follow the words before it, or there are too many words",
    ),
    (
        changed(variables=variable(words=16_385)),
        "variables[0] doesn't follow the words before it, or there are too many words",
    ),
    (changed(tables=[1, 2]), "variables[1] doesn't follow the words before it, or there are too many words"),
    (changed(links=[{"number": 8, "name": "to", "line": 1}]), "links[0] is no link, or one that is there already"),
    (changed(links=[*RIGHT["links"], *RIGHT["links"]]), "links[1] is no link, or one that is there already"),
    (changed(instances=[{"line": 2, "column": 1, "procedure": 1}]), "instances[0] has no procedure"),
]
# Units that aren't JSON of the right form. The words for them are those of the library that reads JSON; the place is told.
UNREADABLE: list[str] = [
    "x",
    changed()[:-1],
    without("folds"),
    changed(more=1),
    replaced("processes", 0, {"Assignment": [0, 0]}),
    replaced("processes", 0, {"Assign": [0]}),
    replaced("expressions", 0, {"Number": 0x1_0000_0000}),
    replaced("expressions", 0, {"Number": -1}),
    replaced("folds", 0, {"Two": ["Sum", 3, 4, 7]}),
]


def answered(folder: str, unit: str) -> Ran:
    """What the lab makes of a unit."""
    os.mkfifo(f"{folder}/asked")
    os.mkfifo(f"{folder}/answered")
    text = put(f"{folder}/x.occ", "SKIP\n")

    def answer() -> None:
        with open(f"{folder}/asked", "rb") as asked:
            asked.read()
        with open(f"{folder}/answered", "w", encoding="utf-8") as file:
            file.write(unit)

    threading.Thread(target=answer, daemon=True).start()
    return run([program("lab"), "occam", text, "--code"], more={"NADZSUMEK_OCCAM": folder})


@pytest.mark.parametrize(("unit", "said"), WRONG, ids=[said for _, said in WRONG])
def test_wrong_units(unit: str, said: str, folder: str) -> None:
    assert answered(folder, unit) == (WRONG_TEXT, b"", f"{HEAD}{said}\n".encode())


@pytest.mark.parametrize("unit", UNREADABLE, ids=range(len(UNREADABLE)))
def test_units_that_are_not_read(unit: str, folder: str) -> None:
    status, output, errors = answered(folder, unit)
    assert (status, output) == (WRONG_TEXT, b"")
    assert errors.decode().startswith(HEAD)
    assert b" line 1 column " in errors


def test_the_right_unit(folder: str) -> None:
    status, output, errors = answered(folder, changed())
    assert (status, output.decode(), errors) == (0, f"{CODE}\n", b"")


def test_mistakes(folder: str) -> None:
    said = ["line 1, column 1: fault 1: x", "More is wrong"]
    got = answered(folder, changed(mistakes=said))
    assert got == (WRONG_TEXT, b"", "".join(f"{it}\n" for it in said).encode())
