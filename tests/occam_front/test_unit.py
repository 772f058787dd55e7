"""The unit of a text: its shape, its variables, what was evaluated, and what is told if the compiler itself fails."""

import json
from typing import Any

import pytest

from cores import HEAD
from nadzsumek.occam import names, source_names, unit
from nadzsumek.occam.unit import unit_of

FIELDS = (
    "version text mistakes warnings tables variables links procedures instances folds expressions processes".split()
)
EMPTY = FIELDS[3:]
TEXT = """\
VAL t IS [7, 8]:
CHAN OF BYTE to:
PLACE to AT link0.out:
[5]BYTE b:
INT x:
PROC add (VAL INT n)
  x := x + n
:
SEQ
  SEQ i = 0 FOR 2
    add (t[i])
  out.int (x, to)
"""


def read(text: str | bytes, with_core: bool = False) -> Any:
    """The unit of a text, as JSON."""
    return json.loads(unit_of(text.encode() if isinstance(text, str) else text, with_core=with_core))


def test_a_unit_has_its_fields_in_one_line() -> None:
    line = unit_of(TEXT.encode())
    assert "\n" not in line
    assert list(json.loads(line)) == FIELDS
    assert json.loads(line)["version"] == 1
    assert json.loads(line)["text"] == TEXT


def test_the_core_is_there_if_it_is_asked_for() -> None:
    asked = read("INT x:\nx := 1 + 1\n", with_core=True)
    assert asked["core"] == "INT x:\nx := 2\n"
    assert "core" not in read("SKIP\n")


def test_a_wrong_text_has_mistakes_alone() -> None:
    wrong = read("INT x:\nSEQ\n  x := y\n  z := 1\n")
    assert wrong["mistakes"] == [
        'line 3, column 8: fault 16: expected a name that is declared, not "y"',
        'line 4, column 3: fault 16: expected a name that is declared, not "z"',
    ]
    assert not any(wrong[name] for name in EMPTY)


def test_more_than_twenty_mistakes_are_said_to_be_more() -> None:
    lines = read("SEQ\n" + "  x := 1\n" * 30)["mistakes"]
    assert len(lines) == 21 and lines[-1] == "More is wrong"


def test_bytes_that_are_no_utf_8_are_replaced_in_the_text() -> None:
    wrong = read(b"-- \xff\nSKIP\n")
    assert wrong["mistakes"][0].startswith("line 1, column 1: fault 1: expected a comment in UTF-8")
    assert wrong["text"] == "-- \ufffd\nSKIP\n"


def test_each_word_is_in_one_variable() -> None:
    found = read(TEXT)
    rows = [(it["name"], it["type"], it["line"], it["first"], it["words"], it["length"]) for it in found["variables"]]
    # two words of the table, five bytes in two words, x, and the index with its count
    assert rows[:5] == [
        (None, "INT", 0, 0, 2, None),
        ("b", "BYTE", 4, 2, 2, 5),
        ("x", "INT", 5, 4, 1, None),
        ("i", "INT", 10, 5, 1, None),
        (None, "INT", 10, 6, 1, None),
    ]
    assert found["tables"] == [7, 8]
    end = 0
    for it in found["variables"]:
        assert it["first"] == end
        end += it["words"]


def test_what_is_in_the_prelude_has_no_name_and_the_line_of_its_instance() -> None:
    # n of add is evaluated, and has its name and line. Of out.int x is given by its own word; digits, rest, first and an index with
    # its count have no name
    rows = [(it["name"], it["line"], it["words"]) for it in read(TEXT)["variables"][5:]]
    assert rows == [("n", 6, 1), (None, 12, 3), (None, 12, 1), (None, 12, 1), (None, 12, 1), (None, 12, 1)]


def test_links_procedures_and_instances() -> None:
    found = read(TEXT)
    assert found["links"] == [{"number": 0, "name": "to", "line": 2}]
    assert found["procedures"] == [
        {"name": "out.string", "line": 0},
        {"name": "out.int", "line": 0},
        {"name": "add", "line": 6},
    ]
    assert found["instances"] == [{"line": 11, "column": 5, "procedure": 2}, {"line": 12, "column": 3, "procedure": 1}]


def test_a_call_of_a_function_is_an_instance_with_a_line() -> None:
    found = read(HEAD + "INT FUNCTION f (VAL INT n) IS n * n:\nINT x:\nSEQ\n  in ? x\n  x := 1 + f (x)\n")
    assert found["procedures"][2] == {"name": "f", "line": 5}
    assert found["instances"] == [{"line": 9, "column": 12, "procedure": 2}]
    assert any("Line" in it and it["Line"][:2] == [9, 12] for it in found["processes"])


def test_folds_are_each_told_once_with_operands_and_result() -> None:
    text = "INT x:\nSEQ\n  x := 3 + 4\n  x := -3\n  x := (3 + 4) * 2\n  x := ~0\n"
    assert read(text)["folds"] == [
        {"Two": ["Add", 3, 4, 7]},
        {"One": ["Negate", 3, 0xFFFF_FFFD]},
        {"Two": ["Multiply", 7, 2, 14]},
        {"One": ["Complement", 0, 0xFFFF_FFFF]},
    ]


def named_rows(found: Any) -> tuple[list[int], list[int]]:
    """How often each row of processes and of expressions is named by another."""
    processes, expressions = [0] * len(found["processes"]), [0] * len(found["expressions"])
    # where a row names processes, and where it names expressions
    inner = {
        "Line": [2],
        "Sequence": [0, 1],
        "Parallel": [0, 1],
        "Choose": [1, 2],
        "If": [1, 2],
        "While": [1],
        "Repeat": [3],
    }
    values = {
        "Assign": [1],
        "AssignElement": [1, 2],
        "InputElement": [2],
        "Output": [2],
        "If": [0],
        "While": [0],
        "Repeat": [1, 2],
    }
    parts = {"Element": [1], "One": [1], "Two": [1, 2], "And": [0, 1], "Or": [0, 1], "Below": [1]}
    for place, row in enumerate(found["expressions"]):
        ((name, fields),) = row.items()
        for at in parts.get(name, []):
            assert fields[at] < place
            expressions[fields[at]] += 1
    for place, row in enumerate(found["processes"]):
        ((name, fields),) = row.items() if isinstance(row, dict) else [(row, [])]
        for at in inner.get(name, []):
            assert fields[at] < place
            processes[fields[at]] += 1
        for at in values.get(name, []):
            expressions[fields[at]] += 1
        for channel in [it for it in fields if isinstance(it, dict)]:
            condition = channel.get("Skip", channel.get("Input", [None])[0] if "Input" in channel else None)
            if condition is not None:
                expressions[condition] += 1
            inside = channel["Input"][1] if "Input" in channel else channel
            if "Element" in inside:
                expressions[inside["Element"][1]] += 1
    return processes, expressions


def test_each_row_is_named_once_and_the_last_process_is_the_program() -> None:
    alt = "[2]CHAN OF INT c:\nINT x, y:\nSEQ\n  in ? y\n  ALT\n    (y > 1) & c[y] ? x\n      SKIP\n    TRUE & SKIP\n      STOP\n"
    for text in (TEXT, HEAD + alt, HEAD + "WHILE TRUE\n  PAR\n    SKIP\n    SKIP\n"):
        processes, expressions = named_rows(read(text))
        assert processes == [1] * (len(processes) - 1) + [0]
        assert set(expressions) <= {1}


def test_long_and_deep_texts_need_no_deep_rows() -> None:
    long = read("INT x:\nSEQ\n" + "  x := 1\n" * 5_000)
    assert len(long["processes"]) == 3 * 5_000 - 1
    chain = read("INT x:\nIF\n" + "".join(f"  x = {it}\n    SKIP\n" for it in range(1_000)))
    assert chain["mistakes"] == []
    deep = "".join("  " * it + "SEQ\n" for it in range(64))
    assert read(deep + "  " * 64 + "SKIP\n")["mistakes"] == []
    wrong = read(deep + "  " * 64 + "SEQ\n")["mistakes"]
    assert wrong == ["line 65, column 129: fault 38: expected nesting of at most 64"]


NESTED = {
    "parentheses": "x := " + "(" * 70 + "1" + ")" * 70,
    "brackets of a type": "[2]" * 400 + "INT a:",
    "tables": "VAL t IS " + "[" * 400 + "1" + "]" * 400 + ":",
    "calls": "x := " + "f (" * 400 + "1" + ")" * 400,
    "parts": "x := " + "[" * 400 + "a" + " FROM 0 FOR 1]" * 400,
}


@pytest.mark.parametrize("name", NESTED)
def test_nesting_has_a_bound(name: str) -> None:
    assert "fault 38: expected nesting of at most 64" in read(NESTED[name] + "\nSKIP\n")["mistakes"][0]


def fails(*_: object) -> None:
    raise KeyError("anything")


def test_a_failure_of_the_compiler_is_told_as_its_own_mistake(monkeypatch: pytest.MonkeyPatch) -> None:
    monkeypatch.setattr(names.Namer, "case", fails)
    told = read("INT x:\nSEQ\n  x := 1\n  CASE x\n    1\n      SKIP\n")["mistakes"]
    said = (
        "the compiler fails here (KeyError), which is a mistake of its own. Whoever keeps the farm should get this text"
    )
    assert told == [f"line 4, column 3: fault 49: {said}"]


@pytest.mark.parametrize("part", [(source_names.SourceNames, "process"), (unit, "variables_of")])
def test_a_failure_elsewhere_is_told_at_line_1(monkeypatch: pytest.MonkeyPatch, part: tuple[object, str]) -> None:
    monkeypatch.setattr(*part, fails)
    assert read("SKIP\n")["mistakes"][0].startswith("line 1, column 1: fault 49: ")
