"""Forms of the textbooks: each has the core of a text without it, which was written by hand from the rule of its lowering."""

import pytest

from cores import core_of, mistakes_of
from nadzsumek.occam.core import ElementKind

# The form, and the same by hand. Words that only the core has come in the order in which they are named, after those before them.
PAIRS = {
    "several assignments find all values first": (
        "INT x, y:\nSEQ\n  x, y := y, x\n",
        "INT x, y:\nINT s, t:\nSEQ\n  s := y\n  t := x\n  x := s\n  y := t\n",
    ),
    "CASE is a choice for each option, and its order makes no difference": (
        "INT x:\nSEQ\n  in ? x\n  CASE x\n    ELSE\n      out ! 0\n    1, 2\n      out ! 1\n    3\n      out ! 2\n",
        "INT x:\nSEQ\n  in ? x\n  IF\n    (x = 1) OR (x = 2)\n      out ! 1\n    x = 3\n      out ! 2\n    TRUE\n      out ! 0\n",
    ),
    "what isn't a variable is found once in a CASE": (
        "INT x:\nSEQ\n  in ? x\n  CASE x + 1\n    5\n      SKIP\n",
        "INT x:\nINT s:\nSEQ\n  in ? x\n  s := x + 1\n  IF\n    s = 5\n      SKIP\n",
    ),
    "choices of an inner IF are those of the outer one": (
        "INT x:\nSEQ\n  in ? x\n  IF\n    x = 1\n      out ! 1\n    IF\n      x = 2\n        out ! 2\n    TRUE\n      out ! 3\n",
        "INT x:\nSEQ\n  in ? x\n  IF\n    x = 1\n      out ! 1\n    x = 2\n      out ! 2\n    TRUE\n      out ! 3\n",
    ),
    "an IF with a replicator looks for the first": (
        "INT x:\nSEQ\n  in ? x\n  IF\n    IF i = 3 FOR x\n      i = 7\n        out ! i\n    TRUE\n      SKIP\n",
        "INT x:\nINT i, left:\nBOOL found:\nSEQ\n  in ? x\n  IF\n    TRUE\n      SEQ\n        i := 3\n        left := x\n"
        "        found := FALSE\n        IF\n          left < 0\n            STOP\n          TRUE\n            SKIP\n"
        "        WHILE (NOT found) AND (left > 0)\n          SEQ\n            found := TRUE\n            IF\n              i = 7\n"
        "                out ! i\n              TRUE\n                SEQ\n                  found := FALSE\n"
        "                  i := i PLUS 1\n                  left := left - 1\n        IF\n          found\n            SKIP\n"
        "          TRUE\n            SKIP\n",
    ),
    "alternatives of an inner ALT are those of the outer one": (
        "[3]CHAN OF INT c:\nINT x:\nALT\n  in ? x\n    SKIP\n  ALT i = 0 FOR 3\n    c[i] ? x\n      out ! i\n",
        "[3]CHAN OF INT c:\nINT x:\nALT\n  in ? x\n    SKIP\n  c[0] ? x\n    out ! 0\n  c[1] ? x\n    out ! 1\n"
        "  c[2] ? x\n    out ! 2\n",
    ),
    "a FUNCTION with IS": (
        "INT FUNCTION f (VAL INT n) IS n * n:\nINT x:\nSEQ\n  in ? x\n  x := f (x) + f (x + 1)\n",
        "INT x:\nINT r, n, s:\nSEQ\n  in ? x\n  r := x * x\n  n := x + 1\n  s := n * n\n  x := r + s\n",
    ),
    "a FUNCTION with VALOF is done before the statement": (
        "INT FUNCTION f (VAL INT n)\n  INT a:\n  VALOF\n    a := n + 1\n    RESULT a\n:\nINT x:\nSEQ\n  in ? x\n  out ! f (x)\n",
        "INT x:\nINT a:\nSEQ\n  in ? x\n  a := x + 1\n  out ! a\n",
    ),
    "the condition of WHILE calls before each turn": (
        "BOOL FUNCTION f (VAL INT n) IS n > 3:\nINT x:\nSEQ\n  in ? x\n  WHILE f (x)\n    x := x - 1\n",
        "INT x:\nBOOL r, s:\nSEQ\n  in ? x\n  s := TRUE\n  WHILE s\n    SEQ\n      r := x > 3\n      s := r\n      IF\n        s\n"
        "          x := x - 1\n        TRUE\n          SKIP\n",
    ),
    "the right side of AND calls only if it must": (
        "BOOL FUNCTION f (VAL INT n) IS (10 / n) = 2:\nINT x:\nBOOL b:\nSEQ\n  in ? x\n  b := (x <> 0) AND f (x)\n",
        "INT x:\nBOOL b:\nBOOL r, s:\nSEQ\n  in ? x\n  s := x <> 0\n  IF\n    s\n      SEQ\n        r := (10 / x) = 2\n        s := r\n"
        "    TRUE\n      SKIP\n  b := s\n",
    ),
    "several results": (
        "INT, INT FUNCTION f (VAL INT n) IS n + 1, n - 1:\nINT x, y:\nSEQ\n  in ? x\n  x, y := f (x)\n",
        "INT x, y:\nINT r, s:\nINT t, u:\nSEQ\n  in ? x\n  r := x + 1\n  s := x - 1\n  t := r\n  u := s\n  x := t\n  y := u\n",
    ),
    "CHAN OF BOOL has messages of a word": (
        "CHAN OF BOOL c:\nPLACE c AT 1:\nc ! TRUE\n",
        "CHAN OF INT c:\nPLACE c AT 1:\nc ! 1\n",
    ),
}


@pytest.mark.parametrize("name", PAIRS)
def test_a_form_has_the_core_that_was_written_by_hand(name: str) -> None:
    form, by_hand = map(core_of, PAIRS[name])
    assert form == by_hand


LINK1 = "PLACE c AT 1:\n"
WORD, BYTE = ElementKind.WORD, ElementKind.BYTE


def number(value: int) -> tuple[str, int]:
    return ("Number", value)


def sent(kind: ElementKind, value: tuple[object, ...]) -> tuple[object, ...]:
    return ("Output", ("Link", 1), kind, value)


def test_an_array_of_arrays_is_one_array() -> None:
    # [3][4]: element [1][2] is number 1 * 4 + 2 = 6, row 2 is elements 8 to 11, and row 1 elements 4 to 7
    core = core_of("[3][4]INT a:\nINT i:\nSEQ\n  a[1][2] := 5\n  a[2] := a[1]\n  i := SIZE a\n  i := SIZE a[0]\n")
    rows = (
        ("Assign", 6, number(5)),
        ("Copy", (8, 4, WORD), (4, 4, WORD)),
        ("Assign", 12, number(3)),
        ("Assign", 12, number(4)),
    )
    assert core == ("Sequence", *rows)


def test_each_subscript_is_checked_by_itself() -> None:
    core = core_of("[3][4]INT a:\nINT i, j:\na[i][j] := 0\n")
    row = ("Two", "Times", ("Below", 3, ("Variable", 12)), number(4))
    assert core == ("AssignElement", (0, 12, WORD), ("Two", "Plus", row, ("Below", 4, ("Variable", 13))), number(0))


def test_the_parts_of_a_message_are_messages() -> None:
    core = core_of("PROTOCOL p IS INT; BYTE:\nCHAN OF p c:\n" + LINK1 + "c ! 7; 'a'\n")
    assert core == ("Sequence", sent(WORD, number(7)), sent(BYTE, number(97)))


def test_a_tag_is_a_byte_in_the_order_of_its_declaration() -> None:
    tags = "PROTOCOL p\n  CASE\n    stop\n    some; INT\n:\nCHAN OF p c:\n"
    assert core_of(tags + LINK1 + "c ! some; 5\n") == ("Sequence", sent(BYTE, number(1)), sent(WORD, number(5)))
    assert core_of(tags + LINK1 + "c ! stop\n") == sent(BYTE, number(0))


def test_a_tag_is_received_and_then_chosen_by() -> None:
    tags = "PROTOCOL p\n  CASE\n    stop\n    some; INT\n:\nCHAN OF p c:\nPLACE c AT link1.in:\nINT x:\n"
    core = core_of(tags + "c ? CASE\n  some; x\n    out ! x\n  stop\n    SKIP\n")
    some = ("Sequence", ("Input", ("Link", 5), WORD, 0), ("Output", ("Link", 0), WORD, ("Variable", 0)))
    stop = ("If", ("Two", "Equal", ("Variable", 1), number(0)), "Skip", "Stop")
    choice = ("If", ("Two", "Equal", ("Variable", 1), number(1)), some, stop)
    assert core == ("Sequence", ("Input", ("Link", 5), BYTE, 1), choice)


def test_a_counted_array_is_a_count_and_its_elements() -> None:
    core = core_of("CHAN OF INT::[]BYTE c:\n" + LINK1 + "[8]BYTE b:\nc ! 3::b\n")
    # b is words 0 and 1; the count is kept in 2; 3 and 4 are the index and its count
    element = ("Element", (0, 8, BYTE), ("Variable", 3))
    turn = ("Repeat", 3, number(0), ("Variable", 2), sent(BYTE, element))
    assert core == ("Sequence", ("Assign", 2, number(3)), sent(WORD, ("Variable", 2)), turn)


def test_a_count_that_is_received_may_not_be_more_than_the_array_has() -> None:
    core = core_of("CHAN OF INT::[]BYTE c:\nPLACE c AT link1.in:\n[8]BYTE b:\nINT n:\nc ? n::b\n")
    turn = ("InputElement", ("Link", 5), (0, 8, BYTE), ("Variable", 3))
    count = ("Below", 9, ("Variable", 2))
    assert core == ("Sequence", ("Input", ("Link", 5), WORD, 2), ("Repeat", 3, number(0), count, turn))


def test_a_part_of_an_array_at_constants_is_an_array() -> None:
    core = core_of("[8]INT a:\n[a FROM 2 FOR 3] := [a FROM 5 FOR 3]\n")
    assert core == ("Copy", (2, 3, WORD), (5, 3, WORD))


WRONG = {
    "INT x:\nCASE x\n  1\n    SKIP\n  1\n    SKIP\n": "line 5, column 3: fault 46",
    "INT x:\nCASE x\n  ELSE\n    SKIP\n  ELSE\n    SKIP\n": "line 5, column 3: fault 46",
    "INT x, y:\nx, y := 1\n": "line 2, column 1: fault 51",
    "PROTOCOL p\n  CASE\n    a\n    a\n:\nSKIP\n": "line 4, column 5: fault 17",
    "PROTOCOL p IS INT; INT:\nCHAN OF p c:\nPLACE c AT 0:\nc ! 1\n": "line 4, column 1: fault 47",
    "INT x:\nINT FUNCTION f ()\n  VALOF\n    x := 1\n    RESULT x\n:\nx := f ()\n": "line 4, column 5: fault 27",
    "CHAN OF INT c:\nINT FUNCTION f ()\n  INT x:\n  VALOF\n    c ? x\n    RESULT x\n:\nINT y:\ny := f ()\n": "line 5, column 5: fault 48",
    "[4]INT a:\n[a FROM 2 FOR 3] := [a FROM 0 FOR 3]\n": "line 2, column 9: fault 24",
    "CHAN OF INT::[]BYTE c:\nPLACE c AT 0:\n[3]BYTE b:\nc ! 4::b\n": "line 4, column 5: fault 24",
}


@pytest.mark.parametrize("text", WRONG)
def test_a_mistake_in_a_form_is_told_where_it_is(text: str) -> None:
    assert mistakes_of(text)[0].startswith(WRONG[text] + ":")
