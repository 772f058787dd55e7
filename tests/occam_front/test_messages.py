"""What is said of wrong texts and of what hardly is meant, and the text of a core."""

import pytest

from cores import mistakes_of
from nadzsumek.occam.compiling import compiled
from nadzsumek.occam.constants import one_value, two_value
from nadzsumek.occam.core_text import text_of_core
from nadzsumek.occam.mistakes import is_near, nearest, quoted
from nadzsumek.occam.words import statements_of

LEAST = 0x8000_0000


def test_a_word_is_near_a_name_by_slips() -> None:
    assert is_near("WHLE", "WHILE", 1) and is_near("PRA", "PAR", 1) and is_near("SKIIP", "SKIP", 1)
    # a word of less than six letters has one slip at most, and one of two letters none
    assert not is_near("WHL", "WHILE", 2) and not is_near("OR", "FOR", 2)
    assert is_near("PROTOKL", "PROTOCOL", 2)
    assert nearest("conut", ["count", "cont"]) == "count"


def test_a_long_word_is_shown_up_to_24_letters() -> None:
    assert quoted("a" * 24) == '"' + "a" * 24 + '"'
    assert quoted("a" * 25) == '"' + "a" * 24 + '..."'
    assert quoted("\x7f") == '"\\u{7f}"'


def test_a_line_goes_on_after_an_operator() -> None:
    rows = statements_of(b"x := 1 +\n  2 -- both\n\nSKIP\n")
    assert [[it.text for it in row.words] for row in rows] == [["x", ":=", "1", "+", "2", ""], ["SKIP", ""]]


MISTAKES = {
    "": "line 1, column 1: fault 4: expected a process, not the end of the text",
    "seq\n": 'line 1, column 1: fault 4: expected a process, not "seq". It is written in capitals: SEQ',
    "WHLE TRUE\n  SKIP\n": 'line 1, column 1: fault 4: expected a process, not "WHLE". Is it WHILE?',
    "INT number:\nnumbr := 1\n": 'line 2, column 1: fault 16: expected a name that is declared, not "numbr". Is it number (line 1)?',
    "INT x:\nx := 2147483647 + 1\n": "line 2, column 6: fault 23: expected a constant that has a value, not an overflow",
    "\ufeffSKIP\n": 'line 1, column 1: fault 1: expected printed characters of ASCII outside comments, not "\\u{feff}". An '
    "editor puts this byte order mark before a file: save it as UTF-8 without one",
    "CHAN OF BYTE c:\nPLACE c AT link0:\nc ! 1\n": 'line 2, column 12: fault 16: expected a name that is declared, not "link0". '
    "The channels of a link have names of their own: link0.out and link0.in",
    'PRINT "hi"\n': 'line 1, column 1: fault 4: expected a process, not "PRINT". A PROC sends a text: out.string ("hi", to), where to '
    "is a CHAN OF BYTE",
    'print ("hi")\n': 'line 1, column 1: fault 16: expected a name that is declared, not "print". A PROC sends a text: '
    'out.string ("hi", to), where to is a CHAN OF BYTE',
    "print n\n": 'line 1, column 1: fault 4: expected a process, not "print". A PROC sends a number in digits: out.int (n, to), where to '
    "is a CHAN OF BYTE",
    "out.int n, to\n": 'line 1, column 1: fault 4: expected a process, not "out.int". The values of a PROC are in parentheses: '
    "out.int (.., to)",
    "TIMER t:\n": "line 1, column 1: fault 5: TIMER is left out here. The farm's processors have no timers",
}


@pytest.mark.parametrize("text", MISTAKES)
def test_a_mistake_is_told_with_its_place_and_number(text: str) -> None:
    assert mistakes_of(text)[0] == MISTAKES[text]


WARNINGS = {
    "INT x:\nSKIP\n": ["line 1, column 5: warning 43: x is never used"],
    "INT x:\nINT y:\ny := x\n": ["line 3, column 1: warning 42: x (line 1) is used before anything was put into it"],
    "CHAN OF INT c:\nc ! 1\n": [
        "line 1, column 13: warning 41: nobody receives from c, which is sent to in line 2. "
        "A channel at a link is placed: PLACE c AT link0.out"
    ],
    # what one process alone sends and receives never comes, wherever the two stand in it
    "CHAN OF INT c:\nINT x:\nSEQ\n  c ! 1\n  c ? x\n": [
        "line 1, column 13: warning 52: by c a process waits for itself, since it sends in line 4 and receives in line 5. "
        "The two belong to components of a PAR"
    ],
    "[2]CHAN OF INT c:\nINT x, y:\nPAR\n  c[0] ! 1\n  SEQ\n    c[0] ? x\n    WHILE x > 0\n      c[1] ! 2\n    c[1] ? y\n": [
        "line 1, column 16: warning 52: by c[1] a process waits for itself, since it sends in line 8 and receives in line 9. "
        "The two belong to components of a PAR"
    ],
    "CHAN OF INT c:\nINT x:\nPAR\n  c ! 1\n  c ? x\n": [],
    "CHAN OF INT c:\nINT x:\nPAR\n  SEQ\n    c ! 1\n    c ! 2\n  SEQ\n    c ? x\n    c ? x\n": [],
    "[2]CHAN OF INT c:\nINT x:\nSEQ i = 0 FOR 2\n  SEQ\n    c[i] ! 1\n    c[i] ? x\n": [],
    "PROTOCOL p IS INT; INT:\nSKIP\n": ["line 1, column 10: warning 43: p is never used"],
    "INT FUNCTION f () IS 1:\nSKIP\n": ["line 1, column 14: warning 43: f is never used"],
    # in a loop something may come from an earlier turn
    "INT x, y:\nSEQ i = 0 FOR 3\n  SEQ\n    y := x\n    x := i\n": [],
    "[2]CHAN OF INT c:\nINT x:\nPAR\n  c[0] ! 1\n  c[0] ? x\n  c[1] ! 2\n": [
        "line 1, column 16: warning 41: nobody receives from c[1], which is sent to in line 6"
    ],
}


@pytest.mark.parametrize("text", WARNINGS)
def test_warnings(text: str) -> None:
    assert compiled(text.encode()).warnings == WARNINGS[text]


def test_at_most_twenty_warnings_are_shown() -> None:
    lines = compiled(("INT " + ", ".join(f"x{it}" for it in range(25)) + ":\nSKIP\n").encode()).warnings
    assert len(lines) == 21 and lines[-1] == "There are more warnings"


def test_a_core_as_a_text_has_no_procedures_and_each_name_once() -> None:
    text = "CHAN OF BYTE to:\nPLACE to AT 0:\nINT x:\nPROC p (VAL INT n)\n  INT x:\n  x := n\n:\nSEQ\n  p (1)\n  x := 2 * 3\n"
    core = "CHAN OF BYTE to:\nPLACE to AT link0.out:\nINT x, x.2:\nSEQ\n  x.2 := 1\n  x := 6\n"
    assert text_of_core(compiled(text.encode()).program) == core
    assert text_of_core(compiled(core.encode()).program) == core


def test_operations_on_constants_are_those_of_the_processor() -> None:
    # towards 0, the rest with the sign of the left value; the least INT has no positive one
    assert two_value("Divide", -7 & 0xFFFF_FFFF, 2) == -3 & 0xFFFF_FFFF
    assert two_value("Remainder", -7 & 0xFFFF_FFFF, 2) == -1 & 0xFFFF_FFFF
    assert two_value("Divide", LEAST, 0xFFFF_FFFF) is None and two_value("Remainder", LEAST, 0xFFFF_FFFF) == 0
    assert (
        two_value("Divide", 1, 0) is None and one_value("Negate", LEAST) is None and one_value("Minus", LEAST) == LEAST
    )
    assert two_value("ShiftLeft", 1, 32) == 0 and two_value("ShiftLeft", 1, 33) is None
    assert two_value("Add", 0x7FFF_FFFF, 1) is None and two_value("Plus", 0x7FFF_FFFF, 1) == LEAST
    assert two_value("Less", LEAST, 0) == 1 and two_value("Greater", LEAST, 0) == 0
