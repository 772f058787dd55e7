"""`lab run` of programs, without a plan and without a script: what came to the hosts, and why the nodes do no more."""

import os

import pytest
from support.trials import EXAMPLES, contents, put, run

OCCAM, ASSEMBLY = f"{EXAMPLES}/occam", f"{EXAMPLES}/programs"
ENDED = "node 0 has ended: no process is left."
HELLO = ["host 0 got 6 bytes", '  letters  "hello\\n"', "  bytes    68 65 6c 6c 6f 0a", ENDED]
# Sends bytes without end, a byte and then nothing, and what it was sent and its sum with the one before.
TALKS = "CHAN OF BYTE out:\nPLACE out AT link0.out:\nWHILE TRUE\n  out ! 'x'\n"
SPINS = "CHAN OF BYTE out:\nPLACE out AT link0.out:\nSEQ\n  out ! 'h'\n  WHILE TRUE\n    SKIP\n"
WRONG = TALKS.replace("out ! 'x'", "out = 5")
# The first node of a row speaks at once, and before it is asked.
FIRST = "CHAN OF INT out:\nPLACE out AT link1.out:\nSEQ\n  out ! 7\n  out ! -1\n"
PASSES = """CHAN OF INT in, out:
PLACE in AT link0.in:
PLACE out AT link1.out:
INT n:
WHILE TRUE
  SEQ
    in ? n
    out ! n + 1
"""


def lines_of(lab: str, *words: str, status: int = 0) -> list[str]:
    """What `lab run` of these words prints, or says if it has another status than 0."""
    done = run([lab, "run", *words])
    assert (words, done.status, done.errors if status == 0 else b"") == (words, status, b"")
    return (done.errors if status else done.output).decode().splitlines()


def test_a_program_by_itself(lab: str) -> None:
    """A program in either language is run, and all that came is shown in each way that fits."""
    assert lines_of(lab, f"{OCCAM}/hello.occ") == HELLO
    assert lines_of(lab, f"{ASSEMBLY}/hello.s") == HELLO
    assert lines_of(lab, f"{ASSEMBLY}/echo.s", "--send", "a\\n")[:3] == [
        "host 0 got 2 bytes",
        '  letters  "a\\n"',
        "  bytes    61 0a",
    ]
    words = lines_of(lab, f"{OCCAM}/echo.occ", "--send", "word 7 -1")
    assert words[:3] == ["host 0 got 8 bytes", "  numbers  7 -1", "  bytes    07 00 00 00 ff ff ff ff"]
    assert words[-1] == "node 0 at 80000054 waits in line 16: in ? letter"
    mixed = lines_of(lab, f"{OCCAM}/echo.occ", "--send", "byte 255", "--send", '"word 5" hex 0a0b')
    assert mixed[:2] == ["host 0 got 9 bytes", "  bytes    ff 77 6f 72 64 20 35 0a 0b"]
    assert lines_of(lab, f"{OCCAM}/echo.occ")[0] == "host 0 got no byte"
    assert lines_of(lab, f"{OCCAM}/echo.occ", "--send", 20_000 * "y")[0] == "host 0 got 20000 bytes"


def test_a_row(lab: str, folder: str) -> None:
    """Several programs are a row, and what the first sends before anybody asks isn't lost."""
    first, passes = put(f"{folder}/first.occ", FIRST), put(f"{folder}/passes.occ", PASSES)
    assert lines_of(lab, first, passes, passes)[:3] == [
        "host 1 got 8 bytes",
        "  numbers  9 1",
        "  bytes    09 00 00 00 01 00 00 00",
    ]
    assert lines_of(lab, passes, passes, "--send", "word 5 6")[:2] == ["host 1 got 8 bytes", "  numbers  7 8"]
    row = [f"{OCCAM}/{it}.occ" for it in ("numbers", "filters", "filters", "printer")]
    primes = lines_of(lab, *row, "--memory", "2048", "--send-to", "0", "word 38")
    assert primes[:2] == [
        "host 1 got 32 bytes",
        '  letters  "2\\n3\\n5\\n7\\n11\\n13\\n17\\n19\\n23\\n29\\n31\\n37\\n"',
    ]
    assert primes[-1] == "node 3 has ended: no process is left."


def test_programs_without_end(lab: str, folder: str) -> None:
    """The Steps are bounded, and what came till then is shown."""
    spins = put(f"{folder}/spins.occ", SPINS)
    done = run([lab, "run", spins])
    assert done.status == 7
    assert done.errors == b"stopped after 20000000 Steps: it may run for ever, and --steps N allows more\n"
    told = done.output.decode().splitlines()
    assert told[:2] == ["host 0 got 1 byte", '  letters  "h"']
    assert "  It may run for ever." in told
    assert told[-1] == "node 0 at 80000050 goes on in line 5: WHILE TRUE"
    few = run([lab, "run", spins, "--steps", "1000"])
    assert (few.status, few.errors) == (
        7,
        b"stopped after 1000 Steps: it may run for ever, and --steps N allows more\n",
    )
    many = lines_of(lab, put(f"{folder}/talks.occ", TALKS))
    assert "  bytes    78" + 511 * " 78" + f" .. and {int(many[0].split()[3]) - 512} bytes more" in many
    assert many[-1] == "More bytes would come: --steps N with a larger N lets them"


def test_the_record_is_for_other_commands(lab: str, folder: str) -> None:
    """The record of the same run is what `lab why` reads."""
    record = run([lab, "run", f"{OCCAM}/hello.occ", "--record", "0"]).output
    assert run([lab, "why", put(f"{folder}/hello.replay", record)]).output.decode().splitlines()[1:] == [ENDED]


def test_refused_programs(lab: str, folder: str) -> None:
    """A mistake is shown as `lab occam` shows it, and a file that isn't there with the one that is near."""
    wrong = put(f"{folder}/wrong.occ", WRONG)
    told = run([lab, "occam", wrong]).errors.decode().splitlines()
    assert lines_of(lab, wrong, status=4) == told
    assert lines_of(lab, f"{OCCAM}/echo.occ", wrong, status=4) == told
    path = put(f"{folder}/wrong.s", "ldc 5x\n")
    said = f'{path}:1:6: fault 11: expected the end of the line, not "x"'
    assert lines_of(lab, path, status=4) == [said, "    ldc 5x", "         ^"]
    near = f"{folder}/wrnog.occ: it can't be read: No such file or directory. Is it {wrong}?"
    assert lines_of(lab, f"{folder}/wrnog.occ", status=6) == [near]
    os.mkdir(f"{folder}/own.occ")
    assert lines_of(lab, f"{folder}/own.occ", status=6) == [f"{folder}/own.occ: it can't be read: Is a directory"]


WORDS = (
    (("--send", "word 5x"), "--send: '5x' is no number where a word is wanted. In quotes it is a text"),
    (
        ("--send", "word", "5"),
        "'5' is no program, whose name ends with .occ or .s. Values with blanks are one word in ",
    ),
    (("--send-to", "4", "x"), "'4' is no host: there are hosts 0 to 3, or 0 and 1 if the programs are several"),
    (("--memory", "5"), "--memory is 2048 to 65536, a multiple of 4, and not 5"),
    (("--steps", "0"), "--steps is 1 to 1099511627776"),
    ((f"{OCCAM}/hello.occ", "--send-to", "2", "x"), "a row of several programs has the hosts 0 and 1"),
    ((f"{OCCAM}/hello.occ",) * 8, "the number of programs is 1 to 8, and not 9"),
)


@pytest.mark.parametrize("words, told", WORDS)
def test_wrong_words(lab: str, words: tuple[str, ...], told: str) -> None:
    """Wrong words have the usage, and what is wrong."""
    lines = lines_of(lab, f"{OCCAM}/hello.occ", *words, status=2)
    assert lines[0].startswith("usage: lab run PROGRAM.. ")
    assert lines[1].startswith(f"lab run: error: {told}")


def test_help_tells_of_both(lab: str) -> None:
    """The help has what the program says of scripts, and then what is said of programs; a script is run as before."""
    told = "\n".join(lines_of(lab, "--help"))
    assert (told.startswith("Runs a script as farm does"), '  lab run echo.s --send "abc"\n' in told) == (True, True)
    assert max(map(len, told.split("\n"))) < 120
    assert run([lab, "run", f"{OCCAM}/hello.farm"]).output == contents(f"{OCCAM}/hello.out")
