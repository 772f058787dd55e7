"""`lab why`: for each sentence a record that leads there, made of a small program and the events that load and run it, and
what is to be printed, worked by hand from docs/LAB.md, docs/PROCESSOR.md and docs/NODE.md. Most are in the table why.txt; here are
those that need more than one answer, or count in a record."""

import os
import re
import tempfile
from collections.abc import Iterable

import pytest
from support.recorded import JOINED, ONE, SETTLE, TWO, assembled, boot, by_hand, events_in, lab, loaded, recorded
from support.tables import Block, table
from support.trials import put

# Gives each byte of link 1 back there, for ever: node 0 begins by sending one.
BACK = "loop: ldlp 1\nmint\nldnlp 5\nldc 1\nin\nldlp 1\nmint\nldnlp 1\nldc 1\nout\nj loop"


# Programs of occam with their code, by the table of docs/OCCAM.md. Two processes that both send first: ajw 11 at 80000048, sethalterr
# (25 f8), mint and stl 2 for c, mint and stl 3 for d; PAR is ldc 27 at 80000051, ldpi (21 fb), stl 4, ldc 3, stl 5, two times ldc, ldlp
# and startp, ldlp 4, endp. Line 4 is ldlp 6 at 80000062, ldc 1 and outword at 80000064, line 6 ldlp 11 at 80000067, ldc 2 and outword at
# 80000069, and line 7 ldlp 9 at 8000006a, ldlp 10, ldc 4, in. The code ends at 80000074, so W is 800000a0: c, word 2, is at 800000a8.
BOTH_SEND = """CHAN OF INT c, d:
INT x:
PAR
  c ! 1
  SEQ
    d ! 2
    c ? x
"""
BOTH_SEND_CODE = (
    "bb25f8"
    "24f2d2"
    "24f2d3"
    "214b21fb"
    "d443d5"
    "46601cfd"
    "476018fd"
    "14f3"
    "1641ff18f3"
    "1b42ff"
    "191a44f71cf3"
    "60bc21f5"
)
# An IF without a true choice: ldc 7 at 8000004b and stl 1; ldl 1 at 8000004d, ldc 9, gt, cj 3, seterr (21 f0) and j for STOP; so the seterr
# of IF is at 80000054, and its second byte at 80000055. The code ends at 80000058: W is 80000058, and then 80000064.
NO_CHOICE = """INT sum:
SEQ
  sum := 7
  IF
    sum > 9
      STOP
"""
NO_CHOICE_CODE = "b325f8" "47d1" "7149f9a3" "21f002" "21f0" "21f5"
# A process that waits for a byte of one of two links, of which one isn't wired: line 5 is ldc 1 at 8000004b and cj 51 at 8000004c; line
# 6 alt (24 f3) at 8000004e, mint at 80000050, ldnlp 4, ldc 1, enbc (24 f8), mint at 80000056, ldnlp 5, ldc 1, enbc, altwt (24 f4) at
# 8000005c, mint at 8000005e, ldnlp 4, ldc 1, ldc 0, disc (22 ff), mint, ldnlp 5, ldc 1, ldc 9, disc, altend. Line 7 begins at 8000006e.
MERGE = """CHAN OF BYTE one, two:
PLACE one AT link0.in:
PLACE two AT link1.in:
BYTE letter:
WHILE TRUE
  ALT
    one ? letter
      SKIP
    two ? letter
      SKIP
"""
MERGE_CODE = (
    "b325f8"
    "4123a3"
    "24f3"
    "24f2544124f8"
    "24f2554124f8"
    "24f4"
    "24f254414022ff"
    "24f255414922ff"
    "24f5"
    "40d11124f25441f7"
    "08"
    "40d11124f25541f7"
    "630a"
    "21f5"
)
# The instance of line 8 sends by link 1: mint (24 f2) at 8000004b, ldnlp 1, ldc 97 (26 41), and outbyte at 80000050, all of line 5.
INSTANCE = """CHAN OF BYTE to:
PLACE to AT link1.out:
PROC p (VAL BYTE letter)
  SEQ
    to ! letter
    to ! letter
:
p ('a')
"""
INSTANCE_CODE = "b325f8" "24f2512641fe" "24f2512641fe" "21f5"
# Loops for ever in lines 2 and 3: ldc 1 at 8000004b, cj 5, and ldc 7 at 8000004d, stl 1, j -6 (60 0a) at 8000004f.
FOREVER = "INT x:\nWHILE TRUE\n  x := 7\n"
FOREVER_CODE = "b325f8" "41a4" "47d1" "600a" "21f5"


# The programs of the table, and its trials.
PROGRAMS = {
    it.name.removeprefix("program "): "\n".join(it.lines) for it in table("why") if it.name.startswith("program ")
}
TRIALS = [it for it in table("why") if not it.name.startswith("program ")]


def program_of(name: str, number: str = "") -> str:
    """The program of a name, with this number for its {}."""
    return PROGRAMS[name].replace("{}", number)


def asked(line: str) -> str:
    """The line that a domain is asked by one of the table."""
    verb, _, rest = line.partition(" ")
    if verb != "boot":
        return {"JOINED": JOINED, "SETTLE": SETTLE}.get(line, line)
    name, _, number = rest.partition(" ")
    return boot(program_of(name, number) if name in PROGRAMS else rest.replace("; ", "\n"))


class Counted:
    """What a record says of its events, by their numbers from 1."""

    def __init__(self, record: str) -> None:
        self.events = [it.removeprefix("0 ") for it in events_in(record)]

    def last(self, pattern: str) -> int:
        """The number of the last event that is so."""
        return max((n for n, event in enumerate(self.events, 1) if re.match(pattern, event)), default=0)

    def behind(self, event: int, pattern: str) -> int:
        """How many events behind that of this number are so."""
        return sum(1 for it in self.events[event:] if re.match(pattern, it))


def why(record: str, at: int | None = None, programs: Iterable[tuple[str, str]] = ()) -> tuple[int | None, str, str]:
    """Status, standard output and standard error of `lab why`; `programs` are pairs of a file's name and its text, that of node 0 first."""
    with tempfile.TemporaryDirectory() as folder:
        path = os.path.join(folder, "ann.replay")
        put(path, record)
        words = [] if at is None else ["--at", str(at)]
        for number, (name, text) in enumerate(programs):
            put(os.path.join(folder, name), text)
            words += ["--program", str(number), os.path.join(folder, name)]
        status, out, errors = lab(["why", path, *words])
        return status, out, errors.replace(folder, "FOLDER")


def told(record: str, at: int | None = None, programs: Iterable[tuple[str, str]] = ()) -> str:
    """What is printed of a record, behind its first line, which counts the events."""
    status, out, errors = why(record, at, programs)
    if status != 0:
        return f"status {status}: {errors}"
    first, rest = out.split("\n", 1)
    events = len(Counted(record).events)
    if first != f"after {events if at is None else min(at, events)} events":
        return out
    return rest


NOTHING_WAITS = next(it.wanted for it in TRIALS if it.name == "host has nothing")


@pytest.mark.parametrize("trial", TRIALS, ids=[it.name for it in TRIALS])
def test_sentence(trial: Block) -> None:
    are_two = trial.lines[:1] == ["two nodes"]
    record = recorded(TWO if are_two else ONE, [asked(it) for it in trial.lines[are_two:]])
    wanted = trial.wanted
    if trial.said:
        name, _, pattern = trial.said.partition(" = ")
        wanted = wanted.replace(f"{{{name}}}", str(Counted(record).last(pattern)))
    assert told(record) == wanted


def test_runs() -> None:
    """Behind ajw the bytes at 80000049 and 8000004a, nfix 0 and j -2, are done in turn. 4 Steps take the boot message."""
    record = recorded(ONE, [JOINED, boot("ajw 4\nloop: j loop"), SETTLE, "200000 times 0 step 0"])
    counted = Counted(record)
    steps = counted.behind(counted.last("move"), "step")
    done = counted.behind(0, "step") - 4
    here = "80000049 in `nfix 0`" if done % 2 == 1 else "8000004a in `j -2`"
    assert told(record) == (
        f"""node 0 runs, {steps} Steps since a packet came or went.
  It is at {here}.
  It may run for ever.
"""
    )


def test_endless_exchange() -> None:
    """Two nodes that give one byte back and forth. The last packet of the host is the last acknowledge of the boots."""
    first = "ajw 4\nmint\nldnlp 1\nldc 9\noutbyte\n" + BACK
    lines = [
        "0 configs 01020701010303",
        boot("ajw 4\n" + BACK),
        SETTLE,
        "0 configs 050201000703",
        boot(first),
        "0 settle 16 600",
    ]
    record = recorded(TWO, lines)
    counted = Counted(record)
    alone = max(counted.last(r"(move 7|move 0) "), counted.last("config|write"))
    packets = counted.behind(alone, "move .*passed")
    status, out, errors = why(record)
    wanted = (
        f"Since event {alone} the nodes have passed {packets} packets to one another, and no byte came from a host or went "
        "to one: it may go on for ever.\n"
    )
    assert (out.splitlines(keepends=True)[-1] if status == 0 else errors) == wanted


def test_beginnings() -> None:
    """After each number of events `--at` tells what a record cut there tells."""
    record = recorded(ONE, [JOINED, boot(PROGRAMS["REPLY"]), SETTLE, "0 write 0 05", SETTLE])
    head, lines = record.split("---\n")
    seen, count = [], 0
    for number, line in enumerate(lines.splitlines(), 1):
        count += int(line.split()[0]) if " times " in line else 1
        cut = head + "---\n" + "".join(lines.splitlines(keepends=True)[:number])
        seen.append(why(record, count) == why(cut))
    assert f"{all(seen)} {why(record, 10**9) == why(record)}" == "True True"


def test_within_a_line() -> None:
    """At the first of the Steps that stand in one line: of `ajw 4` and the bytes behind it one is done."""
    record = recorded(ONE, [JOINED, boot("ajw 4\nloop: j loop"), "0 settle 256 4", "1000 times 0 step 0"])
    counted = Counted(record)
    moved = counted.last("move")
    loaded = counted.behind(0, "step") - counted.behind(moved, "step") - 4
    done = loaded + 10
    here = "80000048 in `ajw 4`" if done == 0 else ("80000049 in `nfix 0`" if done % 2 == 1 else "8000004a in `j -2`")
    assert told(record, moved + 10) == (
        f"""node 0 runs, 10 Steps since a packet came or went.
  It is at {here}.
"""
    )


def test_lines_of_processes() -> None:
    """Below what is said without a program, a line for each process that waits."""
    record = recorded(ONE, [JOINED, loaded(BOTH_SEND_CODE), SETTLE])
    before = """node 0 rests.
  The process at 80000064 waits in `out` at channel 800000a8 in its memory.
  The process at 80000069 waits in `out` at channel 800000ac in its memory.
  No other process is left that could come there: a deadlock.
"""
    seen = told(record), told(record, programs=[("both.occ", BOTH_SEND)])
    assert "---\n".join(seen) == (
        f"""{before}---
{before}node 0 at 80000064 waits in line 4: c ! 1
node 0 at 80000069 waits in line 6: d ! 2
"""
    )


def test_line_of_a_fault() -> None:
    """The condition of the IF is its own line's, and so is the error that none is TRUE."""
    record = recorded(ONE, [JOINED, loaded(NO_CHOICE_CODE), SETTLE])
    assert told(record, programs=[("none.occ", NO_CHOICE)]) == (
        f"""node 0 halted by fault 3 in event {Counted(record).last("step 0 .*fault 3")}: \
the error flag was set.
  It was at 80000055 in `seterr`, with A 00000000, B 00000000, C 00000000, W 80000064 and Error 0.
node 0 at 80000055 erred in line 4: IF
"""
    )


def test_line_of_an_alternative() -> None:
    """A process that waits at two links has one line."""
    record = recorded(ONE, [JOINED, loaded(MERGE_CODE), SETTLE])
    lines = told(record, programs=[("merge.occ", MERGE)]).splitlines()
    assert repr((lines[0], lines[1], lines[-1], len([it for it in lines if it.startswith("node 0 at")]))) == repr(
        (
            "node 0 rests.",
            "  The process at 8000005d waits in an alternative for a byte of link 0.",
            "node 0 at 8000005d waits in line 6: ALT",
            1,
        )
    )


def test_line_of_an_instance() -> None:
    record = recorded(ONE, [JOINED, loaded(INSTANCE_CODE), SETTLE])
    assert (
        told(record, programs=[("p.occ", INSTANCE)]).splitlines()[-1]
        == "node 0 at 80000050 waits in line 5 (8): to ! letter"
    )


def test_lines_of_two_nodes() -> None:
    """Node 0 has a program of assembly, whose `in` is line 7, and node 1 none that runs. Of another program that is said, and no line."""
    record = recorded(TWO, [JOINED, boot(PROGRAMS["WAIT_INSIDE"]), SETTLE])

    def last(*programs: tuple[str, str]) -> list[str]:
        lines = told(record, programs=programs).splitlines()
        return [it for it in lines if it.startswith("node 0 at") or "node 1 at" in it]

    assert repr((last(("one.s", PROGRAMS["WAIT_INSIDE"]), ("two.occ", FOREVER)), last(("one.occ", FOREVER)))) == repr(
        (
            ["node 0 at 8000004f waits in line 7: in"],
            ["node 0 at 8000004f waits where memory has other code than its program"],
        )
    )


def test_line_of_a_node_that_goes_on() -> None:
    """ajw 3 and sethalterr are 3 Steps, and each turn of the loop 6. So 18 are 3, two turns, and ldc 1, cj and ldc 7; behind 20 the j is
    next, of which the prefix is done. 4 + 12 + 36 events come before the first one."""
    record = by_hand(FOREVER_CODE, 20)
    assert (
        "\n".join(told(record, at=52 + it, programs=[("forever.occ", FOREVER)]).splitlines()[-1] for it in (18, 20))
        == "node 0 at 8000004e goes on in line 3: x := 7\nnode 0 at 80000050 goes on in line 2: WHILE TRUE"
    )


def test_refuses_programs() -> None:
    """Wrong words before all else, and then what is wrong with a program, with the name of its file."""
    record = recorded(ONE, [JOINED])
    wrong = why(record, programs=[("wrong.occ", "x := 1\n")]), why(record, programs=[("wrong.s", "hello\n")])
    words = lab(["why", "nowhere.replay", "--program", "x", "nowhere.s"])
    assert repr((wrong[0], wrong[1][:2], wrong[1][2].startswith("FOLDER/wrong.s: line 1, column 1: "), words)) == repr(
        (
            (4, "", 'FOLDER/wrong.occ: line 1, column 1: fault 16: expected a name that is declared, not "x"\n'),
            (4, ""),
            True,
            (2, "", "error: --program takes the number of a node, and a file\n"),
        )
    )


def test_torn() -> None:
    record = recorded(ONE, [JOINED])
    status, out, errors = why(record + "0 write 0 0")
    assert f"{status} {out}{errors}" == "0 after 4 events\nThe last line is cut, and was left out.\n" + NOTHING_WAITS


def test_faults() -> None:
    """What isn't a record, by the line and what to do."""
    lines = (
        "; a record has lines as `0 write 0 05 @0 = written` (of a script, `lab run SCRIPT --record D` prints the record of "
        "domain D)"
    )
    record = recorded(ONE, [JOINED, boot(PROGRAMS["END"]), SETTLE])
    first = record[: record.index("---\n")].count("\n") + 2

    def with_line(line: str) -> str:
        return record.replace("---\n", f"---\n{line}\n")

    rows = [
        (
            4,
            "it is no record: a record is a plan, a line ---, and the events of its domain, as `live --record` writes it",
            "x = 1\n",
        ),
        (3, "plan: 2: `lab plan` says where and why", "version = 3\n---\n"),
        (
            4,
            f'line {first}, column 3: "hello" where a verb of a domain should be: config, configs, write, writes, read, reset, look, '
            f"step, move, moves, word, quiet, recorded, journal, restart, checkout, burst, commit or settle{lines}",
            with_line("0 hello"),
        ),
        (
            4,
            f'line {first}, column 11: "5" where a byte should be: two hexadecimal digits (each byte has two digits, as 05){lines}',
            with_line("0 write 0 5 @0 = written"),
        ),
        (
            4,
            f"line {first}, column 13: a blank where the line should end (put one space between words){lines}",
            with_line("0 write 0 05  = written"),
        ),
        (
            4,
            f"line {first}: a record has lines as `0 write 0 05 @0 = written` and `3 times 0 step 0 @farm = 3 ran`",
            with_line("1 look 0 @0"),
        ),
        (
            4,
            f"line {first}: the plan has no such user, host, node or port: take the plan that the record begins with",
            with_line("0 look 3 @0"),
        ),
        (
            4,
            f"line {first}: nothing happens here, so a record has no such line: leave it out",
            with_line("0 step 0 @farm = idle"),
        ),
        (
            4,
            f"line {first}: not all these Steps ran: write the last of them on a line of its own",
            with_line("3 times 0 step 0 @farm"),
        ),
        (
            4,
            f"line {first}: the domain answers otherwise: a line before it is missing or was changed",
            with_line("0 config 07 @0 = nothing"),
        ),
        (
            4,
            f"line {first + 1}: the record is at its limit of events: raise `limit` in its plan",
            record.replace("1099511627776", "1"),
        ),
    ]
    assert "".join(f"{it}\n" for it in (why(text) for _, _, text in rows)) == "".join(
        f"{(status, '', errors + chr(10))}\n" for status, errors, _ in rows
    )
