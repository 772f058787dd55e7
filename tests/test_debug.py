"""`lab debug`: its commands on records made by hand, whose answers are worked by hand, most of them in the table debug.txt; and on
records of programs, where what it shows after the first N events is compared with what `lab replay` answers after them, and where it
goes with a search through every event by this script."""

import os
import pty
import re
import signal
import subprocess
import tempfile
import time
from collections.abc import Iterable

import pytest
from support.recorded import (
    HEAD,
    JOINED,
    NODE,
    ONE,
    SETTLE,
    TWO,
    assembled,
    boot,
    by_hand,
    events_in,
    lab,
    recorded,
)
from support.tables import Block, table
from support.trials import LAB, program, put, text_of

# After each of some counts of events: what the nodes are, and the outputs that are driven.
States = list[tuple[list[str], list[str]]]
# Ann has a second host at port 6.
TWO_HOSTS = HEAD.format(NODE.format("[0, -1, -1, -1]")).replace("host = [7]", "host = [7, 6]")
# Waits for a byte of link 0, and sends it back, for ever.
ECHO = "ajw 4\nloop: ldlp 1\nmint\nldnlp 4\nldc 1\nin\nldlp 1\nmint\nldc 1\nout\nj loop"


# The table: its records and files, and its trials.
BLOCKS = table("debug")
TRIALS = [it for it in BLOCKS if not it.name.startswith(("record ", "file "))]
FILES = {it.name.split()[1]: "\n".join(it.lines) + "\n" for it in BLOCKS if it.name.startswith("file ")}


def record_of(lines: list[str]) -> str:
    """The record that a block of the table describes."""
    if not lines[0].startswith("hand "):
        return ONE + "\n".join(lines) + "\n"
    *code, steps = lines[0].split()[1:]
    return by_hand("".join(code), int(steps)) + "".join(f"{it}\n" for it in lines[1:])


RECORDS = {it.name.split()[1]: record_of(it.lines) for it in BLOCKS if it.name.startswith("record ")}
LOOPED, COUNTED, TYPED = RECORDS["LOOPED"], RECORDS["COUNTED"], RECORDS["TYPED"]
COUNTER_TEXT, TYPES = FILES["counter.s"], FILES["types.occ"]


def debugged(
    record: str, commands: Iterable[str], words: Iterable[str] = (), files: dict[str, str] | None = None
) -> tuple[int | None, str, str]:
    """Status, standard output and standard error of `lab debug` on a record, given these commands."""
    with tempfile.TemporaryDirectory() as folder:
        path = os.path.join(folder, "ann.replay")
        put(path, record)
        for name, text in (files or {}).items():
            put(os.path.join(folder, name), text)
        there = [os.path.join(folder, it) if it in (files or {}) else it for it in words]
        text = "".join(f"{it}\n" for it in commands).replace("FOLDER", folder)
        status, out, errors = lab(["debug", path, *there], text.encode())
        return status, out.replace(folder, "FOLDER"), errors


def said(record: str, commands: Iterable[str], words: Iterable[str] = (), files: dict[str, str] | None = None) -> str:
    """What is printed behind the first line, which says how many events there are."""
    status, out, errors = debugged(record, commands, words, files)
    if status != 0:
        return f"status {status}: {errors}"
    return out.split("\n", 1)[1]


@pytest.mark.parametrize("trial", TRIALS, ids=[it.name for it in TRIALS])
def test_session(trial: Block) -> None:
    """Commands of the table, each with what it prints."""
    words: list[str] = next((it.split()[1:] for it in trial.lines if it.startswith("words ")), [])
    names = [it.split()[1] for it in trial.lines if it.startswith("file ")]
    commands = [it[2:] for it in trial.wanted.splitlines() if it.startswith("$ ")]
    wanted = "".join(it for it in trial.wanted.splitlines(keepends=True) if not it.startswith("$ "))
    record = RECORDS[trial.lines[0].removeprefix("record ")]
    assert said(record, commands, words, files={it: FILES[it] for it in names}) == wanted


def test_commands_that_are_empty_or_long() -> None:
    assert said(LOOPED, ["", "   ", "x" * 5000]) == "a command has at most 4096 bytes\n"


def test_begins_at_the_end() -> None:
    assert debugged(LOOPED, []) == (0, "after 1020 of 1020 events: step 0 @farm = ran\n", "")


def test_shows_memory() -> None:
    """The code's bytes b4, 60 and 0e come with events 13, 16 and 19, the least significant byte first."""
    commands = [it for n in (12, 13, 16, 19) for it in (f"go {n}", "memory 0 80000048 1")]
    commands += [
        "memory 0 80000046 2",
        "memory 0 80000040 5",
        "memory 0 80000ffc 2",
        "memory 0 80001000",
        "memory 0 0 1",
    ]
    lines = said(LOOPED, commands).splitlines()
    assert [it for it in lines if not it.startswith("after")] == [
        "80000048  00000000",
        "80000048  000000b4",
        "80000048  000060b4",
        "80000048  000e60b4",
        "80000044  00000000 000e60b4",
        "80000040  00000000 00000000 000e60b4 00000000",
        "80000050  00000000",
        "80000ffc  00000000",
        "80001000 lies outside memory",
        "80001000 lies outside memory",
        "00000000 lies outside memory",
    ]


def test_stops_at_lines_of_occam() -> None:
    """Before the first instruction of a line's code, in each turn of a loop, and on the way back. A line of a text of assembly is one
    too, and a label may have the name `line`."""
    turns = [240 + 22 + 19 * it for it in range(3)]
    commands = [
        "go 240",
        "until node 0 at line 10",
        *["until node 0 at line 11"] * 4,
        *["back until node 0 at line 11"] * 2,
        "until node 0 at line 12",
        "until node 0 at line 13",
        "until node 0 at line 6",
        "until node 0 at line 14",
        "until node 0 at line 4294967296",
        "until node 1 at line 7",
        "until node 0 at line x",
    ]
    shown = said(TYPED, commands, words=["--program", "0", "types.occ"], files={"types.occ": TYPES})
    assembled_one = said(
        COUNTED,
        ["go 40", "until node 0 at line 6", "until node 0 at line 4", "until node 0 at line"],
        words=["--program", "0", "counter.s"],
        files={"counter.s": COUNTER_TEXT.replace("loop", "line")},
    )
    none = said(TYPED, ["until node 0 at line 7", "variables 0"])
    places = [240, 240 + 11, *turns, turns[2], turns[1], turns[0], turns[2] + 19, turns[2] + 19 + 13]
    told = [
        f"after {it} of 336 events: {'step 0 @farm = ran' if it > 240 else 'move 0 @farm = passed'}" for it in places
    ]
    told[5] = f"there is no such event: {told[5]}"
    no_number = (
        "is no number that fits there: try until node K at ADDR, until node K at line L, until jump of node K, until fault, "
        "until byte PORT, until write ADDR of node K, or until lost"
    )
    assert (shown.splitlines(), assembled_one, none) == (
        [
            *told,
            "line 6 has no code in the program of node 0: the next that has is line 7",
            "line 14 has no code in the program of node 0",
            f"`4294967296` {no_number}",
            "there is no node 1: look lists them",
            f"`x` {no_number}",
        ],
        """\
after 40 of 1040 events: move 0 @farm = passed
after 44 of 1040 events: step 0 @farm = ran
line 4 has no code in the program of node 0: the next that has is line 5
after 48 of 1040 events: step 0 @farm = ran
""",
        "no lines are known of node 0: try program K FILE\nno variables are known of node 0: try program K FILE\n",
    )


def test_stops_in_each_instance() -> None:
    """Both instances begin with the code of line 5, at 8000004b and at 80000055. Without an acknowledge the process waits in the first
    one, at 8000004f; the ports are joined by the host's."""
    text = "CHAN OF BYTE to:\nPLACE to AT link0.out:\nPROC two (VAL BYTE letter)\n  SEQ\n    to ! letter\n    to ! letter\n:\n"
    text += "SEQ\n  two ('a')\n  two ('b')\n"
    code = "b325f8" + "24f22641fe" * 2 + "24f22642fe" * 2 + "21f5"
    record = recorded(ONE, [JOINED, f"0 writes 0 {len(code) // 2:02x}{code}", SETTLE])
    commands = [
        "go 0",
        *["until node 0 at line 5", "code 0"] * 2,
        "until node 0 at line 5",
        "back until node 0 at line 9",
    ]
    shown = said(record, commands, words=["--program", "0", "two.occ"], files={"two.occ": text}).splitlines()
    rows = [it for it in shown if it.startswith("> ")]
    assert (rows, [it for it in shown if it.startswith("there")][0][:23], shown[-1][:5]) == (
        [
            "> 8000004b  24 f2        mint                  line 5 (9)    to ! letter",
            "> 80000055  24 f2        mint                  line 5 (10)   to ! letter",
        ],
        "there is no such event:",
        "after",
    )


def test_shows_what_the_next_step_finds() -> None:
    """A byte that came to a link, and is served by the Step that goes on at line 6, is in its variable. Line 5 is ldc 0 at 8000004b, stl 1,
    ldlp 1, mint (24 f2), ldnlp 4, ldc 1 and in, and line 6 ldc 42 (22 4a) and stl 1. The code ends at 80000058: W is 80000058, and then
    80000064. A star is written `**`, as in a text of occam."""
    text = "CHAN OF BYTE from:\nPLACE from AT link0.in:\nBYTE letter:\nSEQ\n  from ? letter\n  letter := '**'\n"
    code = "b325f8" "40d11124f25441f7" "224ad1" "21f5"
    record = recorded(ONE, [JOINED, f"0 writes 0 {len(code) // 2:02x}{code}", "0 writes 0 0a", SETTLE])
    shown = said(
        record,
        [
            "go 0",
            "until node 0 at line 6",
            "memory 0 letter 1",
            "variables 0",
            "until write letter of node 0",
            "until write letter of node 0",
            "variables 0",
        ],
        words=["--program", "0", "one.occ"],
        files={"one.occ": text},
    )
    assert [it for it in shown.splitlines() if it.startswith("8")] == [
        "80000068  00000000",
        "80000068  BYTE letter (line 3): 10 '*n'",
        "80000068  BYTE letter (line 3): 42 '**'",
    ]


def test_shows_long_arrays() -> None:
    """64 elements, unless it is asked for by its name; an element that the line of a loop stores to is counted by hand: a[0] is word 1.
    ajw 3, sethalterr, and for a[0] := 9 ldc 9 and stl 1: W is 80000048 and 7 bytes, 80000050, and then 8000005c."""
    text = "[70]INT a:\na[0] := 9\n"
    shown = said(
        by_hand("b325f8" "49d1" "21f5", 7),
        ["variables 0", "variables 0 a", "until write a[1] of node 0", "back until write a of node 0"],
        words=["--program", "0", "a.occ"],
        files={"a.occ": text},
    ).splitlines()
    assert shown == [
        f"80000060  [70]INT a (line 1): [9{', 0' * 63}, ..]",
        f"80000060  [70]INT a (line 1): [9{', 0' * 69}]",
        "there is no such event: after 43 of 43 events: step 0 @farm = ran",
        "after 41 of 43 events: step 0 @farm = ran",
    ]


def test_takes_programs_that_are_poked() -> None:
    """Code of more than 255 bytes begins at 80000050, where it is poked: 3 bytes, 53 assignments of 5 bytes (ldc 4660 has four), and
    stopp. So the last assignment, of line 55, is at 80000157, the code ends at 8000015e, and W is 80000160, and then 8000016c.
    """
    text = "INT x:\nSEQ\n" + "  x := 4660\n" * 52 + "  x := 4661\n"
    with tempfile.TemporaryDirectory() as folder:
        for name, it in (("long.occ", text), ("long.farm", ONE + "ann join 0 7\nann load 0 long.occ\nann look 0\n")):
            put(os.path.join(folder, name), it)
        record = lab(["run", os.path.join(folder, "long.farm"), "--record", "0"])[1]
    shown = said(
        record,
        ["variables 0", "back until write x of node 0", "back until node 0 at line 55", "code 0"],
        words=["--program", "0", "long.occ"],
        files={"long.occ": text},
    ).splitlines()
    assert [it for it in shown if it.startswith(("8", ">"))] == [
        "80000170  INT x (line 1): 4661",
        "> 80000157  21 22 23 45  ldc 4661              line 55       x := 4661",
    ]


def test_quits() -> None:
    """What stands behind `quit` isn't read, and the last command needs no line feed."""
    assert (
        said(LOOPED, ["go 1", "quit", "go 2"]),
        said(LOOPED, []),
        said(by_hand("b4600e", 2), ["go 0"]).count("\n"),
    ) == (
        "after 1 of 1020 events: config 01 @0 = nothing\n",
        "",
        1,
    )


def test_bytes_that_are_no_text() -> None:
    with tempfile.NamedTemporaryFile(suffix=".replay") as it:
        it.write(LOOPED.encode())
        it.flush()
        run = subprocess.run([LAB, "debug", it.name], input=b"\xff\xfe\ngo 3", capture_output=True, check=False)
    assert run.stdout.decode().split("\n", 1)[1] == (
        """\
a command is a text in UTF-8
after 3 of 1020 events: config 07 @0 = nothing
"""
    )


def test_helps() -> None:
    """Each command of docs/LAB.md has a line."""
    first = [it.split()[0].rstrip(":") for it in said(LOOPED, ["help"]).splitlines()[:-1]]
    assert sorted(first) == sorted(
        [
            "events",
            "go",
            "next",
            "trace",
            "back",
            "until",
            "look",
            "registers",
            "memory",
            "code",
            "variables",
            "queue",
            "links",
            "hosts",
            "switch",
            "why",
            "program",
            "help",
            "quit",
        ]
    )


def test_prompts_on_a_terminal() -> None:
    """The number of events stands before each command."""
    with tempfile.NamedTemporaryFile(suffix=".replay") as it:
        it.write(LOOPED.encode())
        it.flush()
        ours, theirs = pty.openpty()
        run = subprocess.Popen([LAB, "debug", it.name], stdin=theirs, stdout=subprocess.PIPE)
        os.write(ours, b"go 7\nquit\n")
        out = run.communicate(timeout=60)[0].decode()
        os.close(theirs)
        os.close(ours)
    assert out == (
        """\
after 1020 of 1020 events: step 0 @farm = ran
1020> after 7 of 1020 events: write 0 60 @0 = written
7> """
    )


def test_refuses_what_is_no_record() -> None:
    verbs = (
        "config, configs, write, writes, read, reset, look, step, move, moves, word, quiet, recorded, journal, restart, checkout, "
        "burst, commit or settle"
    )
    lines = (
        "; a record has lines as `0 write 0 05 @0 = written` (of a script, `lab run SCRIPT --record D` prints the record of "
        "domain D)"
    )
    records = (
        "x = 1\n",
        ONE + "0 hello\n",
        LOOPED.replace("1000 ran", "999 ran"),
        ONE.replace("7]]", "77]]"),
        ONE + "1 look 0 @0\n",
    )
    assert [debugged(it, ["look"]) for it in records] == [
        (
            4,
            "",
            "it is no record: a record is a plan, a line ---, and the events of its domain, as `live --record` writes it\n",
        ),
        (4, "", f'line 10, column 3: "hello" where a verb of a domain should be: {verbs}{lines}\n'),
        (4, "", "line 30: the domain answers otherwise: a line before it is missing or was changed\n"),
        (3, "", "plan: 6: `lab plan` says where and why\n"),
        (4, "", "line 10: a record has lines as `0 write 0 05 @0 = written` and `3 times 0 step 0 @farm = 3 ran`\n"),
    ]


def test_refuses_wrong_words() -> None:
    """The words of the command line, and files that aren't there."""
    rows = [debugged(LOOPED, [], words=words) for words in (["--program", "x", "a.s"], ["--program", "256", "a.s"])]
    missing = debugged(LOOPED, ["go 1"], words=["--program", "0", "nowhere.s"])
    no_node = debugged(LOOPED, ["go 1"], words=["--program", "5", "a.s"], files={"a.s": "stopp\n"})
    status, out, errors = lab(["debug", "nowhere.replay"])
    alone = lab(["debug"])[0]
    wrong = (2, "", "error: --program takes the number of a node, and a file\n")
    at_end, at_one = (
        "after 1020 of 1020 events: step 0 @farm = ran\n",
        "after 1 of 1020 events: config 01 @0 = nothing\n",
    )
    assert (rows, missing, no_node, status, out, "nowhere.replay" in errors, alone) == (
        [wrong, wrong],
        (0, f"`nowhere.s` can't be read\n{at_end}{at_one}", ""),
        (0, f"there is no node 5: look lists them\n{at_end}{at_one}", ""),
        6,
        "",
        True,
        2,
    )


def test_a_program_with_a_fault() -> None:
    """It is told as `lab assemble` tells it, and of occam as `lab occam` does; and the program that was there stays."""
    bad = "ajw 4\nloop: jump loop\n"
    shown = said(
        COUNTED,
        [
            "program 0 FOLDER/good.s",
            "program 0 FOLDER/bad.s",
            "program 0 FOLDER/bad.occ",
            "go 43",
            "until node 0 at loop",
        ],
        files={"good.s": COUNTER_TEXT, "bad.s": bad, "bad.occ": "x := 1\n"},
    )
    told = lab(["assemble"], bad.encode())[2]
    assert shown == (
        f"""\
{told}line 1, column 1: fault 16: expected a name that is declared, not "x"
after 43 of 1040 events: step 0 @farm = ran
after 48 of 1040 events: step 0 @farm = ran
"""
    )


def test_torn() -> None:
    assert debugged(LOOPED + "0 write 0 0", [])[1] == (
        """\
The last line is cut, and was left out.
after 1020 of 1020 events: step 0 @farm = ran
"""
    )


def test_cut_anywhere() -> None:
    """Of a record that is cut as much is shown as `lab why` does again of it, or it is refused as there."""
    shown, wanted = [], []
    for place in [*range(0, len(LOOPED), 41), *range(len(LOOPED) - 60, len(LOOPED) + 1)]:
        with tempfile.NamedTemporaryFile(suffix=".replay") as it:
            it.write(LOOPED[:place].encode())
            it.flush()
            status, out, errors = lab(["debug", it.name])
            counted = re.search(r"^after (\d+) of (\d+) events", out, re.MULTILINE)
            shown.append((status, errors, counted and (counted[1], counted[2]), "The last line is cut" in out))
            status, out, errors = lab(["why", it.name])
            counted = re.search(r"^after (\d+) events", out)
            wanted.append((status, errors, counted and (counted[1], counted[1]), "The last line is cut" in out))
    assert shown == wanted


def event_lines(record: str) -> list[str]:
    """The lines of the events, one each, without what came of them."""
    return [it.split(" = ")[0] for it in events_in(record)]


def looked_at(record: str, counts: Iterable[int]) -> list[list[str]]:
    """What `lab debug` shows of node 0 and of the switch after so many events."""
    commands = [it for n in counts for it in (f"go {n}", "look", "switch")]
    states: list[list[str]] = []
    for line in said(record, commands).splitlines():
        if line.startswith("after"):
            states.append([])
        elif line != "no output is driven":
            states[-1].append(line)
    return states


def replayed(record: str, counts: Iterable[int], nodes: int) -> States:
    """The same by `lab replay` of the first so many events, each time on a fresh farm."""
    head, events = record.split("---\n")[0], event_lines(record)
    text, states = "", []
    for n in counts:
        looks = [f"0 look {node}" for node in range(nodes)]
        text += "".join(f"{it}\n" for it in ([] if not text else ["reopen"]) + events[:n] + looks + ["words"])
    answers = iter(lab(["replay"], f"{head}---\n{text}".encode())[1].splitlines())
    for place, n in enumerate(counts):
        for _ in range(n + (place > 0)):
            next(answers)
        seen = [f"node {node} {next(answers)}" for node in range(nodes)]
        words = next(answers)
        states.append((seen, [] if words == "-" else words.split()))
    return states


def drawn(line: str) -> str:
    """A row of `switch` as `lab replay` has the word of its output, without the change count."""
    row = re.fullmatch(r"output (\d+) \(.*\): input (\d+) \(.*\), (ready|not ready)", line)
    assert row, line
    return f"{row[1]}:{128 + 64 * (row[3] == 'ready') + int(row[2]):02x}"


def same_as_replay(record: str, counts: Iterable[int], nodes: int) -> tuple[States, States]:
    """What each of both shows after so many events."""
    shown = [(it[:nodes], [drawn(row) for row in it[nodes:]]) for it in looked_at(record, counts)]
    wanted = []
    for seen, words in replayed(record, counts, nodes):
        bits = [(word.split(":")[0], int(word.split(":")[1], 16) % 256) for word in words]
        wanted.append((seen, [f"{output}:{it:02x}" for output, it in bits if it >= 128]))
    return shown, wanted


def test_states_are_those_of_replay() -> None:
    """After each tenth event, and those around the end, forwards and back."""
    record = recorded(
        ONE, [JOINED, boot(ECHO), SETTLE] + ["0 write 0 41", SETTLE, "0 read 0"] * 3 + ["0 configs 0507", SETTLE]
    )
    events = len(event_lines(record))
    counts = [*range(0, events, 10), events - 1, events, *range(events, 0, -37)]
    seen, wanted = same_as_replay(record, counts, 1)
    assert seen == wanted


def test_states_of_two_nodes() -> None:
    lines = ["0 configs 01020703", boot("ajw 4\nstopp"), SETTLE, "0 configs 0502050701000701010203"]
    record = recorded(TWO, [*lines, boot("ajw 4\nmint\nldnlp 1\nldc 42\noutbyte\nstopp"), SETTLE])
    events = len(event_lines(record))
    seen, wanted = same_as_replay(record, [*range(0, events, 7), events], 2)
    assert seen == wanted


def peeked(record: str, count: int, address: int) -> str:
    """The word at an address after so many events, as node 0 answers a peek by Ann's second host, behind a reset."""
    head, events = record.split("---\n")[0], event_lines(record)[:count]
    bytes_of = address.to_bytes(4, "little").hex()
    asks = ["0 reset 0", "0 configs 0500", "0 configs 01000603", f"0 writes 1 01{bytes_of}", SETTLE, *["0 read 1"] * 4]
    text = "".join(f"{it}\n" for it in [*events, *asks])
    answers = lab(["replay"], f"{head}---\n{text}".encode())[1].splitlines()
    return "".join(reversed(answers[-4:]))


def test_words_are_those_of_peeks() -> None:
    """The counter's word and the first of its code, whenever the node is peeked."""
    message = [JOINED, f"0 writes 0 08b440d17181d1600b", SETTLE, "500 times 0 step 0"]
    record = recorded(TWO_HOSTS, message[:2] + ["0 settle 256 30", message[3]])
    events = len(event_lines(record))
    counts = [0, 9, 20, 30, 36, 41, 60, 99, events - 100, events - 1, events]
    commands = [it for n in counts for it in (f"go {n}", "memory 0 80000048 1", "memory 0 80000064 1")]
    shown = [it.split()[1] for it in said(record, commands).splitlines() if not it.startswith("after")]
    assert shown == [peeked(record, n, address) for n in counts for address in (0x80000048, 0x80000064)]


def test_finds_what_a_search_finds() -> None:
    """Every place to which `until` and `back until` go in an echo's record, beside a search in what is shown after each event."""
    record = recorded(ONE, [JOINED, boot(ECHO), SETTLE] + ["0 write 0 41", SETTLE, "0 read 0"] * 2)
    lines = record.split("---\n")[1].splitlines()
    events = len(event_lines(record))
    words = [
        it.split()[1]
        for it in said(
            record, [it for n in range(events + 1) for it in (f"go {n}", "memory 0 80000070 1")]
        ).splitlines()
        if not it.startswith("after")
    ]
    changed = [n for n in range(1, events + 1) if words[n] != words[n - 1]]
    numbers, number = {}, 0
    for line in lines:
        number += int(line.split()[0]) if " times " in line else 1
        numbers[number] = line
    # The echo's bytes leave port 0 behind the Step of its `out`: the first packet there after each acknowledge of the boot is told
    # apart by the switch's own answer, so bytes are counted by what the host reads.
    moved = said(record, ["go 0", *["until byte 7"] * 40]).splitlines()
    found = [int(it.split()[1]) for it in moved if it.startswith("after ")]
    back = said(record, [*["back until byte 7"] * 40]).splitlines()
    again = [int(it.split()[1]) for it in back if it.startswith("after ")]
    code = len(assembled(ECHO)) // 2
    forwards = said(record, ["go 0", *["until write 80000070 of node 0"] * (len(changed) + 1)]).splitlines()
    changes = [int(it.split()[1]) for it in forwards if it.startswith("after ")]
    moves = all(numbers.get(n, "").startswith("0 move") for n in found[1:])
    # The boot message and two bytes go to the node, and two come back.
    assert (changes[1:], len(found) - 1, again, moves) == (
        changed,
        code + 1 + 2 + 2,
        found[:0:-1] if found[-1] != events else found[-2:0:-1],
        True,
    )


def test_causes_are_those_of_why() -> None:
    """`why` says what `lab why` says at the same event."""
    record = recorded(
        TWO, ["0 configs 01020703", boot("ajw 4\nstopp"), SETTLE, "0 configs 05020507010007", boot(ECHO), SETTLE]
    )
    events = len(event_lines(record))
    shown, wanted = [], []
    with tempfile.NamedTemporaryFile(suffix=".replay") as it:
        it.write(record.encode())
        it.flush()
        for n in (0, 3, 17, 40, events // 2, events):
            wanted.append(lab(["why", it.name, "--at", str(n)])[1].split("\n", 1)[1])
            shown.append(said(record, [f"go {n}", "why"]).split("\n", 1)[1])
            both = said(record, [f"go {n}", "why 0", "why 1"]).split("\n", 1)[1]
            shown.append(both)
            wanted.append(
                "".join(line for line in wanted[-1].splitlines(keepends=True) if not line.startswith("Since"))
            )
    assert shown == wanted


def test_records_of_live() -> None:
    """A record that `live` wrote ends where its user's last look said."""
    plan = ONE.split("---\n")[0]
    code = assembled("ajw 4\nstopp")
    with tempfile.TemporaryDirectory() as folder:
        put(f"{folder}/plan", plan)
        script = f"ann config 01000703\nann boot 0 {code}\nann look 0\n"
        run = subprocess.run(
            [program("live"), "--record", f"{folder}/records", f"{folder}/plan"],
            input=script.encode(),
            capture_output=True,
            check=True,
        )
        record = text_of(f"{folder}/records/ann.replay")
    seen = run.stdout.decode().splitlines()[-1].removeprefix("ann look 0 ")
    assert said(record, ["look", "go 0", "look"]).splitlines()[::2] == [
        f"node 0 {seen}",
        "node 0 booting overruns 0 0 0 0",
    ]


def measured(record: str, commands: list[str]) -> tuple[float, float, str]:
    """Seconds, megabytes and the answers of `lab debug` given these commands."""
    with tempfile.NamedTemporaryFile(
        suffix=".replay"
    ) as it, tempfile.TemporaryFile() as asked, tempfile.TemporaryFile() as out:
        it.write(record.encode())
        it.flush()
        asked.write("".join(f"{command}\n" for command in commands).encode())
        asked.seek(0)
        begin = time.monotonic()
        run = subprocess.Popen([LAB, "debug", it.name], stdin=asked, stdout=out, preexec_fn=lambda: signal.alarm(300))
        status, usage = os.wait4(run.pid, 0)[1:]
        seconds = time.monotonic() - begin
        run.returncode = status
        out.seek(0)
        return seconds, usage.ru_maxrss / 1024, out.read().decode()


def check_quick(record: str, events: int, opens: float, back: float, goes: float) -> None:
    """A record is opened, and steps back and jumps in it are done, within these seconds."""
    opened, megabytes, _ = measured(record, [])
    places = [events * part // 17 for part in (3, 16, 1, 9, 12, 5, 14, 2, 11, 7)]
    jumps = measured(record, [f"go {it}" for it in places])[0] - opened
    steps = 0.0
    for place in places[:4]:
        there = measured(record, [f"go {place}"])[0]
        steps = max(steps, (measured(record, [f"go {place}", *["back"] * 20])[0] - there) / 20)
    assert opened < opens
    assert megabytes < 1000
    assert steps < back
    assert jumps / len(places) < goes


@pytest.mark.long
@pytest.mark.alone
def test_a_million_events() -> None:
    """An echo of many bytes: Moves, Steps, writes and reads, each on its line."""
    loops = 66000
    record = recorded(ONE, [JOINED, boot(ECHO), SETTLE] + ["0 write 0 41", "0 settle 1 100", "0 read 0"] * loops)
    events = len(event_lines(record))
    lines = record.count("\n")
    assert events > 1000000
    assert lines > 500000
    check_quick(record, events, 10, 0.05, 0.5)


@pytest.mark.long
@pytest.mark.alone
def test_a_thousand_million_steps() -> None:
    record = by_hand("b4600e", 10**9)
    check_quick(record, 10**9, 10, 0.5, 0.5)
