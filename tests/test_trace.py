"""`lab trace`: the labels and lines of a program beside its Steps, worked by hand from docs/TRACE.md, docs/LAB.md and
docs/PROCESSOR.md; the nodes of a plan, and the record of a script; the bound of Steps; how far long work is, at a
pseudo-terminal; and that Ctrl-C ends it at once."""

import contextlib
import os
import pty
import re
import signal
import subprocess
import tempfile
import time

from support.recorded import JOINED, ONE, TWO, assembled, boot, lab, recorded
from support.trials import LAB

# ldc 0 at 80000048, cj 2 at 80000049, j -3 at 8000004a (60 0d), stopp at 8000004c (21 f5). The code ends at 8000004e, so W is
# 80000050, and stopp saves 8000004e at 8000004c. A and B are 0 after the boot, and C is 80000010.
PROGRAM = """        ldc 0
loop:   cj done         -- at once
        j loop
done:   stopp
"""
# The lines of this program stand in a column of 34 letters, as `loop:   cj done         -- at once` has.
TRACED = """\
80000048 ldc 0                 -             ldc 0                               ran C 00000000
80000049 cj 2                  loop          loop:   cj done         -- at once  ran Iptr 8000004c
8000004c pfix 1                done          done:   stopp                       ran O 00000010
8000004d stopp                 done+1        done:   stopp                       ran running 0 word 8000004c 8000004e
idle
"""
# j 2 at 80000049 leads to 8000004c, behind the program, where the byte 00 is j 0.
BEHIND = "ldc 0\nj 2\n"
# A loop for ever, of nfix 0 and j.
LOOP = "node code j -2\n"
# The same as a program to boot. What a slice saves must not stand in its code.
ENDLESS = "ajw 4\nloop: j loop"
# A loop of 8 bytes, 200 times.
COUNTED = "ajw 4\nldc 200\nstl 1\nloop: ldl 1\nadc -1\nstl 1\nldl 1\ncj done\nj loop\ndone: stopp"


# By the table of docs/OCCAM.md: ajw 3 at 80000048, sethalterr (25 f8); sum := 7 is ldc 7 at 8000004b and stl 1; of IF the first
# condition is ldl 1 at 8000004d, ldc 9, gt and cj 3, then come seterr (21 f0) at 80000051 for STOP and j 8; the second condition is
# ldl 1 at 80000054, ldc 0, rev, gt and cj 1, then j 2 for SKIP; seterr at 8000005a, since no condition was TRUE, belongs to IF again.
# stopp (21 f5) at 8000005c ends it. The code ends at 8000005e, so W is 80000060, 8000006c after ajw 3, and sum is at 80000070.
OCCAM = """-- No condition is TRUE.
INT sum:
SEQ
  sum := 7
  IF
    sum > 9
      STOP
    sum < 0
      SKIP
"""
OCCAM_CODE = "b325f8" "47d1" "7149f9a3" "21f008" "7140f0f9a1" "02" "21f0" "21f5"
# The lines stand in a column of 8 letters, as `sum := 7` has. What comes before the first process has none.
OCCAM_TRACED = """\
80000048 ajw 3 ran W 8000006c
80000049 pfix 5 ran O 00000050
8000004a sethalterr ran HaltOnError 1
8000004b ldc 7                 line 4        sum := 7  ran A 00000007 C 00000000
8000004c stl 1                 line 4        sum := 7  ran A 00000000 word 80000070 00000007
8000004d ldl 1                 line 5        IF        ran A 00000007
8000004e ldc 9                 line 5        IF        ran A 00000009 B 00000007
8000004f gt                    line 5        IF        ran A 00000000 B 00000000
80000050 cj 3                  line 5        IF        ran Iptr 80000054
80000054 ldl 1                 line 5        IF        ran A 00000007
80000055 ldc 0                 line 5        IF        ran A 00000000 B 00000007
80000056 rev                   line 5        IF        ran A 00000007 B 00000000
80000057 gt                    line 5        IF        ran A 00000000
80000058 cj 1                  line 5        IF        ran Iptr 8000005a
8000005a pfix 1                line 5        IF        ran O 00000010
8000005b seterr                line 5        IF        fault 3
"""
# Each instance of out.twice is `c ! letter` two times: mint (24 f2), ldc 97 (26 41) or ldc 98, and outbyte, from 8000004b and from
# 80000055 on.
TWICE = """CHAN OF BYTE to:
PLACE to AT link0.out:
PROC out.twice (VAL BYTE letter, CHAN OF BYTE c)
  SEQ
    c ! letter
    c ! letter
:
SEQ
  out.twice ('a', to)
  out.twice ('b', to)
"""


def traced(text: str, *words: str, suffix: str = ".s") -> tuple[int | None, str, str]:
    """Status, standard output and standard error of `lab trace --program` with the program of this text."""
    with tempfile.NamedTemporaryFile("w", suffix=suffix) as it:
        it.write(text)
        it.flush()
        status, out, errors = lab(["trace", "--program", it.name, *words])
        return status, out, errors.replace(it.name, "FILE")


def lines(text: str, *words: str, verb: str = "trace") -> tuple[int | None, str, str]:
    """The same of `lab trace`, or of another subcommand, with lines."""
    return lab([verb, *words], text.encode())


def test_shows_labels_and_lines() -> None:
    assert traced(PROGRAM) == (0, TRACED, "")


def test_stops_at_a_label() -> None:
    begun = "".join(TRACED.splitlines(keepends=True)[:2]) + "stopped before 8000004c\n"
    assert [traced(PROGRAM, "--until", it) for it in ("done", "8000004c")] == [(0, begun, "")] * 2


def test_shows_no_line_behind_the_program() -> None:
    assert traced(BEHIND, "--steps", "3") == (
        0,
        """\
80000048 ldc 0                 -             ldc 0  ran C 00000000
80000049 j 2                   -             j 2    ran Iptr 8000004c
8000004c j 0 ran
stopped after 3 Steps. --steps N traces more
""",
        "",
    )


def test_shows_lines_of_occam() -> None:
    """The code of an IF around its choices belongs to the line of IF, wherever it is."""
    with tempfile.NamedTemporaryFile("w", suffix=".occ") as it:
        it.write(OCCAM)
        it.flush()
        code = lab(["occam", it.name, "--code"])
    assert (code, traced(OCCAM, suffix=".occ")) == ((0, OCCAM_CODE + "\n", ""), (0, OCCAM_TRACED, ""))


def test_shows_lines_of_instances() -> None:
    """The line of the PROC, and in brackets that of the instance."""
    status, out, errors = traced(TWICE, suffix=".occ")
    places = [(it[:8], it[31:45].strip(), it[45:55]) for it in out.splitlines() if it[31:35] == "line"]
    wanted = []
    for address, line in ((0x8000004B, 9), (0x80000055, 10)):
        wanted += [(f"{address + at:08x}", f"line {5 if at < 5 else 6} ({line})", "c ! letter") for at in range(10)]
    assert (status, errors, places) == (0, "", wanted)


def test_refuses_programs() -> None:
    long = "space 256\n"
    hint = "(`lab assemble --pokes HOST USER` prints the lines of a script that load more)"
    # 53 assignments of 5 bytes: ldc 4660 has four, and stl 1 one
    occam = "INT x:\nSEQ\n" + "  x := 4660\n" * 53
    tried = [traced(it) for it in (long, "stopp\nldl x\n", "rev\n")] + [
        traced(it, suffix=".occ") for it in (occam, "x := y\n")
    ]
    assert tried == [
        (4, "", f"FILE: the code has 256 bytes, and a boot takes 2 to 255 {hint}\n"),
        (4, "", 'FILE: line 2, column 5: fault 13: expected a name that is defined, not "x"\n'),
        (4, "", "FILE: the code has 1 bytes, and a boot takes 2 to 255\n"),
        (4, "", f"FILE: the code has {3 + 5 * 53 + 2} bytes, and a boot takes 2 to 255 {hint}\n"),
        (
            4,
            "",
            'FILE: line 1, column 1: fault 16: expected a name that is declared, not "x"\n'
            'line 1, column 6: fault 16: expected a name that is declared, not "y"\n',
        ),
    ]


def test_lists_faults() -> None:
    """`lab assemble` shows each wrong line in their order; of more than twenty the first twenty, and that there are more. A name that a
    wrong line defines is no fault elsewhere."""
    wrong = "    mov 5\nloop:\n    ldc Count\n    def n = 0x10\n    byte n\n    local count\n    pfix 16\n    j loop\n"
    named = 'expected a label, an instruction, byte, word, align, space, def or local, not "'
    told = (
        f'line 1, column 5: fault 2: {named}mov". ldc, ldl and ldnl load a word into A, and stl and stnl store it\n'
        'line 3, column 9: fault 13: expected a name that is defined, not "Count". count is defined, and case counts\n'
        'line 4, column 13: fault 4: expected a number from -2147483648 to 4294967295, not "0x10". '
        "Write hexadecimal digits after #: #10\n"
        'line 7, column 10: fault 6: expected a number from 0 to 15, not "16"\n'
    )
    twenty = "".join(f'line {it + 1}, column 1: fault 2: {named}foo"\n' for it in range(20))
    long = "space 65000\nspace 400\nspace 65\nspace 1\n"
    assert [lines(it, verb="assemble") for it in (wrong, "foo\n" * 20, "foo\n" * 21, "rev\n" + long)] == [
        (4, "", told),
        (4, "", twenty),
        (4, "", f"{twenty}More lines are wrong\n"),
        (4, "", "line 4, column 1: fault 16: expected code of at most 65464 bytes\n"),
    ]


def test_bounds_steps() -> None:
    """All Steps of `step` and `run` count, and what is printed is whole or nothing."""
    ended = (7, "", "stopped after 9 Steps: --steps N allows more\n")
    asked = ("run 10\n", "run 5\nrun 5\n", "step 10\n", "run 9\nstep\n")
    tried = [lines(LOOP + it, "--steps", "9") for it in asked]
    assert (tried, lines(LOOP + "run 10\n", "--steps", "10"), lines("node running 0\nrun 99\n", "--steps", "1")) == (
        [ended] * 4,
        (0, "-\n10 ran bytes 10\n", ""),
        (0, "-\n0\n", ""),
    )


def test_many_steps_are_one_answer() -> None:
    """A slice is 1,024 bytes, and ends with a j: 3,000,000 bytes are 2,929 slices and 704 bytes. Each end saves Iptr at 800001fc."""
    assert lines(LOOP + "run 3000000\n") == (0, "-\n3000000 ran bytes 704 Back 80000200 word 800001fc 80000048\n", "")


def told_at_terminal(words: list[str], text: str) -> tuple[str, bool]:
    """What the lab prints if standard error is a terminal, and whether the number of Steps stands there, grows and is wiped."""
    ours, theirs = pty.openpty()
    with tempfile.TemporaryFile() as it:
        it.write(text.encode())
        it.seek(0)
        going = subprocess.Popen([LAB, *words], stdin=it, stdout=subprocess.PIPE, stderr=theirs)
        out = going.communicate(timeout=120)[0].decode()
    os.close(theirs)
    told = b""
    # what is left to read is followed by an error, as nobody has the other end open
    with contextlib.suppress(OSError):
        while piece := os.read(ours, 1 << 16):
            told += piece
    os.close(ours)
    counts = [int(it) for it in re.findall(r"\r(\d+) Steps\x1b\[K", told.decode())]
    is_told = (
        bool(counts)
        and counts == sorted(counts)
        and re.fullmatch(r"(\r\d+ Steps\x1b\[K)+\r\x1b\[K", told.decode()) is not None
    )
    return out, is_told


def test_tells_how_far_it_is() -> None:
    """On a terminal the number of Steps stands there and is wiped at the end. Elsewhere standard error stays empty."""
    text = LOOP + "run 600000000\n"
    # 600,000,000 bytes are 585,937 slices and 512 bytes
    wanted = "-\n600000000 ran bytes 512 Back 80000200 word 800001fc 80000048\n"
    assert (*told_at_terminal(["trace"], text), lines(text)) == (wanted, True, (0, wanted, ""))


def test_tells_how_far_a_farm_is() -> None:
    """The same of a domain that settles, of a user's domain, which settles behind each line, and of a record, whoever reads it."""
    asked = [JOINED, boot(ENDLESS), "0 settle 16 100"]
    begun = ONE + "\n".join(asked) + "\n"
    looks = f"{ONE}ann config 01000703\nann boot 0 {assembled(ENDLESS)}\n" + "ann look 0\n" * 200
    with tempfile.NamedTemporaryFile("w", suffix=".replay") as it:
        it.write(recorded(ONE, [*asked, "600000000 times 0 step 0"]))
        it.flush()
        told = [told_at_terminal([word, it.name], "")[1] for word in ("debug", "why", "film", "rows")]
    replayed, is_told = told_at_terminal(["replay"], begun + "0 settle 4096 100000\n")
    shown, are_told = told_at_terminal(["run"], looks)
    assert (replayed.splitlines()[-1], is_told, set(shown.splitlines()[2:]), are_told, told) == (
        "busy",
        True,
        {"ann look 0 running overruns 0 0 0 0"},
        True,
        [True] * 4,
    )


def test_records_a_script() -> None:
    """`lab run --record` prints what the journal of the domain has, and `lab rows` finds nothing wrong in it."""
    asked = [
        "ann config 01000703",
        f"ann boot 0 {assembled('ldc 5' + chr(10) + 'stopp')}",
        "ann peek 0 80000048",
        "ann look 0",
    ]
    script = ONE + "\n".join(asked) + "\n"
    status, record, errors = lab(["run", "--record", "0"], script.encode())
    with tempfile.NamedTemporaryFile("w", suffix=".replay") as it:
        it.write(record)
        it.flush()
        judged = lab(["rows", it.name])
    events = record.split("---\n")[1]
    wanted = recorded(ONE, asked).split("---\n")[1]
    assert (status, events, errors, judged[0], lab(["run", "--record", "1"], script.encode())) == (
        0,
        wanted,
        "",
        0,
        (4, "", "the farm has no domain 1\n"),
    )


def test_traces_the_nodes_of_a_plan() -> None:
    """Each Step of both nodes and each packet, as the debugger shows them of the record."""
    asked = ["ann config 01000703", "ann config 01010203", f"ann boot 0 {assembled('ldc 5' + chr(10) + 'stopp')}"]
    with tempfile.NamedTemporaryFile("w") as script, tempfile.NamedTemporaryFile("w") as record:
        script.write(TWO + "\n".join(asked) + "\n")
        script.flush()
        record.write(lab(["run", script.name, "--record", "0"])[1])
        record.flush()
        shown = lab(["debug", record.name], b"go 0\ntrace 100000\n")[1].splitlines(keepends=True)
        traced = lab(["trace", "--plan", script.name])
        refused = [
            lab(["trace", "--plan", script.name, *it])[0]
            for it in (["--until", "80000048"], ["--boot", "2105"], ["--domain", "1"])
        ]
    whole = "".join(it for it in shown if not it.startswith("after "))
    steps = [it for it in traced[1].splitlines() if it.startswith("node ")]
    assert (traced, len(steps) > 2, refused) == ((0, whole, ""), True, [2, 2, 4])


def test_bounds_the_run_of_a_plan() -> None:
    """The Steps of all lines count together: each of two boots is followed by some 1,600, and a bound of 2,000 ends the run, which
    prints nothing. Without a bound the trace alone ends after 1,000 Steps."""
    booted = f"ann boot 0 {assembled(COUNTED)}\n"
    with tempfile.NamedTemporaryFile("w") as script:
        script.write(f"{ONE}ann config 01000703\n{booted}ann reset 0\n{booted}")
        script.flush()
        words = ["trace", "--plan", script.name]
        traced = [lab(words), lab([*words, "--steps", "2000"]), lab([*words, "--steps", "5000"])]
    shown = [sum(it.startswith("node ") for it in out.splitlines()) for _, out, _ in traced]
    ended = "stopped after 1000 Steps. --steps N traces more"
    assert (
        [it[0] for it in traced],
        [it[2] for it in traced],
        shown[:2],
        shown[2] > 3200,
        traced[0][1].splitlines()[-1] == ended,
    ) == ([0, 7, 0], ["", "stopped after 2000 Steps: --steps N allows more\n", ""], [1000, 0], True, True)


def test_bounds_records() -> None:
    """`why`, `film` and `debug` do a record of N Steps if they may do N, and `rows` those of its lines of several. One less ends
    them, and nothing is printed."""
    with tempfile.NamedTemporaryFile("w", suffix=".replay") as it:
        record = recorded(ONE, [JOINED, boot(ENDLESS), "0 settle 16 100", "3000000 times 0 step 0"])
        it.write(record)
        it.flush()
        several = sum(int(times) for times in re.findall(r"^(\d+) times 0 step 0 ", record, re.MULTILINE))
        single = len(re.findall(r"^0 step 0 ", record, re.MULTILINE))
        calls = [
            (["why"], several + single, ""),
            (["film"], several + single, ""),
            (["debug"], several + single, ""),
            (["rows"], several, f"{it.name}: "),
        ]
        seen = [
            (lab([*words, it.name, "--steps", str(most)])[0], lab([*words, it.name, "--steps", str(most - 1)]))
            for words, most, _ in calls
        ]
    assert seen == [
        (0, (7, "", f"{name}stopped after {most - 1} Steps: --steps N allows more\n")) for _, most, name in calls
    ]


def test_ends_at_ctrl_c() -> None:
    """By the signal, and within a second: of what goes on for hours."""
    never = 10**18
    booted = f"{ONE}{JOINED}\n{boot(ENDLESS)}\n0 settle 16 100\n"
    calls = [
        (["trace"], f"{LOOP}run {never}\n"),
        (["trace"], f"{LOOP}step {never}\n"),
        (["trace", "--boot", "b4600e", "--steps", str(never)], ""),
        (["replay"], f"{booted}{1 << 40} times 0 step 0\n"),
    ]
    seen = []
    for words, given in calls:
        going = subprocess.Popen(
            [LAB, *words],
            stdin=subprocess.PIPE,
            stdout=subprocess.PIPE,
            stderr=subprocess.PIPE,
            preexec_fn=lambda: signal.signal(signal.SIGINT, signal.SIG_DFL),
        )
        assert going.stdin and going.stdout and going.stderr
        going.stdin.write(given.encode())
        going.stdin.close()
        time.sleep(0.5)
        goes_on = going.poll() is None
        begun = time.time()
        going.send_signal(signal.SIGINT)
        status = going.wait(timeout=20)
        seen.append((goes_on, status, time.time() - begun < 1, going.stdout.read(), going.stderr.read()))
    assert seen == [(True, -signal.SIGINT, True, b"", b"")] * len(calls)
