"""What helps people whose text is refused: the table `nadzsumek/mistakes` by itself, and beside the programs whose refusals it explains.
A line of a script is wrong to the table exactly if the program `farm` refuses a script of that line alone, with the same word."""

from __future__ import annotations

import os
import subprocess
from collections.abc import Iterator

import pytest
from hypothesis import given, settings
from hypothesis import strategies as st
from support.trials import LAB, TOP, program
from support.trials import run as ran

from nadzsumek.mistakes.lines import MOST_TOLD, told_lines, wrong_line
from nadzsumek.mistakes.nearness import nearest
from nadzsumek.mistakes.plans import MARKLESS, reason, told_plan, users_of
from nadzsumek.mistakes.refusals import line_with_help, with_help

DATA = os.path.join(TOP, "crates", "lab", "data")
NAMES = ["ann", "bob"]


def contents(*path: str) -> str:
    """A file of the repository."""
    with open(os.path.join(TOP, *path), encoding="utf-8") as it:
        return it.read()


PLAN = contents("examples", "two-users.farm").partition("---\n")[0].encode()


def run(name: str, words: list[str], text: bytes) -> tuple[int, bytes, bytes]:
    """The status of a command, what it prints, and what it says on standard error."""
    status, out, errors = ran([LAB if name == "lab" else program(name), *words], text)
    assert status is not None
    return status, out, errors


def rows_of(name: str) -> dict[str, str]:
    """The rows of a file of the lab: what is asked, and what the program says of it."""
    before = " = line " if name.endswith(".assembly") else " = column "
    lines = (line for line in contents("crates", "lab", "data", name).splitlines() if not line.startswith("#"))
    found = (line.rpartition(before) for line in lines if before in line)
    return {row: before.removeprefix(" = ") + told for row, _, told in found}


def rows_of_help() -> Iterator[tuple[str, str, str]]:
    """The file, the row and the help of each row of help.txt."""
    for block in contents("tests", "mistakes", "help.txt").split("\n=== ")[1:]:
        name, *lines = block.splitlines()
        for line in lines:
            if line and not line.startswith("# "):
                row, _, told = line.rpartition(" = ")
                yield name, row, told


@pytest.mark.parametrize(("name", "row", "told"), rows_of_help())
def test_help_of_rows(name: str, row: str, told: str) -> None:
    """Where the lab refuses a row, the table says what helps after what the program says of it, and else nothing."""
    said = rows_of(name)[row]
    more = {"nothing": ""}.get(told, f". {told}" if name.endswith(".assembly") else f" ({told})")
    assert line_with_help(said, b"") == said + more


def test_every_refused_row_has_help_or_none() -> None:
    """Each row that the lab refuses is judged above."""
    judged = {(name, row) for name, row, _ in rows_of_help()}
    for name in ("replay.mistakes", "trace.mistakes"):
        assert {row for row in rows_of(name) if (name, row) not in judged} == set()


def plans() -> Iterator[tuple[str, str]]:
    """What is to be said of each plan of plans.txt, and the plan. One may be a change of the base."""
    base = ""
    for block in contents("tests", "mistakes", "plans.txt").split("=== ")[1:]:
        heading, _, text = block.partition("\n")
        if text.startswith("replace: "):
            lines, text = text.splitlines(), base
            for old, new in zip(lines[::2], lines[1::2]):
                assert text.count(old.removeprefix("replace: ")) == 1, old
                text = text.replace(old.removeprefix("replace: "), new.removeprefix("with:").removeprefix(" "))
        if heading.startswith("base "):
            base = text
        elif not heading.startswith("#"):
            yield heading.partition(" - ")[0], text


@pytest.mark.parametrize(("told", "text"), plans())
def test_places_of_plans(told: str, text: str) -> None:
    """The first place that has the fault which the program says, and what would be right there."""
    status, printed, said = run("farm", [], text.encode())
    fault = int(told.split(": ")[1])
    assert (status, printed, said) == (3, b"", f"plan: {fault}\n".encode())
    assert told_plan(fault, text.encode()) == told + MARKLESS
    assert told_plan(fault, text.encode() + b"\n---\n") == told


def test_places_that_are_not_found() -> None:
    """Where the program sees a fault that the table doesn't find, it says nothing, and so the program's sentence stays."""
    assert reason(1, b"a" + b".a" * 81 + b" = 1\n") is None
    assert reason(7, PLAN) is None
    assert with_help(b"plan: 7: ports are shared\n", PLAN + b"---\n") == b"plan: 7: ports are shared\n"


@pytest.mark.parametrize("begin", ["folder/echo.occ: ", "line 3, ann load: echo.occ: "])
def test_occam_has_its_own_help(begin: str) -> None:
    """What is said of a text of occam stays as its front end says it: an operand may have parentheses there."""
    said = f'{begin}line 1, column 1: fault 11: expected the end of the line, not "("\n'
    assert with_help(said.encode(), b"") == said.encode()
    more = said + 'line 2, column 1: fault 2: expected a process, not "mov"\n'
    assert begin.startswith("line") or with_help(more.encode(), b"") == more.encode()


def test_a_script_without_its_mark() -> None:
    """A line of a script in what is read as a plan."""
    told = told_plan(1, PLAN + b"ann look 0\n")
    number = PLAN.count(b"\n") + 1
    assert told is not None and told.endswith(
        f". The mark is missing: line {number} begins like one of a script, and no line before it is just ---"
    )


@pytest.mark.parametrize(
    ("word", "names", "name"),
    [
        ("stpe", ["rest", "step", "stop"], "step"),
        ("lcd", ["ldl", "ldc", "lend"], "ldc"),
        ("ld", ["ldl", "ldc"], None),
        ("xyzzy", ["step", "stop"], None),
        ("colect", ["collect", "select"], "collect"),
    ],
)
def test_nearest(word: str, names: list[str], name: str | None) -> None:
    """A slip or two swapped letters are found, and names are not made up for short words and others."""
    assert nearest(word, names) == name


def word_of_farm(line: bytes) -> str | None:
    """The word by which `farm` refuses a script of this line alone; none if it takes it."""
    status, _, said = run("farm", [], PLAN + b"---\n" + line)
    assert (status, said) == (0, b"") or (status == 4 and said.startswith(b"line 1: ")), (line, status, said)
    return said.decode().removeprefix("line 1: ").rstrip() if status else None


def word_of_table(line: bytes) -> str | None:
    """The same of the table."""
    wrong = wrong_line(NAMES, line)
    return wrong.kind if wrong else None


def planted() -> list[bytes]:
    """Right lines, and each of them with one mistake."""
    right = [b"ann config 00", b"bob write 7 0aFF", b"ann boot 0 21f5", b"ann poke 0 80000048 00000001"]
    right += [b"bob peek 255 8000004c", b"ann collect 007", b"bob reset 0", b"ann look 0", b"", b"# ann"]
    lines = list(right)
    for words in (line.split(b" ") for line in right if line.startswith((b"ann", b"bob"))):
        lines += [b" ".join(words[:count]) for count in range(len(words))]
        lines += [b" ".join(words) + more for more in (b" ", b" 0", b"\r\r", b"\t", b" # more", b";")]
        for at in range(len(words)):
            for word in (
                b"",
                words[at].upper(),
                words[at] + b"0",
                b"-" + words[at],
                b"0x0",
                b"256",
                b"\xff",
                b"\xc3\xa9",
            ):
                lines.append(b" ".join([*words[:at], word, *words[at + 1 :]]))
    return lines


@pytest.mark.parametrize("line", sorted(set(planted())))
def test_planted_lines(line: bytes) -> None:
    """The table and `farm` agree on right lines and on planted mistakes."""
    assert word_of_table(line) == word_of_farm(line)


WORDS = st.one_of(
    st.sampled_from(
        [b"ann", b"bob", b"eve", b"config", b"write", b"boot", b"poke", b"peek", b"collect", b"reset", b"look"]
    ),
    st.sampled_from(
        [b"0", b"7", b"255", b"256", b"+1", b"00", b"0a", b"21f5", b"80000048", b"8000004", b"", b"load", b"#"]
    ),
    st.binary(max_size=6).filter(lambda it: b"\n" not in it and b" " not in it),
)


@settings(max_examples=150, deadline=None, database=None)
@given(st.lists(WORDS, min_size=1, max_size=6).map(b" ".join).map(lambda it: it.removesuffix(b"\r")))
def test_any_line(line: bytes) -> None:
    """The table and `farm` agree on lines that nobody planned."""
    if line != b"---":
        assert word_of_table(line) == word_of_farm(line)


def test_users_of_a_plan() -> None:
    """The users have the order of the plan."""
    assert users_of(PLAN + b"---\n") == NAMES


@pytest.mark.parametrize(("count", "rest"), [(101, "1 more line is wrong"), (103, "3 more lines are wrong")])
def test_many_wrong_lines(count: int, rest: str) -> None:
    """After a hundred lines only the number of the others is told."""
    told = told_lines(NAMES, b"eve\n" * count)
    assert told[MOST_TOLD:] == [f"and {rest}"]
    assert told[0] == 'line 1: "eve" is no user of the plan: ann, bob'


@pytest.mark.parametrize(
    ("words", "text", "status", "told"),
    [
        (["run"], PLAN + b"---\nann look 0\nann lok 0\nbob boot O 21f5\n", 4, [
            'line 2, ann: "lok" is no verb: config, write, boot, poke, peek, collect, reset or look (is it look?)',
            'line 3, bob boot: "O" is no host number: decimal digits, 0 to 255',
        ]),
        (["replay"], PLAN + b"---\nann look = nothing\n", 4, ["line NUMBER, ann look: too few words: ann look NODE"]),
        (["replay"], PLAN + b"---\n0 stpe 0\n", 4, [f"line NUMBER, {rows_of('replay.mistakes')['replay 0 stpe 0']} (is it step?)"]),
        (["plan"], PLAN.replace(b"limit", b"limt", 1), 3, ["plan: 2: domain 0: there is no field `limt`. Is it `limit`?"]),
        (["run"], PLAN.replace(b"limit", b"limt", 1), 3, [
            f"plan: 2: domain 0: there is no field `limt`. Is it `limit`?{MARKLESS}"
        ]),
        (["replay"], b"version = 4\n---\n", 3, [
            "plan: 2: a field is missing, unknown or of a wrong kind, in the plan that begins at line 1 (`lab plan` says where)"
        ]),
        (["plan"], b"", 3, ["plan: 2: the plan: the field `version` is missing, an integer"]),
        (["assemble"], b"rev\nmov 5\n", 4, [
            f"line 2{rows_of('programs.assembly')['mov 5'].removeprefix('line 1')}. "
            "ldc, ldl and ldnl load a word into A, and stl and stnl store it"
        ]),
        (["trace"], b"rgsters\n", 4, [f"line 1, {rows_of('trace.mistakes')['trace rgsters']} (is it registers?)"]),
    ],
)  # fmt: skip
def test_the_command_lab(words: list[str], text: bytes, status: int, told: list[str]) -> None:
    """The command `lab` says what helps with each line of a refusal, and its status is the program's."""
    number = text.count(b"\n")
    wanted = "".join(f"{line.replace('NUMBER', f'{number}')}\n" for line in told).encode()
    assert run("lab", words, text) == (status, b"", wanted)


@pytest.mark.parametrize("words", [[], ["--explain"], ["--letters"]])
def test_a_folder_is_no_input(words: list[str]) -> None:
    """The command says of it what the program says of an input that can't be read."""
    folder = os.open(TOP, os.O_RDONLY)
    try:
        done = subprocess.run([f"{TOP}/farm", *words], stdin=folder, capture_output=True, check=False)
    finally:
        os.close(folder)
    assert (done.returncode, done.stdout, done.stderr) == (6, b"", b"io\n")
