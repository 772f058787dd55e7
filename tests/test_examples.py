"""Examples, by `farm` in many ways and by the lab, and what both must refuse."""

import itertools
import os
import tempfile
import tomllib

import pytest
from support.trials import (
    EXAMPLES,
    HELPED_NAMES,
    LAB,
    PLAIN_NAMES,
    STORED_RUN,
    TOP,
    WORKERS,
    Example,
    by_workers,
    contents,
    example,
    no_threads,
    program,
    run,
)

QUANTA = (1, 7, 256, 4096)
TWO_USERS = contents(f"{EXAMPLES}/two-users.farm").split(b"---\n")[0]
LONG_LINES = "long lines"
NAMES = (*PLAIN_NAMES, *HELPED_NAMES, LONG_LINES)
SCRIPTS = tuple(it for it in (*PLAIN_NAMES, *HELPED_NAMES) if it != STORED_RUN)


def long_lines() -> Example:
    """Lines that are too long to stand in a file, and their answers."""
    spelled = bytes(it % 251 for it in range(4096)).hex()
    pairs = [
        # a boot message has at most 255 bytes of code; nothing is joined to the host, which keeps what it took
        ("ann boot 0 " + "21" * 256, "ann boot 0 refused 2"),
        ("ann boot 0 " + "21" * 255, "ann boot 0 256"),
        # a host has room for 4,096 bytes
        ("ann write 0 " + "00" * 3841, "ann write 0 3840"),
        ("ann write 0 00", "ann write 0 0"),
        ("ann boot 0 0505", "ann boot 0 0"),
        ("ann poke 0 80000048 00000000", "ann poke 0 0"),
        ("ann peek 0 80000048", "ann peek 0 -"),
        # bob's host is joined to itself, and begins when the output is ready
        ("bob config 000707", "bob config -"),
        ("bob write 0 " + spelled, "bob write 0 4096"),
        ("bob config 03", "bob config -"),
        ("bob collect 0", "bob collect 0 " + spelled),
        # 10,000 bytes in one line, and an answer to every fifth
        ("bob config " + "0001020202" * 2000, "bob config" + " 81" * 2000),
    ]
    script, answers = ("".join(f"{it[side]}\n" for it in pairs).encode() for side in (0, 1))
    return Example(TWO_USERS + b"---\n" + script, answers)


def case(name: str) -> Example:
    return long_lines() if name == LONG_LINES else example(name)


@pytest.mark.parametrize("quantum", [it if it == 256 else pytest.param(it, marks=pytest.mark.long) for it in QUANTA])
@pytest.mark.parametrize("count", WORKERS)
@pytest.mark.parametrize("name", NAMES)
def test_answers(name: str, count: int, quantum: int) -> None:
    """Workers and quanta change no answer."""
    text, output = case(name)
    assert run(by_workers(count, quantum), text) == (0, output, b"")


@pytest.mark.long
@pytest.mark.parametrize("name", NAMES)
def test_no_thread_can_be_started(name: str, farm: str) -> None:
    assert run([farm], case(name).text, limits=no_threads) == (5, b"", b"memory\n")


def users_of(text: bytes) -> list[str]:
    """The names of the users of a text's plan, in its order."""
    domains = tomllib.loads(text.decode().split("\n---\n")[0])["domain"]
    return [str(user["name"]) for it in domains for user in it.get("user", [it])]


def by_user(users: list[str], answers: bytes) -> bytes:
    """Answers with each user's together, in the order of the plan."""
    lines = answers.splitlines(keepends=True)
    return b"".join(it for user in users for it in lines if it.split(b" ")[0] == user.encode())


def check_record(lab: str, record: bytes) -> None:
    """`lab rows` finds nothing wrong in a record, or it has no events."""
    with tempfile.NamedTemporaryFile(suffix=".replay") as it:
        it.write(record)
        it.flush()
        status, out, _ = run([lab, "rows", it.name])
    assert out.endswith(b" 0 wrong\n") and (status == 0 or b": 0 rows," in out)


@pytest.mark.parametrize("name", SCRIPTS)
def test_lab_answers_as_the_farm(name: str, lab: str) -> None:
    """`lab run` answers as `farm`, `lab replay` does so in the order of the script, and what `lab run --record` prints is right."""
    path = f"{EXAMPLES}/{name}.farm"
    output, text, folder = contents(f"{EXAMPLES}/{name}.out"), contents(path), os.path.dirname(path)
    assert run([lab, "run", path], folder=folder) == (0, output, b"")
    assert run([lab, "run"], text, folder=folder) == (0, output, b"")
    status, out, errors = run([lab, "replay"], text, folder=folder)
    assert (status, by_user(users_of(text), out), errors) == (0, output, b"")
    for domain in range(text.split(b"\n---\n")[0].count(b"[[domain]]")):
        status, record, errors = run([lab, "run", path, "--record", str(domain)])
        assert (status, errors) == (0, b"")
        check_record(lab, record)


def refusals() -> list[str]:
    """The rows of refused.txt: kind, status, standard error, whose lines ` // ` divides, and text."""
    lines = contents(f"{EXAMPLES}/refused.txt").decode().splitlines()
    return [it for it in lines if it and not it.startswith("#")]


@pytest.mark.parametrize("row", refusals())
def test_refused(row: str) -> None:
    kind, status, told, spelled = row.split(" | ", 3)
    text = spelled.encode().decode("unicode_escape").encode("latin-1")
    kind, *options = kind.split()
    words = text.decode().split() if kind in ("words", "lab") else options
    whole = {"input", "trace", "assemble", "plan-all", "expand-all", "run-all"}
    given = {"words": b"", "lab": b"", "plan": TWO_USERS + text}.get(
        kind, text if kind in whole else TWO_USERS + b"---\n" + text
    )
    subcommand = kind.removesuffix("-all")
    is_lab = kind == "plan-all" or subcommand in ("trace", "assemble", "replay", "expand", "run")
    called = [LAB, subcommand] if is_lab else [LAB if kind == "lab" else program("farm")]
    code, output, errors = run([*called, *words], given)
    assert (code, output) == (int(status), b"")
    assert errors == told.replace(" // ", "\n").encode() + b"\n" if told != "*" else errors


# What follows is of `./farm --explain`.
EXPLAINED = [f"{TOP}/farm", "--explain"]


def class_plan() -> bytes:
    """A plan that gives each of twelve users a domain of two ports with one node."""
    domain = """[[domain]]
first = {0}
last = {1}
name = "s{2:02}"
limit = 1000
host = [1]
node = [{{memory = 4096, links = [0, -1, -1, -1]}}]
"""
    return ("version = 1\n" + "".join(domain.format(2 * it, 2 * it + 1, it + 1) for it in range(12))).encode()


def explanations() -> list[tuple[bytes, int, list[str]]]:
    """Each text that is refused with `--explain`, with the status and the lines that are told: the rows of explained.txt, and
    more wrong lines than are told one by one."""
    behind = {"input": b"", "script": TWO_USERS + b"---\n", "class": class_plan() + b"---\n"}
    rows: list[tuple[bytes, int, list[str]]] = []
    for line in contents(f"{EXAMPLES}/explained.txt").decode().splitlines():
        if line.startswith("> "):
            rows[-1][2].append(line[2:])
        elif line and not line.startswith("#"):
            kind, status, text = line.split(" | ", 2)
            rows.append((behind[kind] + text.encode().decode("unicode_escape").encode("latin-1"), int(status), []))
    for count, rest in ((101, "1 more line is wrong"), (103, "3 more lines are wrong")):
        told = [f'line {it}: "eve" is no user of the plan: ann, bob' for it in range(1, 101)]
        rows.append((behind["script"] + b"eve\n" * count, 4, ["line 1: user", *told, f"and {rest}"]))
    return rows


@pytest.mark.parametrize(("text", "status", "lines"), explanations(), ids=map(str, itertools.count(1)))
def test_explained(text: bytes, status: int, lines: list[str]) -> None:
    assert run(EXPLAINED, text) == (status, b"", "".join(f"{it}\n" for it in lines).encode())


@pytest.mark.parametrize("name", NAMES)
def test_explaining_changes_no_answer(name: str) -> None:
    text, output = case(name)
    assert run(EXPLAINED, text) == (0, output, b"")
