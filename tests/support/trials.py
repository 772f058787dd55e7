"""The programs that are tried and how they are run, the examples with their outputs, and the libraries of C that stand before the
C library."""

import contextlib
import functools
import os
import resource
import subprocess
from collections.abc import Callable, Iterator
from typing import NamedTuple

import pytest
from tree import TOP as TOP

EXAMPLES = f"{TOP}/examples"
PROGRAMS = f"{EXAMPLES}/programs"
# The folders of examples whose loads are spelled out by `lab expand`: programs in assembly, and in occam.
HELPED = ("programs", "occam")
STORED = f"{TOP}/crates/farm"
# The command that starts the lab with its front end of occam beside it.
LAB = f"{TOP}/lab"
# By how many workers each text is run.
WORKERS = (1, 2, 8)
MOST_SECONDS = 60

Limits = Callable[[], contextlib.AbstractContextManager[None]]


def program(name: str) -> str:
    """The path of the program that is tried, which ./test puts into a variable of its name in capitals."""
    path = os.environ.get(name.upper())
    if not path:
        raise RuntimeError(f"the variable {name.upper()} isn't set: ./test sees that the programs are there")
    return os.path.abspath(path)


def contents(path: str) -> bytes:
    with open(path, "rb") as file:
        return file.read()


def text_of(path: str) -> str:
    with open(path, encoding="utf-8") as file:
        return file.read()


def put(path: str, what: str | bytes) -> str:
    """Writes a file, and gives its path."""
    with open(path, "wb") as file:
        file.write(what if isinstance(what, bytes) else what.encode())
    return path


# The program with which a student's page begins: it adds one to each letter.
NEXT = text_of(f"{TOP}/nadzsumek/web/static/student.js").split("`")[1]


def names_in(folder: str) -> list[str]:
    """The names of the texts of a folder, without their ending."""
    return sorted(it[:-5] for it in os.listdir(folder) if it.endswith(".farm"))


class Example(NamedTuple):
    """A text, and what is printed of it."""

    text: bytes
    output: bytes


# Each example for `farm`, and its stored run.
STORED_RUN = "the stored run"
PLAIN_NAMES = (*names_in(EXAMPLES), STORED_RUN)
# Each example with each number of workers, of which the gate has one.
RUNS = [
    pytest.param(name, count, marks=[] if (name, count) == (STORED_RUN, 2) else pytest.mark.long)
    for name in PLAIN_NAMES
    for count in WORKERS
]
# The examples of programs/ and occam/, whose lines `lab expand` spells out.
HELPED_NAMES = tuple(f"{folder}/{it}" for folder in HELPED for it in names_in(f"{EXAMPLES}/{folder}"))


@functools.cache
def example(name: str) -> Example:
    """An example as `farm` takes it."""
    if name == STORED_RUN:
        return Example(contents(f"{STORED}/stdin"), contents(f"{STORED}/stdout"))
    output = contents(f"{EXAMPLES}/{name}.out")
    if name not in HELPED_NAMES:
        return Example(contents(f"{EXAMPLES}/{name}.farm"), output)
    status, text, errors = run([LAB, "expand", f"{EXAMPLES}/{name}.farm"])
    assert (status, errors) == (0, b"")
    return Example(text, output)


def library(name: str, folder: str) -> str:
    """The path of the library that NAME.c of tests/support makes, for LD_PRELOAD."""
    path = f"{folder}/{name}.so"
    words = ["cc", "-O1", "-fno-omit-frame-pointer", "-shared", "-fPIC", "-o", path, f"{TOP}/tests/support/{name}.c"]
    subprocess.run(words, check=True)
    return path


@contextlib.contextmanager
def few_threads(most: int) -> Iterator[None]:
    """Programs that begin meanwhile can start at most so many threads beside their first: the stack of one more would be larger
    than the memory that is left to the process. The limits hold for this process too, whose own threads, if it had some, might
    be too much for them."""
    told = {resource.RLIMIT_STACK: 1 << 30, resource.RLIMIT_AS: (most << 30) + (1 << 29)}
    kept = {it: resource.getrlimit(it) for it in told}
    for it, limit in told.items():
        resource.setrlimit(it, (limit, kept[it][1]))
    try:
        yield
    finally:
        for it, limits in kept.items():
            resource.setrlimit(it, limits)


def no_threads() -> contextlib.AbstractContextManager[None]:
    """Programs that begin meanwhile can start no thread but the first."""
    return few_threads(0)


class Ran(NamedTuple):
    """How a program ended: its status is none if it didn't end in time."""

    status: int | None
    output: bytes
    errors: bytes


def run(
    call: list[str],
    text: bytes = b"",
    more: dict[str, str] | None = None,
    limits: Limits = contextlib.nullcontext,
    seconds: float = MOST_SECONDS,
    folder: str | None = None,
) -> Ran:
    """Runs a program with this standard input, with more variables than this process has, and in this folder if one is given."""
    with limits():
        try:
            done = subprocess.run(
                call,
                input=text,
                capture_output=True,
                timeout=seconds,
                check=False,
                env={**os.environ, **(more or {})},
                cwd=folder,
            )
        except subprocess.TimeoutExpired:
            return Ran(None, b"", b"it did not end")
    return Ran(done.returncode, done.stdout, done.stderr)


def run_text(
    call: list[str],
    text: str = "",
    env: dict[str, str] | None = None,
    cwd: str | None = None,
    timeout: float = 2 * MOST_SECONDS,
) -> "subprocess.CompletedProcess[str]":
    """How a command ends whose input and outputs are text."""
    return subprocess.run(
        call, input=text, capture_output=True, encoding="utf-8", timeout=timeout, check=False, env=env, cwd=cwd
    )


def run_together(
    call: list[str], text: str = "", env: dict[str, str] | None = None
) -> "subprocess.CompletedProcess[str]":
    """The same, with standard error among standard output."""
    return run_text(["sh", "-c", 'exec "$@" 2>&1', "sh", *call], text, env)


def by_workers(count: int, quantum: int | None = None) -> list[str]:
    """How `farm` is called with so many workers, and this quantum if one is given."""
    words = [program("farm"), "--workers", str(count)]
    return words if quantum is None else [*words, "--quantum", str(quantum)]


def refused(told: bytes) -> tuple[bytes, list[int] | None, int]:
    """What a program that ran beneath refuse.c told on standard error: its own text, the addresses from where the refused
    allocation was asked, if one was, and how many there were."""
    lines = told.splitlines(keepends=True)
    own = b"".join(it for it in lines if not it.startswith((b"allocations: ", b"refused:")))
    asked = next(([int(word, 16) for word in it.split()[1:]] for it in lines if it.startswith(b"refused:")), None)
    return own, asked, next((int(it.split()[1]) for it in lines if it.startswith(b"allocations: ")), 0)
