"""The programs `farm` and `live` out of memory: the first allocation is refused, then the second, and so on until a
run has no further one. The program must end with status 5 and print `memory` and nothing else, or print just what it prints with
ample memory. `live` may go on instead: then one line may be answered `memory`, its user's domain rests until a restart, and all
others are answered as ever; a line whose name couldn't be kept is named by its number on standard error. If it ends, what it told
each user must be a beginning of what they are told with ample memory, in whole lines; it ends with status 7 if the memory of a
thread was refused. Threads allocate in any order, so the same number may refuse another call next time."""

import functools
import os
import re
import tomllib
from collections.abc import Callable
from concurrent.futures import ThreadPoolExecutor

import pytest
from support.live_lines import PLAN
from support.trials import (
    RUNS,
    TOP,
    by_workers,
    contents,
    example,
    few_threads,
    library,
    program,
    put,
    refused,
    run,
)

SECONDS_TO_END = 60
MEMORY = (5, b"", b"memory\n")


@pytest.fixture(scope="module")
def refuse(tmp_path_factory: pytest.TempPathFactory) -> str:
    """The library that refuses allocations."""
    return library("refuse", str(tmp_path_factory.mktemp("refuse")))


def check(refuse: str, call: list[str], text: bytes, is_right: Callable[[int | None, bytes, bytes], bool]) -> None:
    """Each refusal is answered rightly, up to the first number that no allocation has."""
    number, step = 1, 4 * (os.cpu_count() or 1)
    with ThreadPoolExecutor(os.cpu_count()) as pool:
        while True:
            numbers = range(number, number + step)
            variables = [{"LD_PRELOAD": refuse, "REFUSED": str(it)} for it in numbers]
            for at, (status, output, told) in zip(numbers, pool.map(lambda it: run(call, text, it), variables)):
                errors, _, calls = refused(told)
                assert is_right(status, output, errors), f"allocation {at}: status {status}, {errors!r}"
                if calls < at:
                    assert at > 1, "no allocation was seen"
                    return
            number += step


@pytest.mark.parametrize(("name", "count"), RUNS)
def test_allocations_of_farm(name: str, count: int, refuse: str) -> None:
    text, output = example(name)
    check(refuse, by_workers(count), text, lambda *it: it in ((0, output, b""), MEMORY))


@pytest.mark.parametrize(("name", "count"), RUNS)
def test_threads_of_farm(name: str, count: int) -> None:
    """The system starts no thread, one thread, and so on: the program needs one for each worker and each user."""
    text, output = example(name)
    domains = tomllib.loads(text.decode().split("\n---\n")[0])["domain"]
    needed = count + sum(len(it.get("user", [it])) for it in domains)
    for most in range(needed + 1):
        limits = functools.partial(few_threads, most)
        got = run(by_workers(count), text, limits=limits, seconds=SECONDS_TO_END)
        assert (most, got) == (most, MEMORY if most < needed else (0, output, b""))


# That the domain of a user rests, which answers no line.
NOTE = re.compile(r"(ann|bob|cas) note rests memory")
# What ann and bob ask of `live`, line by line in turn, and what each is answered. The boot message's code gives the host one byte
# more than it took, and twice that: see the guide's first program.
LIVE_LINES = (
    ("config 01000703", "config -"),
    ("poke 0 80000100 12345678", "poke 0 9"),
    ("peek 0 80000100", "peek 0 12345678"),
    ("boot 0 b424f224f2243081ff21f5", "boot 0 12"),
    ("rest", "rest quiet"),
    ("collect 0", "collect 0 79563412"),
    ("why 1", "why 1 nosuch"),
    ("look 0", "look 0 idle overruns 0 0 0 0"),
    ("write 0 05", "write 0 1"),
)


def is_rest_of(told: list[str], wanted: list[str], name: str) -> bool:
    """Whether a user met want of memory once, and was answered as with ample memory before that, and from a restart on. The line
    that met it is answered `memory`; or a note says that the domain rests; or the line is missing."""
    answers = [it for it in told if not NOTE.fullmatch(it)]
    errors = [it for it in answers if re.fullmatch(rf"{name} error \d+ memory", it)]
    missing = len(wanted) - len(answers)
    if (missing, len(errors)) not in ((0, 0), (0, 1), (1, 0)) or (
        not errors and not missing and len(answers) == len(told)
    ):
        return False
    first = next((at for at, (it, other) in enumerate(zip(answers, wanted)) if it != other), len(answers))
    if errors and answers[first] != errors[0]:
        return False
    restart = f"{name} restart ok"
    if restart not in answers or answers.index(restart) < first:
        return True
    return answers[answers.index(restart) :] == wanted[wanted.index(restart) :]


def missing_line(told: list[str], wanted: list[str], name: str) -> int | None:
    """The number of the line of a user that was answered nothing, among those of both users; none if all were answered."""
    answers = [it for it in told if not NOTE.fullmatch(it)]
    if len(answers) >= len(wanted):
        return None
    place = next((at for at, (it, other) in enumerate(zip(answers, wanted)) if it != other), len(answers))
    both = len(LIVE_LINES)
    return 2 * place + ("ann", "bob").index(name) + 1 if place < both else both + place + 1


def test_allocations_of_live(live: str, folder: str, refuse: str) -> None:
    """Some lines of two users, of which one begins their domain anew."""
    path = put(f"{folder}/plan.toml", PLAN)
    names = ("ann", "bob")
    text = (
        "".join(f"{name} {line}\n" for line, _ in LIVE_LINES for name in names) + "ann restart\nann peek 0 80000100\n"
    )
    wanted = {name: [f"{name} {answer}" for _, answer in LIVE_LINES] for name in names}
    wanted["ann"] += ["ann restart ok", "ann peek 0 -"]

    def is_right(status: int | None, output: bytes, errors: bytes) -> bool:
        lines = output.decode().split("\n")
        told = {name: [it for it in lines if it.startswith(f"{name} ")] for name in (*names, "cas", "!")}
        if lines[-1] != "" or len(lines) - 1 != sum(map(len, told.values())):
            return False
        if status != 0:
            return (
                all(told[it] == wanted[it][: len(told[it])] for it in names)
                and not told["cas"]
                and (status, errors) in ((5, b"memory\n"), (7, b"threads\n"))
            )
        said = re.fullmatch(
            rb"(?:error (\d+) user\n)?(the domain of (ann|bob, cas) rests: memory ran out\. .*\n)?", errors
        )
        others = [name for name in names if told[name] != wanted[name]]
        missing = [it for it in (missing_line(told[name], wanted[name], name) for name in names) if it is not None]
        return (
            said is not None
            and len(others) < 2
            and all(NOTE.fullmatch(it) for it in told["cas"])
            and missing == [int(it) for it in said.groups()[:1] if it is not None]
            and not told["!"]
            and all(is_rest_of(told[name], wanted[name], name) for name in others)
        )

    check(refuse, [live, "--workers", "2", path], text.encode(), is_right)
