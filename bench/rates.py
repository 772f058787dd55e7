"""What the scripts of rates share: the program that they measure, the shortest of several runs, and the rows of the tables of
docs/SPEED.md that they print."""
import os
import subprocess
import sys
import tempfile
import time
from collections.abc import Callable, Iterable, Mapping, Sequence
from typing import NamedTuple

sys.path.append(os.path.join(os.path.dirname(os.path.dirname(os.path.abspath(__file__))), "tools"))
from tree import TOP as TOP, built as built, crate_lines as crate_lines, crates_below as crates_below

RUNS = 5
# Rounds over all works of a table.
ROUNDS = 8
# What ./farm sets.
KEEPS_MEMORY = {"MALLOC_TRIM_THRESHOLD_": "268435456", "MALLOC_TOP_PAD_": "1048576"}
# The words of a call, and whether what it prints is right.
Call = Sequence[str | int]
IsRight = Callable[[str], bool]


class Run(NamedTuple):
    """Nanoseconds of one run, what it printed, and its peak memory in MiB."""

    nanoseconds: int
    printed: str
    peak: float


class Work(NamedTuple):
    """What is right of a work, and its calls."""

    is_right: IsRight
    calls: Sequence[Call]


def count_asked(usual: int) -> int:
    """How many rounds the words of the script ask for, or as many as usual."""
    return int(sys.argv[1]) if len(sys.argv) > 1 else usual


def timed(call: Call, text: str = "", cores: Iterable[int] | None = None, more: Mapping[str, str] | None = None) -> Run:
    """Nanoseconds of one run with this standard input, on these cores, with more variables than this process has; what it
    printed; and its peak memory in MiB, which `time` tells."""
    words = [str(word) for word in call]
    with tempfile.NamedTemporaryFile("r") as peak, tempfile.TemporaryFile() as given:
        given.write(text.encode())
        given.seek(0)
        prepare = None if cores is None else lambda: os.sched_setaffinity(0, cores)
        begun = time.perf_counter_ns()
        done = subprocess.run(
            ["time", "-f", "%M", "-o", peak.name, *words],
            stdin=given,
            stdout=subprocess.PIPE,
            text=True,
            env={**os.environ, **(more or {})},
            preexec_fn=prepare,
            check=True,
        )
        return Run(time.perf_counter_ns() - begun, done.stdout, int(peak.read()) / 1024)


def in_turns(
    is_right: IsRight,
    *calls: Call,
    runs: int = RUNS,
    text: str = "",
    cores: Iterable[int] | None = None,
    more: Mapping[str, str] | None = None,
) -> list[list[Run]]:
    """So many runs of each of these calls, which take turns, as `timed` tells them. What any run prints must be right."""
    [taken] = in_rounds([Work(is_right, calls)], runs, text, cores, more)
    return taken


def in_rounds(
    works: Sequence[Work],
    runs: int = ROUNDS,
    text: str = "",
    cores: Iterable[int] | None = None,
    more: Mapping[str, str] | None = None,
) -> list[list[list[Run]]]:
    """The same of several works, each with what is right of it and its calls, in rounds over all of them: so a minute in which
    the machine is slow tells on no work alone."""
    taken: list[list[list[Run]]] = [[[] for _ in calls] for _, calls in works]
    for _ in range(runs):
        for runs_of, (is_right, calls) in zip(taken, works):
            for runs_of_call, call in zip(runs_of, calls):
                runs_of_call.append(timed(call, text, cores, more))
                if not is_right(runs_of_call[-1].printed):
                    sys.exit(f"{call[-1]}: a wrong answer: {runs_of_call[-1].printed[-300:]}")
    return taken


def shortest(
    is_right: IsRight,
    *calls: Call,
    text: str = "",
    cores: Iterable[int] | None = None,
    more: Mapping[str, str] | None = None,
) -> list[Run]:
    """The shortest of several runs of each of these calls, which take turns, as `timed` tells it."""
    turns = in_turns(is_right, *calls, text=text, cores=cores, more=more)
    return [min(it, key=lambda run: run.nanoseconds) for it in turns]


def heading(*names: str) -> None:
    """Prints the head of a table."""
    print("\n| " + " | ".join(names) + " |\n|" + "---|" * len(names), flush=True)


def row(*cells: str | float) -> None:
    """Prints a row of a table."""
    print("| " + " | ".join(str(it) for it in cells) + " |", flush=True)


RATIOS = ("Work", "Ours", "Yardstick", "Ratio", "Spread", "Goal")


def spoken(nanoseconds: float) -> str:
    """A time of one event, with its unit."""
    return f"{nanoseconds:.3g} ns" if nanoseconds < 1000 else f"{nanoseconds / 1000:.3g} µs"


def ratio_row(work: str, events: int, what: str, goal: str | float, taken: Sequence[Sequence[Run]]) -> None:
    """Prints the row of a work and its yardstick, which each did so many events in runs that took turns: the time of an event in
    the shortest run of each, how many times as fast ours is, and between which bounds that lay in the pairs of runs."""
    ours, plain = (min(run.nanoseconds for run in it) for it in taken)
    pairs = [b.nanoseconds / a.nanoseconds for a, b in zip(*taken)]
    spread = f"{min(pairs):.2f} to {max(pairs):.2f}"
    row(work, spoken(ours / events), f"{spoken(plain / events)}, {what}", f"{plain / ours:.2f}", spread, goal)
