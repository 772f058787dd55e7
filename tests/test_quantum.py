"""The programs keep the quantum."""

import re

import pytest
from support.live_lines import Live
from support.trials import by_workers, run, text_of

ONE_NODE = """version = 1
[[domain]]
name = "ann"
first = 24
last = 31
limit = 1000000
host = [7]
[[domain.node]]
memory = 4096
links = [0, -1, -1, -1]
"""
# Ports 0 and 1 are the nodes', and 3 and 2 the hosts'. No Step finds the journal full.
TWO_NODES = """version = 1
[[domain]]
name = "ann"
first = 0
last = 3
limit = 1099511627776
host = [3, 2]
[[domain.node]]
memory = 2048
links = [0, -1, -1, -1]
[[domain.node]]
memory = 2048
links = [1, -1, -1, -1]
"""
# Counts down from 65,536 and then sends 41, in 524,288 Steps.
COUNTDOWN = "b52120202040d171608fd171a2600824f22441fe21f5"
QUANTUM = 7
# A program that loops without end at each node, and looks at them. Then ann settles, in 10,000 rounds, beside the workers.
LOOPS = ["config 01000301010203", "boot 0 600e00000000", "boot 1 600e00000000", "look 0", "look 1", "rest"]


@pytest.mark.parametrize(("workers", "quantum", "told"), [(2, 256, "41"), (1, 1, "-")])
def test_countdown(workers: int, quantum: int, told: str) -> None:
    """By 256 Steps at a time the countdown ends while ann settles once. By one at a time she does 10,000 of them in a settling,
    and the one worker, who does one at a time too, hasn't done the others in between."""
    lines = ["config 01000703", f"boot 0 {COUNTDOWN}", *["collect 0"] * 9]
    text = f"{ONE_NODE}---\n" + "".join(f"ann {it}\n" for it in lines)
    answers = ["config -", "boot 0 23", f"collect 0 {told}", *["collect 0 -"] * 8]
    output = "".join(f"ann {it}\n" for it in answers)
    assert run(by_workers(workers, quantum), text.encode()) == (0, output.encode(), b"")


def bursts(record: str) -> list[int]:
    """How many Steps a node did at a time that was seen to run last, by the lines of a record."""
    running, found = {}, []
    for line in record.splitlines():
        if look := re.match(r"0 look (\d) @\d = (\w+) ", line):
            running[look[1]] = look[2] == "running"
        elif (ran := re.match(r"(?:(\d+) times )?0 step (\d) @farm = ", line)) and running.get(ran[2]):
            found.append(int(ran[1] or 1))
    return found


def test_bursts(folder: str) -> None:
    """Users and workers step both nodes by turns, and each Step of one ends a run of the other in the record: workers of another
    quantum leave runs that aren't whole quanta."""
    with Live(TWO_NODES, ["--quantum", str(QUANTUM), "--record", folder]) as it:
        told = [it.ask(f"ann {line}") for line in LOOPS]
        assert it.end() == (0, [], [])
    assert told[-1] == "ann rest busy\n"
    found = bursts(text_of(f"{folder}/ann.replay").partition("\n---\n")[2])
    assert len(found) > 100
    assert [it for it in found if it % QUANTUM] == []
