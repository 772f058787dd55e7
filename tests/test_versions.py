"""Plans of versions 1 and 2 say the same: each plan of version 1 in the rows of crates/lab/data, in the examples and in the stored
run of `farm` is written again in version 2, where a domain's `first` and `last` become its only range. Nothing else of the text
changes, and its lines keep their numbers."""

import os
import re
import shutil
import tomllib
from typing import Any

import pytest
from support.trials import HELPED_NAMES, PLAIN_NAMES, TOP, WORKERS, Ran, by_workers, contents, example, put, run

DATA = f"{TOP}/crates/lab/data"
ROWS = sorted(it for it in os.listdir(DATA) if it.endswith(".replay"))
# Rows of many Steps and other events.
LONG = "bursts.replay"
# How many rows of a text are wrong on purpose, so that they are seen to be found.
WRONG_ON_PURPOSE = {"wrong.replay": 2}
# Rows with the words of physical outputs.
OF_PORTS = "switch.replay"
MOST_SECONDS = 600
SAYS_VERSION_1 = re.compile(r"(?m)^[^\w#\n]*version\W*=\s*1\b")
FIRST_AND_LAST = re.compile(r"(?m)^first *= *(\d+) *\nlast *= *(\d+) *$")


def in_version_2(document: dict[str, Any]) -> dict[str, Any]:
    """What a plan of version 1 says, said in version 2."""
    domains = [dict(it) for it in document["domain"]]
    for it in domains:
        it["range"] = [[it.pop("first"), it.pop("last")]]
    return {"version": 2, "domain": domains}


def written_again(plan: str, ports: int = 0) -> str:
    """A plan of version 1 in version 2, whose ports are so many further on."""
    again = re.sub(r"(?m)^version *= *1 *$", "version = 2", plan)
    # The empty line keeps the numbers of the lines behind it.
    again = FIRST_AND_LAST.sub(lambda it: f"range = [[{int(it[1]) + ports}, {int(it[2]) + ports}]]\n", again)
    assert ports or tomllib.loads(again) == in_version_2(tomllib.loads(plan))
    return again


def rewritten(text: str, ports: int = 0) -> str:
    """A text of farms, divided by lines `===`, with each plan of version 1 in version 2."""
    farms = text.split("\n===\n")
    for at, farm in enumerate(farms):
        plan, line, script = farm.partition("\n---\n")
        if SAYS_VERSION_1.search(plan):
            farms[at] = written_again(plan, ports) + line + script
    return "\n===\n".join(farms)


def told_of_rows(lab: str, folder: str, name: str, text: str) -> Ran:
    """What `lab rows` tells of a text of this name, beside the programs that its lines load."""
    for it in os.listdir(DATA):
        if it.endswith(".s"):
            shutil.copy(f"{DATA}/{it}", folder)
    put(f"{folder}/{name}", text)
    return run([lab, "rows", name], folder=folder, seconds=MOST_SECONDS)


@pytest.mark.parametrize("name", [pytest.param(it, marks=pytest.mark.long) if it == LONG else it for it in ROWS])
def test_rows(name: str, lab: str, folder: str) -> None:
    text = contents(f"{DATA}/{name}").decode()
    again, wrong = rewritten(text), WRONG_ON_PURPOSE.get(name, 0)
    told = told_of_rows(lab, folder, name, text)
    assert (told.status, told.errors) == (1 if wrong else 0, b"")
    assert told.output.endswith(f" rows, {wrong} wrong\n".encode())
    assert again == text or told_of_rows(lab, folder, name, again) == told


@pytest.mark.parametrize("count", [it if it == 2 else pytest.param(it, marks=pytest.mark.long) for it in WORKERS])
@pytest.mark.parametrize("name", [*PLAIN_NAMES, *HELPED_NAMES])
def test_answers(name: str, count: int) -> None:
    text, output = example(name)
    assert run(by_workers(count), rewritten(text.decode()).encode()) == (0, output, b"")


def test_plans_are_written_again() -> None:
    """There are texts with plans of version 1 in both places."""
    assert any(rewritten(text) != text for text in (contents(f"{DATA}/{it}").decode() for it in ROWS))
    assert any(rewritten(text) != text for text in (example(it).text.decode() for it in PLAIN_NAMES))


def test_other_ports_are_found(lab: str, folder: str) -> None:
    """Rows whose plans are written again with other ports are wrong."""
    again = rewritten(contents(f"{DATA}/{OF_PORTS}").decode().split("\n===\n")[0], ports=16)
    status, out, errors = told_of_rows(lab, folder, OF_PORTS, again)
    assert (status, errors) == (1, b"")
    assert not out.endswith(b" 0 wrong\n")
