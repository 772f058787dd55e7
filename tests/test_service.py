"""The service, by the program test_service, beyond what the gate runs of it: under users, workers and an operator who ask for anything
for some time, and out of memory. TEST_SERVICE names the program; else it is proved and built first, if it isn't known to be proved."""

import os
import re
import subprocess
import time
from concurrent.futures import ThreadPoolExecutor

import pytest
from support.trials import TOP, Ran, library, refused, run, text_of

pytestmark = pytest.mark.long
COMMANDS, ROUNDS = "3000", 5
# The rows that count Steps of nodes which a settling has stepped before.
COUNTED = ("each worker does its turns:", "burst in the second domain:")


@pytest.fixture(scope="session")
def service() -> str:
    """The path of the program."""
    if "TEST_SERVICE" in os.environ:
        return os.path.abspath(os.environ["TEST_SERVICE"])
    subprocess.run([f"{TOP}/tools/start", "--only-build", "test_service"], check=True)
    return f"{TOP}/crates/test_service/out/test_service"


def test_soak(minutes: float, seed: int, service: str) -> None:
    """16 domains, 28 nodes, and 16 users in four domains, with journals that never end and with journals that are soon full. At the
    end of each round the service is closed, and its journals are done again on one thread, merged by chance: each stored reply and
    each switch word must be the same. Rounds with 8 workers and with 1 take turns."""
    end = time.monotonic() + 60 * minutes
    while time.monotonic() < end:
        workers = "8" if seed % 2 else "1"
        status, output, _ = run([service, "soak", str(ROUNDS), str(seed), workers, COMMANDS], seconds=600)
        counted = re.findall(rb"^\d+ commands, \d+ changes, \d+ events, \d+ words$", output, re.M)
        last = re.search(rb"^(\d+) wrong$", output, re.M)
        assert (seed, workers, status, len(counted), last and last[1]) == (seed, workers, 0, 4 * ROUNDS, b"0")
        seed += ROUNDS


def counts_more(line: str, row: str) -> bool:
    """Whether a line is that of a row which counts Steps, with greater numbers at most."""
    counts = [[int(it) for it in re.findall(r"\b\d+\b", text)] for text in (line, row)]
    is_same = re.sub(r"\d+", "", line) == re.sub(r"\d+", "", row)
    return row.startswith(COUNTED) and is_same and all(map(int.__ge__, *counts))


def is_well(status: int | None, lines: list[str], rows: list[str]) -> bool:
    """Whether all lines but one are as stored, and that one says that there was no memory, or counts more Steps; or the words
    couldn't be kept."""
    if status != 0 or len(lines) != len(rows):
        return status == 1 and not lines
    other = [it for it in zip(lines, rows) if it[0] != it[1]]
    return len(other) < 2 and all("no memory" in line or counts_more(line, row) for line, row in other)


def test_allocations(service: str, folder: str) -> None:
    """The Nth allocation of the program is refused while the service is on trial. Who is told of it in the trial asks once more, but
    for workers, whose service is stopped then. So the program must end by itself with status 0, and all lines but one must be as
    stored, which is a row and says that there was no memory: what is refused changes nothing, and takes nothing from later calls. A
    settling that is refused may have done Steps before, so of the rows that count Steps one may count more. If the program's own
    words can't be kept it ends at once, with status 1."""
    path = library("refuse", folder)
    stored = text_of(f"{TOP}/crates/test_service/stdout").splitlines()
    rows = [line for line in stored if not line.startswith("soak: ")]

    def ask(number: int) -> Ran:
        return run([service, "rows"], more={"LD_PRELOAD": path, "REFUSED": str(number)}, seconds=100)

    # how many there are depends on the schedule: some more, so that none is left out
    numbers, seen = range(1, refused(ask(0).errors)[2] + 51), 0
    with ThreadPoolExecutor(2) as pool:
        for number, (status, output, told) in zip(numbers, pool.map(ask, numbers)):
            lines = output.decode().splitlines()
            assert is_well(status, lines, rows), f"allocation {number}: status {status}, {lines}"
            seen += refused(told)[1] is not None
    assert seen > 0
