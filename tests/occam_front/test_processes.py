"""The compiler beside a program that asks it, by itself with bounds, and as a command."""

import json
import os
import signal
import subprocess
import sys
import time
from pathlib import Path
from typing import Any, Protocol

import pytest

from nadzsumek.occam.bounded import MEGABYTES, SECONDS

TOP = Path(__file__).resolve().parents[2]
ASKING = TOP / "nadzsumek/occam/asking.py"
# Asks COUNT times, and may end in between: after a question, or while it is answered.
ASKER = """#!/bin/sh
at=0
while [ $at -lt $1 ]; do
  printf 'unit\\nINT x:\\nx := %d\\n' $at > "$NADZSUMEK_OCCAM/asked"
  case $2 in
    after) exit 7;;
    killed) kill -KILL $$;;
    midst) head -c 9 "$NADZSUMEK_OCCAM/answered" > "$3"; exit 8;;
  esac
  case $(cat "$NADZSUMEK_OCCAM/answered") in
    *"x := $at"*'"mistakes":[]'*) ;;
    *) exit 9;;
  esac
  at=$((at + 1))
done
echo "$NADZSUMEK_OCCAM"
"""


@pytest.fixture(name="asker")
def asker_in(tmp_path: Path) -> Path:
    path = tmp_path / "asker"
    path.write_text(ASKER)
    path.chmod(0o755)
    return path


def run(*words: str | Path | int, folder: Path | None = None) -> "subprocess.CompletedProcess[str]":
    """How a command of Python ends, in this folder if one is given."""
    call = [sys.executable, *map(str, words)]
    return subprocess.run(call, capture_output=True, text=True, timeout=60, check=False, cwd=folder)


def is_gone(folder: str) -> bool:
    """Whether a folder is removed soon: who answers ends when the program did."""
    for _ in range(100):
        if not os.path.exists(folder):
            return True
        time.sleep(0.1)
    return False


@pytest.mark.parametrize("count", [0, 1, 50])
def test_a_program_asks_and_the_folder_is_gone_then(asker: Path, count: int) -> None:
    ended = run(ASKING, asker, count)
    assert (ended.returncode, ended.stderr) == (0, "")
    assert "/occam." in ended.stdout and is_gone(ended.stdout.strip())


@pytest.mark.parametrize("way, status", [("after", 7), ("midst", 8), ("killed", -signal.SIGKILL)])
def test_a_program_that_ends_in_between_is_not_waited_for(asker: Path, tmp_path: Path, way: str, status: int) -> None:
    ended = run(ASKING, asker, 3, way, tmp_path / "piece")
    assert (ended.returncode, ended.stderr) == (status, "")


def test_a_program_that_cannot_be_started_is_told() -> None:
    ended = run(ASKING, "/nowhere/at/all")
    assert ended.returncode == 6 and "can't be started" in ended.stderr


@pytest.mark.parametrize("number", [signal.SIGTERM, signal.SIGINT])
def test_a_signal_ends_both_quietly(tmp_path: Path, number: signal.Signals) -> None:
    path = tmp_path / "waiting"
    path.write_text("#!/bin/sh\necho begun\nexec sleep 60\n")
    path.chmod(0o755)
    with subprocess.Popen(
        [sys.executable, str(ASKING), str(path)],
        stdout=subprocess.PIPE,
        stderr=subprocess.PIPE,
        start_new_session=True,
        # who runs the tests in the background may have it ignored
        preexec_fn=lambda: signal.signal(signal.SIGINT, signal.SIG_DFL),
    ) as running:
        assert running.stdout and running.stderr
        assert running.stdout.readline() == b"begun\n"
        time.sleep(0.2)
        # by Ctrl-C the signal comes to all processes of a terminal, and else to the first one
        if number == signal.SIGINT:
            os.killpg(running.pid, number)
        else:
            running.send_signal(number)
        assert running.wait(30) == -number
        assert running.stderr.read() == b""


# Asks for the unit of a text in a process that has no memory of earlier work, neither to spare nor to count.
UNIT = """import sys

from nadzsumek.occam.bounded import bounded_unit

print(bounded_unit(sys.stdin.buffer.read(), seconds={seconds}, megabytes={megabytes}))
"""


def unit(text: bytes, seconds: int = SECONDS, megabytes: int = MEGABYTES) -> dict[str, Any]:
    """The unit of a text within these bounds."""
    call = [sys.executable, "-B", "-c", UNIT.format(seconds=seconds, megabytes=megabytes)]
    told: dict[str, Any] = json.loads(
        subprocess.run(call, input=text, stdout=subprocess.PIPE, cwd=TOP, check=True).stdout
    )
    return told


def test_a_text_of_somebody_else_has_the_same_unit() -> None:
    found = unit(b"INT x:\nx := 2\n")
    assert found["mistakes"] == [] and found["processes"] == [{"Assign": [0, 0]}, {"Line": [2, 1, 0]}]


def test_a_bound_of_time_is_told() -> None:
    text = b"CHAN OF BYTE to:\nPLACE to AT 0:\nSEQ\n" + b'  out.string ("ab", to)\n' * 20_000
    assert unit(text, seconds=1)["mistakes"] == ["line 1, column 1: fault 50: expected a text that is compiled in 1 s"]


def test_a_bound_of_memory_is_told() -> None:
    text = b"INT x:\nSEQ\n" + b"  x := 1\n" * 20_000
    assert "fault 50: expected a text that is compiled with 40 MB" in unit(text, megabytes=40)["mistakes"][0]


def test_a_text_that_is_too_long_is_told_without_a_process() -> None:
    told = unit(b"-" * 1_000_001, seconds=0)["mistakes"]
    assert told == ["line 1, column 1: fault 44: expected a text of at most 65535 lines and 1000000 bytes"]


class Show(Protocol):
    """How the command ends for a text, with these words behind its file."""

    def __call__(self, text: str, *words: str) -> "subprocess.CompletedProcess[str]":
        ...


@pytest.fixture(name="show")
def shown(tmp_path: Path) -> Show:
    def show(text: str, *words: str) -> "subprocess.CompletedProcess[str]":
        path = tmp_path / "text.occ"
        path.write_text(text)
        return run("-m", "nadzsumek.occam", path, *words, folder=TOP)

    return show


def test_the_command_shows_core_unit_and_mistakes(show: Show, tmp_path: Path) -> None:
    path = tmp_path / "text.occ"
    ended = show("INT x, y:\nx := 1\n")
    assert (ended.returncode, ended.stdout) == (0, "INT x, y:\nx := 1\n")
    assert ended.stderr == f"{path}:1:8: warning 43: y is never used\n    INT x, y:\n           ^\n"
    assert json.loads(show("SKIP\n", "--json").stdout)["processes"] == ["Skip"]
    ended = show("x := 1\n", "--check")
    assert (ended.returncode, ended.stdout) == (4, "")
    assert ended.stderr == f'{path}:1:1: fault 16: expected a name that is declared, not "x"\n    x := 1\n    ^\n'
    assert show("SKIP\n", "--other").returncode == 2
