"""That an order of a class is whole or not at all, wherever it is cut short: by a kill, a power cut or a full disk, at each call by which
it changes the disk."""

import json
import os
import shutil
import signal
import subprocess
import sys
import time

import pytest
from nadzsumek.serving.folder import is_locked
from support.serving_trials import hears_ctrl_c
from support.courses import Course
from support.live_lines import SECONDS
from support.trials import TOP, run, text_of

# Orders that write all kinds of files, with the words that follow the folder: sheets, plans of those who were removed, records that
# begin and that go on under another name, and new farms.
ORDERS = {
    "rename": ("rename", "student-2", "Eve"),
    "change": ("change", "student-2", "--nodes", "1"),
    "add": ("add", "Dee", "Student 3", "Eva", "Fay", "Gil", "Hal"),
    "remove": ("remove", "student-1", "student-2"),
}
MODES = ("kill", "power", "full", "kill-back", "power-back")
WORD = "12345678"
# What a plan says of a machine with one node, which the students have only after a change.
PLAIN = "links = [0, -1, -1, -1]"


class Recorded(Course):
    """A class of three that is off, of whom one was removed, and whose students have records."""

    def __init__(self) -> None:
        super().__init__(3, "--nodes", "2")
        self.must("start")
        for name in ("student-1", "student-2"):
            assert self.ask(name, f"look 0\nrestart\njoin 0 4\npoke 0 80000100 {WORD}\n").endswith("poke 0 9\n")
        self.must_change("remove", "student-3")
        self.must("stop")

    def ask(self, name: str, lines: str) -> str:
        return run([f"{TOP}/connect", self.folder, name], text=lines.encode(), more=self.env).output.decode()

    def cut(self, mode: str, number: int, order: str, *words: str) -> str:
        """What the driver of cuts says of an order; the class is as it was if all calls were tried."""
        call = [sys.executable, "-B", f"{TOP}/tests/support/cut_orders.py", mode, f"{number}", self.folder]
        done = run([*call, order, self.folder, *words], more=self.env)
        assert number or (done.status, done.errors) == (0, b"")
        return done.output.decode()


def check_cuts(it: Recorded, name: str, mode: str) -> None:
    """Wherever an order is cut, all files are as before or as after it once another order was given, with their modes."""
    order, *words = ORDERS[name]
    rows = [json.loads(line) for line in it.cut(mode, 0, order, *words).splitlines()]
    assert len(rows) > 30
    wrong = [row for row in rows if row["how"] not in ("before", "after") or row["refused"] != 1]
    assert (name, mode, wrong) == (name, mode, [])
    # the last wasn't cut any more
    goes_back = mode.endswith("-back")
    assert rows[-1]["how"] == ("before" if goes_back else "after")
    assert {row["how"] for row in rows} == {"before", "after"}
    if mode == "full":
        assert [row for row in rows if (row["status"] == 0) != (row["how"] == "after") and row is not rows[-1]] == []


def test_a_rename_is_whole() -> None:
    """A student is renamed with all records or not at all, though the order is killed at any of its calls."""
    with Recorded() as it:
        check_cuts(it, "rename", "kill")


def test_a_killed_order_leaves_no_farm_off() -> None:
    """A farm that an order had stopped for a moment, and which it was killed too soon to start, is started by the next order, even one
    that is refused. If the class was stopped in between it stays off."""
    with Recorded() as it:
        (order, *words), farm = ORDERS["rename"], f"{it.folder}/farm-1"
        for is_stopped in (False, True):
            it.must("start")
            for number in range(18, 90, 6):
                it.cut("kill", number, order, *words)
                if not is_locked(farm):
                    break
            assert os.path.exists(f"{it.folder}/class.away"), number
            if is_stopped:
                it.must("stop")
            done = it.call("remove", it.folder, "nobody-of-this-name")
            started = "farm-1: an order that was killed had stopped it, so it is started\n"
            assert (done.returncode, started in done.stdout) == (1, not is_stopped), done
            assert is_locked(farm) != is_stopped
            assert not os.path.exists(f"{it.folder}/class.away")
            order, *words = ORDERS["change"]


@pytest.mark.long
@pytest.mark.parametrize("mode", MODES)
def test_orders_are_whole(mode: str) -> None:
    """The same of all orders, of power cuts and full disks, and of orders that go back."""
    with Recorded() as it:
        for name in ORDERS:
            check_cuts(it, name, mode)


@pytest.mark.long
@pytest.mark.parametrize("name", ["rename", "change"])
def test_a_farm_goes_on_after_a_cut(name: str) -> None:
    """The same if the farm is up. When the class is started again, the neighbour has his word, and nobody has lost a machine."""
    with Recorded() as it:
        shutil.copytree(it.folder, f"{it.room.name}/copy")
        order, *words = ORDERS[name]
        for number in range(1, 90, 8):
            it.must("start")
            it.cut("kill", number, order, *words)
            it.must("start")
            asked = {user: it.ask(user, "peek 0 80000100\n") for user in ("student-1", "student-2", "eve")}
            had = f"peek 0 {WORD}\n"
            assert asked["student-1"] == had
            kept = text_of(f"{it.folder}/class.json")
            if name == "rename":
                assert had in (asked["student-2"], asked["eve"])
                assert (asked["eve"] == had) == ('"eve"' in kept)
            else:
                is_changed = os.path.exists(f"{it.folder}/farm-1/records/student-2.3.replay")
                assert (asked["student-2"] == had) != is_changed
                assert is_changed == (PLAIN in text_of(f"{it.folder}/farm-1/plan"))
            it.must("stop")
            shutil.rmtree(it.folder)
            shutil.copytree(f"{it.room.name}/copy", it.folder)


@pytest.mark.long
def test_no_farm_starts_half_changed() -> None:
    """A `serve` refuses a farm of whose class an order is half done, and `class serve`, which a unit calls, ends that order first."""
    with Recorded() as it:
        rows = [json.loads(line) for line in it.cut("kill", 0, *ORDERS["rename"]).splitlines()]
        first = next(row["number"] for row in rows if row["how"] == "after")
        it.cut("kill", first + 2, *ORDERS["rename"])
        farm = f"{it.folder}/farm-1"
        done = run([f"{TOP}/serve", f"{farm}/plan.toml", farm], more=it.env)
        assert (done.status, b"was cut short: class start" in done.errors) == (1, True)
        call = [f"{TOP}/class", "serve", farm]
        with subprocess.Popen(call, env=it.env, stderr=subprocess.DEVNULL) as served:
            end = time.monotonic() + SECONDS
            while not os.path.exists(f"{farm}/operator.sock") and time.monotonic() < end:
                time.sleep(0.05)
            it.must("start")
            assert it.lock(1) == served.pid
            assert it.ask("eve", "peek 0 80000100\n") == f"peek 0 {WORD}\n"
            it.must("stop")
            assert served.wait(SECONDS) == 0


@pytest.mark.long
def test_no_signal_leaves_a_farm_off() -> None:
    """Whenever a signal comes to an order of a class that is up, the farm is up soon after it, and the student is there once."""
    with Recorded() as it:
        it.must("start")
        names = ["student-2", "eve"]
        for step in range(12):
            call = [f"{TOP}/class", "rename", it.folder, names[0], names[1]]
            with subprocess.Popen(
                call, env=it.env, stdout=subprocess.DEVNULL, stderr=subprocess.DEVNULL, preexec_fn=hears_ctrl_c
            ) as order:
                time.sleep(0.15 * step)
                order.send_signal((signal.SIGTERM, signal.SIGHUP, signal.SIGINT)[step % 3])
                assert order.wait(SECONDS) in (0, 1, 130, -15, -2, -1)
            end = time.monotonic() + SECONDS
            while it.ask("student-1", "look 0\n") == "" and time.monotonic() < end:
                time.sleep(0.1)
            had = [name for name in names if it.ask(name, "peek 0 80000100\n") == f"peek 0 {WORD}\n"]
            assert (step, len(had)) == (step, 1)
            names = had + [name for name in names if name not in had]
