"""That nothing of a class is lost or held up by somebody's hand: by locks and files of other accounts, by processes that are killed,
by farms that are damaged, and at its end."""

import contextlib
import fcntl
import os
import signal
import stat
import subprocess
import sys
import time
from collections.abc import Callable, Iterator

import pytest
from nadzsumek.serving import checking
from nadzsumek.serving.changing import hold
from nadzsumek.serving.checking import copied
from nadzsumek.serving.folder import Refused
from nadzsumek.serving.records import last_fault
from nadzsumek.serving.upkeep import Stop, do_all
from support.courses import Course, child_of
from support.live_lines import PLAN, SECONDS
from support.serving_trials import Served
from support.trials import TOP, put, run, text_of


def is_gone(number: int) -> bool:
    """Whether a process ends within some seconds."""
    end = time.monotonic() + SECONDS
    while os.path.exists(f"/proc/{number}") and time.monotonic() < end:
        time.sleep(0.05)
    return not os.path.exists(f"/proc/{number}")


# A `class` whose supervisor starts soon again what has ended.
SUPERVISING = """import sys
sys.path.insert(0, {top!r})
from nadzsumek.serving import classes, supervising
supervising.AGAIN_SECONDS = 4
sys.exit(classes.main(["serve", {folder!r}]))
"""
# A `live` that ends with the status of a record that isn't whole.
UNWHOLE = """#!/bin/bash
"{live}" "$@"
exit 6
"""
# A `live` that says of a record that it is replayed, and ends by a fault before it answers.
SAYING = """#!/bin/bash
echo "x/bob.replay: 16 of 34 MiB are replayed" >&2
until [ -e "${0%live}go" ]; do sleep 0.1; done
exit 6
"""


@contextlib.contextmanager
def supervised(it: Course) -> Iterator[str]:
    """The process that has all farms of a class, until the end of a block; the path of what it says."""
    path = f"{it.room.name}/said"
    call = [sys.executable, "-B", "-c", SUPERVISING.format(top=TOP, folder=it.folder), "class"]
    with open(path, "wb") as said, subprocess.Popen(call, env=it.env, stdout=said, stderr=said) as supervisor:
        try:
            yield path
        finally:
            supervisor.terminate()
            try:
                supervisor.wait(SECONDS)
            finally:
                supervisor.kill()


def mode_of(path: str) -> int:
    return stat.S_IMODE(os.stat(path).st_mode)


def test_no_other_account_locks_a_class() -> None:
    """Who may read the folder of a class can't hold it up. Another `class` of the same account can, and its number is said."""
    with Course(1) as it:
        folder = os.open(it.folder, os.O_RDONLY)
        fcntl.flock(folder, fcntl.LOCK_EX)
        try:
            assert it.must("stop") == "farm-1: off\n"
            it.must_change("add", "Ada")
        finally:
            os.close(folder)
        assert mode_of(f"{it.folder}/class.lock") == 0o600
        with hold(it.folder, fcntl.LOCK_EX):
            done = it.call("stop", it.folder)
        assert (done.returncode, done.stderr) == (
            1,
            f"class: another class is at work at {it.folder}, process {os.getpid()}: wait until it has ended\n",
        )


def test_no_live_is_left_by_a_serve() -> None:
    """A `live` that reads no input, as while it does records again, ends with its `serve` too."""
    with Served(PLAN) as it, it.held_live() as number:
        it.process.kill()
        it.process.wait()
        assert is_gone(number)


def test_a_live_that_is_left_is_named() -> None:
    """`class stop` says which process has the records of a farm that no `serve` has."""
    with Course(1) as it:
        it.must("start")
        it.must("stop")
        with open(f"{it.folder}/farm-1/records/lock", "rb") as lock, subprocess.Popen(
            ["sleep", "60"], stdin=lock
        ) as other:
            lock.close()
            try:
                stopped = it.call("stop", it.folder)
            finally:
                other.kill()
    assert (stopped.returncode, stopped.stdout.splitlines()[-1]) == (
        1,
        f"farm-1: no serve has it, but a live (process {other.pid}) has its records still: kill {other.pid} ends it",
    )


def test_a_farm_that_was_stopped_stays_off(live: str) -> None:
    """The process that has a class starts no farm again that was stopped: neither one whose record isn't whole, nor one that had
    failed before."""
    with Course(2, "--nodes", "8") as it:
        it.env["LIVE"] = put(f"{it.room.name}/live", UNWHOLE.format(live=live))
        os.chmod(it.env["LIVE"], 0o755)
        with supervised(it) as said:
            it.must("start")
            os.kill(it.lock(2), signal.SIGKILL)
            assert it.must("stop").splitlines()[-2:] == ["farm-1: off", "farm-2: off"]
            time.sleep(5)
            assert it.must("status").count(" off ") == 2
        assert [line for line in text_of(said).splitlines() if "farm-1 ended" in line] == []


def test_what_others_may_write_is_refused() -> None:
    """A class takes no folder and no file in which others may write, follows no link, and makes its files so that no mask gives
    others a right to write them."""
    before = os.umask(0)
    try:
        it = Course(1)
    finally:
        os.umask(before)
    with it:
        modes = {name: mode_of(f"{it.folder}/{name}") for name in ("farm-1/plan.toml", "sheets/student-1.txt")}
        assert modes == {"farm-1/plan.toml": 0o644, "sheets/student-1.txt": 0o600}
        for path in ("", "/class.json", "/farm-1", "/farm-1/plan.toml"):
            mode = mode_of(it.folder + path)
            os.chmod(it.folder + path, mode | 0o020)
            done = it.call("start", it.folder)
            assert (done.returncode, "other accounts may write" in done.stdout + done.stderr) == (1, True), path
            os.chmod(it.folder + path, mode)
        victim = put(f"{it.room.name}/victim", "mine")
        for path in (f"{it.folder}.tar.xz.new", f"{it.room.name}/page.new"):
            os.symlink(victim, path)
        assert it.call("wall", "--once", it.folder, f"{it.room.name}/page").returncode == 0
        assert it.call("finish", it.folder).returncode == 0
        assert (text_of(victim), os.path.getsize(f"{it.room.name}/page") > 0) == ("mine", True)


def test_a_class_of_a_wide_mask_is_told_what_to_do() -> None:
    """Of a class whose files a group may write, as an earlier version made it, one command is said that mends all."""
    with Course(17) as it:
        run(["chmod", "-R", "g+w", it.folder])
        done = it.call("status", it.folder)
        told = done.stderr.partition("and then ")[2].removesuffix(" forbids it\n")
        assert (done.returncode, told[:5]) == (1, "find ")
        assert run(["sh", "-c", told]).status == 0
        assert it.must("start") == "farm-1: up, 16 users\nfarm-2: up, 1 user\n"


def test_a_folder_with_links_is_refused() -> None:
    """A class is made in no folder that leads elsewhere."""
    with Course(1) as it:
        os.makedirs(f"{it.room.name}/other")
        os.symlink(f"{it.folder}/sheets", f"{it.room.name}/other/sheets")
        done = it.call("--students", f"{it.room.name}/names.txt", "--nodes", "1", f"{it.room.name}/other")
        assert (done.returncode, "sheets is no folder" in done.stderr) == (1, True)


def test_what_no_archive_has_stays() -> None:
    """`class finish --remove` removes no file that isn't in the archive, and says which stay."""
    with Course(1) as it:
        it.must("start")
        kept = [f"{it.folder}/{name}" for name in ("marks/pdf/ada.pdf", "names.txt", "notes/one.txt")]
        for path in kept:
            os.makedirs(os.path.dirname(path), exist_ok=True)
            put(path, "mine")
        done = it.call("finish", "--remove", it.folder)
        there = sorted(f"{at}/{name}" for at, _, names in os.walk(it.folder) for name in names)
        notes = [line for line in done.stdout.splitlines() if line.startswith("note: ")]
        assert (done.returncode, done.stderr, there) == (0, "", kept)
        assert notes == [f"note: {path} stays: the archive hasn't it" for path in kept]
        assert sorted(os.listdir(it.folder)) == ["marks", "names.txt", "notes"]


def until(seen: Callable[[], bool]) -> bool:
    """Whether this is so after some seconds."""
    end = time.monotonic() + SECONDS
    while not seen() and time.monotonic() < end:
        time.sleep(0.1)
    return seen()


def test_a_damaged_farm_takes_no_other_down() -> None:
    """The process that has a class goes on if the plan of a farm isn't there, and says so. One that is started after it was killed
    has the farms that are up."""
    with Course(2, "--nodes", "8") as it:
        with supervised(it) as said:
            it.must("start")
            first, second = it.lock(1), it.lock(2)
            os.rename(f"{it.folder}/farm-2/plan.toml", f"{it.folder}/plan")
            os.kill(second, signal.SIGKILL)
            assert until(lambda: "farm-2 can't be started" in text_of(said))
            supervisor = int(text_of(f"{it.folder}/lock"))
            assert (os.path.exists(f"/proc/{first}"), text_of(said).count("can't be started")) == (True, 1)
            os.kill(supervisor, signal.SIGKILL)
        os.rename(f"{it.folder}/plan", f"{it.folder}/farm-2/plan.toml")
        with supervised(it) as said:
            it.must("start")
            assert it.lock(1) == first
            os.kill(first, signal.SIGKILL)
            assert until(lambda: "farm-1 has failed" in text_of(said))
            assert until(lambda: it.lock(1) != first)


def test_no_account_reads_the_log() -> None:
    """What `serve` says names students, so no other account reads it, also if it could before."""
    with Course(1) as it:
        os.chmod(f"{put(f'{it.folder}/farm-1/serve.log', '')}", 0o644)
        it.must("start")
        assert mode_of(f"{it.folder}/farm-1/serve.log") == 0o600


def test_ports_are_told_without_files() -> None:
    """A user is answered which ports are joined also if the plan can't be read any more."""
    with Served(PLAN) as it:
        os.rename(f"{it.folder}/plan", f"{it.folder}/away")
        assert it.ask("ann", "ports").startswith("ports 0:-")


def test_a_start_that_fails_tells_no_record() -> None:
    """Clients aren't told what `live` said of records when the farm could not be started."""
    with Served(PLAN, starts=False) as it:
        os.mkdir(it.folder)
        put(f"{it.folder}/plan", PLAN)
        it.env["LIVE"] = put(f"{it.room.name}/live", SAYING)
        os.chmod(it.env["LIVE"], 0o755)
        it.begun = subprocess.Popen(it.call(), env=it.env, stdin=subprocess.DEVNULL, stderr=subprocess.PIPE)
        assert until(lambda: os.path.exists(f"{it.folder}/ann.sock"))
        ann = it.client("ann")
        assert ann.hear() == "note: the farm isn't up yet. Lines are answered when it is"
        put(f"{it.room.name}/go", "")
        assert [ann.hear(), ann.hear()] == ["note: the farm could not be started", ""]
        assert b"bob.replay" in it.process.communicate(timeout=SECONDS)[1]


@pytest.mark.parametrize("is_first", [False, True])
def test_sockets_tell_nothing_of_records(is_first: bool) -> None:
    """The sockets are there at once when a farm is started, whatever `live` says of records; also if it has no folder or plan yet."""
    with Served(PLAN, starts=False) as it:
        if not is_first:
            os.mkdir(it.folder)
            put(f"{it.folder}/plan", PLAN)
        it.env["LIVE"] = put(f"{it.room.name}/live", SAYING.replace("echo", "true"))
        os.chmod(it.env["LIVE"], 0o755)
        it.begun = subprocess.Popen(it.call(), env=it.env, stdin=subprocess.DEVNULL, stderr=subprocess.PIPE)
        assert until(lambda: os.path.exists(f"{it.folder}/ann.sock"))


def test_a_name_that_is_a_number_is_refused() -> None:
    """A plan whose user's name is no text is refused by `live`, also with a group."""
    with Served(PLAN.replace('"ann"', "5"), starts=False) as it:
        done = run(it.call("--group", "farm-%u"), more=it.env)
        assert (done.status, b"Traceback" in done.errors, b"the plan is refused" in done.errors) == (1, False, True)


def test_no_thread_is_no_fault(monkeypatch: pytest.MonkeyPatch) -> None:
    """If the system has no thread for a farm that is said, and the others are done."""

    def start(_: Stop) -> None:
        raise RuntimeError("can't start new thread")

    monkeypatch.setattr(Stop, "start", start)
    assert do_all([Stop("/nonexistent/farm-1", "/nonexistent")]) == 1


def test_no_program_is_a_link(folder: str) -> None:
    """A program that is a link is read with nobody's rights."""
    put(f"{folder}/mine", "secret")
    os.symlink(f"{folder}/mine", f"{folder}/ada.s")
    with pytest.raises(Refused, match="it is a link"):
        copied(f"{folder}/ada.s", f"{folder}/room/ada.s")


def test_a_test_may_take_processor_time(folder: str, monkeypatch: pytest.MonkeyPatch) -> None:
    """A program of an exercise is ended by the processor time that it takes, and not by the clock of a busy machine."""
    monkeypatch.setattr(checking, "SECONDS", 1)
    for does, outcome in (
        ("while :; do :; done", (None, "", "it took more than 1 seconds of a processor")),
        ("sleep 3; echo done", (0, "done\n", "")),
    ):
        monkeypatch.setenv("LAB", put(f"{folder}/lab", f"#!/bin/sh\n{does}\n"))
        os.chmod(f"{folder}/lab", 0o755)
        assert checking.lab(folder, "run") == outcome


def test_few_whys_are_on_their_way() -> None:
    """A `why` counts as many lines, so that few of them are before an operator's restart."""
    with Served(PLAN, logged=True) as it, it.held_live():
        ann = it.client("ann")
        ann.say("why\n" * 100)
        time.sleep(1)
        assert it.logged().count(b"ann why") <= 5


def test_of_a_long_record_the_end_is_read(folder: str) -> None:
    """A fault is looked for in the last 64 MiB of a record, and no further."""
    put(f"{folder}/ann.replay", "0 step 3 @farm = fault 1\n" + "0 look 0\n" * (65 << 17))
    assert last_fault(folder, "ann") == "?"
