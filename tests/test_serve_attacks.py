"""`serve` against who means it ill and against a machine that has too little of something: whose socket is whose,
folders and files of others, a `live` that can't be started, that hangs or that can't end, and streams that nobody reads."""

import contextlib
import os
import re
import shutil
import signal
import socket
import stat
import subprocess
import threading
import time

import pytest
from support.live_lines import PLAN, SECONDS, median
from support.serving_trials import Served, plan_of_users
from support.trials import TOP, put, run, text_of

# How long a `live` may answer nothing in the trial of one that hangs, in seconds.
PATIENCE = 1.5
LOOKED = "look 0 booting overruns 0 0 0 0"


def refused(it: Served, *more: str) -> str:
    """What `serve` says that is refused at once. No socket of its own is there then."""
    status, _, errors = run(it.call(*more), more=it.env)
    there = [name for name in os.listdir(it.folder) if name.endswith(".sock")] if os.path.isdir(it.folder) else []
    assert (status, there) == (1, [])
    return errors.decode()


def must_say(told: str, text: str) -> None:
    assert text in told, f"{text!r} isn't in {told!r}"


def test_numbers_are_no_groups() -> None:
    """A user whose name is a number doesn't give their socket to the group of that number."""
    with Served(plan_of_users(["ann", "4242"]), starts=False) as it:
        must_say(refused(it, "--mode", "660", "--group", "no-%u"), "there is no group no-ann: make it")
        put(it.plan, plan_of_users(["4242"]))
        must_say(refused(it, "--mode", "660", "--group", "%u"), "there is no group 4242: make it")
        assert os.listdir(f"{it.folder}/records") == []
        it.start("--mode", "660", "--group", str(os.getgid()))
        assert it.stop()[0] == 0


def test_plans_are_kept() -> None:
    """A farm runs the plan with which it began, whatever becomes of the file, and says what to do if that says something
    else."""
    with Served(PLAN) as it:
        kept = f"{it.folder}/plan"
        assert (os.path.islink(kept), stat.S_IMODE(os.stat(kept).st_mode)) == (False, 0o644)
        with open(it.plan, "a", encoding="utf-8") as file:
            file.write("version = 4\n")
        it.kill_live()
        assert it.client("ann").must("look 0") == LOOKED
        assert it.stop()[0] == 0
        told = refused(it)
        must_say(
            told, f"To go on as before: cp {kept} {it.plan}. To run the new plan from now on: cp {it.plan} {kept};"
        )
        put(it.plan, "# with a comment\n" + PLAN)
        it.start()
        assert it.stop()[0] == 0
        # a farm of an earlier release had a link
        os.unlink(kept)
        os.symlink(it.plan, kept)
        it.start()
        assert (os.path.islink(kept), it.stop()[0]) == (False, 0)
        # a plan that is refused isn't kept
        os.unlink(kept)
        put(it.plan, "version = 4\n")
        must_say(refused(it), "the plan is refused")
        assert [name for name in os.listdir(it.folder) if name.startswith("plan")] == []


def test_folders_of_others_are_refused() -> None:
    """Nothing is followed, truncated or removed that isn't the farm's own; modes hold whatever the mask is."""
    with Served(PLAN, starts=False) as it:
        room = it.room.name
        for mode in (0o777, 0o775):
            os.mkdir(it.folder)
            os.chmod(it.folder, mode)
            must_say(refused(it), f"chmod go-w {it.folder}")
            os.rmdir(it.folder)
        put(f"{room}/victim", "mine")
        os.mkdir(it.folder)
        os.symlink(f"{room}/victim", f"{it.folder}/lock")
        must_say(refused(it), "it is to be a file of serve's own")
        os.unlink(f"{it.folder}/lock")
        os.mkdir(f"{room}/elsewhere")
        os.symlink(f"{room}/elsewhere", f"{it.folder}/records")
        must_say(refused(it), "records is no folder")
        os.unlink(f"{it.folder}/records")
        assert (text_of(f"{room}/victim"), os.listdir(f"{room}/elsewhere")) == ("mine", [])
        put(f"{it.folder}/ann.sock", "mine")
        told = run(it.call(), more=it.env).errors.decode()
        must_say(told, f"{it.folder}/ann.sock is there and no socket")
        assert os.path.exists(f"{it.folder}/ann.sock")
        os.unlink(f"{it.folder}/ann.sock")
        # others' sockets stay, and one at which somebody listens isn't taken
        with socket.socket(socket.AF_UNIX, socket.SOCK_STREAM) as other, socket.socket(
            socket.AF_UNIX, socket.SOCK_STREAM
        ) as bobs:
            other.bind(f"{it.folder}/mysqld.sock")
            other.listen()
            bobs.bind(f"{it.folder}/bob.sock")
            bobs.listen()
            told = run(it.call(), more=it.env).errors.decode()
            must_say(told, f"another program listens at {it.folder}/bob.sock")
            bobs.close()
            it.start()
            assert (it.ask("bob", "look 0"), it.stop()[0]) == (LOOKED, 0)
            assert [name for name in sorted(os.listdir(it.folder)) if name.endswith(".sock")] == ["mysqld.sock"]
        if os.geteuid() == 0:
            os.chown(it.folder, 65534, -1)
            told = run(it.call(), more=it.env).errors.decode()
            must_say(told, f"{it.folder} belongs to the account")
            os.chown(it.folder, 0, -1)
        for mask in (0o000, 0o077):
            shutil.rmtree(it.folder)
            before = os.umask(mask)
            try:
                it.start()
            finally:
                os.umask(before)
            assert (it.ask("ann", "look 0"), it.stop()[0]) == (LOOKED, 0)
            seen = {
                name: stat.S_IMODE(os.stat(f"{it.folder}/{name}").st_mode)
                for name in (
                    ".",
                    "records",
                    "plan",
                    "lock",
                    *(f"records/{name}" for name in os.listdir(it.folder + "/records")),
                )
            }
            expected = {".": 0o755, "records": 0o700, "plan": 0o644}
            assert seen == {name: expected.get(name, 0o600) for name in seen}


def test_stops_stop() -> None:
    """`!stop` ends the farm within its bound though `live` hangs, and neighbours are told meanwhile."""
    with Served(PLAN) as it:
        ann, bob = it.client("ann"), it.client("bob")
        assert ann.ask("look 0") == LOOKED
        with it.held_live() as number:
            ann.say("look 0\n")
            time.sleep(0.2)
            it.client("operator").say("stop\n")
            time.sleep(0.2)
            assert bob.ask("look 0") == "error: the farm is stopped, so this is not done: look 0"
            it.process.send_signal(signal.SIGTERM)
            assert it.process.wait(timeout=SECONDS) == 0
            assert not os.path.exists(f"/proc/{number}")
        assert [ann.hear() for _ in range(2)] == [
            "error: not answered, send it again if you want it: look 0",
            "note: the farm is stopped",
        ]


def test_hung_farms_are_started_again() -> None:
    """A `live` that answers nothing any more is ended and started again, and it is said."""
    with Served(PLAN, starts=False) as it:
        it.start("--patience", str(PATIENCE))
        ann = it.client("ann")
        assert ann.ask("look 0") == LOOKED
        os.kill(it.live_process(), signal.SIGSTOP)
        assert [ann.hear() for _ in range(3)] == [
            f"note: the farm has answered nothing for {PATIENCE:g} seconds",
            "note: the farm ended by signal 9 (SIGKILL) and is started again",
            "note: the farm goes on",
        ]
        assert ann.ask("look 0") == LOOKED
        # who asks the operator's words meanwhile is answered all of them, and no more
        operator = it.client("operator")
        operator.say("words\n" * 20)
        time.sleep(2 * PATIENCE)
        assert [operator.hear()[:7] for _ in range(20)] == ["!words "] * 20
        operator.stream.settimeout(0.2)
        try:
            raise AssertionError(f"nobody asked for {operator.hear()}")
        except TimeoutError:
            pass
        assert it.stop()[0] == 0


def test_programs_come_back(live: str) -> None:
    """A `live` that can't be started again at once is tried as often as one that ends."""
    with Served(PLAN, starts=False) as it:
        it.env["LIVE"] = f"{it.room.name}/live"
        shutil.copy(live, it.env["LIVE"])
        it.start()
        ann = it.client("ann")
        assert ann.ask("look 0") == LOOKED
        os.rename(it.env["LIVE"], f"{it.room.name}/away")
        it.kill_live()
        assert ann.hear() == "note: the farm ended by signal 9 (SIGKILL) and is started again"
        time.sleep(0.5)
        os.rename(f"{it.room.name}/away", it.env["LIVE"])
        assert ann.hear() == "note: the farm goes on"
        assert ann.ask("look 0") == LOOKED
        status, errors = it.stop()
        assert status == 0
        must_say(errors.decode(), f"live can't be started: {it.env['LIVE']}: No such file or directory")
    with Served(PLAN, starts=False) as it:
        it.env["LIVE"] = f"{it.room.name}/none"
        must_say(refused(it), "/none: No such file or directory")


def test_nobody_need_read_reports() -> None:
    """A standard error that nobody reads, or that is closed, holds up nobody."""
    with Served(PLAN, starts=False) as it:
        reading, writing = os.pipe()
        with open(reading, "rb"), open(writing, "wb", buffering=0) as full:
            os.set_blocking(writing, False)
            with contextlib.suppress(BlockingIOError):
                while full.write(b"x" * 4096):
                    pass
            os.set_blocking(writing, True)

            it.begun = subprocess.Popen(
                it.call(), env=it.env, stdin=subprocess.DEVNULL, stdout=subprocess.DEVNULL, stderr=writing
            )
            it.await_start()
            ann = it.client("ann")
            for _ in range(3):
                it.kill_live()
                assert ann.until("note: the farm goes on") == "note: the farm goes on"
                assert ann.ask("look 0") == LOOKED
            it.process.send_signal(signal.SIGTERM)
            assert it.process.wait(timeout=SECONDS) == 0

        it.begun = subprocess.Popen(["bash", "-c", 'exec "$@" 2>&- <&- >&-', "serve", *it.call()], env=it.env)
        it.await_start()
        assert it.ask("ann", "look 0") == LOOKED
        it.process.send_signal(signal.SIGTERM)
        assert it.process.wait(timeout=SECONDS) == 0


def test_looking_takes_no_lock() -> None:
    """Who looks whether a farm is up doesn't keep it from starting."""
    look = f"import sys; sys.path.insert(0, {TOP!r})\nfrom nadzsumek.serving.folder import is_locked\nwhile True: is_locked(sys.argv[1])"
    with Served(PLAN) as it:
        assert it.stop()[0] == 0
        lookers = [subprocess.Popen(["python3", "-B", "-c", look, it.folder]) for _ in range(2)]
        try:
            for _ in range(3):
                it.start()
                assert it.ask("ann", "look 0") == LOOKED
                assert it.stop()[0] == 0
            assert [looker.poll() for looker in lookers] == [None, None]
        finally:
            for looker in lookers:
                looker.kill()
                looker.wait()


def test_reports_have_times() -> None:
    """Each line of the log has its time, and who opened the operator's socket is in it."""
    with Served(PLAN) as it:
        operator = it.client("operator")
        assert operator.ask("words")[:7] == "!words "
        told = it.stop()[1].decode().splitlines()
    assert [line for line in told if not re.match(r"\d{4}-\d\d-\d\d \d\d:\d\d:\d\d \S", line)] == []
    must_say(
        "\n".join(told),
        f"process {os.getpid()} of root has opened the operator's socket"
        if os.geteuid() == 0
        else f"process {os.getpid()} of",
    )


@pytest.mark.alone
def test_connections_wait() -> None:
    """A socket that is opened again and again lets no more in than it should, and others don't wait for it."""
    with Served(plan_of_users(["ann", "bob"])) as it:
        ann, is_over = it.client("ann"), threading.Event()

        def connect() -> None:
            while not is_over.is_set():
                try:
                    client = it.client("bob")
                except BlockingIOError:
                    time.sleep(0.001)
                    continue
                client.lines.close()
                client.stream.close()

        threads = [threading.Thread(target=connect) for _ in range(4)]
        for thread in threads:
            thread.start()
        took = []
        for _ in range(100):
            begun = time.monotonic()
            assert ann.ask("look 0") == LOOKED
            took.append(time.monotonic() - begun)
            time.sleep(0.004)
        is_over.set()
        for thread in threads:
            thread.join()
        assert it.stop()[0] == 0
    assert median(took) <= 0.05


@pytest.mark.long
def test_files_have_a_limit() -> None:
    """A limit on the size of files is told as a record that can't be written, and ends nobody."""
    with Served(plan_of_users(["ann", "bob"]), starts=False) as it:
        it.begun = subprocess.Popen(
            ["prlimit", "--fsize=20000", *it.call()],
            env=it.env,
            stdin=subprocess.DEVNULL,
            stdout=subprocess.DEVNULL,
            stderr=subprocess.PIPE,
        )
        it.await_start()
        ann, operator = it.client("ann"), it.client("operator")
        while (answer := ann.ask("config " + "04" * 100)) == "config -":
            pass
        assert re.fullmatch(r"error \d+ record", answer) is not None
        must_say(operator.until("note: "), "ann.replay: File too large")
        operator.say("users\n")
        words = [[it for it in operator.until("!users ").split(" ")[5:] if not it.isdecimal()] for _ in range(2)]
        assert words == [["quiet", "unrecorded"], ["quiet"]]
        assert it.ask("bob", "look 0") == LOOKED
        it.stop()


@pytest.mark.long
def test_progress_is_told() -> None:
    """While a long record is replayed the others are answered, and its user is told how far it is."""
    with Served(plan_of_users(["ann", "bob"])) as it:
        assert it.stop()[0] == 0
        line = "0 look 0 @0 = booting overruns 0 0 0 0\n"
        with open(f"{it.folder}/records/ann.replay", "a", encoding="utf-8") as file:
            file.write(line * ((200 << 20) // len(line)))
        # what it says is more than usual rooms take
        it.start("--room", "2G", "--record-room", "2G")
        ann, bob = it.client("ann"), it.client("bob")
        ann.say("look 0\n")
        bob.say("look 0\n")
        assert bob.hear() == LOOKED
        heard = [ann.hear()]
        while heard[-1] != LOOKED:
            heard.append(ann.hear())
        far = re.compile(r"note: what your machine did is replayed: \d+ %(, some \d+ s left)?")
        assert heard[:-1] and all(far.fullmatch(text) for text in heard[:-1])
        assert it.stop()[0] == 0
