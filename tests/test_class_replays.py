"""Farms that replay long records, or aren't up yet: who waits for them, and what is said of them."""

import os
import re
import signal
import subprocess
import time

import pytest
from support.serving_trials import hears_ctrl_c
from support.courses import Course, ended
from support.live_lines import SECONDS
from support.trials import TOP, put, run, text_of

# A `live` that does nothing before it answers until a file is there.
IDLE = """#!/bin/bash
until [ -e "$0-go" ]; do sleep 0.5; done
exec "{live}" "$@"
"""
QUICK = (2, 65, 5, 1)
# A program that counts without end: `ldc 0; stl 1; ldl 1; adc 1; stl 1; j`. No two of its moments are alike.
COUNTING = ("join 0 1", "boot 0 b440d17181d1600b")
# So many seconds it counts before the farm is stopped, and so many times as long as that it counts by its record then.
COUNTING_SECONDS, LONGER = 3, 10


def held(it: Course, text: str, live: str) -> None:
    """Lets farms run this `live`, which waits."""
    it.env["LIVE"] = f"{it.room.name}/live"
    put(it.env["LIVE"], text.format(live=live))
    os.chmod(it.env["LIVE"], 0o755)


def asked(it: Course, user: str, line: str) -> bytes:
    """What a student is answered at the terminal."""
    done = run([f"{TOP}/connect", it.folder, user, "-c", line], more=it.env)
    assert done.status == 0
    return done.output


def count_longer(it: Course, user: str) -> None:
    """Lets a student's loop have counted for much longer by the record, as if the class had been up for all that time."""
    path = f"{it.folder}/farm-1/records/{user}.replay"
    text = text_of(path)
    steps = max(map(int, re.findall(r"^(\d+) times ", text, re.MULTILINE)))
    put(path, text.replace(f"{steps} ", f"{LONGER * steps} "))


def now_of(it: Course) -> list[str]:
    """What `class status` says of each student's machine."""
    return [re.split("  +", row)[7] for row in it.must("status").splitlines()[1:3]]


def test_a_replay_holds_up_nobody_else(live: str) -> None:
    """A student's program that counted for long is replayed at the next start. The farm is up at once and the other student is
    answered; no order stops the farm meanwhile; and the student's next line is answered when all is replayed, as ever.
    """
    del live
    with Course(2) as it:
        it.must("start")
        for line in COUNTING:
            asked(it, "student-1", line)
        asked(it, "student-1", "poke 0 80000100 12345678")
        time.sleep(COUNTING_SECONDS)
        assert asked(it, "student-1", "look 0").startswith(b"look 0 running ")
        it.must("stop")
        count_longer(it, "student-1")
        assert it.must("start").splitlines()[-1] == "farm-1: up, 2 users"
        assert asked(it, "student-2", "look 0") == b"look 0 booting overruns 0 0 0 0\n"
        assert now_of(it) == ["busy replaying", "quiet"]
        told = b"ports replaying\n  (what your machine did is replayed: its joins are told when that is over)\n"
        assert asked(it, "student-1", "ports") == told
        assert asked(it, "student-2", "ports").startswith(b"ports 0:- ")
        serving = it.lock(1)
        for order in (("add", it.folder, "Ada"), ("finish", it.folder)):
            done = it.call(*order)
            said = "class: farm-1 replays what was done by student-1: try again when class status shows nobody as replaying\n"
            assert (done.returncode, done.stderr, it.lock(1)) == (1, said, serving)
        assert asked(it, "student-1", "look 0").splitlines()[-1].startswith(b"look 0 running ")
        assert now_of(it) == ["busy", "quiet"]
        assert asked(it, "student-1", "ports").startswith(b"ports 0:1 1:0\n")


def test_who_does_nothing_is_not_waited_for(live: str) -> None:
    """A farm that takes no processor time and says nothing is reported after a while."""
    with Course(1) as it:
        it.must("start")
        it.must("stop")
        held(it, IDLE, live)
        told, status = ended(it.begin("start", bounds=QUICK))
        assert (status, "farm-1: it isn't up after" in told) == (1, True)


@pytest.mark.parametrize("how", [signal.SIGTERM, signal.SIGHUP, signal.SIGKILL])
def test_an_order_that_is_ended_while_it_waits_is_done(live: str, how: signal.Signals) -> None:
    """If a rename is ended while its farm comes up, by a closed terminal or otherwise, the student has the new name and all that was
    done. The next order leaves nothing of it, and all but a kill is told."""
    with Course(2) as it:
        it.must("start")
        for line in ("join 0 1", "poke 0 80000100 12345678"):
            assert run([f"{TOP}/connect", it.folder, "student-2", "-c", line], more=it.env).status == 0
        held(it, IDLE, live)
        call = [f"{TOP}/class", "rename", it.folder, "student-2", "Eve"]
        with subprocess.Popen(
            call, env=it.env, stdout=subprocess.PIPE, stderr=subprocess.STDOUT, preexec_fn=hears_ctrl_c
        ) as order:
            end = time.monotonic() + SECONDS
            while not os.path.exists(f"{it.folder}/class.done") and time.monotonic() < end:
                time.sleep(0.05)
            time.sleep(1)
            order.send_signal(how)
            said = order.communicate(timeout=SECONDS)[0]
        is_told = how != signal.SIGKILL
        assert (order.returncode, b"farm-1: not up yet after" in said) == (130 if is_told else -how, is_told)
        put(f"{it.env['LIVE']}-go", "")
        assert it.must("start").splitlines()[-1] == "farm-1: up, 2 users"
        done = run([f"{TOP}/connect", it.folder, "eve", "-c", "peek 0 80000100"], more=it.env)
        assert done.output == b"peek 0 12345678\n"
        assert [name for name in os.listdir(it.folder) if name.startswith("class.")] == ["class.json", "class.lock"]
        assert sorted(os.listdir(f"{it.folder}/farm-1/records")) == ["eve.replay", "lock", "student-1.replay"]
