"""Classes: farms that are locked, held, killed or stopped while a class is started and stopped, and what comes from outside, at a
terminal and in files of names."""

import os
import re
import signal
import socket
import subprocess
import time

import pytest
from nadzsumek import Farm
from nadzsumek.serving import verifying
from nadzsumek.serving.folder import Refused
from nadzsumek.serving.kept import Kept
from support.courses import Course, child_of, ended
from support.live_lines import PLAN, SECONDS
from support.screens import CONTROL_C, Screen
from support.serving_trials import Served
from support.trials import TOP, contents, put, run, run_text, run_together, text_of

# What no terminal may be sent: controls but for line feeds, bytes that are no UTF-8, and marks of the direction.
RAW = re.compile(rb"[\x00-\x09\x0b-\x1f\x7f]|\xc2[\x80-\x9f]|\xe2\x80[\xaa-\xae]")
# A `serve` that waits for a second one.
SECOND = """#!/bin/sh
: > "$0.$$"
while [ "$(ls "$0".* | wc -l)" -lt 2 ]; do sleep 0.02; done
exec "{top}/serve" "$@"
"""


def refusals(path: str) -> int:
    """How often a `serve` with this log was refused since another had its folder."""
    return text_of(path).count("is served already")


@pytest.mark.long
def test_start_begins_what_has_ended(live: str) -> None:
    """A farm that is begun anew by `class start` though somebody had its folder as that began: one that is killed while it does
    nothing, and one that takes its time to stop."""
    with Course(2) as it:
        for kills in (True, False):
            it.must("start")
            serve = it.lock(1)
            kept = child_of(serve)
            os.kill(kept, signal.SIGSTOP)
            first = it.begin("start" if kills else "stop")
            time.sleep(0.5)
            starting = first if kills else it.begin("start")
            time.sleep(0.5)
            if kills:
                os.kill(serve, signal.SIGKILL)
            os.kill(kept, signal.SIGCONT)
            assert ended(starting) == ("farm-1: up, 2 users\n", 0)
            if not kills:
                assert ended(first) == ("farm-1: off\n", 0)
            assert it.lock(1) != serve
        it.must("stop")
        # both find the folder free, and begin a serve, and the one that has it takes longer than the other
        for name, text in (("serve", SECOND.format(top=TOP)), ("live", f'#!/bin/sh\nsleep 1\nexec "{live}" "$@"\n')):
            it.env[name.upper()] = f"{it.room.name}/{name}"
            put(it.env[name.upper()], text)
            os.chmod(it.env[name.upper()], 0o755)
        starts = [it.begin("start") for _ in range(2)]
        assert [ended(one) for one in starts] == [("farm-1: up, 2 users\n", 0)] * 2
        # the second looks for a moment whether the folder gets free
        end = time.monotonic() + SECONDS
        while (told := refusals(f"{it.folder}/farm-1/serve.log")) == 0 and time.monotonic() < end:
            time.sleep(0.05)
        assert told == 1


@pytest.mark.long
def test_start_ends_at_its_bound() -> None:
    """A farm that doesn't answer is waited for up to a bound, and what is waited for is said meanwhile; also if another program
    has the folder."""
    with Course(17) as it:
        it.must("start")
        os.kill(serve := it.lock(1), signal.SIGSTOP)
        told, status = ended(it.begin("start", bounds=(1, 65, 5, 0.4)))
        os.kill(serve, signal.SIGCONT)
        place = os.path.realpath(it.folder)
        assert status == 1
        for pattern in (
            rf"farm-1: no answer yet after \d+ seconds from its serve \(process {serve}\)",
            rf"farm-1: it isn't up after \d+ seconds, and its serve \(process {serve}\) says nothing more\. "
            rf"class status {it.folder} shows when it is up, and class stop {it.folder} ends it",
            "farm-2: up, 1 user",
        ):
            assert (pattern, re.search(f"^{pattern}$", told, re.MULTILINE) is not None) == (pattern, True)
        it.must("stop")
        with it.locked("farm-1/lock"):
            told, status = ended(it.begin("start", bounds=(0.4, 65, 5, 5)))
        assert (
            status,
            f"and what has locked {place}/farm-1/lock says nothing more" in told,
            "farm-2: up, 1 user\n" in told,
        ) == (1, True, True)


def test_start_is_broken_off(live: str) -> None:
    """Ctrl-C ends the waiting, and not what is waited for."""
    with Course(1) as it:
        os.makedirs(f"{it.folder}/farm-1/records", mode=0o700)
        with it.locked("farm-1/records/lock"), Screen([f"{TOP}/class", "start", it.folder], LIVE=live) as screen:
            while not os.path.exists(f"{it.folder}/farm-1/lock"):
                time.sleep(0.02)
            time.sleep(0.3)
            serve = it.lock(1)
            screen.press(CONTROL_C)
            told, status = screen.end()
            time.sleep(0.2)
        pattern = (
            rf"\^?C?farm-1: not up yet after \d+ seconds, and its serve \(process {serve}\) goes on: serve: another live "
            rf"\(process \d+\) still has {it.folder}/farm-1/records\. It is waited until that ends, 60 seconds at most\. "
            rf"class status {it.folder} shows when it is up, and class stop {it.folder} ends it\n"
        )
        assert (status, pattern, re.fullmatch(pattern, told) is not None or told) == (130, pattern, True)
        # the records are free now
        assert it.must("start") == "farm-1: up, 1 user\n"
        assert it.lock(1) == serve


@pytest.mark.long
def test_stop_is_broken_off() -> None:
    """Ctrl-C ends the waiting for a farm that is stopped, which stops nevertheless."""
    with Course(1) as it:
        it.must("start")
        serve = it.lock(1)
        kept = child_of(serve)
        os.kill(kept, signal.SIGSTOP)
        with Screen([f"{TOP}/class", "stop", it.folder]) as screen:
            time.sleep(0.7)
            screen.press(CONTROL_C)
            told, status = screen.end()
        assert (status, told.removeprefix("^C")) == (
            130,
            "farm-1: not off yet, but asked to stop: its serve " f"(process {serve}) goes on with that\n",
        )
        os.kill(kept, signal.SIGCONT)
        end = time.monotonic() + SECONDS
        while os.path.exists(f"{it.folder}/farm-1/operator.sock") and time.monotonic() < end:
            time.sleep(0.02)
        assert re.split("  +", it.must("status").splitlines()[1])[7] == "off"


def test_start_says_why_not() -> None:
    """What a serve said last that didn't start, and a farm whose folder is gone."""
    with Course(17) as it:
        place = os.path.realpath(it.folder)
        put(f"{it.folder}/farm-1/plan.toml", "version = \x1b[2J\n")
        os.rename(f"{it.folder}/farm-2", f"{it.folder}/farm-3")
        done = it.call("start", it.folder)
        told = done.stdout.splitlines()
        assert (done.returncode, done.stderr, len(told)) == (1, "", 2)
        begun = f"farm-1: it did not start, see {place}/farm-1/serve.log: serve: the plan is refused: "
        assert told[0][: len(begun)] == begun
        assert told[1] == f"farm-2: [Errno 2] No such file or directory: '{place}/farm-2'"


@pytest.mark.long
def test_stop_asks_every_farm() -> None:
    """Whatever is with one farm, the others are stopped: one that begins, one that does nothing, one whose folder another program
    has, and one whose operator's socket takes no more."""
    with Course(49) as it:
        os.makedirs(f"{it.folder}/farm-1/records", mode=0o700)
        with it.locked("farm-1/records/lock"):
            told, status = ended(it.begin("start", bounds=(3, 65, 5, 5)))
            assert (status, [line for line in told.splitlines() if "no answer yet" not in line][1:]) == (
                1,
                ["farm-2: up, 16 users", "farm-3: up, 16 users", "farm-4: up, 1 user"],
            )
            # what has the records of the first is named, for it goes on
            done = it.call("stop", it.folder)
            lines = [re.sub(r"\d{2,}", "N", line) for line in done.stdout.splitlines() if "not off yet" not in line]
            assert (done.returncode, lines) == (
                1,
                [
                    "farm-1: no serve has it, but a live (process N) has its records still: kill N ends it",
                    "farm-2: off",
                    "farm-3: off",
                    "farm-4: off",
                ],
            )
        it.must("start")
        os.kill(serve := it.lock(2), signal.SIGSTOP)
        told, status = ended(it.begin("stop", bounds=(120, 1, 0.3, 5)))
        assert (status, told) == (
            1,
            "farm-1: off\nfarm-2: it did not stop in 1 seconds: its serve "
            f"(process {serve}) is there still\nfarm-3: off\nfarm-4: off\n",
        )
        os.kill(serve, signal.SIGCONT)


@pytest.mark.long
def test_stop_ends_no_other_process() -> None:
    """A lock file may have the number of a process that is no serve, or has not locked it."""
    with Course(17) as it, Course(1) as other:
        it.must("start")
        place, serve = os.path.realpath(it.folder), it.lock(2)
        assert it.call("stop", it.folder).stdout == "farm-1: off\nfarm-2: off\n"
        for number in (os.getpid(), 1, serve, "", "zed"):
            put(f"{it.folder}/farm-2/lock", f"{number}\n")
            with it.locked("farm-2/lock"):
                told, status = ended(it.begin("stop", bounds=(120, 5, 0.1, 5)))
        assert (status, told) == (
            1,
            "farm-1: off\nfarm-2: it can't be asked to stop: what has locked "
            f"{place}/farm-2/lock is no serve that this account can see\n",
        )
        # the number of a serve of another class, which has not locked this folder: who has is known without the number
        it.must("start")
        other.must("start")
        with open(f"{it.folder}/farm-2/lock", "r+", encoding="ascii") as lock:
            lock.truncate()
            lock.write(f"{other.lock(1)}\n")
        os.rename(f"{it.folder}/farm-2/operator.sock", f"{it.folder}/farm-2/operator")
        assert it.must("stop") == "farm-1: off\nfarm-2: off, ended by a signal\n"
        os.unlink(f"{it.folder}/farm-2/operator")
        assert re.split("  +", other.must("status").splitlines()[1])[7] == "quiet"


def test_stop_finds_a_way() -> None:
    """A farm whose operator has as many terminals open as may be is ended by a signal."""
    with Course(1) as it:
        it.must("start")
        terminals = []
        for _ in range(16):
            terminals.append(socket.socket(socket.AF_UNIX, socket.SOCK_STREAM))
            terminals[-1].connect(f"{it.folder}/farm-1/operator.sock")
        time.sleep(0.3)
        # the line is sent before the connection is refused
        os.kill(serve := it.lock(1), signal.SIGSTOP)
        stopping = it.begin("stop", bounds=(120, 10, 0.3, 20))
        time.sleep(0.7)
        os.kill(serve, signal.SIGCONT)
        assert ended(stopping) == ("farm-1: off, ended by a signal\n", 0)
        for one in terminals:
            one.close()


# Puts words after those that `!users` has of two users, one of which doesn't print, and takes the numbers of the rooms from a
# third, as an earlier `live` has none.
MARKING = """#!/bin/bash
set -o pipefail
"{live}" "$@" | LC_ALL=C sed -u 's/^!users student-1 .* quiet/& unrecorded/
  s/^!users student-2 .* quiet/& out new\\x1b[2J\\xff/; s/^!users student-3 .*/!users student-3 zed/
  s/^\\(!users student-4 .* quiet\\).*/\\1/'
"""


def test_status_shows_all_words(live: str) -> None:
    """All words that `!users` has are in the row, whatever they are, and an odd line leaves the others as they
    are. A farm that doesn't answer isn't off."""
    with Course(4) as it:
        it.env["LIVE"] = f"{it.room.name}/marking"
        put(it.env["LIVE"], MARKING.format(live=live))
        os.chmod(it.env["LIVE"], 0o755)
        it.must("start")
        rows = [re.split("  +", row) for row in it.must("status").splitlines()]
        assert [(row[0], row[2], row[5], row[7]) for row in rows[1:5]] == [
            ("student-1", "0", "0.0%", "quiet unrecorded"),
            ("student-2", "0", "0.0%", "quiet out new\\x1b[2J\\xff"),
            ("student-3", "-", "-", "no answer"),
            ("student-4", "0", "-", "quiet"),
        ]
        it.must("stop")
        with it.locked("farm-1/lock"):
            assert [re.split("  +", row)[7] for row in it.must("status").splitlines()[1:]] == ["no answer"] * 4
        assert [re.split("  +", row)[7] for row in it.must("status").splitlines()[1:]] == ["off"] * 4


def test_nothing_raw_is_printed() -> None:
    """What another client of a user sent is shown with escapes, at a terminal and elsewhere."""
    line = b"look \x1b[2J\x07\xc3\xa9\xff\xc2\x9b\xe2\x80\xae\r\t0"
    shown = "error: not answered, send it again if you want it: look \\x1b[2J\\x07\u00e9\\xff\\x9b\\u202e\\x0d\\x090"
    env = {**os.environ, "HOME": "/nonexistent"}
    with Served(PLAN) as it:
        reading = subprocess.Popen(
            [f"{TOP}/connect", it.folder, "ann"], stdin=subprocess.PIPE, stdout=subprocess.PIPE, env=env
        )
        assert reading.stdin and reading.stdout
        reading.stdin.write(b"rest\n")
        reading.stdin.flush()
        assert reading.stdout.readline() == b"rest quiet\n"
        other = it.client("ann")
        with Screen([f"{TOP}/connect", it.folder, "ann"], HOME=it.room.name) as screen:
            screen.until("ann> ")
            with it.held_live() as number:
                other.stream.sendall(line + b"\n")
                time.sleep(0.2)
                os.kill(number, signal.SIGKILL)
            screen.until(shown)
            screen.until("note: the farm goes on")
            assert "\x1b[2J" not in screen.written
            screen.press("quit\r")
            screen.end()
        told = reading.communicate(b"", timeout=SECONDS)[0]
        assert (RAW.search(told), shown in told.decode()) == (None, True)
        assert it.stop()[0] == 0


def test_names_behind_a_folder_are_plain() -> None:
    """A user may be called as an option is."""
    plan = PLAN.replace('"bob"', '"-h"').replace('"cas"', '"--"')
    with Served(plan) as it:
        rows = [
            (words, 0, "look 0 booting overruns 0 0 0 0\n")
            for words in (
                [it.folder, "-h"],
                ["--", it.folder, "-h"],
                [it.folder, "--", "-h"],
                [it.folder, "--"],
                ["--", it.folder, "--"],
            )
        ]
        rows += [
            (["-h"], 0, "usage: connect [-h] [--] DIR USER"),
            ([it.folder], 2, "usage:"),
            ([it.folder, "ann", "bob"], 2, "usage:"),
            (
                [it.folder, "--help"],
                3,
                f"connect: there is no socket of --help in {it.folder}: there are --, -h, ann, "
                "operator. For help: connect --help\n",
            ),
        ]
        for words, status, told in rows:
            done = run_together([f"{TOP}/connect", *words], "look 0\n")
            assert (words, done.returncode, done.stdout[: len(told)]) == (words, status, told)
        assert it.stop()[0] == 0


# A file of names, and what is said of it; none if all is well.
DIVIDED = "has the character U+{}, which no name may have: write each name on a line of its own, which a line feed ends"
FILES = [
    (b"Ada\x0bBob\n", 1, DIVIDED.format("000B")),
    (b"Eve\nAda\x0cBob\n", 2, DIVIDED.format("000C")),
    ("Ada\u2028Bob\n".encode(), 1, DIVIDED.format("2028")),
    ("Ada\u2029Bob\n".encode(), 1, DIVIDED.format("2029")),
    ("Ada\u0085Bob\n".encode(), 1, DIVIDED.format("0085")),
    (b"Ada\rBob\r", 1, DIVIDED.format("000D")),
    (b"Ada\x1cBob\n", 1, DIVIDED.format("001C")),
    (b"Eve\n\nAda\x1b[2J\n", 3, "has the character U+001B, which no name may have: take it out"),
    (b"Ada\x00\n", 1, "has the character U+0000, which no name may have: take it out"),
    (b"Ada\r\nBob\r\n# \x0b\nZo\tLi", 0, ["ada", "bob", "zo-li"]),
    ("Ada\u202eB\n".encode(), 0, ["adab"]),
]


@pytest.mark.parametrize(("text", "line", "told"), FILES)
def test_line_feeds_alone_divide_names(text: bytes, line: int, told: str | list[str], folder: str) -> None:
    """A character that divides lines elsewhere, and a control, are refused in a name, and what is said has none of them."""
    put(f"{folder}/names", text)
    status, output, errors = run([f"{TOP}/class", "--students", "names", "--nodes", "1", "new"], folder=folder)
    assert (RAW.search(output + errors), status) == (None, 1 if line else 0)
    if isinstance(told, str):
        assert errors.decode().startswith(f"class: names, line {line}: ")
        assert told in errors.decode()
    else:
        assert sorted(os.listdir(f"{folder}/new/sheets")) == [f"{name}.txt" for name in told]


def test_what_a_name_leaves_out_is_said(folder: str) -> None:
    put(f"{folder}/names", "Ada \ue000\u200b\U0001f600\n")
    output = run([f"{TOP}/class", "--students", "names", "--nodes", "1", "noted"], folder=folder).output
    left = "\\ue000 \U0001f600"
    note = f"note: names, line 1: Ada \\ue000\\u200b\U0001f600 is the user ada, without {left}"
    assert output.decode().splitlines()[0] == note


class Marked:
    """The first farm of a class that is up, what its first student types, and what is said of files that come from that student."""

    def __init__(self, course: Course) -> None:
        self.course, self.folder = course, f"{course.folder}/farm-1/records"
        self.path = f"{self.folder}/student-1.replay"

    def ask(self, *lines: str) -> str:
        """What is answered."""
        done = run_text(
            [f"{TOP}/connect", f"{self.course.folder}/farm-1", "student-1"],
            "".join(f"{line}\n" for line in lines),
            env=self.course.env,
        )
        assert done.stderr == ""
        return done.stdout

    def recorded(self, name: str = "student-1") -> bytes:
        """What a record has at present."""
        return contents(f"{self.folder}/{name}.replay")

    def must(self, name: str, text: bytes, status: int, told: str) -> None:
        """What `class verify` must say of these bytes, called FILE, as those of this student."""
        file = f"{self.course.room.name}/file"
        put(file, text)
        done = self.course.call("verify", self.course.folder, name, file)
        assert (done.returncode, (done.stdout or done.stderr).replace(file, "FILE")) == (status, told)

    def said_of(self, text: bytes) -> tuple[int, int | None]:
        """The status for these bytes as those of the first student, and the number of the line that is said to differ: 0 if they
        are said to be no record, none if nothing differs."""
        path = f"{self.course.room.name}/changed"
        put(path, text)
        try:
            status, told = verifying.verify(
                self.course.folder, Kept({f"{self.course.folder}/farm-1": ["student-1"]}, []), "student-1", path
            )
        except Refused as refused:
            return 1, 0 if "is no record" in f"{refused}" else None
        assert RAW.search("\n".join(told).encode()) is None
        line = re.search(r" in line (\d+), ", told[0])
        return status, int(line[1]) if line else None


@pytest.mark.long
def test_files_are_held_against_records() -> None:
    """`class verify` tells whether a file is the farm's own record of a student, while the farm is up and goes on."""
    with Course(2) as course:
        course.must("start")
        it = Marked(course)
        assert it.ask("config 01000103", "look 0") == "config -\nlook 0 booting overruns 0 0 0 0\n"
        first = it.recorded()
        it.must("student-1", first, 0, f"student-1: FILE is the same as {it.path}, 5 events\n")
        assert it.ask("boot 0 b424f224f2243081ff21f5", "look 0") == "boot 0 12\nlook 0 idle overruns 0 0 0 0\n"
        for name in ("student-1", "Student 1", "STUDENT  1"):
            it.must(name, first, 0, f"student-1: FILE is a beginning of {it.path}, up to its event 5\n")
        times = re.search(rb"^(\d+) times 0 step 0 @farm = \d+ ran\n", it.recorded(), re.MULTILINE)
        assert times
        last = it.recorded()[: times.end()]
        events = last.partition(b"---\n")[2].count(b"\n") - 1 + int(times[1])
        it.must("student-1", last, 0, f"student-1: FILE is a beginning of {it.path}, up to its event {events}\n")
        changed_lines_are_found(it, first)
        growing_records_are_compared(it)
        assert it.ask("restart", "config 01") == "restart ok\nconfig -\n"
        whole, second = it.recorded(), f"{it.folder}/student-1.2.replay"
        ended_at = f"A restart has ended that record, and since then {second} goes on\n"
        it.must(
            "student-1",
            whole,
            3,
            f"student-1: FILE is the same as {it.path}, up to its event {total(whole)}. {ended_at}",
        )
        it.must("student-1", first, 3, f"student-1: FILE is a beginning of {it.path}, up to its event 5. {ended_at}")
        other = f"{it.folder}/student-2.replay"
        it.must(
            "student-2",
            first,
            1,
            f"student-2: FILE differs from {other} in line 4, after 0 events\n"
            f"  FILE: range = [[0, 1]]\n  {other}: range = [[2, 3]]\n",
        )
        near = "near are student-2, student-1"
        it.must("Studant 2", first, 1, f"class: there is no student Studant 2 in {course.folder}: {near}\n")
        it.must("student-1", b"", 1, "class: FILE is no record: it has no plan with a line --- behind it\n")
        course.must("stop")
        it.must("student-1", it.recorded("student-1.2"), 0, f"student-1: FILE is the same as {second}, 1 event\n")


def changed_lines_are_found(it: Marked, first: bytes) -> None:
    """Each line of the beginning of a record changed, lines more, and lines that were carried by another system."""
    lines = first.splitlines()
    for at, line in enumerate(lines):
        text = b"\n".join([*lines[:at], line[:-1] + b"\x1b", *lines[at + 1 :], b""])
        assert (at, it.said_of(text)) == (at, (1, at + 1) if line != b"---" else (1, 0))
    added, differs, whole = (
        "0 config ff @0 = badcommand",
        f"student-1: FILE differs from {it.path} in line",
        it.recorded(),
    )
    it.must(
        "student-1",
        first + added.encode() + b"\n",
        1,
        f"{differs} {len(lines) + 1}, after 5 events\n  FILE: {added}\n"
        f"  {it.path}: {whole.splitlines()[len(lines)].decode()}\n",
    )
    it.must(
        "student-1",
        whole + added.encode(),
        1,
        f"{differs} {len(whole.splitlines()) + 1}, after {total(whole)} events\n"
        f"  FILE: {added}\n  {it.path}: (it ends here)\n",
    )
    it.must(
        "student-1",
        first.replace(b"\n", b"\r\n"),
        1,
        f"{differs} 1, after 0 events\n  FILE: version = 3\\x0d\n  {it.path}: "
        "version = 3\n  The lines of FILE end with carriage returns, which it has got on its way. Take them out (tr -d "
        "'\\r')\n",
    )


def growing_records_are_compared(it: Marked) -> None:
    """A copy is the same or a beginning, also if the record grows while it is made and compared."""
    with socket.socket(socket.AF_UNIX, socket.SOCK_STREAM) as client, client.makefile("rb") as answers:
        client.settimeout(SECONDS)
        client.connect(f"{it.course.folder}/farm-1/student-1.sock")
        sizes = set[int]()
        asked, end = 0, time.monotonic() + SECONDS
        while len(sizes) < 5 and time.monotonic() < end:
            asked += 1
            client.sendall(b"config " + b"01000103" * 50 + b"\n")
            text = it.recorded()
            sizes.add(len(text))
            assert it.said_of(text) == (0, None)
        assert [answers.readline() for _ in range(asked)] == [b"config -\n"] * asked
        assert len(sizes) == 5


def total(record: bytes) -> int:
    """How many events a record has."""
    return sum(int(line.split()[0]) if b" times " in line else 1 for line in record.partition(b"---\n")[2].splitlines())


# What `class.json` may hold that `class` never wrote.
KEPT = (
    "",
    "[",
    "3",
    "[]",
    '{"farms": {}}',
    '{"farms": [], "rights": []}',
    '{"farms": {"farm-1": 3}, "rights": []}',
    '{"farms": {"farm-1": [3]}, "rights": []}',
    '{"farms": {"farm-1": []}, "rights": [3]}',
    "\udcff",
)


@pytest.mark.long
def test_odd_class_is_refused() -> None:
    """A class whose file isn't as it was written is named, and nothing is begun."""
    with Course(1) as it:
        kept = contents(f"{it.folder}/class.json")
        for text in KEPT:
            with open(f"{it.folder}/class.json", "w", encoding="utf-8", errors="surrogateescape") as file:
                file.write(text)
            for order in ("start", "status"):
                done = it.call(order, it.folder)
                told = (
                    f"class: {it.folder}/class.json isn't as class wrote it: put back a copy, or make the class anew in "
                    "another folder\n"
                )
                assert (text, done.returncode, done.stdout, done.stderr) == (text, 1, "", told)
        done = it.call("start", f"{it.folder}/class.json")
        assert done.stderr == f"class: {it.folder}/class.json is no folder: give the folder of the class\n"
        put(f"{it.folder}/class.json", kept)
        assert not os.path.exists(f"{it.folder}/farm-1/lock")


# Words of `class` and what it says of them; each begins in a folder with these files of names.
NAMES = {
    "latin.txt": "Bob\nÉmile\n".encode("latin-1"),
    "operator.txt": b"Ada\nOperator\n",
    "alike.txt": b"Bob\nbob\nOperator\n",
    "nobody.txt": b"# nobody\n",
    "no-letter.txt": "周\n".encode(),
    "good.txt": b"Ada\nBob\n",
}
ORDERS = "add, change, check, exercises, finish, marks, remove, rename, serve, start, status, stop, submitted, verify, wall and web"
REFUSED = [
    (
        "--students latin.txt --nodes 1 one",
        "latin.txt, line 2: the byte c9 isn't UTF-8. Save the file as UTF-8. If it is "
        "Latin-1: iconv -f latin1 -t utf-8 latin.txt > utf8-names.txt",
    ),
    (
        "--students none.txt --nodes 1 one",
        "there is no file {room}/none.txt: write the students' names into it, one a line",
    ),
    ("--students . --nodes 1 one", "the file of names . can't be read: Is a directory"),
    (
        "--students operator.txt --nodes 1 one",
        "operator.txt, line 2: 'Operator' would be the user operator, and that name is "
        "reserved: add something to it",
    ),
    (
        "--students alike.txt --nodes 1 one",
        "alike.txt, line 2: bob is the user bob, as Bob is: add something to one\n"
        "class: alike.txt, line 3: 'Operator' would be the user operator, and that name is reserved: add something to it",
    ),
    ("--students nobody.txt --nodes 1 one", "{room}/nobody.txt names nobody: write one name a line"),
    (
        "--students no-letter.txt --nodes 1 one",
        "no-letter.txt, line 1: '周' makes no user's name: write it with a to z and digits, or one before it: li = 周",
    ),
    (
        "--students good.txt --nodes 1 made",
        "there is a class in {room}/made already: take another folder. Or begin again: class "
        "stop made, and then remove the folder, with all that its students did",
    ),
    ("strat made", "there is no subcommand strat: there are {orders}. Is it start? Try: class start made"),
    ("STATUS made", "there is no subcommand STATUS: there are {orders}. Is it status? Try: class status made"),
    ("made", "there is no subcommand made: there are {orders}. A new class wants --students, see class --help"),
    ("start", "start wants the folder of the class behind it, and nothing else. Try: class start course"),
    ("start one two", "start wants the folder of the class behind it, and nothing else. Try: class start course"),
    ("start one", "there is no class in one: make it first, see ./class --help"),
]
# People, and the users that they become; behind some stands what is left out.
SPELLED = [
    ("Jürgen Groß", "jurgen-gross"),
    ("Ærø Łukasz", "aero-lukasz"),
    ("Þór Đorđe", "thor-dorde"),
    ("E\u0301mile O’Brien", "emile-o-brien"),
    ("Anna–Maria", "anna-maria"),
    ("İlke Iğdır", "ilke-igdir"),
    ("Lin Zoë 周", "lin-zoe", "周"),
    ("iv Иван Йо", "iv", "Иван Йо"),
    ("Ada, Countess of Lovelace, of Ockham", "ada-countess-of-lovelace-of-ockh", "am"),
]


def test_class_says_what_is_wrong(folder: str) -> None:
    """What a teacher is told of wrong words and of names that can't be spelled."""
    for name, names in NAMES.items():
        put(f"{folder}/{name}", names)

    def call(words: str, **more: str) -> "subprocess.CompletedProcess[str]":
        return run_text([f"{TOP}/class", *words.split()], env={**os.environ, **more}, cwd=folder)

    assert (
        call("--students good.txt --nodes 1 made").stdout
        == "2 students in 1 farm, each with 2 ports; their sheets are in made/sheets\n"
    )
    for words, told in REFUSED:
        done = call(words)
        told = told.format(room=os.path.realpath(folder), orders=ORDERS)
        assert (done.returncode, done.stdout, done.stderr) == (1, "", f"class: {told}\n")
    with open(f"{folder}/spelled.txt", "w", encoding="utf-8-sig") as file:
        file.write("".join(f"{person}\n" for person, *_ in SPELLED))
    notes = "".join(
        f"note: spelled.txt, line {at}: {row[0]} is the user {row[1]}, without {row[2]}\n"
        for at, row in enumerate(SPELLED, 1)
        if row[2:]
    )
    done = call("--students spelled.txt --nodes 1 spelled")
    assert (done.stderr, done.stdout.partition(f"{len(SPELLED)} students")[0]) == ("", notes)
    assert sorted(os.listdir(f"{folder}/spelled/sheets")) == sorted(f"{name}.txt" for _, name, *_ in SPELLED)
    done = call("--students spelled.txt --nodes 1 narrow", PYTHONIOENCODING="ascii")
    assert (done.returncode, "lin-zoe, without \\u5468\n" in done.stdout) == (0, True)


def test_class_status_tells() -> None:
    """What the teacher sees: a node that halted, a journal that is nearly full, one that is full, and a student who did
    nothing; below them the memory of the farm."""
    with Served(PLAN, starts=False) as it:
        names, folder = f"{it.room.name}/names.txt", f"{it.room.name}/class"
        put(names, "Ada Lovelace\n\u00c9mile\n# nobody\nBob\nCas\n")

        def call(*words: str) -> "subprocess.CompletedProcess[str]":
            return run_text([f"{TOP}/class", *words])

        assert (
            call("--students", names, "--nodes", "1", "--limit", "5000", folder).stdout.split(";")[0]
            == "4 students in 1 farm, each with 2 ports"
        )
        assert call("start", folder).stdout == "farm-1: up, 4 users\n"
        try:
            it.folder = f"{folder}/farm-1"
            # a script finds a student by the folder of the class
            assert Farm(folder).users() == ["ada-lovelace", "bob", "cas", "emile"]
            with Farm(folder).user("Cas") as cas:
                assert cas.name == "cas"
            for name, code in (("ada-lovelace", "4030"), ("emile", "b4600e")):
                for line in ("config 01000103", f"boot 0 {code}", "rest"):
                    it.ask(name, line)
            # each of these messages has one byte, and each byte is an event
            it.ask("bob", "config " + "04" * 5000)
            rows = [re.sub(" +", " ", row) for row in call("status", folder).stdout.splitlines()]
        finally:
            assert call("stop", folder).stdout == "farm-1: off\n"
        off = [re.sub(" +", " ", row) for row in call("status", folder).stdout.splitlines()]
        assert off[1:] == [
            f"{row} farm-1 - - - - - off {fault}"
            for row, fault in (("ada-lovelace", "node 0: 1"), ("emile", "-"), ("bob", "-"), ("cas", "-"))
        ]
        assert (rows[0], off[0]) == 2 * ("user farm lines events used room records now last fault",)
    rooms = r"\d\.\d% 0\.\dM"
    for row, pattern in zip(
        rows[1:],
        (
            rf"ada-lovelace farm-1 3 \d+ \d\.\d% {rooms} quiet node 0: 1",
            rf"emile farm-1 3 \d+ (little|full) {rooms} \w+ -",
            rf"bob farm-1 1 5000 full {rooms} quiet -",
            rf"cas farm-1 0 0 0\.0% {rooms} quiet -",
            "",
            r"farm-1 has \d+ MiB of memory, and its rooms may take \d+ MiB",
        ),
    ):
        assert re.fullmatch(pattern, row), f"{row} in place of {pattern}"
    assert len(rows) == 7
