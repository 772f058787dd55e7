"""A class in which students come and go: who is added, removed, changed and renamed, what all others keep, what is
refused, and the archive at the end."""

import contextlib
import fcntl
import os
import re
import signal
import socket
import subprocess
import sys
import tarfile
import time
from collections.abc import Callable, Iterator

import pytest
from nadzsumek.serving.changing import hold
from support.courses import Course
from support.live_lines import SECONDS
from support.trials import LAB, TOP, contents, put, run_text, text_of

# How many events each student has, and in which farm.
Events = dict[str, tuple[str, int]]
WORD = "1234560"
# A `live` that refuses a plan with a user of this name, as it would refuse one that is wrong.
REFUSING = """#!/bin/bash
for path; do plan=$path; done
! grep -q '"broken"' "$plan" || exit 3
exec "{live}" "$@"
"""
# A `live` to which the first student's machine is another one if the plan has a user of this name, so that the record of what
# it did can't be taken.
LOSING = """#!/bin/bash
for path; do plan=$path; done
if grep -q '"broken"' "$plan"; then
  sed '0,/memory = 4096/s//memory = 8192/' "$plan" > "{live}-plan"
  exec "{live}" "${{@:1:$#-1}}" "{live}-plan"
fi
exec "{live}" "$@"
"""
# A `class` to which each farm that is up is run by a unit.
BY_UNIT = """import sys
sys.path.insert(0, {top!r})
from nadzsumek.serving import changing, classes
changing.unit_of = lambda _: "class@srv-course-farm-1.service"
sys.exit(classes.main(sys.argv[1:]))
"""
# What is said while it is waited, which a busy machine makes longer.
WAITING = re.compile("no answer yet after|not off yet")
# What a farm itself writes as long as it is up.
OWN = re.compile(r"\.sock$|/(class\.)?lock$|/serve\.log$|/pace$")


class Changing(Course):
    """A class that is up, whose students have two nodes each and a word of their own in node 0: the last digit is the student's
    number."""

    def __init__(self, count: int = 6) -> None:
        super().__init__(count, "--nodes", "2")
        self.must("start")
        for number in range(1, count + 1):
            lines = f"join 0 4\npoke 0 80000100 {WORD}{number}\n" + "look 0\n" * number
            assert (
                self.ask(f"student-{number}", lines)
                == "config -\npoke 0 9\n" + "look 0 booting overruns 0 0 0 0\n" * number
            )

    def ask(self, name: str, lines: str) -> str:
        """What a student is answered, who is found by the class."""
        done = run_text([f"{TOP}/connect", self.folder, name], lines, env=self.env)
        return done.stdout or done.stderr

    def word(self, name: str) -> str:
        """What a student's node has at the word."""
        return self.ask(name, "peek 0 80000100\n").split("\n")[0]

    def events(self) -> Events:
        """How many events each student has, and in which farm."""
        rows = [re.split("  +", row) for row in self.must("status").split("\n\n")[0].splitlines()[1:]]
        return {row[0]: (row[1], int(row[3])) for row in rows}

    def done(self, *words: str) -> str:
        """What an order says that goes well; how long a farm was away isn't always the same."""
        it = self.call(*words[:1], self.folder, *words[1:])
        assert (it.returncode, it.stderr) == (0, "")
        told = re.sub(r"for \d+\.\d s", "for T s", it.stdout).replace(self.folder, "course")
        return "".join(line for line in told.splitlines(True) if not WAITING.search(line))

    def refused(self, *words: str) -> str:
        """What a refused order says; nothing has changed by it."""
        before, events = self.files(), self.events()
        it = self.call(*words[:1], self.folder, *words[1:])
        assert (it.returncode, self.files() == before, self.events()) == (1, True, events)
        return it.stderr.replace(self.folder, "course")

    def files(self) -> dict[str, bytes]:
        """All files of the class but for those that a farm writes as long as it is up."""
        paths = [f"{at}/{name}" for at, _, names in os.walk(self.folder) for name in names]
        files = {}
        for path in sorted(it for it in paths if not OWN.search(it)):
            files[path.removeprefix(f"{self.folder}/")] = contents(path)
        return files

    def kept(self, before: Events, *others: str) -> Events:
        """All have what they had, but for these."""
        now = self.events()
        assert {it: now.get(it) for it in before if it not in others} == {
            it: before[it] for it in before if it not in others
        }
        return now

    def text(self, path: str) -> str:
        return text_of(f"{self.folder}/{path}")

    def ranges(self, farm: str) -> dict[str, str]:
        """The ranges of a farm's users, in the plan that it runs, which is also that of the class."""
        plans = [
            re.findall(r'name = "(.*?)".*\nrange = (.*)', self.text(f"{farm}/{name}")) for name in ("plan", "plan.toml")
        ]
        assert plans[0] == plans[1]
        return dict(plans[0])


class Supervised:
    """The process that has all farms of a class, until the end of a block, when it is stopped and must end well."""

    def __init__(self, it: Course) -> None:
        self.it = it
        call = [sys.executable, "-B", "-c", SUPERVISING.format(top=TOP, folder=it.folder), "class"]

        self.process = subprocess.Popen(call, env=it.env, stdout=subprocess.DEVNULL, stderr=subprocess.DEVNULL)

    def __enter__(self) -> "Supervised":
        return self

    def __exit__(self, *_: object) -> None:
        self.process.terminate()
        assert self.process.wait(SECONDS) == 0

    def has(self, farms: int, users: int) -> None:
        """So many farms with so many users are up after a while, and are children of the process."""
        end = time.monotonic() + SECONDS
        while (seen := self.seen()) != (farms, ["quiet"] * users):
            assert time.monotonic() <= end, f"{seen} in place of {farms} farms with {users} users"
            time.sleep(0.1)

    def seen(self) -> tuple[int, list[str]]:
        """How many children the process has, and what the students' rows say of them."""
        children = len(text_of(f"/proc/{self.process.pid}/task/{self.process.pid}/children").split())
        rows = self.it.must("status").split("\n\n")[0].splitlines()[1:]
        return children, [re.split("  +", row)[7] for row in rows]


@pytest.mark.long
def test_students_come_and_go() -> None:
    """Two are added, one is removed, one comes into his place, one gets another machine, one another name: all others have their
    words and just their events. The archive at the end has all of them."""
    with Changing() as it:
        before, serving = it.events(), it.lock(1)
        assert [*before] == [f"student-{number}" for number in range(1, 7)]
        students_are_added(it, before, serving)
        students_are_removed(it)
        a_machine_is_changed(it)
        a_student_is_renamed(it)
        one_comes_back(it)
        archived(it)


def students_are_added(it: Changing, before: Events, serving: int) -> None:
    """Nobody is disturbed in a farm that has no place left: those who come have one of their own."""
    assert it.done("add", "Student 7", "Zoë") == (
        "farm-2: up, 2 users\n"
        "student-7 is in farm-2 with 2 nodes and 1 host; the sheet is course/sheets/student-7.txt\n"
        "zoe is in farm-2 with 2 nodes and 1 host; the sheet is course/sheets/zoe.txt\n"
    )
    assert (it.lock(1), it.ranges("farm-2")) == (serving, {"student-7": "[[0, 4]]", "zoe": "[[5, 9]]"})
    it.kept(before)
    assert it.text("sheets/zoe.txt").splitlines()[0] == "Zoë"
    assert (
        it.ask("zoe", f"look 0\njoin 0 4\npoke 0 80000100 {WORD}8\n")
        == "look 0 booting overruns 0 0 0 0\nconfig -\npoke 0 9\n"
    )


def students_are_removed(it: Changing) -> None:
    """A socket goes, and what was done stays. Another comes into the place, and all in that farm are told why it is away."""
    before = it.events()
    with heard(it, "student-1") as lines:
        assert it.done("remove", "Student 3") == (
            "farm-1: up, 5 users, and was away for T s\n"
            "student-3 is removed from farm-1; what is there of student-3 stays until class finish\n"
        )
        assert lines() == [
            "note: the operator says: a student comes or goes, so this farm is stopped. It goes on where it was in a "
            "moment: connect again then",
            "note: the farm is stopped",
        ]
    now = it.kept(before, "student-3")
    assert ("student-3" in now, os.path.exists(f"{it.folder}/farm-1/student-3.sock")) == (False, False)
    assert it.word("student-3") == f"connect: student-3 was removed from the class in {it.folder}: ask whoever runs it"
    assert it.text("removed/student-3.toml").splitlines()[2:5] == [
        "[[domain]]",
        'user = [{ name = "student-3", host = [4] }]',
        "range = [[10, 14]]",
    ]
    assert it.done("add", "Student 9").splitlines()[0] == "farm-1: up, 6 users, and was away for T s"
    assert it.ranges("farm-1")["student-9"] == "[[10, 14]]"
    now = it.kept(now)
    assert (now["student-9"], it.ask("student-9", "look 0\n")) == (("farm-1", 0), "look 0 booting overruns 0 0 0 0\n")
    assert (
        it.refused("add", "Student 3") == "class: student-3 was removed, and his place in farm-1 is another's now: add "
        "something to the name\n"
    )
    assert [it.word(f"student-{number}") for number in (1, 6)] == [f"peek 0 {WORD}{number}" for number in (1, 6)]


def a_machine_is_changed(it: Changing) -> None:
    """One begins anew with another machine, and the earlier record stays. What has no room is refused."""
    before = it.events()
    assert it.refused("change", "student-1", "--nodes", "4") == (
        "class: student-1 can't have 4 nodes and 1 host: that takes 9 "
        "ports, and farm-1 has 7 ports for it, in 4 ranges at most. A class of its own has the room\n"
    )
    assert it.done("change", "Student 2", "--nodes", "1", "--hosts", "2") == (
        "farm-1: up, 6 users, and was away for T s\n"
        "student-2 has 1 node and 2 hosts now, and begins anew with student-2.2.replay; the sheet is "
        "course/sheets/student-2.txt\n"
    )
    now = it.kept(before, "student-2")
    assert [*now] == [*before]
    assert (now["student-2"], it.ranges("farm-1")["student-2"]) == (("farm-1", 0), "[[5, 7]]")
    told = it.ask("student-2", "look 0\nlook 1\njoin 0 2\ncollect 1\n").splitlines()
    assert [line for line in told if not line.startswith("  ")] == [
        "look 0 booting overruns 0 0 0 0",
        "look 1 nosuch",
        "config -",
        "collect 1 -",
    ]
    assert [line.strip() for line in it.text("sheets/student-2.txt").splitlines() if line.startswith("    port")] == [
        "port 0   node 0, link 0",
        "port 1   host 0",
        "port 2   host 1",
    ]
    done = it.call("verify", it.folder, "student-2", f"{it.folder}/farm-1/records/student-2.replay")
    assert (done.returncode, "A restart has ended that record" in done.stdout) == (3, True)
    assert (
        it.refused("change", "student-2", "--nodes", "1", "--hosts", "2")
        == "class: student-2 has 1 node and 2 hosts already. "
        "The student's own restart gives a fresh machine\n"
    )


def a_student_is_renamed(it: Changing) -> None:
    """All that one has done goes on under the new name, also what he took home before."""
    before, home = it.events(), f"{it.room.name}/home.replay"
    put(home, it.text("farm-1/records/student-4.replay"))
    assert it.done("rename", "Student 4", "Ada Byron") == (
        "farm-1: up, 6 users, and was away for T s\n"
        "student-4 is ada-byron now, and so are the records; the sheet is course/sheets/ada-byron.txt\n"
    )
    now = it.kept(before, "student-4")
    assert now["ada-byron"] == before["student-4"]
    assert (it.word("ada-byron"), it.word("student-4")) == (
        f"peek 0 {WORD}4",
        "connect: student-4 is called ada-byron now: connect " f"{it.folder} ada-byron",
    )
    assert [name for name in it.files() if "student-4" in name] == []
    done = it.call("verify", it.folder, "Ada Byron", home)
    assert (done.returncode, "is a beginning of" in done.stdout) == (0, True)
    assert (
        it.refused("rename", "ada-byron", "Student 3")
        == "class: Student 3 is the user student-3, of whom there are records "
        "already: choose another name\n"
    )


def one_comes_back(it: Changing) -> None:
    """Who was removed and comes back into his place has all that he had; and a farm without students is no farm of the class."""
    before = it.events()
    word = it.word("zoe")
    it.done("remove", "student-7", "zoe")
    assert sorted({farm for farm, _ in it.events().values()}) == ["farm-1"]
    assert (
        it.done("add", "Zoë")
        == "farm-2: up, 1 user\nzoe is back in farm-2 with 2 nodes and 1 host; the sheet is course/sheets/"
        "zoe.txt\n"
    )
    assert (it.word("zoe"), word) == (f"peek 0 {WORD}8", f"peek 0 {WORD}8")
    assert it.done("add", "Student 10").splitlines()[0] == "farm-2: up, 2 users, and was away for T s"
    # the first place is that of student-7, who was removed
    assert it.ranges("farm-2")["student-10"] == "[[0, 4]]"
    it.kept(before, "zoe", "student-7")


def archived(it: Changing) -> None:
    """All is in the archive, the class in it can be asked, and `lab` does each record again."""
    path, place = f"{it.room.name}/end.tar.xz", f"{it.room.name}/elsewhere"
    before, files = it.events(), it.files()
    done = it.call("finish", it.folder, path)
    assert (done.returncode, re.sub(r"\d+ bytes", "N bytes", done.stdout)) == (
        0,
        "10 students, 2 of them removed, with 11 records: " f"{path} has N bytes\n",
    )
    assert (oct(os.stat(path).st_mode)[-3:], it.files()) == ("600", files)
    with tarfile.open(path) as archive:
        archive.extractall(place)
    sizes = {}
    for farm, name in sorted(re.findall(r"(farm-\d)/records/(.*)\.replay", "\n".join(files))):
        record = f"{place}/course/{farm}/records/{name}.replay"
        told = run_text([LAB, "rows", record])
        # a record without events has no row, of which `lab` says so by its status
        assert (name, told.returncode, told.stdout.rpartition(", ")[2]) == (
            name,
            int(": 0 rows" in told.stdout),
            "0 wrong\n",
        )
        user = re.sub(r"\.\d+$", "", name)
        done = it.call("verify", f"{place}/course", user, record)
        told_events = re.search(r"(\d+) events?$", done.stdout)
        sizes[user] = int(told_events[1]) if done.returncode == 0 and told_events else None
        assert (name, done.returncode) == (name, 3 if name == "student-2" else 0)
    assert {name: sizes[name] for name in before} == {name: events for name, (_, events) in before.items()}
    assert (
        it.call("verify", f"{place}/course", "student-3", f"{it.folder}/farm-1/records/student-3.replay").returncode
        == 0
    )
    assert sorted(os.listdir(f"{place}/course/removed")) == ["student-3.toml", "student-7.toml"]
    assert (
        it.call("finish", it.folder, path).stderr
        == f"class: {path} is there already: choose another name, or move it away\n"
    )
    assert it.call("finish", "--remove", it.folder).returncode == 0
    assert (os.path.exists(it.folder), os.path.exists(f"{it.folder}.tar.xz")) == (False, True)


@contextlib.contextmanager
def heard(it: Course, name: str) -> Iterator[Callable[[], list[str]]]:
    """What a student's connection tells until the farm ends it."""
    with socket.socket(socket.AF_UNIX, socket.SOCK_STREAM) as client, client.makefile("r", encoding="utf-8") as lines:
        client.settimeout(SECONDS)
        client.connect(f"{it.folder}/farm-1/{name}.sock")
        yield lambda: [line.rstrip("\n") for line in lines]


def test_wrong_changes_change_nothing() -> None:
    """All that is wrong is said at once, and nothing has changed then: no file, no socket and no student's events."""
    with Changing(3) as it:
        serving = it.lock(1)
        rows = [
            (
                ("add", "operator", "周", "Student 1", "Bob", "bob"),
                [
                    "'operator' would be the user operator, and that name is reserved: add something to it",
                    "'周' makes no user's name: write it with a to z and digits, or one before it: li = 周",
                    "Student 1 is the user student-1, who is there already: add something to the name",
                    "bob is the user bob, as Bob is: add something to one",
                ],
            ),
            (
                ("remove", "zed", "student-1", "yak", "Student 1"),
                [
                    "there is no student zed in course: class status course lists all",
                    "there is no student yak in course: class status course lists all",
                    "Student 1 is the user student-1, who is named twice",
                ],
            ),
            (("change", "student-1", "--nodes", "9"), ["--nodes is 1 to 8, and not 9"]),
            (("change", "student-1", "--nodes", "2", "--hosts", "5"), ["--hosts is 1 to 4, and not 5"]),
            (("change", "zed", "--nodes", "2"), ["there is no student zed in course: class status course lists all"]),
            (
                ("rename", "zed", "Student 2"),
                [
                    "there is no student zed in course: class status course lists all",
                    "Student 2 is the user student-2, who is there already: choose another name",
                ],
            ),
            (
                ("rename", "student-1", "a\nb"),
                ["'a\\nb' has the character U+000A, which no name may have: take it out"],
            ),
            (("add",), ["add wants the folder of the class and a name. Try: class add course 'Ada Lovelace'"]),
            (
                ("remove",),
                ["remove wants the folder of the class and a student's name. Try: class remove course " "ada-lovelace"],
            ),
            (
                ("finish", "/nonexistent/a.tar.xz"),
                ["there can be no file in /nonexistent: choose another folder for the " "archive"],
            ),
            (
                ("finish", f"{it.folder}/a.tar.xz"),
                ["the archive course/a.tar.xz would be in the folder of the class: choose " "another folder"],
            ),
        ]
        for words, told in rows:
            assert (words, it.refused(*words).splitlines()) == (words, [f"class: {line}" for line in told])
        put(f"{it.room.name}/more.txt", b"Ada\nStudent 2\nada\n\x0b\n")
        done = it.call("add", "--students", f"{it.room.name}/more.txt", it.folder)
        assert [re.sub(".*more.txt, ", "", line)[:30].strip() for line in done.stderr.splitlines()] == [
            "line 2: Student 2 is the user",
            "line 3: ada is the user ada, a",
            "line 4: '\\x0b' has the charact",
        ]
        call = [sys.executable, "-B", "-c", BY_UNIT.format(top=TOP), "remove", it.folder, "student-1"]
        done = run_text(call, env=it.env)
        assert (done.returncode, done.stderr) == (
            1,
            "class: farm-1 is run by the unit class@srv-course-farm-1.service: systemctl "
            "stop class@srv-course-farm-1.service first, and start it after that\n",
        )
        if os.getuid() == 0:
            os.chown(f"{it.folder}/class.json", 65534, -1)
            before = it.files()
            for order in (("remove", it.folder, "student-1"), ("status", it.folder), ("check", it.folder, "x", "y")):
                done = it.call(*order)
                said = f"class: {it.folder}/class.json belongs to the account nobody"
                assert (done.returncode, done.stderr.split(",")[0], it.files() == before) == (1, said, True)
        assert it.lock(1) == serving


@pytest.mark.long
def test_what_cannot_start_is_undone(live: str) -> None:
    """If a farm can't be started with its new plan all is made as it was, and so is all if another `class` is at work."""
    with Changing(3) as it:
        it.env["LIVE"] = f"{it.room.name}/live"
        os.symlink(live, f"{it.room.name}/real")
        for text, told in (
            (REFUSING, "it did not start, see "),
            (LOSING, "the record of student-1 can't be taken, see "),
        ):
            put(it.env["LIVE"], text.format(live=f"{it.room.name}/real"))
            os.chmod(it.env["LIVE"], 0o755)
            said = it.refused("add", "broken").splitlines()
            assert (said[0].startswith(f"class: farm-1: {told}"), said[-1]) == (True, "class: all is as it was")
        with hold(it.folder, fcntl.LOCK_SH):
            assert it.refused("add", "Ada") == (
                f"class: another class is at work at course, process {os.getpid()}: wait until it has ended\n"
            )
        assert [it.word(f"student-{number}") for number in (1, 2, 3)] == [
            f"peek 0 {WORD}{number}" for number in (1, 2, 3)
        ]
        it.must("stop")
        assert it.done("add", "Ada") == "ada is in farm-1 with 2 nodes and 1 host; the sheet is course/sheets/ada.txt\n"
        assert it.must("start").splitlines()[-1] == "farm-1: up, 4 users"
        assert [it.word(f"student-{number}") for number in (1, 2, 3)] == [
            f"peek 0 {WORD}{number}" for number in (1, 2, 3)
        ]


# A `class` whose supervisor starts at once again what has ended.
SUPERVISING = """import sys
sys.path.insert(0, {top!r})
from nadzsumek.serving import classes, supervising
supervising.AGAIN_SECONDS = 0.2
sys.exit(classes.main(["serve", {folder!r}]))
"""


@pytest.mark.long
def test_a_whole_class_is_served() -> None:
    """One process has all farms of a class as its children: those that change, come, are killed, or are started after a stop."""
    with Course(1, "--nodes", "8") as it:
        with Supervised(it) as supervisor:
            supervisor.has(1, 1)
            it.must_change("add", "Ada")
            supervisor.has(2, 2)
            it.must_change("change", "ada", "--nodes", "1")
            supervisor.has(2, 2)
            it.must_change("add", "Bob")
            supervisor.has(2, 3)
            os.kill(it.lock(2), signal.SIGKILL)
            supervisor.has(2, 3)
            assert [line for line in it.must("stop").splitlines() if ": off" in line] == ["farm-1: off", "farm-2: off"]
            time.sleep(0.5)
            assert [re.split("  +", row)[7] for row in it.must("status").splitlines()[1:]] == ["off"] * 3
            told = it.must("start").splitlines()
            assert [line for line in told if "up, " in line] == ["farm-1: up, 1 user", "farm-2: up, 2 users"]
            supervisor.has(2, 3)
            it.must_change("remove", "student-1")
            supervisor.has(1, 2)
            second = it.call("serve", it.folder)
            assert (second.returncode, second.stderr) == (
                1,
                f"class: {it.folder} is served already, by process " f"{supervisor.process.pid}: stop it first\n",
            )
        assert [re.split("  +", row)[7] for row in it.must("status").splitlines()[1:]] == ["off"] * 2


def test_the_operator_tells_all() -> None:
    """What the operator tells comes to each user and to himself as one line, on which no terminal acts."""
    with Course(2) as it:
        it.must("start")
        with heard(it, "student-2") as lines:
            done = run_text(
                [f"{TOP}/connect", it.folder, "operator"], "tell\ntell we end \x1b[2J at  five\nwords\n", env=it.env
            )
            said = "note: the operator says: we end \\x1b[2J at  five"
            assert (done.stdout.splitlines()[0], done.stdout.splitlines()[1][:6]) == (said, "!words")
            assert (
                done.stderr
                == "error: tell wants a sentence behind it, such as we end at five. Try: tell we end at five\n"
            )
            it.must("stop")
            assert lines() == [said, "note: the farm is stopped"]
