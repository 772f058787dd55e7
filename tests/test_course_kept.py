"""What was handed in stays, whatever ends meanwhile: `serve`, `class web` or an order of the class by kill -9, or the room of the disk.
What was answered is there, and what wasn't is there whole or not at all."""

import contextlib
import hashlib
import os
import random
import signal
import stat
import subprocess
import sys
import tarfile
import threading
import time
from collections.abc import Callable, Iterator

import pytest
from nadzsumek import Farm, FarmError
from support.courses import child_of
from support.lessons import Lesson, found_in
from support.pages import Pages
from support.serving_trials import SECONDS
from support.trials import TOP, put, text_of

# An exercise of one short test, and a program for it that has a number of its own.
ONE = "exercise  The first byte\nsteps 500\nbefore\njoin 0 1\nload 0 student.s\ntest the byte\nexpect 0 byte 42\n"
PROGRAM = "-- {}\n        ajw 4\n        mint\n        ldc 42\n        outbyte\n        stopp\n"
# A rename that is killed when the class has the new name, and the file of what is handed in doesn't.
CUT = """import os, sys
sys.path.insert(0, {top!r})
from nadzsumek.serving import coming
coming.follow_names = lambda course: os._exit(9)
from nadzsumek.serving import classes
classes.main(sys.argv[1:])
"""


def hash_of(text: str) -> str:
    return hashlib.sha256(text.encode()).hexdigest()


class Handing:
    """A student who hands in one program after another, whatever happens, and knows what was answered."""

    def __init__(self, hand_in: Callable[[str], str | None]) -> None:
        self.hand_in, self.answered, self.sent, self.ends = hand_in, list[str](), list[str](), False
        self.thread = threading.Thread(target=self.run)
        self.thread.start()

    def run(self) -> None:
        while not self.ends:
            text = PROGRAM.format(random.getrandbits(64))
            self.sent.append(hash_of(text))
            with contextlib.suppress(FarmError, OSError, ValueError):
                told = self.hand_in(text)
                self.answered += [told] if told else []
            time.sleep(0.02)

    def end(self) -> None:
        self.ends = True
        self.thread.join()


def by_terminal(lesson: Lesson, name: str) -> Callable[[str], str | None]:
    """How a student hands in by the package; the hash that is answered."""

    def hand_in(text: str) -> str | None:
        with Farm(lesson.folder).user(name, seconds=SECONDS) as user:
            told: str | None = user.submit("one", put(f"{lesson.room.name}/{name}.s", text)).hash
            return told

    return hand_in


def check_kept(folder: str, students: dict[str, Handing], rows: list[tuple[str, str, str, int]]) -> None:
    """All that was answered is there, as its student's, and nothing that nobody has sent."""
    for name, it in students.items():
        there = [hashed for who, hashed, _, _ in rows if who == name]
        assert (name, [one for one in it.answered if one not in there]) == (name, [])
        assert (name, [one for one in there if one not in it.sent]) == (name, [])
        assert len(there) == len({*there})
    assert [row for row in rows if hash_of(row[2]) != row[1] or row[3] != 1] == []
    assert stat.S_IMODE(os.stat(f"{folder}/pages.sqlite").st_mode) == 0o600


ROWS = "SELECT name, hash, text, points FROM submission ORDER BY number"


def killed_tree(number: int) -> list[int]:
    """Kills a process and all that it has begun; their numbers."""
    try:
        children = [int(it) for it in text_of(f"/proc/{number}/task/{number}/children").split()]
        os.kill(number, signal.SIGKILL)
    except (FileNotFoundError, ProcessLookupError):
        return []
    return [number, *(it for child in children for it in killed_tree(child))]


@pytest.mark.alone
def test_kills_of_serve(count: int | None, seed: int) -> None:
    """Three hand in side by side, and `serve`, or all of it, is killed at any moment."""
    chance = random.Random(seed)
    with Lesson(3) as lesson:
        put(f"{lesson.exercises}/one.txt", ONE)
        students = {f"student-{it}": Handing(by_terminal(lesson, f"student-{it}")) for it in (1, 2, 3)}
        try:
            for _ in range(count or 4):
                before = {name: len(it.answered) for name, it in students.items()}
                end = time.monotonic() + 4 * SECONDS
                while any(len(it.answered) == before[name] for name, it in students.items()) and time.monotonic() < end:
                    time.sleep(0.05)
                time.sleep(chance.random())
                number = lesson.lock(1)
                if chance.random() < 0.5:
                    os.kill(number, signal.SIGKILL)
                else:
                    assert len(killed_tree(number)) > 1
                lesson.must("start")
        finally:
            for it in students.values():
                it.end()
        assert all(it.answered for it in students.values())
        check_kept(lesson.folder, students, lesson.kept(ROWS))
        assert lesson.kept("PRAGMA integrity_check") == [("ok",)]


@pytest.mark.alone
def test_kills_of_the_pages(count: int | None) -> None:
    """The same of `class web`."""
    with Pages(2) as pages:
        os.mkdir(f"{pages.folder}/exercises")
        put(f"{pages.folder}/exercises/one.txt", ONE)

        def by_page(name: str) -> Callable[[str], str | None]:
            def hand_in(text: str) -> str | None:
                answer = pages.post(name, "/submit", exercise="one", kind="s", text=text)
                return str(answer.told()["hash"]) if answer.status == 200 and "hash" in answer.told() else None

            return hand_in

        students = {name: Handing(by_page(name)) for name in ("student-1", "student-2")}
        try:
            for _ in range(count or 3):
                time.sleep(1 + random.random())
                pages.web.kill()
                pages.web.wait()
                assert pages.web.stdout
                pages.web.stdout.close()
                pages.web = pages.served()
            end = time.monotonic() + 4 * SECONDS
            while not all(it.answered for it in students.values()) and time.monotonic() < end:
                time.sleep(0.1)
        finally:
            for it in students.values():
                it.end()
        assert all(it.answered for it in students.values())
        check_kept(pages.folder, students, found_in(pages.folder, ROWS))


def test_many_at_once() -> None:
    """Eight hand in at the same time, when nobody has before, and each has the own one."""
    with Lesson(8) as lesson:
        put(f"{lesson.exercises}/one.txt", ONE)
        assert not os.path.exists(f"{lesson.folder}/pages.sqlite")
        names = [f"student-{it}" for it in range(1, 9)]
        texts = {name: PROGRAM.format(name) for name in names}
        threads = [threading.Thread(target=by_terminal(lesson, name), args=(texts[name],)) for name in names]
        for it in threads:
            it.start()
        for it in threads:
            it.join()
        assert sorted(lesson.kept(ROWS)) == sorted((name, hash_of(texts[name]), texts[name], 1) for name in names)
        for name in names:
            assert [it["hash"] for it in lesson.ask(name, "submitted")] == [hash_of(texts[name])]


def test_a_rename_that_is_killed() -> None:
    """What was handed in has the new name by the next order, and who gets the old name afterwards sees nothing of it."""
    with Lesson(2) as lesson:
        put(f"{lesson.exercises}/one.txt", ONE)
        lesson.write("one.s", PROGRAM.format("one"))
        assert lesson.ask("student-2", "submit one one.s")["number"] == 1
        call = [sys.executable, "-B", "-c", CUT.format(top=TOP), "rename", lesson.folder, "student-2", "Eve"]
        assert subprocess.run(call, capture_output=True, check=False).returncode == 9
        assert lesson.kept("SELECT name FROM submission") == [("student-2",)]
        lesson.must_change("add", "Student 2")
        assert lesson.kept("SELECT name FROM submission") == [("eve",)]
        assert lesson.ask("student-2", "submitted") == []
        assert [it["number"] for it in lesson.ask("eve", "submitted")] == [1]
        assert lesson.ask("student-2", "submit one one.s")["number"] == 2
        lesson.must_change("rename", "student-2", "Fay")
        lesson.must_change("rename", "eve", "Gil")
        assert lesson.kept("SELECT number, name FROM submission ORDER BY number") == [(1, "gil"), (2, "fay")]


@contextlib.contextmanager
def small(path: str, size: str) -> Iterator[None]:
    """A folder on a disk of this size, as long as a block lasts."""
    os.mkdir(path)
    done = subprocess.run(
        ["mount", "-t", "tmpfs", "-o", f"size={size}", "none", path], capture_output=True, check=False
    )
    if done.returncode:
        pytest.skip("there is no right to mount")
    try:
        yield
    finally:
        subprocess.run(["umount", "--lazy", path], check=True)


class OnSmallDisk(Lesson):
    """A class on a disk of its own."""

    def __init__(self, count: int) -> None:
        self.disk = contextlib.ExitStack()
        super().__init__(count)

    def made_at(self, room: str) -> str:
        self.disk.enter_context(small(f"{room}/disk", "4m"))
        return f"{room}/disk/course"

    def __exit__(self, *more: object) -> None:
        self.call("stop", self.folder)
        self.disk.close()
        self.room.cleanup()


def test_a_full_disk() -> None:
    """It is told that nothing was kept, what was answered before is there, and with room again all goes on."""
    with OnSmallDisk(2) as lesson:
        put(f"{lesson.exercises}/one.txt", ONE)
        lesson.write("one.s", PROGRAM.format("one"))
        lesson.write("two.s", PROGRAM.format("two") + "-- more\n" * 4000)
        assert lesson.ask("student-1", "submit one one.s")["number"] == 1
        filler = f"{lesson.room.name}/disk/filler"
        with open(filler, "wb", buffering=0) as it, contextlib.suppress(OSError):
            while True:
                it.write(bytes(4096))
        word, why = lesson.ask("student-1", "submit one two.s")
        assert (word, why.endswith("so nothing was kept"), "full" in why) == ("refused", True, True), why
        assert [it["number"] for it in lesson.ask("student-1", "submitted")] == [1]
        os.remove(filler)
        assert lesson.ask("student-1", "submit one two.s")["number"] == 2
        assert [row[3] for row in lesson.kept(ROWS)] == [1, 1]
        assert child_of(lesson.lock(1))


def test_the_archive_of_a_class_has_it() -> None:
    """With `class finish` the exercises and what was handed in are in the archive, and with --remove they are removed then."""
    with Lesson(1) as lesson:
        put(f"{lesson.exercises}/one.txt", ONE)
        lesson.write("one.s", PROGRAM.format("one"))
        assert lesson.ask("student-1", "submit one one.s")["number"] == 1
        rows = lesson.kept(ROWS)
        done = lesson.call("finish", "--remove", lesson.folder)
        assert (done.returncode, done.stderr, "stays" in done.stdout) == (0, "", False)
        assert not os.path.exists(lesson.folder) or os.listdir(lesson.folder) == []
        with tarfile.open(f"{lesson.folder}.tar.xz") as archive:
            archive.extractall(lesson.room.name)
        assert lesson.kept(ROWS) == rows
        assert text_of(f"{lesson.exercises}/one.txt") == ONE
