"""A term of three weeks for thirty students: exercises are given, programs are checked, handed in and marked, two students join late and one
leaves, and the computer is lost while all hand in. In the gate each week has one exercise; the long form has all of assembly."""

import csv
import os
import shutil
import time
from concurrent.futures import ThreadPoolExecutor
from typing import NamedTuple

import pytest
from nadzsumek import Farm, FarmError
from nadzsumek.course.given import shown_time
from support.lessons import EXERCISES, Lesson
from support.serving_trials import SECONDS
from support.trials import text_of
from test_course_kept import killed_tree

WEEKS = (("first-byte",), ("times-ten",), ("alphabet",))
LONG_WEEKS = (
    ("first-byte", "alphabet", "times-ten", "absolute"),
    ("smaller", "ones", "days"),
    ("backwards", "divisor", "relay"),
)
# So many students are there at first, and so many hand in together.
STUDENTS, TOGETHER = 28, 8


class Program(NamedTuple):
    """A program of the examples, with its text."""

    path: str
    text: str


def programs_of(exercise: str) -> tuple[Program, Program]:
    """A wrong program and the solution of an exercise."""
    folder = f"{EXERCISES}/{exercise}"
    wrong = sorted(it for it in os.listdir(folder) if it.startswith("wrong-"))[0]
    paths = [f"{folder}/{name}" for name in (wrong, "solution.s")]
    return Program(paths[0], text_of(paths[0])), Program(paths[1], text_of(paths[1]))


class Term(Lesson):
    """The class, and what its students were answered last for each exercise."""

    def __init__(self) -> None:
        super().__init__(STUDENTS)
        shutil.rmtree(self.exercises)
        os.mkdir(self.exercises)
        self.points: dict[tuple[str, str], int] = {}
        self.answered = 0

    def users(self) -> list[str]:
        names: list[str] = Farm(self.folder).users()
        return names

    def hand_in(self, name: str, exercise: str, program: Program) -> bool:
        """Hands in a program; whether it was answered."""
        try:
            with Farm(self.folder).user(name, seconds=6 * SECONDS) as user:
                told = user.submit(exercise, program.path)
        except (FarmError, OSError):
            return False
        assert (told.exercise, told.of >= told.points, told.number is not None) == (exercise, True, True)
        self.points[name, exercise], self.answered = told.points, self.answered + 1
        return True

    def all_hand_in(self, exercise: str) -> dict[str, bool]:
        """Each third hands in a wrong program, which is checked before, and then two of them the right one; the others that at once."""
        wrong, right = programs_of(exercise)

        def work(at: int, name: str) -> bool:
            if at % 3 == 0 and not self.hand_in(name, exercise, wrong):
                return False
            return at % 9 == 0 or self.hand_in(name, exercise, right)

        with ThreadPoolExecutor(TOGETHER) as pool:
            names = self.users()
            return dict(zip(names, pool.map(work, range(len(names)), names)))

    def lose_the_computer(self) -> None:
        """Kills all processes of the class at once."""
        for number in (1, 2):
            assert len(killed_tree(self.lock(number))) > 1

    def marks(self) -> dict[str, dict[str, str]]:
        """The rows of the spreadsheet."""
        path = f"{self.room.name}/marks.csv"
        assert self.call("marks", "--csv", path, self.folder).returncode == 0
        with open(path, encoding="utf-8", newline="") as it:
            return {row["student"]: row for row in csv.DictReader(it)}

    def check_marks(self, exercises: list[str]) -> None:
        """The marks are the points that were answered last."""
        rows = self.marks()
        assert sorted(rows) == self.users()
        for name, row in rows.items():
            points = {it: self.points.get((name, it)) for it in exercises}
            told = {it: "-" if at is None else f"{at}" for it, at in points.items()}
            assert (name, {it: row[it] for it in exercises}) == (name, told)
            assert (name, int(row["points"])) == (name, sum(it or 0 for it in points.values()))


def third_week(term: Term, exercises: tuple[str, ...]) -> None:
    """One leaves, and while all hand in the computer is lost. Who wasn't answered hands in again."""
    term.must_change("remove", "student-7")
    for name in exercises:
        term.give(f"{EXERCISES}/{name}")
    with ThreadPoolExecutor(1) as pool:
        handing, before = pool.submit(term.all_hand_in, exercises[0]), term.answered
        end = time.monotonic() + 6 * SECONDS
        while term.answered < before + 5 and time.monotonic() < end:
            time.sleep(0.02)
        term.lose_the_computer()
        told = handing.result()
    assert not all(told.values())
    answered = dict(term.points)
    term.must("start")
    assert {row["student"] for row in term.marks().values()} == {*term.users()}
    kept = term.kept("SELECT name, exercise, points FROM submission ORDER BY number")
    assert {(name, exercise) for name, exercise in answered} <= {(name, exercise) for name, exercise, _ in kept}
    right = programs_of(exercises[0])[1]
    again = [name for name, is_answered in told.items() if not is_answered]
    with ThreadPoolExecutor(TOGETHER) as pool:
        assert all(pool.map(lambda name: term.hand_in(name, exercises[0], right), again))
    for name in exercises[1:]:
        assert all(term.all_hand_in(name).values())


def play(weeks: tuple[tuple[str, ...], ...]) -> None:
    with Term() as term:
        for name in weeks[0]:
            term.give(f"{EXERCISES}/{name}")
            assert all(term.all_hand_in(name).values())
        first = weeks[0][0]
        assert term.call("exercises", "--close", first, shown_time(time.time() - 60), term.folder).returncode == 0
        term.check_marks([*weeks[0]])
        # two join late: one whose name has no Latin letter, and both see the exercises that are there
        term.must_change("add", "li = 李 小龙", "Émile Borel")
        assert [it["name"] for it in term.ask("li", "exercises") if it["closed"]] == [first]
        term.write("late.s", programs_of(first)[1].text)
        assert term.ask("emile-borel", f"submit {first} late.s")[1].startswith(f"{first} closed at ")
        for name in weeks[1]:
            term.give(f"{EXERCISES}/{name}")
            assert all(term.all_hand_in(name).values())
        assert len(term.users()) == 30
        third_week(term, weeks[2])
        given = [name for week in weeks for name in week]
        term.check_marks(given)
        assert term.marks()["li"]["name"] == "李 小龙"
        assert len(term.users()) == 29
        # what the teacher tries again is what was answered
        out = f"{term.room.name}/out.csv"
        last = weeks[2][0]
        assert term.call("check", "--submitted", "--csv", out, term.folder, last).returncode == 0
        with open(out, encoding="utf-8", newline="") as it:
            tried = {row["user"]: int(row["points"]) for row in csv.DictReader(it)}
        assert tried == {name: term.points[name, last] for name in term.users()}
        rows = term.call("submitted", term.folder).stdout.splitlines()
        assert len(rows) - 1 >= term.answered
        assert {row.split()[0] for row in rows[1:]} == {*term.users(), "student-7"}
        told = term.call("wall", "--once", term.folder).stdout
        assert "29 students: " in told.splitlines()[0]
        assert len(told.splitlines()) <= 24


@pytest.mark.alone
def test_term() -> None:
    play(WEEKS)


@pytest.mark.long
@pytest.mark.alone
def test_term_with_all_of_assembly() -> None:
    play(LONG_WEEKS)
