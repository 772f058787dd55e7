"""What a teacher asks of the exercises of a class and of what was handed in, and `lab check`."""

from __future__ import annotations

import argparse
import csv
import os
import re
import sys
import tempfile
from collections.abc import Iterator
from concurrent.futures import ThreadPoolExecutor

from ..serving.checking import NONE, row_of, written
from ..serving.sheets import person_of
from ..serving.escapes import escaped
from ..serving.exercises import Exercise, exercise_in
from ..serving.folder import CLASS, Refused, build
from ..serving.kept import own_class
from ..serving.marks import plain
from .book import Book, Submission
from .given import FOLDER, FORM_SHOWN, close, exercise_of, exercises_in, exercises_of
from .handing import told_of
from .telling import HASH, moment, of_tests

# An exercise that is a folder has solutions, and wrong programs that it must find.
SOLUTION, TRIED = "solution", re.compile(r"(?:solution|wrong)[a-z0-9-]*\.(?:occ|s)")


def own_check(given: list[str]) -> int:
    """Tries one program in an exercise: `lab check`."""
    parser = argparse.ArgumentParser(
        prog="lab check",
        description="Tries a program in an exercise. The status is 1 if it hasn't all points.",
    )
    parser.add_argument("EXERCISE", help="the file of the exercise, or a folder with a file exercise.txt")
    parser.add_argument("PROGRAM", help="a program, whose name ends with .occ or .s, or a folder with several")
    it = parser.parse_args(given)
    try:
        exercise = exercise_in(it.EXERCISE)
        if not os.path.exists(it.PROGRAM):
            raise Refused(f"there is no file {it.PROGRAM}")
        row = row_of(exercise, "you", "you", [it.PROGRAM])
    except Refused as refused:
        print("".join(f"lab: {escaped(line)}\n" for line in f"{refused}".split("\n")), end="", file=sys.stderr)
        return 1
    print("\n".join(escaped(line) for line in of_tests(told_of(exercise, row))))
    return 0 if row.points == exercise.points() else 1


def is_as_meant(exercise: Exercise, place: str, file: str) -> str | None:
    """What is wrong with a solution, which must have all points, or with a wrong program, which must be compiled and fail; none if
    nothing is."""
    row = row_of(exercise, "solution", "solution", [os.path.join(place, file)])
    if all(it.result == NONE for it in row.outcomes):
        return f"{file}: {row.remark}"
    if (row.points == exercise.points()) != file.startswith(SOLUTION):
        return f"{file} has {row.points} of {exercise.points()} points"
    return None


def tried_in(name: str, place: str) -> Iterator[tuple[str, str, str]]:
    """The programs that an exercise is tried against: with its name and its place. A folder without a solution is refused."""
    if not os.path.isdir(place):
        return
    files = [it for it in sorted(os.listdir(place)) if TRIED.fullmatch(it)]
    if not any(it.startswith(SOLUTION) for it in files):
        raise Refused(f"{name}: there is no {SOLUTION}.occ or {SOLUTION}.s")
    yield from ((name, place, file) for file in files)


def words_of_exercises(given: list[str]) -> argparse.Namespace:
    parser = argparse.ArgumentParser(
        prog="class exercises",
        usage="class exercises FOLDER\n       class exercises --close NAME TIME DIR",
        description="Tries each exercise of a folder: its files solution*.occ and solution*.s must have all points, and its files "
        "wrong*.occ and wrong*.s must be compiled and fail. Or lets an exercise of a class close.",
    )
    parser.add_argument(
        "--close",
        nargs=2,
        metavar=("NAME", "TIME"),
        help=f"lets an exercise close at a time, such as '{FORM_SHOWN}', or now or never; nothing is tried then",
    )
    parser.add_argument("FOLDER", help="a folder of exercises, or of a class")
    return parser.parse_args(given)


def exercises(given: list[str]) -> int:
    """Tries each exercise of a folder against its own solutions and its wrong programs, or closes one of a class."""
    it = words_of_exercises(given)
    if it.close:
        own_class(it.FOLDER)
        print(escaped(close(os.path.abspath(it.FOLDER), *it.close)))
        return 0
    folder = os.path.join(it.FOLDER, FOLDER) if os.path.isfile(os.path.join(it.FOLDER, CLASS)) else it.FOLDER
    there = exercises_in(folder)
    if not there:
        raise Refused(f"there is no exercise in {folder}")
    build("class", "lab")
    wrong, files = list[str](), list[tuple[str, str, str]]()
    for name, place in there.items():
        try:
            exercise_in(place)
            files += tried_in(name, place)
        except Refused as refused:
            wrong.append(f"{refused}")
    with ThreadPoolExecutor(os.cpu_count() or 1) as pool:
        told = [*pool.map(lambda one: is_as_meant(exercise_in(one[1]), one[1], one[2]), files)]
    wrong += [f"{name}: {what}" for (name, _, _), what in zip(files, told) if what]
    print("".join(f"{escaped(line)}\n" for line in wrong), end="")
    print(f"{len(there)} exercises, {len(files)} programs tried, {len(wrong)} wrong")
    return 1 if wrong else 0


def words_of(order: str, about: str, given: list[str]) -> argparse.Namespace:
    parser = argparse.ArgumentParser(prog=f"class {order}", usage=f"class {order} [--csv FILE] DIR", description=about)
    parser.add_argument("--csv", metavar="FILE", help="writes the table into this file too, for a spreadsheet")
    parser.add_argument("DIR", help="the folder of the class")
    return parser.parse_args(given)


def show(rows: list[list[str]], file: str | None) -> None:
    """Prints a table, and writes it for a spreadsheet."""
    widths = [max(len(escaped(row[at])) for row in rows) for at in range(len(rows[0]))]
    print("\n".join("  ".join(escaped(it).ljust(width) for it, width in zip(row, widths)).rstrip() for row in rows))
    if file:
        with tempfile.TemporaryFile("w+", encoding="utf-8", newline="") as it:
            csv.writer(it).writerows([plain(cell) for cell in row] for row in rows)
            it.seek(0)
            written(file, it.read())


def handed_in(course: str) -> list[Submission]:
    """What was handed in, each under the name that its student has now."""
    with Book(course) as book:
        book.follow(own_class(course))
        return book.submissions()


def put_submitted(course: str, name: str, folder: str) -> Exercise:
    """Puts what each student handed in last for an exercise into a folder; the exercise."""
    exercise = exercise_of(course, name)
    for it in {one.name: one for one in handed_in(course) if one.exercise == name}.values():
        with open(os.path.join(folder, f"{it.name}.{it.kind}"), "w", encoding="utf-8", newline="") as file:
            file.write(it.text)
    return exercise


def submitted(given: list[str]) -> int:
    """Prints what the students of a class have handed in."""
    it = words_of("submitted", "Shows what students have handed in, the oldest first.", given)
    own_class(it.DIR)
    rows = [["student", "exercise", "when", "points", "of", "hash", "remark"]]
    for one in handed_in(os.path.abspath(it.DIR)):
        points = [f"{one.points}", f"{one.most}"]
        rows.append([one.name, one.exercise, moment(one.at), *points, one.hash[:HASH], one.remark])
    show(rows, it.csv)
    return 0


def mark_rows(course: str) -> list[list[str]]:
    """The points of each student below a head: those of what was handed in last for each exercise."""
    kept = own_class(course)
    last = {(one.name, one.exercise): one for one in handed_in(course)}
    there = sorted({*exercises_of(course), *(exercise for _, exercise in last)})
    rows = [["student", "name", *there, "points"]]
    for user in (name for names in kept.farms.values() for name in names):
        own = [last.get((user, exercise)) for exercise in there]
        points = [f"{one.points}" if one else "-" for one in own]
        rows.append([user, person_of(course, user), *points, f"{sum(one.points for one in own if one)}"])
    return rows


def marks(given: list[str]) -> int:
    """Prints the points of each student: those of what was handed in last for each exercise."""
    it = words_of("marks", "Shows each student's points: those of what was handed in last.", given)
    own_class(it.DIR)
    show(mark_rows(os.path.abspath(it.DIR)), it.csv)
    return 0
