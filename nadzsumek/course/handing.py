"""What students ask about the exercises of their class, whichever door they come by. `main` answers one question, in a process of its own
that `judging.py` begins: an object in JSON from standard input, and one to standard output."""

from __future__ import annotations

import hashlib
import json
import os
import resource
import sqlite3
import sys
import tempfile
from collections.abc import Callable
from typing import TYPE_CHECKING, Any

from ..occam.asking import BOUNDED
from ..serving.checking import NONE, Row, row_of
from ..serving.folder import Refused
from ..serving.kept import own_class
from ..serving.programs import ASSEMBLY, OCCAM
from .book import MOST_TEXT, Book, Submission
from .given import NAME, check_open, exercise_of, exercises_of, told
from .telling import REFUSED

if TYPE_CHECKING:
    from ..serving.exercises import Exercise

# How much memory, and how many seconds of a processor, the process may take beside the programs that it tries.
MOST_MEMORY, MOST_SECONDS = 2 << 30, 120
# How much of what is said of a program is kept.
MOST_REMARK = 1000
KINDS = [it.removeprefix(".") for it in (OCCAM, ASSEMBLY)]
Answer = dict[str, Any]


def tried(exercise: Exercise, name: str, kind: str, text: str) -> Row:
    """What comes of a text in an exercise."""
    with tempfile.TemporaryDirectory(prefix="nadzsumek-") as room:
        path = os.path.join(room, f"{name}.{kind}")
        with open(path, "w", encoding="utf-8", newline="") as it:
            it.write(text)
        return row_of(exercise, name, name, [path])


def told_of(exercise: Exercise, row: Row) -> Answer:
    """What is told of it. A program that can't be tried has no tests, and a remark says why."""
    tests = [
        {"name": test.name, "result": it.result, "remark": it.remark, "sent": [*it.sent], "why": it.why.splitlines()}
        for test, it in zip(exercise.tests, row.outcomes)
        if it.result != NONE
    ]
    points = {"points": row.points, "of": exercise.points()}
    return {"title": exercise.title, **points, "tests": tests, "remark": row.remark}


def checked(course: str, name: str, kind: str, text: str) -> tuple[Exercise, str]:
    """The exercise and the text, if they can be tried."""
    exercise = exercise_of(course, name)
    if kind not in KINDS:
        raise Refused(f"a program ends with {OCCAM} or {ASSEMBLY}")
    if len(text.encode()) > MOST_TEXT:
        raise Refused(f"the text has more than {MOST_TEXT} bytes")
    return exercise, text


def check(course: str, user: str, _: float, name: str, kind: str, text: str) -> Answer:
    """Tries a text in an exercise."""
    exercise, text = checked(course, name, kind, text)
    return {"exercise": name, **told_of(exercise, tried(exercise, user, kind, text))}


def submit(course: str, user: str, at: float, name: str, kind: str, text: str) -> Answer:
    """Tries a text in an exercise and keeps it. When it came counts, and not how long it took to try it."""
    exercise, text = checked(course, name, kind, text)
    check_open(course, name, at)
    with Book(course) as book:
        # nobody waits for tests whose program can't be kept
        book.check_room(user)
        row = tried(exercise, user, kind, text)
        digest = hashlib.sha256(text.encode()).hexdigest()
        points, remark = (row.points, exercise.points()), row.remark[:MOST_REMARK]
        kept = book.submit(Submission(user, name, at, kind, text, digest, *points, remark))
    return {"exercise": name, **told_of(exercise, row), "number": kept.number, "at": at, "hash": digest}


def shown(it: Submission) -> Answer:
    """A program that was handed in, without its text."""
    names = ("number", "exercise", "at", "kind", "hash", "points", "remark")
    return {**{name: getattr(it, name) for name in names}, "of": it.most}


def submitted(course: str, user: str, _: float, number: str = "") -> Answer:
    """What a student has handed in, the oldest first; or one of that, with its text."""
    with Book(course) as book:
        own = book.submissions(user)
    if not number:
        return {"submissions": [shown(it) for it in own]}
    one = next((it for it in own if f"{it.number}" == number), None)
    if one is None:
        raise Refused(f"you have handed in nothing with the number {number}: submitted lists all")
    return {"submissions": [shown(one)], "text": one.text}


def exercises(course: str, user: str, at: float, name: str = "") -> Answer:
    """The exercises, or one of them, each with what the student has handed in last."""
    there = exercises_of(course)
    if name:
        exercise_of(course, name)
        there = {name: there[name]}
    with Book(course) as book:
        last = {it.exercise: shown(it) for it in book.submissions(user)}
    every = [{**it, "submitted": last.get(it["name"])} for key in there if (it := told(course, key, there[key], at))]
    return {"exercises": every, "one": bool(name)}


ANSWERS: dict[str, Callable[..., Answer]] = {
    "exercises": exercises,
    "check": check,
    "submit": submit,
    "submitted": submitted,
}


def answer(course: str, user: str, verb: str, at: float, words: list[str]) -> Answer:
    """What a question is answered: an object that has REFUSED, with why, if nothing was done."""
    try:
        if own_class(course).farm_of(user) is None:
            raise Refused(f"{user} is no student of this class any more")
        if words[:1] and verb != "submitted" and not NAME.fullmatch(words[0]):
            raise Refused("the name of an exercise has small letters, digits and hyphens: exercises lists all")
        return ANSWERS[verb](course, user, at, *words)
    except Refused as refused:
        return {REFUSED: f"{refused}"}
    except sqlite3.Error as error:
        return {REFUSED: f"the file of what is handed in can't be used ({error}), so nothing was kept"}
    except OSError as error:
        return {REFUSED: f"the machine of the class can't do it ({error.strerror or error}), so nothing was kept"}
    except MemoryError:
        return {REFUSED: "the program sends or records too much to be tried here, so nothing was kept"}


def main() -> None:
    """Answers the question of standard input."""
    for what, most in ((resource.RLIMIT_AS, MOST_MEMORY), (resource.RLIMIT_CPU, MOST_SECONDS)):
        resource.setrlimit(what, (most, most))
    os.umask(0o077)
    # a student's text is compiled within bounds
    os.environ[BOUNDED] = "yes"
    asked = json.load(sys.stdin)
    json.dump(answer(asked["course"], asked["user"], asked["verb"], asked["at"], asked["words"]), sys.stdout)
