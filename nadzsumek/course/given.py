"""The exercises that are given in a class, and until when programs for them are taken.

An exercise is a text `NAME.txt`, or a folder `NAME` with `exercise.txt`, in the folder `exercises` of the class. A file `NAME.closed`
beside it closes it: at the time that it has, or if it is empty already."""

from __future__ import annotations

import os
import re
import time
from typing import Any

from ..mistakes.nearness import nearest
from ..serving.exercises import FILE, Exercise, exercise_in
from ..serving.folder import Refused, put_whole

FOLDER, CLOSED = "exercises", ".closed"
NAME = re.compile(r"[a-z0-9][a-z0-9-]{0,63}")
# How a time is written, as it is on the machine's clock.
FORM, FORM_SHOWN = "%Y-%m-%d %H:%M", "2026-12-24 18:00"
Answer = dict[str, Any]


def exercises_of(course: str) -> dict[str, str]:
    """The exercises of a class by their names, each with its place."""
    return exercises_in(os.path.join(course, FOLDER))


def exercises_in(folder: str) -> dict[str, str]:
    """The exercises in a folder by their names, each with its place."""
    found = {}
    for entry in sorted(os.listdir(folder) if os.path.isdir(folder) else ()):
        path = os.path.join(folder, entry)
        name = entry if os.path.isfile(os.path.join(path, FILE)) else entry.removesuffix(".txt")
        if NAME.fullmatch(name) and (name == entry) == os.path.isdir(path):
            found[name] = path
    return found


def place_of(course: str, name: str) -> str:
    """The place of the exercise of this name."""
    there = exercises_of(course)
    if name not in there:
        near = nearest(name.lower(), there)
        more = f"is it {near}?" if near else f"there are {', '.join(there)}" if there else "the class has none yet"
        raise Refused(f"there is no such exercise as {name}: {more}")
    return there[name]


def exercise_of(course: str, name: str) -> Exercise:
    """The exercise of this name."""
    return exercise_in(place_of(course, name))


def moment_of(text: str) -> float:
    """The time that a text has."""
    try:
        return time.mktime(time.strptime(text.strip(), FORM))
    except (ValueError, OverflowError):
        raise Refused(f"{text.strip()!r} is no time: write it as {FORM_SHOWN}") from None


def shown_time(at: float) -> str:
    return time.strftime(FORM, time.localtime(at))


def closed_path(course: str, name: str) -> str:
    return os.path.join(course, FOLDER, name + CLOSED)


def closes_at(course: str, name: str) -> float | None:
    """When an exercise closes; none if it stays open. One that is closed by an empty file closed when that was written."""
    try:
        with open(closed_path(course, name), encoding="utf-8") as it:
            text = it.read(100)
            return moment_of(text) if text.strip() else os.fstat(it.fileno()).st_mtime
    except FileNotFoundError:
        return None
    except UnicodeDecodeError:
        raise Refused(f"{name + CLOSED} isn't UTF-8: write a time into it, as {FORM_SHOWN}") from None


def check_open(course: str, name: str, at: float) -> None:
    """Refuses what comes at a time when the exercise is closed."""
    closes = closes_at(course, name)
    if closes is not None and at >= closes:
        raise Refused(
            f"{name} closed at {shown_time(closes)}, and this came at {shown_time(at)}: nothing more is handed in"
        )


def close(course: str, name: str, when: str) -> str:
    """Lets an exercise close at a time, now or never; what is said of it."""
    place_of(course, name)
    path = closed_path(course, name)
    if when == "never":
        if os.path.lexists(path):
            os.unlink(path)
        return f"{name} stays open"
    at = time.time() if when == "now" else moment_of(when)
    put_whole(path, b"" if when == "now" else f"{shown_time(at)}\n".encode(), None)
    return f"{name} {'is closed' if when == 'now' else f'closes at {shown_time(at)}'}"


def task_of(place: str) -> str:
    """What an exercise asks: the remarks at its head."""
    with open(os.path.join(place, FILE) if os.path.isdir(place) else place, encoding="utf-8-sig") as it:
        lines = it.read().split("\n")
    first = next((at for at, line in enumerate(lines) if not line.startswith("#")), len(lines))
    return " ".join(line.removeprefix("#").strip() for line in lines[:first])


def told(course: str, name: str, place: str, at: float) -> Answer | None:
    """What students see of an exercise at this time. Of one that can't be read nothing: `class check` says what is wrong with it."""
    try:
        exercise, closes = exercise_in(place), closes_at(course, name)
    except Refused:
        return None
    return {
        "name": name,
        "title": exercise.title,
        "task": task_of(place),
        "tests": [it.name for it in exercise.tests],
        "closes": closes,
        "closed": closes is not None and at >= closes,
    }
