"""A class whose farms are up, with exercises, and what its students ask about them."""

from __future__ import annotations

import contextlib
import json
import os
import shutil
import sqlite3
import subprocess
from typing import Any

from support.courses import Course
from support.trials import TOP, put

EXERCISES = f"{TOP}/examples/exercises"
# Programs that send back each word of link 0, which this many is added to.
ADDING = """CHAN OF INT from, to:
PLACE from AT link0.in:
PLACE to AT link0.out:
INT n:
WHILE TRUE
  SEQ
    from ? n
    to ! n + {more}
"""
ADDS, ECHOES = ADDING.format(more=1), ADDING.format(more=0)


class Lesson(Course):
    """A class with exercises, each a file or a folder of the examples."""

    def __init__(self, count: int, *exercises: str) -> None:
        super().__init__(count)
        self.exercises = f"{self.folder}/exercises"
        os.mkdir(self.exercises)
        for it in exercises or ("successor.txt",):
            self.give(f"{EXERCISES}/{it}")
        self.must("start")

    def give(self, place: str) -> None:
        there = f"{self.exercises}/{os.path.basename(place)}"
        if os.path.isdir(place):
            shutil.copytree(place, there)
        else:
            shutil.copy(place, there)

    def write(self, name: str, text: str | bytes) -> str:
        """A student's file; its path."""
        return put(f"{self.room.name}/{name}", text)

    def connect(self, name: str, *words: str, text: str | None = None) -> subprocess.CompletedProcess[str]:
        """A terminal of a student, opened where the files are."""
        call = [f"{TOP}/connect", self.folder, name, *words]
        return subprocess.run(
            call, cwd=self.room.name, input=text, capture_output=True, encoding="utf-8", timeout=120, check=False
        )

    def ask(self, name: str, line: str) -> Any:
        """What one line is answered: its value, or the word by which it is refused with what that means."""
        done = self.connect(name, "--json", "-c", line)
        told = json.loads(done.stdout.splitlines()[-1])
        return (told["refused"], told["meaning"]) if told["refused"] else told["result"]

    def kept(self, query: str = "SELECT name, exercise, points, text FROM submission ORDER BY number") -> list[Any]:
        """What a query of the teacher's finds in the file of the class."""
        return found_in(self.folder, query)


def found_in(course: str, query: str) -> list[Any]:
    """The same in the file of any class; nothing as long as there is none."""
    if not os.path.exists(f"{course}/pages.sqlite"):
        return []
    with contextlib.closing(sqlite3.connect(f"{course}/pages.sqlite")) as base:
        return base.execute(query).fetchall()
