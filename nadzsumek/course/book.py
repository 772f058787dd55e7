"""What a class keeps of its students in one file of SQLite: by which secrets they come to their pages, each version of their texts,
and each program that was handed in. docs/guides/SUBMISSIONS.md has its tables."""

from __future__ import annotations

import contextlib
import hashlib
import os
import secrets
import sqlite3
import time
from collections.abc import Iterator
from typing import NamedTuple

from ..serving.folder import OWN_FILE, Refused, check_own_file, sync
from ..serving.kept import Kept, class_in
from ..serving.orders import MOST_TEXT as MOST_TEXT

# The file in the folder of the class, which its account alone can read.
BOOK = "pages.sqlite"
# The name by which the teacher is kept; no user is called so.
TEACHER = ""
# A secret has 128 bits.
SECRET_BYTES = 16
# Of each student so many versions are kept, the newest, and so often one may hand in.
MOST_VERSIONS, MOST_SUBMISSIONS = 500, 1000
# How many seconds one who writes waits for another.
WAIT_SECONDS = 10
# Which tables there are, as the file says it of itself.
VERSION = 1
TABLES = """
CREATE TABLE IF NOT EXISTS holder (name TEXT PRIMARY KEY, secret BLOB NOT NULL UNIQUE) STRICT;
CREATE TABLE IF NOT EXISTS version (
    number INTEGER PRIMARY KEY, name TEXT NOT NULL, at REAL NOT NULL, kind TEXT NOT NULL, text TEXT NOT NULL
) STRICT;
CREATE TABLE IF NOT EXISTS submission (
    number INTEGER PRIMARY KEY, name TEXT NOT NULL, exercise TEXT NOT NULL, at REAL NOT NULL, kind TEXT NOT NULL,
    text TEXT NOT NULL, hash TEXT NOT NULL, points INTEGER NOT NULL, most INTEGER NOT NULL, remark TEXT NOT NULL
) STRICT;
CREATE INDEX IF NOT EXISTS newest ON version (name, number);
"""
# The tables in which a student's name stands.
NAMED = ("holder", "version", "submission")


class Version(NamedTuple):
    """A text as a student had it: when, in which language (`occ` or `s`), and what it says."""

    at: float
    kind: str
    text: str


class Submission(NamedTuple):
    """A program that was handed in: of whom, for which exercise, when, in which language, its text and the SHA-256 of that, the points
    that it has of those that there are, what is said of it, and its number, by which it was kept."""

    name: str
    exercise: str
    at: float
    kind: str
    text: str
    hash: str
    points: int
    most: int
    remark: str
    number: int = 0


def hashed(secret: str) -> bytes:
    """What is kept of a secret."""
    return hashlib.sha256(secret.encode(errors="replace")).digest()


class Book:
    """The file. What a call has written is on the disk when it returns."""

    def __init__(self, course: str) -> None:
        self.course, path = course, os.path.join(course, BOOK)
        if not os.path.lexists(path):
            # another may make it at the same time
            with contextlib.suppress(FileExistsError):
                os.close(os.open(path, os.O_CREAT | os.O_EXCL | os.O_WRONLY, OWN_FILE))
            sync(course)
        check_own_file(path)
        self.base = sqlite3.connect(path, isolation_level=None, timeout=WAIT_SECONDS)
        # the folder is on the disk too when a transaction has ended
        self.base.execute("PRAGMA synchronous = EXTRA")
        if self.base.execute("PRAGMA user_version").fetchone()[0] < VERSION:
            self.base.executescript(f"BEGIN IMMEDIATE; {TABLES} PRAGMA user_version = {VERSION}; COMMIT;")

    def __enter__(self) -> Book:
        return self

    def __exit__(self, *_: object) -> None:
        self.close()

    def close(self) -> None:
        self.base.close()

    @contextlib.contextmanager
    def alone(self) -> Iterator[None]:
        """A transaction beside which nobody else writes."""
        self.base.execute("BEGIN IMMEDIATE")
        with self.base:
            yield

    def secrets(self) -> dict[bytes, str]:
        """What is kept of each secret, with whose it is."""
        return {bytes(secret): str(name) for name, secret in self.base.execute("SELECT name, secret FROM holder")}

    def holders(self) -> set[str]:
        """Those who have a secret."""
        return {str(name) for (name,) in self.base.execute("SELECT name FROM holder")}

    def new_secret(self, name: str) -> str:
        """Makes a secret for this name. The one that there was is worth nothing from then on."""
        secret = secrets.token_urlsafe(SECRET_BYTES)
        self.base.execute("INSERT OR REPLACE INTO holder VALUES (?, ?)", [name, hashed(secret)])
        return secret

    def keep(self, name: str, kind: str, text: str) -> None:
        """Keeps a version, if it isn't the one that was kept last."""
        newest = self.newest(name)
        if newest and (newest.kind, newest.text) == (kind, text):
            return
        with self.alone():
            self.base.execute(
                "INSERT INTO version (name, at, kind, text) VALUES (?, ?, ?, ?)", [name, time.time(), kind, text]
            )
            self.base.execute(
                "DELETE FROM version WHERE name = ? AND number NOT IN"
                " (SELECT number FROM version WHERE name = ? ORDER BY number DESC LIMIT ?)",
                [name, name, MOST_VERSIONS],
            )

    def newest(self, name: str) -> Version | None:
        """The newest version of a student's text; none if there is none."""
        row = self.base.execute(
            "SELECT at, kind, text FROM version WHERE name = ? ORDER BY number DESC LIMIT 1", [name]
        ).fetchone()
        return None if row is None else Version(*row)

    def versions(self, name: str) -> list[tuple[int, float]]:
        """The numbers of a student's versions, the newest first, and when each was kept."""
        rows = self.base.execute("SELECT number, at FROM version WHERE name = ? ORDER BY number DESC", [name])
        return [(int(number), float(at)) for number, at in rows]

    def version(self, name: str, number: int) -> Version | None:
        """The version of a student's text that has this number; none if it isn't that student's."""
        row = self.base.execute(
            "SELECT at, kind, text FROM version WHERE name = ? AND number = ?", [name, number]
        ).fetchone()
        return None if row is None else Version(*row)

    def submit(self, it: Submission) -> Submission:
        """Keeps what was handed in, as long as its student is in the class, and gives it with its number. All of it stays, also what
        was handed in before."""
        with self.alone():
            # an order that gives a student another name changes this file after the class, so it is one or the other here
            if class_in(self.course).farm_of(it.name) is None:
                raise Refused(f"{it.name} is no student of this class any more")
            self.check_room(it.name)
            done = self.base.execute(
                "INSERT INTO submission (name, exercise, at, kind, text, hash, points, most, remark) VALUES"
                " (?, ?, ?, ?, ?, ?, ?, ?, ?)",
                it[:-1],
            )
        return it._replace(number=done.lastrowid or 0)

    def check_room(self, name: str) -> None:
        """Refuses a student who has handed in as often as one may."""
        query = "SELECT count(*) FROM submission WHERE name = ?"
        if self.base.execute(query, [name]).fetchone()[0] >= MOST_SUBMISSIONS:
            raise Refused(f"you have handed in {MOST_SUBMISSIONS} times, and that is the most")

    def submissions(self, name: str | None = None) -> list[Submission]:
        """What was handed in, by all or by one, the oldest first."""
        rows = self.base.execute(
            "SELECT name, exercise, at, kind, text, hash, points, most, remark, number FROM submission"
            " WHERE name = ? OR ? IS NULL ORDER BY number",
            [name, name],
        )
        return [Submission(*row) for row in rows]

    def follow(self, kept: Kept) -> None:
        """Gives what is kept of a student who has another name by now that name. A name that is somebody's is left alone, and of two
        who had the same name it goes to the one who was renamed last."""
        there = {name for names in kept.farms.values() for name in names} | {*kept.removed}
        names = dict[str, str]()
        for part in (slice(-1, None), slice(None, -1)):
            for name, olds in reversed(kept.earlier.items()):
                for old in olds[part]:
                    names.setdefault(old, name)
        pairs = [(name, old) for old, name in names.items() if old not in there]
        if pairs:
            with self.alone():
                for table in NAMED:
                    self.base.executemany(f"UPDATE OR REPLACE {table} SET name = ? WHERE name = ?", pairs)


def copy_of(course: str, path: str) -> tuple[int, int]:
    """Copies the file as it is at a moment; the time and the size that it had before."""
    it = os.lstat(os.path.join(course, BOOK))
    try:
        with Book(course) as book, contextlib.closing(sqlite3.connect(path)) as copy:
            book.base.backup(copy)
    except sqlite3.Error as error:
        raise Refused(f"{os.path.join(course, BOOK)} can't be copied: {error}") from None
    return it.st_mtime_ns, it.st_size


def follow_names(course: str) -> None:
    """Does so in a class that has such a file. It writes nothing if all names are as they should be."""
    if os.path.lexists(os.path.join(course, BOOK)):
        try:
            with Book(course) as it:
                it.follow(class_in(course))
        except sqlite3.Error as error:
            raise Refused(f"{os.path.join(course, BOOK)} can't be used: {error}") from None
