"""A class in a folder of its own, whose farms are started and stopped."""

import contextlib
import os
import subprocess
import sys
import tempfile
from collections.abc import Iterator
from typing import TypeVar

from support.serving_trials import SECONDS
from support.trials import TOP, put, text_of

# A `class` with other bounds in seconds: of a farm's silence, of a stop, of what can't be asked, and between two lines.
HURRIED = """import sys
sys.path.insert(0, {top!r})
from nadzsumek.serving import classes, upkeep
upkeep.QUIET_SECONDS, upkeep.STOP_SECONDS, upkeep.LAST_SECONDS, upkeep.SAY_SECONDS = {bounds}
sys.exit(classes.main(sys.argv[1:]))
"""


# Locks a file until its input ends.
LOCKING = """
import fcntl, os, sys
file = os.open(sys.argv[1], os.O_RDWR | os.O_CREAT, 0o600)
fcntl.flock(file, fcntl.LOCK_EX)
fcntl.lockf(file, fcntl.LOCK_EX)
print(flush=True)
sys.stdin.read()
"""


It = TypeVar("It", bound="Course")


class Course:
    """A class in a folder of its own, whose farms have `count` students each but for the last."""

    def __init__(self, count: int, *more: str) -> None:
        self.room = tempfile.TemporaryDirectory()
        self.folder, self.env = self.made_at(self.room.name), {**os.environ}
        names = f"{self.room.name}/names.txt"
        put(names, "".join(f"Student {number}\n" for number in range(1, count + 1)))
        assert self.call("--students", names, "--nodes", "1", *more, self.folder).returncode == 0

    def made_at(self, room: str) -> str:
        """Where the class is to be made."""
        return f"{room}/course"

    def __enter__(self: It) -> It:
        return self

    def __exit__(self, *_: object) -> None:
        self.call("stop", self.folder)
        self.room.cleanup()

    def call(self, *words: str) -> subprocess.CompletedProcess[str]:
        return subprocess.run(
            [f"{TOP}/class", *words], env=self.env, capture_output=True, encoding="utf-8", timeout=90, check=False
        )

    def begin(self, *words: str, bounds: tuple[float, ...] | None = None) -> subprocess.Popen[str]:
        """A `class` that runs beside this, with other bounds if they are given."""
        call = [f"{TOP}/class"] if bounds is None else ["python3", "-B", "-c", HURRIED.format(top=TOP, bounds=bounds)]
        return subprocess.Popen(
            [*call, *words, self.folder],
            env=self.env,
            stdout=subprocess.PIPE,
            stderr=subprocess.STDOUT,
            encoding="utf-8",
        )

    def must(self, order: str) -> str:
        """What an order says that must go well."""
        done = self.call(order, self.folder)
        assert (done.returncode, done.stderr) == (0, "")
        return done.stdout

    def must_change(self, order: str, *words: str) -> None:
        """Gives an order of one who comes or goes, which must go well."""
        done = self.call(order, self.folder, *words)
        assert (done.returncode, done.stderr) == (0, "")

    def lock(self, number: int) -> int:
        """The number of the serve of a farm."""
        return int(text_of(f"{self.folder}/farm-{number}/lock"))

    @contextlib.contextmanager
    def locked(self, path: str) -> Iterator[None]:
        """A file of the class that another program has locked until the end of a block, in both ways that there are."""
        call = [sys.executable, "-c", LOCKING, f"{self.folder}/{path}"]
        with subprocess.Popen(call, stdin=subprocess.PIPE, stdout=subprocess.PIPE) as other:
            assert other.stdin and other.stdout
            other.stdout.readline()
            try:
                yield
            finally:
                other.stdin.close()


def ended(process: subprocess.Popen[str], seconds: float = SECONDS) -> tuple[str, int]:
    """What a process says until it ends, and its status."""
    told = process.communicate(timeout=seconds)[0]
    return told, process.returncode


def child_of(number: int) -> int:
    """The number of the `live` of a serve."""
    return int(text_of(f"/proc/{number}/task/{number}/children").split()[-1])
