"""The end of a class: the archive, what breaks it off, and that no farm is left off by it."""

import os
import signal
import subprocess
import tarfile
import time
from collections.abc import Iterator

import pytest
from support.serving_trials import hears_ctrl_c
from support.courses import Course
from support.live_lines import SECONDS
from support.trials import TOP, contents, put, run

# More than is squeezed in a piece, and so much that it takes some seconds: no two of its pieces are the same.
LONG = 16 << 20


@pytest.fixture(name="it")
def class_that_is_up() -> Iterator[Course]:
    with Course(1) as it:
        it.must("start")
        yield it


def begun(it: Course, *words: str) -> subprocess.Popen[bytes]:
    """A `class finish` that squeezes for some seconds, and has begun with that."""
    put(f"{it.folder}/sheets/long.bin", os.urandom(LONG))
    call = [f"{TOP}/class", "finish", *words, it.folder]
    process = subprocess.Popen(
        call, env=it.env, stdout=subprocess.PIPE, stderr=subprocess.STDOUT, preexec_fn=hears_ctrl_c
    )
    end = time.monotonic() + SECONDS
    while not os.path.exists(f"{it.folder}.tar.xz.new") and time.monotonic() < end:
        time.sleep(0.02)
    return process


def is_up(it: Course) -> bool:
    return run([f"{TOP}/connect", it.folder, "student-1"], text=b"look 0\n", more=it.env).status == 0


def left(it: Course) -> list[str]:
    """What is there besides the class."""
    return sorted(name for name in os.listdir(it.room.name) if name not in ("course", "names.txt"))


@pytest.mark.parametrize("how", [signal.SIGINT, signal.SIGTERM, signal.SIGHUP])
@pytest.mark.parametrize("words", [(), ("--remove",)])
def test_a_finish_that_is_broken_off_leaves_no_farm_off(
    it: Course, how: signal.Signals, words: tuple[str, ...]
) -> None:
    """By a signal, also when nobody reads any more what it says, the farm is up again, and all is there as before."""
    process = begun(it, *words)
    files = sorted(os.listdir(it.folder))
    assert process.stdout
    process.stdout.close()
    process.send_signal(how)
    assert process.wait(SECONDS) == 130
    assert (is_up(it), left(it)) == (True, [])
    assert {*files} - {*os.listdir(it.folder)} <= {"class.draft"}


@pytest.mark.parametrize("make", [lambda path: os.symlink("/etc/hostname", path), os.mkfifo])
def test_what_is_no_file_is_refused(it: Course, make: object) -> None:
    """A link or a FIFO among the sheets is refused before a farm is stopped."""
    assert callable(make)
    serving = it.lock(1)
    make(f"{it.folder}/sheets/odd.txt")
    done = it.call("finish", "--remove", it.folder)
    said = f"class: {it.folder}/sheets/odd.txt is no file of its own: move it away, or put a copy of the file in its place\n"
    assert (done.returncode, done.stderr, it.lock(1), left(it)) == (1, said, serving, [])


def test_a_farm_is_off_for_a_moment(it: Course) -> None:
    """While the archive is written the farm is up, and what it does then isn't in the archive. That has all pieces of a long file."""
    process = begun(it)
    end = time.monotonic() + SECONDS
    while not is_up(it) and time.monotonic() < end:
        time.sleep(0.1)
    assert process.poll() is None
    assert process.wait(3 * SECONDS) == 0
    record = "course/farm-1/records/student-1.replay"
    with tarfile.open(f"{it.folder}.tar.xz") as archive:
        long, taken = archive.extractfile("course/sheets/long.bin"), archive.extractfile(record)
        assert long and taken
        assert long.read() == contents(f"{it.folder}/sheets/long.bin")
        assert b"look" not in taken.read()
    assert b"look" in contents(f"{it.room.name}/{record}")
    listed = run(["tar", "-tJf", f"{it.folder}.tar.xz"])
    assert (listed.status, record.encode() in listed.output) == (0, True)


def test_a_class_without_room_for_its_archive_goes_on(it: Course) -> None:
    """If the archive can't be written the farm is up again, and nothing is removed."""
    put(f"{it.folder}/sheets/long.bin", os.urandom(1 << 20))
    call = ["sh", "-c", f'ulimit -f 64; exec "{TOP}/class" finish --remove "{it.folder}"']
    done = run(call, more=it.env)
    assert (done.status, b"all is as it was" in done.errors, is_up(it), left(it)) == (1, True, True, [])
