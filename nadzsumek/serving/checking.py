"""What the students' programs do in an exercise: each test is a script that `lab run` does on one thread, in a farm of its own."""

from __future__ import annotations

import argparse
import os
import re
import shutil
import signal
import subprocess
import tempfile
from collections.abc import Iterator
from concurrent.futures import ThreadPoolExecutor
from typing import TYPE_CHECKING, Any, NamedTuple

from nadzsumek.occam.asking import BOUNDED

from .sheets import person_of
from ..mistakes.places import said_in, sentence
from .escapes import escaped
from .exercises import LANGUAGES, MOST_STEPS, OWN, OWN_FOLDER, exercise_in, is_own
from .folder import Refused, build, program, put_whole
from .kept import own_class
from .marks import as_csv, as_page, as_table
from .placing import placed
from .plans import VERSION, user_name
from .programs import ASSEMBLY, OCCAM
from .values import as_letters, as_numbers

if TYPE_CHECKING:
    from .exercises import Exercise, Test

# The user whose machine it is, and the file in which a test is.
USER, SCRIPT = "student", "test.farm"
# How many seconds of a processor a test may take, whatever it does, and how many by the clock on a machine that has no time; and how
# large a program may be.
SECONDS, MOST_SECONDS, MOST_BYTES = 60, 600, 1 << 20
# By this a shell becomes a program that may take so many seconds of a processor.
WITHIN = ["sh", "-c", 'ulimit -t "$0"; exec "$@"']
# How a program ends that took more.
ENDED = (-signal.SIGXCPU, -signal.SIGKILL)
# The status of `lab` that had to do more Steps than it may.
TOO_MANY = 7
LINE_END = "\n"
OK, WRONG, LONG, NONE = "ok", "wrong", "too long", "-"
# How a record has what a user's byte or a user's look was answered.
ANSWERED = re.compile(r"^(?:(\d+) times )?0 (read|look) (\d+) @0 = (.*)$", re.MULTILINE)
# How many lines of `lab why` are kept.
MOST_WHY = 12
# How many bytes a value of a form has, and how many values are told whole; of more only those round the first that differs.
VALUE_BYTES, MOST_VALUES, VALUES_ROUND = {"word": 4, "byte": 1, "text": 1}, 40, 8


class Outcome(NamedTuple):
    """What came of a test: OK, WRONG, LONG, or NONE if it wasn't done; how many Steps it took, what was wrong, why that was, and the
    lines of the exercise that were sent last before it."""

    result: str
    steps: int | None = None
    remark: str = ""
    why: str = ""
    sent: tuple[str, ...] = ()


class Row(NamedTuple):
    """A student, the program, what came of each test, and the points."""

    user: str
    person: str
    program: str
    outcomes: tuple[Outcome, ...]
    points: int
    remark: str


def lab(folder: str, *words: str, text: bytes | None = None) -> tuple[int | None, str, str]:
    """The status of the lab, what it prints and what it says; no status if it took too long."""
    try:
        # a student's text of occam is compiled within bounds
        done = subprocess.run(
            [*WITHIN, f"{SECONDS}", program("lab"), *words],
            cwd=folder,
            stdin=subprocess.DEVNULL if text is None else None,
            input=text,
            env={**os.environ, BOUNDED: "yes"},
            capture_output=True,
            timeout=MOST_SECONDS,
            check=False,
        )
    except subprocess.TimeoutExpired:
        return None, "", f"it took more than {MOST_SECONDS} seconds"
    if done.returncode in ENDED:
        return None, "", f"it took more than {SECONDS} seconds of a processor"
    return done.returncode, done.stdout.decode(errors="replace"), done.stderr.decode(errors="replace").strip()


def programs_in(folder: str, users: list[str]) -> tuple[dict[str, list[str]], list[str]]:
    """The files or folders of each student in a folder, and those that are nobody's."""
    found: dict[str, list[str]] = {}
    others: list[str] = []
    try:
        entries = sorted(os.listdir(folder))
    except OSError as error:
        raise Refused(f"the folder of programs {folder} can't be read: {error.strerror}") from None
    for entry in entries:
        path = os.path.join(folder, entry)
        stem, ending = (entry, "") if os.path.isdir(path) else os.path.splitext(entry)
        user = user_name(stem)[0]
        if user in users and (os.path.isdir(path) or ending in LANGUAGES):
            found.setdefault(user, []).append(path)
        elif not entry.startswith("."):
            others.append(entry)
    return found, others


def copied(source: str, target: str) -> None:
    """Copies a program, which must be a file of a usual size."""
    if not os.path.isfile(source) or os.path.islink(source):
        raise Refused(f"there is no file {os.path.basename(source)}, or it is a link: put the file itself there")
    if os.path.getsize(source) > MOST_BYTES:
        raise Refused(f"{os.path.basename(source)} has more than {MOST_BYTES} bytes")
    os.makedirs(os.path.dirname(target), exist_ok=True)
    shutil.copyfile(source, target)


def in_folder(folder: str, name: str) -> str:
    """The file of a program in a student's folder. If its name has no ending, it is in the language that the student chose."""
    if os.path.splitext(name)[1]:
        return os.path.join(folder, name)
    there = [it for it in (name + ending for ending in LANGUAGES) if os.path.exists(os.path.join(folder, it))]
    if len(there) > 1:
        raise Refused(f"there are {' and '.join(there)}, and one of them is wanted")
    if not there:
        raise Refused(f"there is no file {' or '.join(name + ending for ending in LANGUAGES)}")
    return os.path.join(folder, there[0])


def gathered(exercise: Exercise, paths: list[str], room: str) -> dict[str, str]:
    """Copies the programs of an exercise and of a student into a folder; the names of those of the student, and of their files."""
    own = {}
    file = next((it for it in paths if not os.path.isdir(it)), None)
    folder = next((it for it in paths if os.path.isdir(it)), None)
    if len(paths) > (file is not None) + (folder is not None):
        raise Refused(f"there are {' and '.join(os.path.basename(it) for it in paths)}, and one of them is wanted")
    for name in exercise.files():
        if not is_own(name):
            copied(os.path.join(exercise.folder, name), os.path.join(room, name))
            continue
        source = (
            file
            if file and not name.startswith(OWN_FOLDER)
            else in_folder(folder or room, name.removeprefix(OWN_FOLDER))
        )
        stem, wanted = os.path.splitext(name)
        ending = os.path.splitext(source)[1]
        if wanted not in ("", ending):
            raise Refused(
                f"{os.path.basename(source)} is a program in {LANGUAGES[ending]}, and {LANGUAGES[wanted]} is wanted"
            )
        copied(source, os.path.join(room, stem + ending))
        own[name] = stem + ending
    return own


def compiled(exercise: Exercise, own: dict[str, str], room: str) -> dict[str, str]:
    """The files that are loaded for the programs of an exercise and of a student: of occam what the compiler makes of it, once for all
    tests. Programs that can't be compiled or assembled are refused."""
    files = {}
    for name in exercise.files():
        file = files[name] = own.get(name, name)
        if file.endswith(OCCAM):
            status, text, told = lab(room, "occam", file, "--memory", f"{exercise.machine.memory}")
            files[name] = f"{file}{ASSEMBLY}"
            written(os.path.join(room, files[name]), text)
        else:
            with open(os.path.join(room, file), "rb") as it:
                status, _, told = lab(room, "assemble", "--listing", text=it.read())
        if status != 0:
            where = f"{file.removeprefix(OWN_FOLDER)}: " if file not in (OWN + OCCAM, OWN + ASSEMBLY) else ""
            said = [sentence(it) for it in said_in(file, told)] if file.endswith(OCCAM) else told.splitlines()
            raise Refused(f"{where}{said[0] if said else 'it can not be assembled'}")
    return files


def line_of(sent: str, files: dict[str, str]) -> str:
    """A line as it is done: a program is loaded from its file."""
    if not sent.startswith("load "):
        return sent
    load, host, name = sent.split(" ", 2)
    return f"{load} {host} {files[name]}"


def script_of(exercise: Exercise, test: Test, files: dict[str, str]) -> str:
    """The plan and the lines of a test."""
    machine = exercise.machine
    plan = VERSION + machine.domain(USER, [[0, machine.ports() - 1]])
    return plan + "---\n" + "".join(f"{USER} {line_of(line.sent, files)}\n" for line in test.lines)


def shown(content: bytes) -> str:
    """Bytes as they are shown: digits, and the text if it can be printed."""
    if not content:
        return "nothing"
    text = content.decode("ascii", errors="replace")
    more = f' "{escaped(text)}"' if all(it.isprintable() and it != "\ufffd" or it in "\n\r\t" for it in text) else ""
    return f"{content.hex()}{more}"


def said(content: bytes, form: str) -> str:
    """Bytes as the exercise writes them, if they can be written so."""
    if form == "byte" and content:
        return " ".join(f"{it}" for it in content)
    written_so = {"word": as_numbers, "text": as_letters}.get(form)
    return (content and written_so and written_so(content)) or shown(content)


def first_difference(wanted: bytes, came: bytes, size: int) -> int:
    """Where the first value of so many bytes begins that differs, or is only in one of the two."""
    least = min(len(wanted), len(came)) // size * size
    return next((at for at in range(0, least, size) if wanted[at : at + size] != came[at : at + size]), least)


def said_round(content: bytes, form: str, at: int) -> str:
    """The same, of many values only those round this place."""
    size = VALUE_BYTES.get(form, 1)
    if len(content) <= MOST_VALUES * size:
        return said(content, form)
    begun, end = max(0, at - VALUES_ROUND * size), at + VALUES_ROUND * size
    piece = said(content[begun:end], form)
    return f"{'.. ' if begun else ''}{piece}{' ..' if end < len(content) else ''}"


def differing(wanted: bytes, came: bytes, form: str) -> str:
    """What is expected and what came, and if some values are right, which is the first that isn't."""
    size = VALUE_BYTES.get(form, 1)
    at = first_difference(wanted, came, size)
    told = f"{said_round(wanted, form, at)} is expected, and {said_round(came, form, at)} came"
    if not at or form not in VALUE_BYTES:
        return told
    which, here, there = f"{'letter' if form == 'text' else 'value'} {at // size + 1}", wanted[at:], came[at:]
    if not there or not here:
        return f"{told}: {which} is {'too much' if there else 'missing'}"
    return f"{told}: {which} is {said(there[:size], form)} instead of {said(here[:size], form)}"


def bytes_in(words: list[str]) -> bytes:
    """The bytes that an answer to `collect` has."""
    return b"" if words[3] == "-" or not re.fullmatch(r"([0-9a-f]{2})+", words[3]) else bytes.fromhex(words[3])


def answers_in(record: str) -> Iterator[str]:
    """The answers to `collect` and `look` that a record has. A `collect` reads until no byte is there."""
    held = ""
    for times, verb, number, told in ANSWERED.findall(record):
        if verb == "look":
            yield f"{USER} look {number} {told}"
        elif told == "none":
            yield f"{USER} collect {number} {held or '-'}"
            held = ""
        else:
            held += told * int(times or 1)


def wrong_in(test: Test, record: str) -> tuple[str, tuple[str, ...]] | None:
    """What is the first that a test expects otherwise, and what was sent since all was as expected; none if all came."""
    told = answers_in(record)
    sent: list[str] = []
    for line in test.lines:
        if not line.kind:
            sent += [line.text] if line.text.startswith("send") else []
            continue
        words = next(told, f"{USER} collect 0 -").split(" ")
        if isinstance(line.wanted, bytes):
            came = bytes_in(words)
            if came != line.wanted:
                return f"line {line.number}: {differing(line.wanted, came, line.form)}", (*sent,)
        else:
            state = " ".join(words[3 : words.index("overruns")]) if "overruns" in words else "gone"
            if state != line.wanted and not (line.wanted == "halted" and state.startswith("halted ")):
                return f"line {line.number}: node {words[2]} is expected to be {line.wanted}, and is {state}", (*sent,)
        sent.clear()
    return None


def steps_in(record: str) -> int:
    """How many Steps a record has."""
    return sum(int(times or 1) for times in re.findall(r"^(?:(\d+) times )?0 step \d+ @farm\b", record, re.MULTILINE))


def tried(exercise: Exercise, test: Test, room: str, own: dict[str, str], files: dict[str, str]) -> Outcome:
    """What comes of a test of the programs in a folder, of which these files are loaded; those of the student are written in others."""
    with open(os.path.join(room, SCRIPT), "w", encoding="utf-8") as it:
        it.write(script_of(exercise, test, files))
    # whether a node has one Step more to do is asked with one Step more
    status, record, told = lab(room, "run", SCRIPT, "--record", "0", "--steps", f"{test.steps + 1}")
    if status is None:
        return Outcome(LONG, remark=told)
    if status not in (0, TOO_MANY):
        return Outcome(WRONG, remark=told or f"lab ended with status {status}")
    steps = steps_in(record)
    if status == TOO_MANY or steps > test.steps:
        return Outcome(LONG, remark=f"it took more than {test.steps} Steps")
    wrong = wrong_in(test, record)
    if wrong is None:
        return Outcome(OK, steps)
    programs = {node: own[name] for node, name in placed(exercise.machine, test.lines).items() if name in own}
    return Outcome(WRONG, steps, wrong[0], why_of(record, room, programs), wrong[1])


def why_of(record: str, room: str, programs: dict[int, str]) -> str:
    """What each node waits for at the end of a record, by line of those that have these programs; nothing if that isn't known."""
    with open(os.path.join(room, "test.replay"), "w", encoding="utf-8") as it:
        it.write(record)
    more = [word for node, file in programs.items() for word in ("--program", f"{node}", file)]
    status, told, _ = lab(room, "why", "test.replay", "--steps", f"{2 * MOST_STEPS}", *more)
    return "\n".join(told.splitlines()[1 : MOST_WHY + 1]) if status == 0 else ""


def row_of(exercise: Exercise, user: str, person: str, paths: list[str]) -> Row:
    """The row of a student."""
    none = tuple(Outcome(NONE) for _ in exercise.tests)
    if not paths:
        return Row(user, person, "-", none, 0, "there is no program")
    name = " ".join(os.path.basename(it) for it in paths)
    with tempfile.TemporaryDirectory() as room:
        try:
            own = gathered(exercise, paths, room)
            files = compiled(exercise, own, room)
        except (Refused, OSError) as error:
            return Row(user, person, name, none, 0, f"{error}")
        outcomes = tuple(tried(exercise, it, room, own, files) for it in exercise.tests)
    points = sum(test.points for test, it in zip(exercise.tests, outcomes) if it.result == OK)
    remark = next((f"{test.name}: {it.remark}" for test, it in zip(exercise.tests, outcomes) if it.remark), "")
    return Row(user, person, name, outcomes, points, remark)


def written(path: str, text: str) -> None:
    """Writes a file, whole or not at all."""
    put_whole(path, text.encode(errors="backslashreplace"), None)


def words_of(words: list[str]) -> argparse.Namespace:
    parser = argparse.ArgumentParser(
        prog="class check",
        usage="class check [--csv FILE] [--html FILE] DIR EXERCISE PROGRAMS\n"
        "       class check --submitted [--csv FILE] [--html FILE] DIR EXERCISE",
        description="Tries what the students of a class have written for an exercise, in farms of its own.",
    )
    parser.add_argument("--csv", metavar="FILE", help="writes the table into this file too, for a spreadsheet")
    parser.add_argument("--html", metavar="FILE", help="writes a page for a browser too, with what came and why")
    parser.add_argument(
        "--submitted", action="store_true", help="tries what each handed in last for this exercise of the class"
    )
    parser.add_argument("DIR", help="the folder of the class")
    parser.add_argument(
        "EXERCISE", help="the file of the exercise, or a folder with a file exercise.txt; with --submitted its name"
    )
    parser.add_argument(
        "PROGRAMS",
        nargs="?",
        help="the folder of the programs: NAME.occ or NAME.s for each student, or a folder NAME",
    )
    it = parser.parse_args(words)
    if it.submitted == (it.PROGRAMS is not None):
        parser.error("a folder of programs is wanted, or --submitted")
    return it


def check(words: list[str]) -> int:
    """Tries the programs of a class in an exercise."""
    it = words_of(words)
    kept, course = own_class(it.DIR), os.path.abspath(it.DIR)
    users = [name for names in kept.farms.values() for name in names]
    with tempfile.TemporaryDirectory() as room:
        if it.submitted:
            # SQLite is wanted for this alone
            from ..course.orders import put_submitted

            exercise = put_submitted(course, it.EXERCISE, room)
        else:
            exercise = exercise_in(it.EXERCISE)
        found, others = programs_in(it.PROGRAMS or room, users)
        build("class", "lab")
        with ThreadPoolExecutor(os.cpu_count() or 1) as pool:
            rows = [*pool.map(lambda user: row_of(exercise, user, person_of(course, user), found.get(user, [])), users)]
    for path, text in ((it.csv, as_csv), (it.html, as_page)):
        if path:
            written(path, text(exercise, rows))
    notes = [f"note: {escaped(os.path.join(it.PROGRAMS or '', name))} is no student's program" for name in others]
    print("\n".join([*(notes if it.PROGRAMS else []), *as_table(exercise, rows)]))
    return 0
