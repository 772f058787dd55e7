"""`class check` and `class wall`: what is said of students' programs and of their machines, and that neither is an
event of any machine."""

import csv
import html.parser
import os
import re
import shutil
import signal
import subprocess
import tempfile
import time
from typing import Any

from nadzsumek.course.given import exercises_in, task_of
from nadzsumek.serving.exercises import exercise_in
from support.courses import Course
from support.live_lines import SECONDS
from support.serving_trials import hears_ctrl_c
from support.trials import PROGRAMS, TOP, put, run_text, text_of

EXERCISES = f"{TOP}/examples/exercises"
# Solutions, and programs that are none.
SUM = """        local first second
        ajw 4
again:  ldlp first
        mint
        ldnlp 4
        ldc 1
        in
        ldlp second
        mint
        ldnlp 4
        ldc 1
        in
        mint
        ldlp first
        lb
        ldlp second
        lb
        {sum}
        outbyte
        j again
"""
ENDLESS = "        ajw 4\nloop:   j loop\n"


# A tile of the wall: what is the matter, whose it is, and what it shows.
TILE = re.compile(r'<a class="tile (\w+)" id="([^"]*)" href="#[^"]*">(.*?)</a>', re.DOTALL)


class Page(html.parser.HTMLParser):
    """A page's texts, cell by cell, and all that it would fetch."""

    def __init__(self, path: str) -> None:
        super().__init__()
        self.rows: list[list[str]] = []
        self.fetched: list[str | None] = []
        self.is_cell = False
        self.feed(text_of(path))

    def handle_starttag(self, tag: str, attrs: list[tuple[str, str | None]]) -> None:
        self.fetched += [value for name, value in attrs if name in ("src", "href", "data", "action")]
        self.fetched += [tag] if tag in ("script", "link", "iframe", "img", "b") else []
        if tag == "tr":
            self.rows.append([])
        elif tag in ("td", "th"):
            self.rows[-1].append("")
            self.is_cell = True
        elif tag in ("br", "div", "pre") and self.is_cell:
            self.rows[-1][-1] += "\n"

    def handle_endtag(self, tag: str) -> None:
        self.is_cell = self.is_cell and tag not in ("td", "th")

    def handle_data(self, data: str) -> None:
        if self.is_cell:
            self.rows[-1][-1] += data


class Checked:
    """A class, programs of its students, and what `class check` makes of them."""

    def __init__(self, people: list[str]) -> None:
        self.course = Course(1)
        self.room = self.course.room.name
        self.names, self.programs = f"{self.room}/people.txt", f"{self.room}/programs"
        self.folder = f"{self.room}/pupils"
        os.mkdir(self.programs)
        put(self.names, "".join(f"{person}\n" for person in people))
        assert self.course.call("--students", self.names, "--nodes", "1", self.folder).returncode == 0

    def __enter__(self) -> "Checked":
        return self

    def __exit__(self, *more: object) -> None:
        self.course.__exit__(*more)

    def write(self, name: str, text: str | bytes) -> None:
        os.makedirs(os.path.dirname(f"{self.programs}/{name}"), exist_ok=True)
        put(f"{self.programs}/{name}", text)

    def exercise(self, text: str) -> str:
        path = f"{self.room}/one.txt"
        return put(path, text.encode(errors="surrogateescape"))

    def call(self, exercise: str, *words: str) -> "subprocess.CompletedProcess[str]":
        return self.course.call("check", *words, self.folder, exercise, self.programs)

    def results(self, exercise: str) -> tuple[dict[str, Any], str]:
        """The rows of the table for a spreadsheet, by user: the points, the Steps, what came of each test, and the remark."""
        done = self.call(exercise, "--csv", f"{self.room}/out.csv")
        assert (done.returncode, done.stderr) == (0, "")
        with open(f"{self.room}/out.csv", encoding="utf-8", newline="") as it:
            rows = [*csv.reader(it)]
        return {row[0]: (int(row[3]), row[5], row[6:-1], row[-1]) for row in rows[1:]}, done.stdout


def test_exercises_are_marked() -> None:
    """What comes of right and of wrong programs in the three exercises; the values are those that the exercises ask for."""
    with Checked(["Ada Lovelace", "Émile Borel", "Eve", "Fay", "Gus", "Hal"]) as it:
        shutil.copy(f"{PROGRAMS}/successor.s", f"{it.programs}/Ada Lovelace.s")
        shutil.copy(f"{PROGRAMS}/echo.s", f"{it.programs}/emile_borel.s")
        it.write("eve.s", ENDLESS)
        it.write("gus.s", "        ajw 4\n        mvoe\n")
        it.write("hal.s", b"ajw 4\n" * 200_000)
        it.write("Zoe.s", ENDLESS)
        it.write("notes.txt", "nothing")
        got, told = it.results(f"{EXERCISES}/successor.txt")
        line = text_of(f"{EXERCISES}/successor.txt").split("\n").index("    expect 0 word 7") + 1
        assert {name: row[:1] + row[2:3] for name, row in got.items()} == {
            "ada-lovelace": (5, ["ok"] * 4),
            "emile-borel": (0, ["wrong"] * 4),
            "eve": (0, ["too long"] * 4),
            "fay": (0, ["-"] * 4),
            "gus": (0, ["-"] * 4),
            "hal": (0, ["-"] * 4),
        }
        assert [got[name][3] for name in ("ada-lovelace", "emile-borel", "eve", "fay", "hal")] == [
            "",
            f"one word: line {line}: 7 is expected, and 6 came",
            "one word: it took more than 2000 Steps",
            "there is no program",
            "hal.s has more than 1048576 bytes",
        ]
        assert (got["gus"][3][:30], "move" in got["gus"][3]) == ("line 2, column 9: fault 2: exp", True)
        for note in (
            "note: {0}/Zoe.s is no student's program",
            "note: {0}/notes.txt is no student's program",
            "Add one to each word: 1 of 6 have all 5 points",
            "1 one word: 1 of 6",
        ):
            assert note.format(it.programs) in told.splitlines()
        for name in os.listdir(it.programs):
            os.remove(f"{it.programs}/{name}")
        it.write("ada-lovelace.s", SUM.format(sum="add"))
        it.write("emile-borel.s", SUM.format(sum="diff"))
        got, _ = it.results(f"{EXERCISES}/sum.txt")
        # 3 - 4, 1 - 2, 200 - 100 and 9 - 1 are other bytes; after 9 alone nothing comes of either
        assert [got[name][2] for name in ("ada-lovelace", "emile-borel")] == [["ok"] * 4, ["wrong"] * 4]
        assert got["emile-borel"][3].endswith(": 7 is expected, and 255 came")
        total = text_of(f"{EXERCISES}/total/solution.s")
        it.write("ada-lovelace.s", total)
        it.write("emile-borel.s", total.replace("cj done", "cj again"))
        got, _ = it.results(f"{EXERCISES}/total")
        assert [got[name][2] for name in ("ada-lovelace", "emile-borel")] == [["ok"] * 3, ["wrong"] * 3]
        assert got["emile-borel"][3].endswith(": 42 is expected, and nothing came")


def test_steps_are_bounded() -> None:
    """The Steps that are shown are just as many as are wanted: with one less the test takes too long."""
    text = "{head}before\njoin 0 1\nload 0 student\ntest one\nsend 0 word 41\nexpect 0 word 42\n"
    with Checked(["Ada"]) as it:
        shutil.copy(f"{PROGRAMS}/successor.s", f"{it.programs}/ada.s")
        steps = int(it.results(it.exercise(text.format(head="")))[0]["ada"][1])
        for bound, result in ((steps, "ok"), (steps - 1, "too long")):
            assert it.results(it.exercise(text.format(head=f"steps {bound}\n")))[0]["ada"][2] == [result]
            assert it.results(it.exercise(text.format(head="steps 1\n") + f"steps {bound}\n"))[0]["ada"][2] == [result]
        # a program that is begun but isn't there, one in a folder, and a state
        os.remove(f"{it.programs}/ada.s")
        it.write("Ada/left.s", "        stopp\n")
        it.write("Ada/right.s", "        ldc 0\n        ldnl 0\n")
        both = (
            "nodes 2\nhosts 2\ntest both\njoin 0 4\njoin 2 5\nload 0 student/left.s\nload 1 student/right.s\n"
            "state 0 idle\nstate 1 halted 1\n"
        )
        assert it.results(it.exercise(both))[0]["ada"][2:] == (["ok"], "")
        assert it.results(it.exercise(both.replace("halted 1", "idle")))[0]["ada"][2] == ["wrong"]
        assert it.results(it.exercise(text.format(head="")))[0]["ada"][3] == "there is no file student.occ or student.s"


# A program in occam that adds one to each word.
SUCCESSOR = """CHAN OF INT from, to:
PLACE from AT link0.in:
PLACE to AT link0.out:
INT word:
WHILE TRUE
  SEQ
    from ? word
    to ! word + 1
"""


def test_students_choose_the_language() -> None:
    """A student's program is in occam or in assembly; an exercise may want one of them. What the compiler says of a wrong text is
    the remark."""
    text = "before\njoin 0 1\nload 0 {file}\ntest one\nsend 0 word 41\nexpect 0 word 42\n"
    with Checked(["Ada", "Bob", "Eve", "Zoe"]) as it:
        it.write("ada.occ", SUCCESSOR)
        shutil.copy(f"{PROGRAMS}/successor.s", f"{it.programs}/bob.s")
        it.write("eve/student.occ", SUCCESSOR.replace("+ 1", "+ 2"))
        it.write("zoe.occ", SUCCESSOR.replace("word:", "wort:"))
        got = it.results(it.exercise(text.format(file="student")))[0]
        assert [got[name][2] for name in ("ada", "bob", "eve", "zoe")] == [["ok"], ["ok"], ["wrong"], ["-"]]
        assert (
            got["zoe"][3]
            == 'line 7, column 12: fault 16: expected a name that is declared, not "word". Is it wort (line 4)?'
        )
        got = it.results(it.exercise(text.format(file="student.s")))[0]
        assert (got["ada"][2:], got["bob"][2]) == (
            (["-"], "ada.occ is a program in occam, and assembly is wanted"),
            ["ok"],
        )
        got = it.results(it.exercise(text.format(file="student.occ")))[0]
        assert (got["ada"][2], got["bob"][3]) == (["ok"], "bob.s is a program in assembly, and occam is wanted")
        it.write("eve/student.s", "        stopp\n")
        shutil.copy(f"{PROGRAMS}/successor.s", f"{it.programs}/ada.s")
        got = it.results(it.exercise(text.format(file="student")))[0]
        assert [got[name][3] for name in ("ada", "eve")] == [
            "there are ada.occ and ada.s, and one of them is wanted",
            "there are student.occ and student.s, and one of them is wanted",
        ]


# Texts of exercises that are refused, each with what is said; P is the path.
GOOD = "test one\nsend 0 word 1\nexpect 0 word 2\n"
UNFIT = [
    ("", "P: there is no test: a line test NAME begins one"),
    ("tset one\n" + GOOD, "P, line 1: no line begins with 'tset': is it test?"),
    ("test\n", "P, line 1: a test wants a name after it, such as: test one word"),
    (
        GOOD + "exepct 0 word 1\nsend 0 wrod 1\nload 0 other.s\n",
        "P, line 4: no line begins with 'exepct': is it expect?\nP, line 5: 'wrod' is no value: values are \"text\", byte 1 2, word 1 "
        "-2 or hex 0a0b\nP, line 6: there is no file other.s beside the exercise. The student's program is student",
    ),
    ("send 0 word 1\n" + GOOD, "P, line 1: send belongs below a line test or before"),
    (GOOD + "nodes 2\n", "P, line 4: nodes belongs to the head of the exercise, above all tests"),
    (GOOD + GOOD, "P, line 4: there is a test one already"),
    ("nodes 9\n" + GOOD, "P: nodes is 1 to 8, and not 9"),
    ("nodes 1\nnodes 1\n" + GOOD, "P, line 2: nodes is there already"),
    ("steps 0\n" + GOOD, "P, line 1: steps is 1 to 10000000, and not 0"),
    ("test one\njoin 0 1\n", "P: the test one expects nothing: give it a line expect or state"),
    (
        GOOD + "join 0 2\ncollect 0\n",
        "P, line 5: no line begins with 'collect': there are exercise, nodes, hosts, memory, steps, "
        "before, test, points, join, config, load, send, reset, expect, state\nP, line 4: there is no port 2: the machine has 2, "
        "counted from 0",
    ),
    (
        GOOD + "send 1 byte 1\nstate 1 idle\n",
        "P, line 4: there is no host 1: the machine has 1, counted from 0\n"
        "P, line 5: there is no node 1: the machine has 1, counted from 0",
    ),
    (GOOD + "send 0 byte 256 1\n", "P, line 4: a byte is -128 to 255, and not 256"),
    (GOOD + "send 0 byte\n", "P, line 4: byte wants numbers after it, such as byte 1 2"),
    (GOOD + "send 0 hex 0a0\n", "P, line 4: hex wants an even number of hexadecimal digits after it, such as hex 0a0b"),
    (
        GOOD + "state 0 asleep\n",
        "P, line 4: a state is booting, running, idle, halted, and a fault may be after halted",
    ),
    (
        GOOD + "load 0 ../other.s\n",
        "P, line 4: ../other.s is in another folder: programs are beside the exercise, or student or " "student/NAME",
    ),
    (GOOD + "\udcff\n", "P, line 4: the byte ff isn't UTF-8"),
]


def test_unfit_exercises_are_refused() -> None:
    """All wrong lines of an exercise are said together, each by its number, and nothing is tried."""
    with Checked(["Ada"]) as it:
        for text, told in UNFIT:
            path = it.exercise(text)
            done = it.call(path)
            said = "".join(
                f"class: {line}\n" for line in told.replace("P", path, 1).replace("\nP", f"\n{path}").split("\n")
            )
            assert (text, done.returncode, done.stdout, done.stderr) == (text, 1, "", said)
        for words, told in (
            (["nowhere"], "there is no file"),
            ([it.room], "the folder of an exercise has a file exercise.txt"),
        ):
            done = it.call(*words)
            assert (words, done.returncode, told in done.stderr) == (words, 1, True)
        done = it.course.call("check", it.folder, it.exercise(GOOD), f"{it.room}/nobody")
        assert (done.returncode, "the folder of programs" in done.stderr) == (1, True)
        done = it.course.call("check", "--csv", f"{it.room}/no/file", it.folder, it.exercise(GOOD), it.programs)
        assert (done.returncode, "Traceback" in done.stderr) == (1, False)


def test_tables_are_safe() -> None:
    """A page shows what came and why, fetches nothing, and takes no name or remark for its own marks; no cell of a spreadsheet is a
    formula. The machines of the class notice nothing of it."""
    with Checked(["ada = =1+1 <b>Ada</b>", "Bob"]) as it:
        assert it.course.call("start", it.folder).returncode == 0
        try:
            before = it.course.call("status", it.folder).stdout.partition("\n\n")[0]
            it.write("ada.s", "        ldc <b>\n")
            it.write("bob.s", "        ajw 4\n        mint\n        ldc '='\n        outbyte\n        stopp\n")
            exercise = it.exercise(
                "exercise <b>Greet</b>\nbefore\njoin 0 1\nload 0 student.s\ntest a <i>greeting</i>\nexpect 0 "
                '"hello"\n'
            )
            done = it.call(exercise, "--html", f"{it.room}/page.html", "--csv", f"{it.room}/out.csv")
            assert (done.returncode, done.stderr) == (0, "")
            assert it.course.call("status", it.folder).stdout.partition("\n\n")[0] == before
        finally:
            it.course.call("stop", it.folder)
        page = Page(f"{it.room}/page.html")
        assert page.fetched == []
        assert page.rows[0] == ["student", "points", "steps", "a <i>greeting</i>"]
        assert [row[0].split("\n") for row in page.rows[1:]] == [["=1+1 <b>Ada</b>", "ada.s"], ["Bob", "bob.s"]]
        cell = page.rows[2][3].split("\n")
        assert (cell[0], cell[1]) == ("wrong", 'line 6: "hello" is expected, and "=" came')
        assert "node 0 has ended" in page.rows[2][3]
        assert "fault 3" in page.rows[1][3]
        with open(f"{it.room}/out.csv", encoding="utf-8", newline="") as file:
            rows = [*csv.reader(file)]
        assert rows[1][1] == "'=1+1 <b>Ada</b>"
        assert [cell for row in rows for cell in row if cell[:1] in "=+-@" and cell not in ("", "-")] == []


def test_the_wall_is_no_event() -> None:
    """The page of a class says what nodes wait for, by records alone: no machine has an event or a line more, and no record
    changes. It is written again and again until Ctrl-C."""
    with Course(3, "--nodes", "2") as it:
        it.must("start")

        def ask(name: str, text: str) -> None:
            assert run_text([f"{TOP}/connect", it.folder, name], text).returncode == 0

        def seen() -> tuple[str, list[str], list[int]]:
            records = sorted(os.listdir(f"{it.folder}/farm-1/records"))
            sizes = [os.path.getsize(f"{it.folder}/farm-1/records/{name}") for name in records]
            return it.must("status").partition("\n\n")[0], records, sizes

        ask("student-1", "join 0 4\nload 0 hello.s\ncollect 0\nlook 0\n")
        ask("student-2", "join 0 4\nboot 0 4030\nlook 0\n")
        before = seen()
        page = f"{it.room.name}/wall.html"
        done = it.call("wall", "--once", it.folder, page)
        assert (done.returncode, done.stdout, done.stderr) == (0, "", "")
        # nothing but the places of the page itself is named there
        assert [where for where in Page(page).fetched if not str(where).startswith("#")] == []
        tiles = {user: (kind, text) for kind, user, text in TILE.findall(text_of(page))}
        # who has halted by a fault comes first
        assert [*tiles] == ["student-2", "student-1", "student-3"]
        for name, kind, *texts in (
            (
                "student-1",
                "quiet",
                "<strong>Student 1</strong><span>rests</span>",
                "node 0 has ended: no process is left.",
            ),
            ("student-2", "fault", "<strong>Student 2</strong><span>fault 1</span>", "node 0 halted by fault 1"),
            ("student-3", "fresh", "<strong>Student 3</strong><span>nothing yet</span>"),
        ):
            assert (name, tiles[name][0], [it for it in texts if it not in tiles[name][1]]) == (name, kind, [])
        # a node that nobody has used isn't told of
        assert "node 1" not in text_of(page)
        done = it.call("wall", "--once", it.folder)
        assert (done.returncode, done.stderr) == (0, "")
        assert done.stdout.splitlines()[0].endswith("  3 students: 1 fault, 1 quiet, 1 fresh")
        assert [line for line in done.stdout.splitlines() if line.startswith("Student ")] == [
            "Student 2",
            "Student 1",
            "Student 3",
        ]

        with subprocess.Popen(
            [f"{TOP}/class", "wall", "--seconds", "1", it.folder, page],
            env=it.env,
            stdout=subprocess.PIPE,
            stderr=subprocess.PIPE,
            encoding="utf-8",
            preexec_fn=hears_ctrl_c,
        ) as writing:
            try:
                times, end = set[int](), time.monotonic() + 2 * SECONDS
                while len(times) < 3 and time.monotonic() < end:
                    times.add(os.stat(page).st_mtime_ns)
                    time.sleep(0.1)
                writing.send_signal(signal.SIGINT)
                told = writing.communicate(timeout=SECONDS)
            finally:
                writing.kill()
        assert (len(times) >= 3, writing.returncode, told) == (True, 130, ("", ""))
        assert seen() == before
        it.must("stop")
        assert it.call("wall", "--once", it.folder, page).returncode == 0
        assert sorted(told for told, _, _ in TILE.findall(text_of(page))) == ["fault", "off", "off"]
        done = it.call("wall", "--once", it.folder, f"{it.room.name}/no/wall.html")
        assert (done.returncode, done.stderr) == (
            1,
            f"class: there can be no file {it.room.name}/no/wall.html: choose another\n",
        )


def test_guides_name_the_exercises() -> None:
    """Each folder of the examples is in one guide, with its title; it has a task, and two wrong programs at least, unless it is the
    one of the guide for teachers."""
    pages = [text_of(f"{TOP}/docs/guides/{it}") for it in ("PROGRAMMING.md", "OCCAM_EXERCISES.md")]
    folders = {
        name: place for name, place in exercises_in(EXERCISES).items() if os.path.isdir(place) and name != "total"
    }
    for name, place in folders.items():
        rows = [it for page in pages for it in re.findall(rf"^- `{name}`, (.*?): .*$", page, re.MULTILINE)]
        assert (name, rows, bool(task_of(place))) == (name, [exercise_in(place).title], True)
        assert len([it for it in os.listdir(place) if it.startswith("wrong-")]) >= 2, name
    nodes = {name for name, place in folders.items() if exercise_in(place).machine.nodes > 1}
    assembly = {name for name, place in folders.items() if os.path.exists(f"{place}/solution.s")}
    assert (len(assembly), len(nodes), len({*folders} - nodes - assembly), nodes & assembly) == (10, 7, 8, set())


def test_examples_find_their_wrong_programs() -> None:
    """Each exercise of the examples has a solution with all points, and finds each of its wrong programs; one that is planted among
    the solutions is found too."""
    done = run_text([f"{TOP}/class", "exercises", EXERCISES], timeout=300)
    assert (done.returncode, done.stderr) == (0, ""), done.stdout
    assert done.stdout.endswith(" programs tried, 0 wrong\n") and done.stdout.startswith("28 exercises, ")
    with tempfile.TemporaryDirectory() as room:
        shutil.copytree(f"{EXERCISES}/twice", f"{room}/twice")
        shutil.copy(f"{room}/twice/wrong-once.occ", f"{room}/twice/solution-too.occ")
        shutil.copy(f"{room}/twice/solution.occ", f"{room}/twice/wrong-too.occ")
        done = run_text([f"{TOP}/class", "exercises", room])
    assert (done.returncode, done.stdout.splitlines()) == (
        1,
        [
            "twice: solution-too.occ has 0 of 3 points",
            "twice: wrong-too.occ has 3 of 3 points",
            "1 exercises, 5 programs tried, 2 wrong",
        ],
    )
