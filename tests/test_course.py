"""Exercises at a terminal and in scripts: a program is tried by the teacher's own tests and handed in, and a student sees what is
the student's own alone. What each test expects of a program is what the exercise asks for."""

import concurrent.futures
import csv
import hashlib
import os
import re
import socket
import time
from collections.abc import Iterator

import pytest
from nadzsumek import Farm, Refused
from nadzsumek.course.given import moment_of, shown_time
from support.lessons import ADDING, ADDS, ECHOES, Lesson
from support.screens import Screen
from support.serving_trials import SECONDS, Served, plan_of_users
from support.trials import TOP, contents, put, text_of

SUCCESSOR = f"{TOP}/examples/exercises/successor.txt"
ENDLESS = "        ajw 4\nloop:   j loop\n"
OWN = "It was tried on a fresh machine of its own, and yours is as it was."


@pytest.fixture(scope="module")
def lesson() -> Iterator[Lesson]:
    with Lesson(3, "successor.txt", "sums") as it:
        it.write("adds.occ", ADDS)
        it.write("echoes.occ", ECHOES)
        yield it


def line_in(path: str, text: str) -> int:
    """The number of a line of an exercise."""
    return text_of(path).split("\n").index(text) + 1


def test_check_at_a_terminal(lesson: Lesson) -> None:
    """It says what was sent, expected and came, in the words of the exercise, why by line, and on which machine; and the student's own
    machine has no event of it."""
    before = lesson.connect("student-1", "-c", "why").stdout
    done = lesson.connect("student-1", text="check successor echoes.occ\n")
    assert (done.returncode, done.stderr) == (0, "")
    told = done.stdout.splitlines()
    assert told[:3] == [
        "Add one to each word: 0 of 5 points",
        f"one word: wrong, line {line_in(SUCCESSOR, '    expect 0 word 7')}: 7 is expected, and 6 came",
        "  after send 0 word 6",
    ]
    line = ECHOES.split("\n").index("    from ? n") + 1
    assert any(it.startswith("  node 0 at ") and it.endswith(f" waits in line {line}: from ? n") for it in told)
    assert told[-1] == OWN
    assert lesson.connect("student-1", "-c", "why").stdout == before
    assert lesson.ask("student-1", "submitted") == []


def test_exercises_are_completed(lesson: Lesson) -> None:
    """Behind `check`, `submit` and `exercises` Tab completes the exercises that were listed, and behind those the files."""
    with Screen([f"{TOP}/connect", lesson.folder, "student-1"], folder=lesson.room.name, HOME=lesson.room.name) as it:
        it.until("student-1> ")
        it.press("exercises\r")
        it.until("successor: Add one to each word")
        it.until("student-1> ")
        it.press("exercises suc\t\r")
        it.until("exercises successor")
        it.until("test ten words, one after another")
        it.until("student-1> ")
        it.press("check suc\tec\t\r")
        it.until("check successor echoes.occ")
        it.until(OWN)


def test_first_value_that_differs(lesson: Lesson) -> None:
    """Of several values the first that isn't right is named, as the exercise writes it."""
    text = "before\njoin 0 1\nload 0 student\ntest one\nsend 0 {send}\nexpect 0 {expect}\n"
    for form, send, expect, told in (
        ("words", "word 1 2 3", "word 2 3 5", "2 3 5 is expected, and 2 3 4 came: value 3 is 4 instead of 5"),
        ("fewer", "word 1 2", "word 2 3 4", "2 3 4 is expected, and 2 3 came: value 3 is missing"),
        ("more", "word 1 2 3", "word 2 3", "2 3 is expected, and 2 3 4 came: value 3 is too much"),
        ("letters", "hex 60616263 word 0", '"aabc" word 2', "6161626302000000 is expected, and 6161626301000000 came"),
        ("text", "hex 60616263", '"aabd"', '"aabd" is expected, and "aabc" came: letter 4 is "c" instead of "d"'),
    ):
        put(f"{lesson.exercises}/form.txt", text.format(send=send, expect=expect))
        remark = lesson.ask("student-1", "check form adds.occ")["tests"][0]["remark"]
        assert (form, remark) == (form, f"line 6: {told}")
    many = " ".join(f"{it}" for it in range(100))
    put(
        f"{lesson.exercises}/form.txt",
        text.format(send=f"word {many}", expect=f"word {many}").replace("word 0 1", "word 0 0", 1),
    )
    remark = lesson.ask("student-1", "check form adds.occ")["tests"][0]["remark"]
    assert remark.startswith("line 6: 0 1 2 3 4 5 6 7 .. is expected, and 1 1 3 4 5 6 7 8 .. came")
    os.remove(f"{lesson.exercises}/form.txt")


def test_submit_and_see(lesson: Lesson) -> None:
    """Each version is kept with time, hash and points, and is the student's own to see."""
    begun = time.time()
    told = lesson.ask("student-1", "submit successor echoes.occ")
    assert (told["number"], told["points"], told["of"]) == (1, 0, 5)
    told = lesson.ask("student-1", "submit successor adds.occ")
    assert (told["number"], told["points"], told["hash"]) == (2, 5, hashlib.sha256(ADDS.encode()).hexdigest())
    assert begun <= told["at"] <= time.time()
    assert [it["result"] for it in told["tests"]] == ["ok"] * 4
    assert lesson.kept() == [("student-1", "successor", 0, ECHOES), ("student-1", "successor", 5, ADDS)]
    assert [(it["number"], it["points"]) for it in lesson.ask("student-1", "submitted")] == [(1, 0), (2, 5)]
    assert lesson.ask("student-1", "submitted 1")[0]["text"] == ECHOES
    assert lesson.ask("student-2", "submitted") == []
    for number in (1, 2, 3):
        word, why = lesson.ask("student-2", f"submitted {number}")
        assert (word, why) == ("refused", f"you have handed in nothing with the number {number}: submitted lists all")
    told = lesson.ask("student-1", "exercises")
    assert [(it["name"], it["submitted"] and it["submitted"]["points"]) for it in told] == [
        ("successor", 5),
        ("sums", None),
    ]
    assert lesson.ask("student-2", "exercises")[0]["submitted"] is None
    shown = lesson.connect("student-1", text="exercises\nexercises sums\nsubmitted 2\n").stdout.splitlines()
    assert shown[0] == "successor: Add one to each word, 5 of 5 points"
    assert "  Get a count, then as many numbers, and send their sum. Then go on with the next count." in shown
    assert shown[-len(ADDS.splitlines()) - 1 :][:-1] == ADDS.splitlines()


def test_what_is_refused(lesson: Lesson) -> None:
    """A wrong name, file or text is said with its cause before or by the farm, and nothing is kept."""
    before = lesson.kept()
    lesson.write("text.txt", "hello")
    lesson.write("empty.occ", "")
    lesson.write("long.occ", "-" * 65_537)
    lesson.write("bytes.s", b"        ajw 4\n\xff\n")
    for line, told in (
        ("check", "check wants the name of an exercise behind it, such as sums. Try: check sums my.occ"),
        ("check sums", "check wants the file of your program behind it, such as my.occ. Try: check sums my.occ"),
        (
            "submit Sums adds.occ",
            "'Sums' is wrong: submit wants the name of an exercise there, such as sums. Try: submit sums my.occ",
        ),
        (
            "submit sums ads.occ",
            f"there is no file ads.occ in {lesson.room.name}. Is it adds.occ? Try: submit sums adds.occ",
        ),
        ("submit sums text.txt", "text.txt is no program: the name of one ends with .occ or .s"),
        ("submit sums empty.occ", "there is nothing in empty.occ"),
        ("submit sums long.occ", "long.occ has more than 65536 bytes"),
        ("submit sums bytes.s", "bytes.s, line 2: the byte ff isn't UTF-8"),
        (
            "submitted one",
            "'one' is wrong: submitted wants a number of what you have handed in there, such as 1. Try: submitted",
        ),
        ("submit sumz adds.occ", "there is no such exercise as sumz: is it sums?"),
        (
            "submit ../sums adds.occ",
            "'../sums' is wrong: submit wants the name of an exercise there, such as sums. Try: submit sums my.occ",
        ),
    ):
        assert (line, lesson.ask("student-3", line)[1]) == (line, told)
    lesson.write("wrong.occ", "nonsense\n")
    row = lesson.ask("student-3", "check sums wrong.occ")
    assert (row["points"], row["tests"], row["remark"].startswith("line 1, column ")) == (0, [], True)
    assert lesson.kept() == before


def test_lines_of_other_programs(lesson: Lesson) -> None:
    """What any program sends to the socket is answered in one line, and each wrong form refused; a farm of no class has no exercises."""
    with socket.socket(socket.AF_UNIX) as it:
        it.connect(f"{lesson.folder}/farm-1/student-2.sock")
        it.settimeout(SECONDS)
        lines = it.makefile("r", encoding="utf-8")

        def asked(line: str) -> str:
            it.sendall(line.encode() + b"\n")
            return lines.readline().rstrip("\n")

        form = "refused the line has another form"
        for line in (
            "check",
            "check sums",
            "check sums occ",
            "check sums occ 0",
            "check sums py 00",
            "check sums occ 00 00",
            "check  occ 00",
        ):
            assert (line, asked(line)) == (line, f"check {form}: check NAME occ|s HEX")
        assert asked("submit ../../etc occ 00") == f"submit {form}: submit NAME occ|s HEX"
        assert asked("submit sums occ ff") == "submit refused the text isn't UTF-8"
        assert asked(f"submit sums occ {'20' * 65_537}") == "submit refused the text has more than 65536 bytes"
        assert asked("submitted x") == f"submitted {form}: submitted [NUMBER]"
        assert asked("#7 submitted") == '#7 submitted {"submissions": []}'
        assert asked("checks") == "error 1 verb" or asked("checks").endswith(" verb")
    with Served(plan_of_users(["ann"])) as served:
        served.start()
        client = served.client("ann")
        assert client.ask("exercises") == "exercises refused this farm belongs to no class, so there are no exercises"


def test_closing(lesson: Lesson) -> None:
    """After the closing time nothing is handed in, by the time at which it came; a program can still be tried."""
    later, earlier = shown_time(time.time() + 3600), shown_time(time.time() - 3600)

    def close(when: str, name: str = "sums") -> tuple[int, str, str]:
        done = lesson.call("exercises", "--close", name, when, lesson.folder)
        return done.returncode, done.stdout, done.stderr

    assert close(later) == (0, f"sums closes at {later}\n", "")
    told = {it["name"]: it for it in lesson.ask("student-2", "exercises")}["sums"]
    assert (told["closes"], told["closed"]) == (moment_of(later), False)
    assert f"closes at {later}:00" in lesson.connect("student-2", "-c", "exercises").stdout
    number = lesson.ask("student-2", "submit sums adds.occ")["number"]
    assert close(earlier) == (0, f"sums closes at {earlier}\n", "")
    word, why = lesson.ask("student-2", "submit sums adds.occ")
    assert (word, why.startswith(f"sums closed at {earlier}, and this came at {shown_time(time.time())[:10]}")) == (
        "refused",
        True,
    )
    assert lesson.ask("student-2", "check sums adds.occ")["of"] == 4
    assert [it["number"] for it in lesson.ask("student-2", "submitted")] == [number]
    assert close("now") == (0, "sums is closed\n", "")
    assert lesson.ask("student-2", "submit sums adds.occ")[0] == "refused"
    assert close("never") == (0, "sums stays open\n", "")
    assert lesson.ask("student-2", "submit sums adds.occ")["number"] == number + 1
    assert close("tomorrow") == (1, "", "class: 'tomorrow' is no time: write it as 2026-12-24 18:00\n")
    assert close("now", "sum") == (1, "", "class: there is no such exercise as sum: is it sums?\n")


def test_package(lesson: Lesson) -> None:
    """The same by calls of Python, and for asyncio by the same names."""
    with Farm(lesson.folder).user("Student 3") as it:
        told = it.check("successor", f"{lesson.room.name}/echoes.occ")
        assert (told.points, told.of, told.number, [one.result for one in told.tests]) == (0, 5, None, ["wrong"] * 4)
        assert str(told).splitlines()[0] == "Add one to each word: 0 of 5 points"
        done = it.submit("successor", f"{lesson.room.name}/adds.occ")
        assert (done.points, done.hash) == (5, hashlib.sha256(ADDS.encode()).hexdigest())
        assert [(one.number, one.points, one.text) for one in it.submitted()] == [(done.number, 5, None)]
        assert it.submitted(done.number)[0].text == ADDS
        assert [one.name for one in it.exercises()] == ["successor", "sums"]
        with pytest.raises(Refused) as error:
            it.submitted(done.number + 100)
        assert error.value.word == "refused"
        with pytest.raises(ValueError):
            it.check("successor", "nowhere.occ")


def test_bounds(lesson: Lesson) -> None:
    """A program that never ends, and one who asks as fast as possible, hold up nobody else; more than eight questions don't wait."""
    lesson.write("endless.s", ENDLESS)
    assert [it["result"] for it in lesson.ask("student-1", "check successor endless.s")["tests"]] == ["too long"] * 4
    text = contents(f"{lesson.room.name}/adds.occ").hex()
    with socket.socket(socket.AF_UNIX) as it:
        it.connect(f"{lesson.folder}/farm-1/student-1.sock")
        it.settimeout(2 * SECONDS)
        it.sendall(f"check successor occ {text}\n".encode() * 12)
        with concurrent.futures.ThreadPoolExecutor(1) as pool:
            other = pool.submit(lesson.ask, "student-2", "check successor adds.occ")
            assert other.result()["points"] == 5
        lines = it.makefile("r", encoding="utf-8")
        answers = [lines.readline() for _ in range(12)]
    refused = "check refused 8 questions of yours about exercises wait already: wait for an answer\n"
    assert (answers.count(refused), sum('"points": 5' in line for line in answers)) == (4, 8)


def test_page_of_the_tables(lesson: Lesson) -> None:
    """The page has each table of the file with its columns and their types, in their order, and no other."""
    page = text_of(f"{TOP}/docs/guides/SUBMISSIONS.md")
    told = {
        part.split("`")[1]: re.findall(r"^\| `(\w+)` \| (\w+) \|", part, re.MULTILINE)
        for part in re.split(r"\n(?=`\w+` has )", page)[1:]
    }
    lesson.ask("student-1", "submitted")
    names = [name for (name,) in lesson.kept("SELECT name FROM sqlite_master WHERE type = 'table' ORDER BY name")]
    there = {name: lesson.kept(f"SELECT name, type FROM pragma_table_info('{name}')") for name in names}
    assert {name: sorted(columns) for name, columns in told.items()} == {
        name: sorted(columns) for name, columns in there.items()
    }


def test_what_was_handed_in_is_tried_again(lesson: Lesson) -> None:
    """`class check --submitted` has the last program of each, in the table, the spreadsheet and the page."""
    lesson.write("first.occ", ADDING.format(more=2))
    for name, file in (("student-2", "adds.occ"), ("student-2", "first.occ"), ("student-3", "adds.occ")):
        lesson.ask(name, f"submit successor {file}")
    out = f"{lesson.room.name}/out.csv"
    done = lesson.call("check", "--submitted", "--csv", out, lesson.folder, "successor")
    assert (done.returncode, done.stderr) == (0, "")
    last = {
        name: points for name, points in lesson.kept("SELECT name, points FROM submission WHERE exercise = 'successor'")
    }
    with open(out, encoding="utf-8", newline="") as it:
        rows = {row["user"]: row for row in csv.DictReader(it)}
    assert {name: int(row["points"]) for name, row in rows.items() if row["program"] != "-"} == last
    assert rows["student-2"]["remark"].endswith("7 is expected, and 8 came")
    assert "note:" not in done.stdout
    for words in (["--submitted", lesson.folder, "successor", lesson.room.name], [lesson.folder, "successor"]):
        done = lesson.call("check", *words)
        assert (done.returncode, "a folder of programs is wanted, or --submitted" in done.stderr) == (2, True)
    done = lesson.call("check", "--submitted", lesson.folder, "sumz")
    assert (done.returncode, done.stderr) == (1, "class: there is no such exercise as sumz: is it sums?\n")
