"""`serve` and `connect` with a program in the place of `live` that says notes between its answers, and of rooms as
`serve` and `class` hand them on."""

import contextlib
import json
import os
import re
import subprocess
import time
from collections.abc import Callable, Iterator

from support.courses import Course
from support.serving_trials import Served
from support.trials import TOP, put, run_text, text_of

PLAN = """version = 3

[[domain]]
user = [{ name = "ann", host = [1] }, { name = "bob", host = [2] }]
range = [[0, 2]]
limit = 1000

[[domain.node]]
memory = 2048
links = [0, -1, -1, -1]

[[domain]]
user = [{ name = "cas", host = [1] }]
range = [[3, 4]]
limit = 1000

[[domain.node]]
memory = 2048
links = [0, -1, -1, -1]
"""
# Stands for `live`: says a note to ann and bob when it begins, and two before each answer to one of them. `hold` isn't answered,
# and `die` ends it. It keeps its words in a file beside it.
NOTING = """#!/usr/bin/env -S python3 -u
import sys
with open(sys.argv[0] + ".words", "a") as it:
    it.write(" ".join(sys.argv[1:]) + "\\n")
def note(count):
    for _ in range(count):
        print("ann note rests 60 64\\nbob note rests 60 64", flush=True)
note(1)
counts = {}
for line in sys.stdin:
    name, _, verb = line.rstrip("\\n").partition(" ")
    number = counts[name] = counts.get(name, 0) + 1
    if name == "!users":
        print("".join(f"!users {it} 0 9 1000 quiet rests 60 64 5 256\\n" for it in ("ann", "bob", "cas")), end="", flush=True)
    elif name == "!words":
        print("!words" + "".join(f" {it}:0" for it in range(32)), flush=True)
    elif name == "!memory":
        print("!memory 20971520 134217728", flush=True)
    elif name == "!stop":
        break
    elif verb == "die":
        sys.exit(9)
    else:
        note(2 if name != "cas" else 0)
        if verb == "full":
            print(f"{name} error {number} full", flush=True)
        elif verb != "hold":
            print(f"{name} {verb}", flush=True)
"""
NOTE = "note rests 60 64"


def noting(served: Served) -> None:
    """Puts the program that says notes in the place of `live`."""
    served.env["LIVE"] = f"{served.room.name}/noting"
    put(served.env["LIVE"], NOTING)
    os.chmod(served.env["LIVE"], 0o755)


def words_got(served: Served) -> list[str]:
    """The words that `live` got, each time that it was started."""
    return text_of(f"{served.env['LIVE']}.words").splitlines()


def test_notes_answer_nothing() -> None:
    """A note goes to all clients of its user and to nobody else, and takes off no line: each line is answered in its order, a
    client that has ended its side is kept for just its own answers, and of a `live` that ends each line that it left is named.
    """
    with Served(PLAN, starts=False) as it:
        noting(it)
        it.start()
        ann, other, bob, cas = it.client("ann"), it.client("ann"), it.client("bob"), it.client("cas")
        assert cas.ask("look 0") == "look 0"
        half = it.client("ann")
        half.say("look 1\nfull\nlook 2\n")
        half.stream.shutdown(1)
        answered = [NOTE, NOTE, "look 1", NOTE, NOTE, "error 2 full", NOTE, NOTE, "look 2"]
        assert [half.hear() for _ in range(10)] == [*answered, ""]
        for client in (ann, other):
            assert [client.hear() for _ in range(9)] == answered
        assert [bob.hear() for _ in range(6)] == [NOTE] * 6
        ann.say("look 3\nhold\nhold\n")
        assert [[one.hear() for _ in range(7)] for one in (ann, other)] == [[NOTE, NOTE, "look 3", *[NOTE] * 4]] * 2
        assert [bob.hear() for _ in range(6)] == [NOTE] * 6
        bob.say("hold\n")
        assert [[one.hear() for _ in range(2)] for one in (ann, other, bob)] == [[NOTE, NOTE]] * 3
        cas.say("die\n")
        lost, ended = (
            "error: not answered, send it again if you want it: ",
            "note: the farm ended with status 9 and is started again",
        )
        assert [ann.hear() for _ in range(5)] == [f"{lost}hold", f"{lost}hold", ended, "note: the farm goes on", NOTE]
        assert [bob.hear() for _ in range(4)] == [f"{lost}hold", ended, "note: the farm goes on", NOTE]
        assert [cas.hear() for _ in range(3)] == [f"{lost}die", ended, "note: the farm goes on"]
        assert it.stop()[0] == 0


def test_terminals_show_notes() -> None:
    """A terminal shows each note with what it means, and none is taken for the answer to a line."""
    with Served(PLAN, starts=False) as it:
        noting(it)
        it.start()
        done = run_text([f"{TOP}/connect", it.folder, "ann"], "look 0\nrest\nlook 0\n")
        means = "  (the room of your machine is used up, so its nodes do nothing more: restart begins anew with a room)"
        assert (done.returncode, done.stderr) == (0, "")
        assert done.stdout.splitlines() == [
            *[NOTE, means] * 2,
            "look 0",
            *[NOTE, means] * 2,
            "rest",
            *[NOTE, means] * 2,
            "look 0",
        ]
        done = run_text([f"{TOP}/connect", it.folder, "operator"], "memory\nusers\n")
        assert (done.returncode, done.stderr) == (0, "")
        assert done.stdout.splitlines() == [
            "!memory 20971520 134217728",
            *(f"!users {name} 0 9 1000 quiet rests 60 64 5 256" for name in ("ann", "bob", "cas")),
        ]
        assert it.stop()[0] == 0


def test_serve_says_rooms() -> None:
    """`serve` hands the rooms to `live`, says what all of them may take beside what is there, and warns if that is less."""
    with Served(PLAN, starts=False) as it:
        noting(it)
        told = []
        rows: list[list[str]] = [[], ["--room", "64G", "--record-room", "1M"], ["--record-room", "64G"]]
        for words in rows:
            it.start(*words)
            assert [word for word in words if word not in words_got(it)[-1].split()] == []
            status, errors = it.stop()
            assert status == 0
            told.append(
                [line for line in errors.decode().splitlines() if "domains may take" in line or "warning" in line]
            )
        assert ["--room" in words for words in words_got(it)] == [False, True, False]
        shown = [
            r"128\.0 MiB of memory .* and 512\.0 MiB on disk",
            r"128\.0 GiB of memory .* and 2\.0 MiB on disk",
            r"128\.0 MiB of memory .* and 128\.0 GiB on disk",
        ]
        for lines, text in zip(told, shown):
            pattern = rf".* serve: the rooms of 2 domains may take {text} \(.*/farm has [\d.]+ [MG]iB free\)"
            assert (pattern, lines[0], re.fullmatch(pattern, lines[0]) is not None) == (pattern, lines[0], True)
        # there may be a machine that has so much
        has = os.sysconf("SC_PHYS_PAGES") * os.sysconf("SC_PAGE_SIZE") >= 128 << 30
        assert (len(told[0]), has or "warning: if all rooms are used up there isn't memory for them" in told[1][1]) == (
            1,
            True,
        )
        for words in (
            ["--room", "1023K"],
            ["--room", "65G"],
            ["--record-room", "0"],
            ["--room", "12m"],
            ["--room", ""],
        ):
            done = run_text(it.call(*words), env=it.env)
            assert (done.returncode, "a number is wanted, from 1M to 64G, such as 64M" in done.stderr) == (
                2,
                True,
            )


@contextlib.contextmanager
def noting_course(*more: str) -> Iterator[tuple[Course, Callable[[], list[str]]]]:
    """A class of one student whose farm is run by the program that says notes, and the words that this got."""
    with Course(1, *more) as it, Served(PLAN, starts=False) as room:
        noting(room)
        put(room.env["LIVE"], NOTING.replace('("ann", "bob", "cas")', '["student-1"]'))
        it.env["LIVE"] = room.env["LIVE"]
        yield it, lambda: words_got(room)


def runs_with(it: Course, got: Callable[[], list[str]], *words: str) -> str:
    """The rooms with which a farm runs that is started by these words and stopped again."""
    assert it.call("start", *words, it.folder).stdout == "farm-1: up, 1 user\n"
    told = got()[-1]
    assert it.must("stop") == "farm-1: off\n"
    found = re.search(r"--room \w+ --record-room \w+", told)
    assert found
    return found[0]


def test_class_keeps_rooms() -> None:
    """What a class was made with, or started with last, is what its farms run with; other rooms want farms that are off. The table
    shows what is used, and the memory of the farm."""
    with noting_course("--record-room", "200M") as (it, got):
        assert runs_with(it, got, "--room", "2M") == "--room 2M --record-room 200M"
        assert runs_with(it, got, "--record-room=3M") == "--room 2M --record-room 3M"
        assert it.must("start") == "farm-1: up, 1 user\n"
        assert "--room 2M --record-room 3M" in got()[-1]
        assert it.call("start", "--room", "2M", it.folder).returncode == 0
        done = it.call("start", "--room", "5M", it.folder)
        assert (done.returncode, done.stderr) == (
            1,
            f"class: farm-1 is up, as it was started: class stop {it.folder} first\n",
        )
        rows = it.must("status").splitlines()
        assert [re.split("  +", row)[4:8] for row in rows[:2]] == [
            ["used", "room", "records", "now"],
            ["0.9%", "93.8%", "0.0M", "quiet rests"],
        ]
        assert rows[2:] == ["", "farm-1 has 20 MiB of memory, and its rooms may take 128 MiB"]


def test_class_serve_has_what_is_kept() -> None:
    """One farm of a class by itself, as a service manager starts it, has the rooms that are kept of the class."""
    with noting_course("--room", "2M") as (it, got):
        place = os.path.realpath(it.folder)
        usage = "serve wants the folder of a farm behind it or that of a class, or --sync and the folder. Try: class serve course/farm-1"
        for words, told in (
            ((), usage),
            (("--mode", "666", f"{place}/farm-1"), usage),
            ((f"{place}/farm-9",), f"{place}/farm-9 is no farm of its class: there are farm-1"),
        ):
            done = it.call("serve", *words)
            assert (done.returncode, done.stderr) == (1, f"class: {told}\n")
        with subprocess.Popen(
            [f"{TOP}/class", "serve", "--sync", f"{place}/farm-1"], env=it.env, stderr=subprocess.DEVNULL
        ) as one:
            while not os.path.exists(f"{it.env['LIVE']}.words") and one.poll() is None:
                time.sleep(0.02)
            assert it.must("start") == "farm-1: up, 1 user\n"
            assert "--room 2M --record-room 256M --line-steps 16G --restart-steps 64G --sync --record" in got()[-1]
            assert (it.lock(1), it.must("stop"), one.wait()) == (one.pid, "farm-1: off\n", 0)


def test_class_checks_rooms() -> None:
    """A class of an earlier version has the usual rooms, wrong ones are refused, and it is said if there isn't so much."""
    with noting_course() as (it, got):
        path, names = f"{it.folder}/class.json", f"{it.room.name}/many.txt"
        with open(path, encoding="utf-8") as file:
            kept = json.load(file)
        bounds = {"room": "64M", "record_room": "256M", "line_steps": "16G", "restart_steps": "64G"}
        assert kept.pop("rooms") == bounds
        for rooms in ({"room": "1K"}, {"room": 5}, [], {"zed": "1M"}, None):
            with open(path, "w", encoding="utf-8") as file:
                json.dump({**kept, **({} if rooms is None else {"rooms": rooms})}, file)
            done = it.call("status", it.folder)
            assert (done.returncode, "class.json isn't as class wrote it" in done.stderr) == (
                (1, True) if rooms is not None else (0, False)
            )
        assert runs_with(it, got) == "--room 64M --record-room 256M"
        put(names, "".join(f"Student {number}\n" for number in range(1000)))
        told = it.call("--students", names, "--nodes", "1", "--room", "64G", f"{it.room.name}/many").stdout.splitlines()
        assert (told[1].startswith("note: the rooms of 1000 domains may take 64000.0 GiB of memory ("), told[2]) == (
            True,
            "warning: if all rooms are used up there isn't memory for them: give smaller ones by --room",
        )
