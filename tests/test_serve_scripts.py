"""Scripts at a farm that is served: the package `nadzsumek`, lines behind `connect -c`, and the tags by which each of
them hears its own answers alone."""

import asyncio
import json
import os
import re
import signal
import threading
import time
from collections.abc import Callable
from typing import Any, TypeVar

from nadzsumek import Farm, FarmError, Loaded, Look, NoFarm, NotAnswered, Refused, Rest, State
from support.live_lines import PLAN, SECONDS
from support.screens import Screen
from support.serving_trials import MOST_LINE, Served, plan_of_users
from support.trials import TOP, put, run_together

Raised = TypeVar("Raised", bound=Exception)
LOOKED = "look 0 booting overruns 0 0 0 0"
LOST = "error: not answered, send it again if you want it: "
HELLO = bytes.fromhex("b44621fb24f246fb21f568656c6c6f0a")
# Counts down from 30,000, and then sends a byte.
SLOW = """        local count
        ajw 4
        ldc 30000
        stl count
again:  ldl count
        adc -1
        stl count
        ldl count
        eqc 0
        cj again
        mint
        ldc 'x'
        outbyte
        stopp
"""


def raised(call: Callable[[], object], kind: type[Raised]) -> Raised:
    """What a call raises."""
    try:
        value = call()
    except kind as error:
        return error
    raise AssertionError(f"{value!r} in place of {kind.__name__}")


def test_tags_name_answers() -> None:
    """A line with a tag is answered to its client alone, with the tag before each line; who has sent one hears no answers to
    others. What looks like a tag and is none goes on as it is."""
    with Served(PLAN, logged=True) as it:
        one, other, operator = it.client("ann"), it.client("ann"), it.client("operator")
        one.say("#7 why\n#8 lok 0\n#999999999 look 0\n")
        assert [one.hear() for _ in range(4)] == [
            "#7 why after 0 events",
            "#7 why node 0 waits for a control byte.",
            "#7 why   No byte comes by link 0: no input drives output 0.",
            "#7 why end",
        ]
        assert (re.fullmatch(r"#8 error \d+ verb", one.hear()) is not None, one.hear()) == (
            True,
            f"#999999999 {LOOKED}",
        )
        other.say("look 0\n")
        assert other.hear() == LOOKED
        one.say("rest\n")
        assert [client.hear() for client in (one, other)] == ["rest quiet"] * 2
        for line in ("#x look 0", "#1234567890 look 0", "#7", "#7look 0", "##7 look 0"):
            assert re.fullmatch(r"error \d+ verb", other.ask(line)) is not None
        operator.say("#1 users\n#2 restart ann\n#3 rest\n")
        told = [operator.hear() for _ in range(5)]
        # the domain's own thread answers a restart, later than the thread that reads answers what is wrong
        assert sorted(line.split(" ")[:3] for line in told) == [
            ["#1", "!users", "ann"],
            ["#1", "!users", "bob"],
            ["#1", "!users", "cas"],
            ["#2", "!restart", "ann"],
            ["#3", "!", "error"],
        ]
        with it.held_live() as number:
            one.say("#5 look 0\n")
            other.say("look 0\n")
            time.sleep(0.2)
            os.kill(number, signal.SIGKILL)
        ended = "note: the farm ended by signal 9 (SIGKILL) and is started again"
        assert [one.hear(), one.hear()] == [f"#5 {LOST}look 0", ended]
        assert [other.hear(), other.hear()] == [f"{LOST}look 0", ended]
        one.until("note: the farm goes on")
        one.say(f"#6 write 0 {'0' * MOST_LINE}\n")
        assert re.fullmatch(r"#6 error \d+ long", one.until("#6")) is not None
        it.stop()
        assert not any(line.startswith(b"ann #7 ") for line in it.logged())


def test_scripts_and_terminals_of_one_user() -> None:
    """Two scripts and a terminal speak as one user at once, and another user beside them: each hears his own answers."""
    with Served(PLAN) as it, Screen([f"{TOP}/connect", it.folder, "ann"], HOME=it.room.name) as screen:
        screen.until("ann> ")
        wrong, is_over = [], threading.Event()

        def ask(name: str, node: int) -> None:
            try:
                with Farm(it.folder).user(name) as user:
                    while not is_over.is_set():
                        told = [raised(lambda: user.look(node), Refused).word, user.peek(0, 0x80000100)]
                        assert told == ["nosuch", None]
            except (AssertionError, FarmError) as error:
                wrong.append(repr(error))

        threads = [threading.Thread(target=ask, args=of) for of in (("ann", 5), ("ann", 6), ("bob", 7))]
        for thread in threads:
            thread.start()
        with Farm(it.folder).user("ann") as ann:
            for _ in range(50):
                assert (ann.look(0).state, ann.ask("look 3")) == (State.BOOTING, ["look 3 nosuch"])
        screen.line("look 0", [LOOKED])
        screen.line("rest", ["rest quiet"])
        is_over.set()
        for thread in threads:
            thread.join()
        assert (wrong, "nosuch" in screen.shown) == ([], False)
        screen.press("quit\r")
        screen.end()
        assert it.stop()[0] == 0


def test_verbs_have_results() -> None:
    """Each verb of a user, as a call of Python."""
    with Served(PLAN) as it, Farm(it.folder).user("ann") as ann:
        assert (Farm(it.folder).users(), ann.ports) == (["ann", "bob", "cas"], (0, 7, 0))
        assert [ann.join(0, 7), ann.poke(0, 0x80000100, 0xDEADBEEF), ann.peek(0, 0x80000100), ann.rest()] == [
            None,
            None,
            0xDEADBEEF,
            Rest.QUIET,
        ]
        assert [ann.load(0, "hello"), ann.collect(0, 6), ann.look(0), ann.reset(0)] == [
            Loaded(16, 0),
            b"hello\n",
            Look(State.IDLE, None, None, (0, 0, 0, 0)),
            None,
        ]
        assert (ann.boot(0, bytes.fromhex("21f1")), ann.look(0)) == (3, Look(State.HALTED, 2, 0x11, (0, 0, 0, 0)))
        assert (f"{ann.why(0)}".splitlines()[0][:22], ann.why().events > 20) == ("node 0 halted by fault", True)
        ann.reset(0)
        # long code is poked, from a file or from bytes
        assert (ann.load(0, HELLO + bytes(400)).pokes > 100, ann.collect(0, 6), ann.reset(0)) == (
            True,
            b"hello\n",
            None,
        )
        assert (
            ann.load(0, memoryview(HELLO)),
            ann.collect(0, 6),
            ann.config(b"\x02\x00\x02\x07"),
            ann.config(b"\x03"),
        ) == (Loaded(16, 0), b"hello\n", b"\x87\x80", b"")
        assert (ann.restart(), ann.join(0, 7), ann.load(0, f"{TOP}/examples/programs/echo.s")) == (
            None,
            None,
            Loaded(14, 0),
        )
        assert [ann.send(0, "hé\n"), ann.write(0, b"\0\1"), ann.collect(0, 6)] == [4, 2, "hé\n".encode() + b"\0\1"]
        assert [ann.send(0, ' say "\\"\0\x1b\t '), ann.collect(0, 12)] == [12, b' say "\\"\0\x1b\t ']
        assert it.stop()[0] == 0
        assert f"{raised(ann.rest, NoFarm)}" == "the farm has ended the connection"


def test_scripts_are_refused() -> None:
    """What the farm refuses is raised with its word, and what is no word of a verb isn't sent."""
    limited = PLAN.replace("limit = 1000000\n", "limit = 40\n")
    with Served(limited) as it, Farm(it.folder).user("ann") as ann, Farm(it.folder).user("bob") as bob:
        rows = [
            (lambda: ann.look(1), "nosuch"),
            (lambda: ann.why(4), "nosuch"),
            (lambda: bob.write(1, b"a"), "nosuch"),
            (lambda: ann.config(b"\x00\x00\x09"), "badport"),
            (lambda: ann.config(b"\x07"), "badcommand"),
            (lambda: ann.boot(0, b"1"), "refused"),
            (lambda: ann.boot(0, bytes(256)), "refused"),
            (bob.restart, "operator"),
            (lambda: bob.write(0, bytes(5000)), "hostfull"),
            (lambda: bob.send(0, "\n" * 3), "hostfull"),
            (lambda: ann.join(0, 9), "badport"),
            (lambda: bob.load(0, HELLO), "notbooting"),
            (lambda: bob.load(0, HELLO, checked=False), "hostfull"),
            (lambda: bob.load(0, HELLO + bytes(300), checked=False), "hostfull"),
            (lambda: ann.config(bytes(100)), "journalfull"),
        ]
        for call, word in rows:
            assert raised(call, Refused).word == word
        full = raised(lambda: bob.write(0, b"abc"), Refused)
        assert (full.line, full.answer, full.taken, full.number) == ("write 0 616263", "write 0 0", 0, None)
        for call in (
            lambda: ann.look(-1),
            lambda: ann.look(256),
            lambda: ann.join(0, 32),
            lambda: ann.poke(0, 1 << 32, 0),
            lambda: ann.write(0, b""),
            lambda: ann.send(0, ""),
            lambda: ann.load(0, "none.s"),
            lambda: ann.load(0, b""),
            lambda: ann.ask("look 0\nlook 0"),
        ):
            raised(call, (ValueError))
        raised(lambda: ann.look("0"), TypeError)
        for folder, name in ((it.folder, "zed"), (f"{it.folder}/none", "ann"), (it.plan, "ann")):
            raised(lambda: Farm(folder).user(name), NoFarm)
        many = [Farm(it.folder).user("cas") for _ in range(17)]
        assert f"{raised(many[-1].rest, NoFarm)}" == "16 connections are open, close one of them first"
        for one in many:
            one.close()
        with it.held_live() as number:
            late = raised(lambda: Farm(it.folder).user("ann", seconds=0.3).look(0), NotAnswered)
            killing = threading.Timer(0.2, os.kill, (number, signal.SIGKILL))
            killing.start()
            lost = raised(lambda: ann.look(0), NotAnswered)
        assert (f"{late}", f"{lost}") == (
            "look 0: no answer has come in 0.3 seconds",
            f"look 0: {LOST.removeprefix('error: ')}look 0",
        )
        assert ann.why().events == 40
        assert [note.text for note in ann.notes][-1] == "note: the farm goes on"
        assert it.stop()[0] == 0


def test_rooms_are_told_to_scripts() -> None:
    """A machine that rests is told by a note, to a callback too, and a line that needs more than the room is refused as full."""
    heard: list[Any] = []
    with Served(PLAN, starts=False) as it:
        it.start("--room", "1M")
        with Farm(it.folder).user("bob", heard.append) as bob:
            refused = raised(lambda: [bob.config(b"\x03" * 2000) for _ in range(100)], Refused)
            assert (refused.word, refused.answer) == ("full", f"error {refused.number} full")
            assert (bob.rest(), len(heard), heard == bob.notes) == (Rest.QUIET, 1, True)
            assert (heard[0].text, heard[0].room) == (f"note rests {heard[0].used} {1 << 20}", 1 << 20)
        assert it.stop()[0] == 0


def test_slow_programs_are_waited_for() -> None:
    """A `collect` with a count or a time waits for a program that computes, and for what another client sends it."""
    with Served(PLAN) as it, Farm(it.folder).user("bob") as bob:
        put(f"{it.room.name}/slow.s", SLOW)
        bob.join(0, 7)
        bob.load(0, f"{it.room.name}/slow.s")
        assert (bob.collect(0, count=1, seconds=SECONDS), bob.reset(0), bob.load(0, "echo")) == (
            b"x",
            None,
            Loaded(14, 0),
        )
        begun = time.monotonic()
        assert bob.collect(0, count=3, seconds=0.3) == b""
        took = time.monotonic() - begun
        other = it.client("bob")
        sending = [
            threading.Timer(after, other.say, (f"write 0 {digits}\n",))
            for after, digits in ((0.1, "6162"), (0.4, "63"))
        ]
        for one in sending:
            one.start()
        assert bob.collect(0, count=3) == b"abc"
        threading.Timer(0.1, other.say, ("write 0 7a\n",)).start()
        assert bob.collect(0, seconds=0.5) == b"z"
        killing = threading.Timer(0.3, it.process.kill)
        other.say("write 0 79\n")
        killing.start()
        assert raised(lambda: bob.collect(0, count=2), NoFarm).collected == b"y"
    assert 0.3 <= took < 5, f"0.3 seconds took {took:.2f}"


def test_users_of_asyncio() -> None:
    """Sixteen users at once, each with two tasks over one connection, by asyncio."""
    names = [f"user-{it}" for it in range(16)]

    async def use(farm: Farm, name: str) -> object:
        async with farm.async_user(name) as user:
            await user.join(0, 1)
            assert await user.load(0, "echo") == Loaded(14, 0)
            text = f"I am {name}\n"
            told, looks, _ = await asyncio.gather(user.collect(0, len(text), SECONDS), looked(user), user.send(0, text))
            assert (told, looks) == (text.encode(), {State.IDLE})
            try:
                await user.look(9)
            except Refused as refused:
                return refused.word
        return None

    async def looked(user: Any) -> set[State]:
        return {(await user.look(0)).state for _ in range(10)}

    async def all_of_them(folder: str) -> set[object]:
        return {*await asyncio.gather(*(use(Farm(folder), name) for name in names))}

    async def end(it: Served) -> tuple[str, str] | None:
        async with Farm(it.folder).async_user(names[0], seconds=0.3) as user:
            with it.held_live():
                try:
                    await user.rest()
                except NotAnswered as error:
                    told = f"{error}"
            it.process.kill()
            try:
                await user.rest()
            except NoFarm as error:
                return told, f"{error}"
        return None

    with Served(plan_of_users(names)) as it:
        assert asyncio.run(all_of_them(it.folder)) == {"nosuch"}
        assert asyncio.run(end(it)) == ("rest: no answer has come in 0.3 seconds", "the farm has ended the connection")


def test_lines_behind_c() -> None:
    """`connect -c` does the lines in their order, prints what a terminal would or JSON, and ends with the status of their answers."""
    why = [
        ("why 0", f"why {text}", None)
        for text in (
            "after 3 events",
            "node 0 waits for a control byte.",
            "  No byte comes by link 0: no input drives output 0.",
            "end",
        )
    ]
    rows = [
        (["-c", "look 0"], 0, f"{LOOKED}\n"),
        (
            ["-c", "look 0", "-c", "look 9", "-c", "rest"],
            1,
            f"{LOOKED}\nlook 9 nosuch\n"
            "  (there is no such host or node, or the host is another user's)\nrest quiet\n",
        ),
        (["-c", "lok 0"], 1, "error: there is no verb 'lok'. Is it look? Try: look 0\n"),
        (["-c"], 2, "usage: connect"),
        (["-c", "#", "-c", "quit", "-c", "look 9"], 0, ""),
        (["--jso", "-c", "rest"], 2, "usage: connect"),
    ]
    with Served(PLAN) as it:
        env = {**os.environ, "HOME": "/nonexistent"}

        def call(*words: str, text: str = "") -> tuple[int, str]:
            done = run_together([f"{TOP}/connect", *words], text, env)
            return done.returncode, done.stdout

        def objects(*words: str, status: int = 0, text: str = "") -> list[dict[str, Any]]:
            ended, told = call(it.folder, "ann", *words, "--json", text=text)
            assert (words, ended) == (words, status)
            return [json.loads(line) for line in told.splitlines()]

        for words, status, told in rows:
            ended, text = call(it.folder, "ann", *words)
            assert (words, ended, text[: len(told)]) == (words, status, told)
        assert call("-c", "look 0", it.folder, "ann") == (0, f"{LOOKED}\n")
        assert [(row["line"], row["answer"], row["refused"]) for row in objects("-c", "why 0")] == why
        rows_told = objects(
            "-c",
            "join 0 7",
            "-c",
            "load 0 long",
            "-c",
            "collect 0",
            "-c",
            "text 0",
            "-c",
            "look 9",
            "-c",
            "lok",
            status=1,
        )
        assert [(row["line"], row["refused"], row.get("result")) for row in rows_told] == [
            ("join 0 7", None, ""),
            ("load 0 long", None, 9),
            ("collect 0", None, "2a000000"),
            ("text 0", None, ""),
            ("look 9", "nosuch", None),
            ("lok", "wrong", None),
        ]
        assert objects(text="look 0\n\nreset 0\n")[0]["result"] == {
            "state": "idle",
            "fault": None,
            "operation": None,
            "overruns": [0] * 4,
        }
        # lines that come through a pipe have the same statuses
        for line, status in (
            ("look 0", 0),
            ("look 9", 1),
            ("config 07", 1),
            ("boot 0 21", 1),
            ("collect 0", 0),
            ("foo", 1),
        ):
            assert (line, call(it.folder, "ann", text=f"{line}\n")[0]) == (line, status)
        assert (call(it.folder, "zed", "-c", "rest")[0], call(f"{it.folder}/none", "ann")[0], call(it.folder)[0]) == (
            3,
            3,
            2,
        )
        users = call(it.folder, "operator", "-c", "users", "-c", "memory")[1].splitlines()
        assert [line.split(" ")[:2] for line in users[:3]] + [users[3].split(" ")[0]] == [
            *(["!users", name] for name in ("ann", "bob", "cas")),
            "!memory",
        ]
        assert call(it.folder, "operator", "-c", "stop", "-c", "users") == (0, "note: the farm is stopped\n")
        assert (it.process.wait(timeout=SECONDS), call(it.folder, "ann", "-c", "rest")[0]) == (0, 3)
