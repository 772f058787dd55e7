"""`serve` and `connect` as people use them: whose name stands before a line, clients that don't read, that flood or vanish, a `live`
or a `serve` that is killed, a second `serve`, and what a terminal says."""

import contextlib
import fcntl
import os
import random
import re
import signal
import threading
import time
from concurrent.futures import ThreadPoolExecutor

import pytest
from support.live_lines import PLAN, SECONDS, median
from support.serving_trials import (
    LONG_LINE,
    MOST_LINE,
    Served,
    connections,
    fuzzed,
    plan_of_users,
    talk,
    times,
    without_tag,
)
from support.trials import TOP, put, run, run_together


def speak(it: Served, name: str, lines: list[bytes]) -> int:
    """Sends all lines by one connection after another, each of which ends behind a half line; how many lines it
    heard."""
    heard = 0
    for some, half in connections(random.Random(name), lines, 2 + len(lines) // 10):
        told, is_long = talk(it, name, some, half), len(some[-1]) >= LONG_LINE
        assert told.count(b"error: the last line has no line feed, so it is not sent\n") == int(bool(half))
        assert told.count(b"so no more is read of this connection\n") == int(is_long)
        heard += told.count(b"\n") - bool(half) - is_long
    return heard


def is_line(logged: bytes, prefix: bytes, line: bytes) -> bool:
    """Whether what reached `live` is this line of a speaker without its tag, or so much of a long one that it is too long."""
    text = without_tag(line)
    whole = text if prefix == b"!" and text[:1] == b"!" else prefix + text
    return logged == whole or (len(logged) > MOST_LINE and whole.startswith(logged))


def test_names_stand_before_lines(count: int | None) -> None:
    """Whatever bytes come, each line that reaches `live` is its sender's, whole and in order."""
    with Served(PLAN, logged=True) as it:
        names = ["ann", "bob", "cas", "operator"]
        sent = {name: fuzzed(random.Random(seed), (count or 4000) // 4, name) for seed, name in enumerate(names)}
        with ThreadPoolExecutor() as pool:
            heard = dict(zip(names, pool.map(lambda name: speak(it, name, sent[name]), names)))
        assert it.stop()[0] == 0
        # `serve` itself asks now and then whether `live` still answers
        logged = [line for line in it.logged()[2:-1] if line != b"!words"]
    assert len(logged) == sum(len(lines) for lines in sent.values())
    for name, lines in sent.items():
        prefix = b"!" if name == "operator" else name.encode() + b" "
        own = [line for line in logged if line.startswith(prefix)]
        assert len(own) == len(lines)
        assert next((at for at, line in enumerate(lines) if not is_line(own[at], prefix, line)), None) is None
        if name != "operator":
            assert heard[name] == len(lines)


def test_long_and_half_lines() -> None:
    """Of a line of 10 MB, with its end or without, so much is read that it is answered `long`, and then no more of its
    connection. A line without its end isn't sent, and nobody else notices."""
    with Served(PLAN, logged=True) as it:
        for end in (b"\nlook 0\n", b""):
            told = talk(it, "ann", [], b"look 0" + b"0" * 10_000_000 + end).decode().splitlines()
            assert (re.fullmatch(r"error \d+ long", told[-1]) is not None, told[:-1]) == (
                True,
                [f"error: a line has {MOST_LINE} bytes at most, so no more is read of this connection"],
            )
        told = talk(it, "ann", [b"look 0"], b"look 0").decode().splitlines()
        assert it.ask("bob", "look 0") == "look 0 booting overruns 0 0 0 0"
        it.stop()
        assert len(it.logged()) == 7
    assert sorted(told) == [
        "error: the last line has no line feed, so it is not sent",
        "look 0 booting overruns 0 0 0 0",
    ]


def test_clients_of_a_user_hear_all() -> None:
    with Served(PLAN) as it:
        clients = [it.client("ann") for _ in range(16)]
        for client in clients:
            client.say("look 0\n")
        lost = it.client("ann")
        assert lost.hear() == "error: 16 connections are open, close one of them first"
        assert lost.hear() == ""
        clients[0].say("rest\n")
        assert [client.until("rest") for client in clients] == ["rest quiet"] * 16
        bob = it.client("bob")
        assert bob.ask("rest") == "rest quiet"
        assert it.stop()[0] == 0
        assert [bob.hear(), bob.hear()] == ["note: the farm is stopped", ""]


def vanish(it: Served, is_over: threading.Event) -> None:
    """Clients that send the beginning of something and are gone, one after another."""
    while not is_over.is_set():
        try:
            client = it.client("bob")
        except BlockingIOError:
            # more wait before the socket than the system keeps
            time.sleep(0.001)
            continue
        client.stream.sendall(b"config " + b"ff" * 100 + b"\nlook 0\nlo")
        client.lines.close()
        client.stream.close()


@pytest.mark.alone
def test_nobody_delays_another() -> None:
    """How long ann waits for an answer: alone, beside a client that asks much and doesn't read, beside one that floods,
    and beside clients that vanish."""
    with Served(PLAN) as it:
        ann = it.client("ann")
        assert median(times(ann)) <= 0.1
        for speaker, line, reads in (("operator", b"words", False), ("bob", b"config " + b"ff" * 100, True)):
            is_over, cuts = threading.Event(), list[str]()
            flood = threading.Thread(target=it.flood, args=(speaker, reads, is_over, cuts, line))
            flood.start()
            time.sleep(0.3)
            beside = times(ann)
            end = time.monotonic() + SECONDS
            while not reads and not cuts and time.monotonic() < end:
                time.sleep(0.02)
            is_over.set()
            flood.join()
            assert median(beside) <= 0.1
            assert reads or cuts, "a client that doesn't read isn't cut off"
        is_over = threading.Event()
        vanishing = threading.Thread(target=vanish, args=(it, is_over))
        vanishing.start()
        beside = times(ann)
        is_over.set()
        vanishing.join()
        assert median(beside) <= 0.1
        assert it.stop()[0] == 0


def test_clients_vanish_at_each_byte() -> None:
    """A client may end behind any byte: what reaches `live` is whole lines alone, and others notice nothing."""
    text = b"look 0\nconfig 04\n"
    with Served(PLAN, logged=True) as it:
        for cut in range(len(text) + 1):
            for name in ("bob", "cas"):
                client = it.client(name)
                client.stream.sendall(text[:cut])
                client.lines.close()
                client.stream.close()
            assert it.ask("ann", "look 0") == "look 0 booting overruns 0 0 0 0"
        assert it.stop()[0] == 0
        logged = [line for line in it.logged() if line.startswith((b"bob", b"cas"))]
    whole = {name + b" " + line for name in (b"bob", b"cas") for line in text.splitlines()}
    assert {*logged} - whole == set()
    assert 0 < len(logged) <= 24, f"{len(logged)} lines of 24"


def test_unanswered_lines_are_named() -> None:
    """If `live` is killed each client is told which of its user's lines weren't answered, and nobody is told of
    another's."""
    lost = "error: not answered, send it again if you want it: "
    with Served(PLAN) as it:
        ann, bob, operator = it.client("ann"), it.client("bob"), it.client("operator")
        assert ann.ask("look 0") == "look 0 booting overruns 0 0 0 0"
        with it.held_live() as number:
            ann.say("look 0\nwrite 0 " + "ab" * 150 + "\nlook \x010\n")
            operator.say("words\n!users\n")
            time.sleep(0.3)
            os.kill(number, signal.SIGKILL)
        ended = ["note: the farm ended by signal 9 (SIGKILL) and is started again", "note: the farm goes on"]
        assert [ann.hear() for _ in range(5)] == [
            f"{lost}look 0",
            f"{lost}write 0 {'ab' * 96}..",
            f"{lost}look \x010",
            *ended,
        ]
        assert [operator.hear() for _ in range(4)] == [f"{lost}words", f"{lost}!users", *ended]
        assert [bob.hear() for _ in range(2)] == ended
        assert ann.ask("look 0") == "look 0 booting overruns 0 0 0 0"
        assert it.stop()[0] == 0


# A `live` that reads the beginning of one line alone, as if there were no memory for the rest of it.
CUTTING = """#!/usr/bin/env python3
import os
import subprocess
import sys
import threading

live = subprocess.Popen([{live!r}, *sys.argv[1:]], stdin=subprocess.PIPE)
threading.Thread(target=lambda: os._exit(live.wait())).start()
for line in sys.stdin.buffer:
    live.stdin.write(line.replace(b"ann look 7", b"an"))
    live.stdin.flush()
live.stdin.close()
"""


def test_unread_lines_are_named(live: str) -> None:
    """A line whose user `live` doesn't know, since it had no memory to read it, is named to who sent it. The lines after it are
    answered."""
    with Served(PLAN, starts=False) as it:
        it.env["LIVE"] = f"{it.room.name}/cutting"
        put(it.env["LIVE"], CUTTING.format(live=live))
        os.chmod(it.env["LIVE"], 0o755)
        it.start()
        ann, bob, operator = it.client("ann"), it.client("bob"), it.client("operator")
        assert ann.ask("look 0") == "look 0 booting overruns 0 0 0 0"
        assert ann.ask("look 7") == "error: not answered, send it again if you want it: look 7"
        assert re.fullmatch(r"note: error \d+ user", operator.hear())
        assert ann.ask("#7 look 7") == "#7 error: not answered, send it again if you want it: look 7"
        assert [ann.ask("#8 rest"), ann.ask("look 0"), bob.ask("rest")] == [
            "#8 rest quiet",
            "look 0 booting overruns 0 0 0 0",
            "rest quiet",
        ]
        assert it.stop()[0] == 0


def write_words(it: Served, name: str) -> None:
    """A user writes words and reads them back while `live` is killed: what was told is there."""
    client = it.client(name)
    client.must("config 01000103")
    for value in range(1, 61):
        client.must(f"poke 0 80000100 {value:08x}")
        assert client.must("peek 0 80000100") == f"peek 0 {value:08x}", name


def test_live_is_killed_under_sixteen() -> None:
    """Sixteen users write and read back while `live` is killed three times; then the farm is stopped and started
    again."""
    names = [f"user-{it}" for it in range(16)]
    with Served(plan_of_users(names)) as it:
        with ThreadPoolExecutor(16) as pool:
            users = [pool.submit(write_words, it, name) for name in names]
            for _ in range(3):
                time.sleep(0.2)
                it.kill_live()
            for user in users:
                user.result()
        assert it.stop()[0] == 0
        it.start()
        assert [it.ask(name, "peek 0 80000100") for name in names] == ["peek 0 0000003c"] * 16
        assert it.stop()[0] == 0


def test_live_ends_too_often() -> None:
    """After five starts in a minute `serve` gives up, and says what to do."""
    with Served(PLAN) as it:
        ann = it.client("ann")
        for _ in range(5):
            it.kill_live()
            assert ann.hear() == "note: the farm ended by signal 9 (SIGKILL) and is started again"
            assert ann.hear() == "note: the farm goes on"
        it.kill_live()
        _, errors = it.process.communicate(timeout=SECONDS)
        assert ann.hear() == "note: the farm ended by signal 9 (SIGKILL) and is started again"
        assert ann.until("note: live ended")[:55] == "note: live ended 6 times in a minute, the last time by "
        assert it.process.returncode == 1
        assert b"start serve again" in errors
        assert [name for name in os.listdir(it.folder) if name.endswith(".sock")] == []


def test_one_serve_at_a_time() -> None:
    """A second `serve` is refused; behind one that was killed the next goes on as soon as the records are free."""
    with Served(PLAN) as it:
        second = run(it.call(), more=it.env)
        assert second.status == 1
        assert b"is served already" in second.errors
        assert it.ask("ann", "look 0") == "look 0 booting overruns 0 0 0 0"
        modes = {name: os.stat(f"{it.folder}/{name}.sock").st_mode & 0o777 for name in ("ann", "operator")}
        assert modes == {"ann": 0o600, "operator": 0o600}
        it.process.kill()
        it.process.wait()
        it.start("--mode", "660", "--group", str(os.getgid()))
        assert it.ask("ann", "look 0") == "look 0 booting overruns 0 0 0 0"
        modes = {name: os.stat(f"{it.folder}/{name}.sock").st_mode & 0o777 for name in ("ann", "operator")}
        assert modes == {"ann": 0o660, "operator": 0o600}
        it.client("operator").say("stop\n")
        assert it.process.wait(timeout=SECONDS) == 0


def is_free(lock: int) -> bool:
    """Whether this process has a lock now."""
    with contextlib.suppress(BlockingIOError):
        fcntl.flock(lock, fcntl.LOCK_EX | fcntl.LOCK_NB)
        return True
    return False


def test_records_are_waited_for() -> None:
    """If another program has the records, a `serve` that is started says which, waits, and goes on when they are free."""
    with Served(PLAN) as it:
        ann = it.client("ann")
        assert [ann.ask("config 01000703"), ann.ask("poke 0 80000100 12345678")] == ["config -", "poke 0 9"]
        it.process.kill()
        it.process.wait()
        assert ann.hear() == ""
        with open(f"{it.folder}/records/lock", "rb") as lock:
            end = time.monotonic() + SECONDS
            while not is_free(lock.fileno()) and time.monotonic() < end:
                time.sleep(0.02)
            next_one = threading.Thread(target=it.start)
            next_one.start()
            time.sleep(2)
            assert next_one.is_alive()
        next_one.join()
        assert it.ask("ann", "peek 0 80000100") == "peek 0 12345678"
        status, errors = it.stop()
        assert (
            status,
            errors.decode().count(f"another live (process {os.getpid()}) still has"),
            "records there" in errors.decode(),
        ) == (
            0,
            1,
            False,
        )


@pytest.mark.parametrize(
    ("plan", "says"),
    [
        ("version = 4\n", b"the plan is refused"),
        (plan_of_users(["operator"]), b"give him another name"),
        (None, b"can't be read"),
    ],
)
def test_plans_are_refused(plan: str | None, says: bytes) -> None:
    with Served(plan or PLAN, starts=False) as it:
        if plan is None:
            os.remove(it.plan)
        status, _, errors = run(it.call())
        assert status == 1
        assert says in errors


LOAD = "assembles a program and boots it; long code is poked first"
# The code of hello.s, worked in docs/LAB.md.
HELLO = "b44621fb24f246fb21f568656c6c6f0a"
# What is typed, and what is printed. The hosts of the plan are at port 7, and link 0 of each node is at port 0.
TYPED = [
    ("why", "why after 0 events"),
    ("", "why node 0 waits for a control byte."),
    ("", "why   No byte comes by link 0: no input drives output 0."),
    ("", "why end"),
    ("why 9", "why 9 nosuch"),
    ("", "  (there is no such host or node, or the host is another user's)"),
    ("why 0 1", "error: '1' is too much behind why. Try: why 0"),
    ("join 0 7", "config -"),
    ("load 0 hello", "boot 0 17"),
    ("collect 0", 'collect 0 68656c6c6f0a  "hello\\n"'),
    ("reset 0", "reset 0 ok"),
    # a program in occam, whose ending may be left out too
    ("load 0 capitals", "boot 0 56"),
    ("send 0 hi", "write 0 2"),
    ("collect 0", 'collect 0 4849  "HI"'),
    ("reset 0", "reset 0 ok"),
    ("load 0 echo.s", "boot 0 15"),
    ('send 0 "hi\\n"', "write 0 3"),
    ("collect 0", 'collect 0 68690a  "hi\\n"'),
    # 'say "a" A', a quote and an escape without quotes round them
    ('send 0  say "a" \\x41 ', "write 0 9"),
    ("text 0", 'collect 0 736179202261222041  "say \\"a\\" A"'),
    # numbers, and the same as a text; what isn't printable and is whole words is shown as numbers
    ("send 0 word 5 -7", "write 0 8"),
    ("collect 0", "collect 0 05000000f9ffffff  5 -7"),
    ("send 0 byte 255 #0a", "write 0 2"),
    ("collect 0", "collect 0 ff0a"),
    ("send 0 hex 0a0b", "write 0 2"),
    ("collect 0", "collect 0 0a0b"),
    ('send 0 "word 5"', "write 0 6"),
    ("collect 0", 'collect 0 776f72642035  "word 5"'),
    ("send 0 word of mouth", "write 0 13"),
    ("collect 0", 'collect 0 776f7264206f66206d6f757468  "word of mouth"'),
    ("send 0 word 5x", "error: '5x' is no number where a word is wanted. In quotes it is a text"),
    ("send 0 h\u00e9", "write 0 3"),
    ("text 0", 'collect 0 68c3a9  "h\u00e9"'),
    ('send 0 "a\\q"', 'error: \\q is no escape: there are \\n \\r \\t \\0 \\\\ \\" and \\x41'),
    ('send 0 "a', 'error: "a has no closing quote, or something behind it. Try: send 0 "hello\\n"'),
    ("text 0 1", "error: '1' is too much behind text. Try: text 0"),
    # the node isn't reset, so its program sends the code back
    (f"boot 0 {HELLO}", "boot 0 17"),
    ("collect 0", "collect 0 10b44621fb24f246fb21f568656c6c6f0a"),
    ("reset 0", "reset 0 ok"),
    ("load 0 hello", "boot 0 17"),
    ("collect 0", 'collect 0 68656c6c6f0a  "hello\\n"'),
    # the program has ended, so nobody takes the code, and the host waits for ever
    (f"boot 0 {HELLO}", "boot 0 17"),
    ("reset 0", "reset 0 ok"),
    (
        "load 0 hello",
        "error: a byte of host 0 is stuck at node 0, and a reset doesn't help. Type restart, and join again, or "
        "connect --unchecked sends it even so",
    ),
    ("collect 0", "collect 0 -"),
    ("", "  (no byte has come: is the host joined with a node (join), and what does the node do (look)?)"),
    (
        "",
        "  (a byte of host 0 was lost before, so the host sends nothing more. Type restart, and join again before "
        "anything is sent)",
    ),
    ("restart", "restart ok"),
    ("join 0 7", "config -"),
    ("load 0 hello", "boot 0 17"),
    ("collect 0", 'collect 0 68656c6c6f0a  "hello\\n"'),
    ("help load", f"{'load 0 hello.s':<32} {LOAD}"),
    *(
        ("", " " * 33 + text)
        for text in (
            "a file whose name ends with .occ has a program in occam, which is",
            "compiled instead",
            "the file is looked for in the folder where this terminal was",
            "opened, then among the examples",
            "a node that has booted takes no other boot until it is reset (reset",
            "0): if the bytes would boot nothing it says so, and asks what to do",
        )
    ),
    ("lok 0", "error: there is no verb 'lok'. Is it look? Try: look 0"),
    ("Join 0 7", "error: there is no verb 'Join'. Is it join? Try: join 0 7"),
    ("LOAD 0 hello", "error: there is no verb 'LOAD'. Is it load? Try: load 0 hello.s"),
    ("join 0 port", "error: 'port' is wrong: join wants the number of a port there, such as 7. Try: join 0 7"),
    ("look zero", "error: 'zero' is wrong: look wants the number of a node there, such as 0. Try: look 0"),
    ("look 9", "look 9 nosuch"),
    ("", "  (there is no such host or node, or the host is another user's)"),
]


QUEUE = "as its queue is full: is it joined with a node (join) that takes them?)"
FULL = [
    "restart ok",
    "write 0 4090",
    "poke 0 6",
    f"  (the host took 6 of 9 bytes, {QUEUE}",
    "boot 0 0",
    "  (all pokes went wrong, so the program isn't there as it should be)",
    "boot 0 0",
    f"  (the host took 0 of 17 bytes, {QUEUE}",
    "write 0 0",
    f"  (the host took 0 of 3 bytes, {QUEUE}",
]


def test_terminals_help() -> None:
    env = {**os.environ, "HOME": "/nonexistent"}

    def typed(name: str, lines: str, *words: str) -> list[str]:
        return run_together([f"{TOP}/connect", it.folder, name, *words], lines, env).stdout.splitlines()

    with Served(PLAN) as it:
        assert typed("ann", "".join(f"{line}\n" for line, _ in TYPED)) == [answer for _, answer in TYPED]
        status, _, errors = run([f"{TOP}/connect", it.folder, "zed"])
        assert status == 3
        assert b"there are ann, bob, cas, operator" in errors
        assert typed("bob", "join 0 7\nload 0 long\ncollect 0\n")[:2] == ["config -", "boot 0 9"]
        # the host keeps 4,096 bytes, so it has room for 6, and for nothing behind them
        lines = f"restart\nwrite 0 {'00' * 4090}\nload 0 long\nload 0 hello\nsend 0 a\\x41\\n\n"
        told = typed("ann", lines, "--unchecked")
        assert [re.sub(r"\d+ of \d+ pokes", "all pokes", line) for line in told] == FULL
        assert it.stop()[0] == 0


# Two nodes, with the link 1 of the first and both of the second, and two users of one domain.
TWO_NODES = """version = 3

[[domain]]
user = [{ name = "ann", host = [4, 5] }, { name = "bob", host = [6] }]
range = [[0, 7]]
limit = 1000000

[[domain.node]]
memory = 4096
links = [-1, 1, -1, -1]

[[domain.node]]
memory = 4096
links = [2, 3, -1, -1]
"""


def test_hints_name_own_ports() -> None:
    """What a terminal tells somebody to try is for their own ports and their own host, if the plan can be read."""

    def typed(it: Served, name: str, text: str) -> list[str]:
        return run_together([f"{TOP}/connect", it.folder, name], text).stdout.splitlines()

    text = "join\nconfgi\njoin 1 4\nsned\n"
    with Served(TWO_NODES) as it:
        for name, port, host in (("ann", 4, 0), ("bob", 6, 2)):
            assert typed(it, name, text) == [
                f"error: join wants the number of a port behind it, such as 1. Try: join 1 {port}",
                f"error: there is no verb 'confgi'. Is it config? Try: config 01010{port}03",
                "config -",
                f"error: there is no verb 'sned'. Is it send? Try: send {host} \"hello\\n\"",
            ]
        assert typed(it, "bob", "join 1 6\nhelp load\n")[:2] == ["config -", f"{'load 2 hello.s':<32} {LOAD}"]
        # the farm has a copy of its plan, by which terminals go
        os.remove(it.plan)
        assert typed(it, "ann", "JOIN\n")[0][-8:] == "join 1 4"
        it.plan = f"{it.folder}/plan"
        os.rename(it.plan, f"{it.plan}.kept")
        assert typed(it, "bob", "JOIN\n") == ["error: there is no verb 'JOIN'. Is it join? Try: join P Q"]
        for plan in (
            "version = 3",
            "domain = 3",
            "domain = [3]",
            '[[domain]]\nuser = [{ name = "bob" }]',
            "domain = [",
        ):
            put(it.plan, plan)
            assert typed(it, "bob", "JOIN\n") == ["error: there is no verb 'JOIN'. Is it join? Try: join P Q"]
        os.rename(f"{it.plan}.kept", it.plan)
        assert it.stop()[0] == 0
        # the copy is a plan too
        it.start()
        assert (typed(it, "ann", "JOIN\n")[0][-8:], it.stop()[0]) == ("join 1 4", 0)
