"""How long a user waits for an answer while others of the farm attack it: attacks, each by processes of its own."""

import array
import contextlib
import multiprocessing
import os
import socket
import threading
import time
from collections.abc import Callable
from typing import Any

import pytest
from support.serving_trials import Served, plan_of_users

LOOKED = "look 0 booting overruns 0 0 0 0"
USERS = [f"u{it:02}" for it in range(16)]
# The neighbour asks after this pause in seconds, which is what a person or a program at a terminal might do.
PAUSE = 0.004
# What boots a program that never ends: a message that joins node 0 with the host, and a jump to itself.
LOOP = ("config 01000103", "boot 0 b4600e")
# A domain of two users.
SHARED = """version = 3

[[domain]]
user = [{ name = "u00", host = [1] }, { name = "u01", host = [2] }]
range = [[0, 2]]
limit = 1000000000

[[domain.node]]
memory = 2048
links = [0, -1, -1, -1]
"""


def opened(path: str) -> socket.socket:
    one = socket.socket(socket.AF_UNIX, socket.SOCK_STREAM)
    one.settimeout(5)
    one.connect(path)
    return one


def drained(one: socket.socket) -> None:
    """Reads what comes until the connection ends."""
    with contextlib.suppress(OSError):
        while one.recv(1 << 16):
            pass


def again(path: str, act: Callable[[socket.socket], None]) -> None:
    """Does something at a connection, and at the next one when it has ended."""
    while True:
        try:
            with opened(path) as one:
                act(one)
        except OSError:
            time.sleep(0.001)


def flood(line: bytes, reads: bool = True, clients: int = 1) -> Callable[[str], None]:
    """Sends a line without end."""

    def act(one: socket.socket) -> None:
        if reads:
            threading.Thread(target=drained, args=(one,), daemon=True).start()
        text = (line + b"\n") * max(1, 20000 // len(line + b" "))
        while True:
            one.sendall(text)

    return on_threads(clients, lambda path: again(path, act))


def half(clients: int) -> Callable[[str], None]:
    """Sends a line that never ends."""

    def act(one: socket.socket) -> None:
        while True:
            one.sendall(b"0" * (1 << 16))

    return on_threads(clients, lambda path: again(path, act))


def vanish(path: str) -> None:
    again(path, lambda one: None)


def hold(path: str) -> None:
    """Opens 500 connections and keeps them."""
    kept: list[socket.socket] = []
    while len(kept) < 500:
        with contextlib.suppress(OSError):
            kept.append(opened(path))
    time.sleep(1000)


def descriptors(path: str) -> None:
    """Sends 200 open files in each message."""
    files = array.array("i", [os.open(os.devnull, os.O_RDONLY) for _ in range(200)])

    def act(one: socket.socket) -> None:
        threading.Thread(target=drained, args=(one,), daemon=True).start()
        while True:
            one.sendmsg([b"look 0\n"], [(socket.SOL_SOCKET, socket.SCM_RIGHTS, files)])

    again(path, act)


def on_threads(count: int, act: Callable[[str], None]) -> Callable[[str], None]:
    def run(path: str) -> None:
        for _ in range(count - 1):
            threading.Thread(target=act, args=(path,), daemon=True).start()
        act(path)

    return run


OTHERS, FIRST = USERS[1:], USERS[1:2]
# What is done, by whom, by how many processes each, and who has a program that never ends; a plan and words of its own.
ATTACKS: list[tuple[Any, ...]] = [
    ("none", None, [], 1, [], None, []),
    ("u01 floods look, and reads", flood(b"look 0"), FIRST, 1, [], None, []),
    ("u01 floods look, and doesn't read", flood(b"look 0", reads=False), FIRST, 1, [], None, []),
    ("u01, 16 clients that don't read", flood(b"look 0", reads=False, clients=16), FIRST, 1, [], None, []),
    ("u01 floods 100 bytes of config", flood(b"config " + b"ff" * 100), FIRST, 1, [], None, []),
    ("u01, 16 clients, 100 bytes of config", flood(b"config " + b"ff" * 100, clients=16), FIRST, 1, [], None, []),
    ("u01 floods lines of 1 MiB", flood(b"config " + b"ff" * 524000), FIRST, 1, [], None, []),
    ("u01 floods lines of 10 MB", flood(b"config " + b"ff" * 5000000), FIRST, 1, [], None, []),
    ("u01 floods empty lines", flood(b""), FIRST, 1, [], None, []),
    ("u01, 16 half lines without end", half(16), FIRST, 1, [], None, []),
    ("15 users, 16 half lines each", half(16), OTHERS, 1, [], None, []),
    ("u01 holds 500 connections", hold, FIRST, 1, [], None, []),
    ("u01 connects and vanishes", vanish, FIRST, 1, [], None, []),
    ("u01 connects and vanishes, 4 processes", vanish, FIRST, 4, [], None, []),
    ("15 users connect and vanish", vanish, OTHERS, 1, [], None, []),
    ("u01, 200 files in each message", descriptors, FIRST, 1, [], None, []),
    ("u01 floods restart", flood(b"restart"), FIRST, 1, [], None, []),
    ("15 users flood look", flood(b"look 0"), OTHERS, 1, [], None, []),
    ("the operator floods words", flood(b"words"), ["operator"], 1, [], None, []),
    ("the operator floods users", flood(b"users"), ["operator"], 1, [], None, []),
    ("15 endless loops", None, [], 1, OTHERS, None, []),
    ("15 loops, 4 of them flood look", flood(b"look 0"), OTHERS[:4], 1, OTHERS, None, []),
    ("15 loops, 1 of them floods why", flood(b"why"), FIRST, 1, OTHERS, None, []),
    ("15 loops that flood why", flood(b"why"), OTHERS, 1, OTHERS, None, []),
    ("--sync, none", None, [], 1, [], None, ["--sync"]),
    ("--sync, u01 floods look", flood(b"look 0"), FIRST, 1, [], None, ["--sync"]),
    ("one domain, none", None, [], 1, [], SHARED, []),
    ("one domain, the other user floods look", flood(b"look 0"), FIRST, 1, [], SHARED, []),
]
# Half of the answers are to come within so many milliseconds.
MOST = 500


def measured(it: Served, seconds: float) -> list[float]:
    """How long each answer to the neighbour took in so many seconds, in milliseconds, the shortest first."""
    client, took, end = it.client("u00"), list[float](), time.monotonic() + seconds
    client.stream.settimeout(60)
    while time.monotonic() < end:
        begun = time.monotonic()
        assert client.ask("look 0") == LOOKED
        took.append((time.monotonic() - begun) * 1000)
        time.sleep(PAUSE)
    client.leave()
    return sorted(took)


@pytest.mark.long
@pytest.mark.alone
@pytest.mark.parametrize("attack", ATTACKS, ids=[it[0] for it in ATTACKS])
def test_neighbours(attack: tuple[Any, ...], minutes: float) -> None:
    """The median, what 99 of 100 answers took at most, and the worst are printed, which `-s` shows. Of a minute each attack gets
    six seconds."""
    label, act, names, processes, loops, plan, more = attack
    with Served(plan or plan_of_users(USERS), starts=False) as it:
        it.start(*more)
        for name in loops:
            client = it.client(name)
            for line in LOOP:
                client.ask(line)
            client.leave()
        sockets = [f"{it.folder}/{name}.sock" for name in names for _ in range(processes)]
        attackers = [multiprocessing.Process(target=act, args=(path,), daemon=True) for path in sockets]
        for attacker in attackers:
            attacker.start()
        time.sleep(1)
        try:
            took = measured(it, 6 * minutes)
        finally:
            for attacker in attackers:
                attacker.kill()
            for attacker in attackers:
                attacker.join()
            # it may have minutes of questions before it, which nobody waits for
            it.kill_live()
    middle, most = took[len(took) // 2], took[len(took) * 99 // 100]
    print(f"\n{label:<42} {len(took):>7} {middle:>8.1f} {most:>8.1f} {took[-1]:>8.1f}")
    assert middle <= MOST
