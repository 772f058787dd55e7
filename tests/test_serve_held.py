"""What `serve` holds for clients that don't read what they are answered: so much and no more, and it gives it back."""

import contextlib
import os
import re
import socket
import time

from support.live_lines import SECONDS
from support.serving_trials import Served
from support.trials import put

# A farm of nine users, and what stands for its `live`: it answers each line at once, by as many bytes as a long `collect` has.
USERS = [f"user-{number}" for number in range(9)]
PLAN = "version = 3\n" + "".join(
    f"""
[[domain]]
user = [{{ name = "{name}", host = [1] }}]
range = [[{2 * number}, {2 * number + 1}]]
limit = 1000

[[domain.node]]
memory = 2048
links = [0, -1, -1, -1]
"""
    for number, name in enumerate(USERS)
)
ANSWER = 5_700_000
ANSWERING = f"""#!/usr/bin/env -S python3 -u
import sys
for line in sys.stdin:
    name, _, verb = line.rstrip("\\n").partition(" ")
    if name == "!users":
        print("".join(f"!users {{it}} 0 9 1000 quiet\\n" for it in {USERS}), end="", flush=True)
    elif name == "!words":
        print("!words 0:0", flush=True)
    elif name == "!stop":
        break
    else:
        print(name, "a" * (8 if verb in ("short", "restart") else {ANSWER}), flush=True)
"""
# What is held for a user's clients at most, and besides for the answers that come, however many users there are: the long answer in
# its forms, and what sockets and their streams take.
OF_USER, BESIDES = 8 << 20, 80 << 20
MIB = 1 << 20


def memory_of(number: int, which: str) -> int:
    """How many bytes a process has, or had at most."""
    with open(f"/proc/{number}/status", encoding="ascii") as it:
        found = re.search(rf"{which}:\s+(\d+) kB", it.read())
    assert found
    return int(found[1]) << 10


def test_who_does_not_read_is_held_little() -> None:
    """Sixteen clients of each of nine users send lines with long answers, with tags and without, and read nothing. What `serve` takes
    for them stays below its figure, a neighbour is answered, and when they have gone it is given back."""
    with Served(PLAN, starts=False) as it:
        it.env["LIVE"] = f"{it.room.name}/answering"
        put(it.env["LIVE"], ANSWERING)
        os.chmod(it.env["LIVE"], 0o755)
        it.start()
        number = it.process.pid
        before = memory_of(number, "VmRSS")
        with contextlib.ExitStack() as stack:
            for name in USERS[1:]:
                for client in range(16):
                    stream = stack.enter_context(socket.socket(socket.AF_UNIX))
                    stream.connect(f"{it.folder}/{name}.sock")
                    with contextlib.suppress(OSError):
                        stream.sendall(b"#1 long\n" if client % 2 else b"long\n")
            time.sleep(8)
            assert it.client(USERS[0]).ask("short") == "a" * 8
            most = memory_of(number, "VmHWM")
        assert most - before < len(USERS) * OF_USER + BESIDES, f"{(most - before) / MIB} MiB"
        end = time.monotonic() + SECONDS
        while memory_of(number, "VmRSS") > before + 24 * MIB and time.monotonic() < end:
            time.sleep(0.2)
        assert memory_of(number, "VmRSS") < before + 24 * MIB, f"{(memory_of(number, 'VmRSS') - before) / MIB} MiB"


def test_who_reads_slowly_gets_all() -> None:
    """Fifteen clients of a user that read an answer slowly get all of it, though it is longer than what may wait for each; and
    their end waits for it."""
    with Served(PLAN, starts=False) as it:
        it.env["LIVE"] = f"{it.room.name}/answering"
        put(it.env["LIVE"], ANSWERING)
        os.chmod(it.env["LIVE"], 0o755)
        it.start()
        streams = []
        for _ in range(15):
            streams.append(socket.socket(socket.AF_UNIX))
            streams[-1].connect(f"{it.folder}/{USERS[0]}.sock")
        # a line of the first is answered to all
        time.sleep(0.5)
        streams[0].sendall(b"long\n")
        streams[0].shutdown(socket.SHUT_WR)
        for stream in streams:
            stream.settimeout(SECONDS)
            got = 0
            while got < ANSWER + 1:
                piece = stream.recv(1 << 18)
                assert piece
                got += len(piece)
        assert streams[0].recv(1) == b""
        for stream in streams:
            stream.close()


def test_restarts_have_a_pace() -> None:
    """Who restarts without a pause is answered twenty times at once and then once in a second, and no neighbour waits for it."""
    with Served(PLAN, starts=False) as it:
        it.env["LIVE"] = f"{it.room.name}/answering"
        put(it.env["LIVE"], ANSWERING)
        os.chmod(it.env["LIVE"], 0o755)
        it.start()
        client, neighbour, begun = it.client(USERS[0]), it.client(USERS[1]), time.monotonic()
        client.say("restart\n" * 24)
        assert [client.hear() for _ in range(20)] == ["a" * 8] * 20
        assert neighbour.ask("short") == "a" * 8
        assert time.monotonic() < begun + 3
        assert [client.hear() for _ in range(4)] == ["a" * 8] * 4
        assert time.monotonic() > begun + 3.5
