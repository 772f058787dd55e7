"""Runs the lab as often as others ask, by a process that has read the front end of occam already: each run is a copy of it, so that
none waits for Python to begin. `start` in asking.py begins it if the variable NADZSUMEK_LAB_SOCKET names a socket, and the process that
has begun it keeps it: it ends with that.

Each connection is one run. It sends a line of JSON, {"words": [..], "files": {NAME: TEXT}, "seconds": S, "most": N}, and is answered one,
{"status": .., "out": .., "err": .., "cut": ..}. A word that begins with `@` names a file of the run, and one with `<` its input. A run has at most these seconds and
prints at most so many bytes: if it wants more it is ended, and `cut` says by which bound.
"""

from __future__ import annotations

import ctypes
import json
import os
import resource
import selectors
import signal
import socket
import tempfile
import time
from collections.abc import Callable
from typing import Any, NoReturn

# What a question may have, how long it is waited for, how many runs there are at once, and how many wait.
MOST_ASKED, ASKED_SECONDS, MOST_RUNS, MOST_WAITING = 4 << 20, 10, 32, 128
PIECE = 1 << 16
# By this call of Linux a process says by which signal it is to end when its parent has ended.
END_WITH_PARENT = 1
Run = Callable[[list[str]], NoReturn]


def end_with_parent() -> None:
    ctypes.CDLL(None).prctl(END_WITH_PARENT, signal.SIGKILL)


def read_all(stream: socket.socket, end: float) -> bytes:
    """What a connection sends until it sends no more."""
    held = bytearray()
    while True:
        stream.settimeout(max(0.01, end - time.monotonic()))
        piece = stream.recv(PIECE)
        if not piece:
            return bytes(held)
        held += piece
        if len(held) > MOST_ASKED:
            raise ValueError


def begin(run: Run, words: list[str], given: str, seconds: float) -> tuple[int, int, int]:
    """A copy of this process that becomes the lab; its number, and what it prints and says."""
    (out, told), (err, said) = os.pipe(), os.pipe()
    child = os.fork()
    if child == 0:
        os.setsid()
        resource.setrlimit(resource.RLIMIT_CPU, (int(seconds) + 1, int(seconds) + 2))
        for number, to in ((os.open(given, os.O_RDONLY), 0), (told, 1), (said, 2)):
            os.dup2(number, to)
        os.closerange(3, 64)
        try:
            run(words)
        finally:
            os._exit(6)
    os.close(told)
    os.close(said)
    return child, out, err


def heard(out: int, err: int, seconds: float, most: int) -> tuple[bytes, bytes, str]:
    """What a run prints and says until it ends, or meets a bound, and which that is."""
    held, end = {out: bytearray(), err: bytearray()}, time.monotonic() + seconds
    with selectors.DefaultSelector() as waiting:
        for it in held:
            waiting.register(it, selectors.EVENT_READ)
        while waiting.get_map():
            if (left := end - time.monotonic()) <= 0:
                return bytes(held[out]), bytes(held[err]), "time"
            for key, _ in waiting.select(left):
                piece = os.read(key.fd, PIECE)
                held[key.fd] += piece
                if not piece:
                    waiting.unregister(key.fd)
                if sum(map(len, held.values())) > most:
                    return b"", b"", "size"
    return bytes(held[out]), bytes(held[err]), ""


def answer_of(run: Run, asked: dict[str, Any]) -> dict[str, Any]:
    """Runs the lab once."""
    seconds, most = float(asked["seconds"]), int(asked["most"])
    with tempfile.TemporaryDirectory(prefix="nadzsumek-") as room:
        for name, text in asked["files"].items():
            with open(os.path.join(room, os.path.basename(name)), "w", encoding="utf-8", newline="") as it:
                it.write(text)
        words = [os.path.join(room, it[1:]) if it.startswith("@") else it for it in asked["words"]]
        given = next((os.path.join(room, it[1:]) for it in words if it.startswith("<")), os.devnull)
        child, out, err = begin(run, [it for it in words if not it.startswith("<")], given, seconds)
        told, said, cut = heard(out, err, seconds, most)
        if cut:
            os.killpg(child, signal.SIGKILL)
        status = os.waitstatus_to_exitcode(os.waitpid(child, 0)[1])
    texts = (it.decode(errors="replace").replace(f"{room}/", "") for it in (told, said))
    return {"status": status, "out": next(texts), "err": next(texts), "cut": cut}


def serve_one(run: Run, stream: socket.socket) -> NoReturn:
    """Answers a connection, in a process of its own."""
    status = 1
    try:
        end_with_parent()
        asked = json.loads(read_all(stream, time.monotonic() + ASKED_SECONDS))
        stream.settimeout(ASKED_SECONDS)
        stream.sendall(json.dumps(answer_of(run, asked)).encode())
        status = 0
    except (OSError, ValueError, LookupError, TypeError):
        pass
    finally:
        os._exit(status)


def read_ahead() -> None:
    """Reads the front end, so that no copy has to."""
    from nadzsumek.mistakes import refusals  # noqa: F401  it is there then
    from nadzsumek.occam.unit import unit_of

    unit_of(b"SKIP\n")


def answer_many(path: str, run: Run) -> NoReturn:
    """Answers connections at the socket, each by a copy of this process."""
    end_with_parent()
    read_ahead()
    children = set[int]()
    with socket.socket(socket.AF_UNIX, socket.SOCK_STREAM) as door:
        door.bind(path)
        door.listen(MOST_WAITING)
        while True:
            stream, _ = door.accept()
            with stream:
                if (child := os.fork()) == 0:
                    door.close()
                    serve_one(run, stream)
            children.add(child)
            while children:
                number, _ = os.waitpid(-1, os.WNOHANG if len(children) < MOST_RUNS else 0)
                if not number:
                    break
                children.discard(number)
