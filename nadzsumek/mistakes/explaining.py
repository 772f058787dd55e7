"""Runs the program `farm`, and if it refuses the text of standard input (status 3 or 4), says on standard error where and why, after
the program's own line. The program is given each byte as it comes, and its status is that of this process.

usage: explaining.py COMMAND WORD..
"""

from __future__ import annotations

import os
import re
import signal
import subprocess
import sys
import threading
from typing import NoReturn

REFUSED_PLAN, REFUSED_LINE, NOT_STARTED = 3, 4, 6
PIECE = 1 << 16


class Input:
    """What comes on standard input, which is kept and handed on."""

    def __init__(self, target: int) -> None:
        self.target, self.kept = target, bytearray()

    def hand_on(self) -> None:
        """Hands on all that comes, until it ends or nobody reads it."""
        try:
            while piece := os.read(0, PIECE):
                self.kept += piece
                left = memoryview(piece)
                while left:
                    left = left[os.write(self.target, left) :]
        except OSError:
            pass  # the program has read enough, or nothing more can be read
        os.close(self.target)


def explanation(told: bytes, text: bytes) -> list[str]:
    """What is said of a text, where the program said this; nothing of a plan that Python reads otherwise."""
    # what explains is there only once something is refused
    from nadzsumek.mistakes.lines import divided, told_lines
    from nadzsumek.mistakes.plans import told_plan, users_of

    plan = re.fullmatch(rb"(?:.*\n)*plan: (\d+)\n", told)
    if plan:
        line = told_plan(int(plan[1]), text)
        return [line] if line else []
    try:
        return told_lines(users_of(text), divided(text)[1] or b"")
    except ValueError:
        return []


def run(call: list[str]) -> int:
    """Runs a command, explains what it refuses, and gives its status."""
    begin, end = os.pipe()
    with subprocess.Popen(call, stdin=begin, stderr=subprocess.PIPE) as program:
        os.close(begin)
        given = Input(end)
        threading.Thread(target=given.hand_on, daemon=True).start()
        told = bytearray()
        assert program.stderr is not None
        while piece := os.read(program.stderr.fileno(), PIECE):
            told += piece
            os.write(2, piece)
    if program.returncode in (REFUSED_PLAN, REFUSED_LINE):
        os.write(2, "".join(f"{line}\n" for line in explanation(bytes(told), bytes(given.kept))).encode())
    return program.returncode


def end(status: int) -> NoReturn:
    """Ends with a status, or by the signal that ended the program."""
    if status < 0:
        signal.signal(-status, signal.SIG_DFL)
        os.kill(os.getpid(), -status)
    # the thread that hands on may still wait for its next byte
    os._exit(status)


if __name__ == "__main__":
    sys.path.insert(0, os.path.dirname(os.path.dirname(os.path.dirname(os.path.abspath(__file__)))))
    try:
        end(run(sys.argv[1:]))
    except KeyboardInterrupt:
        end(-signal.SIGINT)
    except OSError as error:
        print(f"farm: {sys.argv[1]} can't be started: {error.strerror}", file=sys.stderr)
        end(NOT_STARTED)
