"""Runs a command and prints what it prints, and behind the bytes that a host received their text, as terminals do.

usage: letters.py COMMAND WORD..
"""

from __future__ import annotations

import os
import subprocess
import sys


def main(call: list[str]) -> int:
    """Runs a command, and gives its status. Each line begins with a user's name."""
    from nadzsumek.serving.answers import with_text

    with subprocess.Popen(call, stdout=subprocess.PIPE, encoding="utf-8", errors="surrogateescape") as program:
        assert program.stdout
        for line in program.stdout:
            user, _, answer = line.rstrip("\n").partition(" ")
            print(user, with_text(answer))
    return program.returncode


if __name__ == "__main__":
    sys.path.insert(0, os.path.dirname(os.path.dirname(os.path.abspath(__file__))))
    from nadzsumek.mistakes.explaining import end

    try:
        status = main(sys.argv[1:])
        sys.stdout.flush()
        end(status)
    except (BrokenPipeError, KeyboardInterrupt):
        # nobody reads any more, or Ctrl-C
        end(130)
