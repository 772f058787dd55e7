"""Runs the lab with this front end beside it, and makes the page of a film (`nadzsumek/film`). The program asks for the unit of a
text by two named pipes, in the folder that the variable NADZSUMEK_OCCAM names: it writes a line, `unit` or `core`, and the text to
`asked`, and reads the answer from `answered`. Before it ends because a text is refused, it asks in the same way for what helps: the
line is `help` and a number of bytes, which are those of its refusal, and then comes the text. The answer is the refusal with what
helps (`nadzsumek/mistakes/refusals.py`).

usage: asking.py PROGRAM WORD..

This process becomes the program, so that signals, terminal and status are its own. A child process answers, and ends when the
program does: the program holds the one end of a pipe, at whose other end the child waits. If the variable NADZSUMEK_OCCAM_BOUNDED is
set, each text is compiled within bounds of time and memory (`bounded.py`). If NADZSUMEK_LAB_SOCKET is set, it runs the lab for others,
whatever its words are (`answering.py`).
"""

from __future__ import annotations

import functools
import gc
import os
import shutil
import signal
import sys
import tempfile
import threading
from typing import NoReturn

FOLDER, BOUNDED, SOCKET = "NADZSUMEK_OCCAM", "NADZSUMEK_OCCAM_BOUNDED", "NADZSUMEK_LAB_SOCKET"
ASKED, ANSWERED = "asked", "answered"
# What the thread that compiles may need: nothing of it is taken before it is used.
STACK = 64 << 20
# The first line of a question that wants the core as a text too.
WITH_CORE = b"core"
# How the first line of a question begins that wants help for a refusal.
HELP = b"help "
NOT_STARTED = 6
# How the names of programs end, in occam and in assembly.
PROGRAMS = (".occ", ".s")


def answer_all(folder: str) -> None:
    """Answers each question, until the process ends."""
    while True:
        with open(os.path.join(folder, ASKED), "rb") as asked:
            question, _, text = asked.read().partition(b"\n")
        answer = help_of(question, text) if question.startswith(HELP) else unit_in_json(text, question == WITH_CORE)
        try:
            with open(os.path.join(folder, ANSWERED), "wb") as answered:
                answered.write(answer)
        except BrokenPipeError:
            pass  # the program ended before it had read all


def help_of(question: bytes, text: bytes) -> bytes:
    """A refusal with what helps; nothing if that isn't known, so that the program says its refusal."""
    try:
        from nadzsumek.mistakes.refusals import with_help

        count = int(question.removeprefix(HELP))
        return with_help(text[:count], text[count:])
    except Exception:  # pylint: disable=broad-exception-caught
        return b""


def unit_in_json(text: bytes, with_core: bool) -> bytes:
    """The unit of a text as one line; nothing if the compiler can't be started, so that the program doesn't wait for ever."""
    try:
        # the compiler is there only once a text is asked about
        if os.environ.get(BOUNDED):
            from nadzsumek.occam.bounded import bounded_unit

            return bounded_unit(text, with_core).encode()
        from nadzsumek.occam.unit import unit_of

        return unit_of(text, with_core).encode()
    except Exception:  # pylint: disable=broad-exception-caught
        return b""


def answer_while_open(end: int, folder: str) -> NoReturn:
    """Answers in the folder until the other end of a pipe is closed, and removes the folder then."""
    # Ctrl-C and the end of a terminal are for the program
    signal.signal(signal.SIGINT, signal.SIG_IGN)
    signal.signal(signal.SIGHUP, signal.SIG_IGN)
    nothing = os.open(os.devnull, os.O_RDWR)
    for stream in (0, 1, 2):
        os.dup2(nothing, stream)
    # what a compilation leaves is given back by counting alone, and to look for circles takes a third of its time
    gc.disable()
    threading.stack_size(STACK)
    threading.Thread(target=answer_all, args=(folder,), daemon=True).start()
    try:
        os.read(end, 1)
    finally:
        shutil.rmtree(folder, ignore_errors=True)
        os._exit(0)


def run_lab(program: str, words: list[str]) -> NoReturn:
    """Becomes the program with these words, and has a child answer what it asks."""
    folder = tempfile.mkdtemp(prefix="occam.")
    for name in (ASKED, ANSWERED):
        os.mkfifo(os.path.join(folder, name), mode=0o600)
    end, held = os.pipe()
    if os.fork() == 0:
        os.close(held)
        answer_while_open(end, folder)
    os.close(end)
    os.set_inheritable(held, True)
    os.environ[FOLDER] = folder
    try:
        os.execv(program, [program, *words])
    except OSError as error:
        print(f"lab: {program} can't be started: {error.strerror}", file=sys.stderr)
        sys.exit(NOT_STARTED)


def start(program: str, words: list[str]) -> NoReturn:
    """Runs the lab with these words. The film that it prints becomes a page, unless the words ask for JSON, and what it says of a text
    of occam has the form that editors know. Programs are run and checked here, by plans and scripts that are made for them, and
    editors are served."""
    if SOCKET in os.environ:
        from nadzsumek.occam.answering import answer_many

        answer_many(os.environ.pop(SOCKET), functools.partial(start, program))
    lab = [sys.executable, "-S", "-B", "-P", os.path.abspath(__file__), program]
    if words == ["dap"]:
        from nadzsumek.debugging.adapter import main as serve_editor

        sys.exit(serve_editor(lab))
    if words[:1] == ["debug"] and sys.stdin.isatty() and sys.stdout.isatty():
        from nadzsumek.debugging.console import opened

        if (console := opened(words[1:], lab)) is not None:
            console.run()
            sys.exit(0)
    if words[:1] == ["check"]:
        from nadzsumek.course.orders import own_check

        sys.exit(own_check(words[1:]))
    if words[:1] == ["run"] and any(it in ("-h", "--help") or it.endswith(PROGRAMS) for it in words):
        from nadzsumek.run import main

        sys.exit(main(program, words[1:]))
    if words[:1] == ["occam"]:
        from nadzsumek.mistakes.places import run_told

        run_told(functools.partial(run_lab, program, words), words[1:])
    if words[:1] == ["film"] and "--json" not in words:
        from nadzsumek.film.page import run_beside

        run_beside(functools.partial(run_lab, program, words), lab, words[1:])
    run_lab(program, words)


if __name__ == "__main__":
    sys.path.insert(0, os.path.dirname(os.path.dirname(os.path.dirname(os.path.abspath(__file__)))))
    if len(sys.argv) < 2:
        sys.exit(__doc__)
    start(sys.argv[1], sys.argv[2:])
