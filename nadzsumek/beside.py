"""A program in a child process, of which one stream is read here, and which ends this process as it ends itself."""

from __future__ import annotations

import os
import signal
from collections.abc import Callable
from typing import NoReturn

# These end the program, and are to end this process in the same way.
SIGNALS = (signal.SIGINT, signal.SIGTERM, signal.SIGHUP)


def begun(start: Callable[[], NoReturn], stream: int) -> tuple[bytes, int]:
    """Has a child become a program: all that it writes to a stream, and its status."""
    source, target = os.pipe()
    # A signal that comes between these lines waits until it can be passed on.
    signal.pthread_sigmask(signal.SIG_BLOCK, SIGNALS)
    if (child := os.fork()) == 0:
        signal.pthread_sigmask(signal.SIG_UNBLOCK, SIGNALS)
        os.dup2(target, stream)
        os.close(target)
        os.close(source)
        start()
    os.close(target)
    kept = {it: signal.signal(it, lambda number, _: os.kill(child, number)) for it in SIGNALS}
    signal.pthread_sigmask(signal.SIG_UNBLOCK, SIGNALS)
    with open(source, "rb") as it:
        told = it.read()
    status = os.waitpid(child, 0)[1]
    for number, before in kept.items():
        signal.signal(number, signal.SIG_IGN if before == signal.SIG_IGN else signal.SIG_DFL)
    return told, status


def end_as(status: int) -> NoReturn:
    """Ends this process as a child ended, by its status or by its signal."""
    if os.WIFSIGNALED(status):
        signal.signal(os.WTERMSIG(status), signal.SIG_DFL)
        os.kill(os.getpid(), os.WTERMSIG(status))
    os._exit(os.waitstatus_to_exitcode(status))
