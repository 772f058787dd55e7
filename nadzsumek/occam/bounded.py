"""The unit of a text of somebody else: it is found by a process of its own, which has bounds of time and memory.

What meets a bound is told as a mistake of the text, with a number of its own (`mistakes.BOUND`).
"""

from __future__ import annotations

import os
import resource
import select
import signal
import time
from typing import NoReturn

# How many seconds of the processor a text takes at most, and how many seconds at all if the machine is busy.
SECONDS, WAITED = 10, 40
MEGABYTES = 512
PIECE = 1 << 16


def bounded_unit(text: bytes, with_core: bool = False, seconds: int = SECONDS, megabytes: int = MEGABYTES) -> str:
    """The unit of a text, without a line feed. It takes no more than these seconds of the processor, and this memory."""
    # the compiler is imported where it is needed
    from nadzsumek.occam.mistakes import BOUND, Mistake, Place
    from nadzsumek.occam.unit import refused_unit
    from nadzsumek.occam.words import MOST_BYTES, too_long

    if len(text) > MOST_BYTES:
        return refused_unit(b"", [str(too_long(Place(1, 1)))])
    told, tells = os.pipe()
    child = os.fork()
    if child == 0:
        answer(tells, text, with_core, seconds, megabytes)
    os.close(tells)
    unit = heard(told, time.monotonic() + WAITED)
    if unit is None:
        os.kill(child, signal.SIGKILL)
    status = os.waitstatus_to_exitcode(os.waitpid(child, 0)[1])
    if unit is not None and status == 0:
        return unit.decode()
    what = f"in {seconds} s" if unit is None or status < 0 else f"with {megabytes} MB of memory"
    return refused_unit(text, [str(Mistake(Place(1, 1), BOUND, f"expected a text that is compiled {what}"))])


def heard(told: int, end: float) -> bytes | None:
    """What comes from a pipe until it is closed; none if that isn't in time."""
    held = bytearray()
    try:
        while select.select([told], [], [], max(0, end - time.monotonic()))[0]:
            piece = os.read(told, PIECE)
            if not piece:
                return bytes(held)
            held += piece
        return None
    finally:
        os.close(told)


def lower(what: int, most: int) -> None:
    """Bounds this process, unless it has a lower bound already."""
    hard = resource.getrlimit(what)[1]
    resource.setrlimit(what, (most, hard) if hard == resource.RLIM_INFINITY or most < hard else (hard, hard))


def answer(tells: int, text: bytes, with_core: bool, seconds: int, megabytes: int) -> NoReturn:
    """Writes the unit of a text to a pipe, in a process of its own within these bounds."""
    status = 1
    try:
        lower(resource.RLIMIT_CPU, seconds)
        lower(resource.RLIMIT_AS, megabytes << 20)
        from nadzsumek.occam.unit import unit_of

        unit = unit_of(text, with_core).encode()
        while unit:
            unit = unit[os.write(tells, unit) :]
        status = 0
    finally:
        os._exit(status)
