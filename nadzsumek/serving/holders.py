"""The `serve` that has a farm's folder and how it is ended by a signal, and a `live` that is left without one."""

import contextlib
import os
import signal

from .folder import holder


def is_serve(number: int) -> bool:
    """Whether a process is a `serve`."""
    try:
        with open(f"/proc/{number}/cmdline", "rb") as it:
            return b"serve" in {os.path.basename(word) for word in it.read().split(b"\0")}
    except OSError:
        return False


def serve_of(folder: str) -> int | None:
    """The number of the `serve` that has a folder; none if there is none, or if this account can't see it."""
    number = holder(folder)
    return number if number is not None and is_serve(number) else None


def end_serve(folder: str) -> bool:
    """Asks the `serve` that has a folder to end, as a service manager does, and tells whether there is one."""
    number = serve_of(folder)
    try:
        # this remains the same process if its number is given to another meanwhile
        process = os.pidfd_open(number) if number is not None else None
    except ProcessLookupError:
        process = None
    if process is None:
        return False
    try:
        if serve_of(folder) != number:
            return False
        signal.pidfd_send_signal(process, signal.SIGTERM)
        return True
    except ProcessLookupError:
        return False
    finally:
        os.close(process)


def has_open(number: int, path: str) -> bool:
    """Whether a process has a file open, as far as this account can see it."""
    with contextlib.suppress(OSError):
        for it in os.listdir(f"/proc/{number}/fd"):
            with contextlib.suppress(OSError):
                if os.readlink(f"/proc/{number}/fd/{it}") == path:
                    return True
    return False


def live_at(records: str) -> int | None:
    """The number of the process that has a folder of records; none if there is none, or if this account can't see it. As long
    as a `live` has records, it has the file of their lock open."""
    path = os.path.realpath(os.path.join(records, "lock"))
    numbers = (int(it) for it in os.listdir("/proc") if it.isdecimal())
    return next((it for it in numbers if it != os.getpid() and has_open(it, path)), None)


def work_of(number: int) -> int:
    """How many ticks of processor time the children of a process have taken, as far as that is known."""
    ticks = 0
    with contextlib.suppress(OSError, ValueError, IndexError):
        with open(f"/proc/{number}/task/{number}/children", encoding="ascii") as it:
            children = it.read().split()
        for child in children:
            with open(f"/proc/{child}/stat", encoding="ascii", errors="replace") as it:
                # behind the name, which may have blanks and brackets, come the state and ten numbers more
                words = it.read().rpartition(")")[2].split()
            ticks += int(words[11]) + int(words[12])
    return ticks
