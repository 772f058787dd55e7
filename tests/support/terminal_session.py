"""A session at a terminal as a guide shows it: what a person would see and type there."""

import re
import time

from support.screens import CONTROL_D, Screen

MOST_SECONDS = 30
# How long the screen must stay as it is before the next line is typed.
CALM_SECONDS = 0.1
PROMPT = re.compile(r"\w+> |.*\(y/n\) ")
# How many events there were depends on how the threads of a farm took turns, so any number of them is as good as another.
EVENTS = re.compile(r"\b(after|event) \d+\b")


def steady(text: str) -> str:
    """A text with one number for all numbers of events."""
    return EVENTS.sub(r"\1 N", text)


def lines_of(screen: Screen) -> str:
    """What a terminal shows by now: a line that was erased shows what came after."""
    lines = [line.rpartition("\r\x1b[K")[2] for line in screen.written.replace("\r\n", "\n").split("\n")]
    return re.sub(r"\x1b\[[?0-9;]*[a-zA-Z]", "", "\n".join(lines)).replace("\r", "")


def comes_to(screen: Screen, wanted: str) -> bool:
    """Waits until the screen shows this, and stays so; false if it doesn't come to that."""
    until, calm = time.monotonic() + MOST_SECONDS, None
    while time.monotonic() < until:
        is_there = steady(lines_of(screen)) == steady(wanted)
        calm = (calm or time.monotonic()) if is_there else None
        if calm and time.monotonic() - calm >= CALM_SECONDS:
            return True
        if not screen.more(CALM_SECONDS) and screen.has_ended:
            return is_there
    return False


def shown_by(block: str, folder: str, **variables: str) -> str:
    """What a terminal shows, with steady numbers of events, if the session of a block is held in a folder: its first line is `$` and a command, and behind each
    prompt stands what is typed there; nothing behind the last prompt is the end of the input. What comes first is typed as
    soon as the screen shows what the block has above it; if it never does, the session ends there."""
    first, *lines = block.splitlines(keepends=True)
    with Screen(["bash", "-c", f"exec {first.removeprefix('$ ')}"], folder, TERM="dumb", **variables) as screen:
        above = ""
        for line in lines:
            prompt = PROMPT.match(line)
            if prompt:
                if not comes_to(screen, above + prompt.group()):
                    screen.press(CONTROL_D)
                    break
                typed = line[prompt.end() :]
                screen.press(typed if typed.strip() else CONTROL_D)
            above += line
        until = time.monotonic() + MOST_SECONDS
        while not screen.has_ended and time.monotonic() < until:
            screen.more(CALM_SECONDS)
        return steady(first + lines_of(screen))
