"""Programs at a pseudo-terminal of their own: what a person types there, and what is shown."""

import fcntl
import os
import pty
import re
import select
import signal
import struct
import subprocess
import termios
import time

# Rows and columns, so that no line is folded.
SIZE = (50, 200)
UP, CONTROL_C, CONTROL_D = "\x1b[A", "\x03", "\x04"
# How long is waited for what should be shown.
SECONDS = 20
# What moves the cursor, colours or rings.
CONTROLS = re.compile(r"\x1b\[[?0-9;]*[a-zA-Z]|\x07")


def at_terminal() -> None:
    """Makes a process one that a person starts at a terminal: it has the terminal, and Ctrl-C reaches it, also if whoever runs
    the trials passes over that."""
    fcntl.ioctl(0, termios.TIOCSCTTY, 0)
    signal.signal(signal.SIGINT, signal.SIG_DFL)


class Screen:
    """A program, the keys that are pressed, and all that it has written by now."""

    def __init__(self, call: list[str], folder: str | None = None, **variables: str) -> None:
        self.file, other = pty.openpty()
        fcntl.ioctl(other, termios.TIOCSWINSZ, struct.pack("HHHH", *SIZE, 0, 0))
        self.process = subprocess.Popen(
            call,
            stdin=other,
            stdout=other,
            stderr=other,
            start_new_session=True,
            cwd=folder,
            env={**os.environ, "TERM": "xterm", **variables},
            preexec_fn=at_terminal,
        )
        os.close(other)
        self.written, self.seen, self.has_ended = "", 0, False

    def __enter__(self) -> "Screen":
        return self

    def __exit__(self, *_: object) -> None:
        if self.process.poll() is None:
            self.process.kill()
        self.process.wait()
        os.close(self.file)

    @property
    def shown(self) -> str:
        """What was written, without what moves, colours or rings."""
        return CONTROLS.sub("", self.written)

    def press(self, keys: str) -> None:
        os.write(self.file, keys.encode())

    def more(self, seconds: float) -> bool:
        """Takes what is written next; false if nothing comes within so many seconds, or no more will."""
        if self.has_ended or not select.select([self.file], [], [], max(0, seconds))[0]:
            return False
        try:
            piece = os.read(self.file, 1 << 16)
        except OSError:
            piece = b""
        self.has_ended = not piece
        self.written += piece.decode(errors="backslashreplace")
        return bool(piece)

    def until(self, text: str, seconds: float = SECONDS) -> str:
        """What is shown from where it was looked last to this text."""
        end = time.monotonic() + seconds
        while (at := self.shown.find(text, self.seen)) < 0:
            if not self.more(end - time.monotonic()):
                raise AssertionError(f"{text!r} isn't shown, but {self.shown[self.seen:]!r}")
        begun, self.seen = self.seen, at + len(text)
        return self.shown[begun : self.seen]

    def line(self, keys: str, answer: list[str]) -> None:
        """Types a line, whose answer is shown, and then the prompt. An answer that comes late is shown after a prompt, and then
        there is another one."""
        self.press(keys + "\r")
        self.until("\r\n")
        shown = self.before_prompt()
        while shown[-len(answer) :] != answer:
            try:
                shown += self.before_prompt()
            except AssertionError:
                raise AssertionError(f"{shown!r} in place of {answer!r}") from None

    def before_prompt(self) -> list[str]:
        """The lines that are shown before the next prompt."""
        return self.until("> ").rpartition("\n")[0].replace("\r", "").splitlines()

    def end(self) -> tuple[str, int]:
        """What is shown until the program ends, and its status."""
        while self.more(SECONDS):
            pass
        return self.shown[self.seen :].replace("\r", ""), self.process.wait(timeout=SECONDS)
