"""One connection of a user, without the socket: which lines are on their way, and what comes for each. Each line has a tag, so
that its answer comes here alone, whoever else speaks as this user."""

from __future__ import annotations

import collections
from collections.abc import Callable

from nadzsumek.mistakes.verbs import goes_on

from .failures import NoFarm
from .results import Note, note_of

# How many lines are sent at most before the first of them is answered.
AT_ONCE = 64
# How many notes are kept at most; the oldest go.
MOST_NOTES = 1000
MOST_TAG = 999_999_999
# So begins what `serve` says of a whole connection before it ends it.
ERROR = "error: "
# So begins a line of the operator's, of which there is one for each user. Nothing says which is the last.
USERS = "!users "


class Pending:
    """A line on its way, and the lines of its answer that have come. `tell`, if there is one, is called with the last."""

    def __init__(self, tag: str, line: str) -> None:
        self.tag, self.line, self.is_whole = tag, line, False
        self.answers: list[str] = []
        self.tell: Callable[[], object] | None = None

    def message(self) -> bytes:
        """What is sent."""
        return f"{self.tag} {self.line}\n".encode("utf-8", "surrogateescape")

    def hear(self, answer: str) -> None:
        self.answers.append(answer)
        if not goes_on(answer) and not answer.startswith(USERS):
            self.end()

    def end(self) -> None:
        """No more comes."""
        self.is_whole = True
        if self.tell:
            self.tell()


class Dialogue:
    """The lines on their way, and the notes that came between their answers."""

    def __init__(self, noted: Callable[[Note], object] | None) -> None:
        self.noted, self.count, self.held = noted, 0, b""
        self.waiting: dict[str, Pending] = {}
        self.notes: collections.deque[Note] = collections.deque(maxlen=MOST_NOTES)
        self.fault = "the farm has ended the connection"

    def ask(self, line: str) -> Pending:
        """A line that is to be sent."""
        self.count = self.count % MOST_TAG + 1
        pending = Pending(f"#{self.count}", line)
        self.waiting[pending.tag] = pending
        return pending

    def forget(self, pending: Pending) -> None:
        """Waits for an answer no longer. What still comes of it is passed over."""
        self.waiting.pop(pending.tag, None)

    def feed(self, piece: bytes) -> None:
        """Hears what came. What answers others is passed over."""
        *lines, self.held = (self.held + piece).split(b"\n")
        for line in lines:
            self.hear(line.decode("utf-8", "surrogateescape"))

    def hear(self, line: str) -> None:
        tag, _, answer = line.partition(" ")
        if tag in self.waiting:
            self.answer(self.waiting[tag], answer)
        elif line.startswith(("note ", "note: ")):
            self.notes.append(note_of(line))
            if self.noted:
                self.noted(self.notes[-1])
        elif line.startswith(ERROR):
            self.fault = line.removeprefix(ERROR)

    def answer(self, pending: Pending, answer: str) -> None:
        """A line of an answer. Those about users that came for a line before are all that come."""
        for before in [*self.waiting.values()]:
            if before is pending:
                break
            if before.answers and before.answers[0].startswith(USERS):
                before.end()
                self.forget(before)
        pending.hear(answer)
        if pending.is_whole:
            self.forget(pending)

    def ended(self) -> NoFarm:
        """What is raised when the connection has ended."""
        return NoFarm(self.fault)
