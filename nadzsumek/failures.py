"""What can go wrong with a line of a user."""

from __future__ import annotations


class FarmError(Exception):
    """A line that wasn't done as it was asked. `collected` has the bytes that a `collect` with a count or a time had taken
    before."""

    collected = b""


class Refused(FarmError):
    """The farm has refused a line. `word` is why: `nosuch`, `journalfull`, `badport`, `badcommand`, `operator`, `verb`, `args`,
    `hex`, `long`, `record`, `journal`, `full`, `memory` or `busy` as the farm says it; `refused` if code is too short or too
    long; `hostfull` if the host took only some of the bytes, and then `taken` is how many. `line` is the line, `answer` its
    answer, and `number` the number that an `error` gives: that of the line among all lines of the farm's run, else none.
    """

    def __init__(
        self,
        word: str,
        line: str,
        answer: str,
        number: int | None = None,
        taken: int | None = None,
        meaning: str | None = None,
    ) -> None:
        super().__init__(f"{line[:60]}: {answer}" + (f" ({meaning})" if meaning else ""))
        self.word, self.line, self.answer, self.number, self.taken = word, line, answer, number, taken


class NotAnswered(FarmError):
    """A line that wasn't answered: in time, or before the farm ended. It may have been done."""

    def __init__(self, line: str, why: str) -> None:
        super().__init__(f"{line[:60]}: {why}")
        self.line = line


class NoFarm(FarmError):
    """There is no farm, no such user, no right to speak as him, or the connection has ended."""


class NoProgram(FileNotFoundError, ValueError):
    """There is no file of a program where a script says."""
