"""Lines about exercises that come to a `serve`: what they ask, and how it is answered. In a farm that belongs to no class they are refused.

    exercises [NAME]          check NAME KIND HEX          submit NAME KIND HEX          submitted [NUMBER]

KIND is `occ` or `s`, and HEX the bytes of the text. The answer is the verb and an object in JSON, or the verb, `refused` and why."""

from __future__ import annotations

import json
import os
import re

from ..serving.beside import Beside
from ..serving.folder import CLASS
from ..serving.speakers import UNANSWERED, shown
from .judging import Judge
from .telling import REFUSED

# What stands behind each verb.
TEXT = r"([a-z0-9][a-z0-9-]{0,63}) (occ|s) ((?:[0-9a-f]{2})+)"
FORMS = {
    "exercises": (r"([a-z0-9][a-z0-9-]{0,63})?", "exercises [NAME]"),
    "check": (TEXT, "check NAME occ|s HEX"),
    "submit": (TEXT, "submit NAME occ|s HEX"),
    "submitted": (r"([0-9]{1,9})?", "submitted [NUMBER]"),
}


def question_of(line: bytes) -> tuple[str, list[str], str | None]:
    """The verb of a line and its words, a text as it is. Or why it isn't asked."""
    verb, _, rest = line.removesuffix(b"\r").decode(errors="replace").partition(" ")
    pattern, form = FORMS[verb]
    found = re.fullmatch(pattern, rest, re.ASCII)
    if not found:
        return verb, [], f"the line has another form: {form}"
    words = [it for it in found.groups() if it]
    try:
        return verb, words[:2] + [bytes.fromhex(it).decode() for it in words[2:]], None
    except UnicodeDecodeError:
        return verb, [], "the text isn't UTF-8"


class Course(Beside):
    """Answers lines about the exercises of the class to which the farm in this folder belongs."""

    def __init__(self, farm: str) -> None:
        super().__init__()
        self.folder = os.path.dirname(farm)
        self.judge = Judge(self.folder)

    async def text(self, user: str, line: bytes) -> bytes:
        """The answer to a line."""
        verb, words, wrong = question_of(line)
        if not os.path.isfile(os.path.join(self.folder, CLASS)):
            wrong = "this farm belongs to no class, so there are no exercises"
        told = {REFUSED: wrong} if wrong else await self.judge.ask(user, verb, *words)
        if told is None:
            return UNANSWERED + shown(line)
        why = told.get(REFUSED)
        text = f"{verb} {REFUSED} {' '.join(str(why).split())}" if why else f"{verb} {json.dumps(told)}"
        return text.encode(errors="backslashreplace")

    async def end(self) -> None:
        """Ends what is being answered: its lines are told as not answered."""
        self.judge.end()
        await super().end()
