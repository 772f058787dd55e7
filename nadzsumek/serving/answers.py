"""The answers at a terminal: to which line each belongs, what it means, and the text of what was collected."""
import re

from ..course import telling
from ..mistakes.verbs import NUMBERED
from .texts import bytes_meant
from .values import as_letters, as_numbers

LOST = "error: not answered, send it again if you want it: "
# So ends what is told of a line that is too long to be told.
MORE = ".."
# What answers mean, and what can be done.
MEANINGS = (
    (
        r"note rests \d+ \d+",
        "the room of your machine is used up, so its nodes do nothing more: restart begins anew with a room",
    ),
    (
        r"note rests records \d+ \d+",
        "the room of your machine's records is used up, so its nodes do nothing more: restart begins the next record",
    ),
    (r"note rests memory", "there was no memory for your machine, so its nodes do nothing more: restart begins anew"),
    (
        r"rest full",
        "the room of your machine is used up, so its nodes do nothing more: restart begins anew with a room",
    ),
    (r".* nosuch", "there is no such host or node, or the host is another user's"),
    (r".* journalfull", "your machine has recorded as many events as its limit: restart begins anew"),
    (r"config .*badport.*", "a port of the message is none of yours: compare it with your plan"),
    (r"config .*badcommand.*", "a message begins with 00 to 06"),
    (r"boot .* refused 1", "code has two bytes at least"),
    (r"boot .* refused 2", "code has 255 bytes at most: load pokes longer code"),
    (r"peek \d+ -", "no word came: is the node booting (look), and joined with the host both ways (join)?"),
    (r"collect \d+ -", "no byte has come: is the host joined with a node (join), and what does the node do (look)?"),
    (r"ports replaying", "what your machine did is replayed: its joins are told when that is over"),
    (r"restart operator", "other users share your machine: ask the operator"),
    (r"(! )?error \d+ busy", "too many lines wait: send it again later"),
    (r"(! )?error \d+ long", "a line has 1,048,576 bytes at most"),
    (r"(! )?error \d+ record", "the record of your machine can't be read or written: tell the operator"),
    (
        r"(! )?error \d+ full",
        "the room of your machine is used up, so nothing was done: restart begins anew with a room",
    ),
    (r"(! )?error \d+ memory", "there was no memory, and it may be done in part: your machine rests until restart"),
    (r"! error \d+ user", "there is no such user: users lists them"),
    (r"look \d+ halted 1 .*", "an address outside memory"),
    (r"look \d+ halted 2 .*", "an operation that isn't there"),
    (r"look \d+ halted 3 .*", "an Error while HaltOnError was set"),
    (r"look \d+ halted 4 .*", "a process or a queue of high priority"),
    (r"look \d+ halted 5 .*", "the event channel, or a link's channel in the wrong direction"),
)


# The words by which an answer refuses its line, and those of verbs that have others.
REFUSALS = ("nosuch", "journalfull")
REFUSING = {
    "config": ("badport", "badcommand", "journalfull"),
    "boot": (*REFUSALS, "refused"),
    "restart": ("operator",),
    "watch": ("many", "args"),
}
# The verbs by which shorthand lines are answered.
ANSWERING = {"join": "config", "send": "write", "text": "collect"}


class Loading:
    """The pokes of one `load`: how many were sent, and how many of them the host didn't take whole."""

    def __init__(self) -> None:
        self.pokes = self.missed = 0

    def told(self, line: str, answer: str) -> list[str]:
        """What is shown of the answer to a line: of pokes the first that went wrong alone."""
        if not line.startswith("poke "):
            missed = f"{self.missed} of {self.pokes} pokes went wrong, so the program isn't there as it should be"
            return [answer, *([f"  ({missed})"] if self.missed else [])]
        self.pokes += 1
        if answer.startswith("poke ") and shortfall(line, answer) is None and meaning(answer) is None:
            return []
        self.missed += 1
        return with_meaning(line, answer) if self.missed == 1 else []


class Due:
    """A line that was sent, and whose answer hasn't come yet; `loading` if it is one of the many lines of a `load`. `is_told` if the
    person was told that it is waited for."""

    def __init__(self, line: str, loading: Loading | None = None) -> None:
        self.line, self.loading, self.is_told = line, loading, False

    def is_answered_by(self, answer: str) -> bool:
        """Whether this may be its answer: it has its verb, or that of the plain line in its place, and its host or node. Other
        clients of the user hear and are heard too."""
        if answer.startswith(LOST):
            # a long line is cut, perhaps within a character
            return bytes_of(self.line).startswith(bytes_of(answer[len(LOST) :].removesuffix(MORE)))
        if re.fullmatch(r"(! )?error \d+ \w+", answer):
            return True
        told, asked = answer.split(), self.line.split()
        if told[:1] != [ANSWERING.get(asked[0], asked[0])]:
            return False
        return asked[0] not in NUMBERED or told[1:2] == [asked[1].lstrip("0") or "0"]

    def told(self, answer: str) -> list[str]:
        """What is shown of its answer."""
        return self.loading.told(self.line, answer) if self.loading else with_meaning(self.line, answer)


def bytes_of(text: str) -> bytes:
    """The bytes of a line, as they are on the connection."""
    return text.encode("utf-8", "surrogateescape")


def meaning(answer: str) -> str | None:
    """What an answer means, if that isn't plain."""
    return telling.refusal(answer) or next((text for pattern, text in MEANINGS if re.fullmatch(pattern, answer)), None)


def refusal(line: str, answer: str) -> str | None:
    """By which word a line was refused, also if it wasn't answered; none if it wasn't refused. What a node or a machine does is
    no refusal, and neither is that no byte has come."""
    if answer.startswith("error: "):
        return "unanswered"
    if telling.refusal(answer) is not None:
        return telling.REFUSED
    error = re.fullmatch(r"(?:! )?error \d+ (\w+)", answer)
    if error:
        return error[1]
    verb, *words = answer.split() or [""]
    if verb == "why" or verb.startswith("!"):
        return "nosuch" if re.fullmatch(r"why \d+ nosuch", answer) else None
    found = next((it for it in words if it in REFUSING.get(verb, REFUSALS)), None)
    return found or ("hostfull" if shortfall(line, answer) else None)


def bytes_taken(answer: str) -> int:
    """How many bytes the host took, by the answer to a line that gives it some."""
    return int(answer.split()[2])


def bytes_given(line: str) -> int:
    """How many bytes a line gives a host, with those by which a message begins."""
    verb, _, content = line.removesuffix("\r").split(" ", 2)
    if verb == "send":
        return len(bytes_meant(content))
    return 9 if verb == "poke" else len(content) // 2 + (verb == "boot")


def shortfall(line: str, answer: str) -> str | None:
    """What it means that a host took fewer bytes than the line gives it; none if it took all."""
    told = answer.split()
    if line.split()[0] not in ("write", "send", "boot", "poke") or len(told) != 3 or not told[2].isdigit():
        return None
    whole = bytes_given(line)
    if int(told[2]) >= whole:
        return None
    return f"the host took {told[2]} of {whole} bytes, as its queue is full: is it joined with a node (join) that takes them?"


def with_meaning(line: str | None, answer: str) -> list[str]:
    """An answer as it is shown: with the text of what was collected, and what it means below it. One about exercises is in lines."""
    if found := telling.read(answer):
        return telling.lines_of(*found)
    if why := telling.refusal(answer):
        return [f"{answer.partition(' ')[0]}: {why}"]
    text = meaning(answer) or (shortfall(line, answer) if line else None)
    return [with_text(answer), *([f"  ({text})"] if text else [])]


def with_text(answer: str) -> str:
    """An answer, and behind the bytes that were collected their text, if that can be printed, or else their numbers, if they are
    whole words."""
    collected = re.fullmatch(r"collect \d+ ((?:[0-9a-f]{2})+)", answer)
    content = bytes.fromhex(collected[1]) if collected else b""
    shown = as_letters(content) or as_numbers(content) if content else None
    return f"{answer}  {shown}" if shown else answer
