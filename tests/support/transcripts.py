"""What a user was answered, held against the records of the domain: the replies that the records have to the events of
each of the user's lines, in their order, are what was told."""

import glob
import itertools
import re
from collections.abc import Iterable, Sequence

Event = tuple[bytes, bytes]
Place = tuple[int, int, int]

# Stands between the events of a record and those of the next.
RESTARTED = (b"restart", b"")
# The lines that ask for events, if the plan has one host and one node.
ASKING = re.compile(
    rb"restart|config (?:[0-9a-f]{2})+|(?:write|boot) 0 (?:[0-9a-f]{2})+|poke 0 [0-9a-f]{8} [0-9a-f]{8}|"
    rb"peek 0 [0-9a-f]{8}|(?:collect|reset|look) 0"
)


class Sent:
    """A line that was sent, and its answer; none if its user was told that it wasn't answered. `loose` tells how many
    lines of connections that were cut before were sent before it. Behind a mark none of those is done any more."""

    __slots__ = ("text", "answer", "loose", "is_mark")

    def __init__(self, text: bytes, is_mark: bool = False) -> None:
        self.text, self.loose, self.is_mark = text, 0, is_mark
        self.answer: bytes | None = None


def events_of(folder: str, name: str) -> list[Event]:
    """The events that a user asked for, with their replies, through all records of his domain."""
    paths = glob.glob(f"{folder}/{name}.replay") + glob.glob(f"{folder}/{name}.*.replay")
    events: list[Event] = []
    for at, path in enumerate(sorted(paths, key=lambda it: int((re.findall(r"\.(\d+)\.replay$", it) or ["1"])[0]))):
        with open(path, "rb") as it:
            text = it.read().partition(b"\n---\n")[2]
        if at:
            events.append(RESTARTED)
        events += re.findall(rb"^0 ((?:config|write|read|reset|look) .*) @0 = (.*)$", text, re.M)
    return events


def pieces(digits: bytes) -> list[bytes]:
    return [digits[at : at + 2] for at in range(0, len(digits), 2)]


def turned(word: bytes) -> bytes:
    """A word's digits, the least significant byte first."""
    return b"".join(reversed(pieces(word)))


def asked(text: bytes) -> tuple[list[bytes], Iterable[bytes]]:
    """The events that a line asks for, one after another: those by which bytes are written, and the others."""
    if not ASKING.fullmatch(text):
        return [], []
    verb, *words = text.split(b" ")
    if verb == b"restart":
        return [], [RESTARTED[0]]
    if verb == b"config":
        return [], [b"config " + it for it in pieces(words[0])]
    if verb == b"collect":
        return [], itertools.repeat(b"read 0")
    if verb in (b"look", b"reset"):
        return [], [verb + b" 0"]
    if verb == b"write":
        sent = words[1]
    elif verb == b"boot":
        sent = b"%02x" % (len(words[1]) // 2) + words[1]
    else:
        sent = (b"00" if verb == b"poke" else b"01") + b"".join(turned(it) for it in words[1:])
    return [b"write 0 " + it for it in pieces(sent)], [b"read 0"] * (4 * (verb == b"peek"))


def replies_at(text: bytes, events: Sequence[Event], at: int) -> tuple[list[bytes], bool]:
    """The replies to a line's events in the records from this place on, and whether they are all that it asks for.
    Nothing is written behind a byte for which there was no room, and nothing is read behind one that hadn't come."""
    replies: list[bytes] = []
    for names, last in zip(asked(text), (b"full", b"none")):
        for name in names:
            if at + len(replies) == len(events) or events[at + len(replies)][0] != name:
                return replies, False
            replies.append(events[at + len(replies)][1])
            if replies[-1] == last:
                break
    return replies, True


def answer_of(text: bytes, replies: list[bytes]) -> bytes:
    """The answer to a line whose events were replied to so."""
    verb = text.split(b" ")[0]
    if verb == b"config":
        told = b" ".join(it for it in replies if it != b"nothing") or b"-"
    elif verb in (b"write", b"boot", b"poke"):
        told = b"0 %d" % replies.count(b"written")
    elif verb in (b"peek", b"collect"):
        came = [it for it in replies if it not in (b"written", b"full", b"none")]
        told = b"0 " + (b"".join(came) or b"-") if verb == b"collect" else b"0 -"
        if verb == b"peek" and len(came) == 4:
            told = b"0 " + b"".join(reversed(came))
    elif verb == b"look":
        told = b"0 " + replies[0]
    else:
        told = {b"reset": b"0 ok", b"restart": b"ok"}[verb]
    return verb + b" " + told


def reached(places: set[Place], events: Sequence[Event], loose: Sequence[bytes], restarts: int) -> set[Place]:
    """The places that can be reached from some by lines of connections that were cut, each of which is done, in part or
    whole, or isn't, and by the operator's restarts. A place: events, such lines, and such restarts that lie behind."""
    every, new = set(places), list(places)
    while new:
        at, passed, begun = new.pop()
        nexts = set()
        if begun < restarts and events[at : at + 1] == [RESTARTED]:
            nexts.add((at + 1, passed, begun + 1))
        if passed < len(loose):
            nexts |= {(at + it, passed + 1, begun) for it in range(len(replies_at(loose[passed], events, at)[0]) + 1)}
        new += nexts - every
        every |= nexts
    return every


def fault_of(
    sent: Sequence[Sent], loose: Sequence[bytes], events: Sequence[Event], restarts: tuple[int, int]
) -> str | None:
    """What is wrong with a user's list: none if the records have just its lines, each with its answer and in its order,
    lines that weren't answered in part or not at all, and between them what `reached` says. `restarts` are the
    operator's: how many were answered, and how many were sent."""
    places = {(0, 0, 0)}
    for line in sent:
        after: set[Place] = set()
        for at, passed, begun in reached(places, events, loose[: line.loose], restarts[1]):
            replies, is_whole = replies_at(line.text, events, at)
            if line.answer is None:
                after |= {(at + it, passed, begun) for it in range(len(replies) + 1)}
            elif is_whole and (not replies or answer_of(line.text, replies) == line.answer):
                after.add((at + len(replies), passed, begun))
        if not after:
            at = max(places)[0]
            return f"{line.text!r}, answered {line.answer!r}, isn't so in the records, which have {events[at:at + 12]} there"
        places = {(at, line.loose, begun) for at, _, begun in after} if line.is_mark else after
    ends = [begun for at, _, begun in reached(places, events, loose, restarts[1]) if at == len(events)]
    if not any(restarts[0] <= begun for begun in ends):
        at = max(places)[0]
        return f"{len(events) - at} events at the end of the records were never asked for: {events[at:at + 12]}"
    return None
