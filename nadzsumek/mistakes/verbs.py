"""The verbs of a user and of the operator: the words after each, an example, and what it does. Terminals, scripts in Python and what
is said of the lines of a script use this table."""

from __future__ import annotations

import re
import textwrap
from collections.abc import Mapping
from typing import NamedTuple, Protocol

from .elsewhere import meant
from .nearness import nearest


class Kind(NamedTuple):
    """What a word after a verb must be, and what stands for it in the form of a line."""

    pattern: str
    most: int
    meaning: str
    example: str
    letters: str = ""


HEX = Kind(r"([0-9a-fA-F]{2})+", 0, "an even number of hexadecimal digits", "01000103", "HEX")
ADDRESS = Kind(r"[0-9a-fA-F]{8}", 0, "eight hexadecimal digits", "80000100", "ADDR")
WORD = ADDRESS._replace(letters="WORD")
HOST = Kind(r"\d+", 255, "the number of a host", "0", "HOST")
NODE = Kind(r"\d+", 255, "the number of a node", "0", "NODE")
PORT = Kind(r"\d+", 31, "the number of a port", "7", "PORT")
FILE = Kind(r".+", 0, "a file", "hello.s", "FILE")
OWN_FILE = FILE._replace(meaning="the file of your program", example="my.occ")
NEW_FILE = FILE._replace(meaning="the name of a file", example="my.replay")
EXERCISE = Kind(r"[a-z0-9][a-z0-9-]{0,63}", 0, "the name of an exercise", "sums", "EXERCISE")
NUMBER = Kind(r"\d{1,9}", 0, "a number of what you have handed in", "1", "NUMBER")
TEXT = Kind(r".+", 0, "a text", '"hello\\n"', '"TEXT"')
SENTENCE = Kind(r".+", 0, "a sentence", "we end at five")
USER = Kind(r"[a-z0-9-]{1,32}", 0, "a user's name", "ann")


class Verb(NamedTuple):
    """The words after a verb, an example, what the verb does, how many of the words may be left out, and what else is
    to be known."""

    kinds: tuple[Kind, ...]
    example: str
    meaning: str
    optional: int = 0
    more: tuple[str, ...] = ()


LOADING = (
    "a file whose name ends with .occ has a program in occam, which is compiled instead",
    "the file is looked for in the folder where this terminal was opened, then among the examples",
    "a node that has booted takes no other boot until it is reset (reset 0): if the bytes would boot nothing it says so, "
    "and asks what to do",
)
CHECKING = ("it is tried on a fresh machine of its own, and yours stays as it is",)
BY_LINE = ("below it are the lines of the programs that were loaded from here",)
FILMING = ("with a file it is that file: film my.html",)
DEBUGGING = ("there help lists the commands, and quit comes back",)
SENDING = ("or numbers: send 0 word 5 -7, byte 1 2 or hex 0a0b; in quotes it is a text",)
ROOMS = (
    "then rests if the machine rests, the bytes of its room that are used and that there are, and the same of its records",
)
# The verbs of a user whose ports aren't known.
USERS = {
    "join": Verb(
        (PORT, PORT), "join P Q", "joins two ports both ways and makes them ready: those of a link and of a host"
    ),
    "load": Verb(
        (HOST, FILE), "load 0 hello.s", "assembles a program and boots it; long code is poked first", more=LOADING
    ),
    "send": Verb((HOST, TEXT), 'send 0 "hello\\n"', "gives a host the bytes of a text", more=SENDING),
    "collect": Verb((HOST,), "collect 0", "takes all bytes that came to the host"),
    "why": Verb(
        (NODE,), "why 0", "tells why a node waits, halted or runs on; why alone tells it of all nodes", 1, BY_LINE
    ),
    "restart": Verb(
        (), "restart", "makes your machine as it was opened, and gives its room back, if it is yours alone"
    ),
    "film": Verb((NEW_FILE,), "film", "makes a page for a browser, which shows what your machine did", 1, FILMING),
    "debug": Verb((), "debug", "goes back and on through what your machine did, line by line", more=DEBUGGING),
    "record": Verb((NEW_FILE,), "record", "puts the record of your machine since its last restart into a file", 1),
    "exercises": Verb(
        (EXERCISE,), "exercises", "lists the exercises of your class, and what you have handed in; one with its task", 1
    ),
    "check": Verb((EXERCISE, OWN_FILE), "check sums my.occ", "tries a program in an exercise", more=CHECKING),
    "submit": Verb((EXERCISE, OWN_FILE), "submit sums my.occ", "tries a program in an exercise and hands it in"),
    "submitted": Verb(
        (NUMBER,), "submitted", "lists what you have handed in; with a number one program, with its text", 1
    ),
    "reset": Verb((NODE,), "reset 0", "resets a node; its memory stays"),
    "look": Verb((NODE,), "look 0", "tells a node's state, and how many bytes each link dropped"),
    "rest": Verb(
        (), "rest", "tells whether something goes on in your machine: quiet or busy; full if its room is used up"
    ),
    "ports": Verb((), "ports", "tells which ports are joined, and what is there; it changes nothing"),
    "text": Verb((HOST,), "text 0", "takes all bytes that came to the host, as collect does"),
    "config": Verb(
        (HEX,), "config 01000103", "sends configuration bytes: here 01 joins the ports 0 and 1, 03 makes ready"
    ),
    "write": Verb((HOST, HEX), "write 0 68690a", "gives a host bytes to send"),
    "boot": Verb(
        (HOST, HEX), "boot 0 b424f224f2243081ff21f5", "boots the node that is joined with the host with this code"
    ),
    "poke": Verb(
        (HOST, ADDRESS, WORD), "poke 0 80000100 12345678", "stores a word in a booting node, through the host"
    ),
    "peek": Verb((HOST, ADDRESS), "peek 0 80000100", "reads a word of a booting node, through the host"),
}
OPERATORS = {
    "words": Verb((), "words", "the words of the 32 physical outputs"),
    "users": Verb(
        (), "users", "for each user the lines answered, the events recorded, the limit, and quiet or busy", more=ROOMS
    ),
    "memory": Verb((), "memory", "the bytes of memory that the farm has, and that all its rooms may take together"),
    "restart": Verb((USER,), "restart ann", "makes the domain of a user as it was opened, for all its users"),
    "tell": Verb((SENTENCE,), "tell we end at five", "tells all users of the farm something, as a note"),
    "stop": Verb((), "stop", "ends the farm for all its users; serve goes on where it was when it is started again"),
}
ALL = {
    "help": Verb((), "help load", "lists the verbs, or tells of one"),
    "quit": Verb((), "quit", "leaves the farm as it is and ends this terminal, as exit and Ctrl-D do"),
}
# The verbs of a script for `farm`, and those that the lab spells out.
# The verbs of users who write bytes as the switch and a node take them, and what is above them where verbs are listed. Lines there
# have so many letters at most, and what a verb does begins behind its example.
OF_BYTES, BYTES_HEAD, WIDTH, EXAMPLE = ("config", "write", "boot", "poke", "peek"), "Byte by byte:", 100, 32
OF_SCRIPTS = ("config", "write", "boot", "poke", "peek", "collect", "reset", "look")
SHORTHAND = ("load", "join", "send", "text")
# Those whose last word is a file.
OF_FILES = tuple(name for name, verb in USERS.items() if verb.kinds[-1:] in ((FILE,), (OWN_FILE,)))
# Those that a terminal does itself with its user's record.
OF_RECORD = ("record", "film", "debug")
# Another word for a verb.
ALIASES = {"exit": "quit"}
# The verbs whose answers begin with a number of their lines.
NUMBERED = {name for name, verb in USERS.items() if verb.kinds[:1] in ((HOST,), (NODE,)) and not verb.optional}


class Wrong(Exception):
    """A line that isn't sent: which word is wrong, and what to try."""


class Ports(Protocol):
    """The ports of a user that examples name: one of a link, one of a host, and that host's number."""

    @property
    def link(self) -> int:
        ...

    @property
    def port(self) -> int:
        ...

    @property
    def host(self) -> int:
        ...


def is_of(kind: Kind, word: str) -> bool:
    """Whether a word is of a kind."""
    if re.fullmatch(kind.pattern, word, re.ASCII) is None:
        return False
    digits = word.lstrip("0") or "0"
    return not kind.most or (len(digits) <= len(str(kind.most)) and int(digits) <= kind.most)


def with_ports(ports: Ports) -> dict[str, Verb]:
    """The verbs of a user, with examples for his own ports and his own host."""
    link, port = (PORT._replace(example=f"{it}") for it in (ports.link, ports.port))
    config, host = f"config 01{ports.link:02x}{ports.port:02x}03", HOST._replace(example=f"{ports.host}")
    own = {
        name: verb._replace(kinds=(host, *verb.kinds[1:]), example=verb.example.replace("0", host.example, 1))
        for name, verb in USERS.items()
        if verb.kinds[:1] == (HOST,)
    }
    meaning = f"sends configuration bytes: here 01 joins the ports {ports.link} and {ports.port}, 03 makes ready"
    own["config"] = USERS["config"]._replace(example=config, meaning=meaning)
    own["join"] = USERS["join"]._replace(
        kinds=(link, port),
        example=f"join {ports.link} {ports.port}",
        meaning=f"joins two ports both ways and makes them ready: {config}",
    )
    return {**USERS, **own}


def find(table: Mapping[str, Verb], word: str) -> Verb:
    """The verb of this name."""
    if word in table:
        return table[word]
    hint = meant(word, table) if word.lower() not in (*table, *ALIASES) else None
    if hint:
        raise Wrong(f"there is no verb {word!r}. {hint}")
    examples = {name: verb.example for name, verb in table.items()} | {it: it for it in ALIASES}
    near = nearest(word.lower(), examples, 0.5)
    raise Wrong(f"there is no verb {word!r}. " + (f"Is it {near}? Try: {examples[near]}" if near else "Try: help"))


def check(name: str, verb: Verb, words: list[str]) -> None:
    """Refuses the words after a verb if their number is wrong, or one of them."""
    for kind, word in zip(verb.kinds, words):
        if not is_of(kind, word):
            raise Wrong(
                f"{word!r} is wrong: {name} wants {kind.meaning} there, such as {kind.example}. Try: {verb.example}"
            )
    if len(words) < len(verb.kinds) - verb.optional:
        kind = verb.kinds[len(words)]
        raise Wrong(f"{name} wants {kind.meaning} behind it, such as {kind.example}. Try: {verb.example}")
    if len(words) > len(verb.kinds):
        raise Wrong(
            f"{words[len(verb.kinds)]!r} is too much behind {verb.example.partition(' ')[0]}. Try: {verb.example}"
        )


def goes_on(answer: str) -> bool:
    """Whether this isn't the last line of an answer: only `why` has several, and its last is `why end`."""
    return answer.startswith("why ") and not re.fullmatch(r"why (end|\d+ nosuch)", answer)


def help_lines(table: Mapping[str, Verb], word: str | None = None) -> list[str]:
    """An example of each verb with what it does, or of one. The verbs of bytes come last."""
    if word:
        return lines_about(find(table, word))
    plain = [line for name, verb in table.items() if name not in OF_BYTES for line in lines_about(verb)]
    bytewise = [line for name, verb in table.items() if name in OF_BYTES for line in lines_about(verb)]
    return [*plain, *([BYTES_HEAD] if bytewise else []), *bytewise]


def lines_about(verb: Verb) -> list[str]:
    """An example of a verb, and beside it what it does."""
    said = [line for text in (verb.meaning, *verb.more) for line in textwrap.wrap(text, WIDTH - EXAMPLE - 1)]
    return [f"{example:<{EXAMPLE}} {line}" for example, line in zip([verb.example, *[""] * len(said)], said)]
