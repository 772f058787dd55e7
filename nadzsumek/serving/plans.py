"""A class as plans: whose name is which, how many farms there are, and what each student gets."""

from __future__ import annotations

import codecs
import os
import re
import shlex
import unicodedata
from collections.abc import Callable
from typing import Any, NamedTuple

from .folder import OPERATOR, Refused

# What one farm has, and what its plan allows: see docs/PLAN.md.
DOMAINS, PORTS, NODES, HOSTS, NAME = 16, 32, range(1, 9), range(1, 5), 32
MEMORY, LIMIT = range(2048, 65537, 4), range(1, (1 << 40) + 1)
# How letters are spelled that aren't one of a to z with a mark.
SPELLED = str.maketrans(
    {
        "ß": "ss",
        "æ": "ae",
        "œ": "oe",
        "ø": "o",
        "ł": "l",
        "đ": "d",
        "ð": "d",
        "þ": "th",
        "ħ": "h",
        "ŧ": "t",
        "ŋ": "ng",
        "ı": "i",
        "ə": "e",
    }
)
TAB = "\t"
# How each plan begins that is written here.
VERSION = "version = 3\n"
# Unicode's kinds of characters that aren't seen, such as a mark of the direction; and of those that no name may have, which are
# controls and what divides lines or paragraphs.
UNSEEN, NAMELESS = "Cf", {"Cc", "Zl", "Zp"}
# Those of them that end a line elsewhere.
DIVIDING = set("\v\f\r\x1c\x1d\x1e\x85\u2028\u2029")


class Machine(NamedTuple):
    """What each student gets. A node by itself has one wired link, and each of several has two, so that they can be
    joined in a row or in a ring."""

    nodes: int
    hosts: int
    memory: int
    limit: int

    def links(self) -> int:
        return 1 if self.nodes == 1 else 2

    def ports(self) -> int:
        return self.nodes * self.links() + self.hosts

    def link_port(self, node: int) -> int:
        """The port of a node's first link."""
        return node * self.links()

    def host_port(self, host: int) -> int:
        """The port of a host."""
        return self.nodes * self.links() + host

    def devices(self) -> list[str]:
        """The device at each port, from port 0."""
        links = [f"node {node}, link {link}" for node in range(self.nodes) for link in range(self.links())]
        return links + [f"host {host}" for host in range(self.hosts)]

    def check(self) -> None:
        """Refuses what no plan may have."""
        for what, number, among in (
            ("nodes", self.nodes, NODES),
            ("hosts", self.hosts, HOSTS),
            ("memory", self.memory, MEMORY),
            ("limit", self.limit, LIMIT),
        ):
            if number not in among:
                step = f", a multiple of {among.step}" if among.step > 1 else ""
                raise Refused(f"--{what} is {among[0]} to {among[-1]}{step}, and not {number}")

    def domain(self, name: str, ranges: list[list[int]]) -> str:
        """The part of a plan for this user, who has the ports of these ranges."""
        own = self.nodes * self.links()
        text = [
            f'\n[[domain]]\nuser = [{{ name = "{name}", host = {[own + host for host in range(self.hosts)]} }}]',
            f"range = {ranges}",
            f"limit = {self.limit}",
        ]
        for node in range(self.nodes):
            ports = [node * self.links() + link for link in range(self.links())]
            text.append(f"\n[[domain.node]]\nmemory = {self.memory}\nlinks = {ports + [-1] * (4 - len(ports))}")
        return "\n".join(text) + "\n"


def spelled(letter: str) -> str | None:
    """A letter by a to z, or what stands for it between words; none if it can't be spelled so."""
    plain = unicodedata.normalize("NFKD", letter.lower().translate(SPELLED))
    ascii_part = "".join(it for it in plain if it.isascii())
    kind = unicodedata.category(letter)
    # marks and what isn't seen say nothing, and punctuation and blanks stand between words
    return ascii_part or {UNSEEN: "", "M": "", "P": " ", "Z": " "}.get(kind if kind == UNSEEN else kind[0])


def user_name(person: str) -> tuple[str, list[str]]:
    """A person's name as a user's: letters without their marks, digits, and hyphens between words. And what of it is left
    out."""
    letters = [(it, spelled(it)) for it in unicodedata.normalize("NFC", person)]
    name = re.sub(r"[^a-z0-9]+", "-", "".join(plain or "" for _, plain in letters)).strip("-")
    left = " ".join("".join(" " if plain is not None else it for it, plain in letters).split())
    return name[:NAME].strip("-"), [*([left] if left else []), *([name[NAME:]] if name[NAME:] else [])]


def lines_of(path: str) -> list[str]:
    """The lines of a file of names. A line feed divides them, with a carriage return before it or without, and nothing else."""
    try:
        with open(path, "rb") as it:
            text = it.read().removeprefix(codecs.BOM_UTF8)
    except FileNotFoundError:
        raise Refused(
            f"there is no file {os.path.abspath(path)}: write the students' names into it, one a line"
        ) from None
    except OSError as error:
        raise Refused(f"the file of names {path} can't be read: {error.strerror}") from None
    try:
        return [line.removesuffix("\r") for line in text.decode().split("\n")]
    except UnicodeDecodeError as error:
        line = text.count(b"\n", 0, error.start) + 1
        raise Refused(
            f"{path}, line {line}: the byte {text[error.start]:02x} isn't UTF-8. Save the file as UTF-8. If it is "
            f"Latin-1: iconv -f latin1 -t utf-8 {shlex.quote(path)} > utf8-names.txt"
        ) from None


def nameless(text: str) -> str | None:
    """The first character of a text that no name may have; none if there is none."""
    return next((it for it in text if unicodedata.category(it) in NAMELESS and it != TAB), None)


def check_person(person: str) -> None:
    """Refuses a name with a character that none may have."""
    wrong = nameless(person)
    if wrong is not None:
        more = "write each name on a line of its own, which a line feed ends" if wrong in DIVIDING else "take it out"
        raise Refused(f"{person!r} has the character U+{ord(wrong):04X}, which no name may have: {more}")


def divided(line: str) -> tuple[str, str] | None:
    """The user's name and the name that is shown, of a line `li = 李 小龙` that has both; none if it has a person's name alone."""
    name, sign, person = (it.strip() for it in line.partition("="))
    if not sign:
        return None
    if not name or user_name(name) != (name, []):
        raise Refused(
            f"{line!r}: before = stands a user's name, of a to z, digits and hyphens between them, {NAME} at most, and not "
            f"{name!r}"
        )
    if not person:
        raise Refused(f"{line!r}: behind = stands the name that is shown, as in {name} = 李 小龙")
    return name, person


def checked_name(line: str, students: dict[str, str]) -> tuple[str, str, list[str]]:
    """The user of a line beside these students, the name that is shown, and what of it is left out in the user's name."""
    name, person, left = (*found, []) if (found := divided(line)) else (user_name(line)[0], line, user_name(line)[1])
    if not name:
        raise Refused(
            f"{person!r} makes no user's name: write it with a to z and digits, or one before it: li = {person}"
        )
    if name == OPERATOR:
        raise Refused(f"{person!r} would be the user {OPERATOR}, and that name is reserved: add something to it")
    if name in students:
        raise Refused(f"{person} is the user {name}, as {students[name]} is: add something to one")
    return name, person, left


def refuse_all(wrong: list[str]) -> None:
    """Refuses all that is wrong at once."""
    if wrong:
        raise Refused("\n".join(wrong))


def students_among(
    people: list[tuple[str, str]], check: Callable[[str, str], object] = lambda user, person: None
) -> tuple[dict[str, str], list[str]]:
    """People as students: each comes with the place where he is named, as it is told. Each has the name of a user, which `check`
    may refuse, and there is a note for each of whom something is left out in it. All that are wrong are refused at once.
    """
    students: dict[str, str] = {}
    notes: list[str] = []
    wrong: list[str] = []
    for place, line in people:
        try:
            check_person(line)
            name, person, left = checked_name(line.strip(), students)
            check(name, person)
        except Refused as refused:
            wrong.append(f"{place}{refused}")
            continue
        students[name] = person
        notes += [f"{place}{person} is the user {name}, without {' and '.join(left)}"] if left else []
    refuse_all(wrong)
    return students, notes


def people_in(path: str) -> list[tuple[str, str]]:
    """The people that a file names, one a line, each with his place."""
    people = [
        (f"{path}, line {number}: ", line)
        for number, line in enumerate(lines_of(path), 1)
        if not line.lstrip().startswith("#") and (line.strip() or nameless(line))
    ]
    if not people:
        raise Refused(f"{os.path.abspath(path)} names nobody: write one name a line")
    return people


def students_of(path: str) -> tuple[dict[str, str], list[str]]:
    """The students that a file names."""
    return students_among(people_in(path))


def farms_of(names: list[str], machine: Machine) -> list[list[str]]:
    """The users of each farm, so many as it has domains and ports for."""
    most = min(DOMAINS, PORTS // machine.ports())
    return [names[at : at + most] for at in range(0, len(names), most)]


def plan_of(names: list[str], machine: Machine) -> str:
    """The plan of one farm."""
    ports = machine.ports()
    return VERSION + "".join(
        machine.domain(name, [[at * ports, (at + 1) * ports - 1]]) for at, name in enumerate(names)
    )
