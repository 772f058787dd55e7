"""What a line at a terminal sends: a line for `live`, or several for load, which reads a file. Words that are wrong are refused with
what to try, and `live` decides by itself."""

from __future__ import annotations

import os
import re
import subprocess
from typing import TYPE_CHECKING

from ..mistakes.elsewhere import BY_WORD, meant
from ..mistakes.nearness import nearest
from ..mistakes.places import shown
from ..mistakes.verbs import (
    ALIASES,
    ALL,
    FILE,
    NEW_FILE,
    OF_FILES,
    OF_RECORD,
    OPERATORS,
    OWN_FILE,
    SENTENCE,
    TEXT,
    USERS,
    Wrong,
    check,
    find,
    with_ports,
)
from .folder import EXAMPLES, OPERATOR, Refused, build, program
from .programs import ASSEMBLY, OCCAM, is_program, near_file
from .texts import in_quotes
from .values import numeric_bytes

if TYPE_CHECKING:
    from .ports import Ports
    from ..mistakes.verbs import Verb


# A program that is handed in has at most so many bytes.
MOST_TEXT = 65_536


def table_of(name: str, ports: Ports | None = None) -> dict[str, Verb]:
    """The verbs of a user, with examples for his ports if they are known, or of the operator."""
    users = with_ports(ports) if ports else USERS
    return {**(OPERATORS if name == OPERATOR else users), **ALL}


def split(name: str, line: str, ports: Ports | None = None) -> tuple[str, Verb, list[str]]:
    """The verb of a line with its words. The last word of some verbs goes to the end of the line."""
    words = line.split()
    table, others = table_of(name, ports), USERS if name == OPERATOR else OPERATORS
    first = words[0].removeprefix("!") if name == OPERATOR else words[0]
    first = ALIASES.get(first, first)
    if first in others and first not in table:
        raise Wrong(
            f"{first} is a verb of {'users: connect as one of them' if name == OPERATOR else 'the operator'}. "
            f"{meant(first, table) or 'Try: help'}"
        )
    if len(words) > 1 and first not in table and BY_WORD.get(first.lower()) == "load" and "load" in table:
        load = load_of(line.split(None, 1)[1].strip(), ports)
        raise Wrong(f"there is no verb {first!r}. load {table['load'].meaning}. Try: {load}")
    verb = find(table, first)
    most = len(verb.kinds)
    if verb.kinds and verb.kinds[-1] in (TEXT, FILE, OWN_FILE, NEW_FILE, SENTENCE):
        words = line.split(None, most)
    return first, verb, [it.strip() for it in words[1:]]


def lines_of(name: str, line: str, ports: Ports | None = None) -> list[str]:
    """The lines that a line asks for, none for `help`, `quit` and those of records, which the terminal does itself."""
    first, verb, words = split(name, line, ports)
    if first in ALL:
        return []
    if first == "load" and words and not words[0].isdigit():
        raise Wrong(f"load wants the number of a host before the file. Try: {load_of(' '.join(words), ports)}")
    check(first, verb, words)
    if first in OF_RECORD:
        return []
    if first == "load":
        return loading(name, words[0], words[1])
    if first in OF_FILES:
        return [handing(first, words[0], words[1])]
    numbers = numeric_bytes(words[1]) if first == "send" else None
    if numbers:
        return [f"write {words[0]} {numbers.hex()}"]
    if first == "send":
        words[1] = in_quotes(words[1])
    return [" ".join(([f"!{first}"] if name == OPERATOR else [first]) + words)]


def load_of(words: str, ports: Ports | None) -> str:
    """The line that loads what these words name, by the host that they begin with or else by the user's first."""
    has_host = re.match(r"\d+\s+\S", words)
    return f"load {words}" if has_host else f"load {ports.host if ports else 0} {words}"


def examples() -> dict[str, str]:
    """The names of the examples that can be loaded, each with its path."""
    return {
        name: os.path.join(folder, name)
        for ending, folder in EXAMPLES.items()
        if os.path.isdir(folder)
        for name in os.listdir(folder)
        if name.endswith(ending)
    }


def unquoted(file: str) -> str:
    """The name of a file, with quotes round it or without."""
    return file[1:-1] if len(file) > 2 and file[0] in "'\"" and file[-1] == file[0] else file


def found(file: str, line: str, there: dict[str, str]) -> str:
    """The path of a program's file that is the last word of a line which begins so: as it is said, or one of those that are there by
    name, whose ending may be left out."""
    name = unquoted(file)
    for path in (os.path.expanduser(name), *(there.get(name + ending, "") for ending in ("", *EXAMPLES))):
        if os.path.isfile(path):
            return path
    if os.path.isdir(os.path.expanduser(name)):
        raise Wrong(
            f"{name} is a folder, and {line.partition(' ')[0]} wants a file. Try: {line} {next(iter(there), 'my.occ')}"
        )
    near = near_file(name) or nearest(name, there)
    if near:
        raise Wrong(f"there is no file {name} in {os.getcwd()}. Is it {near}? Try: {line} {near}")
    raise Wrong(
        f"there is no file {name} in {os.getcwd()}" + (f". Examples are {', '.join(sorted(there))}" if there else "")
    )


def handing(first: str, exercise: str, file: str) -> str:
    """The line by which a program is tried in an exercise, or handed in: with its language and the bytes of its text."""
    path = found(file, f"{first} {exercise}", {})
    if not is_program(path):
        raise Wrong(f"{file} is no program: the name of one ends with {OCCAM} or {ASSEMBLY}")
    try:
        with open(path, "rb") as it:
            content = it.read(MOST_TEXT + 1)
    except OSError as error:
        raise Wrong(f"{file} can't be read: {error.strerror}") from None
    if len(content) > MOST_TEXT:
        raise Wrong(f"{file} has more than {MOST_TEXT} bytes")
    if not content:
        raise Wrong(f"there is nothing in {file}")
    try:
        content.decode()
    except UnicodeDecodeError as error:
        line = content.count(b"\n", 0, error.start) + 1
        raise Wrong(f"{file}, line {line}: the byte {content[error.start]:02x} isn't UTF-8") from None
    return f"{first} {exercise} {os.path.splitext(path)[1][1:]} {content.hex()}"


def said_of(path: str, file: str, told: str) -> str:
    """What the lab says of the text in a file, by the name that was given for it."""
    said = told if path.endswith(OCCAM) else shown(os.path.abspath(path), told).rstrip("\n")
    said = said.replace(f"{os.path.abspath(path)}:", f"{file}:")
    return said if said.startswith(file) else f"{file}: {said}"


def translated(path: str, *words: str) -> tuple[list[str] | None, str]:
    """The lines that `lab` prints of a program, which is in occam if its file's name says so: its code, or what the words ask
    for. Or what `lab` says is wrong."""
    call = ["occam", os.path.abspath(path), *(words or ["--code"])] if path.endswith(OCCAM) else ["assemble", *words]
    with open(path, "rb") as file:
        done = subprocess.run([program("lab"), *call], stdin=file, capture_output=True, check=False)
    told = done.stderr.decode(errors="replace").strip()
    return done.stdout.decode().splitlines() if done.returncode == 0 else None, told


def text_of(host: str, file: str) -> str:
    """The path of the text that a `load` loads."""
    return found(file, f"load {host}", examples())


def loading(name: str, host: str, file: str) -> list[str]:
    """The lines that boot a program: its code, or pokes and a jump if it is too long for a boot."""
    path = text_of(host, file)
    try:
        build("connect", "lab")
        code, told = translated(path)
        if code:
            return [f"boot {host} {code[0]}"]
        lines, told = translated(path, "--pokes", host, name)
    except (OSError, Refused) as error:
        raise Wrong(f"{file} can't be {'compiled' if path.endswith(OCCAM) else 'assembled'}: {error}") from None
    if not lines:
        raise Wrong(said_of(path, file, told) if told else f"{file}: lab was broken off")
    return [line.removeprefix(f"{name} ") for line in lines]
