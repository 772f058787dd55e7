"""Tables of trials in texts: blocks that begin with a line `=== NAME`, each with remarks, lines, and behind a line `---` what is expected."""

import re
from typing import NamedTuple

from support.trials import TOP, text_of


class Block(NamedTuple):
    """A block of a table: its name, its lines without remarks at its beginning, what the line `---` says, and what is behind that."""

    name: str
    lines: list[str]
    said: str
    wanted: str


def block_of(text: str) -> Block:
    name, _, rest = text.strip("\n").partition("\n")
    body = re.sub(r"\A(?:#.*\n)+", "", rest + "\n")
    lines, _, wanted = f"\n{body}".partition("\n---")
    said, _, wanted = wanted.partition("\n")
    return Block(name, lines.strip("\n").split("\n") if lines.strip() else [], said.strip(), wanted)


def table(name: str) -> list[Block]:
    """The blocks of the table of this name, in their order."""
    return [block_of(it) for it in re.split(r"^=== ", text_of(f"{TOP}/tests/tables/{name}.txt"), flags=re.M)[1:]]
