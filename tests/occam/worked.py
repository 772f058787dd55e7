"""Occam programs of several processes whose answers were worked by hand, for the interpreter of this folder and for the farm: those of
the table worked.txt."""
from collections.abc import Iterator
from dataclasses import dataclass

from occam.meaning import read
from support.tables import Block, table


@dataclass
class Worked:
    """A program: what it is about, its text, what comes at its links, what it sends at link 0, and how it ends; of one that halts while
    other processes are there, whether it may have sent a beginning of that alone."""

    name: str
    text: str
    coming: dict[int, bytes]
    said: str
    end: str
    is_loose: bool


def worked(block: Block) -> Worked:
    words = block.wanted.split()
    coming = {0: bytes.fromhex(words[1])} if words[0] == "comes" else {}
    said, end = words[words.index("sends") + 1 :][:2]
    return Worked(block.name, "\n".join(block.lines) + "\n", coming, said.replace("-", ""), end, words[-1] == "loose")


WORKED = [worked(it) for it in table("worked")]


def differing() -> Iterator[tuple[Worked, str]]:
    """The programs of which the interpreter says something else, with what."""
    for it in WORKED:
        program = read(it.text)
        for seed in range(3):
            talk = program.run(it.coming, seed=seed, takes_any=seed > 0)
            said = talk.said.get(0, b"").hex()
            if (said, talk.end, talk.is_loose) != (it.said, it.end, it.is_loose) or set(talk.said) - {0}:
                yield it, f"{talk.end}, {said or '-'}, expected {it.end}, {it.said}"
