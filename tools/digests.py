"""The text docs/HASHES.txt, which belongs to a release: what it says, what it would say now, and whether a program is one that it names."""

from typing import NamedTuple, Optional

from stamps import Stamp, digest_of, digest_of_file, is_proved, is_this_toolchain
from tree import TOP

TEXT = f"{TOP}/docs/HASHES.txt"
PROGRAMS = ("farm", "live", "lab")
HEAD = """# The SHA-256 of each proved program, as the toolchain named below makes it from the sources whose digest is beside it: code,
# definitions and proofs. tools/hashes writes this text when a release is made, and the gate compares it with the programs that it has
# proved and built, if it is of their sources. docs/RELEASES.md says how to check a program by it.
"""


class Written(NamedTuple):
    """What a text of hashes says: the toolchain's line, and for each program its SHA-256 and the digest of what was proved for it."""

    toolchain: Optional[str]
    rows: dict[str, tuple[str, str]]

    def of_other_sources(self) -> list[str]:
        """The programs of which it has other sources than these, or nothing."""
        return [it for it in PROGRAMS if it not in self.rows or self.rows[it][1] != digest_of(it)]


def written() -> Written:
    """What the text says."""
    with open(TEXT, encoding="ascii") as it:
        lines = [line.split() for line in it if line.strip() and not line.startswith("#")]
    told = next((" ".join(words[1:]) for words in lines if words[0] == "toolchain"), None)
    return Written(told, {words[0]: (words[1], words[2]) for words in lines if words[0] != "toolchain"})


def is_named(name: str, path: str) -> bool:
    """Whether a program has the bytes that the text names for these sources and this toolchain."""
    try:
        told = written()
        return told.rows.get(name) == (digest_of_file(path), digest_of(name)) and is_this_toolchain(told.toolchain)
    except OSError:
        return False


def is_known(name: str, path: str) -> bool:
    """Whether the program at a path is known to be proved of these sources by this toolchain: by its stamp, or by the text."""
    return is_proved(name, path) or is_named(name, path)


def text_of(stamps: dict[str, Stamp]) -> str:
    """A text of hashes of these programs, which one toolchain has proved."""
    line = next(iter(stamps.values())).toolchain
    table = "".join(f"{name:<13}{it.program}  {it.proved}\n" for name, it in stamps.items())
    return f"{HEAD}\ntoolchain    {line}\n\n# program    SHA-256 of the program, and of its sources\n{table}"
