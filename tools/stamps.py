"""What is known of the proof of a program: the one place that decides it for all scripts.

What proves a program leaves a stamp beside it, PROGRAM.proved: the SHA-256 of the program, a digest of all that was proved for it, and
the toolchain's line. A program is proved if its stamp fits it, these sources and this toolchain; of what has no such stamp a build without
a proof is run, which says so (tools/unproved). Only `Proof` writes stamps. It is for scripts that prove: it begins before the proof, and sources that change
meanwhile get no stamp. A stamp finds mistakes, such as a file that was copied there; anyone who can write there could write one too.

usage, by tools/start: python3 -S tools/stamps.py --is-proved PROGRAM    the status tells it
                       python3 -S tools/stamps.py --wanted PROGRAM..     prints those that have to be proved; what is known of each
                                                                         goes to standard error, unless all are proved
"""

import enum
import hashlib
import json
import os
import sys
from collections.abc import Iterable
from typing import NamedTuple, Optional

from tree import TOP, crate_lines, crates_below, stood_on

# What of a crate is proved, and what its bytes come from: definitions and proofs leave none in a program.
PROVED_FOLDERS = ("src", "specs", "proofs")
BUILT_FOLDERS = ("src",)
# The variable that has what isn't proved refused, if it is set.
REFUSING = "NADZSUMEK_PROVED"
NO_TOOLCHAIN = 'there is no `rt` in the path, which proves and builds programs: README.md says below "What you need" where it comes from'


class State(enum.Enum):
    """What is known of a program."""

    PROVED = "proved"
    OLDER = "older"  # proved, but of other sources or by another toolchain
    FOREIGN = "foreign"  # there, without a stamp, or with another program's
    MISSING = "missing"


class Stamp(NamedTuple):
    """What was proved: SHA-256 of the program, the digest of what was proved for it, and the toolchain's line."""

    program: str
    proved: str
    toolchain: str


class Known(NamedTuple):
    """What is known of a program, in words too, and its stamp if that is of its bytes."""

    state: State
    told: str
    stamp: Optional[Stamp] = None


def own_path(name: str) -> str:
    """Where a program of this tree is."""
    return f"{TOP}/crates/{name}/out/{name}"


def unproved_path(name: str) -> str:
    """Where the build of a program of this tree is that isn't proved."""
    return f"{TOP}/crates/{name}/out/unproved/{name}"


def not_proved(command: str) -> str:
    """What a command says that runs a program that isn't proved."""
    return f"{command}: not proved yet: ./prove proves it, some 20 minutes on four cores"


def stamp_path(path: str) -> str:
    """Where the stamp of the program at a path is."""
    return f"{path}.proved"


def digest_of_file(path: str) -> str:
    """The SHA-256 of a file's bytes in hexadecimal digits."""
    with open(path, "rb") as it:
        return hashlib.sha256(it.read()).hexdigest()


def digest_of(program: str, folders: tuple[str, ...] = PROVED_FOLDERS) -> str:
    """The SHA-256 over what is in these folders of a program's crate and of all crates below it: of each crate, by its name, its line
    of crates.txt; of each of its files, by its path, the SHA-256 of its bytes and the path."""
    lines, text = crate_lines(), ""
    for crate in sorted({program, *stood_on(program, crates_below(lines))}):
        text += f"{' '.join(lines[crate].split())}\n"
        walks = (os.walk(f"{TOP}/crates/{crate}/{folder}") for folder in folders)
        paths = sorted(f"{at}/{name}" for walk in walks for at, _, names in walk for name in names)
        text += "".join(f"{digest_of_file(it)}  {it[len(TOP) + 1:]}\n" for it in paths)
    return hashlib.sha256(text.encode()).hexdigest()


def toolchain() -> Optional[str]:
    """The toolchain's line, as `rt version` prints it, or none if there is no toolchain in the path."""
    folders = os.environ.get("PATH", os.defpath).split(os.pathsep)
    rt = next((f"{it}/rt" for it in folders if os.path.isfile(f"{it}/rt") and os.access(f"{it}/rt", os.X_OK)), None)
    if rt is None:
        return None
    try:
        # the file that `rt version` prints; it takes ten times as long
        with open(f"{os.path.dirname(os.path.dirname(os.path.realpath(rt)))}/KIT-ID", encoding="utf-8") as it:
            return it.read().strip()
    except OSError:
        import subprocess  # pylint: disable=import-outside-toplevel

        return subprocess.run([rt, "version"], capture_output=True, text=True, check=True).stdout.strip()


def is_this_toolchain(line: Optional[str]) -> bool:
    """Whether this line is the toolchain's. Without a toolchain in the path nothing can be compared, and any line will do."""
    return toolchain() in (None, line)


def stamp_of(path: str) -> Optional[Stamp]:
    """The stamp beside the program at a path, if it is of the bytes that are there."""
    try:
        with open(stamp_path(path), encoding="utf-8") as it:
            told = json.load(it)
        stamp = Stamp(*(told[field] for field in Stamp._fields))
        return stamp if stamp.program == digest_of_file(path) else None
    except (OSError, ValueError, LookupError, TypeError):
        return None


def known_of(name: str, path: Optional[str] = None) -> Known:
    """What is known of a program: of this tree's, or of the one at a path."""
    path = path or own_path(name)
    if not (os.path.isfile(path) and os.access(path, os.X_OK)):
        return Known(State.MISSING, "not built yet")
    stamp = stamp_of(path)
    if stamp is None:
        return Known(State.FOREIGN, "here, and nothing is known of its proof")
    if stamp.proved != digest_of(name):
        return Known(State.OLDER, "proved of other sources", stamp)
    if not is_this_toolchain(stamp.toolchain):
        return Known(State.OLDER, f"proved by another toolchain, {stamp.toolchain}", stamp)
    return Known(State.PROVED, f"proved by {stamp.toolchain}, and built from these sources", stamp)


def is_proved(name: str, path: Optional[str] = None) -> bool:
    """Whether a program is known to be proved of these sources by this toolchain."""
    return known_of(name, path).state is State.PROVED


class Proof:
    """A proof of programs that begins now. Of each that isn't proved yet, what is there is removed: whatever is there later was made by
    this proof. `stamp` tells what was proved."""

    def __init__(self, names: Iterable[str]) -> None:
        self.line = toolchain()
        self.digests = {it: digest_of(it) for it in names}
        for path in (own_path(it) for it in self.digests if not is_proved(it)):
            for it in (path, stamp_path(path)):
                if os.path.lexists(it):
                    os.remove(it)

    def stamp(self, name: str) -> bool:
        """Leaves the stamp of a program that was proved and built since the proof began, and tells whether it did. It doesn't if the
        program isn't there, or the sources or the toolchain have changed since."""
        path = own_path(name)
        if not os.path.isfile(path):
            return False
        stamp = Stamp(digest_of_file(path), self.digests[name], self.line or "")
        if self.line is None or (stamp.proved, stamp.toolchain) != (digest_of(name), toolchain()):
            print(
                f"{name}: its sources or the toolchain changed while it was proved: it has to be proved again",
                file=sys.stderr,
            )
            return False
        with open(f"{stamp_path(path)}.new", "w", encoding="utf-8") as it:
            it.write(json.dumps(stamp._asdict(), indent=2) + "\n")
        os.replace(f"{stamp_path(path)}.new", stamp_path(path))
        return True


def need_toolchain(command: str) -> None:
    """Ends a command that proves, or that names the toolchain, with one sentence if there is none in the path."""
    if toolchain() is None:
        sys.exit(f"{command}: {NO_TOOLCHAIN}")


def wanted(names: list[str]) -> list[str]:
    """Which of these programs have to be proved. If there are such, it is said what is known of each."""
    known = {it: known_of(it) for it in names}
    left = [it for it in names if known[it].state is not State.PROVED]
    if left:
        need_toolchain(", ".join(left))
        for name, it in known.items():
            print(f"{name}: {it.told}", file=sys.stderr)
        print(
            f"{', '.join(left)}: proving and building with all on which this stands; the first program took 7 to 16 minutes on "
            "four cores",
            file=sys.stderr,
            flush=True,
        )
    return left


def main(words: list[str]) -> int:
    unknown = [it for it in words[1:] if it not in crate_lines()]
    if unknown:
        sys.exit(f"tools/start: crates.txt has no crate {unknown[0]}")
    if words[:1] == ["--is-proved"] and len(words) == 2:
        return 0 if is_proved(words[1]) else 1
    if words[:1] != ["--wanted"]:
        sys.exit(__doc__)
    print(" ".join(wanted(words[1:])))
    return 0


if __name__ == "__main__":
    sys.exit(main(sys.argv[1:]))
