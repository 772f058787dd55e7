"""What the scripts share: where the tree is, its crates, and its built programs."""

import os
import sys

TOP = os.path.dirname(os.path.dirname(os.path.abspath(__file__)))


def crate_lines() -> dict[str, str]:
    """Each crate of crates.txt with its line."""
    with open(f"{TOP}/crates.txt", encoding="utf-8") as lines:
        texts = [line.partition("#")[0].strip() for line in lines]
    return {text.partition(":")[0].split()[0]: text for text in texts if text}


def crates_below(lines: dict[str, str]) -> dict[str, list[str]]:
    """Each crate with the crates of this repository on which it stands."""
    return {name: [it for it in line.partition(":")[2].split() if it in lines] for name, line in lines.items()}


def stood_on(name: str, below: dict[str, list[str]]) -> set[str]:
    """The crates on which a crate stands, at any depth."""
    found: set[str] = set()
    left = [*below[name]]
    while left:
        if (it := left.pop()) not in found:
            found.add(it)
            left += below[it]
    return found


def is_program(name: str) -> bool:
    """Whether a crate is a program, and no library."""
    return os.path.isfile(f"{TOP}/crates/{name}/src/main.rt")


def built(name: str) -> str:
    """The path of a program, which is proved and built first if it isn't known to be proved of these sources. If a variable
    of its name in capitals is set (FARM, LAB, LIVE), the program is the one at that path, and nothing
    is built. The script ends if it can't be built."""
    import subprocess  # pylint: disable=import-outside-toplevel

    given = os.environ.get(name.upper())
    if given:
        return os.path.abspath(given)
    call = [f"{TOP}/tools/start", "--only-build", name]
    if status := subprocess.run(call, stdin=subprocess.DEVNULL, check=False).returncode:
        sys.exit(status)
    return f"{TOP}/crates/{name}/out/{name}"
