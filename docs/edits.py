"""The file docs/wrong_bodies.txt, a line for each crate that has some: how many there are, how many are the gate's, and
on which day all that were there then were last tried and refused. `tools/wrong_bodies --table` writes it, and `docs/check`
compares it. The days are in docs/tried.txt, where `tools/wrong_bodies --record CRATE..` writes them."""

import re
from collections.abc import Iterable
from pathlib import Path

HEAD = """# Wrong bodies: planted mistakes that the prover must refuse at the contract that they break. A line has the crate, how many it has, how
# many of them the gate tries at each change, and the day on which all that the crate had then were last tried and refused. A crate
# without a day has never had all of them tried in one run. `tools/wrong_bodies --table` writes it.
"""
PAGE = "docs/wrong_bodies.txt"


def days_of(top: Path) -> dict[str, str]:
    """The day of each crate in docs/tried.txt."""
    lines = (top / "docs/tried.txt").read_text(encoding="utf-8").splitlines()
    return {crate: day for crate, day in (line.split() for line in lines if line and not line.startswith("#"))}


def write_days(top: Path, crates: Iterable[str], day: str) -> None:
    """Writes the day of some crates into docs/tried.txt."""
    page = top / "docs/tried.txt"
    head = [line for line in page.read_text(encoding="utf-8").splitlines() if line.startswith("#")]
    days = sorted({**days_of(top), **{crate: day for crate in crates}}.items())
    page.write_text("\n".join([*head, *(f"{crate} {it}" for crate, it in days)]) + "\n", encoding="utf-8")


def table_of(top: Path) -> str:
    """What the file should be."""
    days, lines = days_of(top), list[str]()
    for crate in sorted(it.name for it in (top / "crates").iterdir()):
        others = [it.read_text(encoding="utf-8") for it in (top / "crates" / crate).glob("wrong_bodies/*.edit")]
        gate = len([*(top / "crates" / crate).glob("must-fail/*.edit")])
        if others or gate:
            promising = sum(bool(re.search(r"^promise: yes$", text, re.M)) for text in others)
            lines.append(f"{crate} {len(others) + gate} {promising + gate} {days.get(crate, '')}".rstrip())
    return HEAD + "\n".join(lines) + "\n"


def write_table(top: Path) -> None:
    """Writes the file."""
    (top / PAGE).write_text(table_of(top), encoding="utf-8")
