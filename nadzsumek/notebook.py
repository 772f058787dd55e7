"""Programs in the cells of a notebook: `%load_ext nadzsumek` gives `%%occam` and `%%t414`.

    %%occam --send "HAL"
    CHAN OF BYTE from, to:
    ..

The words after the name are those of `lab run`, and what it shows is shown."""

from __future__ import annotations

import html
import os
import shlex
import subprocess
import tempfile
from collections.abc import Callable
from typing import Any

from .serving.folder import program

# How many seconds a cell may take.
SECONDS = 120
KINDS = {"occam": "occ", "t414": "s"}
BAD = "color: #c33"


class Shown:
    """What came of a program, or what is wrong with it."""

    def __init__(self, text: str, is_right: bool) -> None:
        self.text, self.is_right = text, is_right

    def __repr__(self) -> str:
        return self.text

    def _repr_html_(self) -> str:
        style = "" if self.is_right else f' style="{BAD}"'
        return f"<pre{style}>{html.escape(self.text)}</pre>"


def run(kind: str, line: str, cell: str) -> Shown:
    """Runs the program of a cell."""
    with tempfile.TemporaryDirectory(prefix="nadzsumek-") as room:
        path = os.path.join(room, f"cell.{KINDS[kind]}")
        with open(path, "w", encoding="utf-8") as it:
            it.write(cell)
        call = [program("lab"), "run", path, *shlex.split(line)]
        try:
            done = subprocess.run(
                call, stdin=subprocess.DEVNULL, capture_output=True, encoding="utf-8", timeout=SECONDS, check=False
            )
        except subprocess.TimeoutExpired:
            return Shown(f"it took more than {SECONDS} seconds", False)
    return Shown((done.stdout + done.stderr).replace(f"{room}/", "").rstrip("\n"), done.returncode == 0)


def cell_of(kind: str) -> Callable[[str, str], Shown]:
    """The function of a cell's first line and its text."""

    def magic(line: str, cell: str) -> Shown:
        return run(kind, line, cell)

    return magic


def load_ipython_extension(shell: Any) -> None:
    """Gives a notebook these cells."""
    for kind in KINDS:
        shell.register_magic_function(cell_of(kind), "cell", kind)
