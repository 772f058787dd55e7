"""A farm for as long as a script wants it, and programs in the cells of a notebook, also by a real IPython where Debian's
python3-ipython is installed."""

import os
from collections.abc import Callable

import pytest
from support.trials import NEXT, TOP, put

import nadzsumek

SEVEN = "        ajw 4\n        mint\n        ldc 7\n        outbyte\n        stopp\n"


def test_farm_of_a_script(live: str, folder: str) -> None:
    """It is there within `with`, and its folder is gone after it."""
    with open(f"{TOP}/examples/two-users.farm", encoding="utf-8") as it:
        put(f"{folder}/plan", it.read().partition("\n---\n")[0] + "\n")
    with nadzsumek.serve(f"{folder}/plan") as farm:
        room = farm.folder
        assert farm.users() == ["ann", "bob"]
        with farm.user("ann") as ann:
            assert ann.rest() is nadzsumek.Rest.QUIET
    assert not os.path.exists(room)


def test_refused_plan(live: str, folder: str) -> None:
    put(f"{folder}/plan", "version = 9\n")
    with pytest.raises(nadzsumek.NoFarm, match="plan"):
        with nadzsumek.serve(f"{folder}/plan"):
            pass


class Shell:
    """Takes the cells that a notebook is given."""

    def __init__(self) -> None:
        self.cells: dict[str, Callable[[str, str], object]] = {}

    def register_magic_function(self, does: Callable[[str, str], object], kind: str, name: str) -> None:
        assert kind == "cell"
        self.cells[name] = does


def test_cells(lab: str) -> None:
    """What came of a program, and what is wrong with one, without the path of the file that was made of it."""
    shell = Shell()
    nadzsumek.load_ipython_extension(shell)
    assert sorted(shell.cells) == ["occam", "t414"]
    shown = shell.cells["occam"]('--send "HAL"', NEXT)
    assert '"IBM"' in repr(shown)
    assert "07" in repr(shell.cells["t414"]("", SEVEN))
    shown = shell.cells["occam"]("", "SEQ\n  x := 1\n")
    assert repr(shown).startswith("cell.occ:2:3: ")
    assert "&quot;x&quot;" in getattr(shown, "_repr_html_")()


def test_ipython(lab: str) -> None:
    """By the real one."""
    interactive = pytest.importorskip("IPython.core.interactiveshell")
    shell = interactive.InteractiveShell()
    shell.run_line_magic("load_ext", "nadzsumek")
    assert '"IBM"' in repr(shell.run_cell_magic("occam", '--send "HAL"', NEXT))
