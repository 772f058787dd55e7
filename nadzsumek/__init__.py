"""The users of a farm, for scripts: see docs/guides/SCRIPTING.md.

    from nadzsumek import Farm

    with Farm("course/farm-1").user("ann") as ann:
        ann.join(0, 1)
        ann.load(0, "hello.s")
        print(ann.collect(0, count=6, seconds=5))

In a notebook `%load_ext nadzsumek` gives cells `%%occam` and `%%t414`.
"""

from __future__ import annotations

from importlib import import_module
from typing import Any

# Where each name is. A module is imported when a name of it is first used: the compiler of occam needs none of them.
_MODULES = {
    **dict.fromkeys(("AsyncUser", "Farm", "Operator", "User", "serve"), "farm"),
    "load_ipython_extension": "notebook",
    **dict.fromkeys(("FarmError", "NoFarm", "NoProgram", "NotAnswered", "Refused"), "failures"),
    **dict.fromkeys(
        (
            "Checked",
            "Exercise",
            "HandedIn",
            "Loaded",
            "Look",
            "Machine",
            "Note",
            "Rest",
            "State",
            "Tested",
            "Used",
            "Watched",
            "Why",
        ),
        "results",
    ),
}
__all__ = [
    "AsyncUser",
    "Checked",
    "Exercise",
    "Farm",
    "FarmError",
    "HandedIn",
    "Loaded",
    "Look",
    "Machine",
    "NoFarm",
    "NoProgram",
    "NotAnswered",
    "Note",
    "Operator",
    "Refused",
    "Rest",
    "State",
    "Tested",
    "Used",
    "User",
    "Watched",
    "Why",
    "load_ipython_extension",
    "serve",
]


def __getattr__(name: str) -> Any:
    if name not in _MODULES:
        raise AttributeError(f"module {__name__!r} has no attribute {name!r}")
    return getattr(import_module(f".{_MODULES[name]}", __name__), name)
