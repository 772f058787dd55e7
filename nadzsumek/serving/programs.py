"""Files of programs: how their names end, and which file is meant by a name that is nearly one."""

from __future__ import annotations

import os

from ..mistakes.nearness import nearest

# How the names of programs end, in occam and in assembly.
OCCAM, ASSEMBLY = ".occ", ".s"
# How alike two names of files are at least: their endings are alike in any case.
ALIKE = 0.75


def is_program(name: str) -> bool:
    """Whether this is the name of a program."""
    return name.endswith((OCCAM, ASSEMBLY))


def near_file(path: str) -> str | None:
    """The program beside this path whose name is nearest to it; none if none is near."""
    folder, name = os.path.split(path)
    place = os.path.expanduser(folder) or "."
    there = [it for it in os.listdir(place) if is_program(it)] if os.path.isdir(place) else []
    near = nearest(name, there, ALIKE)
    return os.path.join(folder, near) if near else None
