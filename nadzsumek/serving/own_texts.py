"""The texts that terminals and scripts of a user loaded into each node. They are kept in a folder of whoever loads, each under its hash,
so that it can be said later in which lines processes wait."""

from __future__ import annotations

import contextlib
import hashlib
import os
import re
from collections.abc import Callable, Iterable
from typing import TYPE_CHECKING

from .loads import fed_by
from .ports import drivers_in

if TYPE_CHECKING:
    from .ports import Wiring

# What the system says of where programs keep such things, and where they do if it says nothing.
STATE, OTHERWISE = "XDG_STATE_HOME", "~/.local/state"
# How many digits of a hash names have, and how a name is read.
DIGITS = 16
NAME = re.compile(r"(\d+)\.([0-9a-f]{%d})\.(occ|s)" % DIGITS)


def nodes_fed(wiring: Wiring | None, host: int, ports: str) -> list[int]:
    """The nodes that get what a host sends, by an answer to `ports`."""
    if wiring is None or host not in wiring.hosts:
        return []
    return sorted({node for node, _, _ in fed_by(wiring, drivers_in(ports), host)})


class OwnTexts:
    """The texts of a user of the farm in a folder."""

    def __init__(self, folder: str, name: str) -> None:
        user = hashlib.sha256(f"{os.path.realpath(folder)}\n{name}".encode("utf-8", "surrogateescape")).hexdigest()
        state = os.environ.get(STATE) or os.path.expanduser(OTHERWISE)
        self.folder = os.path.join(state, "nadzsumek", user[:DIGITS])

    def keep(self, nodes: Iterable[int], path: str | None) -> None:
        """Keeps the text in a file as that of these nodes; of code without a text none. What can't be kept isn't."""
        with contextlib.suppress(OSError):
            os.makedirs(self.folder, mode=0o700, exist_ok=True)
            for node in nodes:
                for entry in os.listdir(self.folder):
                    if (named := NAME.fullmatch(entry)) and int(named[1]) == node:
                        os.remove(os.path.join(self.folder, entry))
                if path is not None:
                    with open(path, "rb") as it:
                        content = it.read()
                    digest = hashlib.sha256(content).hexdigest()[:DIGITS]
                    ending = os.path.splitext(path)[1]
                    with open(os.path.join(self.folder, f"{node}.{digest}{ending}"), "wb") as out:
                        out.write(content)

    def all(self) -> dict[int, str]:
        """The path of the text of each node that has one, if it is still the text that was kept."""
        found = dict[int, str]()
        with contextlib.suppress(OSError):
            for entry in os.listdir(self.folder):
                if it := NAME.fullmatch(entry):
                    path = os.path.join(self.folder, entry)
                    with open(path, "rb") as text:
                        if hashlib.sha256(text.read()).hexdigest()[:DIGITS] == it[2]:
                            found[int(it[1])] = path
        return dict(sorted(found.items()))

    def loaded(self, wiring: Wiring | None, host: int, path: str | None, ask: Callable[[str], str]) -> None:
        """Keeps a text that was loaded by a host; `ask` answers a line."""
        self.keep(nodes_fed(wiring, host, ask("ports")), path)
