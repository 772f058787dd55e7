"""What a machine looks like: its nodes and hosts, what is joined with what, and what each node does, with the lines of its program. It is
made of what the farm and the lab say, and asks nothing itself."""

from __future__ import annotations

import re
from typing import TYPE_CHECKING, Any, NamedTuple

from ..serving.ports import drivers_in

if TYPE_CHECKING:
    from collections.abc import Iterable

    from ..serving.ports import Wiring

# How a line begins that is about a node, and how one that names a process of a program by its line.
NODE = re.compile(r"node (\d+) (.*)")
PROCESS = re.compile(r"node (\d+) (?:at [0-9a-f]{8} )?(waits|goes on|erred|is ready) in line (\d+)(?: \(\d+\))?: (.*)")
# What the first line about a node says, by which its state is known.
STATES = (
    (r"halted by fault|.* fault \d", "fault"),
    (r"waits for a control byte\.", "unused"),
    (r"has ended", "ended"),
    (r"rests", "waits"),
    (r"runs", "runs"),
    (r"waits|takes|answers", "boots"),
)
DEADLOCK = "a deadlock"
Answer = dict[str, Any]


class Node(NamedTuple):
    """A node: what it does, and the lines that say so."""

    number: int
    lines: list[str]

    def state(self) -> str:
        """One word for what it does."""
        if any(DEADLOCK in it for it in self.lines):
            return "deadlock"
        told = NODE.fullmatch(self.lines[0]) if self.lines else None
        return next((name for pattern, name in STATES if told and re.match(pattern, told[2])), "unknown")


def nodes_in(lines: Iterable[str], count: int) -> tuple[list[Node], list[Answer]]:
    """The nodes of a machine with what is said of each, and the processes whose lines are known."""
    nodes, processes, at = [Node(it, []) for it in range(count)], list[Answer](), None
    for line in lines:
        if found := PROCESS.fullmatch(line):
            processes.append({"node": int(found[1]), "does": found[2], "line": int(found[3]), "text": found[4].strip()})
            at = None
        elif (told := NODE.fullmatch(line)) and int(told[1]) < count:
            at = nodes[int(told[1])]
            at.lines.append(line)
        elif at is not None and line.startswith(" "):
            at.lines.append(line)
    return nodes, processes


def joins_in(wiring: Wiring, answer: str) -> list[Answer]:
    """What is joined: from which device to which, by their names, and whether it is so yet."""
    drivers = drivers_in(answer) or {}
    return [
        {"from": wiring.device(source), "to": wiring.device(output), "ready": f" {output}:(" not in answer}
        for output, source in drivers.items()
        if source is not None
    ]


def picture_of(wiring: Wiring, ports: str, lines: list[str], rest: str) -> Answer:
    """The picture of a machine."""
    nodes, processes = nodes_in(lines, len(wiring.nodes))
    return {
        "hosts": [{"number": number, "port": port} for number, port in wiring.hosts.items()],
        "nodes": [
            {
                "number": it.number,
                "links": [{"link": link, "port": port} for link, port in wiring.links_of(it.number)],
                "state": "runs" if rest == "busy" and not it.lines else it.state(),
                "told": it.lines,
                "processes": [one for one in processes if one["node"] == it.number],
            }
            for it in nodes
        ],
        "joins": joins_in(wiring, ports),
    }
