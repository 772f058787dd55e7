"""What the processes of a film's nodes do: at each moment at which that may change, the debugger of the lab is asked which there are, where
each is and what it waits for, and what `why` says of a node that does nothing."""

from __future__ import annotations

import os
import re
import time
from collections.abc import Iterator
from dataclasses import dataclass, field
from typing import Any

from ..debugging.engine import Engine, Process, Refused

# How many moments are asked at most, and how long that may take.
MOST_MOMENTS, MOST_SECONDS = 20_000, 8.0
# The bytes of instructions by which processes start, end and wait, and those that store a word: the functions stl and stnl.
ENDING = 0xF3
SWITCHING = frozenset((ENDING, 0xF7, 0xFB, 0xFD, 0xFE, 0xFF))
STORING = frozenset((0xD, 0xE))
OPERATION, BLOCK = 0xF, 16
# Facts of a node by which its processes may have become others.
CONCERNING = re.compile(r"node (\d) (?:W|look|waiting \d|link \d \w+)")
# Where `why` begins to tell of a node, and the lines that tell of processes in lines of programs.
PARAGRAPH, WAITING = re.compile(r"node (\d+) (?!at )"), re.compile(r"node \d+ at |Since event ")
DEADLOCK = "a deadlock"
Json = dict[str, Any]
Change = dict[str, Any]


@dataclass
class Node:
    """What is known of a node up to a frame, and its moments: the frame `f`, the processes `p` and what `why` says `w`, by numbers of
    tables, and the variables that became others, `v`. A process has a lane by its workspace; one that makes room for itself
    keeps it, and what follows a PAR has that of the process which began the PAR."""

    processes: list[Process] = field(default_factory=list)
    rows: list[int] = field(default_factory=list)
    variables: dict[str, str] = field(default_factory=dict)
    moments: list[Json] = field(default_factory=list)
    why: int | None = None
    lanes: dict[int, int] = field(default_factory=dict)
    joins: dict[int, int] = field(default_factory=dict)

    def follow(self, now: list[Process], join: int | None) -> None:
        """Gives the processes of a moment their lanes. `join` is the join at which the one that ran has just ended, if it has."""
        there, before = {it.workspace for it in now}, {it.workspace for it in self.processes}
        ran = next((it.workspace for it in self.processes if it.state == "goes on"), None)
        if join is not None and ran in self.lanes:
            self.joins.setdefault(join, self.lanes[ran])
        for it in now:
            if it.workspace in self.lanes and it.workspace in before | there and it.state != "goes on":
                continue
            if it.workspace not in before and it.state == "goes on":
                if join is not None and it.workspace in self.joins:
                    self.lanes[it.workspace] = self.joins.pop(it.workspace)
                elif join is None and ran is not None and ran not in there:
                    self.lanes[it.workspace] = self.lanes[ran]
            self.lanes.setdefault(it.workspace, len(set(self.lanes.values())))
        self.processes = now


@dataclass
class Story:
    """The moments of all nodes of a film."""

    engine: Engine
    film: Json
    nodes: list[Node]
    rows: dict[tuple[Any, ...], int] = field(default_factory=dict)
    texts: dict[str, int] = field(default_factory=dict)
    messages: list[list[Any]] = field(default_factory=list)
    deadlocks: list[int] = field(default_factory=list)
    facts: dict[str, Any] = field(default_factory=dict)
    begin: int | None = None
    known: int | None = None
    join: dict[int, int] = field(default_factory=dict)

    def told(self, sources: dict[int, str]) -> Json:
        """All moments, as the page has them; `known` is the last frame whose processes are known, if that isn't the last."""
        try:
            self.follow()
        except (Refused, OSError, ValueError):
            self.known = self.known or 0
        return {
            "rows": [list(it) for it in self.rows],
            "whys": [*self.texts],
            "nodes": [{"moments": it.moments} for it in self.nodes],
            "messages": self.messages,
            "deadlocks": self.deadlocks,
            "begin": self.begin or 0,
            "known": self.known,
            "sources": {f"{node}": text for node, text in sources.items()},
        }

    def follow(self) -> None:
        """Asks at each frame at which processes or variables may have become others."""
        end, count, frame = time.monotonic() + MOST_SECONDS, 0, 0
        for frame, change, line in frames_of(self.film):
            nodes = self.concerned(change, line) if frame else {it: True for it in range(len(self.nodes))}
            is_of_all = frame == 0 or touches_others(change, line)
            self.merge(change)
            if nodes and self.begin is None and any(self.is_begun(it) for it in nodes):
                self.begin = frame
            # a node that boots has no processes, and what it says of each byte is of no use
            booted = {it: moved for it, moved in nodes.items() if not self.look(it).startswith("booting")}
            for node in nodes.keys() - booted.keys():
                self.note_none(node, frame)
            resting = [it for it, _ in enumerate(self.nodes) if self.look(it).startswith(("idle", "halted"))]
            if not booted and not (is_of_all and resting):
                continue
            if count >= MOST_MOMENTS or time.monotonic() > end:
                self.known = frame - 1
                return
            count += len(booted) + 1
            self.engine.go(self.facts["recorded"])
            whys = self.whys() if resting and (is_of_all or booted) else {}
            for node in sorted({*booted, *resting}):
                self.ask(node, frame, booted.get(node), whys.get(node, ""))
        if not self.film["goes_on"]:
            self.engine.go(self.facts["recorded"])
            for node, why in self.whys().items():
                self.ask(node, frame, None, why)

    def concerned(self, change: Change, line: Json | None) -> dict[int, bool]:
        """The nodes of which something may have become another by a change, and whether it may be the processes."""
        nodes = {int(it[1]): True for name in change if (it := CONCERNING.match(name))}
        self.join.clear()
        if line is not None and line["asks"].startswith("step "):
            node = int(line["asks"].split()[1])
            byte, operand = self.next_byte(node), self.facts.get(f"node {node} O")
            if byte is None or byte in SWITCHING or change.get("recorded", 0) > self.facts.get("recorded", 0) + 1:
                nodes[node] = True
            elif byte >> 4 in STORING or byte >> 4 == OPERATION and operand:
                nodes.setdefault(node, byte >> 4 == OPERATION)
            if byte == ENDING and not operand:
                self.join[node] = self.facts.get(f"node {node} A", 0)
        return nodes

    def next_byte(self, node: int) -> int | None:
        """The byte of the instruction that a node does next; none if it isn't known."""
        place = self.facts.get(f"node {node} Iptr")
        if not isinstance(place, int):
            return 0
        block = self.facts.get(f"node {node} memory {place - place % BLOCK:08x}", "")
        digits = block[2 * (place % BLOCK) :][:2]
        return int(digits, 16) if digits else None

    def merge(self, change: Change) -> None:
        for name, it in change.items():
            if not isinstance(it, list):
                self.facts[name] = it

    def look(self, node: int) -> str:
        return str(self.facts.get(f"node {node} look", "booting"))

    def is_begun(self, node: int) -> bool:
        """Whether a node is in the program that it was given, or runs if none is known."""
        if node in self.engine.programs:
            at = self.facts.get(f"node {node} Iptr") or 0
            pieces = (it for it in self.film["sources"] if it["node"] == node)
            return any(it["address"] <= at < it["address"] + it["length"] for it in pieces)
        return not self.engine.programs and self.look(node).startswith("running")

    # ---- a moment

    def whys(self) -> dict[int, str]:
        """What `why` says of each node at this moment."""
        told = dict[int, list[str]]()
        node = -1
        for line in self.engine.ask("why"):
            if it := PARAGRAPH.match(line):
                node = int(it[1])
            if node >= 0 and not WAITING.match(line):
                told.setdefault(node, []).append(line)
        return {node: "\n".join(lines) for node, lines in told.items()}

    def ask(self, node: int, frame: int, has_moved: bool | None, why: str) -> None:
        """Notes what may have become another of a node: its processes if they may have moved, and what `why` says; its variables
        too unless that alone is new."""
        it = self.nodes[node]
        moment: Json = {"f": frame}
        if has_moved:
            processes = self.engine.processes_of(node)
            self.messages += [[frame, node, *message] for message in messages_between(it, processes)]
            it.follow(processes, self.join.get(node))
            runs = self.look(node).startswith("running")
            rows = [self.row(it, one, runs) for one in processes]
            if rows != it.rows:
                moment["p"] = it.rows = rows
        number = self.texts.setdefault("" if self.look(node).startswith("running") else why, len(self.texts))
        if number != it.why:
            moment["w"] = it.why = number
            if DEADLOCK in why:
                self.deadlocks.append(frame)
        if has_moved is not None and node in self.engine.programs:
            now = {f"{one.name} {one.line}": one.value for one in self.engine.variables(node) if one.type != "CHAN"}
            changed = {name: value for name, value in now.items() if it.variables.get(name) != value}
            if changed:
                moment["v"] = changed
            it.variables = now
        if len(moment) > 1:
            it.moments.append(moment)

    def note_none(self, node: int, frame: int) -> None:
        """Notes that a node boots, so that it has no processes."""
        it = self.nodes[node]
        if it.rows or it.why:
            it.moments.append({"f": frame, "p": [], "w": self.texts.setdefault("", len(self.texts))})
            it.processes, it.rows, it.why = [], [], self.texts[""]

    def row(self, node: Node, it: Process, runs: bool) -> int:
        """The number of what is shown of a process. Where the one is that goes on in a node that runs its registers say."""
        address = 0 if runs and it.state == "goes on" else (it.address or 0) - (it.state == "waits")
        key = (it.workspace, address, it.state, node.lanes[it.workspace], it.way, *it.channels)
        return self.rows.setdefault(key, len(self.rows))


def touches_others(change: Change, line: Json | None) -> bool:
    """Whether what `why` says of nodes that rest may become another by a change: by what users ask, or by what a link does."""
    is_step = line is not None and line["asks"].startswith("step ")
    return not is_step or any(" link " in name for name in change)


def messages_between(node: Node, now: list[Process]) -> Iterator[tuple[int, int, str]]:
    """The messages within a node up to a moment: the lanes of who sent and of who received, and the name of the channel. Whoever waited
    at a channel and doesn't any more has met the one that ran."""
    still = {it.workspace for it in now if it.state == "waits"}
    ran = next((it for it in node.processes if it.state == "goes on"), None)
    for it in node.processes:
        if it.state != "waits" or it.workspace in still or ran is None or it.way == "alt":
            continue
        runner, other = node.lanes[ran.workspace], node.lanes[it.workspace]
        for name in it.channels:
            if not name.startswith("link "):
                yield (*((runner, other) if it.way == "in" else (other, runner)), name)


def frames_of(film: Json) -> Iterator[tuple[int, Change, Json | None]]:
    """The frames with their numbers, each as the change from the one before, and its line."""
    yield 0, film["first"], None
    number = 0
    for line in film["lines"]:
        for change in line["then"]:
            number += 1
            yield number, change, line


def programs_in(words: list[str]) -> dict[int, str]:
    """The programs that the words of `lab film` name."""
    places = [number for number, word in enumerate(words) if word == "--program"]
    return {int(words[at + 1]): words[at + 2] for at in places if words[at + 2 :] and words[at + 1].isdigit()}


def record_in(words: list[str]) -> str | None:
    """The record that the words of `lab film` name, if it can be read once more."""
    rest, values = iter(words), {"--program": 2, "--from": 1, "--count": 1, "--steps": 1}
    for word in rest:
        if word in values:
            for _ in range(values[word]):
                next(rest, None)
        elif not word.startswith("-"):
            return word if os.path.isfile(word) else None
    return None


def story_of(film: Json, lab: list[str], words: list[str]) -> Json | None:
    """The story of a film that these words have made; none if the record can't be read again."""
    record, programs = record_in(words), programs_in(words)
    nodes = range(len(film["plan"]["nodes"]))
    if record is None or any(it not in nodes for it in programs):
        return None
    sources = dict[int, str]()
    for node, path in programs.items():
        with open(path, encoding="utf-8", errors="replace") as it:
            sources[node] = it.read()
    try:
        engine = Engine.open(lab, record, programs, -1, with_tables=False)
    except (Refused, OSError):
        return None
    try:
        return Story(engine, film, [Node() for _ in nodes]).told(sources)
    finally:
        engine.quit()
