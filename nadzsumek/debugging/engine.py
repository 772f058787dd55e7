"""What a debug adapter asks of a debugger through time, answered by the text commands of `lab debug`."""
from __future__ import annotations

import re
import subprocess
from collections.abc import Iterator
from dataclasses import dataclass, field

# A wrong command follows each, and the answer to it ends the answer, since nothing else does.
WRONG, END = "~", "`~` is no command: try help"
PLACE = re.compile(r"^(there is no such event: )?after (\d+) of (\d+) events")
CODE = re.compile(r"^([> ]) ([0-9a-f]{8})  ((?:[0-9a-f]{2} ?)+) +(.*?)(?: {2,}line (\d+)(?: \((\d+)\))? .*)?$")
STEP = re.compile(r"^node (\d) ([0-9a-f]{8}) (.*)$")
MOVED = re.compile(r"^port \d+ \((.*?)\) byte ([0-9a-f]{2}) goes to(.*)$")
HOST = re.compile(r"\(host (\d)[^)]*\)")
QUEUE = re.compile(r"^(runs|waits) W ([0-9a-f]{8}) at ([0-9a-f]{8}|-)$")
VARIABLE = re.compile(r"^([0-9a-f]{8})  (\S+) (\S+) \(line (\d+)\): (.*)$")
ERRED = re.compile(r"^node \d at ([0-9a-f]{8}) erred")
NO_CODE = re.compile(r"^line \d+ has no code .*?(?:the next that has is line (\d+))?$")
# How many events are traced at a time in search of a line.
CHUNKS = (200, 2_000, 20_000, 100_000)
# Where a boot puts code, and where it is poked if it is longer than that many bytes.
BOOTED, POKED, MOST_BOOT = 0x80000048, 0x80000050, 255
# The first word of memory, which is the word of an empty channel too, and how many words there are of channels at links.
NO_PROCESS, LINK_WORDS = 0x80000000, 8
# How a process waits whose last instruction ended with this byte: by in, out, outbyte, outword or altwt.
WAYS = {0xF7: "in", 0xFB: "out", 0xFE: "out", 0xFF: "out", 0xF4: "alt"}


class Refused(Exception):
    """What can't be answered, and why."""


@dataclass(frozen=True)
class Spot:
    """An instruction of a program: its line, that of the PROC instance around it, and what begins there."""

    line: int | None = None
    instance: int | None = None
    begins: bool = False  # the code of a process of the line
    enters: bool = False  # that of the instance

    def is_any(self, node: int, stops: set[tuple[int, int]]) -> bool:
        return self.begins and ((node, self.line) in stops or (self.enters and (node, self.instance) in stops))


@dataclass
class Table:
    """The instructions of a node's program by their addresses."""

    spots: dict[int, Spot] = field(default_factory=dict)
    workspace: dict[int, int | None] = field(default_factory=dict)  # which process comes to an address

    def around(self, address: int | None) -> Spot:
        """The instruction that has the byte at an address."""
        return (
            next((self.spots[address - it] for it in range(8) if address - it in self.spots), Spot())
            if address
            else Spot()
        )


@dataclass
class Process:
    """A process of a node, or a node that shows none."""

    node: int
    workspace: int  # 0 if none is known
    state: str  # `goes on`, `is ready`, `waits`, or what the node does
    address: int | None
    spot: Spot
    way: str = ""  # of one that waits: `in`, `out` or `alt`
    channels: list[str] = field(default_factory=list)  # and at which

    @property
    def wait(self) -> str:
        """What it waits for."""
        if not self.way:
            return ""
        names = " or ".join(self.channels)
        return f"to send by {names}" if self.way == "out" else f"to receive by {names}"


@dataclass
class Channels:
    """The names of a node's channels by the addresses of their words, and the ranges of these words."""

    names: dict[int, str]
    ranges: list[tuple[int, int]]


@dataclass
class Variable:
    name: str
    type: str
    line: int
    address: str
    value: str
    elements: list[str]


@dataclass
class Engine:
    """`lab debug` as a process, and where it is."""

    lab: list[str]
    programs: dict[int, str]
    child: subprocess.Popen[str]
    here: int = 0
    events: int = 0
    said: list[str] = field(default_factory=list)
    tables: dict[int, Table] = field(default_factory=dict)
    output: list[tuple[int, int, int]] = field(default_factory=list)
    channels: dict[int, Channels] = field(default_factory=dict)
    ways: dict[tuple[int, int], str] = field(default_factory=dict)

    @staticmethod
    def open(
        lab: list[str], record: str, programs: dict[int, str], output_up_to: int, with_tables: bool = True
    ) -> "Engine":
        words = [*lab, "debug", record]
        for node, file in programs.items():
            words += ["--program", str(node), file]
        pipe = subprocess.PIPE
        engine = Engine(lab, programs, subprocess.Popen(words, stdin=pipe, stdout=pipe, stderr=pipe, text=True))
        engine.said = [line for line in engine.ask("") if not PLACE.match(line)]
        if with_tables:
            engine.tables = {node: engine.table(node, file) for node, file in programs.items()}
        if engine.events <= output_up_to:
            engine.index_output()
        engine.go(0)
        return engine

    def ask(self, command: str) -> list[str]:
        return self.ask_all([command])[0]

    def ask_all(self, commands: list[str]) -> list[list[str]]:
        """The answers to several commands, which are sent together."""
        assert self.child.stdin and self.child.stdout and self.child.stderr
        try:
            self.child.stdin.write("".join(command.replace("\n", " ") + f"\n{WRONG}\n" for command in commands))
            self.child.stdin.flush()
        except BrokenPipeError:
            pass
        return [self.answer() for _ in commands]

    def answer(self) -> list[str]:
        """The lines of the next answer."""
        assert self.child.stdout and self.child.stderr
        lines: list[str] = []
        for raw in self.child.stdout:
            line = raw.rstrip("\n")
            if line == END:
                return lines
            if place := PLACE.match(line):
                self.here, self.events = int(place[2]), int(place[3])
            lines.append(line)
        raise Refused("lab debug ended: " + self.child.stderr.read().strip())

    def quit(self) -> None:
        assert self.child.stdin
        self.child.stdin.close()
        self.child.wait(10)

    def go(self, event: int) -> None:
        if event != self.here:
            self.ask(f"go {event}")

    # Lines.

    def table(self, node: int, file: str) -> Table:
        """The lines of a program's instructions, sixteen a command, and by a guess where the code of a line begins."""
        table = Table()
        if not file.endswith(".occ"):
            return table
        done = subprocess.run([*self.lab, "occam", file, "--listing"], capture_output=True, text=True, check=False)
        size = max((int(line[:8], 16) for line in done.stdout.splitlines()), default=BOOTED) - BOOTED + 1
        address = first = BOOTED if size <= MOST_BOOT else POKED
        key = (0, 0)
        while address < first + size:
            came = address
            for line in self.ask(f"code {node} {address:08x}"):
                if (it := CODE.match(line)) is None:
                    continue
                number, instance = (int(it[5]) if it[5] else None), (int(it[6]) if it[6] else None)
                new = (instance or number or 0, number or 0 if instance else 0)
                begins = number is not None and new > key
                enters = begins and instance is not None and new[0] > key[0]
                table.spots[at := int(it[2], 16)] = Spot(number, instance, begins, enters)
                key, address = new, at + len(it[3].split())
            if address == came:
                break
        return table

    def line_with_code(self, node: int, line: int) -> int | None:
        """This line, or the next that has code."""
        here = self.here
        self.go(self.events)  # the search ends at once there, and still says whether the line has code
        answer = self.ask(f"until node {node} at line {line}")
        self.go(here)
        if (it := NO_CODE.match(answer[0])) is None:
            return line
        return int(it[1]) if it[1] else None

    # Going on and back.

    def seek(self, goals: list[str], back: bool) -> int | None:
        """Goes to the nearest moment that is looked for, and returns which goal it was: a search for each, since `until` has
        one goal. If there is none it goes to the end."""
        here = self.here
        found: list[tuple[int, int]] = []
        for number, goal in enumerate(goals):
            answer = self.ask(("back until " if back else "until ") + goal)
            if answer and (place := PLACE.match(answer[-1])) and not place[1]:
                found.append((self.here, number))
            self.go(here)
        if not found:
            self.go(0 if back else self.events)
            return None
        at, number = (max if back else min)(found, key=lambda it: it[0])
        self.go(at)
        return number

    def moments(self, back: bool, node: int, stops: set[tuple[int, int]]) -> Iterator[tuple[int, int, int]]:
        """The moments at which a process of a node comes to the begin of a line, or any node to a stop: the moment, the node
        and the address. They are read from the lines of `trace`, one for each event."""
        start = edge = self.here
        for size in CHUNKS:
            low = max(0, edge - size) if back else edge
            self.go(low)
            found: list[tuple[int, int, int]] = []
            concerned: dict[int, int] = {}
            for number, line in enumerate(self.ask(f"trace {(edge - low) if back else size}")[:-1]):
                if (step := STEP.match(line)) is not None:
                    its, at = int(step[1]), int(step[2], 16)
                    spot = self.tables[its].spots.get(at) if its in self.tables else None
                    moment = low + concerned.get(its, 0)
                    if spot and spot.begins and (its == node or spot.is_any(its, stops)) and moment != start:
                        found.append((moment, its, at))
                    concerned[its] = number + 1
                else:
                    for its in map(int, re.findall(r"\(node (\d),", line)):
                        concerned[its] = number + 1
            edge = low if back else self.here
            yield from reversed(found) if back else found
            if edge in (0, self.events):
                return

    def workspace_at(self, node: int, moment: int, address: int) -> int | None:
        """Which process comes there. It is the same each time, since nothing is called and each PAR has places of its own."""
        known = self.tables[node].workspace
        if address not in known:
            self.go(moment)
            known[address] = next(
                (it.workspace for it in self.processes() if it.node == node and it.state == "goes on"), None
            )
        return known[address]

    def step(self, its: Process, how: str, back: bool, stops: set[tuple[int, int]]) -> tuple[str, int]:
        """Goes to where a process comes to the next or the last line, or a node to a stop: why it is there, and the node."""
        table = self.tables.get(its.node, Table())
        entered = its.state == "goes on" and its.spot.enters and table.spots.get(its.address or 0) == its.spot
        for moment, node, address in self.moments(back, its.node, stops):
            spot = self.tables[node].spots[address]
            is_stop, same = spot.is_any(node, stops), spot.instance == its.spot.instance
            inside = spot.instance is not None and ((same and entered) if same or spot.enters else True)
            if not is_stop and ((how == "over" and inside) or (how == "out" and same)):
                continue
            if is_stop or not its.workspace or self.workspace_at(node, moment, address) == its.workspace:
                self.go(moment)
                return ("breakpoint" if is_stop else "step"), node
        self.go(0 if back else self.events)
        return "end", its.node

    def index_output(self) -> None:
        """Which byte comes to which host in which event: `trace` shows each event in a line, without its number."""
        self.go(0)
        while self.here < self.events:
            first = self.here
            for number, line in enumerate(self.ask("trace 100000")):
                if (moved := MOVED.match(line)) is not None:
                    for host in HOST.findall(moved[3]):
                        self.output.append((first + number + 1, int(host), int(moved[2], 16)))

    def received(self, before: int, last: int) -> dict[int, bytes]:
        told: dict[int, bytes] = {}
        for event, host, byte in self.output:
            if before < event <= last:
                told[host] = told.get(host, b"") + bytes([byte])
        return told

    # What is there.

    def variables(self, node: int, name: str = "") -> list[Variable]:
        found: list[Variable] = []
        for it in filter(None, map(VARIABLE.match, self.ask(f"variables {node} {name}"))):
            value = it[5]
            if value.endswith(", ..]") and not name:
                value = next((whole.value for whole in self.variables(node, it[3]) if whole.address == it[1]), value)
            elements = value[1:-1].split(", ") if it[2].startswith("[") else []
            found.append(Variable(it[3], it[2], int(it[4]), it[1], value, elements))
        return found

    def registers(self, node: int) -> list[tuple[str, str]]:
        return re.findall(r" ([A-Za-z]+) ([0-9a-f]+)", " ".join(self.ask(f"registers {node}")))

    def processes(self) -> list[Process]:
        """All processes at this moment."""
        found: list[Process] = []
        for state in self.ask("look"):
            node, does = int(state.split()[1]), state.split(" overruns")[0].split(maxsplit=2)[2]
            if node not in self.programs or does == "booting":
                found.append(Process(node, 0, does, None, Spot()))
                continue
            its = self.processes_of(node)
            if not its:
                erred = [int(it[1], 16) for line in self.ask(f"why {node}") if (it := ERRED.match(line))]
                address = erred[0] if erred else self.ahead(node)
                its = [Process(node, 0, does, address, self.tables[node].around(address))]
            found += its
        return found

    def ahead(self, node: int) -> int | None:
        """The address of the instruction that a node does next."""
        marked = [it for line in self.ask(f"code {node}") if (it := CODE.match(line)) and it[1] == ">"]
        return int(marked[0][2], 16) if marked else None

    def processes_of(self, node: int) -> list[Process]:
        """The processes of a node that has booted: which of them runs, which wait for the processor, and which at a link or at a
        channel, as `queue`, `memory` and `variables` of the debugger say it."""
        table, channels = self.tables.get(node, Table()), self.channels_of(node)
        asked = [f"queue {node}", *(f"memory {node} {first:08x} {count}" for first, count in channels.ranges)]
        queue, *words = self.ask_all(asked)
        places = dict[int, tuple[str, int]]()
        for line in queue:
            if (it := QUEUE.match(line)) and it[3] != "-":
                places[int(it[2], 16)] = ("runs" if it[1] == "runs" else "is ready", int(it[3], 16))
        held = dict[int, list[str]]()
        for (first, _), lines in zip(channels.ranges, words):
            for number, word in enumerate(words_in(lines)):
                name = channels.names.get(first + 4 * number)
                if name is not None and word & 1 and (word & ~3) not in places:
                    held.setdefault(word & ~3, []).append(name)
        saved = self.ask_all([f"memory {node} {workspace - 4:08x} 1" for workspace in held]) if held else []
        places |= {workspace: ("waits", at[0]) for workspace, it in zip(held, saved) if (at := words_in(it))}
        # one whose message has come whole isn't in the queue yet, and goes on with the next Step
        ahead = None if any(what == "runs" for what, _ in places.values()) else self.ahead(node)
        found: list[Process] = []
        for workspace, (what, address) in places.items():
            way = self.way_of(node, address - 1) if what == "waits" else ""
            what = "goes on" if what == "runs" or address == ahead else what
            if what == "waits" and way:
                spot = table.around(address - 1)
                found.append(Process(node, workspace, what, address, spot, way, held[workspace]))
            elif what != "waits":
                found.append(Process(node, workspace, what, address, table.around(address)))
        return found

    def channels_of(self, node: int) -> Channels:
        """The words of a node's channels: those at links, and those of its program."""
        if node not in self.channels:
            names = {NO_PROCESS + 4 * it: f"link {it % 4}" for it in range(LINK_WORDS)}
            if node in self.programs:
                its = filter(None, map(VARIABLE.match, self.ask(f"variables {node}")))
                names |= {int(it[1], 16): it[3] for it in its if it[2] == "CHAN"}
            self.channels[node] = Channels(names, [*ranges_of(sorted(names))])
        return self.channels[node]

    def way_of(self, node: int, address: int) -> str:
        """How a process waits whose last instruction has its last byte there; empty if it can't wait there."""
        if (node, address) not in self.ways:
            word = words_in(self.ask(f"memory {node} {address & ~3:08x} 1"))
            byte = (word[0] >> 8 * (address & 3)) & 0xFF if word else 0
            self.ways[node, address] = WAYS.get(byte, "")
        return self.ways[node, address]


def words_in(lines: list[str]) -> list[int]:
    """The words of an answer to `memory`."""
    return [int(it, 16) for line in lines if "outside" not in line for it in line.split()[1:]]


def ranges_of(addresses: list[int]) -> Iterator[tuple[int, int]]:
    """The ranges of words at these ascending addresses: the first, and how many there are."""
    first = 0
    for number, address in enumerate(addresses):
        if number + 1 == len(addresses) or addresses[number + 1] != address + 4:
            yield addresses[first], number + 1 - first
            first = number + 1
