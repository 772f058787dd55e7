"""What is said of a program that is right, but may not do what was meant."""

from __future__ import annotations

from collections.abc import Iterable, Sequence
from typing import NamedTuple

from . import core, tree
from .core import ArrayOf, ChannelOf, CoreProgram, Declaration, Role
from .mistakes import Place
from .outline import Node, Use, Uses, Way, outline

# How many warnings are shown.
MOST_WARNINGS = 20
ONE_END, UNSET, UNUSED, ALONE = 41, 42, 43, 52


class Warning(NamedTuple):
    """A warning of a name."""

    place: Place
    number: int
    name: str
    said: str

    def __str__(self) -> str:
        line, column = self.place
        return f"line {line}, column {column}: warning {self.number}: {self.said}"


class Ends:
    """The uses of both ends of a channel: the first line that may send to it, the first that does and sends to no other, and the same
    of receiving."""

    __slots__ = ("may_send", "sends", "may_receive", "receives")

    def __init__(self) -> None:
        self.may_send, self.sends, self.may_receive, self.receives = 0, 0, 0, 0

    def add(self, use: Use) -> None:
        line = use.place.line
        if use.way is Way.SENDS:
            self.may_send = self.may_send or line
            self.sends = self.sends or line * use.is_known
        elif use.way is Way.RECEIVES:
            self.may_receive = self.may_receive or line
            self.receives = self.receives or line * use.is_known


def warnings_of(program: CoreProgram, unused: Iterable[tree.Name]) -> list[str]:
    """The warnings of a program, each in a line, with these names that aren't used: at most twenty, in the order of the text, and
    then that there are more."""
    nodes = outline(program.process)
    uses = Uses(nodes).list
    found = [Warning(it.place, UNUSED, it.text, f"{it.text} is never used") for it in unused]
    found += one_ended(program, uses)
    found += unset(program, nodes, uses)
    found += used_alone(program, nodes, uses)
    each: dict[tuple[Place, int, str], Warning] = {}
    for it in found:
        each.setdefault((it.place, it.number, it.name), it)
    lines = [str(it) for it in sorted(each.values(), key=lambda it: (it.place, it.number))]
    return lines[:MOST_WARNINGS] + ["There are more warnings"] * (len(lines) > MOST_WARNINGS)


# ---- channels with one end


def one_ended(program: CoreProgram, uses: list[Use]) -> list[Warning]:
    """The channels of which only one end is used."""
    ends = [Ends() for _ in range(program.words)]
    for use in uses:
        if use.way is Way.SENDS or use.way is Way.RECEIVES:
            for word in range(use.first, use.first + use.words):
                ends[word].add(use)
    found = []
    for declaration in program.declarations:
        if declaration.name is None or declaration.place is None or not is_channel(declaration):
            continue
        said = one_end(declaration, ends[declaration.first : declaration.first + declaration.words])
        if said:
            found.append(Warning(declaration.place, ONE_END, declaration.name, said))
    return found


def is_channel(declaration: Declaration) -> bool:
    """Whether channels are declared."""
    return isinstance(core.base_of(declaration.type), ChannelOf)


def one_end(declaration: Declaration, ends: Sequence[Ends]) -> str:
    """What is said of channels of which one end is used: of all together, and else of the first of an array."""
    name = declaration.name or ""
    whole = Ends()
    for end in ends:
        whole.may_send = whole.sends = whole.sends or end.may_send
        whole.may_receive = whole.receives = whole.receives or end.may_receive
    for called, end in ((name, whole), *((f"{name}[{index}]", end) for index, end in enumerate(ends))):
        if end.sends and not end.may_receive:
            said, way = f"nobody receives from {called}, which is sent to in line {end.sends}", "out"
        elif end.receives and not end.may_send:
            said, way = f"nobody sends to {called}, which is received from in line {end.receives}", "in"
        else:
            continue
        is_array = isinstance(declaration.type, ArrayOf)
        return said if is_array else f"{said}. A channel at a link is placed: PLACE {name} AT link0.{way}"
    return ""


# ---- channels that one process uses alone


def used_alone(program: CoreProgram, nodes: list[Node], uses: list[Use]) -> list[Warning]:
    """The channels by which only one process sends and receives: it waits for itself."""
    components = components_around(nodes)
    each: dict[int, tuple[list[Use], list[Use]]] = {}
    for use in uses:
        if use.way is Way.SENDS or use.way is Way.RECEIVES:
            for word in range(use.first, use.first + use.words):
                each.setdefault(word, ([], []))[use.way is Way.RECEIVES].append(use)
    found = []
    for declaration in program.declarations:
        if declaration.name is None or declaration.place is None or not is_channel(declaration):
            continue
        for word in range(declaration.first, declaration.first + declaration.words):
            sends, receives = each.get(word, ([], []))
            if is_alone(nodes, components, sends, receives):
                is_array = isinstance(declaration.type, ArrayOf)
                name = f"{declaration.name}[{word - declaration.first}]" if is_array else declaration.name
                lines = f"sends in line {sends[0].place.line} and receives in line {receives[0].place.line}"
                said = f"by {name} a process waits for itself, since it {lines}. The two belong to components of a PAR"
                found.append(Warning(declaration.place, ALONE, declaration.name, said))
                break
    return found


def is_alone(nodes: list[Node], components: list[int], sends: list[Use], receives: list[Use]) -> bool:
    """Whether a channel is known to be used both ways, and nowhere by two components of a PAR."""
    if not sends or not receives or not all(it.is_known for it in (*sends, *receives)):
        return False
    around: dict[int, tuple[set[int], set[int]]] = {}
    for way, its in enumerate((sends, receives)):
        for use in its:
            at = components[use.node]
            while at:
                around.setdefault(nodes[at].parent, (set(), set()))[way].add(at)
                at = components[nodes[at].parent]
    return not any(sent and received and len(sent | received) > 1 for sent, received in around.values())


def components_around(nodes: list[Node]) -> list[int]:
    """The component of a PAR, the innermost one, that each process is in or is; 0 if it is in none."""
    around: list[int] = []
    for index, node in enumerate(nodes):
        around.append(index if node.role == "component" else around[node.parent] if index else 0)
    return around


# ---- variables that are read before something was put into them


class Filling:
    """What becomes of a variable up to its first reading: where it is read while nothing was put into it, and where the outermost
    loop around that ends."""

    __slots__ = ("is_set", "place", "loop_end")

    def __init__(self) -> None:
        self.is_set, self.loop_end = False, 0
        self.place: Place | None = None

    def add(self, use: Use, loop_end: int) -> None:
        if use.way is Way.READS and self.place is None and not self.is_set:
            self.place, self.loop_end = use.place, loop_end
        elif use.way is Way.CHANGES and (self.place is None or self.loop_end > use.node):
            self.is_set = True


def unset(program: CoreProgram, nodes: list[Node], uses: list[Use]) -> list[Warning]:
    """The variables that are read before something was put into them; an array counts as a whole."""
    loop_ends = loop_ends_of(nodes)
    fillings = [Filling() for _ in program.declarations]
    owners = owners_of(program)
    for use in uses:
        fillings[owners[use.first]].add(use, loop_ends[use.node])
    return [
        Warning(
            filling.place, UNSET, it.name, f"{it.name} (line {it.place.line}) is used before anything was put into it"
        )
        for it, filling in zip(program.declarations, fillings)
        if it.role is Role.PLAIN and it.name is not None and it.place is not None and not is_channel(it)
        if filling.place is not None and not filling.is_set
    ]


def owners_of(program: CoreProgram) -> list[int]:
    """The index of what declares it, for each word."""
    owners = [0] * program.words
    for index, declaration in enumerate(program.declarations):
        for word in range(declaration.first, declaration.first + declaration.words):
            owners[word] = index
    return owners


def loop_ends_of(nodes: list[Node]) -> list[int]:
    """Where the outermost loop ends that each process is in, or 0 if it is in none. What a loop does before its turns isn't in it."""
    ends, end = [], 0
    for index, node in enumerate(nodes):
        ends.append(end if index < end else 0)
        if index >= end and isinstance(node.process, (core.While, core.Repeat)):
            end = node.end
    return ends
