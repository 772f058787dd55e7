"""How random occam programs are made of components that talk: messages are thought of one after another, and each component gets those
in which it has a part, in their order. So each has its partner in the end, and what comes is the same however they take turns."""
from dataclasses import dataclass

from collections.abc import Sequence
from typing import NamedTuple

from occam.components import Body, Components
from occam.pieces import FEATURES, Variable, WHOLE
from occam.values import BOOL, BYTE, INT


@dataclass(eq=False)
class Link:
    """A channel of a network: the tokens of its name, its type, the size of its messages if they are arrays, and who uses it."""

    tokens: list[str]
    kind: str
    size: int | None
    sender: int
    receiver: int


@dataclass(eq=False)
class Vector:
    """An array of channels: its name and type, the component that uses all of them, those at their other ends, and whether it sends."""

    name: str
    kind: str
    hub: int
    ends: list[int]
    is_sender: bool


@dataclass(eq=False)
class Item:
    """What is done at one time by some components: by itself, what is local to one."""

    who: set[int]


@dataclass(eq=False)
class Message(Item):
    """A message by a link."""

    link: Link


@dataclass(eq=False)
class Several(Item):
    """A message by each channel of an array."""

    vector: Vector


@dataclass(eq=False)
class Loop(Item):
    """Items that are done again and again, and the tokens of how often."""

    items: list[Item]
    count: list[str]


@dataclass(eq=False)
class Split(Item):
    """Two lists of messages, which one component does at the same time, and all of them in the order of the others."""

    one: int
    sides: list[list[Message]]
    merged: list[Message]


def who_of(items: Sequence[Item]) -> set[int]:
    """Who has a part in items."""
    return {it for item in items for it in item.who}


class Network(NamedTuple):
    """The channels of a network, by themselves and in arrays, and the item that is left out of it with the component that leaves it out, or
    none."""

    links: list[Link]
    vectors: list[Vector]
    left_out: tuple[Item, int] | None = None


class Traces(Components):
    """The part of a writer of programs that is about networks made from messages."""

    # the network that is put, and by which channels a part of a component hears
    traced_network = Network([], [])
    heard_here: list[Link] | None = None

    def traced(self, indent: int, turns: int, nested: int) -> None:
        """Puts a network with its channels."""
        count = self.random.choice((2, 2, 3, 3, 4))
        division = self.divided(count)
        kept = self.traced_network, self.heard_here
        self.traced_network, self.heard_here = Network([], []), None
        known = [it.name for it in self.readable(INT) if division.variables.get(it) is None]
        items = self.items(range(count), self.random.choice((2, 3, 4, 6)), known, 0, turns)
        messages = [it for it in items if isinstance(it, Message)]
        if self.is_stuck and messages:
            self.is_stuck, chosen = False, self.random.choice(messages)
            left_out = chosen, self.random.choice(sorted(chosen.who))
            self.traced_network = self.traced_network._replace(left_out=left_out)
        self.declare_links(indent)
        self.components(indent, [self.part(it, items, turns, nested) for it in range(count)], division)
        self.traced_network, self.heard_here = kept

    # -- what happens

    def items(self, members: Sequence[int], count: int, known: list[str], depth: int, turns: int) -> list[Item]:
        """Some items of components: messages, loops and what is local."""
        made: list[Item] = []
        for _ in range(count):
            way = self.random.random()
            if way < 0.15:
                made.append(Item({self.random.choice(members)}))
            elif way < 0.35 and depth < 2 and turns < 10:
                many = self.random.choice((1, 2, 2, 3, 4))
                tokens = [str(many)]
                if known and self.chance(0.3):
                    many, tokens = 3, ["(", self.random.choice(known), "/\\", "3", ")"]
                inner = self.items(members, self.random.choice((1, 2, 3)), known, depth + 1, turns * many)
                made.append(Loop(who_of(inner), inner, tokens))
            elif way < 0.5 and len(members) > 2 and "arrays of channels" in FEATURES:
                made.append(self.vector_item(members))
            elif way < 0.6 and depth == 0:
                made.append(self.split(members, known, turns))
            else:
                sender, receiver = self.random.sample(list(members), 2)
                made.append(self.message(sender, receiver))
        return made

    def message(self, sender: int, receiver: int, links: list[Link] | None = None) -> Message:
        """A message by one of these links, or of those of the network."""
        links = self.traced_network.links if links is None else links
        same = [it for it in links if (it.sender, it.receiver) == (sender, receiver)]
        if not same or self.chance(0.3):
            kind = self.random.choice((INT, INT, BYTE))
            size = (
                self.random.choice((1, 2, 3, 4, 5, 8)) if self.chance(0.25) and "array messages" in FEATURES else None
            )
            same = [Link([], kind, size, sender, receiver)]
            links += same
        return Message({sender, receiver}, self.random.choice(same))

    def vector_item(self, members: Sequence[int]) -> Several:
        """One component sends to several others, or receives from them, by an array of channels."""
        hub = self.random.choice(members)
        others = [it for it in members if it != hub]
        is_sender = self.chance(0.5)
        same = [it for it in self.traced_network.vectors if it.hub == hub and it.is_sender == is_sender]
        if not same or self.chance(0.5):
            ends = [self.random.choice(others) for _ in range(self.random.choice((2, 3, 4, 5)))]
            name = self.new_names(1)[0]
            same = [Vector(name, self.random.choice((INT, BYTE)), hub, ends, is_sender)]
            self.traced_network.vectors.extend(same)
        vector = self.random.choice(same)
        return Several({vector.hub, *vector.ends}, vector)

    def split(self, members: Sequence[int], known: list[str], turns: int) -> Split:
        """A component that does two lists of items at the same time, with channels that nothing else uses."""
        who = self.random.choice(members)
        sides: list[list[Message]] = []
        for _ in range(2):
            links: list[Link] = []
            others, made = [it for it in members if it != who], []
            for _ in range(self.random.choice((1, 1, 2))):
                pair = [who, self.random.choice(others)]
                self.random.shuffle(pair)
                made.append(self.message(pair[0], pair[1], links))
            sides.append(made)
            self.traced_network.links.extend(links)
        merged = [*sides[0], *sides[1]] if self.chance(0.5) else [*sides[1], *sides[0]]
        return Split(who_of(merged), who, sides, merged)

    # -- what is written

    def declare_links(self, indent: int) -> None:
        """Puts the declarations of all channels, of which some are in arrays."""
        links, vectors, _ = self.traced_network
        kinds = sorted({(it.kind, it.size or 0) for it in links})
        for kind, size in kinds:
            same = [it for it in links if (it.kind, it.size or 0) == (kind, size)]
            message = ["CHAN", "OF", *(["[", str(size), "]"] if size else []), kind]
            is_array = self.chance(0.4) and "arrays of channels" in FEATURES
            names = self.new_names(1 if is_array else len(same))
            if is_array:
                for at, it in enumerate(same):
                    it.tokens = [names[0], "[", str(at), "]"]
                self.put(indent, ["[", str(len(same) + self.random.choice((0, 0, 1))), "]", *message, names[0], ":"])
                continue
            for it, name in zip(same, names):
                it.tokens = [name]
            tokens = [token for name in names for token in (name, ",")]
            self.put(indent, [*message, *tokens[:-1], ":"])
        for vector in vectors:
            self.put(indent, ["[", str(len(vector.ends)), "]", "CHAN", "OF", vector.kind, vector.name, ":"])

    def part(self, who: int, items: list[Item], turns: int, nested: int) -> Body:
        """What puts the component with this number."""

        def body(indent: int) -> None:
            self.own_variables(indent, who)
            self.put(indent, ["SEQ"])
            for it in items:
                self.item(indent + 2, who, it, turns, nested + 2)

        return body

    def own_variables(self, indent: int, who: int) -> None:
        """Declares what the messages of a component need."""
        links, vectors, _ = self.traced_network
        kinds = {(it.kind, it.size or 0) for it in links if it.receiver == who}
        kinds |= {(it.kind, 0) for it in vectors if (who in it.ends if it.is_sender else it.hub == who)}
        for kind, size in sorted(kinds):
            variable = Variable(self.new_name(True), kind, WHOLE, True, size or None)
            self.put(indent, [*(["[", str(size), "]"] if size else []), kind, variable.name, ":"])
            self.variables.append(variable)

    def item(self, indent: int, who: int, item: Item, turns: int, nested: int) -> None:
        """Puts what a component does of an item."""
        if who not in item.who or (item, who) == self.traced_network.left_out:
            return
        if isinstance(item, Message):
            (self.sends if who == item.link.sender else self.receives)(indent, item.link, who)
        elif isinstance(item, Several):
            self.by_vector(indent, who, item.vector)
        elif isinstance(item, Loop):
            self.loop_of(indent, who, item, turns, nested)
        elif not isinstance(item, Split):
            with self.scope():
                self.process(indent, turns, nested)
        elif who == item.one:
            self.at_once(indent, who, item)
        else:
            for it in item.merged:
                self.item(indent, who, it, turns, nested)

    def at_once(self, indent: int, who: int, item: Split) -> None:
        """Puts the two lists of items of a split."""

        def side(items: list[Message]) -> Body:
            def body(inner: int) -> None:
                self.heard_here = [it.link for it in items if it.link.receiver == who]
                self.put(inner, ["SEQ"])
                for it in items:
                    self.item(inner + 2, who, it, 1, 6)
                self.heard_here = None

            return body

        division = self.divided(2)
        # what each hears must have a variable
        for number, items in enumerate(item.sides):
            for link in (it.link for it in items if it.link.receiver == who):
                wanted = (link.kind, link.size, WHOLE)
                found = [it for it in division.variables if (it.type, it.size, it.span) == wanted]
                division.variables.update({it: number for it in found[number : number + 1]})
        self.components(indent, [side(it) for it in item.sides], division)

    def loop_of(self, indent: int, who: int, item: Loop, turns: int, nested: int) -> None:
        """Puts a loop of items."""
        most = 4
        before = set(self.assigned)
        if self.chance(0.7):
            base = self.random.choice((0, 0, 1, -1, 10))
            index = Variable(self.new_name(True), INT, (base, base + most), False)
            self.put(indent, ["SEQ", index.name, "=", *self.constant(base).tokens, "FOR", *item.count])
            self.variables.append(index)
            self.assigned.add(index)
            self.put(indent + 2, ["SEQ"])
            for it in item.items:
                self.item(indent + 4, who, it, turns * most, nested + 2)
        else:
            index = Variable(self.new_name(True), INT, (0, most), False)
            self.put(indent, [INT, index.name, ":"])
            self.put(indent, ["SEQ"])
            self.put(indent + 2, [index.name, ":=", *item.count])
            self.variables.append(index)
            self.assigned.add(index)
            self.put(indent + 2, ["WHILE", index.name, ">", "0"])
            self.put(indent + 4, ["SEQ"])
            for it in item.items:
                self.item(indent + 6, who, it, turns * most, nested + 3)
            self.put(indent + 6, [index.name, ":=", index.name, "-", "1"])
        self.assigned = before
        self.variables.remove(index)

    # -- messages

    def sends(self, indent: int, link: Link, _: int) -> None:
        if link.size is None:
            part = self.int_part(self.depth) if link.kind == INT else self.byte_part(self.depth)
            self.put(indent, [*link.tokens, "!", *part.tokens])
            return
        found = [it.name for it in self.filled(link.kind) if it.size == link.size]
        is_named = found and (self.chance(0.7) or "tables" not in FEATURES)
        tokens = [self.random.choice(found)] if is_named else self.table(link.kind, link.size)[0]
        self.put(indent, [*link.tokens, "!", *tokens])

    def place_for(self, kind: str, size: int | None = None) -> tuple[list[str] | None, Variable | None]:
        """A variable, or an element, into which a message may come: its tokens, and what is assigned by it, or none."""
        whole = [
            it
            for it in (self.arrays(kind) if size else self.visible(kind))
            if it.size == size and it.span == WHOLE and self.can_change(it)
        ]
        elements = [it for it in self.filled(kind) if it.span == WHOLE and self.can_change(it)]
        if not size and elements and self.chance(0.2):
            array = self.random.choice(elements)
            return [array.name, "[", *self.index(array).tokens, "]"], None
        if not whole:
            return None, None
        chosen = self.random.choice(whole)
        return [chosen.name], chosen

    def receives(self, indent: int, link: Link, who: int) -> None:
        """Puts an input, by itself or as the one guard of an ALT that can be ready."""
        tokens, variable = self.place_for(link.kind, link.size)
        if tokens is None:
            # what would be heard has no place here: one is made
            self.put(indent, [*(["[", str(link.size), "]"] if link.size else []), link.kind, "its.own", ":"])
            tokens = ["its.own"]
        if "ALT" in FEATURES and self.chance(0.25):
            self.waits_for(indent, link, tokens, who)
        else:
            self.put(indent, [*link.tokens, "?", *tokens])
        if variable:
            self.assigned.add(variable)

    def waits_for(self, indent: int, link: Link, tokens: list[str], who: int) -> None:
        """Puts an ALT in which one guard alone can be ready."""
        conditions: tuple[list[str], ...] = ([], [], ["TRUE", "&"], ["(", "1", "<", "2", ")", "&"])
        guards = [[*self.random.choice(conditions), *link.tokens, "?", *tokens]]
        known = [it.name for it in self.readable(INT)]
        flags = [it.name for it in self.readable(BOOL)]
        false = [
            ["FALSE"],
            *([it, "<>", it] for it in known[:2]),
            *(["(", it, "AND", "(", "NOT", it, ")", ")"] for it in flags[:2]),
        ]
        others = self.heard_here or [it for it in self.traced_network.links if it.receiver == who]
        for _ in range(self.random.choice((0, 1, 1, 2, 3)) if others else 0):
            other = self.random.choice(others)
            place, _ = self.place_for(other.kind, other.size)
            closed = self.random.choice(false)
            if place and self.chance(0.8):
                guards.append([*closed, "&", *other.tokens, "?", *place])
            else:
                guards.append([*closed, "&", "SKIP"])
        right = guards[0]
        self.random.shuffle(guards)
        self.put(indent, self.random.choice((["ALT"], ["ALT"], ["PRI", "ALT"])))
        for guard in guards:
            self.put(indent + 2, guard)
            kept = self.random.choice([["SKIP"], ["STOP"]]) if guard is not right else ["SKIP"]
            self.put(indent + 4, kept)

    def by_vector(self, indent: int, who: int, vector: Vector) -> None:
        """Puts one side of the messages by an array of channels."""
        if who != vector.hub:
            for number, end in enumerate(vector.ends):
                if end == who:
                    link = Link([vector.name, "[", str(number), "]"], vector.kind, None, vector.hub, who)
                    (self.receives if vector.is_sender else self.sends)(indent, link, who)
            return
        base = self.random.choice((0, 0, 0, 1, 2, -3))
        many = ["SIZE", vector.name] if "SIZE" in FEATURES and self.chance(0.3) else [str(len(vector.ends))]
        index = Variable(self.new_name(True), INT, (base, base + len(vector.ends) - 1), False)
        at = [index.name] if base == 0 else [index.name, "-", str(base)] if base > 0 else [index.name, "+", str(-base)]
        link = Link([vector.name, "[", *at, "]"], vector.kind, None, who, who)
        self.put(indent, ["SEQ", index.name, "=", *self.constant(base).tokens, "FOR", *many])
        self.variables.append(index)
        self.assigned.add(index)
        before = set(self.assigned)
        self.put(indent + 2, ["SEQ"])
        if vector.is_sender or vector.kind != BYTE or self.chance(0.5) or not self.says_where(indent + 4, vector, at):
            (self.sends if vector.is_sender else self.receives)(indent + 4, link, who)
        self.assigned = before
        self.variables.remove(index)

    def says_where(self, indent: int, vector: Vector, at: list[str]) -> bool:
        """Puts an input to a BYTE that says before by which channel of an array the message comes, if there is such a variable, and
        says whether it did."""
        found = [it for it in self.visible(BYTE) if it.size is None and it.span == WHOLE and self.can_change(it)]
        if not found:
            return False
        name = self.random.choice(found).name
        self.put(indent, [name, ":=", BYTE, "(", *at, ")"])
        self.put(indent, [vector.name, "[", INT, name, "]", "?", name])
        return True
