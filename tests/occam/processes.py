"""How what runs at the same time is read: PAR and ALT, their replicators, and channels with their arrays and messages."""
from collections.abc import Callable, Iterable
from dataclasses import dataclass

from occam.expressions import (
    Expressions,
    Finds,
    Kind,
    MOST_ELEMENTS,
    Name,
    Place,
    Region,
    Root,
    SIZES,
    Scope,
    Store,
    Token,
    UNKNOWN,
    Value,
    Wrong,
)
from occam.running import INSIDE, Guard, Machine, Process, Steps, Talking, parallel, sequence, skip, talks
from occam.uses import Read, Use, interval
from occam.values import BOOL, Halts, INT, wrapped

# What is done at the end of a block, so that names mean what they did.
Undo = list[Callable[[], object]]
# How many components a PAR has at most, how many alternatives an ALT, and how many channels an array.
MOST_PARTS = 256
# About how many instruction bytes a PAR takes, and how many more for each of its components; the same of an ALT and its guards.
PAR_COST, COMPONENT_COST, ALT_COST, GUARD_COST = 16, 24, 12, 24


@dataclass
class Wire:
    """A channel that is named: its type, the size of its messages if they are arrays, its number, or how that is found, and what that
    costs; of a whole array of channels, how many they are."""

    type: str
    size: int | None
    number: int | Finds | None
    cost: int
    name: Name
    many: int | None = None
    # which channels it may be, from one on and below another
    region: Region | None = None

    def number_of(self) -> Finds:
        """How the number is found from the store."""
        number = self.number
        if callable(number):
            return number
        # a PROC that is read by itself has no number, and isn't run
        fixed = number or 0
        return lambda store: fixed


@dataclass
class Alternative:
    """A guard with its process: its condition, or none, how its channel is found, or none of SKIP, what comes if it is taken, and its
    cost."""

    condition: Finds | None
    channel: Finds | None
    chosen: Talking
    cost: int


class Processes(Expressions):
    """The part of a reader that is about PAR, ALT and channels."""

    # the statements, each with its indentation, which is the next, and how many lines the text has
    statements: list[tuple[int, list[Token]]]
    at: int
    lines: int
    # how many words the variables have, as long as that is certain
    words: int
    is_certain: bool

    def process(self, indent: int, scope: Scope, level: int) -> Process:
        """Reads the next process."""
        raise NotImplementedError

    def next(self, indent: int) -> bool:
        """Takes the next statement if it has this indentation, and says whether it did."""
        if self.at >= len(self.statements) or self.statements[self.at][0] < indent:
            return False
        found, self.tokens = self.statements[self.at]
        self.here = 0
        if found != indent:
            self.fail(f"expected {indent} blanks")
        self.at += 1
        return True

    def bracket(self, scope: Scope) -> int:
        """A size in brackets, or 0 if there is none."""
        self.take("[")
        size = 0
        if self.peek() != "]":
            known = self.expression(scope, INT).constant
            size = UNKNOWN if known is None and self.is_by_itself else known or 0
            if size != UNKNOWN and not 1 <= size <= MOST_ELEMENTS:
                self.fail("expected a constant size")
        self.take("]")
        return size

    def fitting(self, place: Place, kind: Kind) -> None:
        """Whether a whole array has a type."""
        is_known = kind.size != UNKNOWN and place.size != UNKNOWN
        if place.type != kind.type or kind.size is None or kind.size and is_known and kind.size != place.size:
            self.fail("expected another type")

    def freeze(self, roots: list[Root], undo: Undo) -> None:
        for root in roots:
            root.frozen += 1

        def thaw() -> None:
            for root in roots:
                root.frozen -= 1

        undo.append(thaw)

    # -- PAR

    def par(self, indent: int, scope: Scope) -> Process:
        """PAR, which is taken."""
        gathered: list[list[Use]] = []
        if self.here < len(self.tokens):
            parts = self.in_place(
                indent, scope, lambda inner: self.component(gathered, lambda: self.process(indent + 2, inner, 1))
            )
        else:
            parts = []
            while self.has_more(indent):
                parts.append(self.component(gathered, lambda: self.process(indent + 2, scope, 1)))
        self.compare(gathered if parts else [])
        if len(parts) > MOST_PARTS:
            self.fail(f"expected at most {MOST_PARTS} components")
        return parallel(parts, PAR_COST + COMPONENT_COST * len(parts)) if parts else skip

    def pri(self, indent: int, scope: Scope) -> Process:
        """PRI, which is taken."""
        self.take("ALT")
        return self.alt(indent, scope)

    def has_more(self, indent: int) -> bool:
        return self.at < len(self.statements) and self.statements[self.at][0] > indent

    def in_place(self, indent: int, scope: Scope, read: Callable[[Scope], Read]) -> list[Read]:
        """What is below a replicator of PAR or ALT, read once for each of its turns."""
        name = self.name()
        self.take("=")
        base = self.expression(scope, INT).constant
        self.take("FOR")
        many = self.expression(scope, INT).constant
        self.end()
        self.is_certain, first, parts = False, self.at, list[Read]()
        if base is None or many is None:
            if not self.is_by_itself:
                self.fail("expected constants")
            return [read({**scope, name: Name("index", INT, self.cells(1))})]
        if not 0 <= many <= MOST_PARTS:
            self.fail(f"expected a count from 0 to {MOST_PARTS}")
        self.depth += 1
        for turn in range(self.rules.first_component, many + self.rules.first_component):
            self.at = first
            parts.append(read({**scope, name: Name("constant", INT, wrapped(base + turn))}))
        if not many:
            with self.unused():
                read({**scope, name: Name("constant", INT, base)})
        self.depth -= 1
        return parts

    # -- ALT

    def alt(self, indent: int, scope: Scope) -> Process:
        """ALT, which is taken."""
        if self.here < len(self.tokens):
            alternatives = self.in_place(indent, scope, lambda inner: self.alternative(indent + 2, inner))
        else:
            alternatives = []
            while self.has_more(indent):
                alternatives.append(self.alternative(indent + 2, scope))
        if len(alternatives) > MOST_PARTS:
            self.fail(f"expected at most {MOST_PARTS} alternatives")
        return self.waiting(alternatives, ALT_COST + sum(it.cost for it in alternatives))

    def waiting(self, alternatives: list[Alternative], cost: int) -> Process:
        """What runs an ALT."""
        rules = self.rules

        def steps(machine: Machine) -> Steps:
            machine.spend(cost)
            guards: list[Guard] = []
            for at, it in enumerate(alternatives):
                is_open = it.condition is None or it.condition(machine.store)
                channel = it.channel(machine.store) if it.channel else None
                if is_open or rules.takes_closed:
                    guards.append((at, channel))
            if guards:
                yield from alternatives[(yield "alt", guards)].chosen(machine)
            elif rules.halts_without_guard:
                raise Halts

        return steps

    def alternative(self, indent: int, scope: Scope) -> Alternative:
        """A guard and the process below it."""
        if not self.next(indent):
            raise Wrong(self.lines, "expected a guard")
        condition: Finds | None = None
        cost = GUARD_COST
        if any(it.text == "&" for it in self.tokens):
            with self.at_any_line():
                value = self.expression(scope, BOOL)
            condition, cost = value.of, cost + value.cost
            self.take("&")
            if self.peek() == "SKIP":
                self.take()
                self.end()
                return Alternative(condition, None, self.talking(self.process(indent + 2, scope, 1)), cost)
        with self.at_any_line():
            wire = self.wire(scope)
            self.take("?")
            self.directed(wire, "?")
            heard = self.input(wire, scope)
        body = self.process(indent + 2, scope, 1)
        return Alternative(condition, wire.number_of(), self.talking(sequence([heard, body])), cost + wire.cost)

    @staticmethod
    def talking(process: Process) -> Talking:
        """A process as one that gives steps."""
        if talks(process):
            return process

        def steps(machine: Machine) -> Steps:
            process(machine)
            yield from ()

        return steps

    # -- channels

    def channel_kind(self, many: int | None, scope: Scope) -> Kind:
        """The type of a channel, whose CHAN comes, or of an array with this many."""
        self.take("CHAN")
        if many is not None and many != UNKNOWN and many > MOST_PARTS:
            self.fail(f"expected at most {MOST_PARTS} channels")
        self.take("OF")
        message = self.bracket(scope) if self.peek() == "[" else None
        if self.peek() not in SIZES or message == 0 or message != UNKNOWN and (message or 0) > MOST_ELEMENTS:
            self.fail("expected INT or BYTE")
        return Kind(self.take().text, None, True, message, many=many)

    def new_channel(self, kind: Kind, level: int, block: list[Name]) -> Name:
        """A channel that is declared, which is one within the node unless it is placed."""
        known = Name("channel", kind.type, INSIDE + self.cells(kind.many or 1), level, kind.message, many=kind.many)
        block.append(known)
        return known

    def words_of_channels(self, block: Iterable[Name]) -> None:
        """Gives the channels of a block of declarations their words, which come after those of its variables."""
        if self.is_certain:
            self.words += sum(it.many or 1 for it in block if it.first >= INSIDE)

    def wire(self, scope: Scope) -> Wire:
        """A channel, or a whole array of channels, that is named."""
        known = self.known(scope)
        if not isinstance(known, Name) or known.kind != "channel":
            self.here -= 1
            self.fail("expected a channel")
        if known.many is None or self.peek() != "[":
            return Wire(known.type, known.size, known.number, 0, known, known.many, self.region_of(known))
        self.take("[")
        index = self.expression(scope, INT)
        self.take("]")
        number, cost = self.element_of(known, index)
        region = None if known.number is None else interval(known.first, known.many, index)
        return Wire(known.type, known.size, number, cost, known, None, region)

    @staticmethod
    def region_of(known: Name) -> Region | None:
        """Which channels a name may mean."""
        return (
            known.region or (known.number, known.number + (known.many or 1))
            if isinstance(known.number, int)
            else known.region
        )

    def element_of(self, known: Name, index: Value) -> tuple[int | Finds | None, int]:
        """The number of an element of an array of channels, or how it is found, and what that costs."""
        assert known.many is not None and not callable(known.number)
        first, many, of, rules = known.number, known.many, index.of, self.rules

        def number(store: Store) -> int:
            at = of(store)
            if rules.is_outside(at, many):
                raise Halts
            return (first or 0) + rules.channel_at(min(max(at, 0), many - 1), many)

        if index.constant is None or many == UNKNOWN:
            return number, index.cost + 9
        if not 0 <= index.constant < many:
            if not self.depth:
                self.fail(f"expected a subscript from 0 to {many - 1}")
            return number, 9
        # those of a PROC that is read by itself have no number
        return None if first is None else first + index.constant, 3

    def directed(self, wire: Wire, sign: str) -> None:
        """A channel as one that is sent to or received from."""
        if wire.many is not None:
            self.fail("expected a subscript after an array of channels")
        if (
            isinstance(wire.number, int)
            and wire.number < INSIDE
            and not self.is_by_itself
            and (wire.number < 4) != (sign == "!")
        ):
            self.fail("expected a channel at the other side of a link")
        self.use("sends" if sign == "!" else "hears", wire.region)

    def bound_channel(self, kind: Kind, scope: Scope, begins: list[Process], undo: Undo) -> Name:
        """What a name is that is an abbreviation of a channel, or of an array of channels."""
        before, self.used = self.used, set()
        wire = self.wire(scope)
        self.freeze(list(self.used), undo)
        self.used = before | self.used
        if (
            (wire.type, wire.size) != (kind.type, kind.message)
            or (wire.many is None) != (kind.many is None)
            or kind.many not in (None, 0, UNKNOWN, wire.many)
            and wire.many != UNKNOWN
        ):
            self.fail("expected a channel of the same type")
        if wire.number is wire.name.number and wire.many == wire.name.many:
            return wire.name
        number = wire.number
        if callable(number):
            self.is_certain = False
            hidden, cost, found = self.cells(1), wire.cost + 2, number

            def evaluate(machine: Machine) -> None:
                machine.spend(cost)
                machine.store[hidden] = found(machine.store)

            begins.append(evaluate)
            return Name("channel", wire.type, lambda store: store[hidden], 1, wire.size, region=wire.region)
        return Name("channel", wire.type, number, 1, wire.size, region=wire.region)

    def input(self, wire: Wire, scope: Scope) -> Process:
        """An input, of which the element comes."""
        place = self.element(scope)
        self.change(place)
        self.end()
        if place.type != wire.type or place.size != wire.size and place.size != UNKNOWN:
            self.fail(f"expected a variable of {wire.type}")
        self.use("changes", place.region)
        cell, number, size = place.cell_of(), wire.number_of(), SIZES[wire.type]
        many, cost = wire.size or 1, 11 + place.cost + wire.cost

        def steps(machine: Machine) -> Steps:
            machine.spend(cost)
            channel, begin = number(machine.store), cell(machine.store)
            machine.store[begin : begin + many] = yield "hear", channel, many, size

        return steps

    def output(self, wire: Wire, scope: Scope) -> Process:
        """An output, of which the value comes."""
        number, size = wire.number_of(), SIZES[wire.type]
        if wire.size is not None:
            if not self.is_whole(scope):
                self.fail("expected an array")
            place = self.whole(scope)
            self.end()
            self.fitting(place, Kind(wire.type, wire.size))
            self.use("reads", place.region)
            begin, many, cost = place.first, place.size or 0, 11 + wire.cost

            def steps_of_all(machine: Machine) -> Steps:
                machine.spend(cost)
                yield "say", number(machine.store), machine.store[begin : begin + many], size

            return steps_of_all
        value = self.expression(scope, wire.type)
        self.end()
        of, cost = value.of, value.cost + wire.cost + 8

        def steps(machine: Machine) -> Steps:
            machine.spend(cost)
            number_of_message = of(machine.store)
            yield "say", number(machine.store), [number_of_message], size

        return steps
