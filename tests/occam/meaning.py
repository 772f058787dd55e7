"""What an occam program means: a reader and an interpreter that share nothing with the compiler. Arithmetic has 32 bits.

usage, in tests/: python3 -B -m occam.meaning FILE [LINK=HEX ..]

Runs the program of a file. What comes at link N is given as N=HEX. Prints what is sent at each link, how it ends, and how many
bytes of input are taken. Scripts use `read`, which gives a program from its text, and `run`.
"""
import sys
from collections.abc import Callable, Iterable, Iterator

from occam.expressions import (
    Finds,
    Kind,
    LINKS,
    Name,
    Place,
    Procedure,
    Root,
    Scope,
    UNKNOWN,
    Value,
    Wrong,
    statements_of,
)
from occam.processes import Processes, Undo, Wire
from occam.running import INSIDE, Machine, Process, Program, Steps, Talk, after, halt, sequence, skip, talks
from occam.values import BOOL, BYTE, Halts, INT, Rules, wrapped


class Reader(Processes):
    """Reads the statements of a text into what runs them."""

    def __init__(self, text: str, rules: Rules) -> None:
        self.rules, self.statements, self.at, self.slots = rules, statements_of(text), 0, 0
        self.tokens, self.here, self.tables = [], 0, []
        self.places: dict[int, str] = {}
        self.named: list[tuple[int, tuple[int, ...], bool]] = []
        # how many words the variables have, as long as it is certain which have words, and what the expression that is read names
        self.words, self.is_certain, self.used = 0, True, set()
        # how many PROCs are put in place around what is read, and whether the body of one is read by itself
        self.depth, self.is_by_itself = 0, False
        self.lines = text.count("\n") + 1
        self.begin_uses()

    # -- processes

    def process(self, indent: int, scope: Scope, level: int) -> Process:
        if not self.next(indent):
            raise Wrong(self.lines, "expected a process")
        begins: list[Process] = []
        undo: Undo = []
        block: list[Name] = []
        while self.peek() in ("INT", "BYTE", "BOOL", "CHAN", "PLACE", "VAL", "PROC", "["):
            with self.at_any_line():
                scope = self.declaration(indent, scope, level, begins, undo, block)
            if not self.next(indent):
                raise Wrong(self.lines, "expected a process behind the declarations")
        self.words_of_channels(block)
        word = self.peek()
        if word in ("SKIP", "STOP"):
            self.take()
            self.end()
            body: Process = skip if word == "SKIP" else halt
        elif word in ("SEQ", "IF", "WHILE", "PAR", "ALT", "PRI"):
            self.take()
            body = {
                "SEQ": self.in_sequence,
                "IF": self.conditional,
                "WHILE": self.loop,
                "PAR": self.par,
                "ALT": self.alt,
                "PRI": self.pri,
            }[word](indent, scope)
        else:
            body = self.simple(scope)
        for it in reversed(undo):
            it()
        return after(begins, body) if begins else body

    def declaration(
        self, indent: int, scope: Scope, level: int, begins: list[Process], undo: Undo, block: list[Name]
    ) -> Scope:
        if self.peek() == "PLACE":
            self.take()
            return self.place(scope, level)
        if self.peek() == "PROC":
            return self.procedure(indent, scope)
        if self.peek() == "VAL":
            return self.val(scope, begins, undo)
        kind = self.kind(scope)
        if self.peek(1) == "IS":
            return self.abbreviation(kind, scope, begins, undo)
        if 0 in (kind.size, kind.many):
            self.fail("expected a size")
        scope, names = dict(scope), set[str]()
        while True:
            name = self.name()
            if name in names:
                self.fail("expected each name once")
            names.add(name)
            if kind.is_channel:
                scope[name] = self.new_channel(kind, level, block)
            else:
                scope[name] = self.variable(kind)
            if self.peek() != ",":
                break
            self.take()
        self.take(":")
        self.end()
        return scope

    def kind(self, scope: Scope) -> Kind:
        """A type."""
        size = self.bracket(scope) if self.peek() == "[" else None
        if self.peek() == "CHAN":
            return self.channel_kind(size, scope)
        if self.peek() not in (INT, BYTE, BOOL):
            self.fail("expected INT, BYTE or BOOL")
        return Kind(self.take().text, size)

    def new_root(self, name: Name) -> Name:
        name.root = Root()
        name.root.names.append(name)
        return name

    def variable(self, kind: Kind) -> Name:
        many = 1 if kind.size == UNKNOWN else kind.size or 1
        first = self.cells(many)
        if self.is_certain:
            if kind.size and kind.type == BYTE:
                pieces = [tuple(range(at, min(at + 4, first + many))) for at in range(first, first + many, 4)]
            else:
                pieces = [(it,) for it in range(first, first + many)]
            self.named += [
                (self.words + at, it, kind.size is not None and kind.type == BYTE) for at, it in enumerate(pieces)
            ]
            self.words += len(pieces)
        return self.new_root(Name("array" if kind.size else "variable", kind.type, first, size=kind.size))

    def rename(self, name: Name, undo: Undo) -> None:
        """Makes a name the one by which something is known."""
        assert name.root
        name.root.names.append(name)
        undo.append(name.root.names.pop)

    def val(self, scope: Scope, begins: list[Process], undo: Undo) -> Scope:
        self.take("VAL")
        kind = None if self.peek(1) == "IS" else self.kind(scope)
        name = self.name()
        self.take("IS")
        bound = self.bound_value(kind, scope, begins, undo)
        self.take(":")
        self.end()
        return {**scope, name: bound}

    def bound_value(self, kind: Kind | None, scope: Scope, begins: list[Process], undo: Undo) -> Name:
        """What a name is that is an abbreviation of a value."""
        before, self.used = self.used, set()
        if self.is_whole(scope):
            place = self.whole(scope)
            self.fitting(place, kind or Kind(place.type, 0))
            bound = Name("table", place.type, place.cell, size=place.size)
        else:
            first = self.here
            if kind and kind.size is not None:
                self.fail("expected an array")
            value = self.expression(scope, kind.type if kind else None)
            if value.constant is not None:
                bound = Name("constant", value.type, value.constant)
            else:
                bound = self.new_value(value, begins)
                # an index with another name is still that index
                bound.span = value.span if self.here == first + 1 else None
        self.freeze(list(self.used), undo)
        self.used = before | self.used
        return bound

    def new_value(self, value: Value, begins: list[Process]) -> Name:
        self.is_certain = False
        cell, of, cost = self.cells(1), value.of, value.cost + 2

        def evaluate(machine: Machine) -> None:
            machine.spend(cost)
            machine.store[cell] = of(machine.store)

        begins.append(evaluate if self.rules.is_evaluated else skip)
        return Name("value", value.type, cell)

    def abbreviation(self, kind: Kind, scope: Scope, begins: list[Process], undo: Undo) -> Scope:
        name = self.name()
        self.take("IS")
        bound = self.bound_element(kind, scope, begins, undo)
        self.take(":")
        self.end()
        return {**scope, name: bound}

    def bound_element(self, kind: Kind, scope: Scope, begins: list[Process], undo: Undo) -> Name:
        """What a name is that is an abbreviation of a variable, an element, an array or a channel."""
        if kind.is_channel:
            return self.bound_channel(kind, scope, begins, undo)
        before, self.used = self.used, set()
        place = self.element(scope)
        self.change(place)
        root = place.name.root
        used = {it for it in self.used if it is not root}
        self.used = before | self.used
        if kind.size is not None:
            if place.size is None:
                self.fail("expected an array")
            self.fitting(place, kind)
            bound = Name("array", place.type, place.cell, size=place.size, root=root)
        else:
            if place.size is not None or place.type != kind.type:
                self.fail("expected a variable of the same type")
            bound = Name("variable", place.type, self.found_once(place, begins), root=root, region=place.region)
        self.freeze(list(used), undo)
        self.rename(bound, undo)
        return bound

    def found_once(self, place: Place, begins: list[Process]) -> int | Finds:
        """A cell that is found at one time."""
        if isinstance(place.cell, int):
            return place.cell
        self.is_certain = False
        hidden, cell, cost = self.cells(1), place.cell, place.cost

        def evaluate(machine: Machine) -> None:
            machine.spend(cost)
            machine.store[hidden] = cell(machine.store)

        begins.append(evaluate)
        return lambda store: store[hidden]

    def procedure(self, indent: int, scope: Scope) -> Scope:
        self.take("PROC")
        name = self.name()
        self.take("(")
        formals = self.formals(scope) if self.peek() != ")" else []
        self.take(")")
        self.end()
        first = self.at
        while self.at < len(self.statements) and self.statements[self.at][0] > indent:
            self.at += 1
        behind = self.at
        if not self.next(indent):
            raise Wrong(self.lines, "expected : that ends PROC")
        self.take(":")
        self.end()
        procedure = Procedure(formals, first, behind, indent, scope)
        self.by_itself(procedure)
        return {**scope, name: procedure}

    def by_itself(self, procedure: Procedure) -> None:
        """Reads the body of a PROC for what doesn't depend on an instance."""
        kept = self.depth, self.is_by_itself, self.is_certain, self.words, [*self.tables], self.slots
        self.depth, self.is_by_itself, self.is_certain, inner = 0, True, False, dict(procedure.scope)
        for kind, name in procedure.formals:
            size = UNKNOWN if kind.size == 0 else kind.size
            if kind.is_channel:
                inner[name] = Name(
                    "channel", kind.type, None, 1, kind.message, many=UNKNOWN if kind.many == 0 else kind.many
                )
            elif kind.is_val:
                inner[name] = Name("value" if size is None else "table", kind.type, self.cells(1), size=size)
            else:
                inner[name] = self.new_root(
                    Name("variable" if size is None else "array", kind.type, self.cells(1), size=size)
                )
        self.body_of(procedure, inner)
        self.depth, self.is_by_itself, self.is_certain, self.words, self.tables, self.slots = kept

    def body_of(self, procedure: Procedure, inner: Scope) -> Process:
        """The body of a PROC, in a scope."""
        kept = self.at, self.tokens, self.here
        self.at = procedure.first
        body = self.process(procedure.indent + 2, inner, 1)
        if self.at != procedure.behind:
            raise Wrong(self.statements[self.at][1][0].line, "expected : that ends PROC")
        self.at, self.tokens, self.here = kept
        return body

    def formals(self, scope: Scope) -> list[tuple[Kind, str]]:
        formals: list[tuple[Kind, str]] = []
        kind: Kind | None = None
        while True:
            is_val = self.peek() == "VAL"
            if is_val:
                self.take()
            if is_val or self.tokens[self.here].kind != "name":
                kind = self.kind(scope)
                kind.is_val = is_val
            elif kind is None:
                self.fail("expected a type")
            formals.append((kind, self.name()))
            if formals[-1][1] in [it for _, it in formals[:-1]]:
                self.fail("expected each name once")
            if self.peek() != ",":
                return formals
            self.take()

    def instance(self, known: Procedure, scope: Scope) -> Process:
        """A PROC put in place, whose name comes."""
        self.take()
        self.take("(")
        begins: list[Process] = []
        undo: Undo = []
        inner = dict(known.scope if self.rules.is_read_there else scope)
        with self.at_any_line():
            for at, (kind, name) in enumerate(known.formals):
                if at:
                    self.take(",")
                if kind.is_val:
                    inner[name] = self.bound_value(kind, scope, begins, undo)
                else:
                    inner[name] = self.bound_element(kind, scope, begins, undo)
        self.take(")")
        self.end()
        self.is_certain = False
        if isinstance(known, Prelude):
            body = known.body(inner, self)
        else:
            self.depth += 1
            self.instances.append(self.tokens[0].line)
            body = self.body_of(known, inner)
            self.instances.pop()
            self.depth -= 1
        for it in reversed(undo):
            it()
        return after(begins, body)

    def place(self, scope: Scope, level: int) -> Scope:
        channel = self.known(scope)
        self.take("AT")
        place = self.expression(scope, INT).constant
        if (
            place is None
            or not 0 <= place < 8
            or place in self.places
            or level
            or not isinstance(channel, Name)
            or channel.kind != "channel"
            or channel.first < INSIDE
            or channel.many is not None
        ):
            self.fail("expected a place from 0 to 7")
        channel.number = place
        self.places[place] = channel.type
        self.take(":")
        self.end()
        return scope

    def in_sequence(self, indent: int, scope: Scope) -> Process:
        if self.here < len(self.tokens):
            return self.replicated(indent, scope)
        parts = []
        while self.has_more(indent):
            parts.append(self.process(indent + 2, scope, 1))
        return sequence(parts)

    def replicated(self, indent: int, scope: Scope) -> Process:
        name = self.name()
        self.take("=")
        base = self.expression(scope, INT)
        self.take("FOR")
        count = self.expression(scope, INT)
        self.end()
        slot = self.cells(1)
        self.words += 2
        span = None
        if base.constant is not None and count.constant is not None:
            span = base.constant, base.constant + count.constant - 1
        body = self.process(indent + 2, {**scope, name: Name("index", INT, slot, span=span)}, 1)
        first, turns, cost, rules = base.of, count.of, base.cost + count.cost + 12, self.rules

        def every(machine: Machine) -> Iterator[None]:
            machine.spend(cost)
            begin, many = first(machine.store), turns(machine.store)
            if many < 0 and rules.halts_at_negative:
                raise Halts
            for turn in range(rules.first_turn, many + rules.first_turn):
                machine.store[slot] = wrapped(begin + turn)
                yield
                machine.spend(7)

        return repeated(every, body)

    def conditional(self, indent: int, scope: Scope) -> Process:
        self.end()
        choices: list[tuple[Finds, int, Process]] = []
        while self.at < len(self.statements) and self.statements[self.at][0] > indent:
            self.next(indent + 2)
            with self.at_any_line():
                condition = self.expression(scope, BOOL)
            self.end()
            choices.append((condition.of, condition.cost + 6, self.process(indent + 4, scope, 1)))
        rules = self.rules

        def chosen(machine: Machine) -> Process:
            for condition, cost, process in choices:
                machine.spend(cost)
                if condition(machine.store):
                    return process
            if rules.halts_without_choice:
                raise Halts
            return skip

        return choosing(chosen, any(talks(it[2]) for it in choices))

    def loop(self, indent: int, scope: Scope) -> Process:
        condition = self.expression(scope, BOOL)
        self.end()
        goes_on, cost, body, rules = condition.of, condition.cost + 6, self.process(indent + 2, scope, 1), self.rules

        def every(machine: Machine) -> Iterator[None]:
            if not rules.tests_first:
                yield
            machine.spend(cost)
            while goes_on(machine.store):
                yield
                machine.spend(cost)

        return repeated(every, body)

    def simple(self, scope: Scope) -> Process:
        known = scope.get(self.peek())
        if isinstance(known, Procedure):
            return self.instance(known, scope)
        if known is None or known.kind != "channel":
            return self.assignment(scope)
        wire, sign = self.wire(scope), self.take().text
        if sign not in ("?", "!"):
            self.fail("expected ? or !")
        self.directed(wire, sign)
        return (self.output if sign == "!" else self.input)(wire, scope)

    def assignment(self, scope: Scope) -> Process:
        place = self.element(scope)
        self.change(place)
        self.use("changes", place.region)
        self.take(":=")
        if place.size is not None:
            return self.copy(place, scope)
        value = self.expression(scope, place.type)
        self.end()
        cell, of, cost = place.cell_of(), value.of, value.cost + place.cost + 1

        def run(machine: Machine) -> None:
            machine.spend(cost)
            number = of(machine.store)
            machine.store[cell(machine.store)] = number

        return run

    def copy(self, place: Place, scope: Scope) -> Process:
        """An array assigned to another."""
        if not self.is_whole(scope) or self.tokens[self.here].kind != "name":
            self.fail("expected an array")
        source = self.whole(scope)
        self.end()
        self.fitting(source, Kind(place.type, place.size))
        self.use("reads", source.region)
        to, begin, many = place.first, source.first, place.size or 0
        cost = 6 + 4 * many
        many -= 0 if self.rules.copies_all else 1

        def run(machine: Machine) -> None:
            machine.spend(cost)
            machine.store[to : to + many] = machine.store[begin : begin + many]

        return run


class Prelude(Procedure):
    """A PROC that each program knows: its formals, and what it sends of its first actual."""

    def __init__(self, first: Kind, text_of: Callable[[list[int], Rules], Iterable[int]]) -> None:
        super().__init__([(first, "it"), (Kind(BYTE, None, True), "to")], 0, 0, 0, {})
        self.text_of = text_of

    def body(self, inner: Scope, reader: Reader) -> Process:
        """What sends the text of its first actual."""
        to, given, text_of, rules = inner["to"], inner["it"], self.text_of, reader.rules
        assert isinstance(to, Name) and isinstance(given, Name)
        with reader.at_any_line():
            reader.use("sends", to.region or ((to.number, to.number + 1) if isinstance(to.number, int) else None))
            if given.kind == "table":
                reader.use("reads", (given.first, given.first + (given.size or 0)))
        if not reader.is_by_itself and isinstance(to.number, int) and 3 < to.number < INSIDE:
            reader.fail("expected a channel at an output")
        first, size, is_constant = given.first, given.size, given.kind == "constant"
        link = Wire(to.type, None, to.number, 0, to).number_of()

        def steps(machine: Machine) -> Steps:
            store = machine.store
            numbers = [first] if is_constant else store[first : first + (1 if size is None else size)]
            for it in text_of(numbers, rules):
                machine.spend(40)
                yield "say", link(store), [it], 1

        return steps


PRELUDE = {
    "out.string": Prelude(Kind(BYTE, 0, is_val=True), lambda given, rules: given),
    "out.int": Prelude(Kind(INT, is_val=True), lambda given, rules: rules.digits(given[0]).encode()),
}


def repeated(every: Callable[[Machine], Iterator[None]], body: Process) -> Process:
    """A process each time that something comes."""
    if not talks(body):

        def run(machine: Machine) -> None:
            for _ in every(machine):
                body(machine)

        return run

    talking = body

    def steps(machine: Machine) -> Steps:
        for _ in every(machine):
            yield from talking(machine)

    return steps


def choosing(chosen: Callable[[Machine], Process], is_talking: bool) -> Process:
    """The process that is chosen."""
    if not is_talking:
        return lambda machine: chosen(machine)(machine)

    def steps(machine: Machine) -> Steps:
        process = chosen(machine)
        if talks(process):
            yield from process(machine)
        else:
            process(machine)

    return steps


def read(text: str, rules: Rules | None = None) -> Program:
    """The program of a text."""
    reader = Reader(text, rules or Rules())
    scope: Scope = {**{name: Name("constant", INT, place) for name, place in LINKS.items()}, **PRELUDE}
    body = reader.process(0, scope, 0)
    if reader.at != len(reader.statements):
        raise Wrong(reader.statements[reader.at][1][0].line, "expected nothing behind the program's process")
    return Program(body, reader.slots, reader.named, reader.places, reader.tables, reader.rules, reader.clashes)


def main(words: list[str]) -> int:
    if not words or any("=" not in it for it in words[1:]):
        sys.exit(__doc__)
    with open(words[0], encoding="utf-8", newline="") as file:
        text = file.read()
    coming = {int(link): bytes.fromhex(digits) for link, _, digits in (it.partition("=") for it in words[1:])}
    try:
        program = read(text)
    except Wrong as wrong:
        sys.exit(str(wrong))
    talk = program.run(coming, 100_000_000)
    for link, said in sorted(talk.said.items()):
        print(f"link {link}: {said.hex()}")
    print(f"{talk.end}; about {talk.cost} instruction bytes; taken: {talk.taken}")
    return 0


if __name__ == "__main__":
    sys.exit(main(sys.argv[1:]))
