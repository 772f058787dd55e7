"""How random occam programs are written: from the grammar, with types and the spans of numbers kept in mind, so that most of them end
well. Each ends with a message that is known, or halts, or waits."""
from occam.pieces import (
    ArrayChannel,
    Channel,
    EDGES,
    FEATURES,
    LAST,
    MOST_COMING,
    Part,
    Proc,
    SMALL,
    UNARY,
    Variable,
    WHOLE,
)
from occam.procedures import Procedures
from occam.values import BOOL, BYTE, INT, MOST_POSITIVE


class Writer(Procedures):
    """Writes one program."""

    def declare(self, indent: int, count: int) -> None:
        """Declares some variables."""
        for _ in range(count):
            kind = self.random.choice((INT, INT, INT, BYTE, BYTE, BOOL))
            if self.weighs("arrays"):
                self.declare_arrays(indent)
            made: list[Variable] = []
            for _ in range(self.random.choice((1, 1, 2, 3))):
                span = SMALL if kind == INT and self.chance(0.45) else WHOLE
                name = self.new_name()
                if name not in (it.name for it in made):
                    made.append(Variable(name, kind, span))
            tokens = [kind]
            for variable in made:
                tokens += [variable.name, ","]
            self.put(indent, [*tokens[:-1], ":"])
            self.variables.extend(made)

    def declare_arrays(self, indent: int) -> None:
        kinds = [kind for kind in (INT, INT, BYTE, BYTE, BOOL) if f"arrays of {kind}" in FEATURES]
        if not kinds:
            return
        kind = self.random.choice(kinds)
        sizes = (1, 2, 3, 4, 5, 6, 7, 8, 9, 9, 16, 20, 33) if kind != INT else (1, 2, 3, 4, 4, 5, 8, 8, 10, 16, 25)
        joined = [it.size for side in self.array_channels.values() for it in side if it.kind == kind]
        size = self.random.choice(joined) if joined and self.chance(0.6) else self.random.choice(sizes)
        size = self.random.choice((100, 300)) if self.chance(0.02) and not self.in_procs else size
        constants = [it for it in self.readable(INT) if it.is_constant and 1 <= it.span[0] <= 40]
        tokens = [str(size)]
        if constants and self.chance(0.5):
            constant = self.random.choice(constants)
            size, tokens = constant.span[0], [constant.name]
        elif size > 2 and self.chance(0.1):
            tokens = [str(size - 2), "+", "2"]
        made: list[Variable] = []
        for _ in range(self.random.choice((1, 1, 2))):
            name = self.new_name()
            if name not in (it.name for it in made):
                made.append(Variable(name, kind, SMALL if kind == INT and self.chance(0.3) else WHOLE, True, size))
        head = ["[", *tokens, "]", kind]
        for variable in made:
            head += [variable.name, ","]
        self.put(indent, [*head[:-1], ":"])
        self.variables.extend(made)

    def process(self, indent: int, turns: int, nested: int) -> None:
        """A process that is no sequence, or a sequence of some."""
        begin = len(self.variables)
        with self.scope():
            if self.chance(0.12) and self.rest > 8:
                self.declare(indent, 1)
            if self.rest > 6:
                self.abbreviate(indent)
            if (
                "PROC" in FEATURES
                and self.rest > 8
                and nested < 5
                and self.in_procs < (3 if "PROC in PROC" in FEATURES else 1)
            ):
                self.procedure(indent, nested)
            way = self.random.random()
            if len(self.variables) > begin and nested < 6 and self.chance(0.6):
                way = 1
            if self.rest < 4 or nested > 5:
                self.simple(indent)
            elif way < 0.42:
                self.simple(indent)
            elif way < 0.58:
                self.conditional(indent, turns, nested)
            elif way < 0.72:
                self.loop(indent, turns, nested)
            elif way < 0.84:
                self.replicated(indent, turns, nested)
            elif way < 0.86:
                self.put(indent, ["SKIP"])
            elif self.risk():
                self.put(indent, [self.random.choice(("STOP", "IF"))])
            else:
                self.sequence(indent, turns, nested)

    def sequence(self, indent: int, turns: int, nested: int, count: int | None = None) -> None:
        self.put(indent, ["SEQ"])
        for _ in range(self.random.choice((0, 1, 2, 2, 3, 4)) if count is None else count):
            self.process(indent + 2, turns, nested + 1)

    def dangerous(self, indent: int) -> bool:
        """Puts an assignment that errs for some values, if there are variables for it, and says whether it did."""
        whole = [it for it in self.visible(INT) if self.can_change(it) and it.span == WHOLE]
        known = [it.name for it in self.readable(INT)]
        few = ["(", self.random.choice(known or ["0"]), "/\\", "1", ")"]
        if not whole or not known:
            return False
        target, n, m = self.random.choice(whole), self.random.choice(known), self.random.choice(known)
        lowest = ["(", *few, "<<", "31", ")"]
        ways = [
            [n, self.random.choice("+-*"), m],
            ["(", "MOSTPOS", INT, ")", "+", n],
            ["(", "MOSTNEG", INT, ")", "-", n],
            ["(", "MOSTPOS", INT, ")", "*", n],
            [m, "/", *few],
            [m, "/", n],
            [m, "\\", *few],
            [m, "REM", n],
            [UNARY + "-", *lowest],
            [m, "<<", n],
            [m, ">>", n],
            [m, "<<", "(", n, "/\\", "63", ")"],
            [m, ">>", "(", n, "\\", "40", ")"],
            [m, self.random.choice(("<<", ">>")), "(", "32", "+", *few, ")"],
            [INT, "(", BYTE, n, ")"],
            [INT, "(", BYTE, "(", n, "\\", "300", ")", ")"],
            [*lowest, "/", "(", *few, "-", "2", ")"],
        ]
        flags = [it.name for it in self.visible(BOOL) if self.can_change(it)]
        arrays = [*self.filled(INT), *self.filled(BYTE)]
        if arrays and self.chance(0.65):
            array = self.random.choice(arrays)
            size, none = self.size_of(array), ["(", n, "><", n, ")"]
            at = self.random.choice(
                (
                    [n],
                    [n, "/\\", "15"],
                    [*size, "-", *few],
                    [*size, "-", *none],
                    [*few, "-", "1"],
                    [*none, "-", "1"],
                    [*size, "-", *few],
                    [*size, "-", "(", *few, "*", "2", ")"],
                    ["(", n, "/\\", "255", ")", "\\", "(", *size, "+", "1", ")"],
                    ["MINUS", *few],
                    ["(", "MOSTNEG", INT, ")", "+", *few],
                )
            )
            if self.can_change(array) and self.chance(0.5):
                self.put(indent, [array.name, "[", *at, "]", ":=", "0" if array.type == INT else "'0'"])
            else:
                self.put(indent, [target.name, ":=", *([INT] if array.type == BYTE else []), array.name, "[", *at, "]"])
                self.assigned.add(target)
            return True
        if flags and self.chance(0.2):
            self.put(indent, [self.random.choice(flags), ":=", BOOL, "(", n, "/\\", "3", ")"])
            self.assigned.update(it for it in self.visible(BOOL) if it.name == self.lines[-1][1][0])
            return True
        self.put(indent, [target.name, ":=", *self.random.choice(ways)])
        self.assigned.add(target)
        return True

    def simple(self, indent: int) -> None:
        """An assignment, an input or an output."""
        way = self.random.random()
        if self.is_risky and self.chance(0.2) and self.dangerous(indent):
            return
        if self.chance(0.6) and self.weighs("call") and self.call(indent) or self.arrayed(indent):
            return
        if self.weighs("call") and self.call(indent) or self.weighs("prelude") and self.known_call(indent):
            return
        free = [it for kind in (INT, BYTE, BOOL) for it in self.visible(kind) if self.can_change(it)]
        new = [it for it in free if it not in self.assigned]
        if way < 0.22 and self.hears(indent, free):
            return
        if not free and not self.channels["out"]:
            self.put(indent, ["SKIP"])
            return
        if self.channels["out"] and (way < 0.55 or not free):
            name, kind, _ = self.random.choice(self.channels["out"])
            part = self.int_part(self.depth) if kind == INT else self.byte_part(self.depth)
            self.put(indent, [name, "!", *part.tokens])
            return
        variable = self.random.choice(new if new and self.chance(0.5) else free)
        self.put(indent, [variable.name, ":=", *self.value(variable).tokens])
        self.assigned.add(variable)

    def hears(self, indent: int, free: list[Variable]) -> bool:
        """Puts an input, if there is a channel and a variable for it, and says whether it did."""
        if not self.channels["in"]:
            return False
        name, kind, _ = self.random.choice(self.channels["in"])
        found = [it for it in free if it.type == kind and it.span == WHOLE]
        if not found:
            return False
        variable, is_used = self.random.choice(found), kind == BYTE and self.chance(0.4)
        if is_used:
            self.put(indent, ["SEQ"])
            indent += 2
        self.put(indent, [name, "?", variable.name])
        self.assigned.add(variable)
        if is_used:
            self.uses(indent, variable.name)
        return True

    def uses(self, indent: int, name: str) -> None:
        """Puts what shows all bits of the word of a BYTE variable."""
        sinks = [it.name for it in self.channels["out"] if it.kind == INT]
        whole = [it for it in self.visible(INT) if self.can_change(it)]
        if sinks and self.chance(0.6):
            self.put(indent, [self.random.choice(sinks), "!", INT, name])
        elif whole:
            variable = self.random.choice(whole)
            self.put(indent, [variable.name, ":=", *self.random.choice(([INT, name], ["(", INT, name, ")", "*", "3"]))])
            self.assigned.add(variable)
        else:
            self.put(indent, ["IF"])
            self.put(indent + 2, [name, "<=", "'*#FF'"])
            self.put(indent + 4, ["SKIP"])

    def conditional(self, indent: int, turns: int, nested: int) -> None:
        self.put(indent, ["IF"])
        before, ends = set(self.assigned), []
        choices = self.random.choice((1, 2, 2, 3))
        for choice in range(choices):
            is_last = choice == choices - 1
            self.assigned = set(before)
            tokens = self.bool_part(self.depth).tokens
            if is_last and not self.risk():
                tokens = self.random.choice(
                    (["TRUE"], ["TRUE"], ["TRUE"], ["(", "TRUE", ")"], ["1", "=", "1"], ["NOT", "FALSE"])
                )
            self.put(indent + 2, tokens)
            self.process(indent + 4, turns, nested + 2)
            ends.append(self.assigned)
        self.assigned = set.intersection(*ends)

    def inside(self, indent: int, turns: int, nested: int, many: int) -> None:
        """The body of a loop: what it assigns may not be read behind it."""
        before = set(self.assigned)
        for _ in range(many):
            self.process(indent, turns, nested)
        self.assigned = before

    def loop(self, indent: int, turns: int, nested: int) -> None:
        """A WHILE with a counter that falls."""
        if self.chance(0.06):
            self.put(indent, ["WHILE", "FALSE"])
            self.inside(indent + 2, turns, nested + 1, 1)
            return
        most = max(1, min(20, self.most_turns // turns))
        counter = Variable(self.new_name(), INT, (0, most), False)
        self.put(indent, [INT, counter.name, ":"])
        self.put(indent, ["SEQ"])
        self.variables.append(counter)
        self.put(indent + 2, [counter.name, ":=", *self.fitting(self.depth - 1, (0, most)).tokens])
        self.assigned.add(counter)
        name = counter.name
        condition = self.random.choice(
            (
                [name, ">", "0"],
                ["0", "<", name],
                [name, "<>", "0"],
                [name, ">=", "1"],
                ["1", "<=", name],
                ["NOT", "(", name, "=", "0", ")"],
            )
        )
        if self.chance(0.3):
            sides = [["(", *condition, ")"], self.operand(self.bool_part(self.depth))]
            condition = [*sides[0], "AND", *sides[1]]
        self.put(indent + 2, ["WHILE", *condition])
        self.put(indent + 4, ["SEQ"])
        self.inside(indent + 6, turns * most, nested + 3, self.random.choice((1, 1, 2, 3)))
        step = self.random.choice((["-", "1"], ["-", "1"], ["MINUS", "1"], ["/", "2"], [">>", "1"]))
        self.put(indent + 6, [name, ":=", name, *step])
        self.variables.remove(counter)

    def replicated(self, indent: int, turns: int, nested: int) -> None:
        most = max(1, min(20, self.most_turns // turns))
        base = self.int_part(self.random.choice((0, 0, 1, 2)))
        if self.chance(0.5):
            base = self.number(0, 10)
        count = self.fitting(self.random.choice((0, 1, 2)), (0, most))
        if self.is_risky and self.chance(0.25):
            rough = self.int_part(1)
            count = count if rough.is_constant else self.joined(rough, "\\", self.constant(most), -most, most)
        low, high = base.low, base.high + most
        over = [it for it in self.filled() if it.length <= min(16, most) or self.in_procs]
        array = self.random.choice(over) if over and self.weighs("over") else None
        if array:
            base, low, high = Part(["0"], 0, 0), 0, (array.size or 16_000) - 1
            count = Part(["SIZE", array.name]) if "SIZE" in FEATURES or not array.size else Part([str(array.size)])
        span = (low, high) if high <= MOST_POSITIVE else WHOLE
        index = Variable(self.new_name(array is not None), INT, span, False, over=array)
        self.put(indent, ["SEQ", index.name, "=", *base.tokens, "FOR", *count.tokens])
        self.variables.append(index)
        self.assigned.add(index)
        if self.chance(0.5):
            self.inside(indent + 2, turns * most, nested + 1, 1)
        else:
            self.put(indent + 2, ["SEQ"])
            self.inside(indent + 4, turns * most, nested + 2, self.random.choice((1, 2, 3)))
        self.variables.remove(index)

    def heads(self) -> None:
        """The channels, and some variables."""
        numbers = [("out", link) for link in range(self.links)] + [("in", link) for link in range(self.links)]
        for way, link in numbers:
            if way == "in" and self.chance(0.15) or way == "out" and link and self.chance(0.3):
                continue
            name = self.new_name()
            longer = f"{name}.{way}{link}"
            if (
                (way == "in" or link)
                and "array messages" in FEATURES
                and self.weights["array messages"]
                and self.chance(0.35)
            ):
                size = self.random.choice((1, 2, 3, 4, 5, 6, 7, 8, 9, 16))
                kind = self.random.choice([it for it in (INT, BYTE) if f"arrays of {it}" in FEATURES] or [INT])
                self.array_channels[way].append(ArrayChannel(name, kind, size, link))
                continue
            name = longer if self.chance(0.5) else name
            self.channels[way].append(Channel(name, self.random.choice((INT, BYTE)), link))
        every: list[tuple[str, Channel | ArrayChannel]] = [
            (way, it) for way in ("out", "in") for it in self.channels[way]
        ]
        self.random.shuffle(every)
        every += [(way, it) for way in ("out", "in") for it in self.array_channels[way]]
        for way, it in every:
            size_tokens = ["[", str(it.size), "]"] if isinstance(it, ArrayChannel) else []
            self.put(0, ["CHAN", "OF", *size_tokens, it.kind, it.name, ":"])
            place = it.link + (4 if way == "in" else 0)
            named = [f"link{it.link}.{way}"]
            at = self.random.choice((named, named, [str(place)], [f"#{place:X}"], [str(place), "-", "0"]))
            self.put(0, ["PLACE", it.name, "AT", *at, ":"])
        if "VAL" in FEATURES and self.weighs("VAL") and self.chance(0.5):
            number = self.random.choice((1, 2, 3, 4, 5, 7, 8, 9, 10, 16))
            name = self.new_name()
            self.put(0, ["VAL", *([INT] if self.chance(0.5) else []), name, "IS", str(number), ":"])
            self.add(Variable(name, INT, (number, number), False, is_constant=True))
        self.declare(0, self.random.choice((1, 2, 3)))
        if "PROC" in FEATURES:
            for _ in range(self.random.choice((0, 0, 1, 2, 3))):
                if self.weights["written PROC"] and self.chance(0.4) and "written PROC" in FEATURES:
                    self.written(0)
                elif self.weights["PROC"]:
                    self.made_procedure(0, 1)
        self.rest = max(self.rest, 8)

    def shows(self, indent: int, array: Variable) -> None:
        """Puts what sends all elements of an array."""
        name, kind, _ = self.random.choice(self.channels["out"])
        index = self.new_name(True)
        element = [array.name, "[", index, "]"]
        if array.type != kind:
            low_byte = ["(", *element, "/\\", "255", ")"] if array.type == INT else ["(", INT, *element, ")"]
            element = [INT, *element] if kind == INT else [BYTE, *low_byte]
        many = ["SIZE", array.name] if "SIZE" in FEATURES else [str(array.size)]
        self.put(indent, ["SEQ", index, "=", "0", "FOR", *many])
        self.put(indent + 2, [name, "!", *element])

    def program(self) -> None:
        """Writes all lines."""
        self.heads()
        self.put(0, ["SEQ"])
        name, kind, _ = next(it for it in self.channels["out"] if it.link == 0)
        endless = self.chance(0.08) and self.channels["in"]
        for array in self.arrays():
            if array not in self.assigned and self.can_change(array) and self.weighs("fill"):
                self.fill(2, array)
        if any(isinstance(it, Proc) for it in self.variables):
            for variable in [it for kind in (INT, BYTE, BOOL) for it in self.visible(kind)]:
                if variable not in self.assigned and self.can_change(variable) and self.chance(0.5):
                    self.put(2, [variable.name, ":=", *self.value(variable, 1).tokens])
                    self.assigned.add(variable)
            for _ in range(self.random.choice((1, 2, 4))):
                self.call(2)
        while True:
            self.process(2, 1, 1)
            if self.rest <= 3:
                break
        for array in self.filled():
            if array.length <= 20 and self.chance(0.6):
                self.shows(2, array)
        if self.is_risky and self.chance(0.6):
            self.dangerous(2)
        number = LAST[kind]
        last = Part([f"'*#{number:02X}'"]) if kind == BYTE else self.constant(number)
        self.put(2, [name, "!", *last.tokens])
        if endless:
            source, kind, _ = self.random.choice(self.channels["in"])
            heard = Variable(self.new_name(), kind)
            self.variables.append(heard)
            self.put(2, ["WHILE", "TRUE"])
            self.put(4, [kind, heard.name, ":"])
            self.put(4, ["SEQ"])
            self.put(6, [source, "?", heard.name])
            self.assigned.add(heard)
            self.simple(6)

    def coming(self) -> dict[int, bytes]:
        """What comes at the links."""
        heard = [(it.link, it.kind) for it in self.channels["in"]]
        heard += [(it.link, it.kind) for it in self.array_channels["in"]]
        messages = {}
        for link, kind in heard:
            data = bytearray()
            while len(data) < MOST_COMING:
                data += self.some_byte() if kind == BYTE else self.some_word()
            messages[link] = bytes(data)
        return messages

    def some_byte(self) -> bytes:
        some = self.random.randrange(256), self.random.randrange(256)
        return bytes([self.random.choice((0, 1, 127, 128, 255, *some))])

    def some_word(self) -> bytes:
        way = self.random.random()
        if way < 0.5:
            number = self.random.choice(EDGES) * (1 if way < 0.3 else -1)
        else:
            number = self.random.randint(*((-50, 50) if way < 0.8 else WHOLE))
        return (number & 0xFFFFFFFF).to_bytes(4, "little")
