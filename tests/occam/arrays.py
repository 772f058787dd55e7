"""How random occam programs fill, read, change, copy and send arrays, and abbreviate values, variables, elements and arrays."""
from occam.pieces import FEATURES, Variable, WHOLE
from occam.terms import Terms
from occam.values import BOOL, BYTE, INT


class Arrays(Terms):
    """The part of a writer of programs that is about arrays and abbreviations."""

    # -- arrays

    def letters(self, count: int) -> str:
        """A string of so many characters."""
        text = ""
        for _ in range(count):
            letter = self.character()[1:-1]
            text += {'"': '*"'}.get(letter, letter)
        return f'"{text}"'

    def table(self, kind: str, size: int | None = None) -> tuple[list[str], int]:
        """The tokens of a table, and its size."""
        size = size or self.random.choice((1, 1, 2, 3, 4, 5, 6, 7, 8, 9, 12))
        if kind == BYTE and "strings" in FEATURES and self.chance(0.8):
            return [self.letters(size)], size
        tokens = ["["]
        for _ in range(size):
            if kind == INT:
                tokens += self.number().tokens
            else:
                tokens.append(self.character() if kind == BYTE else self.random.choice(("TRUE", "FALSE")))
            tokens.append(",")
        return [*tokens[:-1], "]"], size

    def fill(self, indent: int, array: Variable) -> None:
        """Puts what fills an array that no statement has filled."""
        same = [it for it in self.filled(array.type) if it.size == array.size and array.size and it.span == array.span]
        several = self.array_channels["in"] if array.span == WHOLE else []
        heard = [it for it in several if (it.kind, it.size) == (array.type, array.size)]
        if same and self.chance(0.2) and "copies" in FEATURES:
            self.put(indent, [array.name, ":=", self.random.choice(same).name])
        elif heard and self.chance(0.7):
            self.put(indent, [self.random.choice(heard).name, "?", array.name])
        elif array.size and array.size < 5 and self.chance(0.5):
            self.put(indent, ["SEQ"])
            for number in self.random.sample(range(array.size), array.size):
                self.put(indent + 2, [array.name, "[", str(number), "]", ":=", *self.value(array).tokens])
        else:
            many = [str(array.size)] if array.size else ["SIZE", array.name]
            base = self.random.choice((0, 0, 0, 1, -1, 100))
            index = Variable(self.new_name(True), INT, (min(base, 0), 16_000 + base), False)
            self.put(indent, ["SEQ", index.name, "=", *self.constant(base).tokens, "FOR", *many])
            self.variables.append(index)
            self.assigned.add(index)
            at = [index.name] if base == 0 else [index.name, "-", "(", *self.constant(base).tokens, ")"]
            source = [it for it in self.channels["in"] if it.kind == array.type and array.span == WHOLE]
            if source and self.chance(0.3) and self.most_turns > 20:
                self.put(indent + 2, [self.random.choice(source).name, "?", array.name, "[", *at, "]"])
            else:
                self.put(indent + 2, [array.name, "[", *at, "]", ":=", *self.value(array).tokens])
            self.forget(len(self.variables) - 1)
        self.assigned.add(array)

    def arrayed(self, indent: int) -> bool:
        """Puts a statement that is about arrays, if there is one, and says whether it did."""
        empty = [it for it in self.arrays() if it not in self.assigned and self.can_change(it)]
        if empty and self.weighs("fill"):
            self.fill(indent, self.random.choice(empty))
            return True
        free = [it for it in self.filled() if self.can_change(it)]
        if free and self.weighs("element"):
            array = self.random.choice(free)
            heard = [it for it in self.channels["in"] if it.kind == array.type and array.span == WHOLE]
            place = [array.name, "[", *self.index(array).tokens, "]"]
            if heard and self.chance(0.25):
                self.put(indent, [self.random.choice(heard).name, "?", *place])
            else:
                self.put(indent, [*place, ":=", *self.value(array).tokens])
            return True
        if self.weighs("array messages"):
            return self.sends_array(indent)
        if free and self.weighs("copies") and "copies" in FEATURES:
            to = self.random.choice(free)
            same = [
                it
                for it in self.filled(to.type)
                if it.size == to.size and to.size and it.span == to.span and it is not to
            ]
            if same:
                self.put(indent, [to.name, ":=", self.random.choice(same).name])
                return True
        return False

    def sends_array(self, indent: int) -> bool:
        if self.array_channels["in"] and self.chance(0.4):
            name, kind, size, _ = self.random.choice(self.array_channels["in"])
            found = [it for it in self.arrays(kind) if it.size == size and it.span == WHOLE and self.can_change(it)]
            if found:
                array = self.random.choice(found)
                self.put(indent, [name, "?", array.name])
                self.assigned.add(array)
                return True
        if self.array_channels["out"]:
            name, kind, size, _ = self.random.choice(self.array_channels["out"])
            found = [it for it in self.filled(kind) if it.size == size]
            if found and self.chance(0.8):
                self.put(indent, [name, "!", self.random.choice(found).name])
                return True
            if "tables" in FEATURES and size < 20:
                self.put(indent, [name, "!", *self.table(kind, size)[0]])
                return True
        return False

    # -- abbreviations

    def abbreviate(self, indent: int) -> None:
        """Puts abbreviations before a process."""
        if self.weighs("VAL"):
            self.random.choice((self.val, self.val, self.val_array))(indent)
        if self.weighs("renamed"):
            ways = (self.rename, self.rename_element, self.rename_element, self.rename_array, self.rename_channel)
            self.random.choice(ways)(indent)

    def freeze(self, tokens: list[str]) -> None:
        self.frozen += self.named_in(tokens)

    def val(self, indent: int) -> None:
        if "VAL" not in FEATURES:
            return
        kind = self.random.choice((INT, INT, BYTE, BOOL))
        depth = self.random.choice((0, 1, 2))
        part = self.expression(kind, depth)
        name = self.new_name()
        self.put(indent, ["VAL", *([kind] if self.chance(0.6) else []), name, "IS", *part.tokens, ":"])
        self.freeze(part.tokens)
        span = (part.low, part.high) if kind == INT else WHOLE
        # the names of what is constant are known while compiling
        self.add(Variable(name, kind, span, False, is_constant=kind == INT and part.is_constant))

    def val_array(self, indent: int) -> None:
        found = self.filled()
        name = self.new_name()
        if found and self.chance(0.3) and "VAL of arrays" in FEATURES:
            array = self.random.choice(found)
            tokens, kind, size, span = [array.name], array.type, array.size, array.span
        elif "tables" in FEATURES:
            kind = self.random.choice((INT, INT, BYTE, BYTE, BOOL))
            (tokens, size), span = self.table(kind), WHOLE
        else:
            return
        ways: list[list[str]] = [[], ["[", "]", kind], ["[", str(size), "]", kind]]
        how = self.random.choice(ways) if size else []
        self.put(indent, ["VAL", *how, name, "IS", *tokens, ":"])
        self.freeze(tokens)
        self.add(Variable(name, kind, span, False, size))

    def add(self, variable: Variable) -> None:
        self.variables.append(variable)
        self.assigned.add(variable)

    def rename(self, indent: int) -> None:
        found = [it for kind in (INT, BYTE, BOOL) for it in self.readable(kind) if self.can_change(it)]
        if not found or "renamed variables" not in FEATURES:
            return
        old, name = self.random.choice(found), self.new_name()
        self.put(indent, [old.type, name, "IS", old.name, ":"])
        self.hidden.append(old)
        self.add(Variable(name, old.type, old.span))

    def rename_element(self, indent: int) -> None:
        found = [it for it in self.filled() if self.can_change(it)]
        if not found or "renamed elements" not in FEATURES:
            return
        array = self.random.choice(found)
        index, name = self.index(array, [array]), self.new_name()
        self.put(indent, [array.type, name, "IS", array.name, "[", *index.tokens, "]", ":"])
        self.freeze(index.tokens)
        self.hidden.append(array)
        self.add(Variable(name, array.type, array.span))

    def rename_array(self, indent: int) -> None:
        found = [it for it in self.filled() if self.can_change(it)]
        if not found or "renamed arrays" not in FEATURES:
            return
        array, name = self.random.choice(found), self.new_name()
        size = [str(array.size)] if array.size and self.chance(0.4) else []
        self.put(indent, ["[", *size, "]", array.type, name, "IS", array.name, ":"])
        self.hidden.append(array)
        self.add(Variable(name, array.type, array.span, True, array.size))

    def rename_channel(self, indent: int) -> None:
        if "renamed channels" not in FEATURES:
            return
        side = self.channels[self.random.choice(("in", "out"))]
        if not side:
            return
        old, kind, _ = self.random.choice(side)
        name = self.new_name(True)
        self.put(indent, ["CHAN", "OF", kind, name, "IS", old, ":"])
        side[:] = [it._replace(name=name) if it.name == old else it for it in side]
        self.hidden.append(old)
