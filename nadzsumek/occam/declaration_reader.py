"""Reads declarations."""
from __future__ import annotations

from typing import NoReturn

from . import tree
from .expression_reader import ExpressionReader
from .mistakes import Place, expected
from .reading import (
    BELOW_DECLARATIONS,
    COLON,
    COLON_BELOW_PROCEDURE,
    CONSTRUCT,
    DECLARING,
    LINE_END,
    LINE_END_OR_OPERATOR,
    NAME,
    PARENTHESIS,
    PROCESS,
    STEP,
    TYPES,
    VALUE_BY_IS,
    VALUE_NEEDS_VAL,
    hint_of_capitals,
)
from .tree import DataType
from .words import OPERATORS

# What is after the name of a channel whose type is missing.
NO_NAMES = frozenset((":", ",", ")", "IS", "end"))


class DeclarationReader(ExpressionReader):
    """Reads declarations."""

    def declarations(self, blanks: int, below: str) -> list[tree.Declaration]:
        """The declarations in the next statements; a process follows them."""
        declarations: list[tree.Declaration] = []
        while self.first_kind() in DECLARING:
            self.begin()
            if self.has_slice():
                self.next -= 1
                break
            declarations.append(self.declaration(blanks))
            if self.next < len(self.statements) and self.statements[self.next].indentation > blanks:
                met = str(self.statements[self.next].indentation)
                raise expected(self.end_place(), 2, f"an indentation of {blanks} blanks", met, BELOW_DECLARATIONS)
            if not self.is_at(blanks, below):
                met = "the end of the text" if self.next == len(self.statements) else ""
                raise expected(self.end_place(), 15, "a process after the declarations", met, BELOW_DECLARATIONS)
        return declarations

    def declaration(self, blanks: int) -> tree.Declaration:
        """A declaration, up to the end of its line or to the line that ends it."""
        declaration: tree.Declaration
        if any(it.kind == "FUNCTION" for it in self.words):
            return self.function(blanks)
        match self.kind:
            case "PROC":
                return self.procedure(blanks)
            case "PROTOCOL":
                return self.protocol(blanks)
            case "PLACE":
                declaration = self.placement()
            case "VAL":
                declaration = self.named_value()
            case _:
                declaration = self.variables()
        if not self.takes(":"):
            self.without_colon()
        self.line_end()
        return declaration

    def without_colon(self) -> NoReturn:
        if self.kind in (":=", "="):
            self.wrong(COLON, "A variable gets its value by an assignment: x := 0")
        if self.kind == "[":
            self.wrong(COLON, "The size is before the type: [10]INT a:")
        self.wrong(COLON, self.hint_of_name("Names have commas between them: INT a, b:"))

    def hint_of_name(self, hint: str) -> str:
        """What helps where another name is after a name."""
        return hint_of_capitals(self.token.text) or hint if self.kind == "name" else ""

    def placement(self) -> tree.Placed:
        """`PLACE name AT number`"""
        self.take()
        name = self.name(NAME)
        if not self.takes("AT"):
            hint = "An array of channels isn't at links: each channel at a link has a name of its own"
            self.wrong((13, "AT and a number"), hint if self.kind == "[" else "")
        return tree.Placed(name, self.expression())

    def named_value(self) -> tree.NamedValue:
        """`VAL TYPE name IS value`; the type may be left out."""
        self.take()
        value_type = None if self.kind == "name" else self.value_type()
        name = self.name(NAME)
        if not self.takes("IS"):
            hints = {"=": VALUE_BY_IS, ":=": VALUE_BY_IS, ",": "IS names one thing: INT x IS y:"}
            self.wrong((13, "IS and a value"), hints.get(self.kind) or self.hint_of_name(VALUE_BY_IS))
        return tree.NamedValue(value_type, name, self.value((7, ": or one operator")))

    def variables(self) -> tree.Declaration:
        """`TYPE name, name` or `TYPE name IS original`"""
        no_size = self.words[self.at + 1] if self.kind == "[" and self.ahead() == "]" else None
        is_channel = self.ahead(2) == "CHAN"
        variable_type = self.type()
        if self.kind == "[":
            self.wrong(NAME, "The size is before the type: [10]INT a:")
        names = [self.name(NAME)]
        if self.takes("IS"):
            return tree.Renamed(variable_type, names[0], self.original())
        while self.takes(","):
            names.append(self.name(NAME))
        if self.kind == "IS":
            self.wrong(COLON, "IS names one thing: INT x IS y:")
        if no_size and self.kind == ":":
            hint = (
                "It says how many channels there are: [4]CHAN OF INT c:"
                if is_channel
                else "It says how many elements there are: [10]INT a:"
            )
            raise expected(no_size.place, 13, "a size between the brackets", '"]"', hint)
        return tree.Variables(variable_type, names)

    def original(self) -> tree.Target:
        """What gets another name."""
        what = 6, "the name of a variable or a channel after IS"
        if self.kind not in ("name", "[", "wrong"):
            self.wrong(what, VALUE_NEEDS_VAL)
        element = self.element(what)
        if self.kind in OPERATORS:
            self.wrong(COLON, VALUE_NEEDS_VAL)
        return element

    def type(self) -> tree.Type:
        """The type of variables or of channels."""
        if self.kind in TYPES:
            return TYPES[self.take().kind]
        if self.kind == "[":
            return self.array_type((13, "INT, BYTE, BOOL or CHAN OF after the size of an array"), True)
        return self.channel_type()

    def value_type(self) -> tree.Type:
        """The type of values after `VAL`."""
        if self.kind in TYPES:
            return TYPES[self.take().kind]
        if self.kind == "[":
            return self.array_type((13, "INT, BYTE or BOOL after the size of an array"), False)
        hint = "A channel has no VAL: CHAN OF INT c" if self.kind == "CHAN" else ""
        self.wrong((13, "INT, BYTE, BOOL or an array of them after VAL"), hint)

    def array_type(self, what: tuple[int, str], may_be_channels: bool) -> tree.ArrayType:
        """`[size]TYPE` or `[]TYPE`"""
        size = self.size_of_type()
        if self.kind in TYPES:
            return tree.ArrayType(size, TYPES[self.take().kind])
        if self.kind == "CHAN" and may_be_channels:
            return tree.ArrayType(size, self.channel_type())
        if self.kind == "[":
            return tree.ArrayType(size, self.nested(PARENTHESIS, self.array_type, what, may_be_channels))
        self.wrong(what, "A channel has no VAL: CHAN OF INT c" if self.kind == "CHAN" else "")

    def size_of_type(self) -> tree.Expression | None:
        """`[size]` or `[]`"""
        if self.ahead() == "]":
            self.at += 2
            return None
        return self.subscript()

    def channel_type(self) -> tree.ChannelType:
        """`CHAN OF TYPE`"""
        self.take()
        if not self.takes("OF"):
            hint = "The size is before CHAN: [4]CHAN OF INT c:" if self.kind == "[" else ""
            self.wrong((13, "OF after CHAN"), hint)
        if self.kind == "[":
            bracket = self.words[self.at + 1]
            message = self.array_type((13, "INT, BYTE or BOOL after the size of an array"), False)
            if message.size is None:
                hint = "All messages of a channel have one size: CHAN OF [10]BYTE c:"
                raise expected(bracket.place, 13, "a size between the brackets", '"]"', hint)
            return tree.ChannelType(message)
        # a name with another one after it is that of a protocol
        if self.kind == "name" and self.ahead() not in NO_NAMES:
            return tree.ChannelType(self.name(NAME))
        if self.takes("ANY"):
            return tree.ChannelType(None)
        simple = self.message_type((13, "INT, BYTE, BOOL, an array of them or a protocol after CHAN OF"))
        return tree.ChannelType(tree.CountedType(simple, self.value_type()) if self.takes("::") else simple)

    def message_type(self, what: tuple[int, str]) -> DataType:
        if self.kind not in TYPES:
            self.wrong(what)
        return TYPES[self.take().kind]

    # ---- protocols

    def protocol(self, blanks: int) -> tree.Protocol:
        """`PROTOCOL name IS type; type:`, or tags below CASE up to the line that ends them."""
        place = self.take().place
        name = self.name(NAME)
        if self.takes("IS"):
            parts = self.parts(self.part_type)
            if not self.takes(":"):
                self.wrong(COLON)
            self.line_end()
            return tree.Protocol(name, parts, [])
        self.line_end((13, "IS or the end of the line after the name of a PROTOCOL"))
        below = f"CASE is 2 blanks further in than PROTOCOL in line {place.line}, and its tags 2 more"
        if not self.is_at(blanks + STEP, below):
            self.without_body(blanks + STEP, below)
        self.begin()
        if not self.takes("CASE"):
            self.wrong((13, "CASE below PROTOCOL"))
        self.line_end()
        tags = []
        while self.is_at(blanks + 2 * STEP, below):
            self.begin()
            tag = self.name((13, "the name of a tag"))
            tags.append((tag, self.parts(self.part_type) if self.takes(";") else []))
            self.line_end()
        self.long_end(blanks, "PROTOCOL", name, below)
        return tree.Protocol(name, [], tags)

    def part_type(self) -> tree.Type:
        """The type of a part of a message."""
        part = self.value_type()
        return tree.CountedType(part, self.value_type()) if self.takes("::") else part

    # ---- procedures

    def procedure(self, blanks: int) -> tree.Procedure:
        """A procedure, up to the line that ends it."""
        line = self.take().place.line
        name = self.name(NAME)
        formals = self.formals()
        if self.kind == ":":
            self.wrong(LINE_END, COLON_BELOW_PROCEDURE)
        self.line_end()
        below = f"A component is 2 blanks further in than PROC in line {line}"
        if self.first_kind() == ":":
            self.begin()
            self.wrong(PROCESS, "A PROC that does nothing has SKIP")
        if not self.is_at(blanks + STEP, below):
            self.without_body(blanks + STEP, below)
        process = self.nested(CONSTRUCT, self.process, blanks + STEP, below)
        self.long_end(blanks, "PROC", name, below)
        return tree.Procedure(name, formals, process)

    def function(self, blanks: int) -> tree.Function:
        """A function: its results after IS, or after RESULT below VALOF."""
        place = self.token.place
        types = self.list_of(self.message_type, (13, "INT, BYTE or BOOL before FUNCTION"))
        if not self.takes("FUNCTION"):
            self.wrong((13, "FUNCTION after its types"))
        name, formals = self.name(NAME), self.formals()
        for formal in formals:
            if not formal.is_value:
                raise expected(formal.names[0].place, 13, "VAL before the parameters of a FUNCTION")
        if self.takes("IS"):
            results = self.list_of(self.expression, (7, ": or one operator"))
            if not self.takes(":"):
                self.wrong(COLON)
            self.line_end()
            return tree.Function(name, types, formals, [], tree.Skip(place), results)
        self.line_end((13, "IS or the end of the line after the parameters"))
        below = f"VALOF is 2 blanks further in than FUNCTION in line {place.line}, and its process and RESULT 2 more"
        if not self.is_at(blanks + STEP, below):
            self.without_body(blanks + STEP, below)
        declarations = self.declarations(blanks + STEP, below)
        self.begin()
        if not self.takes("VALOF"):
            self.wrong((13, "VALOF"))
        self.line_end()
        process = self.nested(CONSTRUCT, self.process, blanks + 2 * STEP, below)
        if not self.is_at(blanks + 2 * STEP, below):
            self.without_body(blanks + 2 * STEP, below, (13, "RESULT"))
        self.begin()
        if not self.takes("RESULT"):
            self.wrong((13, "RESULT"))
        results = self.list_of(self.expression)
        self.line_end(LINE_END_OR_OPERATOR)
        self.long_end(blanks, "FUNCTION", name, below)
        return tree.Function(name, types, formals, declarations, process, results)

    def long_end(self, blanks: int, what: str, name: tree.Name, below: str) -> None:
        """The line of a colon."""
        hint = f"It ends {what} {name.text} of line {name.place.line}, and is below its P"
        if self.next == len(self.statements):
            raise expected(self.end_place(), 14, ": alone in a line", "the end of the text", hint)
        indentation = self.statements[self.next].indentation
        if self.first_kind() == ":" and indentation == blanks:
            self.begin()
            self.take()
            return self.line_end()
        if self.first_kind() == ":" and indentation > blanks:
            raise expected(self.end_place(), 14, f": with an indentation of {blanks} blanks", str(indentation), hint)
        if indentation > blanks:
            self.no_second(blanks + STEP, below)
        self.begin()
        self.wrong((14, ": alone in a line"), hint)

    def formals(self) -> list[tree.Formal]:
        """The parameters of a procedure or a function."""
        if not self.takes("("):
            hint = "A PROC without parameters has them too: PROC p ()"
            self.wrong((13, "( and ) after the name of a PROC"), hint)
        formals = [] if self.kind == ")" else self.list_of(self.formal)
        if not self.takes(")"):
            hints = {
                "name": "Parameters have commas between them",
                ";": "Parameters have commas between them",
                "[": "Brackets are before the type: []INT a",
            }
            self.wrong((10, "a comma or a closing parenthesis"), hints.get(self.kind, ""))
        return formals

    def formal(self) -> tree.Formal:
        """Parameters of one type."""
        if self.kind not in TYPES and self.kind not in ("VAL", "[", "CHAN"):
            hint = "A type is before the first parameter: PROC p (VAL INT n, INT x)" if self.kind == "name" else ""
            self.wrong((13, "a parameter with its type"), hint)
        is_value = self.takes("VAL")
        formal_type = self.value_type() if is_value else self.type()
        names = [self.name(NAME)]
        while self.kind == "," and self.ahead() == "name":
            self.take()
            names.append(self.name(NAME))
        return tree.Formal(is_value, formal_type, names)
