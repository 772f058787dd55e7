"""A core as a text of occam: compiled again, it has the same code, with each variable in the same word."""
from __future__ import annotations

from . import core
from .constants import constant_value, signed
from .core import (
    And,
    ArrayOf,
    Below,
    ChannelOf,
    CoreProgram,
    Declaration,
    Element,
    ElementKind,
    Expression,
    Inside,
    Link,
    Number,
    One,
    Or,
    Role,
    Two,
    Variable,
)
from .outline import Node, Uses, bare, channels_in, outline
from .program_warnings import owners_of
from .scope import LINK_NAMES
from .tree import DataType

INT, BYTE, BOOL = DataType.INT, DataType.BYTE, DataType.BOOL
MOST_NAMES, MOST_VALUES = 8, 16
SIGNS = {name: sign for sign, name in core.OPERATIONS.items() if sign != "REM"}
ONE_SIGNS = {"Negate": "-", "Minus": "MINUS ", "Complement": "~", "Not": "NOT "}
ESCAPES = {10: "*n", 13: "*c", 9: "*t", 39: "*'", 34: '*"', 42: "**"}


def text_of_core(program: CoreProgram) -> str:
    """The core as a text."""
    return CoreText(program).text()


# ---- where each is declared


class Placing:
    """Before which process each is declared: no earlier than the one before it, and no later than the next, so that the words
    come in the same order; and in what is after a declaration are all its uses. Moments are counted in halves: 2 * n is before
    the process n, and 2 * n + 1 is where its index or its channels get their words."""

    def __init__(self, nodes: list[Node], declarations: list[Declaration], owners: list[int]) -> None:
        self.nodes = nodes
        self.declarations = declarations
        self.spans: list[tuple[int, int] | None] = [None] * len(declarations)
        self.fixed: list[int | None] = [None] * len(declarations)
        for use in Uses(nodes).list:
            owner = owners[use.first]
            first, last = self.spans[owner] or (use.node, use.node)
            self.spans[owner] = min(first, use.node), max(last, use.node)
        for index, it in enumerate(nodes):
            if isinstance(it.process, core.Repeat):
                self.fixed[owners[it.process.variable]] = index
            elif it.is_channels:
                assert isinstance(it.process, core.Sequence)
                made = channels_in(it.process.first)
                assert made is not None
                for word in range(made.first, made.first + made.words):
                    self.fixed[owners[word]] = index

    def chosen(self) -> list[int]:
        """The index of the process for each declaration; of tables it is 0."""
        latest = self.latest()
        chosen, least = [], 0
        for index, declaration in enumerate(self.declarations):
            if declaration.role is Role.TABLE:
                chosen.append(0)
                continue
            node, moment = self.fixed[index], latest[index]
            if node is not None:
                least = 2 * node + 1
            else:
                node = (
                    min(moment // 2, (least + 1) // 2)
                    if self.spans[index] is None
                    else self.outermost(moment // 2, least)
                )
                least = 2 * node
            chosen.append(node)
        return chosen

    def latest(self) -> list[int]:
        """The latest moment at which each may be declared."""
        latest, bound = [0] * len(self.declarations), 2 * (len(self.nodes) - 1)
        for index in reversed(range(len(self.declarations))):
            if self.declarations[index].role is Role.TABLE:
                continue
            fixed, span = self.fixed[index], self.spans[index]
            if fixed is not None:
                bound = 2 * fixed + 1
            else:
                bound = 2 * (bound // 2) if span is None else 2 * self.innermost(*span, bound)
            latest[index] = bound
        return latest

    def innermost(self, first: int, last: int, bound: int) -> int:
        """The innermost process that has all of a span, and begins at a moment or before."""
        node = first
        while node and not (last < self.nodes[node].end and 2 * node <= bound):
            node = self.nodes[node].parent
        return node

    def outermost(self, node: int, least: int) -> int:
        """A process around another that doesn't begin before a moment: before a loop, since a value stays from turn to turn, and
        before the sequence in which that is; but not further out."""
        inner = chosen = node
        while True:
            outer = self.nodes[inner].parent
            if outer == inner or 2 * outer < least:
                break
            if self.nodes[inner].role == "turn":
                chosen = outer
            inner = outer
        head = chosen
        while self.nodes[head].role == "item":
            head = self.nodes[head].parent
            if 2 * head == least:
                return head
            if self.nodes[head].role == "scope" or 2 * head < least:
                return chosen
        return head


# ---- names


def core_names(program: CoreProgram, errors: int) -> list[str]:
    """The names of errors, of the channels at links and of what is declared: the second of a name is `x.2`, and so on."""
    bases = ["error"] * errors + [it.name for it in program.links]
    bases += [it.name or ("table" if it.role is Role.TABLE else "subscript") for it in program.declarations]
    written = set(bases)
    last: dict[str, int] = {}
    names = []
    for base in bases:
        number = last.get(base, 0) + 1
        if number == 1 and base in LINK_NAMES:
            number = 2
        while number > 1 and f"{base}.{number}" in written:
            number += 1
        last[base] = number
        names.append(base if number == 1 else f"{base}.{number}")
    return names


# ---- constants that are errors


def is_constant(expression: Expression) -> bool:
    """Whether an expression is made of constants alone."""
    match expression:
        case Variable() | Element():
            return False
        case One(_, operand) | Below(_, operand):
            return is_constant(operand)
        case Two(_, left, right) | And(left, right) | Or(left, right):
            return is_constant(left) and is_constant(right)
    return True


def has_error(expression: Expression) -> bool:
    """Whether an expression is made of constants alone, and is an error."""
    return not isinstance(expression, Number) and is_constant(expression) and constant_value(expression) is None


def number_of(expression: Expression) -> int:
    return expression.value if isinstance(expression, Number) else -1


Constant = tuple[DataType, int]


class CoreText:
    """A core on its way to a text."""

    def __init__(self, program: CoreProgram) -> None:
        self.program = program
        self.declarations = program.declarations
        self.owners = owners_of(program)
        self.nodes = outline(program.process)
        self.declaring = Placing(self.nodes, self.declarations, self.owners).chosen()
        self.next = 0
        self.errors: list[Constant] = []
        parts: list[list[Node]] = [[] for _ in self.nodes]
        for node in self.nodes[1:]:
            if node.condition is not None or node.guard is not None:
                parts[node.parent].append(node)
        self.node_errors = [self.errors_of(node, below) for node, below in zip(self.nodes, parts)]
        most = max(2 * len(it) for it in self.node_errors)
        names = core_names(program, most)
        links = len(program.links)
        self.error_names, self.link_names, self.names = names[:most], names[most : most + links], names[most + links :]
        self.links = {it.number: name for it, name in zip(program.links, self.link_names)}
        self.lines: list[str] = []

    def text(self) -> str:
        for link, name in zip(self.program.links, self.link_names):
            self.lines += [f"{written(link.type)} {name}:", f"PLACE {name} AT {LINK_NAMES[link.number]}:"]
        for index, declaration in enumerate(self.declarations):
            if declaration.role is Role.TABLE:
                self.lines.append(f"VAL {self.names[index]} IS {self.table(declaration)}:")
        self.inner: list[int] = []
        for index, node in enumerate(self.nodes):
            self.inner.append(self.node(index, node))
        return "\n".join(self.lines) + "\n"

    # ---- declarations

    def table(self, declaration: Declaration) -> str:
        assert isinstance(declaration.type, ArrayOf) and isinstance(declaration.type.element, DataType)
        words = self.program.tables[declaration.first : declaration.first + declaration.words]
        length, element = declaration.type.length or 1, declaration.type.element
        if element is BYTE:
            data = b"".join(word.to_bytes(4, "little") for word in words)[:length]
            return '"' + "".join(map(character, data)) + '"'
        values = [self.number(element, word, False) for word in words]
        rows = [", ".join(values[at : at + MOST_VALUES]) for at in range(0, length, MOST_VALUES)]
        return "[" + ",\n  ".join(rows) + "]"

    def next_declared(self, node: int) -> int | None:
        """What is declared next, if it is declared before this process."""
        while self.next < len(self.declarations) and self.declarations[self.next].role is Role.TABLE:
            self.next += 1
        is_here = self.next < len(self.declarations) and self.declaring[self.next] == node
        return self.next if is_here else None

    def next_variable(self, node: int) -> Declaration | None:
        """The same, unless it is the process's own index, or a channel."""
        index = self.next_declared(node)
        if index is None or self.declarations[index].role is Role.INDEX or is_channel(self.declarations[index].type):
            return None
        return self.declarations[index]

    def put(self, blanks: int, line: str) -> None:
        self.lines.append(" " * blanks + line)

    def declare(self, blanks: int, node: int) -> None:
        """Writes the variables that are declared before a process."""
        while (first := self.next_variable(node)) is not None:
            names: list[str] = []
            while (
                len(names) < MOST_NAMES and (other := self.next_variable(node)) is not None and other.type == first.type
            ):
                names.append(self.names[self.next])
                self.next += 1
            self.put(blanks, f"{first.type} {', '.join(names)}:")

    # ---- processes

    def node(self, index: int, node: Node) -> int:
        """Writes a process without its parts, and gives how far in these are."""
        blanks = 0 if node.role == "whole" else self.inner[node.parent]
        is_declaring = self.next_variable(index) is not None
        if (
            node.role == "item"
            and not is_declaring
            and (
                isinstance(node.process, core.Sequence) and not node.is_channels or isinstance(node.process, core.Skip)
            )
        ):
            return blanks
        self.errors = self.node_errors[node.parent]
        before = self.role(node, is_declaring)
        if before:
            self.put(blanks, before)
            blanks += 2
        self.declare(blanks, index)
        if node.is_channels:
            while (declared := self.next_declared(index)) is not None:
                self.put(blanks, f"{written(self.declarations[declared].type)} {self.names[declared]}:")
                self.next += 1
            return blanks
        self.errors = self.node_errors[index]
        for constant in self.errors:
            blanks = self.put_error(blanks, constant)
        self.put(blanks, self.form(index, node.process))
        return blanks + 2

    def role(self, node: Node, is_declaring: bool) -> str:
        """What is written in a line before a process, and further out."""
        if node.condition is not None:
            return self.expression(node.condition, BOOL)
        if node.guard is not None:
            condition = node.guard.condition
            what = "SKIP" if node.input is None else self.statement(node.input)
            if node.guard.channel is not None and number_of(condition) == 1:
                return what
            return f"{self.expression(condition, BOOL, True)} & {what}"
        return "SEQ" if node.role == "scope" and (is_declaring or node.is_channels) else ""

    def form(self, index: int, process: core.Process) -> str:
        """The first line of a process."""
        match process:
            case core.Sequence():
                return "SEQ"
            case core.Parallel():
                return "PAR"
            case core.If():
                return "IF"
            case core.Choose():
                return "ALT"
            case core.While(condition, _):
                return f"WHILE {self.expression(condition, BOOL)}"
            case core.Repeat(_, base, count, _):
                name = self.names[self.next] if self.next_declared(index) is not None else ""
                self.next += 1
                limit = self.expression(count, INT, is_error=number_of(count) >= core.LEAST)
                return f"SEQ {name} = {self.expression(base, INT)} FOR {limit}"
            case statement:
                return self.statement(statement)

    def statement(self, process: core.Process) -> str:
        match bare(process):
            case core.Stop():
                return "STOP"
            case core.Assign(number, value):
                return f"{self.word(number)} := {self.expression(value, self.type_of(number))}"
            case core.AssignElement(array, subscript, value):
                return f"{self.element(array, subscript)} := {self.expression(value, self.type_of(array.first))}"
            case core.Copy(target, source):
                return f"{self.array(target)} := {self.array(source)}"
            case core.Output(channel, kind, value):
                return f"{self.channel(channel)} ! {self.expression(value, BYTE if kind is ElementKind.BYTE else INT)}"
            case core.OutputArray(channel, array):
                return f"{self.channel(channel)} ! {self.array(array)}"
            case core.Input(channel, _, number):
                return f"{self.channel(channel)} ? {self.word(number)}"
            case core.InputElement(channel, array, subscript):
                return f"{self.channel(channel)} ? {self.element(array, subscript)}"
            case core.InputArray(channel, array):
                return f"{self.channel(channel)} ? {self.array(array)}"
        return "SKIP"

    def channel(self, channel: core.Channel) -> str:
        match channel:
            case Link(number):
                return self.links[number]
            case Inside(number):
                return self.word(number)
            case Element(array, subscript):
                return self.element(array, subscript)

    # ---- expressions

    def name(self, word: int) -> str:
        return self.names[self.owners[word]]

    def array(self, array: core.CoreArray) -> str:
        """An array, which may be a part of one that is declared."""
        declaration = self.declarations[self.owners[array.first]]
        if array.length == core.size_of(declaration.type):
            return self.name(array.first)
        per_word = 4 if array.kind is ElementKind.BYTE else 1
        return f"[{self.name(array.first)} FROM {(array.first - declaration.first) * per_word} FOR {array.length}]"

    def word(self, word: int) -> str:
        """A variable or a channel, which may be an element of an array."""
        declaration = self.declarations[self.owners[word]]
        is_array = isinstance(declaration.type, ArrayOf)
        return f"{self.name(word)}[{word - declaration.first}]" if is_array else self.name(word)

    def type_of(self, word: int) -> DataType:
        """The type of the value in a word."""
        of: core.Type = self.declarations[self.owners[word]].type
        while isinstance(of, (ArrayOf, ChannelOf)):
            of = of.element if isinstance(of, ArrayOf) else of.message
        return of if isinstance(of, DataType) else INT

    def type_in(self, expression: Expression) -> DataType | None:
        """The type of an expression, as far as its form says it: a constant may be of several."""
        match expression:
            case Number():
                return None
            case Variable(number):
                return self.type_of(number)
            case Element(array, _):
                return self.type_of(array.first)
            case One("Not", _) | And() | Or() | Below(2, _):
                return BOOL
            case Below(256, _):
                return BYTE
            case Two(operation, _, _) if operation in core.COMPARISONS:
                return BOOL
        return INT

    def operand_type(self, operation: str, left: Expression, right: Expression) -> DataType:
        """The type as which both sides of an operation are written."""
        if operation not in core.COMPARISONS:
            return INT
        first, second = self.type_in(left), self.type_in(right)
        found = INT
        if first is not None and first is second:
            found = first
        elif first is not None and second is None and is_literal_of(right, first):
            found = first
        elif second is not None and first is None and is_literal_of(left, second):
            found = second
        return INT if operation in core.ORDERING and found is BOOL else found

    def number(self, data_type: DataType, value: int, is_operand: bool) -> str:
        if data_type is BYTE:
            return f"'{character(value % 256)}'"
        if data_type is BOOL:
            return "TRUE" if value else "FALSE"
        if value == core.LEAST:
            return "MOSTNEG INT"
        return f"({signed(value)})" if is_operand and signed(value) < 0 else str(signed(value))

    def expression(
        self, expression: Expression, data_type: DataType, is_operand: bool = False, is_error: bool = False
    ) -> str:
        """An expression as a type. What has another one is converted to INT."""
        if not is_error and self.errors:
            is_error = has_error(expression)
        own = self.type_in(expression)
        if own is not None and own is not data_type:
            return enclosed(f"INT {self.plain(expression, own, True, is_error)}", is_operand)
        return self.plain(expression, data_type, is_operand, is_error)

    def plain(self, expression: Expression, data_type: DataType, is_operand: bool, is_error: bool) -> str:
        """An expression of its own type."""
        match expression:
            case Number(value):
                if is_error and (data_type, value) in self.errors:
                    return self.error_name(data_type, value)[0]
                return self.number(data_type, value, is_operand)
            case Variable(number):
                return self.word(number)
            case Element(array, subscript):
                return self.element(array, subscript)
            case Two(operation, left, right):
                sides = self.operand_type(operation, left, right)
                return self.both(left, SIGNS[operation], right, sides, is_operand, is_error)
            case And(left, right):
                return self.both(left, "AND", right, BOOL, is_operand, is_error)
            case Or(left, right):
                return self.both(left, "OR", right, BOOL, is_operand, is_error)
            case One(operation, operand):
                inner = self.expression(operand, BOOL if operation == "Not" else INT, True, is_error)
                return enclosed(ONE_SIGNS[operation] + inner, is_operand)
            case Below(bound, operand):
                if bound not in (2, 256):
                    return enclosed(f"BELOW {bound} {self.expression(operand, INT, True, is_error)}", is_operand)
                to = BOOL if bound == 2 else BYTE
                own = self.type_in(operand)
                inner = self.expression(operand, own if own is not None and own is not to else INT, True, is_error)
                return enclosed(f"{to} {inner}", is_operand)

    def both(
        self, left: Expression, sign: str, right: Expression, of: DataType, is_operand: bool, is_error: bool
    ) -> str:
        return enclosed(
            f"{self.expression(left, of, True, is_error)} {sign} {self.expression(right, of, True, is_error)}",
            is_operand,
        )

    def element(self, array: core.CoreArray, subscript: Expression) -> str:
        return f"{self.array(array)}[{self.expression(subscript, INT, is_error=number_of(subscript) >= array.length)}]"

    # ---- constants that are errors: a text would be refused, so each is the index of a PAR with one component

    def error_name(self, data_type: DataType, value: int) -> tuple[str, str]:
        """The name of a constant, and that of its index; only an INT is the index itself."""
        at = self.errors.index((data_type, value))
        before = at + sum(it is not INT for it, _ in self.errors[:at])
        return self.error_names[before + (data_type is not INT)], self.error_names[before]

    def put_error(self, blanks: int, constant: Constant) -> int:
        name, index = self.error_name(*constant)
        self.put(blanks, f"PAR {index} = {self.number(INT, constant[1], False)} FOR 1")
        if name != index:
            self.put(blanks + 2, f"VAL {name} IS {constant[0]} {index}:")
        return blanks + 2

    def errors_of(self, node: Node, parts: list[Node]) -> list[Constant]:
        """Those of a process without its parts, each once."""
        found: list[Constant] = []
        match node.process:
            case core.If() | core.Choose():
                for part in parts:
                    found += self.errors_in(part.condition if part.guard is None else part.guard.condition)
                    found += self.errors_of_statement(part.input)
            case core.While(condition, _):
                found += self.errors_in(condition)
            case core.Repeat(_, base, count, _):
                found += self.errors_in(base)
                found += [(INT, number_of(count))] if number_of(count) >= core.LEAST else self.errors_in(count)
            case statement:
                found += self.errors_of_statement(statement)
        return list(dict.fromkeys(found))

    def errors_of_statement(self, process: core.Process | None) -> list[Constant]:
        found: list[Constant] = []
        process = None if process is None else bare(process)
        if isinstance(process, (core.Input, core.InputArray, core.InputElement, core.Output, core.OutputArray)):
            if isinstance(process.channel, Element):
                found += self.errors_in(process.channel)
        if isinstance(process, (core.AssignElement, core.InputElement)):
            found += self.errors_in(Element(process.array, process.subscript))
        if isinstance(process, (core.Assign, core.AssignElement, core.Output)):
            found += self.errors_in(process.value)
        return found

    def errors_in(self, expression: Expression | None) -> list[Constant]:
        match expression:
            case Element(array, subscript):
                wrong = number_of(subscript) >= array.length
                return [(INT, number_of(subscript))] if wrong else self.errors_in(subscript)
            case None | Number() | Variable():
                return []
        if has_error(expression):
            return self.innermost_errors(expression, INT)
        match expression:
            case One(_, operand) | Below(_, operand):
                return self.errors_in(operand)
            case Two(_, left, right) | And(left, right) | Or(left, right):
                return self.errors_in(left) + self.errors_in(right)

    def innermost_errors(self, expression: Expression, data_type: DataType) -> list[Constant]:
        """A constant of each innermost part that is an error, in an expression of constants that is written as this type."""
        match expression:
            case Number(value):
                return [(data_type, value)]
            case One(operation, operand):
                return self.innermost_errors(operand, BOOL if operation == "Not" else INT)
            case Below(_, operand):
                return self.innermost_errors(operand, INT)
            case Two(operation, left, right):
                sides = self.operand_type(operation, left, right)
            case And(left, right) | Or(left, right):
                sides = BOOL
            case _:
                return []
        found = self.innermost_errors(left, sides) if has_error(left) else []
        return found + self.innermost_errors(right, sides) if has_error(right) or not has_error(left) else found


def enclosed(text: str, is_operand: bool) -> str:
    """In parentheses, if it is an operand."""
    return f"({text})" if is_operand else text


def is_channel(of: core.Type) -> bool:
    return isinstance(of, ChannelOf) or isinstance(of, ArrayOf) and isinstance(of.element, ChannelOf)


def written(of: core.Type) -> str:
    """A type; protocols are gone, so that messages are of any."""
    match of:
        case ArrayOf(length, ChannelOf() as channel):
            return f"[{length}]{written(channel)}"
        case ChannelOf(core.Protocol()):
            return str(ChannelOf(core.ANY))
    return str(of)


def is_literal_of(expression: Expression, data_type: DataType) -> bool:
    """Whether an expression is a number that is a value of a type."""
    return isinstance(expression, Number) and (data_type is INT or expression.value < (256 if data_type is BYTE else 2))


def character(byte: int) -> str:
    """A character as it is between quotes."""
    if byte in ESCAPES:
        return ESCAPES[byte]
    return chr(byte) if 0x20 <= byte < 0x7F else f"*#{byte:02x}"
