"""How random occam programs declare PROCs, of their own and some that people write, and use them."""
from typing import NamedTuple

from occam.arrays import Arrays
from occam.pieces import Channel, FEATURES, Formal, Named, Proc, Variable, WHOLE
from occam.values import BOOL, BYTE, INT


class Actual(NamedTuple):
    """An actual of an instance: its tokens, and the variable or array that it names as a whole, or none."""

    tokens: list[str]
    variable: Variable | None = None


class Procedures(Arrays):
    """The part of a writer of programs that is about PROCs."""

    def procedure(self, indent: int, nested: int) -> None:
        """Puts a PROC before a process."""
        if "written PROC" in FEATURES and self.weighs("written PROC"):
            self.written(indent)
        elif self.weighs("PROC") and self.rest > 10:
            self.made_procedure(indent, nested)

    def formals(self) -> list[Formal]:
        """Formals of all ways."""
        formals: list[Formal] = []
        kinds = [kind for kind in (INT, BYTE, BOOL) if f"arrays of {kind}" in FEATURES]
        for _ in range(self.random.choice((0, 1, 1, 2, 3, 4))):
            way = self.random.choice(("VAL", "VAL", "var", "out", "VAL array", "array", "fill", "send"))
            if way in ("VAL array", "array", "fill"):
                if kinds:
                    size = self.random.choice((0, 0, 0, 1, 4, 5, 8))
                    formals.append(Formal(way, self.random.choice(kinds), size))
            else:
                formals.append(
                    Formal(way, self.random.choice((INT, INT, BYTE, BOOL) if way != "send" else (INT, BYTE)))
                )
        formals.sort(key=lambda it: it.kind if self.is_risky else it.way)
        return formals

    @staticmethod
    def formal_type(formal: Formal) -> list[str]:
        way, kind, size = formal
        array = [] if size is None else ["[", *([str(size)] if size else []), "]"]
        return (["VAL"] if way.startswith("VAL") else []) + (["CHAN", "OF"] if way == "send" else []) + [*array, kind]

    def put_head(self, indent: int, name: str, formals: list[Formal]) -> list[tuple[str, Variable]]:
        """Puts the first line of a PROC, and gives the variables among its formals, each with its way."""
        tokens, names, variables = ["PROC", name, "("], set(), []
        before: list[str] = []
        for formal in formals:
            own = self.new_name(formal.way == "send")
            while own in names:
                own = self.new_name(True)
            names.add(own)
            type_tokens = self.formal_type(formal)
            tokens += [*([] if type_tokens == before and self.chance(0.7) else type_tokens), own, ","]
            before = type_tokens
            way, kind, size = formal
            if way == "send":
                # twice, so that it is used
                self.channels["out"] += [Channel(own, kind)] * 2
                continue
            variable = Variable(own, kind, WHOLE, not way.startswith("VAL"), size)
            variables.append((way, variable))
            self.variables.append(variable)
            if way not in ("out", "fill"):
                self.assigned.add(variable)
        self.put(indent, [*(tokens[:-1] if formals else tokens), ")"])
        return variables

    def made_procedure(self, indent: int, nested: int) -> None:
        around, assigned, rest, most_turns = [*self.variables], set(self.assigned), self.rest, self.most_turns
        channels, names = {it: [*side] for it, side in self.channels.items()}, self.channel_names()
        formals, name, line = self.formals(), self.new_name(True), len(self.lines)
        variables = self.put_head(indent, name, formals)
        self.in_procs += 1
        self.rest, self.most_turns = self.random.choice((3, 6, 10, 15)), min(20, self.most_turns)
        self.put(indent + 2, ["SEQ"])
        for way, variable in variables:
            if way == "fill":
                self.fill(indent + 4, variable)
            elif way == "out":
                self.put(indent + 4, [variable.name, ":=", *self.value(variable).tokens])
                self.assigned.add(variable)
        for _ in range(self.random.choice((1, 2, 3))):
            self.process(indent + 4, 8, nested + 2)
        self.in_procs -= 1
        self.put(indent, [":"])
        written = {it for _, tokens in self.lines[line:] for it in tokens}
        last = {it.name: it for it in around}
        used: set[Named | str] = {it for name, it in last.items() if name in written}
        for it in [it for it in used if isinstance(it, Proc)]:
            used |= it.used
        used |= written & names
        self.assigned, self.channels, self.rest, self.most_turns = assigned, channels, rest - 4, most_turns
        self.variables = [*around, Proc(name, formals, used)]

    def written(self, indent: int) -> None:
        """Puts one of some PROCs that people write."""
        name = self.new_name(True)
        names = [self.new_name(True) + ".w" for _ in range(5)]
        if len({name, *names}) < 6:
            return
        v, x, i, j, c = names
        last = self.random.choice((BYTE, INT))
        shows = f"out.string ( {v} , {c} )" if "prelude" in FEATURES else "SKIP"
        every = {
            "sort": (
                [Formal("array", INT, 0)],
                f"""
PROC {name} ( [ ] INT {v} )
  SEQ {i} = 1 FOR ( SIZE {v} ) - 1
    SEQ {j} = 0 FOR ( SIZE {v} ) - {i}
      IF
        {v} [ {j} ] > {v} [ {j} + 1 ]
          INT {x} :
          SEQ
            {x} := {v} [ {j} ]
            {v} [ {j} ] := {v} [ {j} + 1 ]
            {v} [ {j} + 1 ] := {x}
        TRUE
          SKIP
""",
            ),
            "sort by names": (
                [Formal("array", BYTE, 0)],
                f"""
PROC {name} ( [ ] BYTE {v} )
  SEQ {i} = 1 FOR ( SIZE {v} ) - 1
    SEQ {j} = 0 FOR ( SIZE {v} ) - {i}
      VAL {x} IS {v} [ {j} ] :
      VAL {c} IS {v} [ {j} + 1 ] :
      IF
        {x} <= {c}
          SKIP
        TRUE
          SKIP
""",
            ),
            "sum": (
                [Formal("VAL array", INT, 0), Formal("out", INT)],
                f"""
PROC {name} ( VAL [ ] INT {v} , INT {x} )
  SEQ
    {x} := 0
    SEQ {i} = 0 FOR SIZE {v}
      {x} := {x} PLUS {v} [ {i} ]
""",
            ),
            "send": (
                [Formal("VAL array", last, 0), Formal("send", last)],
                f"""
PROC {name} ( VAL [ ] {last} {v} , CHAN OF {last} {c} )
  SEQ {i} = 0 FOR SIZE {v}
    {c} ! {v} [ {i} ]
""",
            ),
            "reverse": (
                [Formal("array", last, 0)],
                f"""
PROC {name} ( [ ] {last} {v} )
  SEQ {i} = 0 FOR ( SIZE {v} ) / 2
    VAL {j} IS {i} + 1 :
    {last} {x} :
    SEQ
      {x} := {v} [ {i} ]
      {v} [ {i} ] := {v} [ ( SIZE {v} ) - {j} ]
      {v} [ ( SIZE {v} ) - {j} ] := {x}
""",
            ),
            "swap": (
                [Formal("var", last), Formal("var", last)],
                f"""
PROC {name} ( {last} {x} , {v} )
  {last} {i} :
  SEQ
    {i} := {x}
    {x} := {v}
    {v} := {i}
""",
            ),
            "number": (
                [Formal("VAL", INT), Formal("send", BYTE)],
                f"""
PROC {name} ( VAL INT {x} , CHAN OF BYTE {c} )
  [ 8 ] BYTE {v} :
  VAL {j} IS "0123456789abcdef" :
  SEQ
    SEQ {i} = 0 FOR SIZE {v}
      {v} [ 7 - {i} ] := {j} [ ( {x} >> ( 4 * {i} ) ) /\\ 15 ]
    {shows}
""",
            ),
        }
        formals, text = every[self.random.choice(sorted(every))]
        if not all(it.size is None or f"arrays of {it.kind}" in FEATURES for it in formals):
            return
        self.puts(indent, text)
        self.put(indent, [":"])
        self.rest += len(text.strip().splitlines()) // 2
        self.variables.append(Proc(name, formals, set()))

    def call(self, indent: int) -> bool:
        """Puts an instance of a PROC, if there is one, and says whether it did."""
        last = {it.name: it for it in self.variables}
        found = [
            it
            for it in self.variables
            if isinstance(it, Proc)
            and last[it.name] is it
            and not any(used in self.hidden or used in self.frozen for used in it.used)
        ]
        if not found:
            return False
        proc = self.random.choice(found)
        hidden, named = self.hidden, set[str]()
        actuals: dict[int, Actual] = {}
        # those that are changed first, so that no other names them
        order = sorted(range(len(proc.formals)), key=lambda it: proc.formals[it].way.startswith("VAL"))
        self.hidden = [*hidden, *(it for it in proc.used if isinstance(it, Variable))]
        for at in order:
            formal = proc.formals[at]
            actual = self.actual(formal, proc, named)
            if actual is None:
                break
            actuals[at] = actual
            if formal.way != "send" and not formal.way.startswith("VAL"):
                self.hidden += self.named_in(actual.tokens)
        self.hidden = hidden
        if len(actuals) < len(proc.formals):
            return False
        tokens = [proc.name, "("]
        for at in range(len(actuals)):
            tokens += [*actuals[at].tokens, ","]
        self.put(indent, [*(tokens[:-1] if actuals else tokens), ")"])
        self.assigned.update(it.variable for it in actuals.values() if it.variable)
        return True

    def actual(self, formal: Formal, proc: Proc, named: set[str]) -> Actual | None:
        way, kind, size = formal
        if way == "send":
            out = [it.name for it in self.channels["out"] if it.kind == kind and it.name not in {*proc.used, *named}]
            if not out:
                return None
            named.add(out[0])
            return Actual([self.random.choice(out[:1])])
        if way == "VAL":
            return Actual(self.expression(kind, self.random.choice((0, 1, self.depth))).tokens)
        if size is None:
            elements = [it for it in self.filled(kind) if self.can_change(it) and it.span == WHOLE]
            if elements and self.chance(0.35) and "renamed elements" in FEATURES:
                array = self.random.choice(elements)
                return Actual([array.name, "[", *self.index(array, [array]).tokens, "]"])
            known = self.visible(kind) if way == "out" else self.readable(kind)
            found = [it for it in known if self.can_change(it) and it.span == WHOLE]
        elif way == "VAL array":
            found = [it for it in self.filled(kind) if size in (0, it.size)]
            if "tables" in FEATURES and (not found or self.chance(0.3)):
                return Actual(self.table(kind, size)[0])
        else:
            known = self.arrays(kind) if way == "fill" else self.filled(kind)
            found = [it for it in known if size in (0, it.size) and self.can_change(it) and it.span == WHOLE]
        if not found:
            return None
        chosen = self.random.choice(found)
        return Actual([chosen.name], chosen)

    def known_call(self, indent: int) -> bool:
        """Puts an instance of what each program knows, and says whether it did."""
        found = [it.name for it in self.channels["out"] if it.kind == BYTE]
        if not found or "prelude" not in FEATURES:
            return False
        if self.chance(0.5):
            part = self.int_part(self.random.choice((0, 0, 1, self.depth)))
            self.put(indent, ["out.int", "(", *part.tokens, ",", self.random.choice(found), ")"])
            return True
        texts = [[it.name] for it in self.filled(BYTE)]
        if texts and self.chance(0.6):
            tokens = self.random.choice(texts)
        elif "tables" in FEATURES:
            tokens = self.table(BYTE)[0]
        else:
            return False
        self.put(indent, ["out.string", "(", *tokens, ",", self.random.choice(found), ")"])
        return True
