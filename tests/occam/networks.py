"""How random occam programs have networks that people write: pipelines, rings, trees, farms, and components that share an array."""
from dataclasses import dataclass

from occam.choices import Choices
from occam.components import Body
from occam.pieces import FEATURES
from occam.values import BOOL, BYTE, INT


@dataclass
class Pipe:
    """A pipeline: its type, the names of its channels, of the value in a stage and of an index, how many messages it has, whether a
    negative one ends it, and the tokens of what a stage sends."""

    kind: str
    channels: str
    value: str
    index: str
    rounds: int
    ends: bool
    new: list[str]


@dataclass
class Farm:
    """A farm: its type, the size of its messages if they are arrays, the names of its channels, of a message, of the index of a worker,
    of a turn and of an element, how many workers and turns there are, and the tokens of what a worker makes of a value.
    """

    kind: str
    size: int | None
    to: str
    back: str
    value: str
    index: str
    turn: str
    at: str
    count: int
    rounds: int
    work: list[str]


@dataclass
class Parts:
    """An array of which each component has a part: its name and type, the names of two indices, how many parts there are, how many
    elements each has, and the names of variables that all read."""

    array: str
    kind: str
    index: str
    inner: str
    count: int
    each: int
    shared: list[str]


class Networks(Choices):
    """The part of a writer of programs that is about networks of some kinds."""

    def network(self, indent: int, turns: int, nested: int) -> None:
        """Puts a network of one kind."""
        kinds = [self.elements, self.elements, self.swaps]
        if "arrays of channels" in FEATURES:
            kinds += [self.pipeline, self.pipeline, self.ring, self.tree, self.farm]
        if "ALT" in FEATURES:
            kinds += [self.chooses, self.not_yet]
        if "ALT" in FEATURES and "arrays of channels" in FEATURES:
            kinds += [self.multiplexer, self.multiplexer, self.server, self.free_farm]
        self.most_network = 3 if turns > 1 else 20 if self.chance(0.03) else 6
        self.random.choice(kinds)(indent)

    # -- pipelines

    def pipeline(self, indent: int) -> None:
        """Puts a pipeline, whose stages are a PROC or in place."""
        c, stage, n, of, i, j = self.new_names(6)
        count, kind = self.random.choice((0, 1, 2, 3, self.count())), self.random.choice((INT, INT, BYTE))
        ends = kind == INT and self.chance(0.4)
        if kind == INT:
            new = self.over((n, (0, 1000)), (of, (0, 255)), span=(0, 1000)) if ends else self.over(n, (of, (0, 255)))
        else:
            new = [BYTE, "(", "(", "(", INT, n, ")", "+", str(self.random.randrange(9)), ")", "/\\", "255", ")"]
        pipe = Pipe(kind, c, n, j, self.count(), ends, new)
        way = self.random.choice(("in place", "free", "whole", "parts", "parts")) if "PROC" in FEATURES else "in place"
        channels = ["[", str(count + 1 + self.chance(0.1)), "]", "CHAN", "OF", kind, c, ":"]
        if way == "free":
            self.put(indent, channels)
        if way != "in place":
            self.stage_procedure(indent, way, pipe, stage, of)
        if way != "free":
            self.put(indent, channels)
        actuals = {"free": [i], "whole": [i, ",", c], "parts": [i, ",", c, "[", i, "]", ",", c, "[", i, "+", "1", "]"]}

        def middle(inner: int) -> None:
            self.put(inner, self.replicator(of if way == "in place" else i, count))
            if way == "in place":
                self.stage(inner + 2, pipe, [c, "[", of, "]"], [c, "[", of, "+", "1", "]"])
            else:
                self.put(inner + 2, [stage, "(", *actuals[way], ")"])

        self.components(
            indent,
            [
                lambda inner: self.source(inner, pipe),
                middle,
                lambda inner: self.sink(inner, pipe, [c, "[", str(count), "]"]),
            ],
        )

    def stage_procedure(self, indent: int, way: str, pipe: Pipe, name: str, of: str) -> None:
        """Puts a PROC that is a stage: its channels are free names, an array as a parameter, or two parameters."""
        c = pipe.channels
        formals: dict[str, list[str]] = {
            "free": [],
            "whole": [",", "[", "]", "CHAN", "OF", pipe.kind, c],
            "parts": [",", "CHAN", "OF", pipe.kind, c + ".in", ",", c + ".out"],
        }
        self.put(indent, ["PROC", name, "(", "VAL", INT, of, *formals[way], ")"])
        if way == "parts":
            self.stage(indent + 2, pipe, [c + ".in"], [c + ".out"])
        else:
            self.stage(indent + 2, pipe, [c, "[", of, "]"], [c, "[", of, "+", "1", "]"])
        self.put(indent, [":"])

    def stage(self, indent: int, pipe: Pipe, into: list[str], out: list[str]) -> None:
        """Puts what takes messages and gives others, until one is negative if it ends so."""
        n = pipe.value
        if pipe.ends:
            self.puts(
                indent,
                f"""
INT {n} :
BOOL {n}.on :
SEQ
  {n}.on := TRUE
  WHILE {n}.on
    SEQ
      $into ? {n}
      {n}.on := {n} >= 0
      IF
        {n}.on
          $out ! $new
        TRUE
          $out ! {n}
""",
                into=into,
                out=out,
                new=pipe.new,
            )
            return
        self.puts(
            indent,
            f"""
{pipe.kind} {n} :
SEQ {pipe.index} = 0 FOR {pipe.rounds}
  SEQ
    $into ? {n}
    $out ! $new
""",
            into=into,
            out=out,
            new=pipe.new,
        )

    def source(self, indent: int, pipe: Pipe) -> None:
        """Puts what sends messages into a pipeline."""
        c, j, rounds = pipe.channels, pipe.index, pipe.rounds
        heard = [it[0] for it in self.channels["in"] if it[1] == pipe.kind]
        if heard and not pipe.ends and self.chance(0.4):
            self.puts(
                indent,
                f"""
SEQ {j} = 0 FOR {rounds}
  {pipe.kind} {c}.x :
  SEQ
    $heard ? {c}.x
    {c} [ 0 ] ! {c}.x
""",
                heard=heard[0],
            )
            return
        value = (
            self.over((j, (0, rounds)), span=(0, 1000)) if pipe.ends else self.over((j, (0, rounds)), kind=pipe.kind)
        )
        self.puts(
            indent,
            f"""
SEQ
  SEQ {j} = 0 FOR {rounds}
    {c} [ 0 ] ! $value
""",
            value=value,
        )
        if pipe.ends:
            self.put(indent + 2, [c, "[", "0", "]", "!", *self.constant(-1).tokens])

    def sink(self, indent: int, pipe: Pipe, into: list[str]) -> None:
        """Puts what takes messages from a pipeline."""
        self.puts(
            indent,
            f"""
{pipe.kind} {pipe.value} :
SEQ {pipe.index} = 0 FOR {pipe.rounds + pipe.ends}
  SEQ
    $into ? {pipe.value}
""",
            into=into,
        )
        self.shown(indent + 4, [pipe.value], pipe.kind)

    # -- rings

    def ring(self, indent: int) -> None:
        """Puts a ring, in which one message goes round; seldom none is sent, so that all wait."""
        c, t, i, j = self.new_names(4)
        count, rounds = self.random.choice((2, 3, self.count(2))), self.count()
        new, own = self.over(t, (i, (0, 255))), self.over(t)
        self.put(indent, ["[", str(count), "]", "CHAN", "OF", INT, c, ":"])
        is_stuck, self.is_stuck = self.is_stuck and self.chance(0.5), False

        def first(inner: int) -> None:
            self.puts(
                inner,
                f"""
INT {t} :
SEQ
""",
            )
            if not is_stuck:
                self.put(inner + 2, [c, "[", "1", "]", "!", *self.int_part(1).tokens])
            self.puts(
                inner + 2,
                f"""
SEQ {j} = 1 FOR {rounds - 1}
  SEQ
    {c} [ 0 ] ? {t}
    {c} [ 1 ] ! $own
{c} [ 0 ] ? {t}
""",
                own=own,
            )
            self.shown(inner + 2, [t])

        def others(inner: int) -> None:
            self.put(inner, self.replicator(i, count - 1, 1))
            self.puts(
                inner + 2,
                f"""
INT {t} :
SEQ {j} = 0 FOR {rounds}
  SEQ
    {c} [ {i} ] ? {t}
    {c} [ ( {i} + 1 ) \\ {count} ] ! $new
""",
                new=new,
            )

        self.components(indent, [first, others])

    # -- trees

    def tree(self, indent: int) -> None:
        """Puts a tree, each node of which makes one value of its two children's."""
        c, x, y, i = self.new_names(4)
        count = self.count(2)
        leaf, node = self.over((i, (0, 255))), self.over(x, y)
        self.put(indent, ["[", str(2 * count), "]", "CHAN", "OF", INT, c, ":"])

        def leaves(inner: int) -> None:
            self.put(inner, self.replicator(i, count))
            self.put(inner + 2, [c, "[", str(count), "+", i, "]", "!", *leaf])

        def nodes(inner: int) -> None:
            self.put(inner, self.replicator(i, count - 1, 1))
            self.puts(
                inner + 2,
                f"""
INT {x} , {y} :
SEQ
  {self.random.choice(("PAR", "PAR", "SEQ"))}
    {c} [ 2 * {i} ] ? {x}
    {c} [ ( 2 * {i} ) + 1 ] ? {y}
  {c} [ {i} ] ! $node
""",
                node=node,
            )

        def root(inner: int) -> None:
            self.puts(
                inner,
                f"""
INT {x} :
SEQ
  {c} [ 1 ] ? {x}
""",
            )
            self.shown(inner + 2, [x])

        self.components(indent, self.random.sample([leaves, nodes, root], 3))

    # -- farms

    def farm(self, indent: int) -> None:
        """Puts a farm: one component gives out work, several do it, and one collects what they made."""
        to, back, n, i, j, at = self.new_names(6)
        size = self.random.choice((None, None, 1, 2, 3, 5)) if "array messages" in FEATURES else None
        kind = self.random.choice((INT, INT, BYTE))
        work = (
            [BYTE, "(", "(", "(", INT, n, ")", "+", i, ")", "/\\", "255", ")"]
            if kind == BYTE
            else self.over(n, (i, (0, 255)))
        )
        shop = Farm(kind, size, to, back, n, i, j, at, self.count(2), self.count(), work)
        message = ["[", str(size), "]", kind] if size else [kind]
        self.put(indent, ["[", str(shop.count), "]", "CHAN", "OF", *message, to, ",", back, ":"])
        self.components(
            indent,
            self.random.sample(
                [
                    lambda inner: self.gives(inner, shop),
                    lambda inner: self.workers(inner, shop),
                    lambda inner: self.collects(inner, shop),
                ],
                3,
            ),
        )

    def gives(self, indent: int, shop: Farm) -> None:
        """Puts what gives out the work of a farm."""
        value = self.over((shop.index, (0, 255)), (shop.turn, (0, shop.rounds)), kind=shop.kind)
        self.puts(
            indent,
            f"""
SEQ {shop.turn} = 0 FOR {shop.rounds}
  SEQ {shop.index} = 0 FOR {shop.count}
""",
        )
        if not shop.size:
            self.put(indent + 4, [shop.to, "[", shop.index, "]", "!", *value])
            return
        self.puts(
            indent + 4,
            f"""
[ {shop.size} ] {shop.kind} {shop.value} :
SEQ
  SEQ {shop.at} = 0 FOR {shop.size}
    {shop.value} [ {shop.at} ] := $value
  {shop.to} [ {shop.index} ] ! {shop.value}
""",
            value=value,
        )

    def workers(self, indent: int, shop: Farm) -> None:
        """Puts the workers of a farm."""
        n, i, x = shop.value, shop.index, shop.at + "x"
        self.put(indent, self.replicator(i, shop.count))
        if shop.size:
            self.puts(
                indent + 2,
                f"""
[ {shop.size} ] {shop.kind} {n} :
SEQ {shop.turn} = 0 FOR {shop.rounds}
  SEQ
    {shop.to} [ {i} ] ? {n}
    SEQ {shop.at} = 0 FOR SIZE {n}
      {shop.kind} {x} IS {n} [ {shop.at} ] :
      {x} := $each
    {shop.back} [ {i} ] ! {n}
""",
                each=[x if it == n else it for it in shop.work],
            )
            return
        self.puts(
            indent + 2,
            f"""
{shop.kind} {n} :
SEQ {shop.turn} = 0 FOR {shop.rounds}
  SEQ
    {shop.to} [ {i} ] ? {n}
    {shop.back} [ {i} ] ! $work
""",
            work=shop.work,
        )

    def collects(self, indent: int, shop: Farm) -> None:
        """Puts what collects the results of a farm."""
        n = shop.value
        self.puts(
            indent,
            f"""
{f"[ {shop.size} ] {shop.kind}" if shop.size else shop.kind} {n} :
SEQ {shop.turn} = 0 FOR {shop.rounds}
  SEQ {shop.index} = 0 FOR {shop.count}
    SEQ
      {shop.back} [ {shop.index} ] ? {n}
""",
        )
        self.shown(indent + 6, [n, "[", str(shop.size - 1), "]"] if shop.size else [n], shop.kind)

    # -- arrays of which each component has a part

    def elements(self, indent: int) -> None:
        """Puts components each of which fills a part of an array, and then sends it: what looks like a clash, and is none."""
        a, i, j, k = self.new_names(4)
        kind, count, each = self.random.choice((INT, BYTE, BYTE, BOOL)), self.count(2), self.random.choice((1, 1, 2, 3))
        parts = Parts(a, kind, i, j, count, each, [it.name for it in self.readable(INT)][:1])
        self.put(indent, ["[", str(count * each), "]", kind, a, ":"])
        self.put(indent, ["SEQ"])
        if self.chance(0.35):
            self.computed_parts(indent + 2, parts)
        else:
            every = [it for number in range(count) for it in self.part_of(parts, number)]
            self.random.shuffle(every)
            division = self.divided(1)
            # all read what one component may read
            division.variables = {it: None for it in division.variables}
            self.components(indent + 2, every, division)
        self.puts(indent + 2, f"SEQ {k} = 0 FOR {count * each}")
        element = [a, "[", k, "]"]
        self.shown(indent + 4, ["(", INT, *element, ")"] if kind == BOOL else element, BYTE if kind == BYTE else INT)

    def part_of(self, parts: Parts, number: int) -> list[Body]:
        """What puts the components that fill one part: one for each element, or one with an index."""
        base, a = number * parts.each, parts.array
        way = self.random.random()
        if way < 0.4:

            def one(at: int) -> Body:
                element = [a, "[", str(at), "]"]
                return lambda inner: self.put(inner, [*element, ":=", *self.over(*parts.shared, kind=parts.kind)])

            return [one(at) for at in range(base, base + parts.each)]
        start = self.random.choice((0, base, base, base + 1, 3)) if way < 0.8 else base
        off, j = base - start, parts.inner
        at = [j, "+", str(off)] if off > 0 else [j, "-", str(-off)] if off < 0 else [j]

        def body(inner: int) -> None:
            self.put(inner, ["SEQ", j, "=", str(start), "FOR", str(parts.each)])
            self.put(inner + 2, [a, "[", *at, "]", ":=", *self.over((j, (0, 100)), *parts.shared, kind=parts.kind)])

        return [body]

    def computed_parts(self, indent: int, parts: Parts) -> None:
        """Puts a replicated PAR in which subscripts are made of its index."""
        i, j, each = parts.index, parts.inner, parts.each
        base = self.random.choice((0, 0, 1, 5))
        first = ["(", *(["(", i, "-", str(base), ")"] if base else [i]), "*", str(each), ")", "+"]
        self.put(indent, self.replicator(i, parts.count, base))
        if self.chance(0.4):
            self.put(indent + 2, self.replicator(j, each))
            value = self.over((i, (0, 100)), (j, (0, 100)), *parts.shared, kind=parts.kind)
            self.put(indent + 4, [parts.array, "[", *first, j, "]", ":=", *value])
            return
        self.put(indent + 2, ["SEQ"])
        # a subscript that isn't known would be all elements for each component
        for at in range(each):
            value = self.over((i, (0, 100)), *parts.shared, kind=parts.kind)
            self.put(indent + 4, [parts.array, "[", *first, str(at), "]", ":=", *value])

    def swaps(self, indent: int) -> None:
        """Puts components that exchange what they have."""
        c, d, x, y = self.new_names(4)
        kind = self.random.choice((INT, INT, BYTE))
        first, is_stuck = self.chance(0.5), self.is_stuck and self.chance(0.5)
        self.is_stuck = self.is_stuck and not is_stuck

        def side(mine: str, other: str, name: str, sends: bool) -> Body:
            lines = [f"{mine} ! {name}", f"{other} ? {name}.new"]
            lines = lines if sends else lines[::-1]

            def body(inner: int) -> None:
                order = self.random.choice(("SEQ", "SEQ", "PAR"))
                self.puts(
                    inner,
                    f"{kind} {name} , {name}.new :\nSEQ\n  {name} := $value\n  {order}\n    {lines[0]}\n    {lines[1]}",
                    value=self.over(kind=kind),
                )
                self.shown(inner + 2, [f"{name}.new"], kind)

            return body

        self.put(indent, ["CHAN", "OF", kind, c, ":"])
        self.put(indent, ["CHAN", "OF", kind, d, ":"])
        # if both send first, or both hear first, they wait for ever
        self.components(indent, [side(c, d, x, first), side(d, c, y, first == is_stuck)])
