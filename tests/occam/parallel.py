"""How random occam programs do several things at once: networks, PAR of processes that need no channel between them, and PROCs of both.
Each answer is the same however the components take turns."""
from collections.abc import Callable

from occam.networks import Networks
from occam.pieces import FEATURES
from occam.traces import Traces

# What puts processes of a kind: an indentation, how often they are done, and how far they are below others.
Kind = Callable[[int, int, int], None]


class ParallelWriter(Traces, Networks):
    """Writes one program in which processes run at the same time."""

    def __init__(self, seed: int | str) -> None:
        super().__init__(seed)
        # how many processes of a PAR are still to come for certain
        self.wanted = self.random.choice((1, 2, 2, 3, 4))
        self.most_turns = min(self.most_turns, 20)
        self.par_weight = self.random.choice((0.05, 0.15, 0.3))
        self.is_stuck = self.chance(0.08)
        self.in_pars = 0

    def process(self, indent: int, turns: int, nested: int) -> None:
        is_wanted = self.wanted > 0 and not self.in_procs and nested <= 2
        if (
            is_wanted
            or self.rest > 8
            and nested < 6
            and turns <= 10
            and self.in_pars < 3
            and self.chance(self.par_weight)
        ):
            self.wanted -= is_wanted
            with self.scope():
                self.several(indent, turns, nested, is_wanted)
        else:
            super().process(indent, turns, nested)

    def several(self, indent: int, turns: int, nested: int, is_wanted: bool) -> None:
        """Puts processes at the same time, or an ALT."""
        kinds: list[Kind] = [self.independent, self.traced, self.traced, self.network, self.network, self.network]
        if is_wanted:
            self.rest = max(self.rest, 20)
        elif self.in_pars > 1 or nested > 4 or self.rest < 12:
            kinds = [self.independent]
        self.in_pars += 1
        put = self.random.choice(kinds)
        if "PROC" in FEATURES and not self.in_procs and nested < 4 and self.chance(0.15):
            self.by_procedure(put, indent, turns, nested)
        else:
            put(indent, turns, nested)
        self.in_pars -= 1

    def by_procedure(self, put: Kind, indent: int, turns: int, nested: int) -> None:
        """Puts processes at the same time as a PROC, which is put in place once or twice."""
        name = self.new_names(1)[0]
        self.put(indent, ["PROC", name, "(", ")"])
        self.in_procs += 1
        with self.scope():
            put(indent + 2, turns * 2, nested + 2)
        self.in_procs -= 1
        self.put(indent, [":"])
        self.put(indent, ["SEQ"])
        for _ in range(self.random.choice((1, 2))):
            self.put(indent + 2, [name, "(", ")"])

    def independent(self, indent: int, turns: int, nested: int) -> None:
        """PAR of processes without channels between them."""
        count = self.random.choice((0, 1, 2, 2, 2, 3, 3, 4))
        way = self.random.random()

        def body(inner: int) -> None:
            if way < 0.5:
                self.process(inner, turns, nested + 2)
                return
            with self.scope():
                self.declare(inner, 1)
                self.sequence(inner, turns, nested + 2, self.random.choice((1, 2, 3)))

        self.components(indent, [body] * count)
