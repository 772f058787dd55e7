"""What belongs to which component of a random occam program, and what networks of components are made of."""
import contextlib
from collections.abc import Callable, Iterator, Sequence
from dataclasses import dataclass

from occam.pieces import Span, Variable, WHOLE
from occam.values import BYTE, INT
from occam.writing import Writer

# What puts a component at an indentation, and a name of INT, by itself or with the span of its values.
Body = Callable[[int], None]
Over = str | tuple[str, Span]


@dataclass
class Division:
    """What belongs to the components of a PAR: by variable its owner, of one that all may read none; and by name those of channels."""

    variables: dict[Variable, int | None]
    channels: dict[str, int]


class Components(Writer):
    """The part of a writer of programs that is about components of PAR."""

    # how many there are of something in a network at most, and whether something is left out of one, so that it waits for ever
    most_network = 6
    is_stuck = False

    def divided(self, count: int) -> Division:
        """Who may change which variables, and use which channels, of this many components."""
        owners = {it: self.random.choice((None, *range(count))) for it in self.named() if self.can_change(it)}
        names = sorted(self.channel_names())
        return Division(owners, {it: self.random.randrange(max(count, 1)) for it in names})

    @contextlib.contextmanager
    def component(self, division: Division, number: int, after: set[Variable]) -> Iterator[None]:
        """Within it, what is put belongs to this component. What it assigns is added to a set."""
        kept = self.hidden, self.frozen, self.channels, self.array_channels, self.assigned
        begin = len(self.variables)
        others = [it for it, owner in division.channels.items() if owner != number]
        self.hidden = [
            *self.hidden,
            *(it for it, owner in division.variables.items() if owner not in (None, number)),
            *others,
        ]
        self.frozen = [*self.frozen, *(it for it, owner in division.variables.items() if owner is None)]
        self.channels = {way: [it for it in side if it.name not in others] for way, side in self.channels.items()}
        self.array_channels = {
            way: [it for it in side if it.name not in others] for way, side in self.array_channels.items()
        }
        if self.is_risky:
            # if a process errs, it isn't certain what others have heard
            self.hidden += [it.name for it in self.channels["in"]] + [it.name for it in self.array_channels["in"]]
            self.channels["in"], self.array_channels["in"] = [], []
        self.assigned = set(self.assigned)
        yield
        self.forget(begin)
        after |= self.assigned
        self.hidden, self.frozen, self.channels, self.array_channels, self.assigned = kept

    def components(self, indent: int, bodies: Sequence[Body], division: Division | None = None) -> None:
        """Puts PAR with components, each of which is put by a function of an indentation."""
        self.put(indent, ["PAR"])
        division, after = division or self.divided(len(bodies)), set[Variable]()
        for number, body in enumerate(bodies):
            with self.component(division, number, after):
                body(indent + 2)
        self.assigned |= after

    def hide(self, *names: str) -> tuple[str, ...]:
        """Names of channels and PROCs that only who puts them uses."""
        self.variables += [Variable(it, "CHAN", is_free=False) for it in names]
        return names

    def new_names(self, count: int) -> list[str]:
        """As many new names as are asked for, which are kept."""
        names: list[str] = []
        for _ in range(count):
            names += self.hide(self.new_name(True))
        return names

    def over(self, *names: Over, kind: str = INT, span: Span | None = None) -> list[str]:
        """The tokens of an expression of some names of INT alone, as an operand; a name may be a pair with its span. It seldom has none
        of them."""
        pairs = [it if isinstance(it, tuple) else (it, WHOLE) for it in names]
        variables = [Variable(name, INT, its_span) for name, its_span in pairs]
        kept = self.variables, self.assigned, self.hidden
        self.variables, self.assigned, self.hidden = [*variables], set(variables), []
        for _ in range(5):
            part = (
                self.fitting(self.random.choice((0, 1, 1, 2)), span)
                if span
                else self.expression(kind, self.random.choice((1, 1, 2)))
            )
            if not names or any(name in part.tokens for name, _ in pairs):
                break
        self.variables, self.assigned, self.hidden = kept
        return self.operand(part)

    def result(self, kind: str = INT) -> Variable | None:
        """A variable of INT that may be changed, or none."""
        found = [it for it in self.visible(kind) if self.can_change(it) and it.span == WHOLE]
        return self.random.choice(found) if found else None

    def shown(self, indent: int, name: list[str], kind: str = INT) -> None:
        """Puts what sends a value, if there is a channel for it, or keeps it, or does nothing."""
        outs = {it: [side.name for side in self.channels["out"] if side.kind == it] for it in (INT, BYTE)}
        kept = self.result(kind)
        if outs[kind] and self.chance(0.8):
            self.put(indent, [self.random.choice(outs[kind]), "!", *name])
        elif outs[BYTE] and kind == INT:
            self.put(indent, [self.random.choice(outs[BYTE]), "!", BYTE, "(", *name, "/\\", "255", ")"])
        elif kept:
            self.put(indent, [kept.name, ":=", *name])
            self.assigned.add(kept)
        else:
            self.put(indent, ["SKIP"])

    def count(self, least: int = 1) -> int:
        """How many there are of something."""
        return self.random.randint(least, self.most_network)

    def replicator(self, name: str, count: int, base: int = 0) -> list[str]:
        """PAR, with as many components."""
        return ["PAR", name, "=", *self.constant(base).tokens, "FOR", str(count)]
