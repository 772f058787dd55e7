"""What the writers of random occam programs share: what is in scope, which names and variables may be used, and the lines so far."""
import abc
import contextlib
import random
from collections.abc import Iterator

from occam.expressions import KEYWORDS
from occam.pieces import ArrayChannel, Channel, FEATURES, NAMES, Named, Proc, SHARE, Variable, WEIGHTS


class Draft(abc.ABC):
    """A program that is written, with what chance has decided of all of it."""

    def __init__(self, seed: int | str) -> None:
        self.random = random.Random(seed)
        self.rest = self.random.choice((5, 10, 20, 40, 60, 100))
        self.links = self.random.choice((1, 1, 1, 2, 4))
        self.is_risky = self.random.random() < 0.35
        self.depth = self.random.choice((1, 2, 3, 3, 4, 6))
        self.most_turns = self.random.choice((4, 20, 100, 400))
        self.channels: dict[str, list[Channel]] = {"in": [], "out": []}
        self.variables: list[Named] = []
        self.assigned: set[Variable] = set()
        # what can't be changed, and what can't be named, because of abbreviations; channels by their names
        self.frozen: list[Named] = []
        self.hidden: list[Named | str] = []
        self.inside_index = 0
        self.array_channels: dict[str, list[ArrayChannel]] = {"in": [], "out": []}
        self.weights = {it: weight if self.chance(SHARE) else 0 for it, weight in WEIGHTS.items()}
        self.in_procs = 0
        self.lines: list[tuple[int, list[str]]] = []

    def chance(self, share: float) -> bool:
        return self.random.random() < share

    def risk(self) -> bool:
        """Whether something may err here."""
        return self.is_risky and self.chance(0.08)

    def weighs(self, name: str) -> bool:
        return self.chance(self.weights[name])

    # -- names

    def new_name(self, is_fresh: bool = False) -> str:
        """A name that no variable in scope has, or seldom one that hides another."""
        channels = self.channel_names()
        used = {it.name for it in self.variables} | channels
        locked = {it.name for it in self.variables if not it.is_free} | channels
        while True:
            name = self.random.choice(NAMES) + (str(self.random.randrange(100)) if self.chance(0.3) else "")
            hides = name in used and name not in locked and "hiding" in FEATURES and not is_fresh and self.chance(0.15)
            if (name not in used or hides) and name not in KEYWORDS:
                return name

    def channel_names(self) -> set[str]:
        """The names of the channels that may be used here."""
        plain = {it.name for side in self.channels.values() for it in side}
        return plain | {it.name for side in self.array_channels.values() for it in side}

    def named(self) -> list[Variable]:
        """The variables that no other name hides."""
        last = {it.name: it for it in self.variables}
        return [
            it for it in self.variables if isinstance(it, Variable) and last[it.name] is it and it not in self.hidden
        ]

    def visible(self, kind: str) -> list[Variable]:
        """The variables of a type that no other hides."""
        return [it for it in self.named() if it.type == kind and it.size is None]

    def arrays(self, kind: str | None = None) -> list[Variable]:
        """The arrays of a type that no other name hides."""
        return [it for it in self.named() if it.size is not None and kind in (None, it.type)]

    def filled(self, kind: str | None = None) -> list[Variable]:
        return [it for it in self.arrays(kind) if it in self.assigned]

    def can_change(self, it: Variable) -> bool:
        return it.is_free and it not in self.frozen

    def named_in(self, tokens: list[str]) -> list[Named]:
        """The variables that tokens name."""
        last = {it.name: it for it in self.variables}
        return [last[it] for it in tokens if it in last]

    def readable(self, kind: str) -> list[Variable]:
        return [it for it in self.visible(kind) if it in self.assigned]

    # -- lines

    def put(self, indent: int, tokens: list[str]) -> None:
        self.lines.append((indent, tokens))
        self.rest -= 1

    def puts(self, indent: int, text: str, **parts: str | list[str]) -> None:
        """Puts lines of text whose tokens have blanks between them; $x is what is given for x, a token or a list of tokens."""
        for line in text.strip("\n").split("\n"):
            tokens: list[str] = []
            for it in line.split():
                part = parts[it[1:]] if it.startswith("$") else it
                tokens += part if isinstance(part, list) else [part]
            self.put(indent + len(line) - len(line.lstrip()), tokens)

    @contextlib.contextmanager
    def scope(self) -> Iterator[None]:
        """What is declared and abbreviated within it ends with it."""
        begin, frozen, hidden = len(self.variables), len(self.frozen), len(self.hidden)
        channels = {way: [*side] for way, side in self.channels.items()}
        yield
        self.forget(begin)
        self.channels = channels
        del self.frozen[frozen:]
        del self.hidden[hidden:]

    def forget(self, begin: int) -> None:
        """Ends the scope of the variables from this one on."""
        self.assigned -= set(self.variables[begin:])
        del self.variables[begin:]

    @abc.abstractmethod
    def process(self, indent: int, turns: int, nested: int) -> None:
        """Puts a process, which is done so often, and so far below others."""
