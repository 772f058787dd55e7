"""What each component of a PAR uses, and which of them use what another one changes: the rules of use of occam."""
from __future__ import annotations

import contextlib
from collections.abc import Callable, Iterator
from dataclasses import dataclass
from typing import TYPE_CHECKING, TypeVar

if TYPE_CHECKING:
    from occam.expressions import Token, Value

Read = TypeVar("Read")

# What two components can't do with one variable, or with one channel.
AGAINST = {"changes": ("changes", "reads"), "reads": ("changes",), "sends": ("sends",), "hears": ("hears",)}


@dataclass(frozen=True)
class Use:
    """That cells or channels from one on and below another are used, and the lines that may be shown for it, or none if any may."""

    way: str
    low: int
    high: int
    lines: frozenset[int] | None


@dataclass
class Clash:
    """Two uses against the rules: the fault's numbers that are right, and the lines that may be shown, or none if any may."""

    faults: tuple[int, ...]
    lines: frozenset[int] | None


def interval(first: int, size: int, index: Value) -> tuple[int, int]:
    """The cells that a subscript may mean: those of an index with known bounds, one of a constant, or else all."""
    low, high = index.span or ((index.constant, index.constant) if index.constant is not None else (0, size - 1))
    low, high = max(low, 0), min(high, size - 1)
    return (first + low, first + high + 1) if low <= high else (first, first)


class Uses:
    """The part of a reader that is about what components use. The tokens are those of the statement that is read."""

    tokens: list[Token]
    is_by_itself: bool

    def begin_uses(self) -> None:
        # what the component that is read uses, which uses are against the rules, the lines of instances around, and whether a use has
        # a line of its own
        self.uses: list[Use] = []
        self.clashes: list[Clash] = []
        self.instances: list[int] = []
        self.has_line = True

    def use(self, way: str, region: tuple[int, int] | None) -> None:
        if region is None or self.is_by_itself:
            return
        lines = frozenset([self.tokens[0].line, *self.instances]) if self.has_line else None
        self.uses.append(Use(way, *region, lines))

    @contextlib.contextmanager
    def at_any_line(self) -> Iterator[None]:
        """Within it, what is used has no line that is certain."""
        kept, self.has_line = self.has_line, False
        yield
        self.has_line = kept

    @contextlib.contextmanager
    def unused(self) -> Iterator[None]:
        """Within it, what is read isn't there when the program runs."""
        kept = self.uses, self.clashes
        self.uses, self.clashes = [], []
        yield
        self.uses, self.clashes = kept

    def component(self, gathered: list[list[Use]], read: Callable[[], Read]) -> Read:
        """Reads a component, whose uses are gathered."""
        kept, self.uses = self.uses, []
        body = read()
        gathered.append(self.uses)
        self.uses = kept
        return body

    def compare(self, gathered: list[list[Use]]) -> None:
        """Looks at each two components, and adds what they use to what is used around them."""
        before: dict[str, list[Use]] = {"changes": [], "reads": [], "sends": [], "hears": []}
        for uses in gathered:
            now = list(dict.fromkeys(uses))
            for second in now:
                if any(
                    first.low < second.high and second.low < first.high
                    for way in AGAINST[second.way]
                    for first in before[way]
                ):
                    self.clashes.append(Clash((36,) if second.way in ("sends", "hears") else (35, 37), second.lines))
            for it in now:
                before[it.way].append(it)
            self.uses += now
