"""Random occam programs, with what comes at their links and what they mean: of one process, or of several.

usage, in tests/: python3 -B -m occam.programs SEED [COUNT]

Prints the program of a seed with its input and what it means, or, with COUNT, how many of the seeds from SEED on end in which way.
"""
import sys
import time
from collections import Counter
from collections.abc import Iterator, Sequence
from dataclasses import dataclass

from occam.expressions import Wrong
from occam.meaning import read
from occam.parallel import ParallelWriter
from occam.pieces import FEATURES, MOST_COST, MOST_SAID
from occam.printing import Printer
from occam.running import Program, Talk
from occam.writing import Writer

# How many programs of several processes were tried, and how many of them depend on the order in which processes take turns.
COUNTS: Counter[str] = Counter()


@dataclass
class Made:
    """A program: its seed, its text, what comes at its links, its talk, how many links have hosts, and the variables whose words are
    known at its end."""

    seed: int
    text: str
    coming: dict[int, bytes]
    talk: Talk
    links: int
    known: dict[int, int]


def is_parallel(seed: int | str) -> bool:
    """Whether the program of a seed has several processes: that of every other seed."""
    return "PAR" in FEATURES and int(str(seed).split("+", maxsplit=1)[0]) % 2 == 0


def attempt(seed: int | str) -> Made | None:
    """The program of a seed, or none if it costs or says too much, has a constant that doesn't exist, or says what depends on the order
    in which its processes take turns."""
    writer = (ParallelWriter if is_parallel(seed) else Writer)(seed)
    writer.program()
    text, coming = Printer(seed).text(writer.lines), writer.coming()
    try:
        program = read(text)
    except Wrong as wrong:
        if "a constant that exists" in str(wrong) or "a subscript from 0" in str(wrong):
            return None
        raise
    if program.clashes:
        raise ValueError(f"seed {seed} breaks the rules of use: {program.clashes[0]}")
    if writer.random.random() < 0.1:
        # it is to wait
        coming = {link: it[: writer.random.randrange(12)] for link, it in coming.items()}
    talks = all_talks(seed, program, coming)
    if not talks:
        return None
    talk = talks[0]
    if (
        talk.end == "goes on"
        or sum(map(len, talk.said.values())) > MOST_SAID
        or max(map(len, talk.said.values()), default=0) == 0
        and talk.end != "halted"
    ):
        return None
    # just what it takes comes
    coming = {link: it[: talk.taken.get(link, 0)] for link, it in coming.items() if talk.taken.get(link)}
    known = {} if talk.end == "waits" or talk.is_loose else dict(words_of(program.named, talks))
    return Made(0, text, coming, talk, writer.links, known)


def all_talks(seed: int | str, program: Program, coming: dict[int, bytes]) -> list[Talk] | None:
    """The talks of runs whose processes take turns in different orders, or none if something that may be seen depends on that. The
    first two differ in the first values of variables alone, and so not at all."""
    ways = [(0, False), (0, False), (1, True), (2, True)] if is_parallel(seed) else [(0, False), (0, False)]
    talks = [program.run(coming, MOST_COST, 0x5A5A5A5A if at % 2 else 0, *way) for at, way in enumerate(ways)]
    first, other = talks[:2]
    if (first.said, first.end, first.cost) != (other.said, other.end, other.cost):
        raise ValueError(f"seed {seed} reads a variable to which nothing was assigned")
    COUNTS["tried"] += len(talks) > 2
    if any((it.said, it.end, it.taken) != (first.said, first.end, first.taken) for it in talks):
        COUNTS["depend"] += 1
        return None
    first.is_loose = any(it.is_loose for it in talks)
    return talks


def words_of(named: Sequence[tuple[int, tuple[int, ...], bool]], talks: list[Talk]) -> Iterator[tuple[int, int]]:
    """The words that are known at the end, each with its number."""
    for word, cells, is_packed in named:
        numbers = [talks[0].store[it] for it in cells]
        if all(numbers == [talk.store[it] for it in cells] for talk in talks[1:]) and (
            len(cells) == 4 or not is_packed
        ):
            yield word, int.from_bytes(bytes(numbers), "little") if is_packed else numbers[0]


def make(seed: int) -> Made:
    """The first program of a seed that is as it should be."""
    for again in range(100):
        made = attempt(seed if not again else f"{seed}+{again}")
        if made:
            made.seed = seed
            return made
    raise ValueError(f"seed {seed} gives no program")


def main(words: list[str]) -> int:
    if not words:
        sys.exit(__doc__)
    seed = int(words[0])
    if len(words) == 1:
        made = make(seed)
        print(made.text)
        print(f"links {made.links}, coming {({link: it.hex() for link, it in made.coming.items()})}, {made.talk}")
        return 0
    ends: Counter[str] = Counter()
    lines, cost, begin = 0, 0, time.monotonic()
    for it in range(seed, seed + int(words[1])):
        made = make(it)
        ends[made.talk.end] += 1
        lines += made.text.count("\n")
        cost += made.talk.cost
    print(
        f"{dict(ends)}, {dict(COUNTS)}, {lines} lines, {cost} instruction bytes, {time.monotonic() - begin:.1f} seconds"
    )
    return 0


if __name__ == "__main__":
    sys.exit(main(sys.argv[1:]))
