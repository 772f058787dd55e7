"""The page crates/README.md: the crates of each part, what each is by its own first sentence, and how many of its functions have clauses.

usage: python3 docs/crates.py    writes it; docs/check compares
"""

import re
from dataclasses import dataclass, field
from pathlib import Path

ROOT = Path(__file__).resolve().parent.parent
PAGE = ROOT / "crates/README.md"
# A part of whose functions at least this share has clauses is above the border that the page draws, in percent.
BORDER = 30
HEAD = """# The crates

The crates by part, the lowest part first. A crate depends only on crates before it. The sentence of each is the first of its sources, and `python3 docs/crates.py` writes this page from them and from `crates.txt`. [ARCHITECTURE.md](../docs/ARCHITECTURE.md) draws the parts, and follows a byte, a load and a record line through them.

In a crate, `specs/` has the definitions to believe, `src/` the code with its contracts, `proofs/` what the prover is helped by, and `must-fail/` and `wrong_bodies/` mistakes that must be refused. Begin with the file in `src/` or `specs/` that has the name of the notion. The laws that a crate hands on to those above it are in `src/laws.rt`.
"""
BORDER_HEAD = """## The border of what is proved

Every function is proved safe: no index is out of range, no sum wraps, and it returns unless it may wait. A function with a clause (`ensures`) is proved to give what the clause says besides. How far the clauses go is in [PROVED.md](../docs/PROVED.md).
"""
ELSEWHERE = """## Rules that one might look for elsewhere

| Rule | Where it is |
|---|---|
| virtual numbers of ports, and physical ones | `crossbar/specs/Numbers.antt`, `crossbar/src/numbering.rt` |
| the messages that boot, poke or peek, what a node does with them, and its reset | `bootstrap/specs/Messages.antt`, `bootstrap/specs/Step.antt`, `bootstrap/src/node.rt` |
| who may ask what of a domain, and in which order an event is refused | `domain_core/specs/PrivateFarm.antt`, `domain_core/src/domain.rt` |
| where a packet goes (Move) | `domain_core/specs/Moves.antt`, `domain_core/src/moves.rt` |
| when a ticket is stale, and what its Steps do | `domain_core/specs/Ticket.antt`, `domain_core/src/ticket.rt` |
| what a run of a whole farm is answered | `farm_core/specs/Run.antt` |
| what a session asks, and the list of its user's answered commands | `farm_service/specs/Passes.antt`, `farm_service/src/session.rt` |
| turns of workers, and settling | `farm_service/specs/Turns.antt`, `farm_service/src/turns.rt` |
| what closing a service compares | `farm_service/specs/Closed.antt`, `farm_service/src/service.rt` |
| when a domain begins again (`restart`) | `farm_service/specs/Restarts.antt`, `farm_service/src/restarting.rt` |
| the pace of endless programs | `turn_schedule/src/allowance.rt`, `farm_service/src/pacing.rt` |
| the one word for a wrong line (`user`, `verb`, `args`, `hex`) | `script_lines/specs/Faults.antt`, `script_lines/src/fault.rt` |
| how many prefixes an instruction takes | `t414_assembly/specs/Usual.antt`, `t414_assembly/src/shortest.rt` |
| that the code of occam does what the program says | `occam_code/specs/Behaves.antt`, `occam_code/specs/Evaluates.antt` |
| which instructions belong to which line of a program | `occam_units/src/spans.rt`, `node_trace/src/marked.rt` |
| how a record is done again when a farm goes on | `farm_records/specs/Taking.antt`, `farm_records/src/redoing.rt`, `record_files/src/redoing.rt` |
| that a record has all commands that were answered | `record_keeping/specs/Counts.antt`, `live_farm/src/asked.rt` |
| how many lines wait for a domain, and that one more is `busy` | `live_farm/specs/Mailboxes.antt`, `live_farm/src/mailbox.rt` |
| what the operator is answered, and with which status a farm ends | `live_farm/src/operator.rt`, `live_farm/src/failure.rt` |
| the words and the grammar of occam, its names and types: Python | `nadzsumek/occam/` |
| which word of a refused text is wrong, and what helps: Python | `nadzsumek/mistakes/` |
| a user's verbs, with their words and an example: Python | `nadzsumek/mistakes/verbs.py` |
| sockets, terminals, classes and the verbs of scripts: Python | `nadzsumek/serving/`, `nadzsumek/verbs.py` |
"""


@dataclass(frozen=True)
class Crate:
    """A crate: its name, the crates on which it depends, its first sentence, and how many functions it has and how many with clauses."""

    name: str
    below: list[str]
    sentence: str
    functions: int
    with_clauses: int


@dataclass(frozen=True)
class Part:
    """A part of crates.txt with its crates, and the other parts on which they depend."""

    name: str
    crates: list[Crate] = field(default_factory=list[Crate])
    below: list[str] = field(default_factory=list[str])

    @property
    def counts(self) -> tuple[int, int]:
        """How many of its functions have clauses, and how many there are."""
        return sum(it.with_clauses for it in self.crates), sum(it.functions for it in self.crates)


def first_sentence(text: str) -> str:
    """The first sentence of what a file says at its head; a list after a colon isn't a part of it."""
    lines = []
    for line in text.splitlines():
        words = line.removeprefix("//!").strip()
        if not line.startswith("//!") or not words:
            break
        lines.append(words)
    return re.split(r"(?<=[.])\s+(?=[A-Z])|[:,;]? where \w+ is one of$", " ".join(lines))[0].rstrip(".") + "."


def counts_of(folder: Path) -> tuple[int, int]:
    """How many functions the sources of a crate have, and how many of these have a clause that says what comes of them."""
    functions = with_clauses = 0
    for path in sorted(folder.glob("src/**/*.rt")):
        pieces = re.split(
            r"^\s*(?:pub(?:\([a-z]+\))? )?(?:const )?fn \w", path.read_text(encoding="utf-8"), flags=re.M
        )[1:]
        functions += len(pieces)
        with_clauses += sum(bool(re.search(r"^\s*ensures\b", it, re.M)) for it in pieces)
    return functions, with_clauses


def crate_of(line: str, top: Path) -> Crate:
    """The crate of a line of crates.txt."""
    words, _, below = line.partition("#")[0].partition(":")
    name = words.split()[0]
    folder = top / "crates" / name
    head = next(it for it in (folder / "src/lib.rt", folder / "src/main.rt") if it.is_file())
    sentence = first_sentence(head.read_text(encoding="utf-8"))
    return Crate(name, below.split(), sentence, *counts_of(folder))


def parts_of(top: Path) -> list[Part]:
    """The parts of crates.txt with their crates, in its order."""
    parts, part_of = list[Part](), dict[str, str]()
    for line in (top / "crates.txt").read_text(encoding="utf-8").splitlines():
        if heading := re.fullmatch(r"# (\w+)", line):
            parts.append(Part(heading[1]))
        elif line and not line.startswith("#"):
            crate = crate_of(line, top)
            part_of[crate.name] = parts[-1].name
            parts[-1].crates.append(crate)
    for part in parts:
        below = {part_of[it] for crate in part.crates for it in crate.below if it in part_of} - {part.name}
        part.below.extend(it.name for it in parts if it.name in below)
    return parts


def table_of(part: Part) -> list[str]:
    """The section of a part: on which parts it depends, and its crates."""
    below = ", ".join(part.below)
    rows = [f"| `{it.name}` | {it.sentence} | {it.with_clauses} of {it.functions} |" for it in part.crates]
    return [
        f"## {part.name}",
        "",
        f"Depends on {below}." if below else "Depends on no other part.",
        "",
        "| Crate | What it is | Functions with clauses |",
        "|---|---|---|",
        *rows,
        "",
    ]


def border_of(parts: list[Part]) -> list[str]:
    """Which parts are proved with clauses, which hardly have any, and which crates of the first are none of them."""
    rows, others = [], []
    for is_above, text in ((True, "proved with clauses"), (False, "few clauses: safe, and tested")):
        for part in parts:
            had, of = part.counts
            if (100 * had >= BORDER * of) == is_above:
                rows.append(f"| [{part.name}](#{part.name}) | {text} | {had} of {of} | {100 * had // of} |")
                few = [f"`{it.name}`" for it in part.crates if 100 * it.with_clauses < BORDER * it.functions]
                others += few if is_above else []
    told = f"Crates of the first parts that have few clauses themselves: {', '.join(others)}."
    return [BORDER_HEAD, "| Part | | Functions with clauses | Percent |", "|---|---|---|---|", *rows, "", told, ""]


def written(top: Path) -> str:
    """The page as it should be."""
    parts = parts_of(top)
    tables = [line for part in parts for line in table_of(part)]
    return "\n".join([HEAD, *border_of(parts), *tables, ELSEWHERE])


if __name__ == "__main__":
    PAGE.write_text(written(ROOT), encoding="utf-8")
