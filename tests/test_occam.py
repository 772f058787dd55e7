"""Random occam programs on the farm, beside the interpreter of tests/occam, which shares nothing with the compiler (`meaning.py`;
`programs.py` writes the programs, `mistakes.py` those that must be refused). Every other program has processes that run at the same
time; those of `worked.py` have answers that were worked by hand.

Each program is compiled by `lab occam`, and `lab assemble` must make the same code of its text. Its core, as `lab occam --core`
prints it, is compiled again and must have the same code, and so must those of examples/occam; no warning may say that a variable is
used before anything was put into it, since each has a value here. It is run on a node whose memory is new, and on one whose memory
is full of what other programs left; what comes to the hosts, how the node ends, and what some variables are then must be as the
interpreter says. The runs are by `farm`, with 1, 2 and 8 workers and quanta of 1, 256 and 4,096 in turn, and some by `lab run`. Of
the mistakes the fault's number, its line and, where it is fixed, its column must be as expected. Files stay in the test's folder."""

import glob
import os
import random
import re
import shutil
from collections.abc import Iterator
from concurrent.futures import ThreadPoolExecutor
from dataclasses import dataclass, field
from pathlib import Path
from typing import NamedTuple

import pytest
from occam.judging import changed_rules, spoilt_texts
from occam.meaning import read
from occam.pieces import FEATURES
from occam.programs import COUNTS, Made, make
from occam.running import Talk
from occam.worked import WORKED, differing
from occam.mistakes import Mistake, mistakes
from support.trials import Ran, TOP, WORKERS, contents, put, run

QUANTA = (1, 256, 4096)
WAYS = [(workers, quantum) for workers in WORKERS for quantum in QUANTA]
# A domain has at most 32 ports with all others, and each program a host at each of its links.
PORTS, MOST_DOMAINS, MEMORY, LIMIT = 32, 16, 65_536, 1 << 40
# What a quantum of 1 does in the settling after one line, with a margin: instruction bytes, and as many for each byte that is moved.
MOST_SINGLE, EACH_BYTE = 9_000, 20
LONGEST_BOOT = 255
# How many variables are looked at behind each run.
MOST_PEEKS = 4
ENDS = {"ended": "idle", "waits": "idle", "halted": "halted 3"}
# Each how many batches `lab run` does one.
EACH_LAB = 10
# The share of programs that may depend on the order in which processes take turns.
MOST_DEPEND = 0.05
NAME = "user"
# ldc #A5A5A5A5 / stl 1 / ldlp 1 / ldlp 2 / ldc 4000 / move / stopp: fills memory, so that nothing is 0 by chance.
FILLING = "252a252a252a6545d111122f2a4024fa21f5"
# How many programs whose code is changed are run together.
SPOILT_AT_ONCE = 160


@dataclass
class Compiled:
    """A program, its file, its text for the assembler, and the lines that load it, behind the user's name."""

    made: Made
    path: str
    text: bytes
    load: list[str] = field(default_factory=list)

    @property
    def moved(self) -> int:
        """By how many words the program's first instruction moves the workspace: up by three, or down below the words of its tables."""
        found = re.search(rb"(?m)^[^-\n]*\bajw (-?\d+)", self.text)
        assert found, self.path
        return int(found[1])

    def address(self, word: int) -> int:
        """Where a word of the variables is. Those of the tables, which are behind the code, come before it."""
        boot = self.load[0].split()
        end = 0x80000048 + len(boot[2]) // 2 if boot[0] == "boot" else 0x80000050 + 4 * (len(self.load) - 1)
        tables = max(0, -1 - self.moved)
        return (end + 3) // 4 * 4 + 4 * (self.moved + 1 + tables + word)

    @property
    def peeks(self) -> list[int]:
        """Some words that are known at the end."""
        known = sorted(self.made.known)
        return sorted(random.Random(self.made.seed).sample(known, min(MOST_PEEKS, len(known))))

    @property
    def is_small(self) -> bool:
        """Whether it ends in time at a quantum of 1."""
        moved = sum(map(len, self.made.coming.values())) + sum(map(len, self.made.talk.said.values()))
        return self.made.talk.cost + EACH_BYTE * moved <= MOST_SINGLE


class Asked(NamedTuple):
    """A line of a run, and its answer, or none if it is collected."""

    line: str
    wanted: str | None


class Turn(NamedTuple):
    """What a domain runs at one time, with its lines: a program, or what fills memory."""

    program: Compiled | None
    asked: list[Asked]


class Wrong(NamedTuple):
    """How a program differs, or a batch if there is none."""

    program: Compiled | None
    how: str


class Batch(NamedTuple):
    """Programs that are run together, how many links they have, and whether all are small."""

    programs: list[Compiled]
    links: int
    is_small: bool


class Unlike(Exception):
    """What differs from what is expected."""


# ---- compiling


def told(ran: Ran) -> str:
    return f"status {ran.status}, {ran.output[:200]!r}, {ran.errors.decode(errors='replace')!r}"


def loading(call: list[str], *more: str, given: bytes = b"") -> tuple[list[str], Ran]:
    """The lines that load code: `boot`, or pokes if it is too long for one. The call makes code with more words, and pokes with others."""
    code = run([*call, *more], given)
    if code.status == 0:
        return ["boot 0 " + code.output.decode().strip()], code
    pokes = run([*call, "--pokes", "0", NAME], given)
    if pokes.status != 0:
        raise Unlike(f"neither code nor pokes: {told(code)}; {told(pokes)}")
    lines = [it.removeprefix(NAME + " ") for it in pokes.output.decode().splitlines()]
    if 4 * (len(lines) - 1) <= LONGEST_BOOT - 3:
        raise Unlike(f"is poked, though it is short: {told(code)}")
    return lines, code


def compiled(lab: str, made: Made, path: str) -> Compiled:
    """A program as it is compiled, by both ways."""
    put(path, made.text)
    text = run([lab, "occam", path])
    if text.status != 0:
        raise Unlike(f"isn't compiled: {told(text)}")
    ours, code = loading([lab, "occam", path], "--code")
    other, again = loading([lab, "assemble"], given=text.output)
    if ours != other or code[:2] != again[:2]:
        raise Unlike(
            f"the assembler makes other code of its text: {ours[:3]} and {other[:3]}; {told(code)} and {told(again)}"
        )
    if b": warning 42: " in text.errors:
        raise Unlike(f"a variable is said to be new, and isn't: {told(text)}")
    if b": warning 52: " in text.errors:
        raise Unlike(f"a process is said to wait for itself, and doesn't: {told(text)}")
    core_again(lab, path, ours)
    return Compiled(made, path, text.output, ours)


def core_again(lab: str, path: str, wanted: list[str]) -> None:
    """Compiles the core of a program, which must be loaded by these lines."""
    core = run([lab, "occam", path, "--core"])
    if core.status != 0:
        raise Unlike(f"has no core: {told(core)}")
    place = put(f"{path}.core.occ", core.output)
    ours, _ = loading([lab, "occam", place], "--code")
    if ours != wanted:
        raise Unlike(f"its core has other code: {place}: {ours[:3]} and {wanted[:3]}")
    if b"PROC " in core.output or b" IS " in core.output and b"VAL " not in core.output:
        raise Unlike(f"its core has procedures or other names: {place}")
    os.remove(place)


# ---- runs


def plan_of(count: int, links: int) -> str:
    """The plan of so many domains, each with one node whose first links are joined with hosts."""
    lines, size = ["version = 1"], 2 * links
    for it in range(count):
        joined = [*range(links), *[-1] * (4 - links)]
        lines += [
            "[[domain]]",
            f'name = "d{it}"',
            f"first = {it * size}",
            f"last = {it * size + size - 1}",
            f"limit = {LIMIT}",
            f"host = {[*range(links, size)]}",
            "[[domain.node]]",
            f"memory = {MEMORY}",
            f"links = {joined}",
        ]
    return "\n".join(lines) + "\n---\n"


def one_run(program: Compiled, links: int) -> Turn:
    """The lines of one run, without the user's name."""
    talk, asked = program.made.talk, []
    for line in program.load:
        words = line.split()
        asked.append(Asked(line, f"{words[0]} 0 {len(words[2]) // 2 + 1 if words[0] == 'boot' else 9}"))
    for link, data in sorted(program.made.coming.items()):
        asked.append(Asked(f"write {link} {data.hex()}", f"write {link} {len(data)}"))
    asked += [Asked(f"collect {link}", None) for _ in range(2) for link in range(links)]
    asked += [Asked("look 0", f"look 0 {ENDS[talk.end]} overruns 0 0 0 0"), Asked("reset 0", "reset 0 ok")]
    for word in program.peeks:
        line = f"peek 0 {program.address(word):08x}"
        asked.append(Asked(line, f"{line[:6]} {program.made.known[word] & 0xFFFFFFFF:08x}"))
    return Turn(program, asked)


def differs(turn: Turn, answers: list[str], links: int) -> str | None:
    """How the answers to one run differ, or none."""
    said = {link: "" for link in range(links)}
    for (line, wanted), answer in zip(turn.asked, answers):
        if wanted is None:
            _, number, digits = answer.split(" ", 2)
            said[int(number)] += digits.removeprefix("-")
        elif answer != wanted:
            return (
                f"{line[:40]}: {answer!r}, expected {wanted!r}; sent { {link: it for link, it in said.items() if it} }"
            )
    if turn.program:
        talk = turn.program.made.talk
        for link, digits in said.items():
            sent = talk.said.get(link, b"").hex()
            # of a node that halts with other processes a beginning has come
            if digits != sent and not (talk.is_loose and sent.startswith(digits)):
                return f"link {link}: {digits or '-'}, expected {sent or '-'}"
    return None


# The lines by which memory is filled.
FILLS = Turn(
    None,
    [
        Asked(f"boot 0 {FILLING}", f"boot 0 {len(FILLING) // 2 + 1}"),
        Asked("look 0", "look 0 idle overruns 0 0 0 0"),
        Asked("reset 0", "reset 0 ok"),
    ],
)


def script_of(batch: Batch, is_helped: bool) -> tuple[str, list[list[Turn]]]:
    """The script of a batch, whose loads are spelled out or not, and what each domain runs: its own program, and then the next one's, on
    memory that isn't new."""
    programs, links, _ = batch
    config = "config " + "".join(f"01{link:02x}{links + link:02x}" for link in range(links)) + "03"
    lines, domains = [], []
    for at, program in enumerate(programs):
        lines.append(f"d{at} {config}")
        turns = [one_run(program, links), FILLS, one_run(programs[(at + 1) % len(programs)], links)]
        for its, asked in turns:
            count = 0
            if is_helped and its:
                count = len(its.load)
                lines.append(f"d{at} load 0 {os.path.basename(its.path)}")
            lines += [f"d{at} {line}" for line, _ in asked[count:]]
        domains.append(turns)
    return "\n".join(lines) + "\n", domains


def judged(domains: list[list[Turn]], links: int, ran: Ran) -> list[Wrong]:
    """Each program whose answers differ, with how, from what a batch prints; none instead of a program if the batch failed."""
    if ran.status != 0 or ran.errors:
        seeds = sorted({it.program.made.seed for turns in domains for it in turns if it.program})
        return [Wrong(None, f"status {ran.status}, {ran.errors.decode(errors='replace')!r}, seeds {seeds}")]
    lines, at = ran.output.decode().splitlines(), 0
    wrong: list[Wrong] = []
    for number, turns in enumerate(domains):
        at += 1
        # what prevents that memory is filled was left by the first program
        for turn, before in zip(turns, ("", "memory can't be filled then: ", "on memory that others left: ")):
            answers = [it.removeprefix(f"d{number} ") for it in lines[at : at + len(turn.asked)]]
            at += len(turn.asked)
            if len(answers) < len(turn.asked):
                return [*wrong, Wrong(turn.program, "answers are missing")]
            how = differs(turn, answers, links)
            if how:
                wrong.append(Wrong(turn.program or turns[0].program, before + how))
    return wrong


def by_farm(farm: str, workers: int, quantum: int, batch: Batch) -> list[Wrong]:
    """What differs of a batch in `farm`."""
    script, domains = script_of(batch, False)
    text = (plan_of(len(batch.programs), batch.links) + script).encode()
    ran = run([farm, "--workers", str(workers), "--quantum", str(quantum)], text, seconds=600)
    before = f"{workers} workers, quantum {quantum}: "
    return [it._replace(how=before + it.how) for it in judged(domains, batch.links, ran)]


def by_lab(lab: str, folder: str, batch: Batch) -> list[Wrong]:
    """What differs of a batch in `lab run`, and whether `lab expand` spells the loads out otherwise."""
    helped, domains = script_of(batch, True)
    plain, _ = script_of(batch, False)
    text = (plan_of(len(batch.programs), batch.links) + helped).encode()
    wrong = judged(domains, batch.links, run([lab, "run"], text, seconds=600, folder=folder))
    expanded = run([lab, "expand"], text, folder=folder)
    spelled = expanded.output.decode().split("---\n", 1)[-1].splitlines()
    if expanded.status != 0 or [it for it in spelled if it and not it.startswith("#")] != plain.splitlines():
        wrong.append(Wrong(batch.programs[0], f"lab expand spells out other lines: {told(expanded)}"))
    return [it._replace(how="lab run: " + it.how) for it in wrong]


def batches_of(programs: list[Compiled]) -> Iterator[Batch]:
    """The programs in batches."""
    for is_small in (True, False):
        for links in (1, 2, 4):
            chosen = [it for it in programs if it.made.links == links and it.is_small == is_small]
            size = min(MOST_DOMAINS, PORTS // (2 * links))
            for at in range(0, len(chosen), size):
                yield Batch(chosen[at : at + size], links, is_small)


def all_runs(farm: str, lab: str, folder: str, programs: list[Compiled]) -> list[Wrong]:
    """What differs of all programs."""
    wrong: list[Wrong] = []
    turn = {True: 0, False: 0}
    large = [it for it in WAYS if it[1] > 1]
    for batch in batches_of(programs):
        ways = WAYS if batch.is_small else large
        at = turn[batch.is_small]
        turn[batch.is_small] += 1
        wrong += by_lab(lab, folder, batch) if at % EACH_LAB == 1 else by_farm(farm, *ways[at % len(ways)], batch)
    return wrong


# ---- mistakes

FAULT = re.compile(r"(?m)^\S+:(\d+):(\d+): fault (\d+): ")


def wrong_mistake(lab: str, status: int | None, path: str, mistake: Mistake) -> str | None:
    """How a text with a planted mistake is answered otherwise than expected, or none."""
    put(path, mistake.text)
    answer = run([lab, "occam", path])
    found = FAULT.findall(answer.errors.decode(errors="replace"))
    expected = (
        f"line {mistake.line or 'any'}, column {mistake.column or 'any'}, fault {' or '.join(map(str, mistake.faults))}"
    )
    if answer[:2] != (status, b"") or not found or mistake.is_alone and len(found) > 1:
        return f"expected {expected}: {told(answer)}"
    line, column, fault = (int(it) for it in found[0])
    if fault in mistake.faults and mistake.is_at(line, column):
        return None
    return f"expected {expected}: {told(answer)}"


# ---- all together


def worked() -> list[Made]:
    """The programs that were worked by hand, with numbers below 0 for their seeds."""
    programs = []
    for number, it in enumerate(WORKED, 1):
        said = {0: bytes.fromhex(it.said)} if it.said else {}
        talk = Talk(said, {}, it.end, read(it.text).run(it.coming).cost, [], it.is_loose)
        programs.append(Made(-number, it.text, it.coming, talk, 1, {}))
    return programs


def all_compiled(lab: str, folder: str, made: list[Made]) -> list[Compiled]:
    """All these programs, each of which must be compiled."""
    with ThreadPoolExecutor() as pool:
        return list(pool.map(lambda it: compiled(lab, it, f"{folder}/seed{it.seed}.occ"), made))


def test_the_interpreter() -> None:
    """It says of the programs that were worked by hand what they have beside them."""
    assert [f"{it.name}: {how}" for it, how in differing()] == []


@pytest.fixture
def folder(tmp_path: Path) -> str:
    """A folder that stays, so that a program can be looked at for which a test failed."""
    return str(tmp_path)


@pytest.fixture
def features(pytestconfig: pytest.Config) -> Iterator[set[str]]:
    """What the programs may have of the language."""
    kept = set(FEATURES)
    FEATURES.update(pytestconfig.getoption("--with-feature"))
    FEATURES.difference_update(pytestconfig.getoption("--without-feature"))
    yield FEATURES
    FEATURES.clear()
    FEATURES.update(kept)


@pytest.mark.parametrize("many", [64, pytest.param(2000, marks=pytest.mark.long)])
def test_programs(
    many: int, features: set[str], count: int | None, seed: int, lab: str, farm: str, folder: str
) -> None:
    by_hand = worked() if "PAR" in features else []
    made = [make(it) for it in range(seed, seed + (count or many))]
    # their answers would depend on the order in which processes take turns, so they are dropped
    assert COUNTS["depend"] <= MOST_DEPEND * COUNTS["tried"]
    wrong = all_runs(farm, lab, folder, all_compiled(lab, folder, [*by_hand, *made]))
    assert [f"seed {it.program.made.seed if it.program else '?'}: {it.how}" for it in wrong] == []


@pytest.mark.parametrize("path", sorted(glob.glob(f"{TOP}/examples/occam/*.occ")), ids=os.path.basename)
def test_cores_of_examples(path: str, lab: str, folder: str) -> None:
    place = shutil.copy(path, folder)
    ours, _ = loading([lab, "occam", place], "--code")
    core_again(lab, place, ours)


@pytest.mark.parametrize("many", [1, pytest.param(8, marks=pytest.mark.long)])
def test_mistakes(many: int, features: set[str], seed: int, lab: str, folder: str) -> None:
    """So many mistakes of each kind are planted, and each is told."""
    refused = run([lab, "assemble"], b"nothing\n").status
    planted = [it for number in range(many) for it in mistakes(seed + number)]
    paths = [f"{folder}/mistake{at}.occ" for at in range(len(planted))]
    with ThreadPoolExecutor() as pool:
        answers = list(pool.map(lambda it: wrong_mistake(lab, refused, *it), zip(paths, planted)))
    assert planted
    assert [f"{mistake.kind}, {path}: {how}" for path, mistake, how in zip(paths, planted, answers) if how] == []


@pytest.mark.long
def test_changed_rules_are_found(count: int | None, seed: int) -> None:
    """Rules of the interpreter are changed, and each change is found by a program."""
    assert [name for name, found in changed_rules(seed, count or 2000) if not found] == []


@pytest.mark.long
def test_changed_code_is_found(count: int | None, seed: int, lab: str, farm: str, folder: str) -> None:
    """The code of programs is changed, and each change is found by the interpreter."""
    whole = all_compiled(lab, folder, [make(it) for it in range(seed, seed + (count or 2000))])
    for name, texts in spoilt_texts([(it, it.text.decode()) for it in whole]):
        assert next(spoilt_runs(farm, lab, texts), None), name


def spoilt_runs(farm: str, lab: str, texts: list[tuple[Compiled, str]]) -> Iterator[str]:
    """What differs of programs whose texts were changed."""
    for begin in range(0, len(texts), SPOILT_AT_ONCE):
        spoilt = []
        for program, text in texts[begin : begin + SPOILT_AT_ONCE]:
            try:
                load, _ = loading([lab, "assemble"], given=text.encode())
            except Unlike:
                continue
            spoilt.append(Compiled(program.made, program.path, text.encode(), load))
        for batch in batches_of(spoilt):
            for it in by_farm(farm, 2, 256, batch):
                assert it.program is not None, it.how
                yield f"seed {it.program.made.seed}: {it.how[:120]}"


def test_rows(lab: str) -> None:
    """The rows of occam, with the code of each construct worked by hand, are all right."""
    folder = f"{TOP}/tests/occam_rows"
    got = run([lab, "rows", "programs.occam", "parallel.occam"], folder=folder, seconds=600)
    assert got == (0, contents(f"{folder}/stdout"), b"")
