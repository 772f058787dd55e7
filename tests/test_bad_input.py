"""Texts that nobody should send: the examples with bytes and lines changed, plans and lines that are deep, long or no text, random
scripts over good plans, and wild programs beside a neighbour.

Each text is run by a random number of workers with a random quantum. The program must end within 20 seconds by a status
that docs/PROGRAM.md lists, without running out of memory, with just its form on standard error, and with nothing on standard output
for statuses 2 to 5. A text that ends with status 0 is run twice again, by other numbers of workers and other quanta. Answers to
wild code may depend on time, as may bytes that wait while outputs change. A user of whom nothing depends on time is answered the
same, and so is the neighbour, whose answers are also those of a run without the wild lines, and of a plan that holds them alone at
other ports."""

import random
import re

import pytest
from support.trials import PLAIN_NAMES, TOP, Ran, example, program, put, run

KEPT = f"{TOP}/out"
MOST_SECONDS = 20
# In how many parts the texts are tried.
PARTS = 8
FORMS = {0: rb"", 3: rb"plan: ([1-9]|1[0-4]|16|17)\n", 4: rb"line [1-9]\d*: (user|verb|args|hex)\n", 6: rb"io\n"}
NUMBERS = [
    "-1",
    "0",
    "256",
    "4294967296",
    "-9223372036854775808",
    "9223372036854775807",
    "9" * 40,
    "0x7f",
    "1e9",
    "1.5",
    "007",
]
PIECES = [
    b"\x00",
    b"\x1b[2J",
    b"\xff\xfe",
    b"\xc3",
    b"\xed\xa0\x80",
    b"\r",
    b"\r\n",
    b"\xef\xbb\xbf",
    b"\t",
    b" ",
    b"---\n",
    b"\n---",
    b"#",
    b'"',
    b"'''",
    b"[[domain]]\n",
    b"ann ",
    b"\xf4\x90\x80\x80",
]
# Code that sends back each byte, from examples/faulty-neighbour.farm, and what the neighbour does.
ECHO = "b41124f25441f724f211f1fe6003"
NEIGHBOUR = [
    "config 01000703",
    "boot 0 " + ECHO,
    "write 0 010203",
    "collect 0",
    "look 0",
    "config 02000207",
    "config 0904",
    "config 01000703",
    "write 0 fffe",
    "collect 0",
    "peek 0 80000048",
    "reset 0",
    "peek 0 80000048",
    "look 0",
    "look 1",
]
# The code of the examples.
CODES = {it.lower() for name in PLAIN_NAMES for it in re.findall(rb"boot \d+ (\S+)", example(name).text)}
# Starts of code: registers of the queue, words of channels, moves of 4 GB, workspaces, high priority, loops, codes of no operation.
WILD = [
    "24f2",
    "4121fc",
    "4121f8",
    "24f224f2604f24fa",
    "24f2604f24f224fa",
    "24f25841fe",
    "4023f9",
    "6000",
    "600f",
    "24f2b0",
    "604f23fc",
    "24f25c",
    "24f224f221f2",
    "4024f2f7",
    "604f24f2fb",
    "24f3",
    "24f4",
    "24f8",
    "21fd",
    "f3",
    "25f8",
    "21f1",
    "4fb8",
    "6bb8",
]


def asked(text: bytes, workers: int, quantum: int) -> Ran:
    """What the program answers to a text, by so many workers with this quantum."""
    return run([program("farm"), "--workers", str(workers), "--quantum", str(quantum)], text, seconds=MOST_SECONDS)


def digits(chance: random.Random, most: int) -> str:
    return chance.randbytes(chance.randint(1, most)).hex()


def changed(chance: random.Random, texts: list[bytes]) -> bytes:
    """An example after some changes."""
    text = chance.choice(texts)
    for _ in range(chance.randint(1, 6)):
        at, lines = chance.randrange(len(text) + 1), text.split(b"\n")
        kind = chance.randrange(9)
        if kind == 0:
            text = text[:at] + chance.randbytes(1) + text[at + 1 :]
        elif kind == 1:
            text = text[:at] + text[at + chance.choice([1, 1, 2, 9, 99]) :]
        elif kind == 2:
            text = text[:at] + text[at : at + chance.randint(1, 400)] + text[at:]
        elif kind == 3:
            here, there = chance.randrange(len(lines)), chance.randrange(len(lines))
            lines[here], lines[there] = lines[there], lines[here]
            text = b"\n".join(lines)
        elif kind == 4:
            here, there = chance.choice([it.span() for it in re.finditer(rb"-?\d+", text)] or [(0, 0)])
            text = text[:here] + chance.choice(NUMBERS).encode() + text[there:]
        elif kind == 5:
            text = text[:at] + chance.choice(PIECES) + text[at:]
        elif kind == 6:
            text = text[:at] + chance.choice(texts)[at:]
        elif kind == 7:
            text = (
                text[:at]
                + chance.choice([b"a", b"0", b" ", b"\xff", b"#"]) * chance.choice([300, 5000, 100000])
                + text[at:]
            )
        else:
            lines[chance.randrange(len(lines))] = script_line(chance, [b"ann", b"bob", b"eve"]).encode()
            text = b"\n".join(lines)
    return text


def deep(chance: random.Random) -> bytes:
    """TOML of many levels, or bytes that are no text."""
    level = chance.choice([1, 40, 79, 80, 81, 200, 5000, 100000])
    opening, closing = chance.choice(
        [("[", "]"), ("{a=", "}"), ("[{a=", "}]"), ("a.", ""), ("[[a]]\n", ""), ("(", ")"), ('"', '"')]
    )
    text = (
        chance.choice(["a=", "version=1\na=", "domain=", "[", ""]) + opening * level + chance.choice(["", "1", "a=1"])
    )
    bare = text.encode() + (closing * level).encode() * chance.randint(0, 1)
    return chance.choice([bare, bare + b"\n---\nann look 0\n", chance.randbytes(chance.randint(0, 3000))])


def script_line(chance: random.Random, names: list[bytes]) -> str:
    """A line of a user, most often a right one, with code and bytes that are wild."""
    name = chance.choice(names).decode()
    place = chance.choice([0, 0, 0, 0, 0, 1, 1, 2, 3, 255])
    code = "".join(chance.choice([chance.choice(WILD), digits(chance, 4)]) for _ in range(chance.randint(1, 12)))
    address = f"{0x80000000 + chance.choice([0, 4, 0x10, 0x20, 0x48, 0x50, 0x60, 0xFFC, 0x1000, 0x7FFFFFFF]):08x}"
    config = "".join(
        chance.choice(["0100", "0007", "03", "04", "0503", "02", "06", "00", "01", "05", "ff", "07"]) for _ in range(6)
    )
    verb = chance.choice(
        [
            "config " + config,
            f"boot {place} {code}",
            f"boot {place} {code}",
            f"poke {place} {address} {chance.randbytes(4).hex()}",
            f"peek {place} {address}",
            f"write {place} {digits(chance, 40)}",
            f"collect {place}",
            f"reset {place}",
            f"look {place}",
            f"write {place} {'00' * 4200}",
            f"write {place} 0{chance.randint(0, 9)}",
            f"boot {place} {ECHO}",
            "config 01000703",
        ]
    )
    if chance.random() < 0.01:
        verb += chance.choice([" ", " 0", "g", "\r", "\t", "\r\r"])
    return f"{name} {verb}"


def domain_text(
    name: str, first: int, last: int, limit: int, hosts: list[int], nodes: list[tuple[int, list[int]]]
) -> str:
    rows = "".join(f"[[domain.node]]\nmemory = {memory}\nlinks = {links}\n" for memory, links in nodes)
    return f'[[domain]]\nname = "{name}"\nrange = [[{first}, {last}]]\nlimit = {limit}\nhost = {hosts}\n{rows}'


def wild(chance: random.Random) -> tuple[str, list[str]]:
    """A wild domain and its neighbour: the text, and the neighbour's alone in the same plan and at other ports."""
    count = chance.randint(8, 20)
    ports = chance.sample(range(1, count), count - 1)
    hosts = sorted([7] + [it for it in ports[:3] if it != 7][: chance.randint(0, 3)])
    free = [0] + [it for it in ports if it not in hosts]
    nodes: list[tuple[int, list[int]]] = []
    for _ in range(chance.randint(1, 4)):
        given = [free.pop(0) for _ in range(min(len(free), chance.randint(1, 4)))]
        if given:
            nodes.append((chance.choice([2048, 4096, 65536]), (given + [-1] * 4)[:4]))
    ann = domain_text("ann", 0, count - 1, chance.choice([9, 1000, 30000]), hosts, nodes)
    bob = domain_text("bob", count, count + 7, 100000, [7], [(4096, [0, -1, -1, -1])])
    pair = f"version = 2\n{ann}{bob}" if chance.random() < 0.5 else f"version = 2\n{bob}{ann}"
    fan = "".join(f"0000{it:02x}" for it in range(count))
    joins = "".join(f"01{chance.randrange(count):02x}{chance.randrange(count):02x}" for _ in range(8))
    routes = ["01000703", fan + "03", "0007070100000303", joins + "03", "0100070107070301000003"]
    lines: list[str] = []
    for _ in range(chance.randint(1, 4)):
        code = "".join(chance.choice([chance.choice(WILD), digits(chance, 4)]) for _ in range(chance.randint(1, 12)))
        lines += ["ann config 01000703", f"ann boot {hosts.index(7)} {code}", "ann look 0"]
        lines += [script_line(chance, [b"ann"]) for _ in range(chance.randint(0, 3))]
        more: list[list[str]] = [
            [],
            ["ann config " + chance.choice(routes)],
            ["ann reset 0"],
            ["ann write 0 02", "ann write 1 04"],
        ]
        lines += chance.choice(more)
    own = [f"bob {it}" for it in NEIGHBOUR]
    merged: list[str] = []
    rest = list(own)
    while lines or rest:
        merged.append((lines if lines and (not rest or chance.random() < 0.5) else rest).pop(0))
    alone = domain_text("bob", 24, 31, 100000, [7], [(4096, [0, -1, -1, -1])])
    bobs = "".join(f"{it}\n" for it in own)
    return f"{pair}---\n{chr(10).join(merged)}\n", [f"{pair}---\n{bobs}", f"version = 2\n{alone}---\n{bobs}"]


def wrong_of(got: Ran) -> str | None:
    """What is wrong with an end of the program, or none."""
    status, output, errors = got
    if status not in FORMS or status == 6:
        return f"status {status}, {errors[:80]!r}"
    if not re.fullmatch(FORMS[status], errors) or (status and output):
        return f"status {status} with {errors[:80]!r} and {len(output)} bytes of output"
    return None


def lines_of(output: bytes, name: bytes) -> list[bytes]:
    return [it for it in output.split(b"\n") if it.startswith(name + b" ")]


def fans_out(told: bytes) -> bool:
    """Whether configuration bytes let one input drive two outputs at any time, so that the first acknowledge frees the sender."""
    drives: dict[int, int] = {}
    stream = list(told)
    while stream:
        command = stream.pop(0)
        ports = [stream.pop(0) for _ in range({0: 2, 1: 2, 2: 1, 5: 1, 6: 2}.get(command, 0)) if stream]
        if command in (0, 1) and len(ports) == 2:
            drives[ports[1]] = ports[0]
            if command == 1:
                drives[ports[0]] = ports[1]
        elif command in (4, 5, 6):
            drives = {} if command == 4 else {output: it for output, it in drives.items() if output not in ports}
        if len(set(drives.values())) < len(drives):
            return True
    return False


def may_depend(text: bytes, got: Ran, others: list[Ran], user: bytes) -> bool:
    """Whether a user's answers may depend on time: they aren't alone in their domain, boot code that isn't an example's, fill a
    host, change outputs after bytes were sent, have a port that drives several outputs or a node that runs on, or come to
    their limit."""
    plan, script = re.split(rb"(?m)^---\r?\n", text, maxsplit=1)
    told = b"\n".join(line for it in [got, *others] for line in lines_of(it[1], user))
    if re.search(rb"user\W", plan) or b"journalfull" in told or b" running " in told:
        return True
    lines = [it.split(b" ") for it in lines_of(script, user)]
    if fans_out(bytes.fromhex("".join(rest[0].decode().strip() for _, verb, *rest in lines if verb == b"config"))):
        return True
    is_sent = False
    for _, verb, *rest in lines:
        if (
            len(b"".join(rest)) > 8000
            or (verb == b"config" and is_sent)
            or (verb == b"boot" and rest[1].lower().strip() not in CODES)
        ):
            return True
        is_sent = is_sent or verb in (b"write", b"boot", b"poke", b"peek")
    return False


def text_of(chance: random.Random, texts: list[bytes]) -> tuple[str, bytes, list[bytes]]:
    """The kind of a text, the text, and of wild programs those with the neighbour alone."""
    kind = chance.choices(["changed", "deep", "random", "wild"], [6, 1, 3, 3])[0]
    if kind == "changed":
        return kind, changed(chance, texts), []
    if kind == "deep":
        return kind, deep(chance), []
    if kind == "random":
        plan = chance.choice(texts).split(b"---\n")[0]
        names = re.findall(rb'name = "(.*)"', plan)
        lines = "".join(script_line(chance, names) + "\n" for _ in range(chance.randint(1, 20)))
        return kind, plan.replace(b"1000000", b"30000") + b"---\n" + lines.encode(), []
    text, alone = wild(chance)
    return kind, text.encode(), [it.encode() for it in alone]


def fault_of(chance: random.Random, kind: str, text: bytes, alone: list[bytes]) -> str | None:
    """What is wrong with the answers to a text, or none."""
    ways = [(chance.randint(1, 8), chance.choice([1, 7, 256, 4096, chance.randint(1, 4096)])) for _ in range(3)]
    got = asked(text, *ways[0])
    wrong = wrong_of(got)
    if wrong or got.status:
        return wrong
    others = [asked(text, *it) for it in ways[1:]]
    faults = [it for it in map(wrong_of, others) if it]
    if not faults and any(it != got for it in others):
        users = {it.split(b" ")[0] for other in others for it in other.output.split(b"\n") + got.output.split(b"\n")}
        unlike = [it for it in users if any(lines_of(other.output, it) != lines_of(got.output, it) for other in others)]
        faults = [f"{it!r} is answered otherwise by others" for it in unlike if not may_depend(text, got, others, it)]
    for other in others + [asked(it, *ways[1]) for it in alone]:
        if kind == "wild" and lines_of(other.output, b"bob") != lines_of(got.output, b"bob"):
            faults.append(f"the neighbour is answered otherwise: {other.status}, {other.errors[:80]!r}")
    return faults[0] if faults else None


@pytest.mark.long
@pytest.mark.parametrize("part", range(PARTS))
def test_bad_input(part: int, count: int | None, seed: int) -> None:
    """Text K of a seed is the same whatever the count is. A text that is answered wrongly is kept."""
    texts = [example(it).text for it in PLAIN_NAMES]
    for number in range(part, count or 2000, PARTS):
        chance = random.Random(f"{seed} {number}")
        kind, text, alone = text_of(chance, texts)
        fault = fault_of(chance, kind, text, alone)
        assert fault is None, f"{kind}: {fault}: {put(f'{KEPT}/{seed}-{number}', text)}"
