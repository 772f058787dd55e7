"""What the judge of occam programs must find: rules of its interpreter that are changed, and code of programs that is changed. Scripts
use `changed_rules` and `spoilt_texts`."""
import re
from collections.abc import Callable, Iterator
from dataclasses import replace
from typing import TypeVar

from occam.meaning import read
from occam.pieces import MOST_COST
from occam.programs import Made, make
from occam.values import Dyadic, MOST_NEGATIVE, Monadic, Rules, checked, wrapped

# What changes a text for the assembler, and a program with such a text.
Change = Callable[[str], str]
Whole = TypeVar("Whole")


def dyadic(**changes: Dyadic) -> Rules:
    """Rules with other dyadic operators."""
    names = {
        "minus": "-",
        "plus": "+",
        "times": "*",
        "over": "/",
        "rest": "\\",
        "less": "<",
        "most": "<=",
        "more": ">",
        "least": ">=",
        "equal": "=",
        "unequal": "<>",
        "left": "<<",
        "right": ">>",
        "both": "/\\",
        "either": "\\/",
        "one": "><",
    }
    rules = Rules()
    rules.dyadic.update({names.get(name, name): it for name, it in changes.items()})
    return rules


def monadic(**changes: Monadic) -> Rules:
    rules = Rules()
    rules.monadic.update({{"negated": "-", "inverted": "~"}.get(name, name): it for name, it in changes.items()})
    return rules


OLD = Rules().dyadic
# Each change of a rule, by what it does.
CHANGES = {
    "- with its sides swapped": dyadic(minus=lambda a, b: checked(b - a)),
    "MINUS with its sides swapped": dyadic(MINUS=lambda a, b: wrapped(b - a)),
    "+ without overflow": dyadic(plus=lambda a, b: wrapped(a + b)),
    "- without overflow": dyadic(minus=lambda a, b: wrapped(a - b)),
    "* without overflow": dyadic(times=lambda a, b: wrapped(a * b)),
    "PLUS with overflow": dyadic(PLUS=lambda a, b: checked(a + b)),
    "MINUS with overflow": dyadic(MINUS=lambda a, b: checked(a - b)),
    "TIMES with overflow": dyadic(TIMES=lambda a, b: checked(a * b)),
    "/ rounded down": dyadic(over=lambda a, b: OLD["/"](a, b) if b == 0 or a % b == 0 else a // b),
    "/ by 0 is 0": dyadic(over=lambda a, b: OLD["/"](a, b) if b else 0),
    "\\ with the sign of the right side": dyadic(rest=lambda a, b: a % b if b else OLD["\\"](a, b)),
    "\\ by 0 is 0": dyadic(rest=lambda a, b: OLD["\\"](a, b) if b else 0, REM=lambda a, b: OLD["\\"](a, b) if b else 0),
    "\\ of MOSTNEG by -1 errs": dyadic(rest=lambda a, b: checked(a // b) and 0 if b == -1 else OLD["\\"](a, b)),
    "< for <=": dyadic(most=OLD["<"]),
    "> for >=": dyadic(least=OLD[">"]),
    "> with its sides swapped": dyadic(more=OLD["<"]),
    "< with its sides swapped": dyadic(less=OLD[">"]),
    "= for <>": dyadic(unequal=OLD["="]),
    ">> keeps the sign": dyadic(right=lambda a, b: a >> b if 0 <= b <= 32 else OLD[">>"](a, b)),
    "<< by 32 does nothing": dyadic(left=lambda a, b: a if b == 32 else OLD["<<"](a, b)),
    ">> by 32 does nothing": dyadic(right=lambda a, b: a if b == 32 else OLD[">>"](a, b)),
    "<< by 33 is 0": dyadic(left=lambda a, b: 0 if b == 33 else OLD["<<"](a, b)),
    ">> by a negative count is 0": dyadic(right=lambda a, b: 0 if b < 0 else OLD[">>"](a, b)),
    "\\/ for ><": dyadic(one=OLD["\\/"]),
    "/\\ for \\/": dyadic(either=OLD["/\\"]),
    "- before a number does nothing": monadic(negated=lambda a: a),
    "- before MOSTNEG doesn't err": monadic(negated=lambda a: wrapped(-a)),
    "~ negates": monadic(inverted=lambda a: wrapped(-a)),
    "MINUS with overflow before a number": monadic(MINUS=lambda a: checked(-a)),
    "BYTE takes the low byte": monadic(BYTE=lambda a: a & 255),
    "BOOL takes the low bit": monadic(BOOL=lambda a: a & 1),
    "NOT does nothing": monadic(NOT=lambda a: a),
    "AND and OR look at both sides": replace(Rules(), is_short=False),
    "an IF without a true choice does nothing": replace(Rules(), halts_without_choice=False),
    "a negative count gives no turn": replace(Rules(), halts_at_negative=False),
    "an index counts from one more": replace(Rules(), first_turn=1),
    "a WHILE tests behind its first turn": replace(Rules(), tests_first=False),
    "words begin with their highest byte": replace(Rules(), order="big"),
    "bytes have seven bits": replace(Rules(), byte_mask=127),
    "a subscript may be the size": replace(Rules(), is_outside=lambda at, size: not 0 <= at <= size),
    "a subscript may be -1": replace(Rules(), is_outside=lambda at, size: not -1 <= at < size),
    "subscripts aren't checked": replace(Rules(), is_outside=lambda at, size: False),
    "the last subscript is an error": replace(Rules(), is_outside=lambda at, size: not 0 <= at < max(1, size - 1)),
    "the last element comes first": replace(Rules(), is_straight=False),
    "the last element isn't copied": replace(Rules(), copies_all=False),
    "names of a PROC are those of the instance": replace(Rules(), is_read_there=False),
    "a VAL isn't evaluated": replace(Rules(), is_evaluated=False),
    "SIZE of a table is one less": replace(Rules(), left_out=1),
    "PAR goes on when one component has ended": replace(Rules(), waits_for_all=False),
    "PAR leaves out its last component": replace(Rules(), components_left_out=1),
    "a replicated PAR counts from one more": replace(Rules(), first_component=1),
    "who sends doesn't wait": replace(Rules(), is_synchronous=False),
    "a channel is the one after it": replace(Rules(), channel_at=lambda at, size: (at + 1) % size),
    "a channel is the first of its array": replace(Rules(), channel_at=lambda at, size: 0),
    "ALT takes a closed guard": replace(Rules(), takes_closed=True),
    "ALT takes the last guard": replace(Rules(), takes_last=True),
    "an ALT without an open guard does nothing": replace(Rules(), halts_without_guard=False),
    "out.int writes no sign": replace(Rules(), digits=lambda number: str(abs(number))),
    "out.int writes an empty 0": replace(Rules(), digits=lambda number: str(number) if number else ""),
    "out.int writes MOSTNEG as 0": replace(
        Rules(), digits=lambda number: str(number) if number != MOST_NEGATIVE else "0"
    ),
}


def is_other(made: Made, rules: Rules) -> bool:
    """Whether a program means something else by other rules."""
    # a constant may not exist by other rules, which is a difference too
    try:
        talk = read(made.text, rules).run(made.coming, MOST_COST)
    except Exception:
        return True
    if made.talk.is_loose:
        # the farm may send any beginning of what is said
        differs = any(not made.talk.said.get(link, b"").startswith(it) for link, it in talk.said.items())
        return differs or talk.end != made.talk.end
    return (talk.said, talk.end) != (made.talk.said, made.talk.end)


def changed_rules(seed: int, programs: int) -> Iterator[tuple[str, int | None]]:
    """Each change of a rule, with the seed of the first program that finds it, or none."""
    made = [make(it) for it in range(seed, seed + programs)]
    for name, rules in CHANGES.items():
        found = next((it.seed for it in made if is_other(it, rules)), None)
        yield name, found


# ---- code

INSTRUCTION = re.compile(
    r"""^(?P<label>\s*(?:[A-Za-z_][\w.]*:)?\s*)
(?P<code>[a-z][a-z0-9]*(?:[ ]+(?!--)\S(?:[^-]|-(?!-))*?)?)
(?P<remark>\s*(?:--.*)?)$""",
    re.X,
)


def label_of(line: str) -> str:
    """What stands before the instruction of a line."""
    found = INSTRUCTION.match(line)
    assert found, line
    return found["label"]


def codes_of(text: str) -> Iterator[tuple[str, str]]:
    """The lines of a text for the assembler, each with its instruction, or an empty one."""
    for line in text.splitlines():
        found = INSTRUCTION.match(line) if line.strip() and not line.lstrip().startswith("--") else None
        yield line, " ".join(found["code"].split()) if found else ""


def exchanged(**others: str) -> Change:
    """Puts other instructions, which `/` divides, for some."""

    def change(text: str) -> str:
        lines = []
        for line, code in codes_of(text):
            new = others.get(code.replace(" ", "_"))
            if new is None:
                lines.append(line)
            else:
                lines += [label_of(line), *new.split("/")]
        return "\n".join(lines) + "\n"

    return change


def without(*pattern: str) -> Change:
    """Leaves out the first instructions of each place where some follow one another: those of the pattern that begin with a minus."""

    def change(text: str) -> str:
        pairs = list(codes_of(text))
        real = [at for at, (_, code) in enumerate(pairs) if code]
        left_out: set[int] = set()
        for begin in range(len(real) - len(pattern) + 1):
            places = real[begin : begin + len(pattern)]
            wanted = [it.removeprefix("-") for it in pattern]
            if all(re.fullmatch(want, pairs[at][1]) for want, at in zip(wanted, places)):
                left_out.update(at for want, at in zip(pattern, places) if want.startswith("-"))
        return "\n".join(label_of(line) if at in left_out else line for at, (line, _) in enumerate(pairs)) + "\n"

    return change


def shared_words(text: str) -> str:
    """The highest word of the workspace becomes the one below it."""
    words = [int(code.split()[1]) for _, code in codes_of(text) if re.fullmatch(r"(?:stl|ldl) \d+", code)]
    if not words or max(words) < 2:
        return text
    most = max(words)
    return exchanged(**{f"{name}_{most}": f"{name} {most - 1}" for name in ("stl", "ldl", "ldlp")})(text)


def followed(count: int, *after: str) -> Change:
    """Changes the constant before some instructions."""

    def change(text: str) -> str:
        pairs = list(codes_of(text))
        real = [at for at, (_, code) in enumerate(pairs) if code]
        lines = [line for line, _ in pairs]
        for number, at in enumerate(real):
            behind = [pairs[it][1] for it in real[number + 1 : number + 1 + len(after)]]
            found = re.fullmatch(r"ldc (\d+)", pairs[at][1])
            if (
                found
                and len(behind) == len(after)
                and all(re.fullmatch(*it) for it in zip(after, behind))
                and int(found[1]) + count > 0
            ):
                lines[at] = f"{label_of(pairs[at][0])}ldc {int(found[1]) + count}"
        return "\n".join(lines) + "\n"

    return change


def exchanged_addresses(text: str) -> str:
    """The addresses of a copy, the one for the other."""
    pairs = list(codes_of(text))
    real = [at for at, (_, code) in enumerate(pairs) if code]
    lines = [line for line, _ in pairs]
    for places in zip(real, real[1:], real[2:], real[3:]):
        codes = [pairs[at][1] for at in places]
        if re.match("ldlp", codes[0]) and re.match("ldlp", codes[1]) and codes[3] == "move":
            for at, code in zip(places, (codes[1], codes[0])):
                lines[at] = label_of(pairs[at][0]) + code
    return "\n".join(lines) + "\n"


def counted(more: int) -> Change:
    """Changes how many components a PAR waits for."""

    def change(text: str) -> str:
        pairs = list(codes_of(text))
        real = [at for at, (_, code) in enumerate(pairs) if code]
        lines = [line for line, _ in pairs]
        for places in zip(real, real[1:], real[2:], real[3:]):
            codes = [pairs[at][1] for at in places]
            found = re.fullmatch(r"ldc (\d+)", codes[2])
            if codes[0] == "ldpi" and codes[1].startswith("stl ") and found and codes[3].startswith("stl "):
                lines[places[2]] = f"{label_of(pairs[places[2]][0])}ldc {int(found[1]) + more}"
        return "\n".join(lines) + "\n"

    return change


def further_down(text: str) -> str:
    """The own words of components are one word further down than their code means."""
    pairs = list(codes_of(text))
    real = [at for at, (_, code) in enumerate(pairs) if code]
    lines = [line for line, _ in pairs]
    for at, behind in zip(real, real[1:]):
        found = re.fullmatch(r"ldlp -(\d+)", pairs[at][1])
        if found and pairs[behind][1] == "startp":
            lines[at] = f"{label_of(pairs[at][0])}ldlp -{int(found[1]) + 1}"
    return "\n".join(lines) + "\n"


def without_moves(text: str) -> str:
    """The workspace isn't moved back at the end of a PAR."""
    pairs = list(codes_of(text))
    moves = [at for at, (_, code) in enumerate(pairs) if code.startswith("ajw ")][1:]
    return "\n".join(label_of(line) if at in moves else line for at, (line, _) in enumerate(pairs)) + "\n"


def last_first(text: str) -> str:
    """The guards of an ALT are looked at from the last to the first."""
    lines: list[str] = []
    group: list[str] = []
    groups: list[list[str]] | None = None
    for line, code in codes_of(text):
        if code == "altend":
            lines += [it for one in reversed(groups or []) for it in one] + group
            group, groups = [], None
        if groups is None:
            lines.append(line)
            groups = [] if code == "altwt" else None
            continue
        group.append(line)
        if code in ("disc", "diss"):
            groups.append(group)
            group = []
    return "\n".join(lines) + "\n"


larger_sizes = followed(1, "csub0", r"ldlp \d+")
without_last_byte = followed(-1, "move")


# Each change of code, by what it does.
SPOILT = {
    "sub with its sides swapped": exchanged(sub="rev/sub"),
    "diff with its sides swapped": exchanged(diff="rev/diff"),
    "add without overflow": exchanged(add="sum"),
    "sub without overflow": exchanged(sub="diff"),
    "mul without overflow": exchanged(mul="prod"),
    "sum with overflow": exchanged(sum="add"),
    "div with its sides swapped": exchanged(div="rev/div"),
    "rem with its sides swapped": exchanged(rem="rev/rem"),
    "gt with its sides swapped": exchanged(gt="rev/gt"),
    "xor for or": exchanged(**{"or": "xor"}),
    "and for or": exchanged(**{"or": "and"}),
    "shr for shl": exchanged(shl="shr"),
    "not left out": exchanged(**{"not": "rev/rev"}),
    "a byte keeps old bytes": without("-ldc 0", r"-stl \d+", r"ldlp \d+", "mint", r"ldnlp \d", "ldc 1"),
    "the count of a shift unchecked": without("-ldc 33", "-csub0"),
    "BYTE unchecked": without("-ldc 256", "-csub0"),
    "BOOL unchecked": without("-ldc 2", "-csub0"),
    "a negative count unchecked": without("-mint", "-csub0"),
    "seterr left out": exchanged(seterr="rev/rev"),
    "errors don't halt": exchanged(sethalterr="clrhalterr"),
    "eqc 0 left out": exchanged(eqc_0="rev/rev"),
    "the highest word shared": shared_words,
    "the order of two operands kept": without("-rev"),
    "a subscript unchecked": without(r"-ldc \d+", "-csub0", r"ldlp \d+"),
    "a subscript checked against one more": larger_sizes,
    "a byte's element by words": exchanged(bsub="wsub"),
    "a word's element by bytes": exchanged(wsub="bsub"),
    "a byte loaded as a word": exchanged(lb="ldnl 0"),
    "a byte stored as a word": exchanged(sb="stnl 0"),
    "copies left out": exchanged(move="rev/rev"),
    "copies with their sides swapped": exchanged_addresses,
    "one byte less copied": without_last_byte,
    "PAR waits for one component less": counted(-1),
    "PAR waits for one component more": counted(1),
    "a component isn't started": exchanged(startp="rev/rev"),
    "the words of components are further down": further_down,
    "the workspace isn't moved back": without_moves,
    "channels have no first value": without("-mint", r"-stl \d+"),
    "a closed guard is enabled": exchanged(enbc="stl 0/ldc 1/enbc"),
    "a closed SKIP is enabled": exchanged(enbs="stl 0/ldc 1/enbs"),
    "the last guard is taken": last_first,
    "one byte less heard": followed(-1, "in"),
    "one byte less sent": followed(-1, "out"),
}


def spoilt_texts(texts: list[tuple[Whole, str]]) -> Iterator[tuple[str, list[tuple[Whole, str]]]]:
    """Each change of code, with the programs whose text it changes. Texts are pairs of a program and its text."""
    for name, change in SPOILT.items():
        pairs = [(program, change(text)) for program, text in texts]
        yield name, [
            (program, new)
            for (program, new), (_, old) in zip(pairs, texts)
            if new != old and new.split() != old.split()
        ]
