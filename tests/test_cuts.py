"""The stored run of `farm` and every example, cut after each byte. The status, standard error and standard output are held against a
model: Python's TOML reader for the plan, and the tests of script lines in the order user, verb, args, hex. Where a cut text is
answered, each user has just their lines, in the order of the plan, and those that stand whole in it have the whole text's answers."""

import re
import tomllib

import pytest
from support.trials import PLAIN_NAMES, WORKERS, by_workers, example, run

FIELDS = {
    1: {"name", "first", "last", "limit", "host", "node"},
    2: {"name", "range", "limit", "host", "node"},
    3: {"user", "range", "limit", "node"},
}
NUMBER, HEX, WORD = r"\d+", r"(..)+", r".{8}"
VERBS = {
    "config": [HEX],
    "write": [NUMBER, HEX],
    "boot": [NUMBER, HEX],
    "poke": [NUMBER, WORD, WORD],
    "peek": [NUMBER, WORD],
    "collect": [NUMBER],
    "reset": [NUMBER],
    "look": [NUMBER],
}


def fault_of(plan: str) -> int | None:
    """The number of a plan's fault, or none. The whole plan is right, so a beginning lacks something or nothing."""
    try:
        document = tomllib.loads(plan)
    except tomllib.TOMLDecodeError:
        return 1
    domains, fields = document.get("domain", []), FIELDS.get(document.get("version", 0))
    whole = (
        fields
        and domains
        and all(
            set(it) == fields
            and all(set(node) == {"memory", "links"} for node in it["node"])
            and all(set(user) == {"name", "host"} for user in it.get("user", []))
            for it in domains
        )
    )
    return None if whole else 2


def users_of(plan: str) -> list[tuple[str, int]]:
    """The names of a whole plan's users, in its order, each with the number of their domain."""
    domains = tomllib.loads(plan)["domain"]
    return [(user["name"], at) for at, it in enumerate(domains) for user in it.get("user", [it])]


def is_passed_over(line: str) -> bool:
    return line == "" or line.startswith("#")


def word_of(line: str, names: list[str]) -> str | None:
    """What is wrong with a script line of users of these names, or none."""
    name, *rest = line.split(" ")
    if name not in names:
        return "user"
    if not rest or rest[0] not in VERBS:
        return "verb"
    wanted, given = VERBS[rest[0]], rest[1:]
    if len(given) != len(wanted):
        return "args"
    pairs = list(zip(wanted, given))
    if any(form == NUMBER and not (re.fullmatch(form, it) and int(it) < 256) for form, it in pairs):
        return "args"
    if any(form != NUMBER and not (re.fullmatch(form, it) and re.fullmatch("[0-9a-fA-F]+", it)) for form, it in pairs):
        return "hex"
    return None


def parted(text: str) -> tuple[str, list[str]]:
    """The plan and the script's lines, of which the last may be a part of one or empty."""
    lines = text.split("\n")
    place = lines.index("---") if "---" in lines else len(lines)
    return "\n".join(lines[:place]), lines[place + 1 :]


def told_of(text: str) -> tuple[int, str]:
    """Status and standard error of a text."""
    plan, lines = parted(text)
    fault = fault_of(plan)
    if fault:
        return 3, f"plan: {fault}\n"
    names = [name for name, _ in users_of(plan)]
    for number, line in enumerate(lines, 1):
        wrong = None if is_passed_over(line) else word_of(line, names)
        if wrong:
            return 4, f"line {number}: {wrong}\n"
    return 0, ""


def is_answered(text: str, stored: list[str], printed: list[str]) -> bool:
    """Whether a text that is cut, and answered, is answered as the stored lines of the whole text say. What its last line
    answers, which may be cut, is known only by its user and verb; so it is with users of the same domain beside it."""
    plan, lines = parted(text)
    *whole, last = lines or [""]
    cut = [] if is_passed_over(last) else last.split(" ")[:2]
    wanted: list[list[str]] = []
    known: list[str | None] = []
    domain_of = dict(users_of(plan))
    for user, domain in domain_of.items():
        mine = [it for it in whole if it.split(" ")[0] == user]
        answers = [it for it in stored if it.split(" ")[0] == user][: len(mine)]
        shares = cut and user != cut[0] and domain == domain_of[cut[0]]
        wanted += [it.split(" ")[:2] for it in answers] + ([cut] if cut and cut[0] == user else [])
        known += [None if shares else it for it in answers] + ([None] if cut and cut[0] == user else [])
    is_right = [it.split(" ")[:2] for it in printed] == wanted
    return is_right and all(want in (None, line) for want, line in zip(known, printed))


@pytest.mark.parametrize("every", [40, pytest.param(1, marks=pytest.mark.long)])
@pytest.mark.parametrize("count", WORKERS)
@pytest.mark.parametrize("name", PLAIN_NAMES)
def test_cuts(name: str, count: int, every: int) -> None:
    text, output = (it.decode("ascii") for it in example(name))
    for end in range(0, len(text) + 1, every):
        cut = text[:end]
        status, out, errors = run(by_workers(count), cut.encode())
        assert (end, status, errors.decode()) == (end, *told_of(cut))
        assert is_answered(cut, output.splitlines(), out.decode().splitlines()) if status == 0 else out == b"", end
