"""Where and why a plan is refused: the first place that has the fault whose number a program said, and what would be right there."""

from __future__ import annotations

import re
from collections.abc import Iterator
from typing import Any, NamedTuple, TypeAlias

import tomllib

from .lines import divided, lines_of, text_of
from .nearness import nearest
from .verbs import OF_SCRIPTS, SHORTHAND

Table: TypeAlias = dict[str, Any]
LEAST_MEMORY, MOST_MEMORY, MOST_LIMIT, MOST_HOSTS = 2048, 65536, 1 << 40, 4
TEXT, SHAPE = 1, 2
MARK_MISSING = ". The mark is missing"
MARKLESS = " (no line after it is just ---, so all was read as the plan)"
# The kinds of values, and what such a value is called.
INTEGER, STRING, INTEGERS = "an integer", "a text", "an array of integers"
LINKS = "an array of four integers, -1 for a link that isn't wired"
RANGES = "an array of ranges, each two integers"
USERS, NODES, DOMAINS = (f"an array of tables, one a {it}" for it in ("user", "node", "domain"))
PLAN = {"version": INTEGER, "domain": DOMAINS}
USER = {"name": STRING, "host": INTEGERS}
NODE = {"memory": INTEGER, "links": LINKS}
DOMAIN = {
    1: {"name": STRING, "first": INTEGER, "last": INTEGER, "limit": INTEGER, "host": INTEGERS, "node": NODES},
    2: {"name": STRING, "range": RANGES, "limit": INTEGER, "host": INTEGERS, "node": NODES},
    3: {"user": USERS, "range": RANGES, "limit": INTEGER, "node": NODES},
}


class Domain(NamedTuple):
    """A domain of a plan of any version, with its place in it."""

    place: str
    users: list[Table]
    ranges: list[list[int]]
    nodes: list[Table]
    limit: int

    def named(self) -> str:
        """The place, with the names of the users."""
        names = ", ".join(quoted(it["name"]) for it in self.users)
        return f"{self.place} ({names})" if names else self.place

    def ports(self) -> int:
        """How many virtual ports it has."""
        return sum(last - first + 1 for first, last in self.ranges)

    def devices(self) -> Iterator[tuple[int, str]]:
        """The virtual ports that it uses, and what is at each."""
        for number, user in enumerate(self.users):
            yield from ((port, f"user {number}'s host {host}") for host, port in enumerate(user["host"]))
        for number, node in enumerate(self.nodes):
            wired = ((link, port) for link, port in enumerate(node["links"]) if port != -1)
            yield from ((port, f"node {number}'s link {link}") for link, port in wired)


def quoted(name: str) -> str:
    """A name, in which what isn't a printable character of ASCII is escaped."""
    return "".join(it if " " <= it <= "~" else f"\\u{{{ord(it):x}}}" for it in name)


def is_of(value: Any, kind: str) -> bool:
    """Whether a value is of a kind."""
    if kind == INTEGER:
        return isinstance(value, int) and not isinstance(value, bool)
    if kind == STRING:
        return isinstance(value, str)
    if not isinstance(value, list) or kind in (USERS, NODES, DOMAINS):
        return isinstance(value, list)
    if kind == RANGES:
        return all(is_of(it, INTEGERS) and len(it) == 2 for it in value)
    return all(is_of(it, INTEGER) for it in value) and (kind == INTEGERS or len(value) == 4)


def misfit_of_table(place: str, table: Any, fields: dict[str, str]) -> Iterator[str]:
    """What is wrong with the fields of a table. A mistyped field is named before the one that is missing for it."""
    if not isinstance(table, dict):
        yield f"{place} isn't a table"
        return
    unknown = [name for name in table if name not in fields]
    for name, kind in fields.items():
        if name not in table:
            yield from (told_of_unknown(place, it, fields) for it in unknown if nearest(it, fields) == name)
            yield f"{place}: the field `{name}` is missing, {kind}"
        elif not is_of(table[name], kind):
            yield f"{place}: the field `{name}` isn't {kind}"
    yield from (told_of_unknown(place, it, fields) for it in unknown)


def told_of_unknown(place: str, name: str, fields: dict[str, str]) -> str:
    """What is said of a field that there isn't."""
    near = nearest(name, fields)
    return f"{place}: there is no field `{quoted(name)}`" + (f". Is it `{near}`?" if near else "")


def misfits(document: Table) -> Iterator[str]:
    """What keeps a document from being a plan's."""
    yield from misfit_of_table("the plan", document, PLAN)
    version = document.get("version")
    if version not in DOMAIN or not is_of(version, INTEGER):
        yield f"the version is {version}, and 1, 2 and 3 are known"
        return
    for number, domain in enumerate(document["domain"]):
        place = f"domain {number}"
        yield from misfit_of_table(place, domain, DOMAIN[version])
        for name, fields in (("user", USER), ("node", NODE)):
            items = domain.get(name, []) if name in DOMAIN[version] else []
            for item, table in enumerate(items):
                yield from misfit_of_table(f"{place}, {name} {item}", table, fields)


def domain_of(number: int, table: Table) -> Domain:
    """A domain of a plan without misfits."""
    users = table["user"] if "user" in table else [{"name": table["name"], "host": table["host"]}]
    ranges = table["range"] if "range" in table else [[table["first"], table["last"]]]
    return Domain(f"domain {number}", users, ranges, table["node"], table["limit"])


def breaches(fault: int, domain: Domain) -> Iterator[str]:
    """Where a domain breaks the rule of a fault that a domain alone can have: what follows its name."""
    counts: dict[int, tuple[str, list[Any], int]] = {
        8: ("nodes", domain.nodes, 8),
        16: ("ranges", domain.ranges, 4),
        17: ("users", domain.users, 4),
    }
    if fault in counts:
        what, items, most = counts[fault]
        if not 1 <= len(items) <= most:
            yield f" has {len(items)} {what}, and 1 to {most} are possible"
    elif fault in (4, 6, 9, 12, 13):
        yield from breaches_of_items(fault, domain)
    elif fault in (10, 11):
        yield from breaches_of_ports(fault, domain)
    elif fault == 14 and not 1 <= domain.limit <= MOST_LIMIT:
        yield f": the limit {domain.limit} isn't 1 to {MOST_LIMIT} recorded events"


def breaches_of_items(fault: int, domain: Domain) -> Iterator[str]:
    """The same of faults of a user, a range or a node."""
    for number, user in enumerate(domain.users):
        if fault == 4 and not re.fullmatch(r"[a-z0-9-]{1,32}", user["name"]):
            told = "isn't 1 to 32 characters of a to z, 0 to 9 and hyphen"
            yield f', user {number}: the name "{quoted(user["name"])}" {told}'
        if fault == 12 and not user["host"]:
            yield f", user {number}: {quoted(user['name'])} has no host, and needs one at least"
    hosts = sum(len(user["host"]) for user in domain.users)
    if fault == 12 and hosts > MOST_HOSTS:
        yield f" has {hosts} hosts, and {MOST_HOSTS} at most are possible"
    for number, (first, last) in enumerate(domain.ranges):
        if fault == 6 and not 0 <= first <= last <= 31:
            yield f", range {number}: {first} to {last} isn't a range of ports, which go from 0 to 31"
    for number, node in enumerate(domain.nodes):
        size = node["memory"]
        if fault == 9 and (size % 4 or not LEAST_MEMORY <= size <= MOST_MEMORY):
            told = f"isn't a multiple of 4 from {LEAST_MEMORY} to {MOST_MEMORY}"
            yield f", node {number}: a memory of {size} bytes {told}"
        if fault == 13 and all(port == -1 for port in node["links"]):
            yield f", node {number}: no link is wired, and one at least needs a virtual port"


def breaches_of_ports(fault: int, domain: Domain) -> Iterator[str]:
    """The same of faults of virtual ports."""
    used: dict[int, str] = {}
    for port, device in domain.devices():
        if fault == 10 and not 0 <= port < domain.ports():
            yield f": {device} is at port {port}, and the domain's virtual ports are 0 to {domain.ports() - 1}"
        if fault == 11 and port in used:
            yield f": {used[port]} and {device} are both at virtual port {port}, which holds one of them"
        used.setdefault(port, device)


def names_twice(domains: list[Domain]) -> Iterator[str]:
    """The users who have the name of another."""
    seen: dict[str, str] = {}
    for domain in domains:
        for number, user in enumerate(domain.users):
            name, place = user["name"], f"user {number} of {domain.place}"
            if name in seen:
                yield f"{domain.place}, user {number}: the name {name} is that of {seen[name]} already"
            seen.setdefault(name, place)


def shared_ports(domains: list[Domain]) -> Iterator[str]:
    """The ranges that have a port of another."""
    seen: list[tuple[int, int, str]] = []
    for domain in domains:
        for number, (first, last) in enumerate(domain.ranges):
            for other, end, place in seen:
                if max(first, other) <= min(last, end):
                    yield f"{domain.place}, range {number}: port {max(first, other)} is in {place} already"
            seen.append((first, last, f"range {number} of {domain.place}"))


def places(fault: int, document: Table) -> Iterator[str]:
    """The places of a document that have a fault."""
    if fault == SHAPE:
        yield from misfits(document)
        return
    domains = [domain_of(number, table) for number, table in enumerate(document["domain"])]
    if fault == 3:
        yield f"the plan has {len(domains)} domains, and 1 to 16 are possible"
    elif fault in (5, 7):
        yield from names_twice(domains) if fault == 5 else shared_ports(domains)
    else:
        yield from (domain.named() + told for domain in domains for told in breaches(fault, domain))


def reason(fault: int, plan: bytes) -> str | None:
    """The first place of a plan that has a fault, as a sentence; none if it isn't found."""
    try:
        document = tomllib.loads(plan.decode())
    except UnicodeDecodeError:
        return "the text isn't UTF-8" if fault == TEXT else None
    except tomllib.TOMLDecodeError as error:
        return f"the text isn't TOML: {error}{missing_mark(plan, f'{error}')}" if fault == TEXT else None
    except RecursionError:
        return None
    return None if fault == TEXT else next(places(fault, document), None)


def missing_mark(plan: bytes, error: str) -> str:
    """What is said if a text stops being TOML at a line that begins as one of a script."""
    found = re.search(r"\(at line (\d+),", error)
    words = lines_of(plan)[int(found[1]) - 1].split(b" ") if found else []
    if len(words) < 2 or not words[0] or text_of(words[1]).lower() not in OF_SCRIPTS + SHORTHAND:
        return ""
    return f"{MARK_MISSING}: line {found[1] if found else ''} begins like one of a script, and no line before it is just ---"


def told_plan(fault: int, text: bytes) -> str | None:
    """The same of the plan before a script, with the number of the fault. It says so if there is no line `---`."""
    plan, script = divided(text)
    told = reason(fault, plan)
    return f"plan: {fault}: {told}{MARKLESS if script is None and MARK_MISSING not in told else ''}" if told else None


def users_of(text: bytes) -> list[str]:
    """The names of the users of a plan that was accepted, in its order."""
    document = tomllib.loads(divided(text)[0].decode())
    domains = (domain_of(number, table) for number, table in enumerate(document["domain"]))
    return [user["name"] for domain in domains for user in domain.users]
