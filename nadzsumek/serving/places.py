"""The plan of a farm as the parts of its students, and where one more has a place."""
import os
import re
from typing import NamedTuple

import tomllib

from .folder import PLAN, Refused, contents, meaning, own_plan
from .plans import DOMAINS, PORTS, VERSION, Machine

# Where the part of a domain begins.
DOMAIN = re.compile(r"^(?=[ \t]*\[\[[ \t]*domain[ \t]*\]\])", re.MULTILINE)
# How many ranges a domain may have.
MOST_RANGES = 4


class Part(NamedTuple):
    """The part of a plan that is a student's: its text, the ports that it takes, and the machine."""

    name: str
    text: str
    ports: tuple[int, ...]
    machine: Machine


def part_of(text: str) -> Part:
    """The part of this text, which has one user."""
    (domain,) = tomllib.loads(VERSION + text)["domain"]
    (user,) = domain["user"]
    ports = tuple(port for first, last in domain["range"] for port in range(first, last + 1))
    machine = Machine(len(domain["node"]), len(user["host"]), domain["node"][0]["memory"], domain["limit"])
    return Part(user["name"], text.strip("\n"), ports, machine)


def text_of(parts: list[Part]) -> str:
    """The plan with these parts."""
    return VERSION + "".join(f"\n{it.text}\n" for it in parts)


def parts_of(farm: str, names: list[str]) -> list[Part]:
    """The parts of a farm's plan, which must have just these users; and the plan that it runs must be that of the class."""
    path, kept = own_plan(farm), os.path.join(farm, PLAN)
    plan = contents(path)
    try:
        _, *texts = DOMAIN.split(plan.decode())
        parts = [part_of(it) for it in texts]
        is_own = meaning(text_of(parts).encode()) == meaning(plan)
    except (ValueError, LookupError, TypeError):
        parts, is_own = [], False
    if not is_own or sorted(it.name for it in parts) != sorted(names):
        raise Refused(f"{path} isn't as class wrote it, so class can't change it")
    if os.path.exists(kept) and meaning(contents(kept)) != meaning(plan):
        raise Refused(
            f"{path} isn't the plan that the farm runs, which is {kept}. To go on as before: cp {kept} {path}"
        )
    return parts


def runs_of(ports: list[int]) -> list[list[int]]:
    """Ports in their order as ranges."""
    ranges: list[list[int]] = []
    for port in sorted(ports):
        if ranges and ranges[-1][1] == port - 1:
            ranges[-1][1] = port
        else:
            ranges.append([port, port])
    return ranges


def free_ports(parts: list[Part]) -> list[int]:
    return sorted(set(range(PORTS)).difference(*(it.ports for it in parts)))


def place_for(parts: list[Part], count: int) -> list[list[int]] | None:
    """Ranges of so many ports that no part has: one if there is one, and else the longest ones; none if there is no place."""
    if len(parts) == DOMAINS:
        return None
    runs = runs_of(free_ports(parts))
    whole = next((first for first, last in runs if last - first + 1 >= count), None)
    if whole is not None:
        return [[whole, whole + count - 1]]
    longest = sorted(runs, key=lambda it: it[0] - it[1])[:MOST_RANGES]
    ports = [port for first, last in sorted(longest) for port in range(first, last + 1)]
    return runs_of(ports[:count]) if len(ports) >= count else None
