"""What a terminal knows of its user's machine: it reads the plan, if that can be read in the farm's folder."""

from __future__ import annotations

import os
import re
from collections.abc import Callable
from typing import Any, NamedTuple, TypeVar

import tomllib

from .folder import PLAN

# What can go wrong with a plan that is read here: it isn't there, or isn't one. `live` says what is wrong with it.
UNREAD = (OSError, ValueError, LookupError, TypeError, AttributeError, RecursionError)
# What a word of an output has: its physical input, and whether it is ready and connected.
INPUT, READY, CONNECTED = 0x1F, 0x40, 0x80
# A domain of a plan, as TOML has it.
Domain = dict[str, Any]
Found = TypeVar("Found")


class Ports(NamedTuple):
    """The port of node 0's first wired link, that of the user's first host, and the number of this host."""

    link: int
    port: int
    host: int


class Wiring(NamedTuple):
    """A user's machine: the physical port of each of its ports, the port of each of the user's own hosts, and of each node the
    ports of its four links, -1 for those that aren't wired."""

    physical: tuple[int, ...]
    hosts: dict[int, int]
    nodes: tuple[tuple[int, ...], ...]

    def links_of(self, node: int) -> list[tuple[int, int]]:
        """The wired links of a node, each with its port."""
        return [(link, port) for link, port in enumerate(self.nodes[node]) if port >= 0]

    def join(self, node: int, host: int) -> str:
        """The line that joins a host with a node, by the node's first wired link."""
        return f"join {self.links_of(node)[0][1]} {self.hosts[host]}"

    def device(self, port: int) -> str:
        """What is at a port."""
        own = next((f"host {host}" for host, at in self.hosts.items() if at == port), None)
        links = [
            f"link {link} of node {node}"
            for node in range(len(self.nodes))
            for link, at in self.links_of(node)
            if at == port
        ]
        return own if own is not None else next(iter(links), "nothing of yours")


def hosts_of(domain: Domain, name: str) -> dict[int, int] | None:
    """The ports of the hosts of a domain's user, each by its number; none if there is no such user. The hosts of a domain are
    numbered through its users' lists."""
    before = 0
    for user in domain.get("user", [domain]):
        if user["name"] == name:
            return dict(enumerate(user["host"], before))
        before += len(user["host"])
    return None


def ports_in(domain: Domain, name: str) -> Ports | None:
    """The ports of this user, if he is one of the domain's."""
    hosts = hosts_of(domain, name)
    if hosts is None:
        return None
    wired = [port for port in domain["node"][0]["links"] if port >= 0]
    first = min(hosts)
    return Ports(wired[0], hosts[first], first)


def wiring_in(domain: Domain, name: str) -> Wiring | None:
    """The machine of this user, if he is one of the domain's."""
    hosts = hosts_of(domain, name)
    if hosts is None:
        return None
    ranges = domain["range"] if "range" in domain else [[domain["first"], domain["last"]]]
    physical = tuple(port for first, last in ranges for port in range(first, last + 1))
    return Wiring(physical, hosts, tuple(tuple(node["links"]) for node in domain["node"]))


def found_in(path: str, name: str, reads: Callable[[Domain, str], Found | None]) -> Found | None:
    """What is read of the domain of a user; none if the plan can't be read, or has no such user."""
    if not os.path.isfile(path):
        return None
    try:
        with open(path, "rb") as it:
            domains = tomllib.load(it)["domain"]
        return next((found for domain in domains if (found := reads(domain, name))), None)
    except UNREAD:
        return None


def ports_of(folder: str, name: str) -> Ports | None:
    """The ports of this user; none if the plan can't be read."""
    return found_in(os.path.join(folder, PLAN), name, ports_in)


def wiring_of(folder: str, name: str) -> Wiring | None:
    """The machine of this user; none if the plan can't be read."""
    return found_in(os.path.join(folder, PLAN), name, wiring_in)


def users_in(path: str) -> list[list[str]]:
    """The users of each domain of a plan, in its order; nobody if it can't be read."""
    try:
        with open(path, "rb") as it:
            users = [[user["name"] for user in domain.get("user", [domain])] for domain in tomllib.load(it)["domain"]]
        return users if all(isinstance(name, str) for names in users for name in names) else []
    except UNREAD:
        return []


def ports_told(answer: str, physical: tuple[int, ...]) -> str:
    """What `!words` says of a machine with these physical ports, and of no other, as the answer to a user's `ports`: the input
    that drives each output, in brackets if the output isn't ready, and a hyphen if none does."""
    words = {int(output): int(word, 16) for output, word in re.findall(r"\b(\d+):([0-9a-f]+)\b", answer)}
    told = []
    for port, output in enumerate(physical):
        word = words.get(output, 0)
        is_driven = word & CONNECTED and word & INPUT in physical
        source = f"{physical.index(word & INPUT)}" if is_driven else "-"
        told.append(f"{port}:{source if not is_driven or word & READY else f'({source})'}")
    return " ".join(["ports", *told])


def drivers_in(answer: str) -> dict[int, int | None] | None:
    """The input that drives each output by an answer to `ports`, none if none does; none for all if it is another answer."""
    pairs = re.fullmatch(r"ports((?: \d+:(?:-|\d+|\(\d+\)))*)", answer)
    if not pairs:
        return None
    return {
        int(output): None if source == "-" else int(source.strip("()"))
        for output, source in (pair.split(":") for pair in pairs[1].split())
    }


def joins_told(answer: str, wiring: Wiring) -> list[str]:
    """What an answer to `ports` means, a line for each port that something drives."""
    drivers = drivers_in(answer) or {}
    lines = []
    for output, source in drivers.items():
        if source is not None:
            waits = ", when message 03 makes it ready" if f" {output}:(" in answer else ""
            lines.append(
                f"  (what {wiring.device(source)} at port {source} sends goes to {wiring.device(output)} at port {output}"
                f"{waits})"
            )
    return lines or ["  (nothing is joined: join joins two ports)"]
