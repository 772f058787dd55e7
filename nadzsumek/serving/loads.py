"""What a terminal finds before it sends a program or bytes: whether the host is joined, whether a byte of it was lost, and whether the
node waits for a boot. It asks by lines that are no events, so that nothing is recorded of it; only a node that computes is looked
at, which changes nothing either."""

from __future__ import annotations

import contextlib
import re
from collections.abc import Callable
from typing import TYPE_CHECKING, NamedTuple

from ..mistakes.verbs import Wrong, goes_on
from .connections import opened
from .folder import Refused
from .ports import drivers_in

if TYPE_CHECKING:
    from .ports import Wiring

# How long each of its questions may take.
SECONDS = 10
TAG = "#1 "
# What `why` says of a node that waits for a boot, and of others: what is said of them here.
WAITS = re.compile(r"waits for a control byte\.")
STATES = (
    (r"has ended\b", "has run a program that has ended"),
    (r"rests\b", "has a program that waits"),
    (r"runs\b", "has a program that runs"),
    (r"halted by fault (\d+)", "has halted by a fault"),
    (
        r"takes a poke\b|takes a peek\b|takes code\b|answers a peek\b|waits for a control byte, ",
        "has a part of a message",
    ),
)
# The same of an answer to `look`.
LOOKED = {
    "idle": "has a program that waits or has ended",
    "running": "has a program that runs",
    "halted": "has halted by a fault",
}
# What it says of a byte that came by a link and that nobody takes any more, or that a reset has dropped.
STUCK = (
    "Link {link} holds a byte that nobody will take",
    "link {link} of node {node} has neither the byte nor an acknowledge of it",
)
# What it says of a host whose byte, or the acknowledge of it, went nowhere: the host sends nothing more, whatever is joined then.
LOST = r"Of host {host} a byte isn't acknowledged yet\.\n.*(?: was lost in event | has neither the byte nor an acknowledge )"
# The verbs before which it is looked, and those whose answers may want what was found.
LOOKING, COLLECTING = ("load", "send", "write"), ("collect", "text")
UNCHECKED = "connect --unchecked sends it even so"


class Hindered(Wrong):
    """A load that would boot nothing: why, and the lines that help, none if this is left to the user. `word` is how a script
    knows it."""

    word = "notbooting"

    def __init__(self, why: str, lines: list[str] | tuple[()] = (), advice: str | None = None) -> None:
        self.lines, self.why = tuple(lines), why
        self.is_lost = self.lines[:1] == ("restart",)
        self.advice = advice or f"Type {' and then '.join(self.lines)} first"
        super().__init__(f"{why}. {self.advice}, or {UNCHECKED}" if lines or advice else why)


class Quiet:
    """A connection beside that of a terminal. Its answers go to nobody else."""

    def __init__(self, folder: str, name: str) -> None:
        self.stream = opened(folder, name)
        self.stream.settimeout(SECONDS)
        self.lines = self.stream.makefile("rb")

    def __enter__(self) -> Quiet:
        return self

    def __exit__(self, *_: object) -> None:
        self.lines.close()
        self.stream.close()

    def ask(self, line: str) -> list[str]:
        """The lines of an answer. What isn't answered is an OSError."""
        self.stream.sendall(f"{TAG}{line}\n".encode())
        answers = []
        while raw := self.lines.readline():
            text = raw.decode(errors="surrogateescape").removesuffix("\n")
            if text.startswith("error: "):
                break
            if text.startswith(TAG):
                answers.append(text.removeprefix(TAG))
                if not goes_on(answers[-1]):
                    return answers
        raise OSError


def check_load(folder: str, name: str, wiring: Wiring | None, host: int, file: str) -> None:
    """Refuses a load that would boot nothing, as far as that can be known: the plan must be readable, and the farm must answer."""
    if wiring is None:
        return
    try:
        with Quiet(folder, name) as quiet:
            drivers = drivers_in(quiet.ask("ports")[0])
            check_host(wiring, drivers, host, file)
            if drivers is not None:
                check_node(wiring, host, *link_of(wiring, drivers, host), quiet.ask)
    except (OSError, Refused):
        # what is sent is answered, whatever that is
        check_host(wiring, None, host, file)


def check_line(folder: str, name: str, wiring: Wiring | None, first: str, words: list[str]) -> None:
    """Refuses a line of one of the verbs before which it is looked, if what it sends would be lost."""
    if first == "load":
        check_load(folder, name, wiring, int(words[0]), words[1])
    elif wiring is not None and int(words[0]) in wiring.hosts:
        with contextlib.suppress(OSError, Refused), Quiet(folder, name) as quiet:
            check_sending(wiring, int(words[0]), quiet.ask)


def check_sending(wiring: Wiring, host: int, ask: Callable[[str], list[str]]) -> None:
    """Refuses bytes of a host that is joined with nothing, or that sends nothing more."""
    drivers = drivers_in(ask("ports")[0])
    if drivers is None:
        return
    if wiring.hosts[host] not in drivers.values():
        raise unjoined(wiring, host)
    if ask("rest")[0] == "rest quiet":
        for node, _, _ in fed_by(wiring, drivers, host):
            check_lost(wiring, host, node, ask(f"why {node}"))


def check_lost(wiring: Wiring, host: int, node: int, answers: list[str]) -> None:
    """Refuses bytes of a host of which one was lost, by what `why` says of the node that it is joined with."""
    if re.search(LOST.format(host=host), "\n".join(answers)):
        raise Hindered(
            f"a byte of host {host} was lost before, so the host sends nothing more",
            ["restart", wiring.join(node, host)],
            "Type restart, and join again before anything is sent",
        )


def remark_on(folder: str, name: str, wiring: Wiring | None, answer: str) -> str | None:
    """What is said of a `collect` to which no byte has come, if a byte of its host was lost."""
    empty = re.fullmatch(r"collect (\d+) -", answer)
    if not empty:
        return None
    try:
        check_line(folder, name, wiring, "send", [empty[1]])
    except Hindered as why:
        return f"  ({why.why}. {why.advice})" if why.is_lost else None
    return None


def fed_by(wiring: Wiring, drivers: dict[int, int | None] | None, host: int) -> list[tuple[int, int, int]]:
    """The links that get what a host sends: node, link and port."""
    return [
        (node, link, port)
        for node in range(len(wiring.nodes))
        for link, port in wiring.links_of(node)
        if (drivers or {}).get(port) == wiring.hosts[host]
    ]


def check_host(wiring: Wiring, drivers: dict[int, int | None] | None, host: int, file: str) -> None:
    """Refuses a number that is none of the user's hosts. It may be a node's: then it is said how a host is joined with it."""
    if host in wiring.hosts:
        return
    hosts = [*wiring.hosts]
    own = f"host {hosts[0]}" if len(hosts) == 1 else f"the hosts {' and '.join(f'{it}' for it in hosts)}"
    if host >= len(wiring.nodes):
        raise Wrong(f"there is no host {host}: you have {own}. Try: load {hosts[0]} {file}")
    for it in hosts:
        if any(node == host for node, _, _ in fed_by(wiring, drivers, it)):
            raise Wrong(f"{host} is a node, and load wants the host that is joined with it. Try: load {it} {file}")
    free = next((it for it in hosts if not fed_by(wiring, drivers, it)), hosts[0])
    lines = [f"config 05{port:02x}" for _, _, port in fed_by(wiring, drivers, free)]
    lines += [wiring.join(host, free), f"load {free} {file}"]
    raise Wrong(
        f"{host} is a node, and you have {own}. Join host {free} with node {host} first: {', then '.join(lines)}"
    )


def unjoined(wiring: Wiring, host: int) -> Hindered:
    """That a host is joined with no node, and what joins it."""
    why = f"host {host} is joined with no node, so all bytes would be lost"
    joins = [wiring.join(node, host) for node in range(len(wiring.nodes))]
    if len(joins) == 1:
        return Hindered(why, joins)
    each = ", ".join(f"{line} joins it with node {node}" for node, line in enumerate(joins))
    return Hindered(why, advice=f"Join it first: {each}")


def link_of(wiring: Wiring, drivers: dict[int, int | None], host: int) -> tuple[int, int]:
    """The node and the link that a host is joined with, both ways and with no other."""
    fed, port = fed_by(wiring, drivers, host), wiring.hosts[host]
    if not fed:
        raise unjoined(wiring, host)
    nodes = sorted({node for node, _, _ in fed})
    if len(fed) > 1:
        away = ", ".join(f"config 05{at:02x} takes it away from node {node}" for node, _, at in fed)
        where = (
            f"nodes {' and '.join(f'{it}' for it in nodes)}" if len(nodes) > 1 else f"several links of node {nodes[0]}"
        )
        raise Hindered(f"what host {host} sends goes to {where} together", advice=f"Let one of them have it: {away}")
    node, link, link_port = fed[0]
    if drivers.get(port) != link_port:
        raise Hindered(
            f"what host {host} sends goes to node {node}, but nothing comes back, so its acknowledges would be lost",
            [f"join {link_port} {port}"],
        )
    return node, link


def check_node(wiring: Wiring, host: int, node: int, link: int, ask: Callable[[str], list[str]]) -> None:
    """Refuses a node that doesn't wait for a boot, and one that will never get a byte of its host."""
    # of a machine that computes `why` may take seconds, and is of a moment that is over
    answers = ask(f"why {node}") if ask("rest")[0] == "rest quiet" else []
    if any(it.format(node=node, link=link) in line for line in answers for it in STUCK):
        raise Hindered(
            f"a byte of host {host} is stuck at node {node}, and a reset doesn't help",
            ["restart", wiring.join(node, host)],
            "Type restart, and join again",
        )
    check_lost(wiring, host, node, answers)
    state = state_of(node, answers, ask)
    if state:
        raise Hindered(f"node {node} {state}, and takes no boot before it is reset", [f"reset {node}"])


def state_of(node: int, answers: list[str], ask: Callable[[str], list[str]]) -> str | None:
    """What a node does that doesn't wait for a boot; none if it does, or if it isn't known."""
    if not answers or re.fullmatch(r"why after \d+ of \d+ .*", answers[0]):
        # what it did after its first Steps isn't what it does now
        looked = re.match(rf"look {node} (\w+)", ask(f"look {node}")[0])
        return LOOKED.get(looked[1]) if looked else None
    told = next((found[1] for it in answers if (found := re.fullmatch(rf"why node {node} (.*)", it))), "")
    if WAITS.fullmatch(told):
        return None
    return next((state for pattern, state in STATES if re.match(pattern, told)), None)
