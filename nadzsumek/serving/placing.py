"""In which node each program of a test is, by the messages to the switch that stand before its load. docs/SWITCH.md has them."""

from __future__ import annotations

from typing import TYPE_CHECKING

if TYPE_CHECKING:
    from collections.abc import Iterable

    from .exercises import Line
    from .plans import Machine

# The messages that join or take apart, each with how many ports follow its first byte.
ONE_WAY, BOTH_WAYS, QUERY, READY, ALL_APART, APART, BOTH_APART = range(7)
PORTS = {ONE_WAY: 2, BOTH_WAYS: 2, QUERY: 1, READY: 0, ALL_APART: 0, APART: 1, BOTH_APART: 2}


def configured(drivers: dict[int, int], message: bytes) -> None:
    """Does the messages to a switch of which it is known which input drives each output."""
    while message and message[0] in PORTS:
        command, ports, message = message[0], message[1 : 1 + PORTS[message[0]]], message[1 + PORTS[message[0]] :]
        if len(ports) < PORTS[command]:
            return
        if command == ONE_WAY:
            drivers[ports[1]] = ports[0]
        elif command == BOTH_WAYS:
            drivers.update({ports[0]: ports[1], ports[1]: ports[0]})
        elif command == ALL_APART:
            drivers.clear()
        elif command in (APART, BOTH_APART):
            for port in ports:
                drivers.pop(port, None)


def placed(machine: Machine, lines: Iterable[Line]) -> dict[int, str]:
    """The program that was loaded last into each node."""
    drivers, found = dict[int, int](), dict[int, str]()
    for line in lines:
        verb, *words = line.sent.split(" ", 2)
        if verb == "join":
            configured(drivers, bytes([BOTH_WAYS, int(words[0]), int(words[1])]))
        elif verb == "config":
            configured(drivers, bytes.fromhex(words[0]))
        elif verb == "load":
            port, ends = machine.host_port(int(words[0])), machine.nodes * machine.links()
            found |= {
                output // machine.links(): words[1] for output, it in drivers.items() if it == port and output < ends
            }
    return found
