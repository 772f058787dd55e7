"""The sheet that a student gets: who he is, what he has, and his first lines."""

from __future__ import annotations

import contextlib
import os
import shlex
import socket
from typing import TYPE_CHECKING, NamedTuple

from .folder import TOP

if TYPE_CHECKING:
    from .plans import Machine

SHEET = """{person}

On the farm you are the user {name}. You have {what}:

{ports}

This opens your terminal:

    {connect}
{network}
Your first three lines join host 0 with node 0, load a program that sends a greeting, and collect it:

    join {port} {host}
    load 0 hello.occ
    collect 0

To the last you are answered: collect 0 68656c6c6f0a  "hello\\n"

hello.occ is a program in occam, the language that these processors were made for. hello.s is the same in their assembly, and
load takes it as well: in the second line, or after reset 0.
{others}
A node that has booted takes no other boot before it is reset: reset 0 for node 0. If load would boot nothing it says so, and
asks what to do.

load looks for its file in the folder where you opened the terminal, and then among the examples, of which hello.occ and hello.s
are two.

If nothing comes: why. If a program never ends: reset 0. To begin with a fresh machine: restart. All verbs with examples: help.

Your machine has a room for its record, and each packet and each command takes some of it. When the room is used up the machine
rests: its nodes do nothing more, and your lines are answered as long as a reserve lasts. restart gives the room back.

The user's guide: {guide}
Occam from its beginning: {occam}
Assembly from its beginning: {assembly}
"""
# The same for another node: what is said, and the lines.
OTHER = """
The same for node {node}{how}:

{lines}
"""
# The rights of a socket by which other accounts than its owner open it.
OTHERS = 0o022
NETWORK = """
From another machine this opens it. There load looks for files on the farm's machine, in your home folder:

    ssh -t {host} {connect}
"""


class Ways(NamedTuple):
    """What a sheet names: the command `connect`, the folder of the guides, and the machine to which students come by `ssh`, or
    none."""

    connect: str
    guides: str
    host: str | None


def installed(*path: str) -> str | None:
    """The path of a file below the folder where all was installed; none if it isn't there."""
    it = os.path.join(os.path.dirname(os.path.dirname(TOP)), *path)
    return it if os.path.exists(it) else None


def ways_of(mode: int) -> Ways:
    """How students of this machine come in, if their sockets have this mode. Over a network they come as accounts of their own,
    so these must have a right to the sockets."""
    return Ways(
        installed("bin", "connect") or os.path.join(TOP, "connect"),
        installed("share", "doc", "nadzsumek", "guides") or os.path.join(TOP, "docs", "guides"),
        socket.gethostname() if mode & OTHERS else None,
    )


def sheet_path(course: str, name: str) -> str:
    """Where a student's sheet is."""
    return os.path.join(course, "sheets", f"{name}.txt")


def person_of(course: str, user: str) -> str:
    """Who a student is, by his sheet."""
    with contextlib.suppress(OSError, UnicodeDecodeError):
        with open(sheet_path(course, user), encoding="utf-8") as it:
            return it.readline().rstrip("\n") or user
    return user


def count(number: int, thing: str) -> str:
    return f"{number} {thing}" + ("" if number == 1 else "s")


def others(machine: Machine) -> str:
    """How a program is loaded into each node but the first. A host that another node had is taken away from it before."""
    told = (
        ["\nload and collect want the number of a host, whatever node it is joined with.\n"]
        if machine.nodes > 1
        else []
    )
    for node in range(1, machine.nodes):
        host, before = node % machine.hosts, node - machine.hosts
        port = machine.link_port(node)
        lines = [f"join {port} {machine.host_port(host)}", f"load {host} hello.occ", f"collect {host}"]
        how = f", by host {host}" if machine.hosts > 1 else ""
        if before >= 0:
            lines = [f"config 05{machine.link_port(before):02x}", *lines]
            how += f". The first line takes host {host} away from node {before}"
        told.append(OTHER.format(node=node, how=how, lines="\n".join(f"    {it}" for it in lines)))
    return "".join(told)


def guide(ways: Ways, name: str) -> str:
    """The path of a guide: of the page for a browser, if there is one."""
    page = os.path.join(ways.guides, f"{name}.html")
    return page if os.path.exists(page) else os.path.join(ways.guides, f"{name}.md")


def sheet(person: str, name: str, machine: Machine, folder: str, ways: Ways) -> str:
    """The sheet of one student."""
    what = (
        f"{count(machine.nodes, 'node')} with {machine.memory} bytes of memory, {count(machine.hosts, 'host')}, "
        f"and a switch with {machine.ports()} ports"
    )
    ports = "\n".join(f"    port {port:<3} {device}" for port, device in enumerate(machine.devices()))
    call = [ways.connect, folder, name]
    # the words of ssh are read by two shells
    network = NETWORK.format(host=ways.host, connect=shlex.join(shlex.quote(it) for it in call)) if ways.host else ""
    return SHEET.format(
        person=person,
        name=name,
        what=what,
        ports=ports,
        connect=shlex.join(call),
        network=network,
        port=machine.link_port(0),
        host=machine.host_port(0),
        others=others(machine),
        guide=guide(ways, "USER"),
        occam=guide(ways, "LEARNING_OCCAM"),
        assembly=guide(ways, "PROGRAMMING"),
    )
