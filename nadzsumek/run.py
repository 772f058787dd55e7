"""Runs programs without a plan and without a script: `lab run hello.occ --send "abc"`. It makes the plan and the script, has the program's
own `lab run` make the record, and shows what came to each host, and by `lab why` what each node does then."""

from __future__ import annotations

import argparse
import os
import re
import subprocess
import sys
import tempfile

from .mistakes.places import shown as as_shown
from .mistakes.verbs import Wrong
from .serving.escapes import escaped
from .serving.folder import Refused
from .serving.plans import LIMIT as LIMITS
from .serving.plans import MEMORY, VERSION, Machine
from .serving.programs import ASSEMBLY, OCCAM, is_program, near_file
from .serving.values import as_letters, as_numbers, typed_bytes

USER, LINKS = "you", 4
MORE = "More bytes would come: --steps N with a larger N lets them"
# How many events a domain records at most, and how many Steps may be done unless it is said.
LIMIT, STEPS = LIMITS[-1], 20_000_000
# After a line a node does so many Steps at most.
STEPS_OF_LINE = 256 * 10_000
# How often each host is asked for what came.
MOST_ROUNDS = 10_000
# A host's queue takes 4,096 bytes, so longer values are given in pieces.
PIECE_BYTES = 2048
# How many bytes of a host are shown.
MOST_SHOWN = 512
UNREAD, STOPPED, INTERRUPTED = 6, 7, 130
USAGE = "lab run PROGRAM.. [--send VALUES].. [--send-to HOST VALUES].. [--memory N] [--steps N] [--record 0]"
HELP = f"""
With programs in place of the script, whose names end with .occ or .s, it runs them, and shows what
came to their hosts, and why each node does no more:

  lab run hello.occ
  lab run echo.s --send "abc"
  lab run plus.occ pass.occ --send "word 5 -7"

A program by itself has a host at each of its links, hosts 0 to 3. Several are the nodes of a row: host
0 is at link 0 of the first, link 1 of each at link 0 of the next, and host 1 at link 1 of the last.
{STEPS} Steps may be done in all, unless --steps is given.

Options:
      --send <VALUES>                        Sends host 0 a text, or "word 5 -7", "byte 1", "hex 0a0b"
      --send-to <HOST VALUES> <HOST VALUES>  Sends another host these values
      --memory <N>                           How many bytes of memory each node has, 65536 unless given
"""


class Wired(Machine):
    """A node with a host at each link, or several in a row with a host at each end."""

    def links(self) -> int:
        return LINKS if self.nodes == 1 else 2

    def plan(self) -> str:
        return VERSION + self.domain(USER, [[0, self.ports() - 1]])

    def loads(self, programs: list[str]) -> list[str]:
        """The lines that load the programs, the last one first: each finds those behind it joined and running, so that what it
        sends them at once isn't lost."""
        if self.nodes == 1:
            return [*(f"join {link} {self.host_port(link)}" for link in range(LINKS)), f"load 0 {programs[0]}"]
        lines = [f"join {self.host_port(0) - 1} {self.host_port(1)}"]
        for node in reversed(range(self.nodes)):
            first = self.link_port(node)
            lines.append(f"join {first} {self.host_port(0)}")
            lines += [f"join {first + 1} {first + 2}"] if node < self.nodes - 1 else []
            lines.append(f"load 0 {programs[node]}")
        return lines


def wired(it: argparse.Namespace, limit: int = LIMIT) -> Wired:
    """The machine of these words."""
    count = len(it.programs)
    return Wired(count, LINKS if count == 1 else 2, it.memory, limit)


class Send(argparse.Action):
    """Notes the host and the bytes of a `--send` or a `--send-to`, in their order."""

    def __call__(
        self, parser: argparse.ArgumentParser, namespace: argparse.Namespace, values: object, option: str | None = None
    ) -> None:
        host, text = values if isinstance(values, list) else ("0", f"{values}")
        if not re.fullmatch(r"[0-3]", host):
            parser.error(
                f"{escaped(host)!r} is no host: there are hosts 0 to 3, or 0 and 1 if the programs are several"
            )
        try:
            namespace.sends = [*namespace.sends, (int(host), typed_bytes(text))]
        except Wrong as wrong:
            parser.error(f"{option}: " + escaped(f"{wrong}".partition(" Try: ")[0]))


def words_of(given: list[str]) -> argparse.Namespace:
    """The words after `run`. Wrong ones end this with the usage."""
    parser = argparse.ArgumentParser(prog="lab run", usage=USAGE, allow_abbrev=False)
    parser.add_argument("programs", nargs="+")
    parser.add_argument("--send", action=Send, dest="sends", default=[])
    parser.add_argument("--send-to", action=Send, dest="sends", nargs=2)
    parser.add_argument("--memory", type=int, default=MEMORY[-1])
    parser.add_argument("--steps", type=int)
    parser.add_argument("--record", choices=("0",))
    it = parser.parse_intermixed_args(given)
    other = next((name for name in it.programs if not is_program(name)), None)
    if other is not None:
        parser.error(
            f"{escaped(other)!r} is no program, whose name ends with {OCCAM} or {ASSEMBLY}. Values with blanks are one "
            f'word in quotes: --send "word 5 7"'
        )
    try:
        wired(it).check()
    except Refused as refused:
        parser.error(f"{refused}".replace("--nodes", "the number of programs"))
    if it.steps is not None and it.steps not in range(1, LIMIT + 1):
        parser.error(f"--steps is 1 to {LIMIT}")
    if len(it.programs) > 1 and any(host > 1 for host, _ in it.sends):
        parser.error("a row of several programs has the hosts 0 and 1")
    return it


class Lab:
    """The lab, with the front end of occam beside it."""

    def __init__(self, program: str) -> None:
        front = os.path.join(os.path.dirname(os.path.abspath(__file__)), "occam", "asking.py")
        self.call = [sys.executable, "-S", "-B", "-P", front, program]

    def ask(self, *words: str, text: bytes = b"") -> tuple[int, str, str]:
        """The status of the lab, what it prints, and what it says."""
        done = subprocess.run([*self.call, *words], input=text, capture_output=True, check=False)
        return done.returncode, done.stdout.decode(errors="replace"), done.stderr.decode(errors="replace")


def check_file(path: str) -> None:
    """Refuses a file that can't be read."""
    try:
        with open(path, "rb"):
            return
    except OSError as error:
        why, near = f"it can't be read: {error.strerror}", near_file(path)
    print(
        escaped(f"{path}: {why}" + (f". Is it {near}?" if near and not os.path.exists(path) else "")), file=sys.stderr
    )
    sys.exit(UNREAD)


def check_text(lab: Lab, path: str, memory: int, are_several: bool) -> None:
    """Shows the mistakes and the warnings of a program, and ends this if it is refused."""
    if path.endswith(OCCAM):
        status, _, told = lab.ask("occam", path, "--listing", "--memory", f"{memory}")
    else:
        with open(path, "rb") as file:
            status, _, told = lab.ask("assemble", "--listing", text=file.read())
        told = as_shown(path, told)
    for line in told.splitlines():
        print(escaped(line, "\t"), file=sys.stderr)
    if status:
        sys.exit(status)


def script_of(it: argparse.Namespace, limit: int) -> bytes:
    """The plan and the script. A line gives a node so many Steps at most, so each host is asked again for what came, until all
    Steps are done that may be."""
    machine = wired(it, limit)
    lines = machine.loads([os.path.abspath(path) for path in it.programs])
    collects = [f"collect {host}" for host in range(machine.hosts)]
    for host, content in it.sends:
        for at in range(0, len(content), PIECE_BYTES):
            # what comes is collected before more is sent, so that queues have room
            lines += [f"write {host} {content[at : at + PIECE_BYTES].hex()}", *collects]
    lines += collects * min((it.steps or STEPS) // STEPS_OF_LINE + 1, MOST_ROUNDS)
    return (machine.plan() + "---\n" + "".join(f"{USER} {line}\n" for line in lines)).encode("utf-8", "surrogateescape")


def record_of(lab: Lab, it: argparse.Namespace) -> tuple[str, int]:
    """The record of the run, and the status. If the Steps weren't enough, it is the record of so many events."""
    steps = it.steps or STEPS
    status, record, told = lab.ask("run", "--record", "0", "--steps", f"{steps}", text=script_of(it, LIMIT))
    if status == STOPPED:
        return lab.ask("run", "--record", "0", text=script_of(it, steps))[1], STOPPED
    if status:
        print(escaped(told, "\n"), end="", file=sys.stderr)
        sys.exit(status)
    return record, 0


def bytes_come(record: str, host: int) -> bytes:
    """The bytes that came to a host."""
    return bytes.fromhex("".join(re.findall(rf"^0 read {host} @0 = ([0-9a-f]{{2}})$", record, re.MULTILINE)))


def shown(host: int, content: bytes) -> list[str]:
    """What came to a host: as letters if they can be printed, as numbers if they are whole words, and as bytes."""
    if not content:
        return [f"host {host} got no byte"]
    part = content[:MOST_SHOWN]
    more = f" .. and {len(content) - len(part)} bytes more" if len(content) > len(part) else ""
    letters, numbers = as_letters(part), as_numbers(part)
    return [
        f"host {host} got {len(content)} byte{'s' if len(content) > 1 else ''}",
        *([f"  letters  {letters}{more}"] if letters else []),
        *([f"  numbers  {numbers}{more}"] if numbers and len(content) % 4 == 0 else []),
        f"  bytes    {part.hex(' ')}{more}",
    ]


def hosts_shown(it: argparse.Namespace, record: str) -> list[str]:
    """What came to the hosts, and which bytes they didn't take."""
    hosts = range(wired(it).hosts)
    came = {host: bytes_come(record, host) for host in hosts}
    lines = [
        line
        for host in hosts
        if came[host] or (host == 0 and not any(came.values()))
        for line in shown(host, came[host])
    ]
    for host in hosts:
        left = len(re.findall(rf"^0 write {host} \w\w @0 = full$", record, re.MULTILINE))
        lines += [f"host {host} took {left} bytes less than were to be sent, as its queue was full"] if left else []
    return lines


def why_of(lab: Lab, it: argparse.Namespace, record: str) -> list[str]:
    """What each node does at the end of the record."""
    with tempfile.NamedTemporaryFile(prefix="run.", suffix=".replay") as file:
        file.write(record.encode("utf-8", "surrogateescape"))
        file.flush()
        words = [word for node, path in enumerate(it.programs) for word in ("--program", f"{node}", path)]
        status, told, errors = lab.ask("why", file.name, *words)
    # the first line says how many events there are
    lines = told.splitlines()[1:] if status == 0 else errors.splitlines()
    return lines + [MORE] * any("as its queue is full: it is to be read" in line for line in lines)


def run(program: str, words: list[str]) -> int:
    """Runs the programs that the words after `run` name; the status."""
    if any(it in ("-h", "--help") for it in words):
        print(
            subprocess.run([program, "run", "--help"], capture_output=True, check=False, text=True).stdout + HELP,
            end="",
        )
        return 0
    it, lab = words_of(words), Lab(program)
    for path in it.programs:
        check_file(path)
    for path in dict.fromkeys(it.programs):
        check_text(lab, path, it.memory, len(it.programs) > 1)
    record, status = record_of(lab, it)
    if it.record:
        print(record, end="")
    else:
        print("\n".join(escaped(line) for line in (*hosts_shown(it, record), *why_of(lab, it, record))), flush=True)
    if status == STOPPED:
        print(
            f"stopped after {it.steps or STEPS} Steps: it may run for ever, and --steps N allows more", file=sys.stderr
        )
    return status


def main(program: str, words: list[str]) -> int:
    """The status of a run. Ctrl-C and a reader that is gone end it without a word."""
    try:
        return run(program, words)
    except KeyboardInterrupt:
        return INTERRUPTED
    except OSError as error:
        if not isinstance(error, BrokenPipeError):
            print("io", file=sys.stderr)
        os.dup2(os.open(os.devnull, os.O_WRONLY), sys.stdout.fileno())
        return UNREAD
