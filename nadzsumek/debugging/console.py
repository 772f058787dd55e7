"""A terminal of the debugger: lines can be edited and recalled, and gdb's words are other names for what `lab debug` does. It goes through
time by the lines of a program's processes, and hands all other lines on to `lab debug`."""

from __future__ import annotations

import contextlib
import os
import re
import readline
import sys
from collections.abc import Callable, Iterator

from ..mistakes.nearness import nearest
from ..mistakes.verbs import Wrong
from ..serving.folder import program
from .engine import Engine, Process, Refused

HISTORY = os.path.expanduser("~/.nadzsumek_debug_history")
MOST_HISTORY = 1000
PROMPT = "debug> "
# How many lines `list` shows before the line and after it.
AROUND = 5
# What the words of gdb are here, and short forms.
ALIASES = {
    "s": "step",
    "n": "next",
    "rs": "reverse-step",
    "rn": "reverse-next",
    "c": "continue",
    "rc": "reverse-continue",
    "l": "list",
    "b": "break",
    "d": "delete",
    "p": "print",
    "bt": "where",
    "backtrace": "where",
    "threads": "where",
    "thread": "process",
    "t": "process",
    "i": "info",
    "q": "quit",
    "exit": "quit",
    "h": "help",
    "?": "help",
    "run": "continue",
    "x": "memory",
    "disassemble": "code",
    "goto": "go",
}
HELP = """step, next            on to the process's next line; next passes over instances of PROCs
reverse-step, ..-next back to the line before
continue              on to a breakpoint, a fault or the end of the record; reverse-continue goes back
break LINE, delete    a breakpoint of this node, or none any more
where                 each process, its line and what it waits for; * is the one that is followed
process N, node K     follows another process of where, or another node
list [LINE]           the program around the line
print NAME            a variable of the node, or all without NAME
event, back, go N     one event on or back, or to the moment after N events; until .. and back until ..
quit                  the end; what else lab debug knows is below"""
# The commands of `lab debug`, those that go through time, and those that want a node first, which is the one that is followed.
OF_LAB = "go back trace until events look registers memory code variables queue links hosts switch why program".split()
OF_TIME = ("go", "back", "until", "trace")
OF_NODES = ("registers", "memory", "code", "variables", "queue", "links", "why")
# A command that stands alone.
EVENT = re.compile(r"(event|next)(?: (\d+))?")


class Console:
    """The commands of a person at one record."""

    def __init__(self, engine: Engine, show: Callable[[str], None]) -> None:
        self.engine, self.show = engine, show
        self.node, self.workspace = min(engine.programs, default=0), 0
        self.stops: set[tuple[int, int]] = set()
        self.listed: int | None = None
        self.commands: dict[str, Callable[[str], None]] = {
            "step": lambda _: self.step("in", False),
            "next": lambda _: self.step("over", False),
            "reverse-step": lambda _: self.step("in", True),
            "reverse-next": lambda _: self.step("over", True),
            "continue": lambda _: self.go_on(False),
            "reverse-continue": lambda _: self.go_on(True),
            "break": self.stop_at,
            "delete": self.delete,
            "where": lambda _: self.where(),
            "process": self.follow,
            "node": self.follow_node,
            "list": self.list,
            "print": lambda name: self.ask(f"variables {self.node} {name}".strip()),
            "info": lambda _: self.info(),
            "help": lambda _: self.help(),
        }

    # ---- who there is

    def processes(self) -> list[Process]:
        """All processes; the one that is followed is there still, or is another of its node."""
        its = self.engine.processes()
        own = [it for it in its if it.node == self.node]
        if own and self.workspace not in [it.workspace for it in own]:
            self.workspace = next((it for it in own if it.state == "goes on"), own[0]).workspace
        return its

    def followed(self) -> Process:
        its = [it for it in self.processes() if (it.node, it.workspace) == (self.node, self.workspace)]
        if not its:
            raise Refused(f"there is no node {self.node}")
        return its[0]

    def where(self) -> None:
        for number, it in enumerate(self.processes(), 1):
            mark = "*" if (it.node, it.workspace) == (self.node, self.workspace) else " "
            self.show(f"{mark} {number}  node {it.node}  {self.at(it)}  {it.state} {it.wait}".rstrip())
        for text in self.engine.ask("why"):
            if "deadlock" in text or "lost" in text:
                self.show(f"  {text.strip()}")

    def at(self, it: Process) -> str:
        """Where a process is."""
        if it.spot.line is None:
            return f"at {it.address:08x}" if it.address else ""
        instance = f" ({it.spot.instance})" if it.spot.instance else ""
        return f"line {it.spot.line}{instance}: {self.text(it.node, it.spot.line)}"

    def lines(self, node: int) -> list[str]:
        """The lines of a node's program."""
        path = self.engine.programs.get(node)
        if path is None:
            raise Refused(f"the text of node {node}'s program isn't known: program {node} FILE names it")
        with open(path, encoding="utf-8", errors="replace") as it:
            return it.read().splitlines()

    def text(self, node: int, line: int) -> str:
        lines = self.lines(node)
        return lines[line - 1].strip() if line <= len(lines) else ""

    def here(self) -> None:
        """Shows the moment, and where the process that is followed is."""
        it, self.listed = self.followed(), None
        self.show(
            f"after {self.engine.here} of {self.engine.events} events, node {it.node}: {it.state} {it.wait}".rstrip()
        )
        if it.spot.line is not None:
            self.show(f"{it.spot.line:>5}  {self.text(it.node, it.spot.line)}")

    def follow(self, word: str) -> None:
        its = self.processes()
        if not word.isdigit() or not 0 < int(word) <= len(its):
            raise Refused(f"process wants a number from 1 to {len(its)}, as where shows them")
        self.node, self.workspace = its[int(word) - 1].node, its[int(word) - 1].workspace
        self.here()

    def follow_node(self, word: str) -> None:
        nodes = sorted({it.node for it in self.processes()})
        if not word.isdigit() or int(word) not in nodes:
            raise Refused(f"node wants one of {', '.join(map(str, nodes))}")
        self.node, self.workspace = int(word), 0
        self.here()

    # ---- through time

    def step(self, how: str, back: bool) -> None:
        its, before = self.followed(), self.engine.here
        reason, node = self.engine.step(its, how, back, self.stops)
        if reason == "end":
            self.show(f"the process comes to no {'line before this' if back else 'other line'}")
            # nobody wants to be in the boot, where the process isn't there yet
            self.engine.go(before if back else self.engine.here)
        elif node != self.node:
            self.node, self.workspace = node, 0
        self.here()

    def go_on(self, back: bool) -> None:
        stops = sorted(self.stops)
        met = self.engine.seek([f"node {node} at line {line}" for node, line in stops] + ["fault"], back)
        if met is None:
            self.show("the record begins here" if back else "the record ends here")
        elif met < len(stops):
            self.node, self.workspace = stops[met][0], 0
            goes_on = [it for it in self.processes() if it.node == self.node and it.state == "goes on"]
            self.workspace = goes_on[0].workspace if goes_on else self.workspace
        self.here()

    # ---- breakpoints

    def stop_at(self, word: str) -> None:
        if not word:
            return self.info()
        if not word.isdigit():
            raise Refused("break wants the number of a line: break 14")
        line = self.engine.line_with_code(self.node, int(word))
        if line is None:
            raise Refused(f"no line from {word} on has code")
        self.stops.add((self.node, line))
        self.show(f"breakpoint at line {line} of node {self.node}: {self.text(self.node, line)}")

    def delete(self, word: str) -> None:
        self.stops = {it for it in self.stops if word and it != (self.node, int(word) if word.isdigit() else -1)}
        self.info()

    def info(self) -> None:
        for node, line in sorted(self.stops):
            self.show(f"breakpoint at line {line} of node {node}: {self.text(node, line)}")
        if not self.stops:
            self.show("there is no breakpoint: break LINE sets one")

    # ---- the text

    def list(self, word: str) -> None:
        lines = self.lines(self.node)
        its = {it.spot.line: it for it in reversed(self.processes()) if it.node == self.node and it.spot.line}
        here = self.followed()
        if here.spot.line:
            its[here.spot.line] = here
        middle = int(word) if word.isdigit() else self.listed or here.spot.line or 1
        first = max(1, min(middle - AROUND, len(lines) - 2 * AROUND))
        for number in range(first, min(first + 2 * AROUND, len(lines)) + 1):
            mark = ">" if number == here.spot.line else "*" if number in its else " "
            self.show(f"{mark}{number:>4}  {lines[number - 1]}")
        self.listed = first + 3 * AROUND + 1

    # ---- what lab debug does

    def help(self) -> None:
        for line in HELP.splitlines():
            self.show(line)
        self.ask("help")

    def ask(self, command: str) -> None:
        before = self.engine.here
        for line in self.engine.ask(command):
            self.show(line)
        if self.engine.here != before:
            self.workspace = 0

    def run_lines(self) -> None:
        """Does lines until they end."""
        for line in lines_typed():
            try:
                self.do(line)
            except (Refused, ValueError, OSError) as why:
                print(f"error: {why}", flush=True)
            except KeyboardInterrupt:
                print(flush=True)

    def run(self) -> None:
        """Lets a person go through the record, and ends the debugger."""
        try:
            for text in self.engine.said:
                self.show(text)
            self.where()
            with own_lines([*self.commands, *OF_LAB, "event", "quit"]):
                self.run_lines()
        finally:
            self.engine.quit()

    def command_of(self, word: str) -> str:
        """The command that a word or its beginning names."""
        begun = [it for it in (*self.commands, *OF_LAB, "event") if it.startswith(word)]
        return ALIASES.get(word) or (begun[0] if len(begun) == 1 and word else word)

    def do(self, line: str) -> None:
        """Does one line; a wrong one is Refused."""
        first, _, rest = line.strip().partition(" ")
        first, rest = self.command_of(first), rest.strip()
        if (event := EVENT.fullmatch(f"{first} {rest}".strip())) and (event[1] == "event" or event[2]):
            self.ask(f"next {event[2] or 1}")
        elif first in self.commands:
            if first not in ("break", "delete", "process", "node", "list", "print") and rest:
                raise Refused(f"{first} stands alone. Try: {first}")
            self.commands[first](rest)
        elif first in OF_LAB:
            words = rest.split()
            is_bare = first in OF_NODES and not (words and words[0].isdigit() and int(words[0]) < 8)
            node = f"{self.node} " if is_bare and (first != "why" or words) else ""
            self.ask(f"{first} {node}{rest}".strip())
        else:
            near = nearest(first, [*self.commands, *OF_LAB, "event", "quit"], 0.5)
            raise Refused(f"there is no command {first!r}. " + (f"Is it {near}?" if near else "Try: help"))


def lines_typed() -> Iterator[str]:
    """The lines that a person types, or those of standard input. An empty one is the one before it again."""
    last = ""
    is_person = sys.stdin.isatty() and sys.stdout.isatty()
    while True:
        try:
            line = input(PROMPT if is_person else "")
        except KeyboardInterrupt:
            print(flush=True)
            continue
        except EOFError:
            if is_person:
                print(flush=True)
            return
        last = line if line.strip() else last
        if ALIASES.get(last.strip(), last.strip()) == "quit":
            return
        if last.strip() and not last.lstrip().startswith("#"):
            yield last


@contextlib.contextmanager
def own_lines(names: list[str]) -> Iterator[None]:
    """Has the history and the completion of this terminal in the place of those that are there."""
    before = [readline.get_history_item(it + 1) for it in range(readline.get_current_history_length())]
    completer = readline.get_completer()
    readline.clear_history()
    with contextlib.suppress(OSError):
        readline.read_history_file(HISTORY)
    readline.set_history_length(MOST_HISTORY)
    readline.set_completer(lambda text, number: [*(f"{it} " for it in names if it.startswith(text)), None][number])
    readline.parse_and_bind("tab: complete")
    try:
        yield
    finally:
        with contextlib.suppress(OSError):
            readline.write_history_file(HISTORY)
        readline.clear_history()
        for line in before:
            readline.add_history(line)
        readline.set_completer(completer)


def opened(words: list[str], lab: list[str] | None = None) -> Console | None:
    """A console at a record, by the words of `lab debug`; none if these are others, or the record can't be opened."""
    record, programs, rest = "", dict[int, str](), iter(words)
    for word in rest:
        node, file = (next(rest, ""), next(rest, "")) if word == "--program" else ("", "")
        if node.isdigit() and file:
            programs[int(node)] = file
        elif word.startswith("-") or record:
            return None
        else:
            record = word
    if not record:
        return None
    try:
        engine = Engine.open(lab or [program("lab")], record, programs, -1)
    except Refused:
        return None
    engine.go(engine.events)
    return Console(engine, lambda text: print(text, flush=True))


def look_through(words: list[str]) -> None:
    """Lets a person go through a record: its path, and the programs of its nodes as the lab wants them."""
    console = opened(words)
    if console is None:
        raise Wrong("the debugger can't open the record. Try: record, and then lab debug with its file")
    console.run()
