"""How occam programs are run: processes that take turns at random, their channels, and what comes and goes at the links."""
import random
from collections import deque
from dataclasses import dataclass
from inspect import isgeneratorfunction
from collections.abc import Callable, Generator, Sequence
from typing import Any, TypeGuard

from occam.uses import Clash
from occam.values import Halts, Rules

# Channels below this are those of links, and others are within the node.
INSIDE = 8

# What a process asks of the machine, which is one of its methods and what that takes, and what it is answered.
Steps = Generator[tuple[Any, ...], Any, None]
# A process that gives its steps, and any process.
Talking = Callable[["Machine"], Steps]
Process = Callable[["Machine"], Steps | None]
# A guard of an ALT that is open: its number, and its channel, or none of SKIP.
Guard = tuple[int, int | None]


class GoesOn(Exception):
    """The program was stopped, since it had cost enough."""


@dataclass
class Talk:
    """What a run sent at each link, how many bytes it took from each, how it ended (`ended`, `halted`, `waits`, `goes on`), about how
    many instruction bytes it cost, what its variables are at its end, and whether an error came while other processes were there. These
    went on here until none could, so that a node, which halts with all of them, has sent a beginning of what is said.
    """

    said: dict[int, bytes]
    taken: dict[int, int]
    end: str
    cost: int
    store: list[int]
    is_loose: bool = False


class Task:
    """A process on its way: its steps, what its next one gets, the guards of an ALT that waits, and what waits for its end."""

    def __init__(self, steps: Steps, join: "Join | None" = None) -> None:
        self.steps, self.join = steps, join
        self.answer: list[int] | int | None = None
        self.guards: list[Guard] | None = None


class Join:
    """The end of a PAR: which task waits for it, and for how many of its components."""

    def __init__(self, task: Task, count: int) -> None:
        self.task, self.count = task, count


class Machine:
    """A run on its way. Which process takes the next step is chosen by a seed, and by it which guard an ALT takes of those that are
    ready, or else the first is taken."""

    def __init__(
        self,
        program: "Program",
        coming: dict[int, bytes],
        most: int,
        first: int,
        seed: int = 0,
        takes_any: bool = False,
    ) -> None:
        self.store, self.coming, self.most = [first] * program.variables, coming, most
        for begin, numbers in program.tables:
            self.store[begin : begin + len(numbers)] = numbers
        self.said: dict[int, bytearray] = {}
        self.taken: dict[int, int] = {}
        self.cost, self.rules = 0, program.rules
        self.random, self.takes_any = random.Random(f"{seed} runs"), takes_any
        self.ready: list[Task] = []
        self.live, self.joining, self.has_erred, self.is_loose = 0, 0, False, False
        # by channel: the task that waits with a message, the one that waits for one, the ALT that does, and messages on their way
        self.senders: dict[int, tuple[Task, list[int]]] = {}
        self.receivers: dict[int, Task] = {}
        self.alts: dict[int, Task] = {}
        self.underway: dict[int, deque[list[int]]] = {}

    def spend(self, cost: int) -> None:
        self.cost += cost
        if self.cost > self.most:
            raise GoesOn

    # -- tasks

    def run(self, steps: Steps) -> str:
        """Runs a process until none can go on, and says how it ended."""
        self.start(steps, None)
        try:
            while self.ready:
                self.step(self.ready.pop(self.random.randrange(len(self.ready)) if len(self.ready) > 1 else 0))
        except GoesOn:
            return "goes on"
        return "halted" if self.has_erred else "waits" if self.live else "ended"

    def start(self, steps: Steps, join: Join | None) -> None:
        self.live += 1
        self.ready.append(Task(steps, join))

    def step(self, task: Task) -> None:
        if task.guards is not None:
            task.answer, task.guards = self.chosen(task), None
        answer, task.answer = task.answer, None
        try:
            request = task.steps.send(answer)
        except StopIteration:
            self.finish(task)
        except Halts:
            self.has_erred = True
            self.is_loose = self.is_loose or self.live - self.joining > 1
            self.ready = self.ready if self.is_loose else []
        else:
            getattr(self, request[0])(task, *request[1:])

    def wake(self, task: Task, answer: list[int] | None = None) -> None:
        task.answer = answer
        self.ready.append(task)

    def finish(self, task: Task) -> None:
        self.live -= 1
        join = task.join
        if join is None:
            return
        join.count -= 1
        if join.count == 0:
            self.joining -= 1
            self.wake(join.task)

    def par(self, task: Task, parts: list[Steps]) -> None:
        """Starts the components of a PAR, and goes on when all have ended."""
        parts = parts[: len(parts) - self.rules.components_left_out]
        if not parts:
            self.wake(task)
            return
        self.joining += 1
        join = Join(task, len(parts) if self.rules.waits_for_all else 1)
        for part in parts:
            self.start(part, join)

    # -- channels

    def say(self, task: Task, channel: int, numbers: list[int], size: int) -> None:
        """A message goes out."""
        if channel < INSIDE:
            for number in numbers:
                data = (number & ((1 << (8 * size)) - 1)).to_bytes(size, self.rules.order)
                self.said.setdefault(channel, bytearray()).extend(data)
            self.wake(task)
            return
        if channel in self.receivers:
            self.wake(self.receivers.pop(channel), numbers)
            self.wake(task)
            return
        if channel in self.senders:
            raise ValueError("two processes send by one channel")
        if self.rules.is_synchronous:
            self.senders[channel] = task, numbers
        else:
            self.underway.setdefault(channel, deque()).append(numbers)
            self.wake(task)
        if channel in self.alts:
            self.ends_waiting(self.alts[channel])

    def hear(self, task: Task, channel: int, many: int, size: int) -> None:
        """A message is waited for."""
        if channel < INSIDE:
            self.hear_link(task, channel - 4, many, size)
            return
        if self.underway.get(channel):
            self.wake(task, self.underway[channel].popleft())
            return
        if channel in self.senders:
            sender, numbers = self.senders.pop(channel)
            self.wake(sender)
            self.wake(task, numbers)
            return
        if channel in self.receivers or channel in self.alts:
            raise ValueError("two processes hear by one channel")
        self.receivers[channel] = task

    def hear_link(self, task: Task, link: int, many: int, size: int) -> None:
        """What there is of a message at a link is taken; if it isn't whole, the task waits for ever."""
        begin = self.taken.get(link, 0)
        data = self.coming.get(link, b"")[begin : begin + many * size]
        self.taken[link] = begin + len(data)
        if len(data) == many * size:
            parts = [data[at : at + size] for at in range(0, len(data), size)]
            numbers = [int.from_bytes(it, self.rules.order, signed=size == 4) for it in parts]
            self.wake(task, [it & self.rules.byte_mask for it in numbers] if size == 1 else numbers)

    # -- ALT

    def alt(self, task: Task, guards: list[Guard]) -> None:
        """Waits until one of some open guards is ready: pairs of a number and a channel, or none of SKIP."""
        task.guards = guards
        if self.ready_guards(task):
            self.ready.append(task)
            return
        for _, channel in guards:
            # one without a channel would be ready
            assert channel is not None
            if channel in self.receivers:
                raise ValueError("two processes hear by one channel")
            self.alts[channel] = task

    def is_ready(self, channel: int | None) -> bool:
        if channel is None:
            return True
        if channel < INSIDE:
            return self.taken.get(channel - 4, 0) < len(self.coming.get(channel - 4, b""))
        return channel in self.senders or bool(self.underway.get(channel))

    def ready_guards(self, task: Task) -> list[int]:
        return [number for number, channel in task.guards or () if self.is_ready(channel)]

    def ends_waiting(self, task: Task) -> None:
        for _, channel in task.guards or ():
            if channel is not None:
                self.alts.pop(channel, None)
        self.ready.append(task)

    def chosen(self, task: Task) -> int:
        """The guard that is taken. An open SKIP is ready at once, so none after it is taken in any case."""
        ready = self.ready_guards(task)
        if self.takes_any:
            skips = [number for number, channel in task.guards or () if channel is None]
            return self.random.choice([it for it in ready if it <= min(skips, default=it)])
        return ready[-1 if self.rules.takes_last else 0]


# ---- programs


@dataclass
class Program:
    """A program that can be run: its body, how many cells for variables and elements it has, the words whose place is known, each with
    its cells, the places of its channels with their types, the tables, each with its first cell, the rules by which it is read, and
    what its components use against the rules."""

    body: Process
    variables: int
    named: list[tuple[int, tuple[int, ...], bool]]
    channels: dict[int, str]
    tables: list[tuple[int, list[int]]]
    rules: Rules
    clashes: list[Clash]

    def run(
        self,
        coming: dict[int, bytes] | None = None,
        most: int = 2_000_000,
        first: int = 0,
        seed: int = 0,
        takes_any: bool = False,
    ) -> Talk:
        """The talk of a run for what comes at each link, in which variables have a value at first that no program may depend on."""
        machine = Machine(self, coming or {}, most, first, seed, takes_any)
        end = machine.run(steps_of(self.body, machine))
        said = {link: bytes(it) for link, it in machine.said.items()}
        return Talk(said, dict(machine.taken), end, machine.cost, machine.store, machine.is_loose)


# ---- processes
# A process is a function that runs it, or one that gives its steps if it has to do with channels.


def talks(process: Process) -> TypeGuard[Talking]:
    """Whether a process gives steps."""
    return isgeneratorfunction(process)


def steps_of(process: Process, machine: Machine) -> Steps:
    """The steps of any process."""
    if talks(process):
        yield from process(machine)
    else:
        process(machine)


def after(begins: Sequence[Process], body: Process) -> Process:
    """Processes one after another, the first of which need no channel."""
    return sequence([*begins, body])


def sequence(parts: Sequence[Process]) -> Process:
    """Processes one after another."""
    if not any(map(talks, parts)):

        def run(machine: Machine) -> None:
            for part in parts:
                part(machine)

        return run
    pairs = [(part, part if talks(part) else None) for part in parts]

    def steps(machine: Machine) -> Steps:
        for part, talking in pairs:
            if talking:
                yield from talking(machine)
            else:
                part(machine)

    return steps


def parallel(parts: Sequence[Process], cost: int) -> Process:
    """Processes at the same time."""

    def steps(machine: Machine) -> Steps:
        machine.spend(cost)
        yield "par", [steps_of(part, machine) for part in parts]

    return steps


def skip(_: Machine) -> None:
    return None


def halt(_: Machine) -> None:
    raise Halts
