"""Proves crates, several at one time: how many jobs there are, which crate goes first, and what is shown of it."""
import fcntl
import os
import shutil
import signal
import sys
import time
from collections.abc import Callable, Iterable
from concurrent.futures import FIRST_COMPLETED, Future, ThreadPoolExecutor, wait
from typing import Any, NoReturn, TextIO

from progress import PAUSE, Progress, kept_seconds
from stamps import Proof, need_toolchain
from tree import TOP, is_program, stood_on

# Whether a crate is proved, what was printed, and its seconds.
Proved = tuple[bool, bytes, float]
MEMORY_OF_A_JOB = 2 << 30
# The crate for which the longest chain waits has so many. More of one crate gain little, and cost those beside it more.
JOBS_OF_THE_LONGEST = 3
MOST_JOBS_OF_A_CRATE = 4
# The system puts a crate back behind others by a rank for so many seconds by which its chain is shorter, up to the last. By that one it
# still has two fifths of a core that it shares with one other process; by rank 10 it had a tenth, and stood still beside other work.
SECONDS_OF_A_RANK = 60
LAST_RANK = 4
# The status of a program that Ctrl-C has ended.
INTERRUPTED = 130
KEPT_SECONDS = kept_seconds()
# Where the toolchain's commands are.
KIT = os.path.dirname(os.path.realpath(shutil.which("rt") or "rt"))
# The prover is to keep the memory that it has: to give pages back and to ask for them anew costs a twentieth of its time.
os.environ.setdefault("MIMALLOC_PURGE_DELAY", "-1")


def lock_alone(file: TextIO | int) -> None:
    """Locks a file until this process ends. If another build has it, that is said while it is waited."""
    try:
        fcntl.flock(file, fcntl.LOCK_EX | fcntl.LOCK_NB)
    except BlockingIOError:
        print(
            "another build is at work here: this one waits until that has ended, or until Ctrl-C",
            file=sys.stderr,
            flush=True,
        )
        fcntl.flock(file, fcntl.LOCK_EX)


def run(main: Callable[[list[str]], int]) -> NoReturn:
    """Runs a script's `main`, which Ctrl-C ends when what it has begun has ended too, without more ado."""
    try:
        need_toolchain(os.path.basename(sys.argv[0]))
        signal.signal(signal.SIGINT, signal.default_int_handler)
        sys.exit(main(sys.argv[1:]))
    except KeyboardInterrupt:
        sys.exit(INTERRUPTED)


def kit_crates(libraries: str) -> tuple[Any, dict[str, Any]]:
    """The toolchain's own commands, and its view of each crate, if the libraries of crates stand in their folders out/LIBRARIES."""
    sys.path.insert(0, KIT)
    import rtlib  # type: ignore[import] # pylint: disable=import-error,import-outside-toplevel

    rtlib.guarded()
    crates = {it.name: it for it in rtlib.crates_below(TOP)}
    for it in crates.values():
        it.rlib = f"{it.folder}/out/{libraries}/{it.name}.rlib"
    return rtlib, crates


def cores() -> int:
    """The cores that this process may use."""
    return len(os.sched_getaffinity(0))


def most_jobs() -> int:
    """Twice as many jobs as cores, as far as 2 GB of free memory for each allow."""
    with open("/proc/meminfo", encoding="ascii") as lines:
        free = next(int(it.split()[1]) << 10 for it in lines if it.startswith("MemAvailable"))
    return max(1, min(2 * cores(), free // MEMORY_OF_A_JOB))


def kilobytes(name: str, folder: str) -> float:
    """How much stands in a folder of a crate."""
    return (
        sum(os.path.getsize(f"{at}/{it}") for at, _, names in os.walk(f"{TOP}/crates/{name}/{folder}") for it in names)
        / 1000
    )


def seconds_of(name: str) -> float:
    """About how many seconds a crate takes: as many as the last time on this machine, or else by one job, as its bytes tell. A
    program is compiled too, with all that it reaches."""
    if (kept := KEPT_SECONDS.get(name)) is not None:
        return kept
    compiled = 75 if is_program(name) else 0
    return 6 + 1.5 * kilobytes(name, "src") + 0.4 * kilobytes(name, "proofs") + compiled


def seconds_ahead(wanted: Iterable[str], below: dict[str, list[str]]) -> dict[str, float]:
    """Each crate with about how many seconds the longest chain takes that begins with it."""
    ahead: dict[str, float] = {}

    def of(name: str) -> float:
        if name not in ahead:
            ahead[name] = seconds_of(name) + max((of(it) for it in wanted if name in below[it]), default=0)
        return ahead[name]

    for name in wanted:
        of(name)
    return ahead


def crates_wanted(names: Iterable[str], below: dict[str, list[str]]) -> set[str]:
    """These crates with all on which they stand."""
    for name in names:
        if name not in below:
            sys.exit(f"{os.path.basename(sys.argv[0])}: crates.txt has no crate {name}")
    return set(names).union(*(stood_on(it, below) for it in names))


def jobs_for(behind: float, ready: list[str], running: "dict[Future[Proved], tuple[str, int]]", idle: int) -> int:
    """The jobs of a crate that is begun beside those that run, and whose chain is so many seconds shorter than the longest:
    some if it is that, more if cores would idle, and else one, since more jobs of a crate end sooner and cost more."""
    spare = cores() - sum(jobs for _, jobs in running.values()) - len(ready) + 1
    asked = max(spare, 1 if behind else JOBS_OF_THE_LONGEST)
    return max(1, min(asked, MOST_JOBS_OF_A_CRATE, cores(), idle))


class Proving:
    """Crates that are proved: those that are left, the longest chain first, those at work with their jobs and when they were begun, and
    those that are done."""

    def __init__(self, wanted: set[str], most: int, below: dict[str, list[str]]) -> None:
        self.most, self.below, self.ahead = most, below, seconds_ahead(wanted, below)
        self.left, self.done = sorted(wanted, key=lambda it: (-self.ahead[it], it)), set[str]()
        self.running: dict[Future[Proved], tuple[str, int]] = {}
        self.begun: dict[str, float] = {}
        self.shown = Progress(len(wanted), "crates proved")

    def begin(self, pool: ThreadPoolExecutor, prove: Callable[[str, int, int], Proved]) -> None:
        """Begins each crate that can be begun by now."""
        ready = [it for it in self.left if self.done.issuperset(self.below[it])]
        while ready and (idle := self.most - sum(jobs for _, jobs in self.running.values())) > 0:
            longest = max(self.ahead[it] for it in [*ready, *(it for it, _ in self.running.values())])
            behind = longest - self.ahead[ready[0]]
            jobs = jobs_for(behind, ready, self.running, idle)
            rank = min(LAST_RANK, int(behind / SECONDS_OF_A_RANK))
            self.running[pool.submit(prove, ready[0], jobs, rank)] = ready[0], jobs
            self.begun[ready[0]] = time.monotonic()
            self.left.remove(ready.pop(0))

    def seconds_left(self) -> float:
        """About how many seconds there are left: of the longest chain, or of all work if that is more."""
        gone = {it: min(time.monotonic() - self.begun[it], seconds_of(it)) for it, _ in self.running.values()}
        at_work = [*self.left, *gone]
        chains = [self.ahead[it] - gone.get(it, 0) for it in at_work]
        return max([sum(seconds_of(it) - gone.get(it, 0) for it in at_work) / cores(), *chains])

    def ended(self) -> set[Future[Proved]]:
        """What has ended by now of what is at work, at least one; meanwhile it is shown how far all is."""
        while True:
            self.shown.show(len(self.done), self.seconds_left(), (it for it, _ in self.running.values()))
            if ended := wait(self.running, timeout=PAUSE, return_when=FIRST_COMPLETED).done:
                self.shown.clear()
                return ended


def prove_all(
    wanted: set[str], most: int, below: dict[str, list[str]], prove: Callable[[str, int, int], Proved]
) -> bool:
    """Proves the crates, the longest chain first, by so many jobs, and tells whether all are proved. `prove` takes a crate,
    its jobs, and how far the system may put it back; it gives whether that went well, what was printed, and seconds. Programs get
    their stamps; one without is as one that isn't proved."""
    proof = Proof(it for it in wanted if is_program(it))
    work = Proving(wanted, most, below)
    try:
        with ThreadPoolExecutor(most) as pool:
            while work.left or work.running:
                work.begin(pool, prove)
                for it in work.ended():
                    name, _ = work.running.pop(it)
                    is_well, text, seconds = it.result()
                    if not is_well:
                        sys.stderr.write(text.decode(errors="replace"))
                        print(f"{name} is not proved", file=sys.stderr)
                        return False
                    if is_program(name) and not proof.stamp(name):
                        return False
                    work.done.add(name)
                    work.shown.part_is_done(len(work.done), name, seconds)
    except KeyboardInterrupt:
        work.shown.clear()
        told = f"stopped: {len(work.done)} of {len(wanted)} crates are proved and kept; the same command goes on from there"
        print(told, file=sys.stderr)
        raise
    return True
