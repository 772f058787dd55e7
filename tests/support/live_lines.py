"""A running farm `live` with its lines, and the plans and programs with which it is tried."""

import os
import queue
import signal
import subprocess
import tempfile
import threading
from collections.abc import Callable, Sequence
from typing import IO, TypeAlias, TypeVar

from support.trials import program

SECONDS = 20
# Lines as they come, and none at the end.
Lines: TypeAlias = "queue.Queue[str | None]"
# A farm that ends compares all journals with what its users were answered, and waits for ever where that isn't so. So each trial
# lets its farm end, within this time.
CLOSE_SECONDS = 20
PLAN = """version = 3

[[domain]]
user = [{ name = "ann", host = [7] }]
range = [[0, 7]]
limit = 1000000

[[domain.node]]
memory = 4096
links = [0, -1, -1, -1]

[[domain]]
user = [{ name = "bob", host = [7] }, { name = "cas", host = [6] }]
range = [[8, 15]]
limit = 1099511627776

[[domain.node]]
memory = 4096
links = [0, -1, -1, -1]
"""
# The second of three domains has four users, a node and a host of his own for each: nodes at ports 0 to 3, hosts at 4 to 7.
FOUR = ("bob", "cas", "dan", "eve")
FOUR_PLAN = """version = 3

[[domain]]
user = [{ name = "ann", host = [7] }]
range = [[0, 7]]
limit = 1000000

[[domain.node]]
memory = 4096
links = [0, -1, -1, -1]

[[domain]]
user = [{ name = "bob", host = [4] }, { name = "cas", host = [5] }, { name = "dan", host = [6] }, { name = "eve", host = [7] }]
range = [[8, 15]]
limit = 1000000
node = [
  { memory = 2048, links = [0, -1, -1, -1] },
  { memory = 2048, links = [1, -1, -1, -1] },
  { memory = 2048, links = [2, -1, -1, -1] },
  { memory = 2048, links = [3, -1, -1, -1] },
]

[[domain]]
user = [{ name = "fay", host = [1] }]
range = [[16, 17]]
limit = 1000000

[[domain.node]]
memory = 2048
links = [0, -1, -1, -1]
"""
# bob's node, whose boot comes from his host: ajw 4, and j -2, two bytes that go round for ever.
LOOP = ["config 01000703", "boot 0 b4600e"]
# The same, but it ends after 2^24 rounds: ldc 16777216, stl 0, and then ldl 0, adc -1, stl 0, ldl 0, cj 2, j -8; stopp.
LONG = ["config 01000703", "boot 0 b4" "2120202020204" "0d0" "70608fd070a26008" "21f5"]
# Waits for a word of four bytes: ajw 4, ldlp 1, mint, ldnlp 4, ldc 4, and in at 8000004e; stopp.
WORD = ["config 01000703", "boot 0 b41124f25444f721f5"]
# What is told of it when a byte of the word has come.
WAITS = [
    "node 0 rests.",
    "  The process at 8000004e waits in `in` for 4 bytes of link 0, of which 1 came.",
    "  Input 7 drives output 0 of link 0. Of host 0 nothing waits there.",
]
# His two nodes, each of which gives the other its byte back for ever: the one that is booted last begins.
BACK = "1124f25441f7" "1124f241fb" "6003"
PINGS = ["config 01000201040301050103", f"boot 0 b4{BACK}", f"boot 1 b424f240fe{BACK}"]
PINGS_PLAN = """version = 3

[[domain]]
user = [{ name = "ann", host = [7] }]
range = [[0, 7]]
limit = 1000000

[[domain.node]]
memory = 4096
links = [0, -1, -1, -1]

[[domain]]
user = [{ name = "bob", host = [4, 5] }]
range = [[8, 13]]
limit = 1099511627776

[[domain.node]]
memory = 4096
links = [0, 1, -1, -1]

[[domain.node]]
memory = 4096
links = [2, 3, -1, -1]
"""


def live_call() -> list[str]:
    """How `live` is called with the workers that the words of ./test give it."""
    return [program("live"), "--workers", os.environ["LIVE_WORKERS"]]


def plan_of_sixteen() -> str:
    """Sixteen domains of a user each, which are alike but for their names and ports."""
    part = "version = 3\n"
    for it in range(16):
        part += f"""
[[domain]]
user = [{{ name = "user-{it}", host = [1] }}]
range = [[{2 * it}, {2 * it + 1}]]
limit = 1000000

[[domain.node]]
memory = 2048
links = [0, -1, -1, -1]
"""
    return part


It = TypeVar("It", bound="Live")


class Live:
    """A running farm, and the lines that it prints as they come. `begun` is called in its process before it starts. Unless the
    trial has failed, or has ended or killed the farm, it ends here, as any farm must whose input ends."""

    def __init__(
        self,
        plan: str,
        more: Sequence[str] = (),
        env: dict[str, str] | None = None,
        begun: Callable[[], None] | None = None,
    ) -> None:
        self.folder = tempfile.TemporaryDirectory()
        self.plan = os.path.join(self.folder.name, "plan.toml")
        with open(self.plan, "w", encoding="utf-8") as it:
            it.write(plan)
        self.process = subprocess.Popen(
            [*live_call(), *more, self.plan],
            stdin=subprocess.PIPE,
            stdout=subprocess.PIPE,
            stderr=subprocess.PIPE,
            env={**os.environ, **(env or {})},
            preexec_fn=begun,
            restore_signals=begun is None,
        )
        assert self.process.stdin and self.process.stdout and self.process.stderr
        self.stdin: IO[bytes] = self.process.stdin
        self.told: Lines = queue.Queue()
        self.errors: Lines = queue.Queue()
        for stream, lines in ((self.process.stdout, self.told), (self.process.stderr, self.errors)):
            threading.Thread(target=self.listen, args=(stream, lines), daemon=True).start()

    def listen(self, stream: IO[bytes], lines: Lines) -> None:
        for line in stream:
            lines.put(line.decode())
        lines.put(None)

    def __enter__(self: It) -> It:
        return self

    def __exit__(self, kind: object, *_: object) -> None:
        try:
            if kind is None and self.process.returncode is None:
                assert self.close() in (0, -signal.SIGKILL)
        finally:
            self.process.kill()
            self.process.wait()
            self.folder.cleanup()

    def close(self) -> int:
        """Ends the input: the status with which the farm ends."""
        self.stdin.close()
        try:
            return self.process.wait(timeout=CLOSE_SECONDS)
        except subprocess.TimeoutExpired:
            raise AssertionError(
                f"{CLOSE_SECONDS} seconds after its input the farm hasn't closed its domains"
            ) from None

    def say(self, text: str | bytes) -> None:
        self.stdin.write(text if isinstance(text, bytes) else text.encode())
        self.stdin.flush()

    def heard(self) -> str | None:
        """The next line; none at the end."""
        return self.told.get(timeout=SECONDS)

    def hear(self) -> str:
        """The next line, which must come."""
        line = self.heard()
        assert line is not None, "the farm has ended"
        return line

    def hear_error(self) -> str:
        """The next line of standard error, which must come."""
        line = self.errors.get(timeout=SECONDS)
        assert line is not None, "the farm has ended"
        return line

    def ask(self, line: str) -> str:
        self.say(line + "\n")
        return self.hear()

    def ask_why(self, line: str) -> list[str]:
        """The lines of the answer to a `why`, up to the last."""
        self.say(line + "\n")
        told = [self.hear()]
        while not told[-1].endswith(" why end\n"):
            told.append(self.hear())
        return told

    def end(self) -> tuple[int, list[str], list[str]]:
        """Ends the input: the status, and what else was printed."""
        status = self.close()
        return status, rest_of(self.told), rest_of(self.errors)


def rest_of(lines: Lines) -> list[str]:
    """What comes up to the end."""
    return [line for line in iter(lambda: lines.get(timeout=SECONDS), None) if line is not None]


def median(times: list[float]) -> float:
    """The time than which half of these are longer."""
    return sorted(times)[len(times) // 2]
