"""What a terminal does with its user's record: it puts it into a file, makes a film of it, and says in which lines processes wait."""

from __future__ import annotations

import contextlib
import os
import subprocess
import tempfile
from collections.abc import Iterator
from typing import TYPE_CHECKING

from ..mistakes.verbs import Wrong
from .by_line import told_by_line
from .folder import Refused, build, program
from .loads import Quiet
from .own_record import fetched
from .own_texts import OwnTexts

if TYPE_CHECKING:
    from .ports import Wiring

NO_RECORD = "nothing of your machine is recorded yet. Try: join, then load"
ENDINGS = {"record": ".replay", "film": ".html"}
# How many Steps a film has at most, so that nobody waits for it without end.
MOST_STEPS = 50_000_000


class Taking:
    """The record of a user of the farm in a folder."""

    def __init__(self, folder: str, name: str) -> None:
        self.folder, self.name, self.texts = folder, name, OwnTexts(folder, name)

    def record(self) -> bytes:
        """The newest record, as far as it goes now."""
        try:
            with Quiet(self.folder, self.name) as quiet:
                content = fetched(lambda line: quiet.ask(line)[0])
        except (OSError, Refused):
            raise Wrong("the farm doesn't give the record: try again when it is up") from None
        if not content:
            raise Wrong(NO_RECORD)
        return content

    def do(self, verb: str, file: str | None = None) -> list[str]:
        """Does `record` or `film`: what is said of it."""
        path = os.path.expanduser(file or f"{self.name}{ENDINGS[verb]}")
        refuse_other(verb, path)
        if verb == "record":
            content = self.record()
            put(path, content)
            return [f"{path}: {len(content)} bytes, your machine's record since its last restart"]
        with self.with_programs() as words:
            put(path, lab("film", *words, "--steps", f"{MOST_STEPS}"))
        return [f"{path}: the film of your machine. Open it in a browser: xdg-open {path}"]

    @contextlib.contextmanager
    def with_programs(self) -> Iterator[list[str]]:
        """The record in a file, and the programs of its nodes, as the lab wants them."""
        content = self.record()
        build("connect", "lab")
        with tempfile.TemporaryDirectory(prefix="nadzsumek-") as room:
            path = os.path.join(room, f"{self.name}.replay")
            with open(path, "wb") as it:
                it.write(content)
            programs = self.texts.all().items()
            yield [path, *(word for node, text in programs for word in ("--program", f"{node}", text))]

    def waits(self, node: int | None = None) -> list[str]:
        """In which lines of the texts that were loaded the nodes' processes are, or those of one node."""
        programs = self.texts.all()
        if not programs or (node is not None and node not in programs):
            return []
        try:
            return told_by_line(self.record(), programs, node)
        except (Wrong, OSError):
            return []

    def loaded(self, wiring: Wiring | None, host: int, path: str | None) -> None:
        """Keeps a text that was loaded."""
        with contextlib.suppress(OSError, Refused), Quiet(self.folder, self.name) as quiet:
            self.texts.loaded(wiring, host, path, lambda line: quiet.ask(line)[0])


def refuse_other(verb: str, path: str) -> None:
    """Refuses to write over a file of another kind."""
    ending = ENDINGS[verb]
    if os.path.isdir(path):
        raise Wrong(f"{path} is a folder, and {verb} wants the name of a file. Try: {verb} my{ending}")
    if os.path.exists(path) and not path.endswith(ending):
        raise Wrong(f"{path} is there, and its name doesn't end with {ending}. Try: {verb} my{ending}")


def put(path: str, content: bytes) -> None:
    """Writes a file at once."""
    try:
        with tempfile.NamedTemporaryFile(dir=os.path.dirname(path) or ".", delete=False) as it:
            it.write(content)
        os.chmod(it.name, 0o600)
        os.replace(it.name, path)
    except OSError as error:
        raise Wrong(f"{path} can't be written: {error.strerror}") from None


def lab(*words: str) -> bytes:
    """What the lab prints."""
    done = subprocess.run([program("lab"), *words], stdin=subprocess.DEVNULL, capture_output=True, check=False)
    if done.returncode != 0:
        raise Wrong(f"the lab refuses it: {done.stderr.decode(errors='replace').strip()}")
    return done.stdout
