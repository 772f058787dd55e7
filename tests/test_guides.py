"""The commands that stand in the guides, and in README.md, print what is shown there.

A guide is a file docs/guides/*.md. A fenced block opens with three backquotes and one word, which says what it is:

  sh        Commands. bash runs the block as it stands, in a fresh folder that has `farm`, `lab`, `live`, `serve`,
            `connect`, `class`, `docs`, `examples` and the package `nadzsumek` as the top of the repository has them, and which is in
            the path. The blocks of one guide run in one folder, from the first to the last, so that a file which one block writes
            can be read by a later one.
  terminal  A session at a terminal. The first line is `$` and a command, which gets a terminal of its own; then comes what stands
            on its screen, in which each line `NAME> ` has what is typed behind that prompt. Nothing behind the last prompt is the
            end of the input. Numbers of events may be others.
  output    What the block of commands before it prints, on standard output and standard error together, character by
            character. A block of commands without an output prints nothing.
  occam, assembly, toml, script
            A file that the reader writes. Its first line is a remark that begins with the file's name, and the whole block is put
            into that file.
  text      A piece of a file, a picture, or bytes with remarks. It isn't run.
  rust      A piece of a crate, below a line with its file. It isn't run; docs/check compares it with the file.

What a reader has already, such as a class that is up, is made by tests/guides/NAME.sh before the first block of docs/guides/NAME.md, and
taken away by tests/guides/NAME.end.sh after the last. Each link of a guide to a file must lead to one."""

import os
import re
import signal
import subprocess
from pathlib import Path
from typing import NamedTuple

import pytest
from support.terminal_session import shown_by, steady
from support.trials import TOP, WORKERS

ROOT = Path(TOP)
GUIDES = [ROOT / "README.md", *sorted((ROOT / "docs/guides").glob("*.md"))]
LINKED = ("lab", "live", "serve", "connect", "class", "docs", "examples", "nadzsumek")
# A call of `farm` with its number of workers, if it names none.
FARM = '#!/bin/sh\ncase " $* " in *" --workers"*) ;; *) set -- "$@" --workers {} ;; esac\nexec "{}" "$@"\n'
FILES = ("occam", "assembly", "toml", "script")
KINDS = ("sh", "terminal", "output", "text", "rust", *FILES)
NAME = re.compile(r"(?:--|#) (\w[\w.-]*)")
MOST_SECONDS = 60


class Block(NamedTuple):
    """A fenced block: the line of the guide on which its contents begin comes first."""

    start: int
    kind: str
    contents: str


def blocks_of(text: str) -> list[Block]:
    """The fenced blocks of a guide."""
    blocks, kind, start, contents = list[Block](), None, 0, ""
    for number, line in enumerate(text.splitlines(keepends=True), 1):
        fence = line.startswith("```")
        if kind is None and fence:
            kind, start, contents = line[3:].strip(), number + 1, ""
            assert kind in KINDS, f"line {number}: a block is one of {', '.join(KINDS)}"
        elif kind is not None and fence:
            blocks.append(Block(start, kind, contents))
            kind = None
        elif kind is not None:
            contents += line
    assert kind is None, f"line {start}: the block has no end"
    return blocks


def path_in(folder: str) -> str:
    """The path of commands with this folder first."""
    return f"{folder}:{os.environ['PATH']}"


def printed_by(commands: str, folder: str) -> str:
    """What commands print in a folder, which must end in time; else all that they began is stopped."""
    with subprocess.Popen(
        ["bash", "-c", commands],
        cwd=folder,
        env={**os.environ, "PATH": path_in(folder)},
        stdin=subprocess.DEVNULL,
        stdout=subprocess.PIPE,
        stderr=subprocess.STDOUT,
        start_new_session=True,
    ) as running:
        try:
            printed, _ = running.communicate(timeout=MOST_SECONDS)
        except subprocess.TimeoutExpired:
            os.killpg(running.pid, signal.SIGKILL)
            raise
    return printed.decode(errors="backslashreplace")


@pytest.fixture
def place(tmp_path: Path, live: str) -> Path:
    """The folder in which a guide's commands are run."""
    for name in LINKED:
        (tmp_path / name).symlink_to(ROOT / name)
    (tmp_path / "live").unlink()
    (tmp_path / "live").write_text(f'#!/bin/sh\nexec "{live}" "$@"\n', encoding="utf-8")
    (tmp_path / "live").chmod(0o755)
    return tmp_path


def scaffold(guide: Path, ending: str, folder: Path) -> None:
    """Does what is around a guide, if there is something."""
    script = ROOT / "tests/guides" / f"{guide.stem}{ending}"
    if script.exists():
        done = subprocess.run(
            ["bash", "-e", str(script)],
            cwd=folder,
            env={**os.environ, "PATH": path_in(str(folder))},
            capture_output=True,
            text=True,
            timeout=MOST_SECONDS,
        )
        assert done.returncode == 0, f"{script.name}: {done.stderr or done.stdout}"


def follow(block: Block, printed: str, folder: Path) -> None:
    """Does what a block says, and compares what comes of it."""
    if block.kind in FILES:
        named = NAME.match(block.contents)
        assert named, f"line {block.start}: a file without its name"
        (folder / named[1]).write_text(block.contents, encoding="utf-8")
    elif block.kind == "terminal":
        shown = shown_by(block.contents, str(folder), HOME=str(folder), PATH=path_in(str(folder)))
        assert (block.start, shown) == (block.start, steady(block.contents))
    elif block.kind == "sh":
        assert (block.start, printed_by(block.contents, str(folder))) == (block.start, printed)


@pytest.mark.parametrize("workers", WORKERS)
@pytest.mark.parametrize("guide", GUIDES, ids=[it.name for it in GUIDES])
def test_guide(guide: Path, workers: int, place: Path) -> None:
    (place / "farm").write_text(FARM.format(workers, ROOT / "farm"), encoding="utf-8")
    (place / "farm").chmod(0o755)
    blocks = blocks_of(guide.read_text(encoding="utf-8"))
    for before, block in zip([None, *blocks], blocks):
        assert block.kind != "output" or before and before.kind == "sh", f"line {block.start}: an output of nothing"
    scaffold(guide, ".sh", place)
    try:
        for block, behind in zip(blocks, [*blocks[1:], None]):
            follow(block, behind.contents if behind and behind.kind == "output" else "", place)
    finally:
        scaffold(guide, ".end.sh", place)


@pytest.mark.parametrize("guide", GUIDES, ids=[it.name for it in GUIDES])
def test_links(guide: Path) -> None:
    targets = re.findall(r"\]\(([^)#\s]+)[^)]*\)", guide.read_text(encoding="utf-8"))
    assert [it for it in targets if "://" not in it and not (guide.parent / it).exists()] == []
