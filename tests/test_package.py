"""The package for scripts: the operator, machines, words, loads that would be lost, and mistakes of Python's own kinds."""

import asyncio
import os
import shutil
import subprocess
import sys
from collections.abc import Callable, Iterator

import pytest
from support.serving_trials import Served, plan_of_users
from support.trials import TOP, put

import nadzsumek
from nadzsumek import NoProgram, Refused

# Adds 1 to each word of link 0.
ADDS = """CHAN OF INT from, to:
PLACE from AT link0.in:
PLACE to AT link0.out:
INT n:
WHILE TRUE
  SEQ
    from ? n
    to ! n + 1
"""


@pytest.fixture(scope="module")
def served() -> Iterator[Served]:
    with Served(plan_of_users(["ann", "bob"])) as it:
        yield it


@pytest.fixture(scope="module")
def program(served: Served) -> str:
    return put(f"{served.room.name}/adds.occ", ADDS)


def test_operator(served: Served) -> None:
    """`users` is answered at once, by a line and as values."""
    farm = nadzsumek.Farm(served.folder)
    with farm.operator() as operator, farm.user("ann") as ann:
        ann.restart()
        ann.join(0, 1)
        found = {it.name: it for it in operator.users()}
        assert sorted(found) == ["ann", "bob"]
        assert (found["ann"].events > 0, found["ann"].rest, found["ann"].limit) == (
            True,
            nadzsumek.Rest.QUIET,
            1000000000,
        )
        with farm.user("operator") as plain:
            assert [it.split(" ")[1] for it in plain.ask("users")] == ["ann", "bob"]
            assert plain.ask("words")[0].startswith("!words ")
        operator.restart_user("ann")
        assert {it.name: it.events for it in operator.users()}["ann"] == 0
        operator.tell("we end at five")
        assert ann.rest() is nadzsumek.Rest.QUIET
        assert any("we end at five" in it.text for it in ann.notes)


def test_machine_and_words(served: Served, program: str) -> None:
    """A program is placed at a node by one call, and words come back."""
    with nadzsumek.Farm(served.folder).user("bob") as bob:
        assert bob.machine.nodes[0].links == (0, None, None, None)
        assert bob.machine.hosts[0].port == 1
        bob.restart()
        bob.place(program)
        assert bob.send_words(0, 5, -7, 0x7FFFFFFE) == 12
        assert bob.collect_words(0, 3) == (6, -6, 0x7FFFFFFF)
        for node, host in ((1, None), (0, 3)):
            with pytest.raises(ValueError, match="there is no "):
                bob.place(program, node, host)
        assert "place" in dir(bob) and "dialogue" not in dir(bob)
        assert repr(bob) == f"<User bob of {served.folder}>"


def test_lost_loads(served: Served, program: str) -> None:
    """A program that would be lost is refused: nothing is joined, or the node runs. Then nothing has changed."""
    with nadzsumek.Farm(served.folder).user("ann") as ann:
        ann.restart()
        with pytest.raises(Refused, match="is joined with no node") as lost:
            ann.load(0, program)
        assert lost.value.word == "notbooting"
        ann.join(0, 1)
        ann.load(0, program)
        with pytest.raises(Refused, match="takes no boot before it is reset"):
            ann.load(0, program)
        ann.send_words(0, 1)
        assert ann.collect_words(0, 1) == (2,)
        ann.reset(0)
        ann.load(0, program)
        ann.load(0, b"\x21\xf5", checked=False)

    async def other() -> None:
        async with nadzsumek.Farm(served.folder).async_user("ann") as user:
            await user.restart()
            with pytest.raises(Refused, match="joined with no node"):
                await user.load(0, program)
            await user.place(program)
            await user.send_words(0, 41)
            assert await user.collect_words(0, 1) == (42,)

    asyncio.run(other())


def test_mistakes_of_scripts(served: Served) -> None:
    """Each is an error of the kind that Python has for it, and nothing is sent."""
    with nadzsumek.Farm(served.folder).user("ann") as ann:
        before = ann.watch()
        rows: list[tuple[Callable[[], object], type[Exception], str]] = [
            (lambda: ann.look("0"), TypeError, "a node is a number, not '0'"),
            (lambda: ann.join(0, None), TypeError, "a port is a number"),
            (lambda: ann.load(0, 7), TypeError, "a program is a file"),
            (lambda: ann.load(0, "nofile.occ"), FileNotFoundError, "there is no file nofile.occ"),
            (lambda: ann.load(0, "nofile.occ"), NoProgram, "there is no file"),
            (lambda: ann.poke(0, 0x80000100, 1 << 32), ValueError, "a word is -2147483648 to 4294967295"),
            (lambda: ann.poke(0, -1, 0), ValueError, "an address is 0 to"),
            (lambda: ann.write(0, b""), ValueError, "there are no bytes"),
            (lambda: ann.send_words(0, 1 << 40), ValueError, "a word is"),
            (lambda: ann.look(-1), ValueError, "a node is 0 to"),
        ]
        for call, kind, told in rows:
            with pytest.raises(kind, match=told):
                call()
        assert ann.watch().lines == before.lines
        ann.restart()
        ann.join(0, 1)
        ann.poke(0, 0x80000100, -1)
        assert ann.peek(0, 0x80000100) == 0xFFFFFFFF
    with pytest.raises(nadzsumek.NoFarm, match="this connection was closed"):
        ann.rest()


# A script far from the repository.
AWAY = """import sys
import nadzsumek
with nadzsumek.Farm(sys.argv[1]).user("bob") as bob:
    bob.restart()
    bob.place(sys.argv[2])
    bob.send_words(0, 1)
    print(nadzsumek.__file__, bob.collect_words(0, 1))
"""


def test_installed_by_pip(served: Served, program: str, folder: str) -> None:
    """The package stands by itself, with its types, and finds the commands in the path."""
    pytest.importorskip("setuptools")
    source, there = f"{folder}/source", f"{folder}/there"
    os.mkdir(source)
    for it in ("pyproject.toml", "VERSION"):
        shutil.copy(f"{TOP}/{it}", source)
    shutil.copytree(f"{TOP}/nadzsumek", f"{source}/nadzsumek", ignore=shutil.ignore_patterns("__pycache__"))
    call = [sys.executable, "-m", "pip", "install", "--quiet", "--no-deps", "--no-build-isolation", "--target", there]
    done = subprocess.run([*call, source], cwd=folder, capture_output=True, encoding="utf-8", check=False)
    assert done.returncode == 0, done.stderr
    for it in ("py.typed", "web/static/editor.js", "serving/pages@.service", "film/page.html"):
        assert os.path.exists(f"{there}/nadzsumek/{it}")
    script = put(f"{folder}/away.py", AWAY)
    env = {**os.environ, "PYTHONPATH": there, "PATH": f"{TOP}:{os.environ['PATH']}"}
    done = subprocess.run(
        [sys.executable, script, served.folder, program],
        env=env,
        cwd=folder,
        capture_output=True,
        encoding="utf-8",
        check=False,
    )
    assert (done.stdout, done.stderr) == (f"{there}/nadzsumek/__init__.py (2,)\n", "")
