"""The man pages in packaging/man, and what bash completes by packaging/nadzsumek.bash."""

import json
import os
import re
import shutil
import socket

import pytest
from support.trials import TOP, put, run, run_text, text_of

COMMANDS = ("farm", "live", "lab", "serve", "connect", "class")
# Lines as far as they are typed, the last word with what is offered for it, in a folder with a plan, a file of names and a class. The
# class has a farm that is up with a socket for ada, and sheets for ada and bob.
LINES = (
    (["farm", "--w"], "--workers"),
    (["farm", "--un"], ""),
    (["farm", "--workers", ""], "1 2 3 4 5 6 7 8"),
    (["farm", "--quantum", ""], ""),
    (["live", "pl"], "plan.toml"),
    (["live", "--record", ""], "course"),
    (["live", "--vers"], "--version"),
    (["./lab", "tr"], "trace"),
    (["lab", "d"], "disassemble debug"),
    (["lab", "trace", "--b"], "--boot"),
    (["lab", "why", "--a"], "--at"),
    (["lab", "why", "--at", "3", "pl"], "plan.toml"),
    (["serve", "--workers", "2", "pl"], "plan.toml"),
    (["serve", "plan.toml", "--s"], "--sync"),
    (["class", "st"], "start stop status"),
    (["class", "start", "--"], "--room --record-room --line-steps --restart-steps --proved"),
    (["class", "start", "co"], "course"),
    (["class", "stop", "--"], ""),
    (["class", "remove", "course", ""], "ada bob"),
    (["class", "remove", "course", "ada", "b"], "bob"),
    (["class", "add", "course", ""], ""),
    (["class", "verify", "course", "ada", "pl"], "plan.toml"),
    (["class", "change", "course", "ada", "--n"], "--nodes"),
    (["class", "--students", "na"], "names"),
    (["class", "--students", "names", "--no"], "--nodes"),
    (["connect", "co"], "course"),
    (["connect", "course", ""], "ada operator"),
    (["connect", "course/farm-1/", "a"], "ada"),
    (["connect", "course", "ada", "--j"], "--json"),
)
OFFERS = 'source "$1"; shift; COMP_WORDS=("$@"); COMP_CWORD=$(($# - 1)); _nadzsumek; echo "${COMPREPLY[*]}"'


@pytest.mark.skipif(not shutil.which("man"), reason="there is no man here")
@pytest.mark.parametrize("name", COMMANDS)
def test_page(name: str) -> None:
    """A page is shown without a warning, and has all words of its command and subcommands."""
    env = {**os.environ, "MANPAGER": "cat", "MANWIDTH": "1000", "LC_ALL": "C.UTF-8"}
    it = run_text(["man", "--warnings", "--local-file", f"{TOP}/packaging/man/{name}.1"], env=env)
    assert (it.returncode, it.stderr) == (0, "")
    shown = re.sub(r".\b", "", it.stdout) if "\b" in it.stdout else it.stdout
    words = set[str]()
    for title, text in json.loads(text_of(f"{TOP}/packaging/help.json")).items():
        if title.split()[0] == name:
            words |= {*title.split()[1:], *re.findall(r"(?<![\w-])--[a-z][a-z-]*", text)}
    assert words
    assert sorted(it for it in words if it not in shown) == []


@pytest.fixture
def typed_in(folder: str) -> str:
    """The folder in which lines are typed."""
    os.makedirs(f"{folder}/course/farm-1")
    os.mkdir(f"{folder}/course/sheets")
    for path in ("plan.toml", "names", "course/sheets/ada.txt", "course/sheets/bob.txt"):
        put(f"{folder}/{path}", "")
    for name in ("ada", "operator"):
        with socket.socket(socket.AF_UNIX) as it:
            it.bind(f"{folder}/course/farm-1/{name}.sock")
    return folder


@pytest.mark.parametrize(("words", "offered"), LINES)
def test_line(words: list[str], offered: str, typed_in: str) -> None:
    call = ["bash", "--norc", "-c", OFFERS, "bash", f"{TOP}/packaging/nadzsumek.bash", *words]
    assert run(call, folder=typed_in) == (0, f"{offered}\n".encode(), b"")
