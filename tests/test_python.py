"""The types of Python's sources by mypy, and their layout by black."""

import os
import re

from support.trials import TOP, run


def sources() -> list[str]:
    """Each file of Python that git has, also those whose names don't end so."""
    found = []
    for name in run(["git", "ls-files"], folder=TOP).output.decode().splitlines():
        path = os.path.join(TOP, name)
        if os.path.isfile(path) and not os.path.islink(path):
            with open(path, "rb") as it:
                if name.endswith(".py") or re.match(rb"#!.*python3", it.readline()):
                    found.append(name)
    return found


def test_types() -> None:
    """The files that pyproject.toml names: all but bench/class, as `class` has its name."""
    status, output, errors = run(["/usr/bin/python3", "-m", "mypy"], folder=TOP, seconds=300)
    assert status == 0, (output + errors).decode()


def test_layout() -> None:
    names = sources()
    assert "nadzsumek/farm.py" in names and "docs/check" in names
    status, output, errors = run(["/usr/bin/python3", "-m", "black", "--quiet", "--check", *names], folder=TOP)
    assert status == 0, (output + errors).decode()
