"""What all tests get: the built programs, a folder, and the words with which ./test changes how much is tried."""

import os
import tempfile
from collections.abc import Iterator

import pytest
from _pytest.terminal import TerminalReporter

pytest.register_assert_rewrite("support")

from support.trials import LAB, program  # noqa: E402  the line above comes first


def pytest_addoption(parser: pytest.Parser) -> None:
    group = parser.getgroup("nadzsumek", "how much is tried")
    group.addoption("--count", type=int, help="how many random texts, programs, lines or kills a test tries")
    group.addoption("--seed", type=int, default=1, help="the seed of what is random (1)")
    group.addoption("--minutes", type=float, default=1.0, help="how long a test that runs for some time goes on (1)")
    group.addoption("--with-feature", action="append", default=[], help="what occam programs have besides (pieces.py)")
    group.addoption("--without-feature", action="append", default=[], help="what occam programs don't have")
    group.addoption("--workers", default="2", help="by how many workers `live` does its work (2)")


def pytest_configure(config: pytest.Config) -> None:
    os.environ["LIVE_WORKERS"] = config.getoption("--workers")


def pytest_collection_modifyitems(items: list[pytest.Item]) -> None:
    """What needs a browser is long."""
    for item in items:
        if item.get_closest_marker("browser"):
            item.add_marker(pytest.mark.long)


def pytest_terminal_summary(terminalreporter: TerminalReporter, config: pytest.Config) -> None:
    """Notes for ./test how many passed and how many failed, once and not in each process that runs tests for another."""
    path = os.environ.get("TESTS_COUNTED")
    if path and not hasattr(config, "workerinput"):
        passed, *failed = (len(terminalreporter.getreports(it)) for it in ("passed", "failed", "error"))
        with open(path, "a", encoding="ascii") as file:
            file.write(f"{passed} {sum(failed)}\n")


@pytest.fixture(scope="session", autouse=True)
def own_state() -> Iterator[None]:
    """What programs keep between their runs is kept for these tests alone."""
    with tempfile.TemporaryDirectory() as room:
        os.environ["XDG_STATE_HOME"] = room
        yield


@pytest.fixture(scope="session")
def farm() -> str:
    """The path of the program."""
    return program("farm")


@pytest.fixture(scope="session")
def lab() -> str:
    """The command that starts the program with the front end of occam beside it."""
    program("lab")
    return LAB


@pytest.fixture(scope="session")
def live() -> str:
    """The path of the program."""
    return program("live")


@pytest.fixture
def folder() -> Iterator[str]:
    """A folder of the test's own, whose path is so short that sockets may be below it."""
    with tempfile.TemporaryDirectory() as it:
        yield it


@pytest.fixture
def count(pytestconfig: pytest.Config) -> int | None:
    """How much is to be tried, if the words say it."""
    found: int | None = pytestconfig.getoption("--count")
    return found


@pytest.fixture
def seed(pytestconfig: pytest.Config) -> int:
    """The seed of what is random."""
    return int(pytestconfig.getoption("--seed"))


@pytest.fixture
def minutes(pytestconfig: pytest.Config) -> float:
    """How long a test that runs for some time goes on."""
    return float(pytestconfig.getoption("--minutes"))
