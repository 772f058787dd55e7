"""Lines that `serve` answers by itself for programs that stand between people and a farm: `watch`, `hear` and `client`."""

import os
import signal
import time
from collections.abc import Iterator

import pytest
from support.serving_trials import Client, Served, plan_of_users

import nadzsumek
from nadzsumek.results import Watched


@pytest.fixture
def served(live: str) -> Iterator[Served]:
    with Served(plan_of_users(["ann", "bob"])) as it:
        yield it


def watched(client: Client, number: int | None = None) -> tuple[int, str]:
    """What `watch` is answered: its number, and what it says."""
    words = client.ask("watch" if number is None else f"watch {number}").split(" ", 2)
    assert words[0] == "watch", words
    return int(words[1]), words[2]


def test_watch_tells_changes(served: Served) -> None:
    """It is answered at once, then when the user's machine has changed, and not by what others do; it is no event."""
    ann, other, bob = served.client("ann"), served.client("ann"), served.client("bob")
    other.ask("#1 rest")
    number, told = watched(ann)
    assert told.startswith("1 0 ") and told.endswith(" ports 0:- 1:-")
    ann.say(f"watch {number}\n")
    bob.must("join 0 1")
    time.sleep(1)
    begun = time.monotonic()
    assert other.must("#1 join 0 1").endswith("config -")
    words = ann.until("watch ").split(" ", 2)
    assert time.monotonic() < begun + 2
    assert int(words[1]) != number
    assert words[2].startswith("2 ") and words[2].endswith(" ports 0:1 1:0")
    before = watched(ann)
    assert watched(ann) == before
    assert other.ask("#2 why").split(" ")[3] == before[1].split(" ")[1]


def test_watch_of_a_farm_that_goes_on(served: Served) -> None:
    """What waits is answered after `live` was killed and is there again."""
    ann, other = served.client("ann"), served.client("ann")
    number, _ = watched(ann)
    ann.say(f"watch {number}\n")
    os.kill(served.live_process(), signal.SIGKILL)
    ann.until("note: the farm goes on")
    other.must("#1 join 0 1")
    assert ann.until("watch ").endswith(" ports 0:1 1:0")


def test_too_many(served: Served) -> None:
    """One connection may wait four times, and the words have a form."""
    ann = served.client("ann")
    number, _ = watched(ann)
    for _ in range(4):
        ann.say(f"watch {number}\n")
    assert ann.ask(f"watch {number}") == "watch many"
    for line in ("watch x", "watch 1 2", "hear", "hear some", "client", "client A"):
        assert ann.ask(line) == f"{line.split(' ')[0]} args"


def test_tags_that_hear_all(served: Served) -> None:
    """A connection that has sent a tag hears its own answers alone, and with `hear all` those of others' plain lines too."""
    page, terminal, tagged = served.client("ann"), served.client("ann"), served.client("ann")
    assert page.ask("#1 rest") == "#1 rest quiet"
    terminal.must("join 0 1")
    assert page.ask("#2 hear all") == "#2 hear all"
    terminal.must("look 0")
    tagged.ask("#9 rest")
    page.say("#3 rest\n")
    assert [page.hear(), page.hear()] == ["look 0 booting overruns 0 0 0 0", "#3 rest quiet"]
    assert page.ask("#4 hear own") == "#4 hear own"
    terminal.must("look 0")
    assert page.ask("#5 rest") == "#5 rest quiet"


def test_names_have_bounds(served: Served) -> None:
    """Of one name eight connections are there at most, and its lines leave room to others."""
    pages = [served.client("ann") for _ in range(9)]
    assert [it.ask("#1 client pages") for it in pages] == ["#1 client pages"] * 8 + ["#1 client many"]
    terminal = served.client("ann")
    with served.held_live():
        for it in pages[:8]:
            it.say("".join(f"#{number} why\n" for number in range(100)))
        time.sleep(0.5)
        terminal.say("#9 rest\n")
    assert terminal.until("#9 rest") == "#9 rest quiet"
    for it in pages[:8]:
        it.leave()


def test_watch_of_the_package(served: Served) -> None:
    """A script waits for the next change without asking again and again."""
    with nadzsumek.Farm(served.folder).user("ann") as ann:
        seen = ann.watch()
        assert isinstance(seen, Watched)
        assert (seen.lines, seen.rest, seen.drivers) == (0, nadzsumek.Rest.QUIET, {0: None, 1: None})
        ann.join(0, 1)
        later = ann.watch(seen)
        assert (later.lines, later.drivers, later.number > seen.number) == (1, {0: 1, 1: 0}, True)
        assert later.room and later.used is not None
        assert ann.watch() == later
