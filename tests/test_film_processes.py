"""The processes on the page of a film, in a real browser: at random moments they are those of which the debugger and `why` tell, each with
its line and what it waits for. A deadlock, a ring of nodes, an ALT, and a lost byte are seen at once, without scrolling."""

from __future__ import annotations

import random
import re
from collections.abc import Iterator
from pathlib import Path
from typing import Any

import pytest
from support.browser import Browser, is_there
from support.recorded import lab
from support.trials import TOP, put

MOMENTS = 100
SWAP = """CHAN OF INT to.host:
PLACE to.host AT link0.out:
CHAN OF INT c, d:
INT x, y:
SEQ
  PAR
    SEQ
      c ! 1
      d ? x
    SEQ
      d ! 2
      c ? y
  to.host ! x + y
"""
MERGE = """CHAN OF INT to.host:
PLACE to.host AT link0.out:
CHAN OF INT c, d, e:
INT x, y:
PAR
  SEQ i = 0 FOR 3
    c ! i
  SEQ i = 0 FOR 3
    d ! i + 10
  SEQ k = 0 FOR 6
    ALT
      c ? x
        e ! x
      d ? x
        e ! x
  SEQ j = 0 FOR 6
    SEQ
      e ? y
      to.host ! y
"""
RING = """CHAN OF INT next, before:
PLACE next AT link1.out:
PLACE before AT link0.in:
INT x:
SEQ
  before ? x
  next ! x + 1
"""
NODE = "[[domain.node]]\nmemory = 2048\nlinks = [{}, {}, -1, -1]\n"
PLAN = 'version = 3\n[[domain]]\nlimit = 1000000\nrange = [[0, 9]]\nuser = [{ name = "ann", host = [8, 9] }]\n'
# Each node is loaded by host 0, which is joined to it alone, and then link 1 of each is joined to link 0 of the next one.
RING_SCRIPT = PLAN + "".join(NODE.format(2 * it, 2 * it + 1) for it in range(4)) + "---\n"
RING_SCRIPT += "".join(f"ann config 0401{2 * it:02x}0803\nann load 0 {{folder}}/ring.occ\n" for it in (3, 2, 1, 0))
RING_SCRIPT += "ann config 040101020103040105060107000003\nann look 0\n"
LOST = (
    PLAN.replace("[0, 9]", "[0, 7]").replace("[8, 9]", "[7]")
    + NODE.format(0, -1)
    + '---\nann send 0 "x"\nann join 0 7\nann load 0 {folder}/merge.occ\nann collect 0\n'
)
# What the page shows of processes, of `why` and at a glance.
SHOWN = """(() => {
  const of = (it) => it.textContent, all = (it, what) => [...it.querySelectorAll(what)];
  const process = (it) => ({ workspace: it.dataset.workspace, address: it.dataset.address, line: of(it.querySelector("b")),
    text: of(it.querySelector("code")), wait: of(it.querySelector(".wait")), kind: it.className });
  return { event: Number(document.getElementById("number").value), badges: all(document, ".badge").map(of),
    nodes: all(document, ".who").map((it) => ({ state: of(it.querySelector(".state")), processes: all(it, ".process").map(process),
      alarms: all(it, ".alarm").map(of) })),
    marked: all(document, ".text .at").map((it) => [Number(of(it.querySelector(".number"))), it.className]),
    variables: Object.fromEntries(all(document, ".values > div").map((it) => [of(it.children[0]).trim(), of(it.children[1])])),
    lanes: all(document, "#lanes text").map(of), dead: of(document.getElementById("count-dead")) };
})()"""
# Whether an element is in the window.
IN_SIGHT = """(() => ["header", "#processes", "#source", "#variables", "#lanes"].filter((it) => {
  const box = document.querySelector(it).getBoundingClientRect(); return box.bottom > innerHeight || box.right > innerWidth; }))()"""


@pytest.fixture(name="browser", scope="module")
def one_browser() -> Iterator[Browser]:
    if not is_there():
        pytest.skip("there is no chromium: apt-get install chromium")
    with Browser() as browser:
        yield browser


class Page:
    """The page of a record with programs."""

    def __init__(self, browser: Browser, folder: Path, name: str, record: str, programs: dict[int, str]) -> None:
        self.browser, self.path = browser, f"{folder}/{name}.replay"
        put(self.path, record)
        self.words = [self.path, *(word for node, file in programs.items() for word in ("--program", f"{node}", file))]
        status, page, errors = lab(["film", *self.words])
        assert (status, errors) == (0, "")
        put(f"{folder}/{name}.html", page)
        browser.open(f"{folder}/{name}.html")

    def shown(self) -> Any:
        assert self.browser.faults == []
        return self.browser.look(SHOWN)

    def press(self, *keys: str) -> Any:
        for key in keys:
            self.browser.press(key, key.isupper() and len(key) == 1)
        return self.shown()

    def go(self, event: int) -> Any:
        self.browser.look(
            f"""(() => {{ const it = document.getElementById("number"); it.value = "{event}";
          it.dispatchEvent(new Event("change")); }})()"""
        )
        return self.shown()

    def last(self) -> int:
        return int(self.browser.look("recordedAt(last)"))


def recorded(*words: str) -> str:
    status, record, errors = lab(["run", *words, "--record", "0"])
    assert (status, errors) == (0, "")
    return record


def made(browser: Browser, folder: Path, name: str) -> Page:
    """The page of one of the records of these trials."""
    for file, text in (("swap", SWAP), ("merge", MERGE), ("ring", RING)):
        put(f"{folder}/{file}.occ", text)
    if name in ("ring", "lost"):
        put(f"{folder}/{name}.farm", (RING_SCRIPT if name == "ring" else LOST).replace("{folder}", f"{folder}"))
        nodes = range(4) if name == "ring" else (0,)
        program = f"{folder}/{'ring' if name == 'ring' else 'merge'}.occ"
        return Page(browser, folder, name, recorded(f"{folder}/{name}.farm"), {it: program for it in nodes})
    path = f"{folder}/{name}.occ" if name != "links" else f"{TOP}/examples/occam/merge.occ"
    record = recorded(path, "--send", '"ab"', "--send-to", "1", '"c"') if name == "links" else recorded(path)
    return Page(browser, folder, name, record, {0: path})


def told_at(page: Page, event: int) -> tuple[dict[int, str], list[str], dict[int, list[str]]]:
    """What the debugger says at a moment: of each node what it does, all that `why` says, and its queue and channels."""
    status, out, _ = lab(["debug", *page.words], f"go {event}\nlook\n~\nwhy\n~\n".encode())
    assert status == 0
    looks, why = out.split("`~` is no command: try help\n")[:2]
    states = {int(it[1]): it[2] for it in re.finditer(r"^node (\d) (\w+)", looks, re.M)}
    asked = "".join(f"queue {node}\nvariables {node}\n~\n" for node in states)
    _, out, _ = lab(["debug", *page.words], f"go {event}\n{asked}".encode())
    parts = out.split("`~` is no command: try help\n")
    return states, why.splitlines(), {node: parts[number].splitlines() for number, node in enumerate(states)}


def is_as_told(page: Page, event: int) -> int:
    """The processes of a frame are those of the debugger and of `why`: how many there are."""
    shown = page.go(event)
    states, why, queues = told_at(page, event)
    count = 0
    for node, state in states.items():
        its = shown["nodes"][node]["processes"]
        assert shown["nodes"][node]["state"].split()[0] == state
        if state == "booting":
            assert its == []
            continue
        count += len(its)
        waiting = {
            (it["address"], it["line"], it["text"]) for it in its if "waiting" in it["kind"] or "dead" in it["kind"]
        }
        told = re.findall(rf"^node {node} at ([0-9a-f]{{8}}) waits in (line [\d ()]+): (.*)$", "\n".join(why), re.M)
        if f"node {node} rests." in why:
            assert (event, waiting) == (event, {*told})
        # one that runs or is ready is in the queue, and a process waits at each channel of which that is said
        queue = re.findall(r"^(runs|waits) W ([0-9a-f]{8}) at", "\n".join(queues[node]), re.M)
        own = {it["workspace"]: it["kind"].split()[1] for it in its}
        assert {own[it] for what, it in queue if what == "runs"} <= {"running"}
        # of those that are ready the first goes on if none runs
        first = {"running"} if "runs" not in [what for what, _ in queue] else set()
        assert {own[it] for what, it in queue if what == "waits"} <= {"ready"} | first
        held = re.findall(r"CHAN (\S+) \(line \d+\): a process waits in (line [\d ()]+): ", "\n".join(queues[node]))
        for channel, line in held:
            # one that goes through the guards of its ALT is at the channels already
            kinds = {it["kind"].split()[1] for it in its}
            waits = [it["wait"] for it in its if it["line"] == line]
            assert any(re.search(rf"\b{re.escape(channel)}\b", it) for it in waits) or kinds & {"running", "ready"}
        values = dict(re.findall(r"(?:INT|BYTE|BOOL) (\S+) \(line \d+\): (.*)", "\n".join(queues[node])))
        if node == page.browser.look("chosen"):
            assert {name: values[name] for name in shown["variables"]} == shown["variables"] | {
                name: values[name] for name in ("i",) if name in shown["variables"]
            }
    return count


@pytest.mark.browser
@pytest.mark.parametrize("name", ("swap", "merge", "ring", "lost", "links"))
def test_frames_are_what_why_and_the_debugger_say(browser: Browser, tmp_path: Path, name: str, seed: int) -> None:
    """At twenty random moments of each of five records, a hundred in all."""
    page = made(browser, tmp_path, name)
    chosen = random.Random(seed)
    begin = int(page.browser.look("recordedAt(begins)"))
    moments = [chosen.randint(max(0, begin - 10), page.last()) for _ in range(MOMENTS // 5 - 1)] + [page.last()]
    assert sum(is_as_told(page, it) for it in moments) > (0 if name != "lost" else -1)


@pytest.mark.browser
def test_a_deadlock_at_a_glance(browser: Browser, tmp_path: Path) -> None:
    page = made(browser, tmp_path, "swap")
    assert page.shown()["event"] == int(browser.look("recordedAt(begins)")) > 0
    assert "deadlock" not in " ".join(page.shown()["badges"])
    shown = page.press("d")
    assert shown["badges"] == ["deadlock in node 0"] and shown["dead"] == "1"
    assert [(it["line"], it["text"], it["wait"]) for it in shown["nodes"][0]["processes"]] == [
        ("line 8", "c ! 1", "waits to send by c: nobody comes"),
        ("line 11", "d ! 2", "waits to send by d: nobody comes"),
    ]
    assert shown["marked"] == [[8, "at dead"], [11, "at dead"]]
    assert [it for it in shown["lanes"] if it in ("main", "line 8", "line 11")] == ["main", "line 8", "line 11"]
    assert shown["nodes"][0]["alarms"] == ["No other process is left that could come there: a deadlock."]
    assert browser.look(IN_SIGHT) == []
    # one event back the second still goes on
    assert page.press("ArrowLeft")["badges"] == []


@pytest.mark.browser
def test_a_ring_of_nodes(browser: Browser, tmp_path: Path) -> None:
    page = made(browser, tmp_path, "ring")
    shown = page.press("End")
    assert shown["badges"] == ["nodes 0, 1, 2, 3 wait for one another: deadlock"]
    assert [[it["wait"] for it in node["processes"]] for node in shown["nodes"]] == [
        ["waits to receive by before (link 0)"]
    ] * 4
    assert browser.look(IN_SIGHT) == []
    # before the ring was joined none waited for another
    assert page.press("D")["badges"] == shown["badges"] and page.press("ArrowLeft")["badges"] == []


@pytest.mark.browser
def test_messages_and_variables(browser: Browser, tmp_path: Path) -> None:
    """Each of the six numbers goes by c or d and then by e, from the process of its line to that of the ALT, and on."""
    page = made(browser, tmp_path, "merge")
    page.press("Home")
    assert browser.look("messages.map((it) => it[4]).join('')") == "ce" * 3 + "de" * 3
    named = browser.look("messages.map((it) => [it[2], it[3]].map((lane) => laneName(0, lane)).join(' '))")
    assert [*dict.fromkeys(named)] == ["line 6 line 10", "line 10 line 15", "line 8 line 10"] or named[0].startswith(
        "line 6"
    )
    shown = page.press("End", "M")
    assert shown["variables"]["x"] == "12" and browser.look(IN_SIGHT) == []
    waits = [it["wait"] for it in page.press("m")["nodes"][0]["processes"]]
    assert waits == [] or all("ALT" not in it for it in waits)
    kinds = {it["wait"] for event in range(1, 40) for it in page.press("ArrowLeft")["nodes"][0]["processes"]}
    assert kinds


@pytest.mark.browser
def test_a_lost_byte(browser: Browser, tmp_path: Path) -> None:
    page = made(browser, tmp_path, "lost")
    page.press("Home")
    assert page.press("l")["badges"] == ["a byte is lost"]
    assert any("was lost in event 2" in it for it in page.press("End")["nodes"][0]["alarms"])
    assert browser.look(IN_SIGHT) == []
