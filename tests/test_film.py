"""`lab film` in a real browser: each page is opened in Chromium without a window, asked what it shows, and compared with what
`lab replay`, `lab why` and `lab disassemble` say of the same record. If the variable PICTURES names a folder, pictures of the pages are
put there.

One record is worked by hand, to its registers. Those of the examples and of the programs of examples/programs are made by `live`, and
so is one of 100,000 events, whose page must be below 20 MB, open in less than two seconds and jump in less than 50 milliseconds."""

from __future__ import annotations

import functools
import json
import os
import random
import re
import shutil
import signal
import subprocess
import time
from collections.abc import Iterator
from pathlib import Path
from typing import Any

import pytest
import tomllib
from support.browser import Browser, is_there
from support.live_lines import PINGS, PINGS_PLAN, Live
from support.recorded import lab
from support.trials import EXAMPLES, HELPED_NAMES, PLAIN_NAMES, STORED, STORED_RUN, TOP, contents, run

PICTURES = os.environ.get("PICTURES")
PAGE = Path(TOP, "nadzsumek/film")
MANY = 100_000
MOST_BYTES = 20_000_000
MOST_SECONDS = 2.0
MOST_JUMP = 0.050
SIZES = ((1280, 800), (1920, 1080))
HEAD = """version = 3
[[domain]]
limit = 1099511627776
range = [[0, 7]]
user = [{ name = "ann", host = [7] }]
node = [{ memory = 4096, links = [0, -1, -1, -1] }]
---
"""
# ajw 4, mint, ldc 42, outbyte, and 21 f1, which is no operation: the node sends 2a by link 0 and halts
CODE = "b424f2224afe21f1"
# What a page shows, read from its elements alone.
SHOWN = """(() => {
  const of = (it) => it.textContent, all = (it, what) => [...it.querySelectorAll(what)];
  const queue = (it) => ({ told: of(it.firstChild), bytes: it.children.length > 1 ? of(it.children[1]).split(" ") : [] });
  const by = (name) => Object.fromEntries(all(document, `#hosts [id^="${name}-"]`).map((it) => [it.id, queue(it)]));
  const node = (it) => ({ look: of(it.querySelector("[id^=look]")), text: it.innerText, faults: all(it, "div.halted").map(of),
    registers: Object.fromEntries(all(it, ".registers code").map((code) => of(code).split(/ +/))),
    rows: all(it, "tr").map((row) => [...all(row, "td").map(of), row.className]), occam: all(it, "div.occam").map(of),
    lines: Object.fromEntries(all(it, "pre").map((pre) => [pre.className, of(pre).split("\\n")])) });
  return { event: Number(document.getElementById("number").value), text: of(document.getElementById("event")),
    kind: document.getElementById("event").className, words: of(document.getElementById("words")), span: of(document.getElementById("span")),
    queues: { ...by("written"), ...by("sending"), ...by("received"), ...by("read") },
    nodes: all(document, "#nodes > section").map(node),
    arrows: all(document, "#lanes svg > *").length, dots: all(document, "#crossbar circle").length,
    counts: ["fault", "loss", "byte"].map((it) => of(document.getElementById("count-" + it))) };
})()"""
# What stands out of its box, or makes the page wider than the window.
CUT = """[...document.querySelectorAll("html, header, section, #lanes, #hosts, #nodes, .registers, td")]
  .filter((it) => it.scrollWidth > it.clientWidth + 1).map((it) => it.tagName + " " + it.id + ": " + it.textContent.slice(0, 40))"""


@pytest.fixture(name="browser", scope="module")
def one_browser() -> Iterator[Browser]:
    if not is_there():
        pytest.skip("there is no chromium: apt-get install chromium")
    with Browser() as browser:
        yield browser


class Film:
    """The page of a record in a browser."""

    def __init__(self, browser: Browser, folder: Path, record: str, *words: str) -> None:
        self.browser, self.record = browser, record
        path = folder / "record.replay"
        path.write_text(record, encoding="utf-8")
        begun = time.monotonic()
        status, page, errors = lab(["film", str(path), *words])
        self.made = time.monotonic() - begun
        assert (status, errors) == (0, "")
        self.path, self.bytes = f"{folder}/page.html", len(page.encode())
        Path(self.path).write_text(page, encoding="utf-8")
        self.opened = browser.open(self.path)
        self.is_well()

    def is_well(self) -> None:
        if self.browser.faults:
            raise AssertionError(self.browser.faults)

    def shown(self) -> Any:
        self.is_well()
        return self.browser.look(SHOWN)

    def press(self, *keys: str) -> Any:
        """Presses keys one after another, `+` before one that shift goes with: the event that is shown then."""
        for key in keys:
            self.browser.press(key.removeprefix("+"), key.startswith("+") or key.isupper())
        return self.shown()["event"]

    def go(self, event: int) -> Any:
        """Goes to the frame after so many events, as a reader does it."""
        self.browser.look(
            f"""(() => {{ const it = document.getElementById("number"); it.value = "{event}";
          it.dispatchEvent(new Event("change")); }})()"""
        )
        return self.shown()

    def fits(self) -> None:
        """Nothing is cut, in windows of two sizes."""
        for width, height in SIZES:
            self.browser.size(width, height)
            self.browser.look("new Promise((done) => requestAnimationFrame(() => requestAnimationFrame(done)))")
            assert (width, self.browser.look(CUT)) == (width, [])

    def pictures(self, name: str, event: int) -> None:
        """Puts pictures into the folder of pictures, if there is one."""
        if not PICTURES:
            return
        os.makedirs(PICTURES, exist_ok=True)
        for width, height in SIZES:
            for scheme in ("light", "dark"):
                self.browser.colours(scheme)
                self.browser.open(f"{self.path}", width, height)
                self.go(event)
                tall = self.browser.look("document.documentElement.scrollHeight")
                self.browser.size(width, max(height, tall))
                self.browser.picture(f"{PICTURES}/{name}-{width}-{scheme}.png")
        self.browser.colours("light")


# ---- records


def divided(record: str) -> tuple[str, list[tuple[int, str]]]:
    """The head of a record, and its lines, each with the number of its events."""
    head, lines = record.split("---\n")
    return head, [(int(it.split()[0]) if " times " in it else 1, it) for it in lines.splitlines()]


def events_in(record: str) -> int:
    return sum(count for count, _ in divided(record)[1])


def beginning(record: str, events: int) -> str:
    """The record up to so many events."""
    head, lines = divided(record)
    kept, left = [], events
    for count, line in lines:
        if left <= 0:
            break
        if count > left:
            line = (
                f"{left} times {line.split(' times ')[1].split(' = ')[0]}"
                if left > 1
                else line.split(" times ")[1].split(" = ")[0]
            )
        kept.append(line)
        left -= count
    return head + "---\n" + "".join(f"{it}\n" for it in kept)


def spread(answer: str) -> list[str]:
    """The answers of a line, each by itself: `2 00, 7f` are three."""
    told: list[str] = []
    for part in answer.split(", "):
        found = re.fullmatch(r"(?:(\d+) )?(\w+)", part)
        assert found, answer
        count, word = found.groups()
        told += [word] * int(count or 1)
    return told


def asked(record: str, events: int, lines: list[str]) -> list[str]:
    """What the domain answers after so many events, if its limit is far."""
    text = re.sub(r"^limit = \d+", "limit = 1099511627776", beginning(record, events), flags=re.M) + "".join(
        f"{it}\n" for it in lines
    )
    status, out, errors = lab(["replay"], text.encode())
    assert (status, errors) == (0, "")
    return out.splitlines()[-len(lines) :]


def owners(head: str) -> tuple[Any, list[tuple[int, int]]]:
    """The number of nodes, and for each host its user and its port."""
    domain = tomllib.loads(head)["domain"][0]
    hosts = [(user, port) for user, it in enumerate(domain["user"]) for port in it["host"]]
    return domain["node"], hosts


# ---- what a page shows beside what else is said of the record


def is_as_replayed(film: Film, events: int) -> Any:
    """A frame's nodes, words and hosts are those of the domain after so many events."""
    nodes, hosts = owners(divided(film.record)[0])
    lines = [f"0 look {it} @0" for it in range(len(nodes))] + ["words"]
    reads = [f"4097 times 0 read {host} @{user}" for host, (user, _) in enumerate(hosts)]
    told = asked(film.record, events, lines + reads)
    shown = film.go(events)
    assert shown["event"] == events
    assert [it["look"] for it in shown["nodes"]] + [shown["words"]] == told[: len(lines)]
    for host, answer in enumerate(told[len(lines) :]):
        bytes_there = [it for it in spread(answer) if it != "none"]
        queue = shown["queues"][f"received-{host}"]
        count = f"{len(bytes_there):,}" + (", the last 64 are" if len(bytes_there) > 64 else "")
        assert queue == {"told": f"received and not read: {count}", "bytes": bytes_there[-64:]}
    return shown


def word_at(address: str) -> str:
    return bytes.fromhex(address)[::-1].hex()


def is_as_peeked(film: Film, events: int, shown: Any) -> int:
    """The bytes of code are those that peeks of the node find once it is reset, and their text is that of the disassembler. The
    answer is how many bytes were compared."""
    nodes, hosts = owners(divided(film.record)[0])
    count = 0
    for number, (node, seen) in enumerate(zip(nodes, shown["nodes"])):
        ports = [it for it in node["links"] if it >= 0]
        free = [it for it, _ in enumerate(hosts) if not shown["queues"][f"sending-{it}"]["bytes"]]
        if not seen["rows"] or not ports or not free:
            continue
        first = int(seen["rows"][0][0], 16)
        code = bytes.fromhex("".join(row[1] for row in seen["rows"]))
        host, (user, port) = free[0], hosts[free[0]]
        begin = [
            f"0 reset {number} @0",
            "0 configs 040404 @0",
            f"0 configs 01{port:02x}{ports[0]:02x}03 @0",
            f"9000 times 0 read {host} @{user}",
        ]
        places = range(first & ~3, first + len(code), 4)
        peeks = [
            it
            for place in places
            for it in (
                f"0 writes {host} 01{word_at(f'{place:08x}')} @{user}",
                "0 settle 64 200",
                f"4 times 0 read {host} @{user}",
            )
        ]
        told = asked(film.record, events, begin + peeks)[len(begin) :]
        peeked = bytes.fromhex("".join("".join(spread(it)) for it in told[2::3]))
        assert code.hex() == peeked[first & 3 :][: len(code)].hex()
        count += len(code)
        for row in seen["rows"]:
            status, text, _ = lab(["disassemble"], row[1].encode())
            # bytes that the assembler would spell otherwise are several lines there
            if status == 0 and text.count("\n") == 1:
                assert row[2] == text.strip()
    return count


def json_of(page: str) -> Any:
    """The film that lies in a page."""
    found = re.search(r'<script id="film" type="application/json">(.*?)</script>', contents(page).decode(), re.DOTALL)
    assert found
    return json.loads(found[1])


# ---- tests


@pytest.mark.parametrize("script", sorted(it.name for it in PAGE.glob("*.js")))
def test_scripts_are_read_by_a_second_reader(script: str) -> None:
    """Node finds no mistake in the scripts of the page, if it is there."""
    node = shutil.which("node", path="/usr/bin:/usr/local/bin") or pytest.skip("there is no node")
    status, _, errors = run([node, "--check", str(PAGE / script)])
    assert (status, errors) == (0, b"")


def documented_merge() -> Any:
    """The function `merge` of docs/FILM.md."""
    found = re.search(r"```python\n(def merge.*?)```", Path(TOP, "docs/FILM.md").read_text(encoding="utf-8"), re.DOTALL)
    assert found
    there: dict[str, Any] = {}
    exec(found[1], there)
    return there["merge"]


def test_json_as_replayed(tmp_path: Path) -> None:
    """A reader who does as docs/FILM.md says finds in each frame what `lab replay` answers of the domain after its events."""
    merge = documented_merge()
    record, path = worked_record(), tmp_path / "record.replay"
    path.write_text(record, encoding="utf-8")
    status, out, errors = lab(["film", str(path), "--json"])
    assert (status, errors) == (0, "")
    film = json.loads(out)
    assert (film["version"], film["sources"], film["is_cut"], film["goes_on"]) == (1, [], False, False)
    facts = dict(film["first"])
    frames = [dict(facts)]
    for line in film["lines"]:
        for change in line["then"]:
            merge(facts, change)
            frames.append(dict(facts))
    assert [it["recorded"] for it in frames] == list(range(events_in(record) + 1))
    for event, it in enumerate(frames):
        words = [(port["physical"], it[f"output {output} word"]) for output, port in enumerate(film["plan"]["ports"])]
        shown = " ".join(f"{port}:{word}" for port, word in sorted(words) if word != "0") or "-"
        look, told, read = asked(record, event, ["0 look 0 @0", "words", "4097 times 0 read 0 @0"])
        received = "".join(byte for byte in spread(read) if byte != "none")
        assert (event, it["node 0 look"], shown, it.get("host 0 received", "")) == (event, look, told, received)
    # the handbook's Steps of the code, as in registers_by_hand; nothing runs before the boot has ended, nor when the node has halted
    registers = [[it.get(f"node 0 {name}") for name in ("Iptr", "W", "A")] for it in frames]
    assert (registers[38], registers[45], registers[50]) == ([None] * 3, [0x8000004D, 0x80000060, 0x2A], [None] * 3)
    assert frames[45]["node 0 memory 80000040"][16:32] == CODE


def test_page_is_one_file(tmp_path: Path) -> None:
    """The page asks for no other file, and a text of a program ends no element of it."""
    record, source = tmp_path / "record.replay", tmp_path / "loop.s"
    record.write_text(booted("b44701", []), encoding="utf-8")
    source.write_text("ajw 4  -- </script><script>alert()</script>\nldc 7\nj 1\n", encoding="utf-8")
    words = ["film", str(record), "--program", "0", str(source)]
    status, page, errors = lab(words)
    assert (status, errors) == (0, "")
    assert not re.search(r"<link|<script[^>]* src|https?://(?!www\.w3\.org/2000/svg)", page)
    # the line beside its code, and the whole text
    assert (page.count("alert()"), page.count("<script>alert")) == (2, 0)
    (tmp_path / "page.html").write_text(page, encoding="utf-8")
    assert json_of(f"{tmp_path}/page.html") == json.loads(lab([*words, "--json"])[1])


FAKE = """#!/bin/sh
echo $$ > "$0.pid"
case $2 in
  help) echo 'Usage: lab film';;
  long) while :; do sleep 0.01; done;;
  wrong) echo wrong >&2; exit 4;;
esac
"""


@pytest.fixture(name="fake")
def fake_lab(tmp_path: Path) -> Path:
    """A program in place of the lab."""
    fake = tmp_path / "fake"
    fake.write_text(FAKE, encoding="utf-8")
    fake.chmod(0o755)
    return fake


def test_what_is_no_film_is_handed_on(fake: Path) -> None:
    for word, ended in (("help", (0, b"Usage: lab film\n", b"")), ("wrong", (4, b"", b"wrong\n"))):
        assert run([f"{TOP}/lab", "film", word], more={"LAB": str(fake)}) == ended


@pytest.mark.parametrize("number", [signal.SIGINT, signal.SIGTERM])
def test_a_signal_ends_the_program_too(fake: Path, number: signal.Signals) -> None:
    """The command ends as the program would by the signal, and the program with it, and nothing is said."""
    # whoever runs the tests may ignore Ctrl-C
    with subprocess.Popen(
        [f"{TOP}/lab", "film", "long"],
        env={**os.environ, "LAB": str(fake)},
        stdout=subprocess.PIPE,
        stderr=subprocess.PIPE,
        preexec_fn=functools.partial(signal.signal, number, signal.SIG_DFL),
    ) as command:
        pid = Path(f"{fake}.pid")
        while not pid.exists() or not pid.read_text(encoding="utf-8").strip():
            time.sleep(0.01)
        command.send_signal(number)
        assert command.communicate(timeout=10) == (b"", b"")
    assert command.returncode == (-number)
    assert not Path("/proc", pid.read_text(encoding="utf-8").strip()).exists()


def worked_record() -> str:
    lines = [f"0 config {it} @0 = nothing" for it in ("01", "00", "07", "03")]
    for byte in bytes.fromhex("08" + CODE):
        lines += [
            f"0 write 0 {byte:02x} @0 = written",
            "0 move 7 @farm = passed",
            "0 step 0 @farm = ran",
            "0 move 0 @farm = passed",
        ]
    lines += [
        "6 times 0 step 0 @farm = 6 ran",
        "0 move 0 @farm = passed",
        "0 move 7 @farm = passed",
        "0 step 0 @farm = ran",
        "0 step 0 @farm = fault 2 11",
        "0 read 0 @0 = 2a",
        "0 config 04 @0 = nothing",
        "0 write 0 05 @0 = written",
        "0 move 7 @farm = lost",
    ]
    return HEAD + "".join(f"{it}\n" for it in lines)


@pytest.mark.browser
def test_registers_by_hand(browser: Browser, tmp_path: Path) -> None:
    """Each Step of the code, as the handbook does it. The boot leaves W behind the 8 bytes of code, A and B 0 and C 80000010."""
    film = Film(browser, tmp_path, worked_record())
    rows = [
        (40, ["80000048", "80000050", "00000000", "00000000", "80000010", "00000000"], "ajw 4"),
        (41, ["80000049", "80000060", "00000000", "00000000", "80000010", "00000000"], "mint"),
        (42, ["8000004a", "80000060", "00000000", "00000000", "80000010", "00000040"], "mint"),
        (43, ["8000004b", "80000060", "80000000", "00000000", "00000000", "00000000"], "ldc 42"),
        (44, ["8000004c", "80000060", "80000000", "00000000", "00000000", "00000020"], "ldc 42"),
        (45, ["8000004d", "80000060", "0000002a", "80000000", "00000000", "00000000"], "outbyte"),
    ]
    for event, registers, instruction in rows:
        node = film.go(event)["nodes"][0]
        assert (event, [node["registers"][it] for it in ("Iptr", "W", "A", "B", "C", "O")]) == (event, registers)
        assert (event, [it[2] for it in node["rows"] if it[3] == "here"]) == (event, [instruction])
    rows_there = film.go(40)["nodes"][0]["rows"]
    begin = [it[3] for it in rows_there].index("here")
    assert rows_there[begin : begin + 5] == [
        ["80000048", "b4", "ajw 4", "here"],
        ["80000049", "24 f2", "mint", ""],
        ["8000004b", "22 4a", "ldc 42", ""],
        ["8000004d", "fe", "outbyte", ""],
        ["8000004e", "21 f1", "opr 17", ""],
    ]
    looks = {38: "booting", 39: "running", 46: "idle", 48: "idle", 49: "running", 50: "halted 2 11", 54: "halted 2 11"}
    for event, look in looks.items():
        assert (event, film.go(event)["nodes"][0]["look"]) == (event, look + " overruns 0 0 0 0")
    # a connection changes a word and leaves it without ready, message 03 changes it again, and message 04 a third time
    for event, words in {2: "-", 3: "0:187 7:180", 4: "0:2c7 7:2c0", 54: "0:300 7:300"}.items():
        assert (event, film.go(event)["words"]) == (event, words)
    # the first byte of the boot comes, is taken, and acknowledged; then 2a waits at the link, leaves, and is acknowledged
    links = {
        5: [],
        6: ["link 0 holds byte 08"],
        7: ["link 0 sends an acknowledge"],
        8: [],
        46: ["link 0 sends byte 2a, awaits an acknowledge"],
        47: ["link 0 awaits an acknowledge"],
        48: ["link 0 has an acknowledge"],
        49: [],
        50: [],
    }
    for event, lines in links.items():
        assert (event, film.go(event)["nodes"][0]["lines"].get("links", [])) == (event, lines)
    # memory is 0 behind the code, until outbyte puts A into the word at W
    for event, first, word in (
        (40, "80000050", "00000000"),
        (41, "80000060", "00000000"),
        (46, "80000060", "0000002a"),
    ):
        expected = [f"{first}  {word}"] + [f"{int(first, 16) + at:08x}  00000000" for at in range(4, 32, 4)]
        assert film.go(event)["nodes"][0]["lines"]["workspace"] == expected, event
    queues = [
        (5, "sending", "08"),
        (8, "sending", ""),
        (46, "received", ""),
        (47, "received", "2a"),
        (51, "received", ""),
        (50, "read", ""),
        (51, "read", "2a"),
        (54, "sending", "05"),
        (9, "written", "08 b4"),
    ]
    for event, name, it in queues:
        assert (event, name, film.go(event)["queues"][f"{name}-0"]["bytes"]) == (event, name, it.split())
    halted = film.go(54)["nodes"][0]
    why = lab(["why", f"{tmp_path}/record.replay"])[1]
    found = re.search(r"It was at (\w+) in `(.*)`, with A (\w+), B (\w+), C (\w+), W (\w+) and Error 0", why)
    assert found
    told = found.groups()
    assert [halted["registers"][it] for it in ("Iptr", "A", "B", "C", "W")] == [told[0], *told[2:]]
    assert [it[2] for it in halted["rows"] if it[3] == "here"] == [told[1]]
    assert halted["faults"] == ["there is no operation of this code"]
    film.fits()
    film.pictures("worked", 47)
    film.pictures("halted", 50)


@pytest.mark.browser
def test_keys_and_jumps(browser: Browser, tmp_path: Path) -> None:
    """Every key, the buttons, the slider, a click on the time line, and the address."""
    film = Film(browser, tmp_path, worked_record())
    assert film.shown()["counts"] == ["1", "1", "22"]
    # it opens where the node begins to run, and the boot is a key away
    begin = film.shown()["event"]
    looks = [asked(film.record, it, ["0 look 0 @0"])[0].split()[0] for it in (begin - 1, begin)]
    assert (looks, film.press("Home"), film.press("p")) == (["booting", "running"], 0, begin)
    film.press("Home")
    assert film.shown()["text"] == "The domain as it was opened."
    assert [
        film.press("ArrowRight"),
        film.press("ArrowRight"),
        film.press("ArrowLeft"),
        film.press("End"),
        film.press("ArrowRight"),
    ] == [1, 2, 1, 54, 54]
    assert [film.press("Home"), film.press("ArrowLeft"), film.press("PageDown"), film.press("PageUp")] == [0, 0, 54, 0]
    # the first fault, and no other; the byte that was lost; then back
    assert [film.press("f"), film.press("f"), film.press("l"), film.press("l"), film.press("F"), film.press("L")] == [
        50,
        50,
        54,
        54,
        50,
        50,
    ]
    film.press("Home")
    # each byte of the boot is written at one event and moved at the next; 2a comes at 47 and is read at 51; 05 is written and lost
    jumps = [event for at in range(5, 41, 4) for event in (at, at + 1)] + [47, 51, 53, 54]
    assert [film.press("b") for _ in jumps] == jumps
    assert film.press("b") == jumps[-1]
    assert [film.press("B") for _ in jumps[1:]] == jumps[-2::-1]
    film.go(40)
    assert [
        film.press("+ArrowRight"),
        film.press("+ArrowRight"),
        film.press("+ArrowLeft"),
        film.press("+ArrowLeft"),
    ] == [46, 47, 46, 40]
    film.go(43)
    assert film.press("+ArrowLeft") == 40
    texts = {
        43: "line 48, the farm: Step 3 of 6, step 0 = ran",
        50: "line 52, the farm: step 0 = fault 2 11",
        51: "line 53, ann: read 0 = 2a",
        47: "line 49, the farm: move 0 = passed \u2014 the byte 2a at port 0, node 0 link 0, which drives port 7, host 0",
        54: "line 56, the farm: move 7 = lost \u2014 the byte 05 at port 7, host 0, which drives no output",
    }
    for event, text in texts.items():
        assert film.go(event)["text"] == text
    assert [film.go(it)["kind"] for it in (47, 50, 54)] == ["", "fault", "loss"]
    for key, event in (("Home", 0), ("f", 50), ("ArrowLeft", 49), ("End", 54)):
        browser.look(f"document.querySelector('button[data-key={key}]').click()")
        assert film.shown()["event"] == event
    assert browser.look("[...document.querySelectorAll('button[data-key]:disabled')].map((it) => it.dataset.key)") == [
        "ArrowRight",
        "End",
        # no two processes have met, and none waits for ever
        "M",
        "m",
        "Shift+ArrowRight",
        "f",
        "L",
        "l",
        "D",
        "d",
        "b",
    ]
    browser.look(
        "(() => { const it = document.getElementById('slider'); it.value = 7; it.dispatchEvent(new Event('input')); })()"
    )
    assert film.shown()["event"] == 7
    time.sleep(1)
    assert browser.look("location.hash") == "#event=7"
    film.press("Home")
    left, top = browser.look(
        "(() => { const it = document.querySelector('#lanes svg').getBoundingClientRect(); return [it.x, it.y]; })()"
    )
    for kind in ("mousePressed", "mouseReleased"):
        # the third column, for the third line
        browser.ask(
            "Input.dispatchMouseEvent", type=kind, x=left + 130 + 2.5 * 28, y=top + 50, button="left", clickCount=1
        )
    assert film.shown()["event"] == 3
    browser.open(film.path + "#event=47")
    assert film.shown()["event"] == 47
    browser.open(film.path + "#event=last")
    assert film.shown()["event"] == 54


@pytest.mark.browser
def test_losses_by_overrun(browser: Browser, tmp_path: Path) -> None:
    """Two bytes for a node that takes none, whose acknowledges come from another node: the second is dropped."""
    head = HEAD.replace("]\n---", ",\n  { memory = 4096, links = [2, -1, -1, -1] }]\n---")
    # input 7 drives both outputs; node 1 alone takes Steps and acknowledges
    events = [
        "config 00 @0 = nothing",
        "config 07 @0 = nothing",
        "config 00 @0 = nothing",
        "config 00 @0 = nothing",
        "config 07 @0 = nothing",
        "config 02 @0 = nothing",
        "config 00 @0 = nothing",
        "config 02 @0 = nothing",
        "config 07 @0 = nothing",
        "config 03 @0 = nothing",
        "write 0 02 @0 = written",
        "write 0 21 @0 = written",
        "move 7 @farm = passed",
        "step 1 @farm = ran",
        "move 2 @farm = passed",
        "move 7 @farm = passed",
    ]
    film = Film(browser, tmp_path, head + "".join(f"0 {it}\n" for it in events))
    assert film.shown()["counts"][:2] == ["0", "1"]
    assert film.press("l") == 16
    shown = film.shown()
    assert [it["look"] for it in shown["nodes"]] == ["booting overruns 1 0 0 0", "booting overruns 0 0 0 0"]
    assert shown["text"].endswith("which drives port 0, node 0 link 0 and port 2, node 1 link 0; it was dropped there")
    film.fits()
    film.pictures("dropped", 16)


@pytest.mark.browser
def test_windows(browser: Browser, tmp_path: Path) -> None:
    """`--from` and `--count`, and Steps that stand together: a loop of 5,000 Steps has 1,001 frames."""
    whole = Film(browser, tmp_path, worked_record())
    looks = [whole.go(it) for it in range(43, 48)]
    film = Film(browser, tmp_path, worked_record(), "--from", "43", "--count", "4")
    assert film.shown()["span"] == "events 43 to 47. The record goes on: --from and --count show other events."
    for event, look in zip(range(43, 48), looks):
        shown = film.go(event)
        for part in ("event", "words", "nodes"):
            if part == "nodes":
                assert [{**it, "rows": []} for it in shown[part]] == [{**it, "rows": []} for it in look[part]]
            else:
                assert shown[part] == look[part]
    assert film.go(44)["text"] == "line 48, the farm: Step 4 of 6, step 0 = ran"
    assert [film.press("Home"), film.press("End"), film.press("f")] == [43, 47, 47]
    empty = Film(browser, tmp_path, worked_record(), "--from", "1000")
    assert (empty.shown()["event"], empty.shown()["span"]) == (54, "events 54 to 54, the end of the record.")
    cut = Film(browser, tmp_path, worked_record() + "0 write 0 0")
    assert cut.shown()["span"] == "events 0 to 54, the end of the record. Its last line is cut, and was left out."
    # nfix 0 and j -2, two bytes that go round for ever
    boots = [f"0 {it} @0 = nothing" for it in ("config 01", "config 00", "config 07", "config 03")]
    for byte in bytes.fromhex("03b4600e"):
        boots += [
            f"0 write 0 {byte:02x} @0 = written",
            "0 move 7 @farm = passed",
            "0 step 0 @farm = ran",
            "0 move 0 @farm = passed",
        ]
    loop = Film(browser, tmp_path, HEAD + "".join(f"{it}\n" for it in boots) + "5000 times 0 step 0 @farm = 5000 ran\n")
    assert loop.go(5020)["event"] == 5020
    assert browser.look("last") == 20 + 1001
    assert loop.go(4520)["text"] == "line 28, the farm: Steps 501 to 4,500, together, of 5,000, step 0 = ran"
    assert [loop.press("ArrowLeft"), loop.press("ArrowRight"), loop.press("ArrowRight")] == [520, 4520, 4521]
    # ajw 4 is the first Step; behind an even number of Steps the prefix has been done
    assert [loop.go(it)["nodes"][0]["registers"]["Iptr"] for it in (21, 22, 23, 520, 4520, 5020)] == [
        "80000049",
        "8000004a",
        "80000049",
        "8000004a",
        "8000004a",
        "8000004a",
    ]


def test_refusals(tmp_path: Path) -> None:
    """What is no record is refused as `lab why` refuses it."""
    record = worked_record()
    first = HEAD.count("\n") + 1

    def put(line: str) -> str:
        return record.replace("---\n", f"---\n{line}\n")

    rows = [
        "x = 1\n",
        "version = 3\n---\n",
        put("0 hello"),
        put("1 look 0 @0"),
        put("0 look 3 @0"),
        put("0 step 0 @farm = idle"),
        put("3 times 0 step 0 @farm"),
        put("0 config 07 @0 = 00"),
        put("2 times 0 config 07 @0"),
        record.replace("1099511627776", "7"),
        put("0 word 0"),
        record.replace("6 ran", "5 ran"),
    ]
    path = f"{tmp_path}/wrong.replay"
    for text in rows:
        with open(path, "w", encoding="utf-8") as it:
            it.write(text)
        told, film = lab(["why", path]), lab(["film", path])
        is_line = re.fullmatch(r"line \d+: .*\n", film[2]) is not None
        if film[0] != told[0] or film[1] or film[0] not in (3, 4) or (not is_line and film[2] != told[2]):
            raise AssertionError(f"{text}: {film} beside {told}")
        if is_line:
            assert film[2].split(":")[0] == told[2].split(":")[0]
    assert lab(["film", path])[2].split(":")[0] == f"line {first + 40}"
    nobody = f"{tmp_path}/nobody.replay"
    assert lab(["film", nobody]) == (6, "", f"{nobody}: it can't be read\n")
    for words in (["film"], ["film", path, path], ["film", path, "--from", "x"], ["film", path, "--count", "-1"]):
        assert lab(words)[:2] == (2, "")


def recorded(text: bytes, folder: Path) -> list[tuple[str, str]]:
    """The records of the domains of a text for `farm`, whose lines a `live` is given one after another."""
    plan, _, script = text.decode("utf-8", "surrogateescape").partition("---\n")
    with Live(plan, more=["--record", str(folder)]) as live:
        for line in script.splitlines():
            live.say(line.encode("utf-8", "surrogateescape") + b"\n")
            if line and not line.startswith("#"):
                live.hear()
        assert live.end()[0] == 0
    return [(it.stem, it.read_text(encoding="utf-8")) for it in sorted(folder.glob("*.replay"))]


# Each example with the path of its text.
PATHS = {name: f"{EXAMPLES}/{name}.farm" for name in (*PLAIN_NAMES, *HELPED_NAMES)} | {STORED_RUN: f"{STORED}/stdin"}


@pytest.mark.browser
@pytest.mark.parametrize("name", PATHS)
def test_examples_as_replayed(browser: Browser, tmp_path: Path, name: str) -> None:
    """The record of each domain of an example: the first frame, the last one and three others, and its code beside peeks."""
    text = contents(PATHS[name])
    if "/" in name:
        # its loads are spelled out
        status, out, errors = lab(["expand", PATHS[name]])
        assert (status, errors) == (0, "")
        text = out.encode("utf-8", "surrogateescape")
    records = tmp_path / "records"
    records.mkdir()
    found, chance = recorded(text, records), random.Random(name)
    assert found
    for user, record in found:
        film = Film(browser, tmp_path, record)
        events = events_in(record)
        assert film.shown()["span"] == f"events 0 to {events:,}, the end of the record."
        assert film.press("End") == events
        for event in [0, *sorted(chance.randint(0, events) for _ in range(3)), events]:
            shown = is_as_replayed(film, film.go(event)["event"])
        is_as_peeked(film, events, shown)
        film.fits()
        film.pictures(f"{name.replace('/', '-').replace(' ', '-')}-{user}", events // 2)


def long_record(folder: Path) -> str:
    """The record of two nodes that give bytes to one another, with some more than 100,000 events."""
    path = folder / "bob.replay"
    with Live(PINGS_PLAN, more=["--record", str(folder)]) as live:
        for line in PINGS:
            live.ask(f"bob {line}")
        until = time.monotonic() + 60
        while events_in(path.read_text(encoding="utf-8").rpartition("\n")[0] + "\n") < MANY + 10:
            assert time.monotonic() < until, "the nodes don't go on"
            live.ask("bob look 0")
        live.process.kill()
    return path.read_text(encoding="utf-8").rpartition("\n")[0] + "\n"


@pytest.mark.browser
@pytest.mark.long
def test_many_events(browser: Browser, tmp_path: Path) -> None:
    """Two nodes that give bytes to one another for ever."""
    records = tmp_path / "records"
    records.mkdir()
    whole = long_record(records)
    film = Film(browser, tmp_path, beginning(whole, MANY))
    assert film.press("End") == MANY
    is_as_replayed(film, MANY)
    opened = [film.opened, *(browser.open(film.path) for _ in range(2))]
    jump = browser.look(
        "(() => { const begun = performance.now(); for (let at = 0; at < 20; at += 1) go(last - at * 4999);"
        " return (performance.now() - begun) / 20000; })()"
    )
    told = f"{film.bytes / 1e6:.1f} MB, made in {film.made:.1f} s, opened in {min(opened):.2f} s, a jump in {jump * 1e3:.0f} ms"
    print(told)
    assert film.bytes < MOST_BYTES and min(opened) < MOST_SECONDS and jump < MOST_JUMP, told
    assert film.shown()["arrows"] <= 1000
    film.fits()
    film.pictures("many", MANY // 2)
    goes_on = Film(browser, tmp_path, whole)
    assert ("The record goes on" in goes_on.shown()["span"]) == (events_in(whole) > browser.look("recordedAt(last)"))


# ajw 8, ldc 2, ldlp -8 and startp, and then two loops of nfix 0 and j -2: the first process does the one at 8000004d, and starts
# another one at 8000004f. The code ends at 80000051, so W is 80000054, and 80000074 behind ajw 8; the other one's is 32 below.
TWO_LOOPS = "b8426018fd600e600e"
# ajw 4, ldc 7 and j 1, which goes to the zeros behind the code
INTO_ZEROS = "b44701"


def booted(code: str, lines: list[str]) -> str:
    """A record of a node that is booted, in 8 events and 4 for each byte of its code, and lines behind that."""
    events = [f"0 config {it} @0 = nothing" for it in ("01", "00", "07", "03")]
    for byte in bytes([len(code) // 2]) + bytes.fromhex(code):
        events += [
            f"0 write 0 {byte:02x} @0 = written",
            "0 move 7 @farm = passed",
            "0 step 0 @farm = ran",
            "0 move 0 @farm = passed",
        ]
    return HEAD + "".join(f"{it}\n" for it in [*events, *lines])


@pytest.mark.browser
def test_processes_by_hand(browser: Browser, tmp_path: Path) -> None:
    """A second process waits from the fifth Step on. The first has its slice behind 1,024 bytes of code, and waits behind it then."""
    film = Film(
        browser,
        tmp_path,
        booted(TWO_LOOPS, ["1000 times 0 step 0 @farm = 1000 ran", "100 times 0 step 0 @farm = 100 ran"]),
    )
    one, other = "W 80000074 at 8000004d", "W 80000054 at 8000004f"
    rows = {44: [], 48: [], 49: [other], 44 + 1024: [other], 44 + 1025: [other, one], 44 + 1026: [one]}
    for event, lines in rows.items():
        assert (event, film.go(event)["nodes"][0]["lines"].get("waiting", [])) == (event, lines)
    film.fits()
    film.pictures("processes", 44 + 1025)


@pytest.mark.browser
def test_zeros_by_hand(browser: Browser, tmp_path: Path) -> None:
    """A node that ran through zeros shows the code that led there. 20 events come before the first Step. It does 3 bytes of code,
    and zeros from 8000004c to the end of memory, 80001000; at 1,024 bytes it has its slice, and takes itself from the queue.
    """
    zeros = 0x80001000 - 0x8000004C
    film = Film(
        browser,
        tmp_path,
        booted(INTO_ZEROS, [f"{3 + zeros} times 0 step 0 @farm = {3 + zeros} ran", "0 step 0 @farm = fault 1"]),
    )
    event = film.press("End")
    assert event == 20 + 3 + zeros + 1
    outside = film.shown()["nodes"][0]["lines"]["outside"]
    assert outside[2:5] == ["  80000048  ajw 4", "  80000049  ldc 7", "> 8000004a  j 1"]
    film.fits()
    film.pictures("zeros", event)


@pytest.mark.browser
def test_labels_and_lines(browser: Browser, tmp_path: Path) -> None:
    """The lines of a program stand beside its code, with their labels. A comment may hold what would end an element of a page."""
    program = "        ajw 4      -- a </script> b\nloop:   ldc 7\n        j loop\n"
    with open(f"{tmp_path}/loop.s", "w", encoding="utf-8") as it:
        it.write(program)
    code = lab(["assemble"], program.encode())[1].strip()
    film = Film(
        browser, tmp_path, booted(code, ["2 times 0 step 0 @farm = 2 ran"]), "--program", "0", f"{tmp_path}/loop.s"
    )
    # after the boot, which is 4 events and 4 for each byte, and one Step
    rows = [it[2:] for it in film.go(4 + 4 * (1 + len(code) // 2) + 1)["nodes"][0]["rows"] if it[4]]
    assert rows == [
        ["ajw 4", "", "ajw 4      -- a </script> b", ""],
        ["ldc 7", "loop", "loop:   ldc 7", "here"],
        ["j -3", "loop+1", "j loop", ""],
    ]
    film.fits()
    for words in (["--program", "x", f"{tmp_path}/loop.s"], ["--program", "0"]):
        assert lab(["film", film.path, *words])[:2] == (2, "")
    with open(f"{tmp_path}/wrong.s", "w", encoding="utf-8") as it:
        it.write("hello\n")
    status, page, errors = lab(["film", f"{tmp_path}/record.replay", "--program", "0", f"{tmp_path}/wrong.s"])
    assert (status, page, errors.startswith(f"{tmp_path}/wrong.s: line 1, column 1: ")) == (4, "", True)


# A program of occam that halts in the instance of line 9, and its code by the table of docs/OCCAM.md: ajw 3 at 80000048, sethalterr
# (25 f8); line 8 is ldc 7 at 8000004b and stl 1; line 3, of the instance, ldl 1 at 8000004d, ldc 9, gt and cj 3; line 5 seterr (21 f0) at
# 80000051; and line 3 again j 2, and seterr at 80000054, since no condition was TRUE. stopp (21 f5) ends it.
OCCAM = """INT sum:
PROC check (VAL INT most)
  IF
    sum > most
      STOP
:
SEQ
  sum := 7  -- a </script> b
  check (9)
"""
OCCAM_CODE = "b325f8" "47d1" "7149f9a3" "21f002" "21f0" "21f5"


@pytest.mark.browser
def test_lines_of_occam(browser: Browser, tmp_path: Path) -> None:
    """The number and the text of the line of occam stand beside each instruction, and where the node is. What is no process has none.
    4 events come before the boot, and 4 for each byte of it."""
    with open(f"{tmp_path}/check.occ", "w", encoding="utf-8") as it:
        it.write(OCCAM)
    record = booted(OCCAM_CODE, ["10 times 0 step 0 @farm = 10 ran", "0 step 0 @farm = fault 3"])
    film = Film(browser, tmp_path, record, "--program", "0", f"{tmp_path}/check.occ")
    first = 4 + 4 * (1 + len(OCCAM_CODE) // 2)
    node = film.go(first)["nodes"][0]
    assert node["occam"] == []
    begin = [it[-1] for it in node["rows"]].index("here")
    assigned, compared = ["line 8", "sum := 7  -- a </script> b"], ["line 3 (9)", "IF"]
    assert [it[2:5] for it in node["rows"][begin : begin + 8]] == [
        ["ajw 3", "", ""],
        ["sethalterr", "", ""],
        ["ldc 7", *assigned],
        ["stl 1", *assigned],
        ["ldl 1", *compared],
        ["ldc 9", *compared],
        ["gt", *compared],
        ["cj 3", *compared],
    ]
    for steps, (number, text) in ((3, assigned), (4, assigned), (5, compared), (9, compared)):
        assert (steps, film.go(first + steps)["nodes"][0]["occam"]) == (steps, [f"{number}: {text}"])
    # cj 3 leads to 80000054, whose second byte ends in the fault
    halted = film.press("End")
    node = film.shown()["nodes"][0]
    assert (halted, node["occam"]) == (first + 11, ["line 3 (9): IF"])
    assert [it[2:] for it in node["rows"] if it[-1] == "here"] == [["seterr", *compared, "here"]]
    sources = json_of(film.path)["sources"]
    assert [
        (it["address"], it["length"], it["occam_line"], it.get("instance"), it["text"].strip()) for it in sources
    ] == [
        (0x8000004B, 2, 8, None, assigned[1]),
        (0x8000004D, 4, 3, 9, "IF"),
        (0x80000051, 2, 5, 9, "STOP"),
        (0x80000053, 3, 3, 9, "IF"),
    ]
    film.fits()


@pytest.mark.browser
def test_names_whole(browser: Browser, tmp_path: Path) -> None:
    """The name of a user stands whole before the lane of the host, and hosts stand above nodes."""
    name = "bea-mullerstein-of-hall-c"
    film = Film(browser, tmp_path, worked_record().replace('"ann"', f'"{name}"'))
    texts = browser.look("[...document.querySelectorAll('#lanes text')].map((it) => it.textContent)")
    assert f"host 0 {name}" in texts
    for width, height in SIZES:
        browser.size(width, height)
        tops = browser.look("['hosts', 'nodes'].map((it) => document.getElementById(it).getBoundingClientRect().top)")
        assert tops[0] <= tops[1]
    film.fits()
