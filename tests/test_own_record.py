"""A user's own record: at the socket, in the package and at a terminal, it is that of the user's own domain and of no other, whole lines
alone. What is compared with it is the file that `live` writes, and what `lab rows` says of the bytes. With it terminals and scripts say
in which lines processes wait, make a film, and go back in time."""

import os
import re
import subprocess
import threading
from pathlib import Path

import pytest
from support.live_lines import PLAN
from support.screens import Screen
from support.serving_trials import Served
from support.trials import LAB, TOP, put, run

from nadzsumek import Farm
from nadzsumek.farm import User
from nadzsumek.serving.own_record import PIECE, fetched
from nadzsumek.serving.records import records_of

DEADLOCK = """CHAN OF INT c, d:
INT x, y, z:
SEQ
  y := 3
  PAR
    SEQ
      c ! y + 1
      d ? x
    SEQ
      d ! 2
      c ? z
"""
OTHER = DEADLOCK.replace("c ! y + 1", "c ! 7")


def newest(served: Served, name: str) -> bytes:
    """The whole lines of the file of a record, as it is written."""
    content = Path(records_of(f"{served.folder}/records", name)[-1]).read_bytes()
    return content[: content.rfind(b"\n") + 1]


def taken(served: Served, name: str) -> bytes | None:
    """The record that a user's socket gives."""
    client = served.client(name)
    try:
        return fetched(client.ask)
    finally:
        client.leave()


def test_each_gets_the_record_of_their_own_domain() -> None:
    """What ann gets is her domain's file. bob and cas share a domain, and get the same; nobody gets another's, whatever they ask."""
    with Served(PLAN) as it:
        it.ask("ann", "write 0 414141")
        it.ask("bob", "write 0 4242")
        it.ask("cas", "write 1 4343")
        own = {name: taken(it, name) for name in ("ann", "bob", "cas")}
        assert own["ann"] == newest(it, "ann") and own["bob"] == own["cas"] == newest(it, "bob")
        assert b"ann" in (own["ann"] or b"") and b"bob" not in (own["ann"] or b"") and b"ann" not in (own["bob"] or b"")
        for line in ("record ../bob 0", "record bob", "record 1 -1", "record 1 0 0", "record  1 0", "record \u0661 0"):
            assert it.ask("ann", line) == "record -"
        assert it.ask("ann", "record 2 0") == "record 2 0 -"
        assert it.ask("ann", "record 1 999999999") == "record 1 999999999 -"
        assert it.ask("ann", "record\r").startswith("record 1 ")
        # of all that nothing is recorded
        assert own["ann"] == newest(it, "ann")
        assert run([LAB, "rows", records_of(f"{it.folder}/records", "ann")[-1]])[0] == 0
        assert it.stop()[0] == 0


def test_a_line_that_is_not_whole_is_left_out() -> None:
    """A half line at the end, a file of another domain under the name, one without a head, none at all, and a link."""
    with Served(PLAN) as it:
        it.ask("ann", "write 0 41")
        path = Path(records_of(f"{it.folder}/records", "ann")[-1])
        whole, others = path.read_bytes(), Path(records_of(f"{it.folder}/records", "bob")[-1]).read_bytes()
        path.write_bytes(whole + b"0 write 0 42 @0")
        assert taken(it, "ann") == whole
        for content in (others, b"secret\n", whole + others):
            path.write_bytes(content)
            assert (taken(it, "ann") or b"").count(b"bob") == content.count(b"bob") * (content == whole + others)
            assert it.ask("ann", "record 1 0").endswith(" -") == (content != whole + others)
        path.write_bytes(b"")
        assert taken(it, "ann") == b""
        path.unlink()
        assert (taken(it, "ann"), it.ask("ann", "record")) == (None, "record -")
        path.symlink_to(records_of(f"{it.folder}/records", "bob")[-1])
        assert it.ask("ann", "record") == "record -"


def test_it_grows_and_restarts_while_it_is_read() -> None:
    """Another connection writes and restarts without end: each record that is given is one that `lab rows` does again."""
    with Served(PLAN) as it:
        for _ in range(3):
            it.ask("ann", f"write 0 {'41' * 2000}")
        assert len(newest(it, "ann")) > 2 * PIECE
        is_over, given = threading.Event(), list[bytes]()

        def disturb() -> None:
            other = it.client("ann")
            for count in range(10_000):
                other.ask("restart" if count % 200 == 199 else f"config {'04' * 50}")
                if is_over.is_set():
                    break
            other.leave()

        thread = threading.Thread(target=disturb)
        thread.start()
        with Farm(it.folder).user("ann") as ann:
            given = [ann.record() for _ in range(20)]
        is_over.set()
        thread.join()
        for number, content in enumerate({*given}):
            assert content.endswith(b"\n") and content.startswith(b"version = 3\n")
            path = f"{it.room.name}/{number}.replay"
            put(path, content.decode())
            # a record without an event has no row
            assert run([LAB, "rows", path])[0] == (0 if b"\n0 " in content else 1)


def test_while_it_is_replayed(live: str) -> None:
    """A farm that starts again gives the record that it goes on from."""
    with Served(PLAN) as it:
        it.ask("ann", f"write 0 {'41' * 3000}")
        before = newest(it, "ann")
        it.kill_live()
        client = it.client("ann")
        given = fetched(lambda line: client.must(line))
        client.leave()
        assert given == before
        assert it.stop()[0] == 0


def loaded(user: User, path: str) -> None:
    user.join(0, 7)
    user.load(0, path)


def test_why_by_line(folder: str) -> None:
    """The package and `connect` say the lines and the variables that they name, of the text that was loaded; a text that isn't the code
    in memory any more is told as that."""
    put(f"{folder}/dead.occ", DEADLOCK)
    put(f"{folder}/other.occ", OTHER)
    with Served(PLAN) as it:
        with Farm(it.folder).user("ann") as ann:
            loaded(ann, f"{folder}/dead.occ")
            # the file may become another: what was loaded is kept
            put(f"{folder}/dead.occ", OTHER)
            assert ann.waits() == (
                "node 0 waits in line 7: c ! y + 1  (y is 3)",
                "node 0 waits in line 10: d ! 2",
            )
            assert (ann.waits(0), ann.waits(1)) == (ann.waits(), ())
        call = [f"{TOP}/connect", it.folder, "ann", "-c", "why 0"]
        done = subprocess.run(call, capture_output=True, text=True, check=False)
        assert done.stdout.splitlines()[-2:] == [
            "node 0 waits in line 7: c ! y + 1  (y is 3)",
            "node 0 waits in line 10: d ! 2",
        ]
        with Farm(it.folder).user("ann") as ann:
            ann.reset(0)
            # behind the back of what keeps texts
            ann.ask(f"boot 0 {code_of(f'{folder}/other.occ')}")
            assert len(ann.waits()) == 2 and "other code is in its memory" in ann.waits()[0]
            ann.reset(0)
            ann.load(0, b"\x21\xf5")
            assert ann.waits() == ()


def code_of(path: str) -> str:
    status, out, _ = run([LAB, "occam", path, "--code"])
    assert status == 0
    return out.decode().strip()


def test_at_a_terminal(folder: str) -> None:
    """A student with a terminal alone finds the deadlock by line, makes the film, and steps back."""
    put(f"{folder}/dead.occ", DEADLOCK)
    with Served(PLAN) as it, Screen([f"{TOP}/connect", it.folder, "ann"], folder, HOME=folder) as ann:
        ann.until("ann> ")
        ann.line("join 0 7", ["config -"])
        ann.press("load 0 dead.occ\r")
        ann.until("boot 0 ")
        ann.press("why\r")
        ann.until("node 0 waits in line 7: c ! y + 1  (y is 3)")
        ann.until("node 0 waits in line 10: d ! 2")
        ann.press("record\r")
        ann.until("ann.replay: ")
        ann.press("film\r")
        ann.until("ann.html: the film of your machine")
        ann.press("debug\r")
        ann.until("* 1  node 0  line 7: c ! y + 1  waits to send by c")
        ann.until("2  node 0  line 10: d ! 2  waits to send by d")
        ann.press("list\r")
        ann.until(">   7        c ! y + 1")
        ann.press("rs\r")
        ann.until("goes on")
        ann.until("c ! y + 1")
        ann.press("print y\r")
        ann.until("INT y (line 2): 3")
        ann.press("brak 4\r")
        ann.until("Is it break?")
        ann.press("break 4\r")
        ann.until("breakpoint at line 4 of node 0: y := 3")
        ann.press("reverse-continue\r")
        ann.until("y := 3")
        ann.press("p y\r")
        ann.until("INT y (line 2): 0")
        ann.press("quit\r")
        ann.until("ann> ")
        ann.line("rest", ["rest quiet"])
        ann.press("record no.such/file.replay\r")
        ann.until("can't be written")
        put(f"{folder}/mine.txt", "mine")
        ann.press("record mine.txt\r")
        ann.until("its name doesn't end with .replay")
        ann.press("quit\r")
        assert ann.end()[1] == 0
        assert Path(f"{folder}/ann.replay").read_bytes() == newest(it, "ann")
        assert Path(f"{folder}/mine.txt").read_text(encoding="utf-8") == "mine"
        assert re.search(r'"deadlocks":\[\d+\]', Path(f"{folder}/ann.html").read_text(encoding="utf-8"))
        assert os.stat(f"{folder}/ann.replay").st_mode & 0o077 == 0


def test_nothing_is_recorded_yet(folder: str) -> None:
    with Served(PLAN) as it:
        path = Path(records_of(f"{it.folder}/records", "ann")[-1])
        path.unlink()
        for verb in ("record", "film"):
            call = [f"{TOP}/connect", it.folder, "ann", "-c", verb]
            done = subprocess.run(call, capture_output=True, text=True, check=False, cwd=folder)
            assert (done.returncode, done.stderr) == (
                1,
                "error: nothing of your machine is recorded yet. Try: join, then load\n",
            )
        assert os.listdir(folder) == []


@pytest.mark.parametrize("verb", ("record", "film", "debug"))
def test_the_operator_has_none(verb: str) -> None:
    with Served(PLAN) as it:
        call = [f"{TOP}/connect", it.folder, "operator", "-c", verb]
        done = subprocess.run(call, capture_output=True, text=True, check=False)
        assert (done.returncode, f"{verb} is a verb of users" in done.stderr) == (1, True)


def guide_blocks() -> list[str]:
    """The program of the guide and the session at its terminal."""
    text = Path(TOP, "docs/guides/DEBUGGING.md").read_text(encoding="utf-8")
    return re.findall(r"```text\n(.*?)```", text.partition("## From a terminal alone")[2], re.S)


def test_the_session_of_the_guide(folder: str) -> None:
    """What docs/guides/DEBUGGING.md shows is what a student sees: a deadlock is found by line, seen in a film, and stepped back from. The
    numbers of events depend on how the farm's threads take turns."""
    program, session = guide_blocks()[:2]
    put(f"{folder}/swap.occ", program)
    with Served(PLAN) as it, Screen([f"{TOP}/connect", it.folder, "ann"], folder, HOME=folder, TERM="dumb") as ann:
        ann.until("ann> ")
        typed = [found for found in re.finditer(r"^(?:ann|debug)> (.*)$", session, re.M)]
        ends = [it.start() for it in typed[1:]] + [len(session)]
        for one, end, behind in zip(typed, ends, [*typed[1:], None]):
            ann.press(f"{one[1]}\r")
            prompt = behind[0].partition("> ")[0] + "> " if behind else None
            shown = ann.until(prompt).removesuffix(prompt) if prompt else ann.end()[0]
            shown = re.sub(r"after \d+ of \d+ events", "after N of N events", shown.replace("\r", ""))
            shown = re.sub(r"after \d+ events", "after N events", shown.partition("\n")[2])
            assert (one[1], shown.strip("\n")) == (one[1], session[one.end() : end].strip("\n"))
        page = Path(f"{folder}/ann.html").read_text(encoding="utf-8")
        assert re.search(r'"deadlocks":\[\d+\]', page) and "right ! n" in page
