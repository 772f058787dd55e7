"""`lab dap` as an editor uses it, by the Debug Adapter Protocol: a program is launched, stops at lines and goes on from there, forwards
and back; processes are threads; variables, faults and what hosts received are shown. What is expected is worked by hand from the
programs, and steps are held against `until` of `lab debug`."""

import json
import subprocess
from collections.abc import Iterator
from typing import Any

import pytest
from support.trials import TOP, put, run_text

SECONDS = 30
ADDS = """CHAN OF INT from, to:
PLACE from AT link0.in:
PLACE to AT link0.out:
INT n, count:
SEQ
  count := 0
  WHILE count < 2
    SEQ
      from ? n
      to ! n + 1
      count := count + 1
"""
OVERFLOW = """INT n:
SEQ
  n := 2147483647
  n := n + 1
"""
DEADLOCK = """CHAN OF INT c, d:
INT x, y:
PAR
  SEQ
    c ? x
    d ! x
  SEQ
    d ? y
    c ! y
"""


class Editor:
    """A client of the adapter."""

    def __init__(self) -> None:
        self.child = subprocess.Popen(
            [f"{TOP}/lab", "dap"], stdin=subprocess.PIPE, stdout=subprocess.PIPE, stderr=subprocess.DEVNULL
        )
        self.count = 0
        self.events: list[dict[str, Any]] = []

    def send(self, body: bytes) -> None:
        assert self.child.stdin
        self.child.stdin.write(b"Content-Length: %d\r\n\r\n" % len(body) + body)
        self.child.stdin.flush()

    def hear(self) -> dict[str, Any]:
        assert self.child.stdout
        length = 0
        while line := self.child.stdout.readline().strip():
            length = int(line.removeprefix(b"Content-Length: "))
        told: dict[str, Any] = json.loads(self.child.stdout.read(length))
        return told

    def ask(self, command: str, **words: Any) -> dict[str, Any]:
        """The answer to a request; what else is said comes to `events`."""
        self.count += 1
        self.send(json.dumps({"seq": self.count, "type": "request", "command": command, "arguments": words}).encode())
        while True:
            told = self.hear()
            if told["type"] == "response":
                assert (told["request_seq"], told["command"]) == (self.count, command)
                return told
            self.events.append(told)

    def must(self, command: str, **words: Any) -> Any:
        told = self.ask(command, **words)
        assert told["success"], told
        return told["body"]

    def next_event(self, name: str) -> Any:
        """What the next event of a kind says."""
        while True:
            told = self.events.pop(0) if self.events else self.hear()
            if told["event"] == name:
                return told["body"]

    def launch(self, lines: list[int], program: str, **words: Any) -> None:
        """Launches a program with breakpoints; it is at its beginning then."""
        self.must("initialize")
        self.must("launch", program=program, **words)
        self.next_event("initialized")
        told = self.must("setBreakpoints", source={"path": program}, breakpoints=[{"line": it} for it in lines])
        assert [(it["verified"], it["line"]) for it in told["breakpoints"]] == [(True, it) for it in lines]
        self.must("setExceptionBreakpoints", filters=["fault"])
        self.must("configurationDone")
        assert self.next_event("stopped")["reason"] == "entry"

    def stopped(self, command: str, **words: Any) -> tuple[str, int]:
        """Why the program stops after a command, and at which line of the thread that it is said of."""
        self.must(command, **words)
        told = self.next_event("stopped")
        frames = self.must("stackTrace", threadId=told["threadId"])["stackFrames"]
        return told["reason"], frames[0]["line"]

    def variables(self) -> dict[str, str]:
        thread = self.must("threads")["threads"][0]["id"]
        frame = self.must("stackTrace", threadId=thread)["stackFrames"][0]["id"]
        scope = self.must("scopes", frameId=frame)["scopes"][0]
        return {it["name"]: it["value"] for it in self.must("variables", **scope)["variables"]}

    def end(self) -> int:
        self.must("disconnect")
        assert self.child.stdin
        self.child.stdin.close()
        return self.child.wait(timeout=SECONDS)


@pytest.fixture
def editor(lab: str) -> Iterator[Editor]:
    it = Editor()
    yield it
    it.child.kill()
    it.child.wait()


def test_forwards_and_back(editor: Editor, folder: str) -> None:
    """A loop of two turns, with 6 and 41 to add one to."""
    path = f"{folder}/adds.occ"
    put(path, ADDS)
    editor.launch([10], path, send=["word 6 41"])
    assert editor.stopped("continue", threadId=1) == ("breakpoint", 10)
    assert (editor.variables()["n"], editor.variables()["count"]) == ("6", "0")
    assert editor.stopped("next", threadId=1) == ("step", 11)
    assert editor.stopped("stepBack", threadId=1) == ("breakpoint", 10)
    assert editor.stopped("continue", threadId=1) == ("breakpoint", 10)
    assert (editor.variables()["n"], editor.variables()["count"]) == ("41", "1")
    assert editor.stopped("reverseContinue", threadId=1) == ("breakpoint", 10)
    assert editor.variables()["n"] == "6"
    assert editor.stopped("continue", threadId=1) == ("breakpoint", 10)
    assert editor.must("evaluate", expression="n", context="watch", frameId=2)["result"] == "41"
    editor.must("continue", threadId=1)
    assert editor.next_event("output")["output"].encode("latin-1") == bytes([42, 0, 0, 0])
    assert editor.next_event("stopped")["description"].startswith("the record ends")
    assert editor.end() == 0


def test_steps_are_those_of_until(editor: Editor, folder: str) -> None:
    """Each stop at a line is at the moment at which `until` finds it."""
    path, record = f"{folder}/adds.occ", f"{folder}/adds.replay"
    put(path, ADDS)
    put(record, run_text([f"{TOP}/lab", "run", path, "--record", "0", "--send", "word 6 41"]).stdout)
    for line in (9, 10, 11):
        debug = [f"{TOP}/lab", "debug", record, "--program", "0", path]
        told = run_text(debug, "go 0\n" + f"until node 0 at line {line}\n" * 2).stdout.splitlines()
        moments = [it.split()[1] for it in told if it.startswith("after ")][-2:]
        other = Editor()
        try:
            other.launch([line], path, send=["word 6 41"])
            for moment in moments:
                other.must("continue", threadId=1)
                assert other.next_event("stopped")["description"].split(" of ")[0].endswith(f"after {moment}")
            assert other.end() == 0
        finally:
            other.child.kill()
            other.child.wait()


def test_fault(editor: Editor, folder: str) -> None:
    """It stops where the node halts, with the line and what is said of it."""
    path = f"{folder}/overflow.occ"
    put(path, OVERFLOW)
    editor.launch([], path)
    assert editor.stopped("continue", threadId=1) == ("exception", 4)
    told = editor.must("exceptionInfo", threadId=editor.must("threads")["threads"][0]["id"])
    assert "halted by fault 3" in told["description"]


def test_processes_are_threads(editor: Editor, folder: str) -> None:
    """Two processes that wait for each other, each with its line."""
    path = f"{folder}/deadlock.occ"
    put(path, DEADLOCK)
    editor.launch([], path)
    editor.must("continue", threadId=1)
    editor.next_event("stopped")
    threads = editor.must("threads")["threads"]
    lines = [editor.must("stackTrace", threadId=it["id"])["stackFrames"][0]["line"] for it in threads]
    waits = sorted(it["name"].partition(" waits ")[2] for it in threads)
    assert (waits, sorted(lines)) == (["to receive by c", "to receive by d"], [5, 8])


def test_refusals(editor: Editor, folder: str) -> None:
    """What can't be done is said, and the editor is served on."""
    editor.must("initialize")
    requests: tuple[tuple[str, dict[str, str]], ...] = (
        ("threads", {}),
        ("launch", {}),
        ("launch", {"program": f"{folder}/none.occ"}),
        ("launch", {"record": f"{folder}/none.replay"}),
        ("nonsense", {}),
        ("setBreakpoints", {}),
    )
    for command, words in requests:
        told = editor.ask(command, **words)
        assert (command, told["success"], bool(told["message"])) == (command, False, True)
    put(f"{folder}/wrong.occ", "nonsense\n")
    assert "wrong.occ:1:9: " in editor.ask("launch", program=f"{folder}/wrong.occ")["message"]
    assert editor.end() == 0


def test_odd_messages_end_it(editor: Editor) -> None:
    """A length that is none, and one that is too long: the adapter ends, and takes no memory for it."""
    editor.must("initialize")
    assert editor.child.stdin
    editor.child.stdin.write(b"Content-Length: 99999999999\r\n\r\n{}")
    editor.child.stdin.close()
    assert editor.child.wait(timeout=SECONDS) == 0
