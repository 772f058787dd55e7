"""A debug adapter on standard input and output (Debug Adapter Protocol), for programs in the record of a domain. It goes through time
by the commands of `lab debug`, so it steps back as it steps on."""
from __future__ import annotations

import json
import os
import subprocess
import sys
import tempfile
from collections.abc import Iterator
from typing import Any, BinaryIO

from .engine import Engine, Process, Refused

# Up to how many events a record may have so that what hosts received is shown.
OUTPUT_EVENTS = 30_000
# A request has no more bytes.
MOST_BYTES = 1 << 20
Json = dict[str, Any]
Events = list[tuple[str, Json]]


class Adapter:
    """Requests, and what they are answered."""

    def __init__(self, lab: list[str], source: BinaryIO, sink: BinaryIO) -> None:
        self.lab, self.source, self.sink, self.seq = lab, source, sink, 0
        self.engine_or_none: Engine | None = None
        self.breakpoints: dict[str, list[tuple[int, int]]] = {}
        self.exceptions: list[str] = []
        self.threads: dict[int, tuple[int, int]] = {}
        self.seen: dict[int, Process] = {}
        self.elements: list[list[str]] = []
        self.current = 1
        self.stop_on_entry = True

    # What goes to the client and comes from it.

    def send(self, message: Json) -> None:
        self.seq += 1
        body = json.dumps({"seq": self.seq, **message}).encode()
        self.sink.write(b"Content-Length: %d\r\n\r\n" % len(body) + body)
        self.sink.flush()

    def requests(self) -> Iterator[Json]:
        while True:
            length = 0
            while (line := self.source.readline()).strip():
                name, _, value = line.partition(b":")
                if name.lower() == b"content-length":
                    length = int(value)
            if not line or length > MOST_BYTES:
                return
            yield json.loads(self.source.read(length))

    def serve(self) -> None:
        for request in self.requests():
            answer: Json = {"type": "response", "request_seq": request["seq"], "command": request["command"]}
            do = getattr(self, "on_" + request["command"], None)
            after: Events = []
            try:
                if do is None:
                    raise Refused(f"{request['command']} isn't known")
                body = do(request.get("arguments") or {}, after)
                self.send({**answer, "success": True, "body": body or {}})
            except (Refused, KeyError, ValueError, OSError) as fault:
                self.send({**answer, "success": False, "message": str(fault) or type(fault).__name__})
            for event, told in after:
                self.send({"type": "event", "event": event, "body": told})
            if request["command"] == "disconnect":
                return

    @property
    def engine(self) -> Engine:
        if self.engine_or_none is None:
            raise Refused("nothing is launched")
        return self.engine_or_none

    # The session.

    def on_initialize(self, _: Json, __: Events) -> Json:
        return {
            "supportsConfigurationDoneRequest": True,
            "supportsStepBack": True,
            "supportsTerminateRequest": True,
            "supportsEvaluateForHovers": True,
            "supportsExceptionInfoRequest": True,
            "exceptionBreakpointFilters": [
                {"filter": "fault", "label": "a node halts", "default": True},
                {"filter": "lost", "label": "a packet is lost", "default": False},
            ],
        }

    def on_launch(self, words: Json, after: Events) -> None:
        """Opens the record that is named; or that of a script, or of a program by itself (`program`, and what it is sent)."""
        programs = {int(node): os.path.realpath(file) for node, file in words.get("programs", {}).items()}
        if "program" in words:
            programs[0] = os.path.realpath(words["program"])
        with tempfile.TemporaryDirectory(prefix="nadzsumek-") as room:
            record = words.get("record") or self.recorded(words, os.path.join(room, "run.replay"))
            # it is read once
            self.engine_or_none = Engine.open(self.lab, record, programs, int(words.get("outputUpTo", OUTPUT_EVENTS)))
        if self.engine.said:
            after.append(("output", {"category": "important", "output": "\n".join(self.engine.said) + "\n"}))
        self.stop_on_entry = words.get("stopOnEntry", True)
        after.append(("initialized", {}))

    def recorded(self, words: Json, path: str) -> str:
        """The record of a run, in a file."""
        if "program" in words:
            call = ["run", words["program"], "--record", "0"]
            call += [word for sent in words.get("send", []) for word in ("--send", f"{sent}")]
        elif "script" in words:
            call = ["run", words["script"], "--record", f"{words.get('domain', 0)}"]
        else:
            raise Refused("launch wants `program`, `script` or `record`")
        done = subprocess.run([*self.lab, *call], stdin=subprocess.DEVNULL, capture_output=True, check=False)
        if done.returncode != 0:
            raise Refused(done.stderr.decode(errors="replace").strip())
        with open(path, "wb") as file:
            file.write(done.stdout)
        return path

    def on_configurationDone(self, _: Json, after: Events) -> None:
        if self.stop_on_entry:
            self.stop("entry", 0, after)
        else:
            self.run(False, after)

    def on_terminate(self, _: Json, after: Events) -> None:
        if self.engine_or_none is not None:
            self.engine_or_none.quit()
            self.engine_or_none = None
            after.append(("terminated", {}))

    on_disconnect = on_terminate

    # Breakpoints.

    def on_setBreakpoints(self, words: Json, _: Events) -> Json:
        path, told = words["source"].get("path", ""), list[Json]()
        nodes = [node for node, file in self.engine.programs.items() if file == os.path.realpath(path)]
        self.breakpoints[path] = []
        for asked in words.get("breakpoints", []):
            lines = {node: self.engine.line_with_code(node, int(asked["line"])) for node in nodes}
            its = [(node, line) for node, line in lines.items() if line is not None]
            self.breakpoints[path] += its
            told.append(
                {"verified": True, "line": its[0][1], "source": {"path": path}}
                if its
                else {"verified": False, "message": "no node of this program has code from this line on"}
            )
        return {"breakpoints": told}

    def on_setExceptionBreakpoints(self, words: Json, _: Events) -> None:
        self.exceptions = [it for it in words.get("filters", []) if it in ("fault", "lost")]

    # Going on and back.

    def look(self) -> None:
        """Gives each process the number of a thread, which it keeps."""
        known = {key: thread for thread, key in self.threads.items()}
        self.seen = {}
        for process in self.engine.processes():
            key = (process.node, process.workspace)
            thread = known.setdefault(key, len(known) + 1)
            self.threads[thread], self.seen[thread] = key, process

    def stop(self, reason: str, before: int, after: Events, node: int | None = None, text: str = "") -> None:
        """Says that the domain is at another moment, and what the hosts received since."""
        were = set(self.seen)
        self.look()
        for thread in sorted(were ^ set(self.seen)):
            after.append(("thread", {"reason": "exited" if thread in were else "started", "threadId": thread}))
        wanted = "halted" if reason == "exception" else "goes on"
        its = [thread for thread, it in self.seen.items() if node in (None, it.node) and it.state.startswith(wanted)]
        if its and (node is not None or reason == "exception"):
            self.current = its[0]
        if self.current not in self.seen:
            self.current = min(self.seen)
        for host, got in self.engine.received(before, self.engine.here).items():
            after.append(("output", {"category": "stdout", "output": got.decode("latin-1"), "data": {"host": host}}))
        where = f"after {self.engine.here} of {self.engine.events} events"
        after.append(
            (
                "stopped",
                {
                    "reason": reason,
                    "threadId": self.current,
                    "allThreadsStopped": True,
                    "description": f"{text}, {where}" if text else where,
                },
            )
        )

    def run(self, back: bool, after: Events) -> None:
        before = self.engine.here
        lines = [it for its in self.breakpoints.values() for it in its]
        goals = [f"node {node} at line {line}" for node, line in lines] + self.exceptions
        met = self.engine.seek(goals, back)
        if met is None:
            self.stop("pause", before, after, None, "the record begins" if back else "the record ends")
        elif met < len(lines):
            self.stop("breakpoint", before, after, lines[met][0], goals[met])
        else:
            self.stop("exception", before, after, None, goals[met])

    def on_continue(self, _: Json, after: Events) -> Json:
        self.run(False, after)
        return {"allThreadsContinued": True}

    def on_reverseContinue(self, _: Json, after: Events) -> None:
        self.run(True, after)

    def on_pause(self, _: Json, after: Events) -> None:
        self.stop("pause", self.engine.here, after)

    def step(self, words: Json, after: Events, how: str, back: bool = False) -> None:
        before = self.engine.here
        self.look()
        self.current = words["threadId"] if words.get("threadId") in self.seen else min(self.seen)
        stops = {it for its in self.breakpoints.values() for it in its}
        reason, node = self.engine.step(self.seen[self.current], how, back, stops)
        if reason == "end":
            self.stop("step", before, after, None, "the process comes to no other line")
        else:
            self.stop(reason, before, after, node)

    def on_next(self, words: Json, after: Events) -> None:
        self.step(words, after, "over")

    def on_stepIn(self, words: Json, after: Events) -> None:
        self.step(words, after, "in")

    def on_stepOut(self, words: Json, after: Events) -> None:
        self.step(words, after, "out")

    def on_stepBack(self, words: Json, after: Events) -> None:
        self.step(words, after, "over", True)

    # What is there.

    def on_threads(self, _: Json, __: Events) -> Json:
        self.look()
        return {
            "threads": [
                {
                    "id": thread,
                    "name": f"node {it.node} "
                    + (f"process {it.workspace:08x} {it.state} {it.wait}".rstrip() if it.workspace else it.state),
                }
                for thread, it in sorted(self.seen.items())
            ]
        }

    def on_stackTrace(self, words: Json, _: Events) -> Json:
        thread = int(words["threadId"])
        if thread not in self.seen:
            raise Refused("this process isn't there now")
        its = self.seen[thread]
        name, file = f"node {its.node} {its.state}", self.engine.programs.get(its.node, "")
        source = {"name": os.path.basename(file), "path": file}
        frames: list[Json] = [
            {
                "id": thread * 2 + depth,
                "name": "instance" if depth else name,
                "line": line,
                "column": 1,
                "source": source,
            }
            for depth, line in enumerate((its.spot.line, its.spot.instance))
            if line is not None
        ]
        frames = frames or [{"id": thread * 2, "name": name, "line": 0, "column": 0}]
        return {"stackFrames": frames, "totalFrames": len(frames)}

    def on_exceptionInfo(self, words: Json, _: Events) -> Json:
        told = self.engine.ask(f"why {self.threads[int(words['threadId'])][0]}")
        return {"exceptionId": told[0], "description": "\n".join(told), "breakMode": "always"}

    def on_scopes(self, words: Json, _: Events) -> Json:
        node = self.threads[int(words["frameId"]) // 2][0]
        self.elements = []
        kinds = (("Variables", 100), ("Registers", 200), ("Links", 300), ("Hosts", 400))
        return {
            "scopes": [{"name": name, "variablesReference": base + node, "expensive": False} for name, base in kinds]
        }

    def on_variables(self, words: Json, _: Events) -> Json:
        reference = int(words["variablesReference"])
        kind, node = divmod(reference, 100)
        shown: list[Json]
        if reference >= 1000:
            shown = [{"name": f"[{number}]", "value": it} for number, it in enumerate(self.elements[reference - 1000])]
        elif kind == 1:
            its = self.engine.variables(node) if node in self.engine.programs else []
            names = [it.name for it in its]
            shown = []
            for it in its:
                shown.append(
                    {
                        "name": f"{it.name} (line {it.line})" if names.count(it.name) > 1 else it.name,
                        "value": it.value,
                        "type": it.type,
                        "memoryReference": "0x" + it.address,
                    }
                )
                if it.elements:
                    shown[-1]["variablesReference"] = 1000 + len(self.elements)
                    self.elements.append(it.elements)
        elif kind == 2:
            shown = [{"name": name, "value": value} for name, value in self.engine.registers(node)]
        elif kind == 3:
            shown = [{"name": it[:6], "value": it[7:]} for it in self.engine.ask(f"links {node}")]
        else:
            shown = [{"name": it.partition(": ")[0], "value": it.partition(": ")[2]} for it in self.engine.ask("hosts")]
        return {"variables": [{"variablesReference": 0, **it} for it in shown]}

    def on_evaluate(self, words: Json, after: Events) -> Json:
        if words.get("context") == "repl":
            before = self.engine.here
            answer = self.engine.ask(words["expression"])
            if self.engine.here != before:
                self.stop("goto", before, after)
            return {"result": "\n".join(answer), "variablesReference": 0}
        node = self.threads.get(int(words.get("frameId", 2)) // 2, (0, 0))[0]
        values = [it.value for it in self.engine.variables(node, words["expression"])]
        if not values:
            raise Refused(f"no variable of node {node} is called {words['expression']}")
        return {"result": ", ".join(values), "variablesReference": 0}


def main(lab: list[str]) -> int:
    """Serves an editor until it has ended; the status."""
    Adapter(lab, sys.stdin.buffer, sys.stdout.buffer).serve()
    return 0
