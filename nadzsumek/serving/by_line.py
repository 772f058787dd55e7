"""In which lines of its programs a machine waits, goes on or erred, by the debugger of the lab and a record."""

from __future__ import annotations

import re
import subprocess
import tempfile

from .folder import program

# How many Steps of a record are done again for it, how long that may take, and how many bytes a record may have.
MOST_STEPS, SECONDS, MOST_RECORD = 50_000_000, 20, 8 << 20
LINE = re.compile(r"node (\d+) at [0-9a-f]{8} (waits|goes on|erred) (?:(in line [^:]*): (.*)|(in no line|where) .*)")
VARIABLE = re.compile(r"[0-9a-f]{8}  (?:\[\d+\])?(INT|BYTE|BOOL) (\S+) \(line \d+\): (.*)")
NAME = re.compile(r"[A-Za-z][A-Za-z0-9.]*")
# What stands between quotes names nothing, and neither does a comment.
LITERAL = re.compile(r"\"(?:[^\"*]|\*.)*\"|'(?:[^'*]|\*.)*'|--.*")
OTHER_CODE = "where memory has other code than its program"


def told_by_line(record: bytes, programs: dict[int, str], node: int | None = None) -> list[str]:
    """A line for each process of the nodes with these programs, or of one of them: the line of the text at which it is, and the
    variables that it names. Nothing is told of a record that is too long for it."""
    wanted = [it for it in programs if node in (None, it)]
    if not wanted or len(record) > MOST_RECORD:
        return []
    commands = "".join(f"why {it}\nvariables {it}\n" for it in wanted)
    with tempfile.NamedTemporaryFile(prefix="nadzsumek-", suffix=".replay") as kept:
        kept.write(record)
        kept.flush()
        words = [word for it in wanted for word in ("--program", f"{it}", programs[it])]
        call = [program("lab"), "debug", kept.name, *words, "--steps", f"{MOST_STEPS}"]
        try:
            done = subprocess.run(call, input=commands, capture_output=True, text=True, timeout=SECONDS, check=False)
        except subprocess.TimeoutExpired:
            return []
    return lines_in(done.stdout.splitlines()) if done.returncode == 0 else []


def lines_in(told: list[str]) -> list[str]:
    """The lines of the processes of what the debugger says."""
    values = dict[int, dict[str, str]]()
    found = list[re.Match[str]]()
    node = -1
    for line in told:
        if it := LINE.fullmatch(line):
            found.append(it)
            node = int(it[1])
        elif it := VARIABLE.fullmatch(line):
            values.setdefault(node, {}).setdefault(it[2], it[3])
    return [line_of(it, values.get(int(it[1]), {})) for it in found]


def line_of(it: re.Match[str], values: dict[str, str]) -> str:
    """What is said of one process."""
    node, does, where, text = it[1], it[2], it[3], it[4]
    if it[5] == "where":
        return f"node {node} {does}, but other code is in its memory than the text that was loaded last: load it again"
    if where is None:
        return f"node {node} {does} in no line of its program"
    names = dict.fromkeys(NAME.findall(LITERAL.sub("", text)))
    named = ", ".join(f"{name} is {values[name]}" for name in names if name in values)
    return f"node {node} {does} {where}: {text}" + (f"  ({named})" if named else "")
