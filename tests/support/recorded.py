"""What the tests of records share: plans of one and of two nodes, programs as boot messages, and the record of a domain
that is asked for events."""

import re
from collections.abc import Iterable, Iterator

from support.trials import LAB, run

HEAD = """version = 3
[[domain]]
limit = 1099511627776
range = [[0, 7]]
user = [{{ name = "ann", host = [7] }}]
node = [
{}]
---
"""
NODE = "  {{ memory = 4096, links = {} }},\n"
# One node, of which link 0 is at port 0; two, of which the first has port 0 and 1 and the second 2 and 3; the host is at port 7.
ONE = HEAD.format(NODE.format("[0, -1, -1, -1]"))
TWO = HEAD.format(NODE.format("[0, 1, -1, -1]") + NODE.format("[2, 3, -1, -1]"))
SETTLE = "0 settle 256 10000"
# Port 0 and the host's are joined in both directions, and ready.
JOINED = "0 configs 01000703"


def lab(words: list[str], text: bytes = b"") -> tuple[int | None, str, str]:
    """Status, standard output and standard error of the lab."""
    status, out, errors = run([LAB, *words], text)
    return status, out.decode(), errors.decode()


def assembled(text: str) -> str:
    """The bytes of a program."""
    status, code, errors = lab(["assemble"], text.encode())
    assert (status, errors) == (0, "")
    return code.strip()


def loaded(code: str) -> str:
    """The line by which the host boots a node with code."""
    return f"0 writes 0 {len(code) // 2:02x}{code}"


def boot(program: str) -> str:
    """The line by which the host boots a node with a program."""
    return loaded(assembled(program))


def journal_lines(journal: Iterable[str]) -> Iterator[str]:
    """The lines of a record for the entries of a journal, as `lab replay` shows them."""
    for line in journal:
        if run_of := re.fullmatch(r"@farm run (\d+) (\d+): (.*)", line):
            node, count, last = run_of[1], int(run_of[2]), run_of[3]
            ran = count if last == "ran" else count - 1
            if ran == 1:
                yield f"0 step {node} @farm = ran"
            elif ran > 1:
                yield f"{ran} times 0 step {node} @farm = {ran} ran"
            if last != "ran":
                yield f"0 step {node} @farm = {last}"
        else:
            entry = re.fullmatch(r"(@\w+) (.*): (.*)", line)
            assert entry, line
            yield f"0 {entry[2]} {entry[1]} = {entry[3]}"


def recorded(plan: str, lines: Iterable[str]) -> str:
    """The record of a domain that is asked these lines."""
    text = plan + "\n".join([*lines, "0 journal"]) + "\n"
    status, out, errors = lab(["replay"], text.encode())
    assert status == 0, f"{errors}\n{text}"
    answers = out.splitlines()
    begin = next(n for n, line in enumerate(answers) if re.match(r"@\w+ \w+", line) or line == "end")
    return plan + "".join(f"{it}\n" for it in journal_lines(answers[begin : answers.index("end", begin)]))


def events_in(record: str) -> Iterator[str]:
    """The events of a record, each as often as it happened."""
    for line in record.split("---\n")[1].splitlines():
        found = re.fullmatch(r"(?:(\d+) times )?(0 .*)", line)
        assert found, line
        yield from [found[2]] * int(found[1] or 1)


def by_hand(code: str, steps: int) -> str:
    """The record of one node that is booted with code, a byte in three events, and then does Steps: for a code of n bytes there are
    4 configuration bytes, n + 1 writes, and for each byte a Move of the host's port, a Step, and a Move of the node's port.
    """
    message = [f"{len(code) // 2:02x}", *re.findall("..", code)]
    lines = [f"config {byte} @0 = nothing" for byte in ("01", "00", "07", "03")]
    lines += [f"write 0 {byte} @0 = written" for byte in message]
    lines += ["move 7 @farm = passed", "step 0 @farm = ran", "move 0 @farm = passed"] * len(message)
    text = ONE + "".join(f"0 {line}\n" for line in lines)
    return text + f"{steps} times 0 step 0 @farm = {steps} ran\n"
