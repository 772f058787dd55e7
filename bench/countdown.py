"""Runs whose nodes each count down in a loop: a plan, the lines of its users, and what they must be answered."""

from collections.abc import Sequence

LIMIT = 1 << 40
ROUND_BYTES = 8
COUNT = "80000074"


def plan_of(shape: Sequence[int], memory: int) -> str:
    """Domains with a host each behind the ports of link 0 of their nodes."""
    text, first = "version = 1\n", 0
    for domain, nodes in enumerate(shape):
        text += f'[[domain]]\nname = "u{domain}"\nfirst = {first}\nlast = {first + nodes}\n'
        text += f"limit = {LIMIT}\nhost = [{nodes}]\n"
        for node in range(nodes):
            text += f"[[domain.node]]\nmemory = {memory}\nlinks = [{node}, -1, -1, -1]\n"
        first += nodes + 1
    return text


def code_of(rounds: int) -> str:
    """What a node does, from 80000048 on: it waits for a byte on link 0, and counts down in word 80000074."""
    digits = f"{rounds:08x}"
    count = "".join(f"2{it}" for it in digits[:-1]) + "4" + digits[-1]
    return (
        "b2"  # ajw 2: to 8000006c
        "11"
        "24f2"
        "54"
        "41"
        "f7" + count + "d2"  # ldlp 1, mint, ldnlp 4, ldc 1, in  # ldc rounds, stl 2
        "72"
        "608f"
        "d2"
        "72"
        "c0"
        "60a8"  # ldl 2, adc -1, stl 2, ldl 2, eqc 0, cj back to the first of them
        "21f5"  # stopp
    )


def script_of(user: str, nodes: int, rounds: int, quantum: int) -> list[str]:
    """A user's lines: boot each node, join the host with all of them, let them go, settle until they ended, and look."""
    script, each = list[str](), list[str]()
    for node in range(nodes):
        each.append(f"{user} config 0401{node:02x}{nodes:02x}03")
        script += [each[node], f"{user} boot 0 {code_of(rounds)}"]
    go = "04" + "".join(f"00{nodes:02x}{node:02x}" for node in range(nodes)) + f"0000{nodes:02x}03"
    script += [f"{user} config {go}", f"{user} write 0 01"]
    script += [f"{user} look 0"] * (2 * rounds * ROUND_BYTES // (10_000 * quantum) + 4)
    for node in range(nodes):
        script += [f"{user} reset {node}", each[node], f"{user} peek 0 {COUNT}"]
    return script


def text_of(shape: Sequence[int], memory: int, rounds: int, quantum: int) -> str:
    """A plan, and the script of all its users."""
    script = list[str]()
    for domain, nodes in enumerate(shape):
        script += script_of(f"u{domain}", nodes, rounds, quantum)
    return plan_of(shape, memory) + "---\n" + "\n".join(script) + "\n"


def have_ended(printed: str, nodes: int) -> bool:
    """Whether each node has counted down to 0."""
    return [line.split(" ")[3] for line in printed.splitlines() if " peek " in line] == ["00000000"] * nodes
