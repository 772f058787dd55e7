"""Whether `live` writes an answer only after its record, and with --sync only once that is on the disk: the calls to the system
that write, make and sync files are noted in their order by the library of tests/support/calls.c."""

import os
from collections.abc import Iterator

from support.live_lines import FOUR_PLAN, LOOP, Live
from support.trials import library, text_of

# Which user's record each user's domain has.
RECORDS = {"ann": "ann", "bob": "bob", "cas": "bob", "dan": "bob", "eve": "bob", "fay": "fay"}
# What is asked of one domain or another; each line but the restarts is answered by at least one event.
ASKED = [
    "ann config 01000703",
    "fay look 0",
    "bob poke 0 80000100 12345678",
    "eve look 3",
    "cas reset 1",
    "ann restart",
    "ann look 0",
    "bob restart",
    "dan look 1",
    "!restart eve",
    "cas look 1",
    "fay config 010001",
    "!restart ann",
    "ann look 0",
]


def calls_of(folder: str, *words: str) -> tuple[list[str], list[str], list[str]]:
    """The calls of a farm that is asked all of ASKED one after another, and then again without waiting, beside a program that
    never ends; the names of the records, and the answers."""
    notes, records = f"{folder}/calls", f"{folder}/records"
    env = {"LD_PRELOAD": library("calls", folder), "CALLS": notes}
    with Live(FOUR_PLAN, ["--record", records, *words], env) as live:
        told = [live.ask(it) for it in ASKED]
        for line in LOOP:
            live.ask(f"fay {line.replace('000703', '000103')}")
        live.say("".join(f"{it}\n" for it in ASKED))
        told += [live.hear() for _ in ASKED]
        assert live.end() == (0, [], [])
    lines = [it.replace(f"{records}/", "").replace(records, "FOLDER") for it in text_of(notes).splitlines()]
    return lines, sorted(it for it in os.listdir(records) if it.endswith(".replay")), told


def record_of(path: str) -> str | None:
    """Whose record a file is: NAME.replay, NAME.2.replay and so on."""
    return path.split(".")[0] if path.endswith(".replay") else None


def fault_of(lines: list[str], syncs: bool) -> str | None:
    """What is wrong with calls in this order, if anything: an answer before what it answers is written, or, with --sync, on the
    disk; a sync that nobody asked for. The first that is written to a record is its head, which a restart waits for."""
    files: set[str] = set()
    headed, written, unsynced, unnamed = (set[str | None]() for _ in range(4))
    for number, line in enumerate(lines, 1):
        what, _, rest = line.partition(" ")
        if what == "create" and record_of(rest):
            unnamed.add(record_of(rest))
        elif what == "write" and record_of(rest):
            (written if rest in files else headed).add(record_of(rest))
            files.add(rest)
            unsynced.add(record_of(rest))
        elif what == "sync":
            if not syncs:
                return f"call {number}: {line}"
            unsynced.discard(record_of(rest))
            if rest == "FOLDER":
                unnamed.clear()
        elif what == "answer":
            words = rest.split(" ")
            whose = RECORDS.get(words[1] if words[0] == "!restart" else words[0])
            # what is refused is no event
            if whose not in (headed if "restart" in words[0] + words[1] else written) and words[1:] != [
                "restart",
                "operator",
            ]:
                return f"call {number}: {line}: nothing is written before it"
            if syncs and whose in unsynced | unnamed:
                return f"call {number}: {line}: its record isn't on the disk"
            headed.discard(whose)
            written.discard(whose)
    return None


def test_is_synced(folder: str) -> None:
    """With --sync each answer waits until its record, and the record's name in the folder, is on the disk."""
    lines, names, told = calls_of(folder, "--sync")
    assert fault_of(lines, True) is None
    assert (len(told), {it.split()[0] for it in lines}) == (2 * len(ASKED), {"answer", "create", "write", "sync"})
    assert names == [
        "ann.2.replay",
        "ann.3.replay",
        "ann.4.replay",
        "ann.5.replay",
        "ann.replay",
        "bob.2.replay",
        "bob.3.replay",
        "bob.replay",
        "fay.replay",
    ]
    planted = list(mistakes(lines))
    for name, wrong in planted:
        assert fault_of(wrong, True) is not None, f"{name} isn't seen"


def mistakes(lines: list[str]) -> Iterator[tuple[str, list[str]]]:
    """These calls with one mistake each: no sync of a record, none of a folder, an answer before what was noted last."""
    for name in ("ann", "bob", "fay"):
        yield f"no sync of {name}'s record", [
            it for it in lines if not (it.startswith("sync ") and record_of(it[5:]) == name)
        ]
    yield "no sync of the folder", [it for it in lines if it != "sync FOLDER"]
    for at in range(2, len(lines)):
        whose = RECORDS.get(lines[at].removeprefix("answer ").split(" ")[0])
        before = [(what, record_of(path)) for what, _, path in (it.partition(" ") for it in lines[at - 2 : at])]
        # only where the sync follows its write at once is it sure that the swap is a mistake
        if lines[at].startswith("answer ") and before == [("write", whose), ("sync", whose)]:
            yield f"call {at + 1} before call {at}", [*lines[: at - 1], lines[at], lines[at - 1], *lines[at + 1 :]]


def test_is_only_written(folder: str) -> None:
    """Without --sync each answer waits until its record is written, and nothing is synced."""
    lines, _, told = calls_of(folder)
    assert fault_of(lines, False) is None
    assert (len(told), {it.split()[0] for it in lines}) == (2 * len(ASKED), {"answer", "create", "write"})
    at = next(it for it, line in enumerate(lines) if line.startswith("answer "))
    late = [it for it in lines[:at] if not it.startswith("write ann")]
    assert fault_of([*late, *lines[at:]], False) is not None
