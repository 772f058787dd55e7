"""The records of the program `live`: what `lab rows` says of them, farms that go on, kills at any moment, records that are cut or
changed, also one of several, folders and disks that take nothing for a while, limits of a file's length, long records, and each
allocation refused in turn."""

import os
import random
import re
import resource
import shutil
import signal
import subprocess
import time
from collections.abc import Callable, Sequence

import pytest
from support.live_lines import LOOP, PLAN, Live, rest_of
from support.recorded import JOINED, ONE, SETTLE, lab, recorded
from support.trials import TOP, contents, library, program, put, refused, run, text_of

HEAD = """version = 3
[[domain]]
limit = 1000000
range = [[0, 7]]
user = [{ name = "ann", host = [7] }]
node = [
  { memory = 4096, links = [0, -1, -1, -1] },
]
---
"""
# boots a program that gives its host one byte more than it took, and twice that: see the guide's first program
LINES = [
    "config 01000703",
    "poke 0 80000100 12345678",
    "peek 0 80000100",
    "boot 0 b424f224f2243081ff21f5",
    "look 0",
    "rest",
    "collect 0",
    "write 0 05",
    "look 0",
]


# Node 0 has link 0 at port 0 and link 1 at port 1, node 1 has link 0 at port 2, and each has a host, at ports 3 and 4.
ECHO_PLAN = """version = 3
[[domain]]
user = [{ name = "ann", host = [3, 4] }]
range = [[0, 4]]
limit = 1000000
node = [
  { memory = 2048, links = [0, 1, -1, -1] },
  { memory = 2048, links = [2, -1, -1, -1] },
]
"""
# Both nodes are booted from their hosts, and then node 1 is joined to link 1 of node 0 in place of its host.
# Node 0 again and again takes a byte from link 0, sends it by link 1, takes one from there, and sends it by link 0: ajw 5; ldlp 1,
# mint, adc 16, ldc 1, in; mint, adc 4, ldlp 1, lb, outbyte; ldlp 1, mint, adc 20, ldc 1, in; mint, ldlp 1, lb, outbyte; j -27.
# Node 1 takes a byte and sends one more than that: ajw 5; ldlp 1, mint, adc 16, ldc 1, in; mint, ldlp 1, lb, adc 1, outbyte; j -15.
ECHO = [
    "config 01000301020403",
    "boot 0 b51124f2218041f724f28411f1fe1124f2218441f724f211f1fe6105",
    "boot 1 b51124f2218041f724f211f181fe6001",
    "rest",
    "config 06020401010203",
]

# the domain of ann alone, and three domains of which the second has two users
ONE_PLAN = PLAN[: PLAN.index("[[domain]]", PLAN.index("[[domain]]") + 1)]
THREE_PLAN = (
    PLAN
    + """
[[domain]]
user = [{ name = "dan", host = [7] }]
range = [[16, 23]]
limit = 1000000

[[domain.node]]
memory = 4096
links = [0, -1, -1, -1]
"""
)
FULL = "No space left on device (os error 28)"


def is_right(path: str) -> int:
    """The record's lines are answered again as they say."""
    status, out, errors = lab(["rows", path])
    rows = re.fullmatch(r".*: (\d+) rows, 0 wrong\n", out)
    # no rows at all are no success to `lab rows`, but a record may be empty yet
    assert rows, f"{path}: {out[-300:]!r} {errors!r}"
    assert status == (0 if int(rows[1]) else 1)
    return int(rows[1])


class Recorded(Live):
    """A farm that is recorded in a folder that stays."""

    def __init__(
        self,
        plan: str,
        folder: str,
        resumes: bool = False,
        more: Sequence[str] = (),
        begun: Callable[[], None] | None = None,
    ) -> None:
        self.records = f"{folder}/records"
        words = ["--record", self.records, *(["--resume"] if resumes else []), *more]
        super().__init__(plan, words, begun=begun)

    def users(self) -> dict[str, list[str]]:
        """What the operator is told of each user when nothing is replayed any more, by name: the words behind it, without the
        numbers of rooms."""
        names = re.findall(r'name = "(\w+)"', text_of(self.plan))
        while True:
            self.say("!users\n")
            told = [self.hear().split() for _ in names]
            if not any("replaying" in words for words in told):
                return {words[1]: words[2:5] + [it for it in words[5:] if not it.isdecimal()] for words in told}
            time.sleep(0.02)

    def path_of(self, name: str) -> str:
        return f"{self.records}/{name}"


def test_heads_and_lines(folder: str) -> None:
    """The head is the domain alone, and the lines are what was asked, as `lab rows` reads them."""
    with Recorded(PLAN, folder) as live:
        assert live.ask("ann config 01000703") == "ann config -\n"
        assert live.ask("ann look 0") == "ann look 0 booting overruns 0 0 0 0\n"
        record = text_of(f"{folder}/records/ann.replay")
        assert record == (
            HEAD + "0 config 01 @0 = nothing\n0 config 00 @0 = nothing\n0 config 07 @0 = nothing\n"
            "0 config 03 @0 = nothing\n0 look 0 @0 = booting overruns 0 0 0 0\n"
        )
        assert live.end() == (0, [], [])
    bob = text_of(f"{folder}/records/bob.replay")
    for it in (
        "range = [[8, 15]]",
        '{ name = "bob", host = [7] }, { name = "cas", host = [6] }',
        "limit = 1099511627776",
    ):
        assert it in bob, bob
    assert sorted(os.listdir(f"{folder}/records")) == ["ann.replay", "bob.replay", "lock"]
    is_right(f"{folder}/records/ann.replay")
    is_right(f"{folder}/records/bob.replay")


def seen_of(live: Live) -> list[str]:
    """All that ann can see of her machine."""
    return [live.ask(f"ann {it}") for it in ("look 0", "peek 0 80000100", "rest", "config 020002070207")]


def test_goes_on_three_times(folder: str) -> None:
    """A farm that ends and goes on answers as one that never ended, beside a copy that never ends."""
    with Live(PLAN) as other:
        for turn in range(3):
            with Recorded(PLAN, folder, turn > 0) as live:
                for line in LINES:
                    assert live.ask(f"ann {line}") == other.ask(f"ann {line}")
                assert live.end() == (0, [], [])
            is_right(f"{folder}/records/ann.replay")
        with Recorded(PLAN, folder, True) as live:
            assert seen_of(live) == seen_of(other)


@pytest.mark.long
def test_endless_loops_go_on(folder: str) -> None:
    """A program that never ends is killed with its farm, and goes on; its Steps are done again in bursts."""
    with Recorded(PLAN, folder) as live:
        for line in LOOP:
            live.ask(f"bob {line}")
        time.sleep(1)
        told = live.ask("bob look 0")
        live.process.kill()
    with Recorded(PLAN, folder, True) as live:
        again = live.ask("bob look 0")
        assert again.split()[:4] == told.split()[:4]
        assert live.ask("bob rest") == "bob rest busy\n"
        assert live.end()[0] == 0
    is_right(f"{folder}/records/bob.replay")


def with_steps(record: str, steps: int) -> tuple[str, int]:
    """The record with so many Steps in the line that has most, and the number of the line behind it."""
    lines = record.splitlines(keepends=True)
    counts = [int(it[1]) if (it := re.match(r"(\d+) times 0 step 0 @farm = ", line)) else 0 for line in lines]
    at = counts.index(max(counts))
    lines[at] = f"{steps} times 0 step 0 @farm = {steps} ran\n"
    return "".join(lines), at + 2


@pytest.mark.alone
def test_hours_of_a_loop_take_seconds(folder: str) -> None:
    """A record of a loop that ran for an hour is done again in less than five seconds, to the very Step: what follows in it
    is answered as after so many rounds of the loop, and not as after one round more."""
    # ajw 4, and then a word, which is 0 at first, is inverted for ever, a round of six bytes: ldl 0, not, stl 0, j -6. The code
    # has seven bytes, so it ends before 80000050, where the workspace is at first; ajw puts it to 80000060.
    record = recorded(
        ONE,
        [
            JOINED,
            "0 writes 0 07b47023f2d0600a",
            SETTLE,
            "0 reset 0",
            "0 writes 0 0160000080",
            SETTLE,
            "4 times 0 read 0",
        ],
    )
    steps = max(int(it) for it in re.findall(r"^(\d+) times 0 step 0 @farm = ", record, re.M))
    # The processor puts the process back at the first jump after 1,024 bytes, after 171 rounds; after twice as many the word is
    # what it was.
    period = 2 * 171 * 6
    many = steps + (6 * 10**10 - steps) // period * period
    right, behind = with_steps(record, many)
    plan, taken = ONE.removesuffix("---\n"), []
    os.mkdir(f"{folder}/records")
    path = f"{folder}/records/ann.replay"
    # a round more, and the word is the other one: the first byte that is read of it differs
    wrong = with_steps(record, many + 6)[0]
    reads = [at for at, line in enumerate(wrong.splitlines(), 1) if line.startswith("0 read 0 ")]
    put(path, wrong)
    with Recorded(plan, folder, True) as live:
        assert live.ask("ann look 0") == "ann error 1 record\n"
        status, rest, errors = live.end()
        why = is_out(path, f"line {reads[0]}: the domain doesn't answer so", "ann", "ann", live.path_of("ann.2.replay"))
        assert (status, rest, [it for it in errors if "Steps are replayed" not in it]) == (0, [], why)
    # to the end of the record, and to the end of the loop's line, after which the loop goes on
    for kept, state in ((None, "booting"), (behind - 1, "running")):
        put(path, "".join(right.splitlines(keepends=True)[:kept]))
        begun = time.monotonic()
        with Recorded(plan, folder, True) as live:
            assert live.ask("ann look 0") == f"ann look 0 {state} overruns 0 0 0 0\n"
            taken.append(time.monotonic() - begun)
            why = live.ask_why("ann why")
            assert (
                re.fullmatch(r"ann why after \d+ of (\d+) events: more aren't done again at once\n", why[0]) is not None
            )
            assert live.end()[0] == 0
    assert max(taken) < 5


def test_restarts_begin_records(folder: str) -> None:
    """Each restart begins a record, and a farm that goes on takes the newest."""
    with Recorded(PLAN, folder) as live:
        live.ask("ann config 01000703")
        assert live.ask("ann restart") == "ann restart ok\n"
        assert live.ask("bob restart") == "bob restart operator\n"
        assert live.ask("bob config 01000703") == "bob config -\n"
        assert live.ask("ann look 0") == "ann look 0 booting overruns 0 0 0 0\n"
        assert live.ask("!restart cas") == "!restart cas ok\n"
        assert live.ask("!restart ann") == "!restart ann ok\n"
        assert live.end() == (0, [], [])
    names = ["ann.2.replay", "ann.3.replay", "ann.replay", "bob.2.replay", "bob.replay", "lock"]
    assert sorted(os.listdir(f"{folder}/records")) == names
    assert text_of(f"{folder}/records/ann.3.replay") == HEAD
    assert text_of(f"{folder}/records/ann.2.replay") == HEAD + "0 look 0 @0 = booting overruns 0 0 0 0\n"
    for it in names[:-1]:
        is_right(f"{folder}/records/{it}")
    with Recorded(PLAN, folder, True) as live:
        # no output is connected: the answer to the enquiry about output 0 is 0
        assert live.ask("ann config 0200") == "ann config 00\n"
        assert live.end() == (0, [], [])
    assert text_of(f"{folder}/records/ann.3.replay") == HEAD + "0 config 02 @0 = nothing\n0 config 00 @0 = 00\n"


def test_bytes_wait_over_an_end(folder: str) -> None:
    """A byte that was written when the farm ends comes back through both nodes when it goes on, and the words of outputs and the
    count of answers and events are those that the farm left. A restart leaves none of that."""
    with Recorded(ECHO_PLAN, folder) as live:
        for line in ECHO:
            live.ask(f"ann {line}")
        assert [live.ask(f"ann {it}") for it in ("write 0 41", "collect 0")] == [
            "ann write 0 1\n",
            "ann collect 0 42\n",
        ]
        # output 2 is connected to input 1 and ready, after its fifth change
        words, counts = live.ask("!words"), live.ask("!users").split()
        assert (words.split()[3], counts[1:3]) == ("2:5c1", ["ann", str(len(ECHO) + 2)])
        assert live.ask("ann write 0 51") == "ann write 0 1\n"
        assert live.end() == (0, [], [])
    with Recorded(ECHO_PLAN, folder, True) as live:
        live.users()
        assert live.ask("!words") == words
        assert live.ask("ann collect 0") == "ann collect 0 52\n"
        assert int(live.ask("!users").split()[3]) > int(counts[3])
        assert live.ask("ann restart") == "ann restart ok\n"
        assert live.ask("!users").split()[3:6] == ["0", "1000000", "quiet"]
        # the node that waited for a byte boots, and nothing drives its output
        assert live.ask("ann look 0") == "ann look 0 booting overruns 0 0 0 0\n"
        assert live.ask("ann config 0200") == "ann config 00\n"
        assert live.end() == (0, [], [])
    is_right(f"{folder}/records/ann.replay")


def test_why_is_as_the_record_says(folder: str) -> None:
    """What a user is told why is what `lab why` says of the record, which has no line of that; also after a restart, and of a
    farm that went on."""

    def asked(live: Live) -> str:
        recorded = live.ask("!users").split()[3]
        live.hear(), live.hear()
        told = "".join(it.removeprefix("ann why ") for it in live.ask_why("ann why"))
        assert told.startswith(f"after {recorded} events\n")
        return told

    told = []
    for resumes in (False, True):
        with Recorded(PLAN, folder, resumes) as live:
            for line in LINES:
                live.ask(f"ann {line}")
                assert live.ask("ann rest") == "ann rest quiet\n"
                before = text_of(live.path_of("ann.replay"))
                told.append(asked(live))
                # what was told is recorded, and nothing more
                assert text_of(live.path_of("ann.replay")) == before
                assert lab(["why", live.path_of("ann.replay")]) == (0, told[-1].removesuffix("end\n"), "")
            assert live.end() == (0, [], [])
    is_right(f"{folder}/records/ann.replay")
    with Recorded(PLAN, folder, True) as live:
        assert live.ask("ann restart") == "ann restart ok\n"
        assert (
            asked(live)
            == "after 0 events\nnode 0 waits for a control byte.\n  No byte comes by link 0: no input drives output 0.\nend\n"
        )
        assert text_of(live.path_of("ann.2.replay")) == HEAD
        assert live.end() == (0, [], [])


@pytest.mark.long
def test_cut_records_go_on(folder: str) -> None:
    """A record that is cut at any byte is one of the first whole lines."""
    with Recorded(PLAN, folder) as live:
        for line in LINES:
            live.ask(f"ann {line}")
        assert live.end() == (0, [], [])
    whole = text_of(f"{folder}/records/ann.replay").encode()
    places = sorted(
        {
            0,
            1,
            len(HEAD) - 1,
            len(HEAD),
            len(HEAD) + 1,
            len(whole) - 1,
            len(whole),
            *random.Random(1).sample(range(len(whole)), 57),
        }
    )
    for place in places:
        put(f"{folder}/records/ann.replay", whole[:place])
        kept = whole[:place].rfind(b"\n") + 1 if place >= len(HEAD) else 0
        with Recorded(PLAN, folder, True) as live:
            assert live.ask("!users").split()[:2] == ["!users", "ann"]
            status, _, errors = live.end()
        path = live.path_of("ann.replay")
        cut = [f"{path}: {place - kept} bytes behind the last whole line are cut off\n"] if place > kept else []
        assert (status, errors) == (0, cut)
        # the farm went on with it
        assert text_of(f"{folder}/records/ann.replay").encode().startswith(whole[:kept] or HEAD.encode())
        is_right(f"{folder}/records/ann.replay")


def events_in(record: str) -> int:
    """How many events the lines of a record say."""
    return sum(int((re.match(r"(\d+) times ", it) or ("", 1))[1]) for it in record[len(HEAD) :].splitlines())


CONFIGS = [f"0 config {it} @0 = nothing\n" for it in ("01", "00", "07", "03")]


# What is whole, what is torn, and the bytes for the switch that are still to be asked: 01 00 07 joins ports 0 and 7, 03 makes them
# ready, and 01 07 03 would join others.
@pytest.mark.parametrize(
    ("whole", "torn", "rest"),
    [(HEAD + CONFIGS[0] + CONFIGS[1], "0 config 0", "0703"), (HEAD, "0 con", "01000703"), ("", HEAD[:100], "01000703")],
)
def test_torn_records_go_on(whole: str, torn: str, rest: str, folder: str) -> None:
    """A record whose last line or head is torn is cut there as the farm goes on, and what follows in it is read again: by the farm
    once more, by `lab why` and by `lab film`."""
    with Recorded(PLAN, folder) as live:
        assert live.end() == (0, [], [])
    path = f"{folder}/records/ann.replay"
    put(path, whole + torn)
    with Recorded(PLAN, folder, True) as live:
        assert live.hear_error() == f"{path}: {len(torn)} bytes behind the last whole line are cut off\n"
        assert live.ask(f"ann config {rest}") == "ann config -\n"
        assert text_of(path) == HEAD + "".join(CONFIGS)
        assert live.ask("ann poke 0 80000100 12345678") == "ann poke 0 9\n"
        assert live.ask("ann peek 0 80000100") == "ann peek 0 12345678\n"
        assert live.end() == (0, [], [])
    events = events_in(text_of(path))
    assert lab(["why", path]) == (
        0,
        f"after {events} events\nnode 0 waits for a control byte.\n"
        "  Input 7 drives output 0 of link 0. Of host 0 nothing waits there.\n",
        "",
    )
    status, page, errors = lab(["film", path])
    assert (status, errors, re.findall(r'"recorded":(\d+)', page)[-1]) == (0, "", str(events))
    with Recorded(PLAN, folder, True) as live:
        assert live.users()["ann"][:2] == ["0", str(events)]
        assert live.ask("ann peek 0 80000100") == "ann peek 0 12345678\n"
        assert live.end() == (0, [], [])
    assert is_right(path) > 4


@pytest.mark.long
def test_changed_records_are_refused(folder: str) -> None:
    """A farm whose only record was changed is refused with its file and line, and no file changes."""
    with Recorded(ONE_PLAN, folder) as live:
        for line in LINES:
            live.ask(f"ann {line}")
        assert live.end() == (0, [], [])
    path = f"{folder}/records/ann.replay"
    whole = text_of(path)
    lines = whole.splitlines(keepends=True)
    head = HEAD.count("\n")
    other, wrong = "the domain doesn't answer so", "it is no line of a record"
    begins = "it begins with another plan"
    rows = [
        (whole.replace("limit = 1000000", "limit = 1000001"), begins),
        (whole.replace("ann", "eve", 1), begins),
        (whole.replace("[[0, 7]]", "[[8, 15]]"), begins),
        ("# a record\n" + whole, begins),
        ("\n" + whole, begins),
        (whole.replace("= nothing", "= 00", 1), f"line {head + 1}: {other}"),
        ("".join(lines[:head] + lines[head + 1 :]), None),
        (HEAD + "0 step 0 = ran\n" + "".join(lines[head:]), f"line {head + 1}: {other}"),
        (HEAD + "\n" + "".join(lines[head:]), f"line {head + 1}: {wrong}"),
        (HEAD + "# no event\n" + "".join(lines[head:]), f"line {head + 1}: {wrong}"),
        (whole.replace("0 config 01 @0", "0  config 01 @0", 1), f"line {head + 1}: {wrong}"),
        (whole.replace("0 config 01 @0", "1 config 01 @0", 1), f"line {head + 1}: {other}"),
        (whole.replace("0 config 01 @0", "0 config 01 @1", 1), f"line {head + 1}: {other}"),
        (whole.replace("0 config 01 @0", "2 times 0 config 01 @0", 1), f"line {head + 1}: {wrong}"),
        (whole + "0 look 1 @0 = booting overruns 0 0 0 0\n", f"line {len(lines) + 1}: {other}"),
        (whole + "0 quiet = true\n", f"line {len(lines) + 1}: {wrong}"),
        (whole + "0 look 0 @farm = booting overruns 0 0 0 0\n", f"line {len(lines) + 1}: {wrong}"),
        (whole + "0 step 0 @0 = ran\n", f"line {len(lines) + 1}: {wrong}"),
        (whole.encode() + b"0 look 0 @0 = \xff\n", f"line {len(lines) + 1}: {wrong}"),
    ]
    for what, why in rows:
        assert isinstance(what, (str, bytes))
        put(path, what)
        before = contents(path)
        with Recorded(ONE_PLAN, folder, True) as live:
            status, out, errors = live.end()
        assert (status, out, len(errors)) == (6, [], 1)
        if why is None:
            assert re.search(r"ann\.replay: line \d+: ", errors[0]), errors
        else:
            assert errors == [f"{live.path_of('ann.replay')}: {why}\n"]
        assert contents(path) == before


@pytest.mark.long
def test_rows_are_printable(folder: str) -> None:
    """What a terminal would act on is printed as an escape if somebody has written it into a record."""
    with Recorded(ONE_PLAN, folder) as live:
        assert live.ask("ann look 0") == "ann look 0 booting overruns 0 0 0 0\n"
        assert live.end() == (0, [], [])
    path = f"{folder}/records/ann.replay"
    put(path, text_of(path) + "0 look 0 @0 = \x1b[2Jbooting\n")
    told = lab(["rows", path])[1]
    assert (told.count("not \\u{1b}[2Jbooting\n"), "\x1b" in told, told.endswith(" 2 rows, 1 wrong\n")) == (
        1,
        False,
        True,
    )


def test_folders_have_one_farm(folder: str) -> None:
    """A folder that another farm has, records that are there, and what is no folder."""
    with Recorded(PLAN, folder) as live:
        live.ask("ann look 0")
        with Recorded(PLAN, folder, True) as second:
            assert second.end() == (6, [], [f"{second.path_of('lock')}: another farm records there\n"])
        assert live.end() == (0, [], [])
    with Recorded(PLAN, folder) as live:
        told = f"{live.path_of('ann.replay')}: it is there already: --resume goes on with it\n"
        assert live.end() == (6, [], [told])
    put(f"{folder}/file", "")
    put(f"{folder}/plan.toml", PLAN)
    for path in (f"{folder}/file/records", "/proc/none/records"):
        status, output, errors = run([program("live"), "--record", path, f"{folder}/plan.toml"])
        assert (status, output) == (6, b"")
        assert path.encode() in errors
    for word in ("--resume", "--sync"):
        assert run([program("live"), word, f"{folder}/plan.toml"])[:2] == (2, b"")


def is_out(path: str, why: str, names: str, first: str, after: str) -> list[str]:
    """What standard error says of a record that can't be taken."""
    return [
        f"{path}: {why}\n",
        f"{path}: lines of {names} are answered record. The operator's !restart {first} begins their domain anew with {after}, "
        "and this file stays as it is. Or stop, mend this file or move it away, and start again\n",
    ]


def test_bad_records_keep_one_out(folder: str) -> None:
    """A record of three that can't be taken keeps its own domain out, until the operator begins it anew; the others go on."""
    with Recorded(THREE_PLAN, folder) as live:
        for user in ("ann", "bob", "dan"):
            assert live.ask(f"{user} config 01000703") == f"{user} config -\n"
        assert live.end() == (0, [], [])
    path, whole = live.path_of("bob.replay"), text_of(live.path_of("bob.replay"))
    line = whole[: whole.index("---")].count("\n") + 3
    bad = whole.replace("0 config 00 @0 = nothing", "0 config 00 @0 = 00", 1)
    out = is_out(path, f"line {line}: the domain doesn't answer so", "bob, cas", "bob", live.path_of("bob.2.replay"))
    for ends in (True, False):
        put(path, bad)
        with Recorded(THREE_PLAN, folder, True) as live:
            assert [live.hear_error(), live.hear_error()] == out
            assert [live.ask(f"{it} look 0") for it in ("ann", "dan")] == [
                f"{it} look 0 booting overruns 0 0 0 0\n" for it in ("ann", "dan")
            ]
            assert [live.ask(f"bob {it}") for it in ("look 0", "restart", "rest", "why", "frob")] == [
                f"bob error {it} record\n" for it in range(1, 6)
            ]
            assert live.ask("cas restart") == "cas error 1 record\n"
            assert {name: words[3:] for name, words in live.users().items()} == {
                "ann": ["quiet"],
                "bob": ["quiet", "out"],
                "cas": ["quiet", "out"],
                "dan": ["quiet"],
            }
            # nothing of what the record said was left on the domain
            assert live.users()["bob"][1:3] == ["0", "1099511627776"]
            if not ends:
                assert live.ask("!restart cas") == "!restart cas ok\n"
                assert live.ask("bob look 0") == "bob look 0 booting overruns 0 0 0 0\n"
                assert live.users()["cas"][3:] == ["quiet"]
            assert live.end() == (0, [], [])
        assert text_of(path) == bad
        assert os.path.exists(live.path_of("bob.2.replay")) == (not ends)
    head = whole[: whole.index("---\n") + 4]
    assert text_of(live.path_of("bob.2.replay")) == head + "0 look 0 @0 = booting overruns 0 0 0 0\n"
    with Recorded(THREE_PLAN, folder, True) as live:
        assert live.ask("bob look 0") == "bob look 0 booting overruns 0 0 0 0\n"
        assert live.end() == (0, [], [])
    is_right(live.path_of("bob.2.replay"))
    # a file that can't be read, and one that was moved away
    os.rename(live.path_of("bob.2.replay"), f"{folder}/away")
    os.unlink(path)
    os.mkdir(path)
    with Recorded(THREE_PLAN, folder, True) as live:
        told = is_out(path, "Is a directory (os error 21)", "bob, cas", "bob", live.path_of("bob.2.replay"))
        assert [live.hear_error(), live.hear_error()] == told
        assert live.ask("dan look 0") == "dan look 0 booting overruns 0 0 0 0\n"
        assert live.end() == (0, [], [])
    os.rmdir(path)
    with Recorded(THREE_PLAN, folder, True) as live:
        assert live.ask("bob look 0") == "bob look 0 booting overruns 0 0 0 0\n"
        assert live.end() == (0, [], [])
    # of a wrong plan no record can be taken
    before = {it: text_of(live.path_of(it)) for it in ("ann.replay", "bob.replay", "dan.replay")}
    with Recorded(THREE_PLAN.replace("memory = 4096", "memory = 8192"), folder, True) as live:
        assert live.end() == (6, [], [f"{live.path_of('ann.replay')}: it begins with another plan\n"])
    assert {it: text_of(live.path_of(it)) for it in before} == before


def test_restarts_leave_one_record(folder: str) -> None:
    """A record that holds no line yet serves again after a restart, so that a thousand restarts make no file."""
    with Recorded(PLAN, folder) as live:
        for turn in range(2):
            live.say("ann restart\n" * 500)
            assert [live.hear() for _ in range(500)] == ["ann restart ok\n"] * 500
            names = ["ann.2.replay"] * turn + ["ann.replay", "bob.replay", "lock"]
            assert sorted(os.listdir(live.records)) == names
            assert text_of(live.path_of(names[0])) == HEAD
            if turn == 0:
                assert live.ask("ann look 0") == "ann look 0 booting overruns 0 0 0 0\n"
        assert live.ask("ann look 0") == "ann look 0 booting overruns 0 0 0 0\n"
        assert live.end() == (0, [], [])
    for it in ("ann.replay", "ann.2.replay"):
        assert text_of(live.path_of(it)) == HEAD + "0 look 0 @0 = booting overruns 0 0 0 0\n"
    with Recorded(PLAN, folder, True) as live:
        assert live.ask("ann restart") == "ann restart ok\n"
        assert live.ask("ann restart") == "ann restart ok\n"
        assert live.end() == (0, [], [])
    with Recorded(PLAN, folder, True) as live:
        assert live.ask("ann restart") == "ann restart ok\n"
        assert live.end() == (0, [], [])
    assert text_of(live.path_of("ann.3.replay")) == HEAD
    assert not os.path.exists(live.path_of("ann.4.replay"))


def goes_on_till_record(live: Recorded) -> int:
    """Asks ann's lines till one is answered `record`; its number, and what standard error says of that."""
    for number in range(1, 5000):
        told = live.ask("ann config 01000703")
        if told != "ann config -\n":
            assert told == f"ann error {number} record\n"
            return number
    raise AssertionError("no line was answered record")


def heals(live: Recorded, number: int, why: str, mend: Callable[[], object]) -> None:
    """A record that couldn't be written is written again when that is mended: ann goes on by herself, and nothing is missing."""
    path = live.path_of("ann.replay")
    assert live.hear_error() == f"{path}: {why}: lines of ann are answered record until it can be written\n"
    lines = ["ann look 0", "ann restart", "ann frob", "ann why"]
    assert [live.ask(it) for it in lines] == [f"ann error {number + at} record\n" for at in range(1, 5)]
    assert live.ask("!restart ann") == "! error 1 record\n"
    assert {name: words[4:] for name, words in live.users().items()} == {"ann": ["unrecorded"], "bob": [], "cas": []}
    assert live.ask("cas rest") == "cas rest quiet\n"
    torn = text_of(path)
    mend()
    assert live.ask("ann look 0") == "ann look 0 booting overruns 0 0 0 0\n"
    assert live.hear_error() == f"{path}: it is written again, and nothing is missing\n"
    assert {name: words[4:] for name, words in live.users().items()} == {"ann": [], "bob": [], "cas": []}
    assert live.ask("ann config 01000703") == "ann config -\n"
    # the lines that were answered record weren't done, but for the first
    done = "".join(f"0 config {it} @0 = nothing\n" for it in ("01", "00", "07", "03"))
    assert text_of(path) == HEAD + done * number + "0 look 0 @0 = booting overruns 0 0 0 0\n" + done
    assert text_of(path).startswith(torn[: torn.rfind("\n") + 1])
    is_right(path)


class Small:
    """A disk of so many bytes, which can grow. A test is left out if the system doesn't let one be mounted."""

    def __init__(self, path: str, size: str) -> None:
        self.path = path
        os.mkdir(path)
        self.made = subprocess.run(
            ["mount", "-t", "tmpfs", "-o", f"size={size}", "none", path], capture_output=True, check=False
        )

        if self.made.returncode:
            pytest.skip(f"no disk can be mounted: {self.made.stderr.decode().strip()}")

    def __enter__(self) -> "Small":
        return self

    def __exit__(self, *_: object) -> None:
        subprocess.run(["umount", self.path], check=True)

    def grow(self, size: str) -> None:
        subprocess.run(["mount", "-o", f"remount,size={size}", self.path], check=True)


def test_full_disks_heal(folder: str) -> None:
    """A disk that is full stops the domain whose record it is, and nobody else, and that one goes on when there is room."""
    os.mkdir(f"{folder}/records")
    os.symlink("/dev/full", f"{folder}/records/ann.replay")
    with Recorded(PLAN, folder) as live:
        assert live.end()[0] == 6
    with Small(f"{folder}/small", "16k") as small:
        with Recorded(PLAN, small.path) as live:
            number = goes_on_till_record(live)
            heals(live, number, FULL, lambda: small.grow("1m"))
            assert live.end() == (0, [], [])
    with Small(f"{folder}/again", "16k") as small:
        with Recorded(PLAN, small.path) as live:
            number = goes_on_till_record(live)
            path = live.path_of("ann.replay")
            assert live.hear_error() == f"{path}: {FULL}: lines of ann are answered record until it can be written\n"
            assert live.end() == (6, [], [f"{path}: it isn't whole\n"])
        record = text_of(path)
        answered = record[: record.rfind("\n") + 1].count("0 config 03 @0 = nothing\n")
        assert answered >= number - 1
        put(f"{folder}/ann.replay", record[: record.rfind("\n") + 1])
        is_right(f"{folder}/ann.replay")
        small.grow("1m")
        with Recorded(PLAN, small.path, True) as live:
            assert live.ask("ann look 0") == "ann look 0 booting overruns 0 0 0 0\n"
            assert live.end()[0] == 0
        is_right(path)


def test_full_disks_owe_a_record(folder: str) -> None:
    """A restart on a full disk is told as not recorded; when there is room the next record begins, with all that came since. If
    the farm is killed before, the domain is as it was opened."""
    with Small(f"{folder}/small", "64k") as small:
        for number in (2, 3):
            with Recorded(PLAN, small.path, number > 2) as live:
                assert live.ask("ann config 01000703") == "ann config -\n"
                first, path = text_of(live.path_of("ann.replay")), live.path_of(f"ann.{number}.replay")
                subprocess.run(
                    ["dd", "if=/dev/zero", f"of={small.path}/filler", "bs=4k"], capture_output=True, check=False
                )
                assert live.ask("ann restart") == "ann error 2 record\n"
                assert (
                    live.hear_error() == f"{path}: {FULL}: lines of ann are answered record until it can be written\n"
                )
                assert live.ask("ann look 0") == "ann error 3 record\n"
                if number == 3:
                    live.process.kill()
                    live.process.wait()
                os.unlink(f"{small.path}/filler")
                if number == 2:
                    assert live.ask("ann look 0") == "ann look 0 booting overruns 0 0 0 0\n"
                    assert live.hear_error() == f"{path}: it is written again, and nothing is missing\n"
                    assert live.end() == (0, [], [])
                    assert text_of(path) == HEAD + "0 look 0 @0 = booting overruns 0 0 0 0\n"
                    is_right(path)
        assert text_of(live.path_of("ann.replay")) == first
        assert HEAD.startswith(text_of(path)) and text_of(path) != HEAD
        with Recorded(PLAN, small.path, True) as live:
            assert live.ask("ann config 0200") == "ann config 00\n"
            assert live.end()[0] == 0
        assert text_of(path) == HEAD + "0 config 02 @0 = nothing\n0 config 00 @0 = 00\n"


def ignored_signals(folder: str) -> int:
    """Which signals the script `live` has the program ignore."""
    os.mkdir(f"{folder}/tools")
    shutil.copy(f"{TOP}/live", f"{folder}/live")
    put(f"{folder}/tools/start", "#!/usr/bin/env bash\ngrep SigIgn /proc/self/status\n")
    os.chmod(f"{folder}/tools/start", 0o755)
    done = subprocess.run([f"{folder}/live"], stdout=subprocess.PIPE, check=True, restore_signals=True)
    return int(done.stdout.split()[1], 16)


def test_file_sizes_are_limited(folder: str) -> None:
    """A limit of a file's length comes to the same as a full disk, and ends nothing."""

    def limited() -> None:
        signal.signal(signal.SIGXFSZ, signal.SIG_IGN)
        resource.setrlimit(resource.RLIMIT_FSIZE, (4096, resource.RLIM_INFINITY))

    assert ignored_signals(folder) >> (signal.SIGXFSZ - 1) & 1 == 1
    with Recorded(PLAN, folder, begun=limited) as live:
        number = goes_on_till_record(live)
        unlimited = (resource.RLIM_INFINITY, resource.RLIM_INFINITY)
        heals(
            live,
            number,
            "File too large (os error 27)",
            lambda: resource.prlimit(live.process.pid, resource.RLIMIT_FSIZE, unlimited),
        )
        assert live.end() == (0, [], [])


def long_record(path: str, head: str, megabytes: int) -> int:
    """Makes a record of more than so many megabytes with what one line says, again and again; how many lines."""
    line = "0 look 0 @0 = booting overruns 0 0 0 0\n"
    count = (megabytes << 20) // len(line) + 1
    put(path, head + line * count)
    return count


@pytest.mark.long
def test_long_records_are_told(folder: str) -> None:
    """How far long records are replayed is told, nothing of short ones, and those of several domains are replayed side by side. A
    farm that is killed meanwhile leaves them as they are."""
    # what the records say is more than usual rooms take
    rooms = ("--room", "1G", "--record-room", "1G")
    with Recorded(THREE_PLAN, folder) as live:
        assert live.end() == (0, [], [])
    paths = {it: live.path_of(f"{it}.replay") for it in ("ann", "bob")}
    counts = {it: long_record(path, text_of(path), 33) for it, path in paths.items()}
    for pause in (0, 0.05, 0.2):
        with Recorded(THREE_PLAN, folder, True, rooms) as live:
            time.sleep(pause)
            live.process.kill()
    with Recorded(THREE_PLAN, folder, True, rooms) as live:
        told = [live.hear_error()]
        # the one that reads, and one for each of the two that are under way
        threads = len(os.listdir(f"/proc/{live.process.pid}/task"))
        assert threads >= 3
        told += [live.hear_error() for _ in range(3)]
        assert sorted(told) == sorted(
            f"{live.path_of(it)}: {done} of 33 MiB are replayed\n"
            for it in ("ann.replay", "bob.replay")
            for done in (16, 32)
        )
        assert live.users()["ann"][1] == str(counts["ann"])
        assert live.end() == (0, [], [])


@pytest.mark.long
def test_allocations_are_refused(live: str, folder: str) -> None:
    """Each allocation is refused in turn, in a farm that goes on: the status is 5, or 7 if it was a thread's, or all is as ever;
    whatever was told is in the record, and no record is lost."""
    path = library("refuse", folder)
    with Recorded(PLAN, folder) as it:
        for line in LINES:
            it.ask(f"ann {line}")
        assert it.end() == (0, [], [])
    kept = f"{folder}/kept"
    shutil.copytree(f"{folder}/records", kept)
    put(f"{folder}/plan.toml", PLAN)
    call = [live, "--workers", "1", "--record", f"{folder}/records", "--resume", f"{folder}/plan.toml"]
    given = "".join(f"ann {it}\n" for it in ["look 0", "write 0 05", "restart", LINES[0], "why", *LINES[1:]])

    def tried(number: int) -> tuple[int | None, bytes, bytes, int]:
        shutil.rmtree(f"{folder}/records")
        shutil.copytree(kept, f"{folder}/records")
        status, output, errors = run(call, given.encode(), {"LD_PRELOAD": path, "REFUSED": str(number)})
        own, _, allocations = refused(errors)
        return status, output, own, allocations

    status, plain, _, most = tried(0)
    assert status == 0
    statuses = set()
    for number in range(1, most + 1):
        status, output, own, _ = tried(number)
        statuses.add(status)
        # what had no memory to be recorded is recorded at the end
        own = re.sub(rb"(?m)^\S+\.replay: it is written again, and nothing is missing\n", b"", own)
        assert (number, status, own) in ((number, 0, b""), (number, 5, b"memory\n"), (number, 7, b"threads\n"))
        assert plain.startswith(output), f"allocation {number}"
        assert text_of(f"{folder}/records/ann.replay").startswith(text_of(f"{kept}/ann.replay"))
        assert run(call).status == 0, f"after allocation {number}"
    assert 5 in statuses


@pytest.mark.long
def test_kills_lose_nothing(count: int | None, folder: str) -> None:
    """A farm under load is killed at any moment: each record is right, all that was told is in it, and the farm goes on."""
    randoms = random.Random(3)
    told: dict[str, int] = {}
    for turn in range(count or 40):
        with Recorded(PLAN, folder, turn > 0, ["--sync"] if turn % 4 == 3 else []) as live:
            given = [
                f"{user} config 01000703" for _ in range(randoms.randrange(1, 200)) for user in ("ann", "bob", "cas")
            ]
            live.say("".join(f"{it}\n" for it in given))
            time.sleep(randoms.random() * 0.05)
            live.process.kill()
            live.process.wait()
            for line in rest_of(live.told):
                if line.endswith("config -\n"):
                    name = "ann" if line.startswith("ann") else "bob"
                    told[name] = told.get(name, 0) + 1
        for name, answers in told.items():
            path = f"{folder}/records/{name}.replay"
            record = text_of(path)
            whole = record[: record.rfind("\n") + 1]
            events = whole.count("0 config 01 ")
            assert events >= answers, name
            if turn % 10 == 9:
                put(f"{folder}/whole.replay", whole)
                is_right(f"{folder}/whole.replay")
    with Recorded(PLAN, folder, True) as live:
        assert live.ask("ann rest") == "ann rest quiet\n"
        assert live.end()[0] == 0
    for name in ("ann", "bob"):
        is_right(f"{folder}/records/{name}.replay")
