"""The program `live` as people at terminals use it: answers before the input ends, examples given line by line beside what `farm`
prints of them, shorthand lines, wrong and long lines, a queue that is full, sixteen users at once, the operator's lines while users
act, programs that never end beside another's answers, and how a run ends."""

import os
import re
import subprocess
import time

import pytest
from support.live_lines import (
    LONG,
    LOOP,
    PINGS,
    PINGS_PLAN,
    PLAN,
    SECONDS,
    WAITS,
    WORD,
    Live,
    live_call,
    median,
    plan_of_sixteen,
)
from support.trials import PLAIN_NAMES, example, no_threads, put, run


@pytest.mark.long
@pytest.mark.alone
def test_answers_come_at_once() -> None:
    """Each answer comes before the next line is given, within 100 ms."""
    slowest = 0.0
    with Live(PLAN) as live:
        assert live.ask("ann look 0") == "ann look 0 booting overruns 0 0 0 0\n"
        for it in range(200):
            begun = time.monotonic()
            assert live.ask("ann look 0" if it % 2 else "cas look 0").split()[1:4] == ["look", "0", "booting"]
            slowest = max(slowest, time.monotonic() - begun)
        assert live.end() == (0, [], [])
    assert slowest <= 0.1


def by_user(lines: list[str]) -> dict[str, list[str]]:
    told: dict[str, list[str]] = {}
    for line in lines:
        told.setdefault(line.split()[0], []).append(line)
    return told


@pytest.mark.long
@pytest.mark.parametrize("name", PLAIN_NAMES)
def test_examples_are_answered_as_by_farm(name: str) -> None:
    """Each example, line by line: each user's answers are those that `farm` prints."""
    text, output = example(name)
    plan, _, script = text.decode("utf-8", "surrogateescape").partition("---\n")
    with Live(plan) as live:
        seen = []
        for line in script.splitlines():
            live.say(line.encode("utf-8", "surrogateescape") + b"\n")
            if line and not line.startswith("#"):
                seen.append(live.hear())
        assert live.end() == (0, [], [])
    assert by_user(seen) == by_user(output.decode().splitlines(keepends=True))


def test_wrong_lines_end_nothing() -> None:
    rows = [
        ("ann frob 0", "ann error 1 verb\n"),
        ("ann", "ann error 2 verb\n"),
        ("ann look", "ann error 3 args\n"),
        ("ann look 256", "ann error 4 args\n"),
        ("ann write 0 0g", "ann error 5 hex\n"),
        ("ann rest now", "ann error 6 args\n"),
        ("ann restart  ", "ann error 7 args\n"),
        ("!frob", "! error 1 verb\n"),
        ("!", "! error 2 verb\n"),
        ("!words 0", "! error 3 args\n"),
        ("!restart", "! error 4 args\n"),
        ("!restart zed", "! error 5 user\n"),
        ("# nothing\n\nann rest", "ann rest quiet\n"),
        ("ann restart", "ann restart ok\n"),
        ("bob restart", "bob restart operator\n"),
        ("!restart bob", "!restart bob ok\n"),
        ("ann look 0\r", "ann look 0 booting overruns 0 0 0 0\n"),
    ]
    with Live(PLAN) as live:
        for line, answer in rows:
            assert live.ask(line) == answer
        live.say(b"ann \xff\xfe 0\n")
        assert live.hear() == "ann error 11 verb\n"
        live.say("zed look 0\nlook\n\u00e4 look 0\n")
        for number in (21, 22, 23):
            assert live.errors.get(timeout=SECONDS) == f"error {number} user\n"
        # the last line has no line feed
        live.say("ann look 0")
        assert live.end() == (0, ["ann look 0 booting overruns 0 0 0 0\n"], [])


# Host 0 is joined with itself, so what it sends comes back to it. Shorthand lines, their answers, and the bytes that come back,
# by the table of docs/LAB.md.
HELPING = [
    ("join 7 7", "config -", "-"),
    ('send 0 "hi"', "write 0 2", "6869"),
    (r'send 0 "\n\r\t\0\\\""', "write 0 6", "0a0d09005c22"),
    (r'send 0 "\x41\x0a\xfF0"', "write 0 4", "410aff30"),
    ('send 0 " a  b "', "write 0 6", "206120206220"),
    ('send 0 "h\u00e9"', "write 0 3", "68c3a9"),
    ('send 00 "#"', "write 0 1", "23"),
    ('send 1 "a"', "write 1 nosuch", "-"),
    ("join 7 8", "config badport", "-"),
]
NO_HELP = [
    "send 0 hello",
    'send 0 "hello',
    'send 0 hello"',
    'send 0 "',
    'send 0 ""',
    r'send 0 "a\q"',
    r'send 0 "a\N"',
    r'send 0 "\x4"',
    r'send 0 "\x4g"',
    r'send 0 "a\"',
    'send 0 "a"b"',
    'send 0 "a" ',
    'send 0  "a"',
    'send "a"',
    "send 0",
    "send",
    'send 256 "a"',
    'send +0 "a"',
    "join 0 32",
    "join 32 0",
    "join 0",
    "join",
    "join 0 1 2",
    "join 0 1 ",
    "join 0  1",
    "join 0 +1",
    "join 0 0x1",
    "text",
    "text 0 0",
    "text 0 ",
    "text x",
    "text 256",
]


def test_shorthand_lines() -> None:
    """`join`, `send` and `text` are answered as the plain lines in their places, and a wrong one is told by `args`."""
    with Live(PLAN) as live:
        for line, answer, back in HELPING:
            assert live.ask(f"ann {line}") == f"ann {answer}\n"
            assert (line, live.ask("ann text 0")) == (line, f"ann collect 0 {back}\n")
        live.say(b'ann send 0 "\xff"\n')
        assert (live.hear(), live.ask("ann text 0")) == ("ann write 0 1\n", "ann collect 0 ff\n")
        for number, line in enumerate(NO_HELP, 2 * len(HELPING) + 3):
            assert (line, live.ask(f"ann {line}")) == (line, f"ann error {number} args\n")
        for number, line in enumerate(("load 0 hello.s", "Join 0 7", "texts 0"), 2 * len(HELPING) + len(NO_HELP) + 3):
            assert (line, live.ask(f"ann {line}")) == (line, f"ann error {number} verb\n")
        assert live.ask("ann restart") == "ann restart ok\n"
        # no wrong line has done anything: each output is as it was opened, until the two of a `join` are connected and ready
        for line, ends in (("ann rest", (0, 0)), ("ann join 0 7", (0xC7, 0xC0))):
            live.ask(line)
            words = [int(it.split(":")[1], 16) & 0xDF for it in live.ask("!words").split()[1:]]
            assert words == [ends[0], 0, 0, 0, 0, 0, 0, ends[1]] + [0] * 24
        assert live.end() == (0, [], [])


@pytest.mark.long
def test_long_lines_are_told() -> None:
    most = 1 << 20
    start = "ann config "
    with Live(PLAN) as live:
        # as many bytes as a line may have, with its line feed; ready is no message's beginning here
        digits = (most - len(start) - 1) // 2 * 2
        assert live.ask(start + "07" * (digits // 2))[:22] == "ann config badcommand "
        for line, answer in ((start + "0" * most, "ann error 2 long\n"), ("!words " + "0" * most, "! error 1 long\n")):
            assert live.ask(line) == answer
        live.say("zed " + "0" * most + "\n#" + "0" * most + "\n")
        assert live.errors.get(timeout=SECONDS) == "error 4 user\n"
        # just one byte too long
        assert live.ask("ann config" + " " * (most - len("ann config"))) == "ann error 3 long\n"
        assert live.ask("ann rest") == "ann rest quiet\n"
        assert live.end() == (0, [], [])


def line_of_length(length: int) -> str:
    """A line of so many bytes, behind which is its line feed: no verb, or a comment if it is too short for a user's name."""
    return "ann ".ljust(length, "x") if length > 4 else "#" * length


def test_each_length_is_read(most: int = 4200, at_once: int = 100) -> None:
    """Lines of each length, each followed by a short one: all are answered."""
    with Live(PLAN) as live:
        for begun in range(1, most + 1, at_once):
            lengths = range(begun, min(begun + at_once, most + 1))
            live.say("".join(f"{line_of_length(it)}\nann look 0\n" for it in lengths))
            for it in lengths:
                if it > 4:
                    assert (it, live.hear()) == (it, f"ann error {2 * it - 5} verb\n")
                assert (it, live.hear()) == (it, "ann look 0 booting overruns 0 0 0 0\n")
        assert live.end() == (0, [], [])


@pytest.mark.long
def test_full_queues_are_told() -> None:
    """A domain whose program takes long is far behind: lines past 1,024 are refused at once, the operator's too, and all
    others are answered."""
    given = 3000
    with Live(PLAN) as live:
        for line in LONG:
            assert live.ask(f"bob {line}").split()[1] == line.split()[0]
        live.say("bob look 0\n" * given + "!restart bob\n")
        numbers: set[str] = set()
        looks, first, asked = 0, given, None
        for _ in range(given + 1):
            line = live.hear()
            if line.startswith("bob look 0 "):
                looks += 1
            elif asked is None and line.startswith("!"):
                asked = line
            else:
                number = re.fullmatch(r"bob error (\d+) busy\n", line)
                assert number is not None and number[1] not in numbers, line
                numbers.add(number[1])
                first = min(first, looks)
        assert looks + len(numbers) == given
        assert numbers
        assert looks >= 1024
        assert first < looks
        assert asked in ("! error 1 busy\n", "!restart bob ok\n")
        assert live.end()[0::2] == (0, [])


@pytest.mark.long
def test_sixteen_users_at_once() -> None:
    with Live(plan_of_sixteen()) as live:
        for round_ in range(50):
            for it in range(16):
                live.say(
                    f"user-{it} config 01000101\nuser-{it} poke 0 80000100 {round_:08x}\nuser-{it} peek 0 80000100\n"
                )
        told = [live.hear() for _ in range(50 * 16 * 3)]
        assert live.end() == (0, [], [])
    for it in range(16):
        own = [line for line in told if line.split()[0] == f"user-{it}"]
        assert len(own) == 150
        assert [line.split()[1] for line in own] == ["config", "poke", "peek"] * 50


def test_operator_sees_while_users_act() -> None:
    with Live(PLAN) as live:
        assert live.ask("!words") == "!words" + "".join(f" {it}:0" for it in range(32)) + "\n"
        live.say("ann config 01000703\n" * 20 + "!words\n" * 20 + "ann rest\n")
        seen = [live.hear() for _ in range(41)]
        for line in (it for it in seen if it.startswith("!words")):
            assert re.fullmatch(r"!words( \d+:[0-9a-f]+){32}\n", line), line
        words = [int(it.split(":")[1], 16) & 0xDF for it in live.ask("!words").split()[1:]]
        # output 0 is connected with input 7, output 7 with input 0, both are ready, and no other is connected
        assert words == [0xC7, 0, 0, 0, 0, 0, 0, 0xC0] + [0] * 24
        live.say("!users\n")
        # behind these words come the numbers of the rooms
        lines = [live.hear().split()[:6] for _ in range(3)]
        assert lines == [
            ["!users", "ann", "21", "80", "1000000", "quiet"],
            ["!users", "bob", "0", "0", "1099511627776", "quiet"],
            ["!users", "cas", "0", "0", "1099511627776", "quiet"],
        ]
        live.say("!stop\nann look 0\n")
        status = live.process.wait(timeout=SECONDS)
        assert (status, live.heard()) == (0, None)


def times_beside(live: Live, begin: list[str], ask: str, told: str) -> list[float]:
    """How long ann waits for each of 50 answers while bob, who began so, asks this and is at last told so."""
    for line in begin:
        assert live.ask(f"bob {line}").split()[:2] == ["bob", line.split()[0]]
    times, last = [], ""
    for _ in range(50):
        start = time.monotonic()
        live.say(f"bob {ask}\nann look 0\n")
        while (line := live.hear()) != "ann look 0 booting overruns 0 0 0 0\n":
            last = line
        times.append(time.monotonic() - start)
    live.say("!restart bob\n")
    while (line := live.hear()) != "!restart bob ok\n":
        last = line
    assert last == told
    assert live.ask("bob rest") == "bob rest quiet\n"
    assert live.end() == (0, [], [])
    return times


@pytest.mark.long
@pytest.mark.alone
@pytest.mark.parametrize(
    ("plan", "begin", "ask", "told"),
    [
        pytest.param(PLAN, LOOP, "rest", "bob rest busy\n", id="loop"),
        pytest.param(PINGS_PLAN, PINGS, "rest", "bob rest busy\n", id="ping-pong"),
        pytest.param(
            PLAN.replace("1099511627776", "300"), LOOP, "look 0", "bob look 0 journalfull\n", id="full journal"
        ),
    ],
)
def test_nobody_delays_another(plan: str, begin: list[str], ask: str, told: str) -> None:
    """While bob's program goes round for ever, or his two nodes send each other a byte for ever, or his journal is full,
    ann is answered."""
    with Live(plan) as live:
        assert median(times_beside(live, begin, ask, told)) <= 0.1


# What is told of a node that boots, before its ports are joined and after that.
UNJOINED = ["node 0 waits for a control byte.", "  No byte comes by link 0: no input drives output 0."]
JOINED = ["node 0 waits for a control byte.", "  Input 7 drives output 0 of link 0. Of host 0 nothing waits there."]
# The loop is at one of its two bytes.
RUNS = r"""after \d+( of \d+)? events(: more aren't done again at once)?
node 0 runs, \d+ Steps since a packet came or went\.
  It is at 800000(49 in `nfix 0`|4a in `j -2`)\.
  It may run for ever\.
end
"""


def asked_why(live: Live, line: str) -> list[str]:
    """What a user is told, without their name and `why`, which begin each line."""
    name = line.split()[0]
    told = live.ask_why(line)
    for it in told:
        assert it.startswith(f"{name} why ")
    return [it.removeprefix(f"{name} why ").removesuffix("\n") for it in told]


def recorded_of(live: Live) -> list[str]:
    """How many events each domain has recorded, by the first of its users."""
    live.say("!users\n")
    return [live.hear().split()[3] for _ in range(3)]


def test_why_is_told() -> None:
    """Why a node waits is told of the moment, to each user of the domain, and no event is recorded by that."""
    with Live(PLAN) as live:
        assert asked_why(live, "ann why") == ["after 0 events", *UNJOINED, "end"]
        for number, (line, answer) in enumerate(
            (
                ("why 1", "why 1 nosuch"),
                ("why 255", "why 255 nosuch"),
                ("why 256", "error 4 args"),
                ("why x", "error 5 args"),
                ("why +0", "error 6 args"),
                ("why ", "error 7 args"),
                ("why 0 0", "error 8 args"),
            ),
            2,
        ):
            assert (number, live.ask(f"ann {line}")) == (number, f"ann {answer}\n")
        assert recorded_of(live) == ["0", "0", "0"]
        assert live.ask(f"ann {WORD[0]}") == "ann config -\n"
        assert asked_why(live, "ann why 0") == ["after 4 events", *JOINED, "end"]
        assert live.ask(f"ann {WORD[1]}") == "ann boot 0 10\n"
        assert live.ask("ann write 0 05") == "ann write 0 1\n"
        assert live.ask("ann rest") == "ann rest quiet\n"
        before = recorded_of(live)
        for line in ("ann why", "ann why 0"):
            assert asked_why(live, line) == [f"after {before[0]} events", *WAITS, "end"]
        assert (recorded_of(live), live.ask("ann rest")) == (before, "ann rest quiet\n")
        assert live.ask("ann look 0") == "ann look 0 idle overruns 0 0 0 0\n"
        for name in ("bob", "cas"):
            assert asked_why(live, f"{name} why") == ["after 0 events", *UNJOINED, "end"]
        assert live.ask("ann restart") == "ann restart ok\n"
        assert asked_why(live, "ann why") == ["after 0 events", *UNJOINED, "end"]
        assert live.end() == (0, [], [])


@pytest.mark.long
@pytest.mark.alone
def test_why_is_told_of_a_loop() -> None:
    """Of a program that never ends each user of its domain is told so, and nobody else waits for that."""
    with Live(PLAN) as live:
        for line in LOOP:
            live.ask(f"bob {line}")
        times: list[float] = []
        for name in ("bob", "cas", "bob"):
            time.sleep(0.5)
            live.say(f"{name} why\n")
            start = time.monotonic()
            told: list[str] = []
            ann = 0.0
            live.say("ann look 0\n")
            while not ann or not told or not told[-1].endswith(" why end\n"):
                line = live.hear()
                if line == "ann look 0 booting overruns 0 0 0 0\n":
                    ann = time.monotonic() - start
                else:
                    told.append(line)
            text = "".join(it.removeprefix(f"{name} why ") for it in told)
            assert re.fullmatch(RUNS, text), text
            times.append(ann)
        assert live.ask("!restart cas") == "!restart cas ok\n"
        assert asked_why(live, "cas why") == ["after 0 events", *UNJOINED, "end"]
        assert live.end() == (0, [], [])
    assert max(times) <= 0.1


def test_closed_output_ends_it(folder: str) -> None:
    """Whoever reads the answers has gone: the farm notices at the next line, and ends."""
    call = [*live_call(), put(f"{folder}/plan.toml", PLAN)]
    read, write = os.pipe()
    with subprocess.Popen(call, stdin=subprocess.PIPE, stdout=write, stderr=subprocess.PIPE, bufsize=0) as process:
        assert process.stdin and process.stderr
        os.close(write)
        process.stdin.write(b"ann look 0\n")
        assert os.read(read, 100) == b"ann look 0 booting overruns 0 0 0 0\n"
        os.close(read)
        try:
            for _ in range(100):
                process.stdin.write(b"ann look 0\n")
                time.sleep(0.01)
                if process.poll() is not None:
                    break
        except BrokenPipeError:
            pass
        assert (process.wait(timeout=SECONDS), process.stderr.read()) == (6, b"io\n")


@pytest.mark.parametrize(
    ("words", "status", "errors"),
    [([], 2, None), (["--workers", "9", "{plan}"], 2, None), (["{plan}"], 3, b"plan: 2\n"), (["{plan}none"], 6, None)],
)
def test_statuses(words: list[str], status: int, errors: bytes | None, live: str, folder: str) -> None:
    path = put(f"{folder}/plan.toml", "version = 4\n")
    got = run([live, *(it.format(plan=path) for it in words)])
    assert got[:2] == (status, b"")
    assert got.errors if errors is None else got.errors == errors


def test_status_without_threads(live: str, folder: str) -> None:
    call = [live, "--room", "1M", put(f"{folder}/plan.toml", PLAN)]
    assert run(call, b"ann look 0\n", limits=no_threads) == (7, b"", b"threads\n")


def test_status_of_a_full_disk(live: str, folder: str) -> None:
    call = ["sh", "-c", f"exec {live} {put(f'{folder}/plan.toml', PLAN)} > /dev/full"]
    assert run(call, b"ann look 0\n") == (6, b"", b"io\n")


def test_status_of_help(live: str) -> None:
    assert run([live, "--help"])[::2] == (0, b"")
