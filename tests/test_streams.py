"""Streams of `farm` and `live` that fail: each read of standard input and each write of standard output and standard error fails,
gives or takes nothing, is interrupted, or gives or takes one byte, by the library of tests/support/failing_streams.c. The scope is
the tables of docs/PROGRAM.md and docs/LIVE.md: a read or write that fails is status 6, standard output is a beginning of the whole
text and the whole text with status 0, and where standard error fails the status stays. Of `live` standard output has all that was
written before the failure, and nothing more."""

import os
import subprocess
from collections.abc import Iterator

import pytest
from support.live_lines import PLAN
from support.trials import (
    MOST_SECONDS,
    RUNS,
    STORED_RUN,
    Ran,
    by_workers,
    example,
    library,
    program,
    put,
    run,
)

MOST_READS = 4_194_304
SMALL = "a small text"
SMALL_TEXT = b"""version = 1
[[domain]]
name = "ann"
first = 0
last = 1
limit = 1000
host = [1]
[[domain.node]]
memory = 4096
links = [0, -1, -1, -1]
---
ann look 0
ann config 07
ann collect 0
"""
# A node that was opened waits for a boot, no configuration message begins with 7, and no byte came to the host.
SMALL_OUTPUT = b"""ann look 0 booting overruns 0 0 0 0
ann config badcommand
ann collect 0 -
"""
IO = (6, b"", b"io\n")
# The texts that fail after each byte.
BYTEWISE = [SMALL, pytest.param(STORED_RUN, marks=pytest.mark.long)]


@pytest.fixture(scope="module", autouse=True)
def failing(tmp_path_factory: pytest.TempPathFactory) -> Iterator[str]:
    """The library, before which no stream fails."""
    path = library("failing_streams", str(tmp_path_factory.mktemp("failing")))
    with pytest.MonkeyPatch.context() as variables:
        variables.setenv("FAILING_STREAMS", path)
        yield path


def asked(call: list[str], text: bytes, **ways: str) -> Ran:
    """How a program ends whose streams STREAM0, STREAM1 and STREAM2 fail in these ways."""
    return run(call, text, {"LD_PRELOAD": os.environ["FAILING_STREAMS"], **ways})


def given(name: str) -> tuple[bytes, bytes]:
    return (SMALL_TEXT, SMALL_OUTPUT) if name == SMALL else example(name)


@pytest.mark.parametrize(("name", "count"), RUNS)
def test_reads(name: str, count: int) -> None:
    (text, output), call = given(name), by_workers(count)
    assert asked(call, text, STREAM0="byte 1") == (0, output, b"")
    # there are at least two reads: the text comes by 1,024 bytes at most, and then its end
    reads = -(-len(text) // 1024) + 1
    for way in ("fail", "once"):
        for it in range(1, reads + 1):
            assert (way, it, asked(call, text, STREAM0=f"{way} {it}")) == (way, it, IO)
        for it in range(reads + 1, reads + 3):
            assert (way, it, asked(call, text, STREAM0=f"{way} {it}")) == (way, it, (0, output, b""))
    # an end that comes early is a text that is cut, of which test_cuts says what is answered
    for at in range(1, reads):
        cut = run(call, text[: 1024 * (at - 1)])
        assert asked(call, text, STREAM0=f"nothing {at}")[::2] == cut[::2]


@pytest.mark.parametrize("way", ["fail", "once", "nothing"])
@pytest.mark.parametrize(("name", "count"), RUNS)
def test_writes(name: str, count: int, way: str) -> None:
    (text, output), call = given(name), by_workers(count)
    number = 1
    while (got := asked(call, text, STREAM1=f"{way} {number}")).status != 0:
        assert (got.status, got.errors) == (6, b"io\n")
        assert output.startswith(got.output)
        number += 1
    assert number > 1
    assert got == (0, output, b"")
    assert asked(call, text, STREAM1="byte 1") == (0, output, b"")


@pytest.mark.parametrize("name", BYTEWISE)
def test_failures_after_each_byte(name: str) -> None:
    """Each call before the failure gave or took one byte."""
    (text, output), call = given(name), by_workers(2)
    for it in range(1, len(text) + 2):
        assert (it, asked(call, text, STREAM0=f"late {it}")) == (it, IO)
    for way in ("late", "empty"):
        for it in range(len(output)):
            assert asked(call, text, STREAM1=f"{way} {it + 1}") == (6, output[:it], b"io\n")


@pytest.mark.parametrize("way", ["fail 1", "nothing 1", "once 1", "byte 1", "late 3", "empty 3"])
@pytest.mark.parametrize("name", BYTEWISE)
def test_standard_error_fails_too(name: str, way: str) -> None:
    text, call = given(name)[0], by_workers(2)
    rows: list[tuple[bytes, list[str], int]] = [
        (b"x", [], 3),
        (text + b"eve\n", [], 4),
        (text, ["--workers", "9"], 2),
        (text, ["--users", "1"], 2),
    ]
    for it, words, status in rows:
        assert asked([*call, *words], it, STREAM2=way)[:2] == (status, b"")
    assert asked(call, text, STREAM0="fail 1", STREAM2=way)[:2] == (6, b"")
    assert asked(call, text, STREAM1="fail 1", STREAM2=way)[:2] == (6, b"")


@pytest.mark.long
@pytest.mark.parametrize(
    ("length", "end"), [(MOST_READS - 1, (3, b"", b"plan: 2\n")), (MOST_READS, IO), (MOST_READS + 9, IO)]
)
def test_most_reads(length: int, end: tuple[int, bytes, bytes]) -> None:
    """One byte a read: the end is a read of its own."""
    assert asked(by_workers(2), b"#" * length, STREAM0="byte 1") == end


@pytest.mark.long
@pytest.mark.parametrize("read", [1, 2])
def test_an_input_without_end(read: int) -> None:
    assert asked(by_workers(2), given(STORED_RUN)[0], STREAM0=f"endless {read}") == IO


LONG_LINES = 6000
# None of these is the beginning of a message of the switch: each is answered.
NO_COMMANDS = 24000
LOOKS = b"ann look 0 booting overruns 0 0 0 0\n"


def test_a_long_script() -> None:
    """A script of more than 5,000 lines, whose output has more than 64 KB for each of two users, with a line of 24,000 bytes."""
    lines = b"".join(name + b" look 0\n" for _ in range(LONG_LINES) for name in (b"ann", b"bob"))
    text, call = PLAN.encode() + b"---\n" + lines + b"ann config " + b"07" * NO_COMMANDS + b"\n", by_workers(2)
    screens = [
        LOOKS * LONG_LINES + b"ann config" + b" badcommand" * NO_COMMANDS + b"\n",
        LOOKS.replace(b"ann", b"bob") * LONG_LINES,
    ]
    assert asked(call, text) == (0, b"".join(screens), b"")
    for way in ("fail", "only"):
        for it in (1, 2):
            assert asked(call, text, STREAM1=f"{way} {it}") == (6, b"".join(screens[: it - 1]), b"io\n")
    assert asked(call, text, STREAM0=f"fail {-(-len(text) // 1024) + 1}") == IO


# What is asked of `live`, and what is answered on standard output and on standard error.
LIVE_LINES = (
    (b"ann look 0\n", LOOKS, b""),
    (b"# nothing\n", b"", b""),
    (b"ann poke 0 80000100 12345678\n", b"ann poke 0 9\n", b""),
    (b"zed look 0\n", b"", b"error 4 user\n"),
    (b"ann frob\n", b"ann error 3 verb\n", b""),
    (b"ann collect 0\n", b"ann collect 0 -\n", b""),
    (b"eve rest\n", b"", b"error 7 user\n"),
    (b"ann rest\n", b"ann rest quiet\n", b""),
)
LIVE_INPUT, LIVE_OUTPUT, LIVE_ERRORS = (b"".join(it[side] for it in LIVE_LINES) for side in range(3))
LIVE_WRITTEN = [it[1] for it in LIVE_LINES if it[1]]


@pytest.fixture
def live_call(live: str, folder: str) -> list[str]:
    return [live, put(f"{folder}/plan.toml", PLAN)]


@pytest.mark.parametrize(
    "ways",
    [
        {},
        {"STREAM0": "once 1"},
        {"STREAM0": "once 2"},
        {"STREAM0": "byte 1"},
        {"STREAM0": "fail 3"},
        {"STREAM1": "byte 1"},
        {"STREAM1": f"fail {len(LIVE_WRITTEN) + 1}"},
        *({"STREAM1": f"once {it}"} for it in range(1, len(LIVE_WRITTEN) + 1)),
    ],
    ids=str,
)
def test_live_without_a_failure(live_call: list[str], ways: dict[str, str]) -> None:
    assert asked(live_call, LIVE_INPUT, **ways) == (0, LIVE_OUTPUT, LIVE_ERRORS)


@pytest.mark.parametrize("way", ["fail", "only"])
def test_reads_of_live(live_call: list[str], way: str) -> None:
    """What is read before a read that fails is answered."""
    assert asked(live_call, LIVE_INPUT, STREAM0=f"{way} 1") == IO
    assert asked(live_call, LIVE_INPUT, STREAM0=f"{way} 2") == (6, LIVE_OUTPUT, LIVE_ERRORS + b"io\n")


def test_reads_of_live_by_bytes(live_call: list[str]) -> None:
    """The lines whose end was read are answered, and no other."""
    ends = [sum(len(it[0]) for it in LIVE_LINES[:count]) for count in range(len(LIVE_LINES) + 1)]
    for at in (it for end in ends for it in (end - 1, end, end + 1) if 0 <= it <= len(LIVE_INPUT)):
        count = sum(it <= at for it in ends) - 1
        out, errors = (b"".join(it[side] for it in LIVE_LINES[:count]) for side in (1, 2))
        assert asked(live_call, LIVE_INPUT, STREAM0=f"late {at + 1}") == (6, out, errors + b"io\n")


@pytest.mark.parametrize("way", ["fail", "only", "nothing", "late", "empty"])
def test_writes_of_live(live_call: list[str], way: str) -> None:
    """After a write that fails nothing is written, even if the stream would take it. By some ways each write takes a byte."""
    is_by_bytes = way in ("late", "empty")
    count = len(LIVE_OUTPUT) if is_by_bytes else len(LIVE_WRITTEN)
    for it in range(count):
        got = asked(live_call, LIVE_INPUT, STREAM1=f"{way} {it + 1}")
        assert got[:2] == (6, LIVE_OUTPUT[:it] if is_by_bytes else b"".join(LIVE_WRITTEN[:it]))
        assert got.errors.endswith(b"io\n")
        assert LIVE_ERRORS.startswith(got.errors[:-3])


@pytest.mark.parametrize("way", ["fail 1", "only 1", "nothing 1", "byte 1", "once 1"])
def test_standard_error_of_live(live_call: list[str], way: str) -> None:
    assert asked(live_call, LIVE_INPUT, STREAM2=way)[:2] == (0, LIVE_OUTPUT)


@pytest.mark.parametrize(
    ("call", "status", "errors"),
    [
        ("{farm} < {text} 1>&-", 6, "io\n"),
        ("{farm} < {text} > /dev/full", 6, "io\n"),
        ("{farm} --help > /dev/full", 6, "io\n"),
        ("{farm} <&-", 6, "io\n"),
        ("{farm} < /", 6, "io\n"),
        ("{farm} < /dev/null 2>&-", 3, ""),
        ("{farm} < /dev/null 2> /dev/full", 3, ""),
    ],
)
def test_streams_of_the_shell(call: str, status: int, errors: str, farm: str, folder: str) -> None:
    text = put(f"{folder}/text", given(STORED_RUN)[0])
    words = ["sh", "-c", f"exec {call.format(farm=farm, text=text)}"]
    assert run(words) == (status, b"", errors.encode())


@pytest.mark.parametrize(("stream", "words", "status"), [("stdout", [], 6), ("stderr", ["--users"], 2)])
def test_closed_pipes(stream: str, words: list[str], status: int) -> None:
    """Nobody reads the pipe, and its signal is as Python's parent has it by default."""
    ends = os.pipe()
    os.close(ends[0])
    out, err = (ends[1] if it == stream else subprocess.PIPE for it in ("stdout", "stderr"))
    call = [program("farm"), *words]
    with subprocess.Popen(call, stdin=subprocess.PIPE, stdout=out, stderr=err, restore_signals=True) as it:
        os.close(ends[1])
        _, errors = it.communicate(given(STORED_RUN)[0] if stream == "stdout" else b"", timeout=MOST_SECONDS)
    assert (it.returncode, errors) == (status, b"io\n" if stream == "stdout" else None)
