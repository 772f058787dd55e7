"""The builds without a proof of `farm`, `live` and `lab`: that they answer and end as the stored outputs and docs/PROGRAM.md say, that
they say what they are, that an answer of more than 1 MiB is whole, and that nothing takes them for proved programs. The builds are
made if they aren't there. It wants a tree in which nothing is proved yet, and leaves it so. test_stamp tries when they are made and
run, with a toolchain that builds nothing."""

import os
import subprocess
import tempfile

import pytest
from support.trials import PLAIN_NAMES, TOP, contents, example, put, run

SECONDS = 1800
NAMES = ("farm", "live", "lab")
# So many enquiries have answers of more than 1 MiB together.
ENQUIRIES = 100000
EXAMPLE = f"{TOP}/examples/two-users"
IS_PROVED = any(os.path.exists(f"{TOP}/crates/{it}/out/{it}") for it in NAMES)
pytestmark = [pytest.mark.long, pytest.mark.skipif(IS_PROVED, reason="programs are proved here")]


@pytest.fixture(autouse=True)
def unnamed(monkeypatch: pytest.MonkeyPatch) -> None:
    """The commands run their own builds, and say so."""
    for name in ("FARM", "LAB", "LIVE", "NADZSUMEK_QUIET"):
        monkeypatch.delenv(name, raising=False)


def note(name: str) -> bytes:
    """What a command says of a program that isn't proved."""
    return f"{name}: not proved yet: ./prove proves it, some 20 minutes on four cores\n".encode()


def ran(name: str, text: bytes, *words: str) -> tuple[int | None, bytes, bytes]:
    """Status, standard output, and standard error without the note, which must be there."""
    status, out, errors = run([f"{TOP}/{name}", *words], text, seconds=SECONDS)
    _, is_said, rest = errors.partition(note(name))
    assert is_said == note(name)
    return status, out, rest


def test_programs_are_built() -> None:
    """All at once; the next time it takes a moment, and nothing is printed."""
    call = [f"{TOP}/tools/unproved", "--only-build", *NAMES]
    assert subprocess.run(call, check=False).returncode == 0
    assert run(call, b"", seconds=SECONDS) == (0, b"", b"")


@pytest.mark.parametrize("name", PLAIN_NAMES)
def test_answers_are_the_stored_ones(name: str) -> None:
    text, output = example(name)
    assert ran("farm", text) == (0, output, b"")


def test_live_answers_as_farm() -> None:
    """The lines of an example, with answers in each user's order."""
    plan, _, script = contents(f"{EXAMPLE}.farm").partition(b"\n---\n")
    path = f"{TOP}/crates/live/out/unproved/plan"
    put(path, plan + b"\n")
    try:
        lines = b"".join(it + b"\n" for it in script.splitlines() if it and not it.startswith(b"#"))
        status, out, _ = ran("live", lines, path)
    finally:
        os.remove(path)
    assert (status, sorted(out.splitlines())) == (0, sorted(contents(f"{EXAMPLE}.out").splitlines()))


def test_class_status_says_so() -> None:
    """Below the rows of a class whose farm runs the build."""
    with tempfile.TemporaryDirectory() as folder:
        course = f"{folder}/course"
        put(f"{folder}/names.txt", "ann\n")
        call = [f"{TOP}/class", "--students", f"{folder}/names.txt", "--nodes", "1", course]
        assert run(call).status == 0
        try:
            assert run([f"{TOP}/class", "start", course], seconds=SECONDS).status == 0
            told = run([f"{TOP}/class", "status", course]).output.decode().splitlines()
            asked = run([f"{TOP}/connect", f"{course}/farm-1", "operator", "-c", "users"]).output.decode().splitlines()
        finally:
            run([f"{TOP}/class", "stop", course])
        assert told[-1] == "farm-1 isn't proved yet: ./prove proves it, and it is proved from its next start on"
        # the greeting says it, and the answer
        assert asked.count("note: the program of this farm isn't proved yet") == 2, asked
        assert [it.split(" ")[0] for it in asked if not it.startswith("note: ")] == ["!users"], asked


def test_rows_of_occam_are_right() -> None:
    """Those of which the gate compares what the lab prints."""
    folder = f"{TOP}/tests/occam_rows"
    done = subprocess.run(
        [f"{TOP}/lab", "rows", "programs.occam", "parallel.occam"],
        cwd=folder,
        stdin=subprocess.DEVNULL,
        capture_output=True,
        check=False,
    )
    assert (done.returncode, done.stdout, done.stderr) == (0, contents(f"{folder}/stdout"), note("lab"))


def test_status_and_errors_come_through() -> None:
    """Those of docs/PROGRAM.md."""
    plan = contents(f"{EXAMPLE}.farm").partition(b"\n---\n")[0] + b"\n---\n"
    assert ran("farm", b"version = 4\n---\n")[:2] == (3, b"")
    assert ran("farm", b"")[::2] == (3, b"plan: 2\n")
    assert ran("farm", plan + b"ann config 00\nzed look 0\n") == (4, b"", b"line 2: user\n")
    assert ran("farm", plan + b"ann loook 0\n") == (4, b"", b"line 1: verb\n")
    status, out, errors = ran("farm", plan, "--workers", "9")
    assert (status, out, b"--workers" in errors) == (2, b"", True)


def test_long_answers_are_whole() -> None:
    """An enquiry of a port that is connected with none has the answer 00 (choice 3)."""
    plan = contents(f"{EXAMPLE}.farm").partition(b"\n---\n")[0] + b"\n---\n"
    status, out, errors = ran("farm", plan + b"ann config 0200\n" * ENQUIRIES)
    assert (status, errors, out == b"ann config 00\n" * ENQUIRIES, len(out) > 1 << 20) == (0, b"", True, True)


def test_nothing_calls_them_proved() -> None:
    """There is no stamp, and a build that is copied to a proved program's place is as one of which nothing is known."""
    for name in NAMES:
        proved, own = f"{TOP}/crates/{name}/out/{name}", f"{TOP}/crates/{name}/out/unproved/{name}"
        assert (name, os.path.exists(f"{proved}.proved"), os.path.exists(f"{own}.proved")) == (name, False, False)
        os.link(own, proved)
        try:
            assert subprocess.run([f"{TOP}/tools/start", "--is-built", name], check=False).returncode == 1
            said = subprocess.run([f"{TOP}/{name}", "--version"], capture_output=True, check=True).stdout.decode()
            assert f"  {name}: not proved yet: here, and nothing is known of its proof; " in said
        finally:
            os.remove(proved)
