"""A class as a teacher has it: folders, sheets and farms for 12, 30 and 100 students, who all do the first lines of their sheets at
once; then the farms are stopped and go on. At last everything is installed in a fresh folder and used there, by another account if
this one may do that (root)."""

import getpass
import grp
import os
import re
import shutil
import socket
import subprocess
from concurrent.futures import ThreadPoolExecutor

import pytest
from support.serving_trials import SECONDS
from support.trials import TOP, put, run_text, run_together, text_of

pytestmark = pytest.mark.long
GREETED = ["config -", "boot 0 35", 'collect 0 68656c6c6f0a  "hello\\n"']


def done(call: list[str], text: str = "", env: dict[str, str] | None = None) -> str:
    """What a call prints, which must end well."""
    it = run_together(call, text, env)
    assert it.returncode == 0, f"{call}: {it.stdout}"
    return it.stdout


def first_lines(sheet: str) -> list[str]:
    """Does what a sheet says: the command of the terminal, and the lines for it."""
    call, lines = said_by(sheet)
    return done(call.split(), "\n".join(lines) + "\n").splitlines()


def said_by(sheet: str) -> tuple[str, list[str]]:
    """The command of the terminal that a sheet has, and its three lines."""
    lines = [line.strip() for line in text_of(sheet).splitlines() if line.startswith("    ")]
    at = next(at for at, line in enumerate(lines) if line.startswith("join "))
    return next(line for line in lines if "/connect " in line), lines[at : at + 3]


@pytest.mark.parametrize("students", [12, 30, 100])
def test_class_of(students: int, folder: str) -> None:
    names, course, farms = f"{folder}/names.txt", f"{folder}/course", -(-students // 16)
    put(names, "".join(f"Student {number}\n" for number in range(1, students + 1)))
    told = done([f"{TOP}/class", "--students", names, "--nodes", "1", course])
    plural = "s" if farms > 1 else ""
    assert told.startswith(f"{students} students in {farms} farm{plural}, each with 2 ports")
    assert len(done([f"{TOP}/class", "start", course]).splitlines()) == farms
    try:
        sheets = [f"{course}/sheets/student-{number}.txt" for number in range(1, students + 1)]
        with ThreadPoolExecutor(24) as pool:
            for lines in pool.map(first_lines, sheets):
                assert lines == GREETED
        rows = done([f"{TOP}/class", "status", course]).splitlines()
        assert (len(rows), rows[students + 1]) == (students + 2 + farms, "")
        for row in rows[1 : students + 1]:
            assert re.fullmatch(r"student-\d+ +farm-\d+ +5 +[1-9]\d+ +0\.0% +0\.\d% +0\.0M +quiet +-", row), row
        done([f"{TOP}/class", "stop", course])
        done([f"{TOP}/class", "start", course])
        again = done([f"{TOP}/connect", f"{course}/farm-1", "student-1"], "look 0\n")
        assert again == "look 0 idle overruns 0 0 0 0\n"
    finally:
        done([f"{TOP}/class", "stop", course])


@pytest.mark.parametrize(("nodes", "hosts"), [("1", "2"), ("2", "1"), ("3", "4"), ("8", "1")])
def test_hints(nodes: str, hosts: str, folder: str) -> None:
    """A terminal tells a student to try what the sheet says, whatever the machine is, and the sheet says where the guide is."""
    names, course = put(f"{folder}/two.txt", "Groß\nOe\n"), f"{folder}/course"
    done([f"{TOP}/class", "--students", names, "--nodes", nodes, "--hosts", hosts, course])
    done([f"{TOP}/class", "start", course])
    try:
        call, lines = said_by(f"{course}/sheets/gross.txt")
        it = run_text(call.split(), "\n".join(["Join", *lines]))
        assert it.stderr == f"error: there is no verb 'Join'. Is it join? Try: {lines[0]}\n"
        assert first_lines(f"{course}/sheets/oe.txt") == GREETED
    finally:
        done([f"{TOP}/class", "stop", course])
    guide = re.search("^The user's guide: (.*/USER.md)$", text_of(f"{course}/sheets/gross.txt"), re.M)
    assert guide
    assert os.path.exists(guide[1])


def opened(path: str) -> None:
    """Lets other accounts into a folder and what is above it, up to that of all temporary folders."""
    while path != "/tmp" and len(path) > 1:
        os.chmod(path, 0o755)
        path = os.path.dirname(path)


@pytest.mark.skipif(os.getuid() != 0, reason="this account isn't root")
@pytest.mark.parametrize("is_open", [False, True])
def test_rights(is_open: bool, folder: str) -> None:
    """Another account may speak as a student if the socket's group is its own, and never as the operator."""
    opened(folder)
    names, course = put(f"{folder}/names", "Ada\nBob\n"), f"{folder}/course"
    more = ["--mode", "660", "--group", str(grp.getgrnam("nogroup").gr_gid)] if is_open else []
    done([f"{TOP}/class", "--students", names, "--nodes", "1", *more, course])
    ssh = f"\n    ssh -t {socket.gethostname()} {TOP}/connect {course}/farm-1 ada\n"
    assert (ssh in text_of(f"{course}/sheets/ada.txt")) == is_open
    done([f"{TOP}/class", "start", course])
    other = ["runuser", "-u", "nobody", "--"]
    try:
        for name, line, may in (("ada", "help rest\n", is_open), ("operator", "help stop\n", False)):
            it = run_text([*other, "env", "PATH=/usr/bin:/bin", f"{TOP}/connect", f"{course}/farm-1", name], line)
            assert (name, it.returncode, "may not speak" in it.stderr) == (name, 0 if may else 3, not may)
        it = run_text([*other, f"{TOP}/class", "verify", course, "ada", f"{TOP}/README.md"])
        told = f"class: {os.path.realpath(course)} belongs to the account {getpass.getuser()}, and this is nobody: do this "
        assert (it.returncode, it.stderr[: len(told)]) == (1, told)
    finally:
        done([f"{TOP}/class", "stop", course])


def test_installed(folder: str) -> None:
    """The installed commands have a class of their own, by another account if there may be one."""
    prefix, place = f"{folder}/prefix", f"{folder}/other"
    done([f"{TOP}/tools/install", "--draft", prefix])
    own = {name: it for name, it in os.environ.items() if name not in ("FARM", "LAB", "LIVE")}
    # no prover stands in this path
    own["PATH"] = f"{prefix}/bin:/usr/local/bin:/usr/bin:/bin"
    runuser = shutil.which("runuser", path="/usr/sbin:/sbin:/usr/bin:/bin")
    runs = [runuser, "-u", "nobody", "--"] if os.getuid() == 0 and runuser else []
    opened(folder)
    os.mkdir(place)
    os.chmod(place, 0o777)
    script = f"""set -e; cd {place}; printf 'Ada\\nBob\\n' > names
class --students names --nodes 1 one > /dev/null; class start one > /dev/null
printf 'join 0 1\\nload 0 hello.occ\\ncollect 0\\n' | connect one/farm-1 ada; class stop one > /dev/null
grep -c "^The user's guide: {prefix}/share/doc/nadzsumek/guides/USER.html$" one/sheets/ada.txt
farm < {prefix}/lib/nadzsumek/examples/word-plus-one.farm | tail -n 1; echo 21f5 | lab disassemble; id -un"""
    told = done([*runs, "env", f"PATH={own['PATH']}", "bash", "-c", script], env=own).splitlines()
    assert told[:-1] == [*GREETED, "1", "bob peek 0 00000000", "stopp"]
    check_installed_again(prefix)


def check_installed_again(prefix: str) -> None:
    """Calls of an installed program go well while another version is put in its place."""
    os.rename(os.path.realpath(f"{prefix}/lib/nadzsumek"), f"{prefix}/lib/before")
    os.remove(f"{prefix}/lib/nadzsumek")
    os.rename(f"{prefix}/lib/before", f"{prefix}/lib/nadzsumek")
    # a folder, as earlier versions were, has to go first
    call, calls = [f"{TOP}/tools/install", "--draft", prefix], 0
    done(call)
    for _ in range(3):
        with subprocess.Popen(call, stdout=subprocess.DEVNULL) as installing:
            while installing.poll() is None:
                assert done([f"{prefix}/bin/lab", "disassemble"], "21f5\n", {"PATH": "/usr/bin:/bin"}) == "stopp\n"
                calls += 1
            assert installing.wait(SECONDS) == 0
    assert calls
    assert len(os.listdir(f"{prefix}/lib")) == 2
