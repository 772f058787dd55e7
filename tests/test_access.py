"""Who reaches a served farm, and by which means: `nc` and `socat` at a user's socket; accounts, each of which may open just the
sockets that are given to it; a real `sshd` on a port of the loopback, with a key that is bound to `connect`, and with a socket that
is forwarded; the installed commands, by accounts that have no prover; and the units by which systemd starts farms, also in a
container that it boots.

These tests are made by root on Debian: they make three accounts with groups of their own, `nadz-farm`, `nadz-ann` and `nadz-bob`, and
the groups `farm-nadz-ann` and `farm-nadz-bob` for sockets, and remove them at the end. What they need of Debian they install
(netcat-openbsd, socat, openssh-server, systemd-container), and no service is started by that. All else is in a folder below /tmp."""

import grp
import os
import pwd
import re
import shutil
import signal
import socket
import subprocess
import tempfile
import time
from collections.abc import Iterator

import pytest
from support.booted import Booted, NotBooted
from support.screens import CONTROL_D, Screen
from support.serving_trials import plan_of_users
from support.trials import TOP, program, put, text_of

pytestmark = [pytest.mark.long, pytest.mark.alone]
SECONDS = 60
FARM, ANN, BOB = ACCOUNTS = ("nadz-farm", "nadz-ann", "nadz-bob")
# Each command with the package of Debian that has it.
PACKAGES = {
    "nc.openbsd": "netcat-openbsd",
    "socat": "socat",
    "sshd": "openssh-server",
    "ssh": "openssh-client",
    "useradd": "passwd",
    "setpriv": "util-linux",
    "systemd-analyze": "systemd",
    "systemd-nspawn": "systemd-container",
}
PATH = "/usr/local/sbin:/usr/local/bin:/usr/sbin:/usr/bin:/sbin:/bin"
# While it is there, packages that are installed start no service.
NO_SERVICE = "/usr/sbin/policy-rc.d"
DENIED = "Permission denied"
# sshd wants this folder, which its service makes.
SEPARATED = "/run/sshd"
BOOTING = "look 0 booting overruns 0 0 0 0\n"
# What a node whose program has ended is in JSON.
IDLE = (
    '{"line": "look 0", "answer": "look 0 idle overruns 0 0 0 0", "refused": null, "result": {"state": "idle", "fault": null, '
    '"operation": null, "overruns": [0, 0, 0, 0]}}'
)


class Missing(Exception):
    """What must be there before anything can be tried."""


def group_of(name: str) -> str:
    """The group to which a user's socket is given."""
    return f"farm-{name}"


def done(
    call: list[str],
    text: str = "",
    status: int | None = 0,
    seconds: float = SECONDS,
    env: dict[str, str] | None = None,
    cwd: str | None = None,
) -> str:
    """What a call says on standard output and standard error. It must end with this status, if one is given."""
    it = subprocess.run(
        call,
        input=text,
        stdout=subprocess.PIPE,
        stderr=subprocess.STDOUT,
        encoding="utf-8",
        timeout=seconds,
        check=False,
        env=env,
        cwd=cwd,
    )
    assert (
        status is None or it.returncode == status
    ), f"{call}: status {it.returncode} in place of {status}: {it.stdout}"
    return it.stdout


def install() -> None:
    """Installs the packages whose commands aren't there."""
    lacking = sorted({package for command, package in PACKAGES.items() if not shutil.which(command, path=PATH)})
    if not lacking:
        return
    if not shutil.which("apt-get"):
        raise Missing(f"this isn't Debian, so install these yourself: {', '.join(lacking)}")
    print(f"installing {', '.join(lacking)}", flush=True)
    own = not os.path.exists(NO_SERVICE)
    if own:
        with open(NO_SERVICE, "w", encoding="utf-8") as it:
            it.write("#!/bin/sh\nexit 101\n")
        os.chmod(NO_SERVICE, 0o755)
    try:
        env = {**os.environ, "DEBIAN_FRONTEND": "noninteractive"}
        done(["apt-get", "-q", "update"], seconds=600, env=env)
        done(["apt-get", "-q", "install", "-y", "--no-install-recommends", *lacking], seconds=600, env=env)
    finally:
        if own:
            os.remove(NO_SERVICE)


class Accounts:
    """The accounts of the trials, and a group for the socket of each user, in which that of the farm is too, as docs/SERVE.md
    wants it."""

    def __init__(self, room: str) -> None:
        self.room = room
        self.made: list[str] = []
        self.groups: list[str] = []

    def __enter__(self) -> "Accounts":
        accounts, groups = {it.pw_name for it in pwd.getpwall()}, {it.gr_name for it in grp.getgrall()}
        for there, names, what, remove in (
            (accounts, ACCOUNTS, "an account", "userdel"),
            (groups, map(group_of, (ANN, BOB)), "a group", "groupdel"),
        ):
            for name in there.intersection(names):
                raise Missing(f"there is {what} {name} already. If it is left from an earlier run: {remove} {name}")
        for name in ACCOUNTS:
            done(
                [
                    "useradd",
                    "--user-group",
                    "--create-home",
                    "--home-dir",
                    f"{self.room}/{name}",
                    "--shell",
                    "/bin/bash",
                    name,
                ]
            )
            self.made.append(name)
            # sshd lets no account in whose password is locked; this one is no password's
            done(["usermod", "--password", "*", name])
        for name in (ANN, BOB):
            done(["groupadd", group_of(name)])
            self.groups.append(group_of(name))
            for account in (name, FARM):
                done(["usermod", "--append", "--groups", group_of(name), account])
        return self

    def __exit__(self, *_: object) -> None:
        for remove, names in (("userdel", self.made), ("groupdel", self.groups)):
            for name in names:
                subprocess.run([remove, name], capture_output=True, check=False)


class Place:
    """The installed commands, the plan, and the folder of the farm, whose account is FARM."""

    def __init__(self, room: str) -> None:
        self.room, self.prefix, self.folder = room, f"{room}/prefix", f"{room}/farm"
        self.plan, self.path = f"{room}/plan.toml", f"{room}/prefix/bin:/usr/bin:/bin"
        done(
            [f"{TOP}/tools/install", "--draft", self.prefix],
            env={**os.environ, **{name.upper(): program(name) for name in ("farm", "lab", "live")}},
        )
        put(self.plan, plan_of_users([ANN, BOB]))

    def begin(self) -> None:
        """A folder for the farm without any records."""
        shutil.rmtree(self.folder, ignore_errors=True)
        os.mkdir(self.folder)
        shutil.chown(self.folder, FARM, FARM)

    def call(self, account: str, *words: str) -> list[str]:
        """A call by an account, whose path has the installed commands and no prover."""
        return [
            "setpriv",
            f"--reuid={account}",
            f"--regid={account}",
            "--init-groups",
            "env",
            "-i",
            f"HOME={self.room}/{account}",
            f"PATH={self.path}",
            "LANG=C.UTF-8",
            *words,
        ]

    def by(self, account: str, *words: str, text: str = "", status: int | None = 0) -> str:
        """What the call says."""
        return done(self.call(account, *words), text, status, cwd="/")

    def socket(self, name: str) -> str:
        return f"{self.folder}/{name}.sock"

    def serve(self, *more: str) -> "Up":
        """A farm that is up, as a context."""
        return Up(self, more)


@pytest.fixture(scope="module")
def kept_place() -> Iterator[Place]:
    """The accounts and the installed commands."""
    if os.getuid() != 0:
        pytest.skip("this makes accounts and starts an sshd, so it is for root")
    try:
        install()
        with tempfile.TemporaryDirectory(prefix="nadz-") as room, Accounts(room):
            os.chmod(room, 0o755)
            yield Place(room)
    except Missing as missing:
        pytest.skip(f"{missing}")


@pytest.fixture
def place(kept_place: Place) -> Place:
    """The same with a folder for the farm without any records."""
    kept_place.begin()
    return kept_place


class Up:
    """A farm that is up until the end of a block."""

    def __init__(self, place: Place, more: tuple[str, ...]) -> None:
        self.place, self.more, self.log = place, more, f"{place.room}/serve.log"

    def __enter__(self) -> "Up":
        call = self.place.call(FARM, "serve", *self.more, self.place.plan, self.place.folder)
        with open(self.log, "wb") as log:
            self.process = subprocess.Popen(call, stdin=subprocess.DEVNULL, stdout=log, stderr=log, cwd="/")
        end = time.monotonic() + SECONDS
        while True:
            told = text_of(self.log)
            if "their sockets are in" in told:
                return self
            assert time.monotonic() <= end and self.process.poll() is None, f"serve is not up: {told}"
            time.sleep(0.02)

    def __exit__(self, *_: object) -> None:
        self.process.send_signal(signal.SIGTERM)
        assert self.process.wait(timeout=SECONDS) == 0


def test_nc_and_socat_speak(place: Place) -> None:
    """Lines that are there at once, and lines that are typed one after another."""
    socket_of = place.socket(ANN)
    text, told = "config 01000103\nlook 0\nlok 0\n", f"config -\n{BOOTING}error 3 verb\n"
    calls = {
        "nc": ["nc.openbsd", "-U", "-N", socket_of],
        "socat": ["socat", "-t", "20", "-", f"UNIX-CONNECT:{socket_of}"],
    }
    with place.serve():
        assert place.by(FARM, *calls["nc"], text=text) == told
    with place.serve():
        assert place.by(FARM, *calls["socat"], text=text) == told
        for call in (["nc.openbsd", "-U", socket_of], calls["socat"]):
            with subprocess.Popen(
                place.call(FARM, *call), stdin=subprocess.PIPE, stdout=subprocess.PIPE, encoding="utf-8", cwd="/"
            ) as it:
                assert it.stdin and it.stdout
                for _ in range(3):
                    it.stdin.write("look 0\n")
                    it.stdin.flush()
                    assert it.stdout.readline() == BOOTING
                it.terminate()
                it.wait()
        lines = place.by(FARM, *calls["nc"], text="look 0\nlook").splitlines(keepends=True)
        assert sorted(lines) == ["error: the last line has no line feed, so it is not sent\n", BOOTING]


def sockets_open_for(place: Place) -> dict[tuple[str, str], bool]:
    """Who can open which socket: for each account and socket whether it answered, or that the right was refused."""
    told = {}
    for account in ACCOUNTS:
        for name in (ANN, BOB, "operator"):
            line = "words\n" if name == "operator" else "look 0\n"
            said = place.by(account, "nc.openbsd", "-U", "-N", place.socket(name), text=line, status=None)
            if said.startswith("!words" if name == "operator" else "look 0 booting"):
                told[account, name] = True
            elif DENIED in said:
                told[account, name] = False
            else:
                raise AssertionError(f"{account} at {name}: {said}")
    return told


def test_rights_are_the_accounts(place: Place) -> None:
    """A socket opens for its owner and its group, and for nobody else. The operator's opens for the farm's account
    alone."""
    everyone = [(account, name) for account in ACCOUNTS for name in (ANN, BOB, "operator")]
    for more, opens in (
        (("--mode", "600"), ()),
        (("--mode", "660", "--group", "farm-%u"), ((ANN, ANN), (BOB, BOB))),
        (("--mode", "660", "--group", group_of(BOB)), ((BOB, ANN), (BOB, BOB))),
        (("--mode", "666"), ((ANN, ANN), (ANN, BOB), (BOB, ANN), (BOB, BOB))),
    ):
        with place.serve(*more):
            assert sockets_open_for(place) == {it: it[0] == FARM or it in opens for it in everyone}
    with place.serve("--mode", "660", "--group", "farm-%u"):
        said = place.by(ANN, "socat", "-", f"UNIX-CONNECT:{place.socket(BOB)}", status=1)
        assert DENIED in said
        said = place.by(ANN, "connect", place.folder, BOB, status=3)
        whose = f"the socket is for the account {FARM} and the group {group_of(BOB)}"
        assert said == (
            f"connect: this account ({ANN}) may not speak as {BOB}: {whose}. If it is yours, ask the operator (serve "
            "--mode, --group)\n"
        )
        said = place.by(ANN, "connect", place.folder, "operator", status=3)
        assert said == (
            f"connect: this account ({ANN}) may not speak as operator: the socket is for the account {FARM} "
            "alone. If it is yours, ask the operator (serve --mode, --group)\n"
        )
        assert DENIED in place.by(ANN, "ls", f"{place.folder}/records", status=2)
        assert DENIED in place.by(ANN, "rm", "-f", place.socket(ANN), status=1)
        # a member of the group that hasn't got it yet, as one who came into it after the login
        done(["usermod", "--append", "--groups", group_of(BOB), ANN])
        said = done(
            [it.replace("--init-groups", "--clear-groups") for it in place.call(ANN, "connect", place.folder, BOB)],
            status=3,
            cwd="/",
        )
        assert said == (
            f"connect: this account ({ANN}) may not speak as {BOB} yet: it came into the group {group_of(BOB)} after it "
            "had logged in. Log in again\n"
        )
        assert place.by(ANN, "connect", place.folder, BOB, text="look 0\n") == BOOTING
        done(["gpasswd", "--delete", ANN, group_of(BOB)])
        os.chmod(place.folder, 0o700)
        assert place.by(ANN, "connect", place.folder, ANN, status=3) == (
            f"connect: this account ({ANN}) may not enter the folder "
            f"{place.folder}: ask the operator for its mode\n"
        )
        os.chmod(place.folder, 0o755)
    # the farm's account may not write where the groups that users have for their files may
    own = f"{place.room}/{ANN}/own"
    place.by(ANN, "sh", "-c", f"umask 002; mkdir -p {own}; echo hers > {own}/file")
    os.chmod(f"{place.room}/{ANN}", 0o755)
    assert place.by(ANN, "stat", "-c", "%A %G", f"{own}/file") == f"-rw-rw-r-- {ANN}\n"
    assert DENIED in place.by(FARM, "sh", "-c", f"echo his > {own}/file", status=None)
    said = place.by(ANN, "serve", place.plan, place.folder, status=1)
    assert (
        f"serve: {place.folder} belongs to the account {FARM}, and this is {ANN}: start serve as that account" in said
    )


def test_commands_are_installed(place: Place) -> None:
    """Everything that is installed, by an account without a prover: the programs, a terminal, and a class of its
    own."""
    script = f"""set -e; cd; ! command -v rt; ! command -v rattle
printf 'join 0 1\\nload 0 hello.s\\ncollect 0\\n' | connect {place.folder} {ANN}
PYTHONPATH={place.prefix}/lib/nadzsumek python3 -c 'from nadzsumek import Farm
with Farm("{place.folder}").user("{ANN}") as it: print(it.reset(0), it.load(0, "hello"), it.collect(0, count=6))'
connect {place.folder} {ANN} -c 'look 0' --json
farm < {place.prefix}/lib/nadzsumek/examples/word-plus-one.farm | tail -n 1
echo 21f5 | lab disassemble
lab assemble < {place.prefix}/lib/nadzsumek/examples/programs/echo.s | wc -l
printf 'Ada\\n' > names; class --students names --nodes 1 one > class.told; class start one
printf 'join 0 1\\nload 0 long\\n' | connect one/farm-1 ada; class stop one; lab rows one/farm-1/records/ada.replay | tail -n 1"""
    with place.serve("--mode", "660", "--group", "farm-%u"):
        told = place.by(ANN, "bash", "-c", script).splitlines()
    assert told[:-1] == [
        "config -",
        "boot 0 17",
        'collect 0 68656c6c6f0a  "hello\\n"',
        "None Loaded(boot=16, pokes=0) b'hello\\n'",
        IDLE,
        "bob peek 0 00000000",
        "stopp",
        "1",
        "farm-1: up, 1 user",
        "config -",
        "boot 0 9",
        "farm-1: off",
    ]
    assert re.fullmatch(r".*: \d+ rows, 0 wrong", told[-1]) is not None


class Sshd:
    """A real sshd on a port of the loopback, for the keys of the accounts."""

    CONFIG = """ListenAddress 127.0.0.1:{port}
HostKey {room}/host_key
PidFile none
UsePAM no
PasswordAuthentication no
KbdInteractiveAuthentication no
AllowUsers {users}
"""

    def __init__(self, place: Place) -> None:
        self.place, self.has_made_folder = place, False
        with socket.socket() as free:
            free.bind(("127.0.0.1", 0))
            self.port = free.getsockname()[1]

    def __enter__(self) -> "Sshd":
        room = self.place.room
        self.has_made_folder = not os.path.exists(SEPARATED)
        os.makedirs(SEPARATED, mode=0o755, exist_ok=True)
        for name in ("host_key", f"key-{ANN}", f"key-{BOB}", "bound-key"):
            if not os.path.exists(f"{room}/{name}"):
                done(["ssh-keygen", "-q", "-t", "ed25519", "-N", "", "-f", f"{room}/{name}"])
        bound = f'restrict,pty,command="{self.place.prefix}/bin/connect {self.place.folder} {ANN}" '
        for name, lines in ((ANN, [("", f"key-{ANN}"), (bound, "bound-key")]), (BOB, [("", f"key-{BOB}")])):
            os.makedirs(f"{room}/{name}/.ssh", exist_ok=True)
            with open(f"{room}/{name}/.ssh/authorized_keys", "w", encoding="utf-8") as it:
                it.writelines(words + text_of(f"{room}/{key}.pub") for words, key in lines)
        with open(f"{room}/sshd_config", "w", encoding="utf-8") as it:
            it.write(self.CONFIG.format(port=self.port, room=room, users=f"{ANN} {BOB}"))
        with open(f"{room}/sshd.log", "wb") as log:
            self.process = subprocess.Popen(
                [shutil.which("sshd", path=PATH) or "sshd", "-D", "-e", "-f", f"{room}/sshd_config"],
                stdin=subprocess.DEVNULL,
                stdout=log,
                stderr=log,
            )
        end = time.monotonic() + SECONDS
        while socket.socket().connect_ex(("127.0.0.1", self.port)) != 0:
            if time.monotonic() > end or self.process.poll() is not None:
                raise AssertionError(f"sshd is not up: {text_of(f'{room}/sshd.log')}")
            time.sleep(0.02)
        return self

    def __exit__(self, *_: object) -> None:
        self.process.terminate()
        self.process.wait(timeout=SECONDS)
        if self.has_made_folder:
            os.rmdir(SEPARATED)

    def call(self, account: str, key: str, *words: str) -> list[str]:
        """A call of ssh by whoever holds this key."""
        options = (
            "IdentitiesOnly=yes",
            "BatchMode=yes",
            "StrictHostKeyChecking=no",
            "LogLevel=ERROR",
            f"UserKnownHostsFile={self.place.room}/known",
        )
        return [
            "ssh",
            *words,
            "-F",
            "none",
            "-p",
            str(self.port),
            "-i",
            f"{self.place.room}/{key}",
            *(word for it in options for word in ("-o", it)),
            f"{account}@127.0.0.1",
        ]


def test_ssh_brings_a_terminal(place: Place) -> None:
    """A key that is bound to `connect` opens a terminal, whatever the client asks for, and nothing else."""
    with place.serve("--mode", "660", "--group", "farm-%u"), Sshd(place) as sshd:
        told = done(
            [*sshd.call(ANN, "bound-key"), "id; cat /etc/passwd"], "join 0 1\nload 0 hello.s\ncollect 0\nlok\n", 1
        )
        assert sorted(told.splitlines()) == [
            "boot 0 17",
            'collect 0 68656c6c6f0a  "hello\\n"',
            "config -",
            "error: there is no verb 'lok'. Is it look? Try: look 0",
        ]
        with Screen(sshd.call(ANN, "bound-key", "-tt")) as it:
            it.until(f"{ANN}> ")
            it.line("loo\t0", ["look 0 idle overruns 0 0 0 0"])
            it.press(CONTROL_D)
            assert it.end()[1] == 0
        told = done([*sshd.call(ANN, f"key-{ANN}"), f"{place.prefix}/bin/connect", place.folder, ANN], "look 0\n")
        assert told == "look 0 idle overruns 0 0 0 0\n"
        told = done([*sshd.call(BOB, f"key-{BOB}"), f"{place.prefix}/bin/connect", place.folder, ANN], "look 0\n", 3)
        assert f"may not speak as {ANN}" in told
        assert DENIED in done(sshd.call(BOB, f"key-{ANN}"), status=255)


def forwarded(place: Place, sshd: Sshd, account: str, key: str) -> tuple[str, str]:
    """What is answered at a socket here that ssh forwards to ann's, and what ssh says."""
    here = f"{place.room}/forwarded.sock"
    call = sshd.call(
        account, key, "-N", "-o", "LogLevel=INFO", "-o", "ExitOnForwardFailure=yes", "-L", f"{here}:{place.socket(ANN)}"
    )
    with subprocess.Popen(
        call, stdin=subprocess.DEVNULL, stdout=subprocess.PIPE, stderr=subprocess.STDOUT, encoding="utf-8"
    ) as it:
        try:
            end = time.monotonic() + SECONDS
            while not os.path.exists(here) and time.monotonic() < end and it.poll() is None:
                time.sleep(0.02)
            assert os.stat(here).st_mode & 0o777 == 0o600
            told = done(["nc.openbsd", "-U", "-N", here], "look 0\n", status=None)
            again = done([f"{place.prefix}/bin/connect", place.room, "forwarded"], "look 0\n", status=None)
            assert again == told or "the farm has ended the connection" in again
        finally:
            it.terminate()
            said = it.communicate(timeout=SECONDS)[0]
            if os.path.exists(here):
                os.remove(here)
    return told, said


def test_ssh_forwards_a_socket(place: Place) -> None:
    """`ssh -L` brings a socket here with the rights of the account there."""
    with place.serve("--mode", "660", "--group", "farm-%u"), Sshd(place) as sshd:
        told, said = forwarded(place, sshd, ANN, f"key-{ANN}")
        assert (told, "open failed" in said) == (BOOTING, False)
        for account, key in ((BOB, f"key-{BOB}"), (ANN, "bound-key")):
            told, said = forwarded(place, sshd, account, key)
            assert (told, "open failed" in said) == ("", True)


# How exposed a unit may be, in tenths of systemd's ten points.
MOST_EXPOSED = 15
EXPOSED = re.compile(r"exposure level for \S+: (\d+\.\d)")


def said_of_unit(folder: str, name: str, unit: str) -> tuple[str, bool, float | None]:
    """What systemd says of a unit, whether it may be so exposed, and how exposed it is."""
    path = put(f"{folder}/{name}", unit)
    told = done(["systemd-analyze", "verify", "--man=no", path], status=None)
    call = [
        "systemd-analyze",
        "security",
        "--offline=true",
        "--no-pager",
        f"--threshold={MOST_EXPOSED}",
        path,
    ]
    looked = subprocess.run(call, capture_output=True, encoding="utf-8", timeout=SECONDS, check=False)
    exposed = EXPOSED.search(looked.stdout)
    return told, looked.returncode == 0, float(exposed[1]) if exposed else None


# What is taken out of a unit or put into it, and whether systemd finds a mistake, or that it is too exposed.
MISTAKES = (
    ("ExecStart=", "ExecStart=/nowhere", True, False),
    ("KillMode=", "KillMood=", True, False),
    ("\nCapabilityBoundingSet=\n", "\n", False, True),
)


def test_units_are_right(place: Place) -> None:
    """What systemd says of the units, which aren't started, and of such with a mistake, so that it is seen to look. What both
    units have is the same."""
    folder, told, common = f"{place.room}/units", [], []
    os.mkdir(folder)
    for name in ("farm@.service", "class@.service"):
        unit = text_of(f"{place.prefix}/share/nadzsumek/{name}")
        said, fits, exposed = said_of_unit(folder, name, unit)
        assert exposed is not None, said
        assert (name, said, fits, exposed * 10 <= MOST_EXPOSED) == (name, "", True, True)
        told.append(f"{name} {exposed}")
        for part, other, is_mistake, is_exposed in MISTAKES:
            assert unit.count(part) == 1
            said, fits, _ = said_of_unit(folder, name, unit.replace(part, other))
            assert (name, part, bool(said), is_exposed and fits) == (name, part, is_mistake, False)
        lines = unit.partition("[Service]")[2].splitlines()
        common.append(
            [
                it
                for it in lines
                if not re.search(
                    "%[if]|MemoryMax|/home|ROOMS|^# What each domain may take|^# The pages of the class", it
                )
            ]
        )
        for part in (" --sync ", "\nMemoryMax=", "\nOOMPolicy=continue\n"):
            assert (part, part in unit) == (part, True)
    assert common[0] == common[1]


# Where the installed commands are in a machine of its own.
THERE = "/opt/nadzsumek"
LOOK = "look 0\n"


def test_units_keep_farms(place: Place) -> None:
    """The units by a real systemd, in a container of its own: who may speak, what the processes may do, what is started again
    when it was killed, what is stopped, and what is there after the next boot."""
    try:
        with Booted(place.room, {place.prefix: THERE}) as machine:
            for name in ("farm@.service", "class@.service"):
                with open(f"{place.prefix}/share/nadzsumek/{name}", encoding="utf-8") as it:
                    unit = it.read().replace(place.prefix, THERE).replace("User=farm", f"User={FARM}")
                with open(f"{machine.root}/etc/systemd/system/{name}", "w", encoding="utf-8") as it:
                    it.write(unit.replace("RestartSec=60", "RestartSec=1"))
            os.mkdir(f"{machine.root}/etc/nadzsumek")
            shutil.copy(place.plan, f"{machine.root}/etc/nadzsumek/lab.toml")
            machine.must("systemctl", "daemon-reload")
            one_farm_is_kept(machine)
            a_class_is_kept(machine)
            machine.halt()
            machine.boot()
            told = machine.until(*by_user(ANN, "/srv/course/farm-1", ANN), text=LOOK)
            assert told == "look 0 idle overruns 0 0 0 0\n"
            assert machine.call("systemctl", "is-active", "farm@lab")[1] == "inactive\n"
    except NotBooted as error:
        pytest.skip(f"{error}")


def by_user(account: str, folder: str, name: str) -> list[str]:
    """A terminal in the other machine, by this account."""
    return ["runuser", "-u", account, "--", f"{THERE}/bin/connect", folder, name]


def one_farm_is_kept(machine: Booted) -> None:
    """The farm of a plan, whose folder the system makes."""
    folder = "/var/lib/nadzsumek/lab"
    machine.must("systemctl", "start", "farm@lab")
    machine.until(*by_user(ANN, folder, ANN), text=LOOK, starts=BOOTING)
    assert machine.call(*by_user(BOB, folder, BOB), text=LOOK) == (0, BOOTING)
    for account, name in ((ANN, BOB), (BOB, ANN), (ANN, "operator")):
        status, told = machine.call(*by_user(account, folder, name), text=LOOK)
        assert (account, name, status, "may not speak" in told) == (account, name, 3, True)
    rows = {
        f"{ANN}.sock": f"{group_of(ANN)} 660",
        f"{BOB}.sock": f"{group_of(BOB)} 660",
        "operator.sock": f"{FARM} 600",
        "records": f"{FARM} 700",
    }
    assert machine.must("stat", "-c", "%U %G %a", *(f"{folder}/{it}" for it in rows)) == "".join(
        f"{FARM} {it}\n" for it in rows.values()
    )
    serve = machine.must("cat", f"{folder}/lock").strip()
    may_do_little(machine, serve)
    live = machine.must("cat", f"/proc/{serve}/task/{serve}/children").strip()
    for number in (live, serve):
        machine.must("kill", "-9", number)
        machine.until(*by_user(ANN, folder, ANN), text=LOOK, starts=BOOTING)
    assert machine.must("cat", f"{folder}/lock").strip() != serve
    machine.must("systemctl", "stop", "farm@lab")
    assert machine.must("ls", folder) == "lock\nplan\nrecords\n"
    assert machine.must("systemctl", "show", "-p", "Result", "farm@lab") == "Result=success\n"


def may_do_little(machine: Booted, number: str) -> None:
    """What a process of a farm can't do."""
    status = machine.must("cat", f"/proc/{number}/status")
    rows = dict(line.split(":", 1) for line in status.splitlines())
    assert [rows[it].strip() for it in ("NoNewPrivs", "Seccomp", "CapBnd")] == ["1", "2", "0" * 16]
    inside = ["nsenter", "-t", number, "-m", "-n"]
    for path in ("/etc/new", "/var/lib/nadzsumek/new", "/opt/new"):
        assert (path, "Read-only file system" in machine.call(*inside, "touch", path)[1]) == (path, True)
    assert machine.must(*inside, "python3", "-c", "import socket; print(socket.if_nameindex())") == "[(1, 'lo')]\n"
    assert machine.must(*inside, "ls", "-A", "/home", "/root") == "/home:\n\n/root:\n"


def a_class_is_kept(machine: Booted) -> None:
    """The farms of a class, each by a unit of its own, which are enabled."""
    machine.must("install", "--directory", "--owner", FARM, "--group", FARM, "/srv/course")
    machine.must("sh", "-c", f"printf '{ANN}\n{BOB}\n' > /srv/names.txt")
    machine.must(
        "runuser",
        "-u",
        FARM,
        "--",
        f"{THERE}/bin/class",
        "--students",
        "/srv/names.txt",
        "--nodes",
        "8",
        "--mode",
        "660",
        "--group",
        "farm-%u",
        "--room",
        "32M",
        "/srv/course",
    )
    units = [
        machine.must("systemd-escape", "--template", "class@.service", "--path", f"/srv/course/{farm}").strip()
        for farm in ("farm-1", "farm-2")
    ]
    for unit in units:
        machine.must("systemctl", "enable", "--now", unit)
    for farm, name in (("farm-1", ANN), ("farm-2", BOB)):
        told = machine.until(*by_user(name, f"/srv/course/{farm}", name), text="join 0 16\nboot 0 21f5\nlook 0\n")
        assert told == "config -\nboot 0 3\nlook 0 idle overruns 0 0 0 0\n"
    rows = machine.must("runuser", "-u", FARM, "--", f"{THERE}/bin/class", "status", "/srv/course").splitlines()[1:3]
    assert [row.split()[7] for row in rows] == ["quiet", "quiet"]
    # what is kept of the class is what runs
    for farm in ("farm-1", "farm-2"):
        serve = machine.must("cat", f"/srv/course/{farm}/lock").strip()
        words = machine.must("cat", f"/proc/{serve}/cmdline").split("\0")
        assert [words[words.index(it) + 1] for it in ("--mode", "--group", "--room", "--record-room")] == [
            "660",
            "farm-%u",
            "32M",
            "256M",
        ]
    stopped = machine.must("runuser", "-u", FARM, "--", f"{THERE}/bin/class", "stop", "/srv/course")
    assert stopped == "farm-1: off\nfarm-2: off\n"
    machine.until("sh", "-c", f"systemctl is-active '{units[0]}' '{units[1]}' || true", starts="inactive\ninactive\n")
