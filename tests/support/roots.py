"""Roots of their own, in which packages are installed: as their root, and used by an account without rights.

A root is in namespaces of a child of this process: no other process sees it, what is written there goes to memory, and all is gone
when the child ends, also the processes that it has begun. None of the machine's devices are in it but those that programs always have, and it has no network."""

import ctypes
import os
import re
import shutil
import stat
import subprocess
import sys
import traceback
from collections.abc import Callable, Sequence

import pytest

# What the account of the trials has in its environment: no folder of a toolchain is among these.
PATH = "/usr/bin:/bin"
MOST_SECONDS = 600
# Where the root is, for this process alone, and the devices that are in it.
LAYER = "/mnt"
DEVICES = {"null": (1, 3), "zero": (1, 5), "random": (1, 8), "urandom": (1, 9), "tty": (5, 0)}
CLONE_NEWNS, CLONE_NEWPID, CLONE_NEWNET = 0x20000, 0x20000000, 0x40000000
WANTED = ("dpkg", "unshare", "chroot", "mount")
# What no page of an installation says: how a command is called at the top of a clone, and what is built there.
UNTRUE = re.compile(
    r"(?<![\w/])\./(?:farm|live|lab|serve|connect|class)\b|top of the repository|proves and builds the program before|Before the proof a command"
)
# Where the package manager and the system keep what they know and have done.
KEPT = ("var/lib/dpkg", "var/lib/apt", "var/log", "var/cache", "var/backups", "run", "tmp", "dev", "proc", "home")


def done(call: Sequence[str], text: str = "", env: dict[str, str] | None = None) -> str:
    """What a call prints on both streams; it must end with status 0."""
    it = subprocess.run(
        call,
        input=text,
        stdout=subprocess.PIPE,
        stderr=subprocess.STDOUT,
        encoding="utf-8",
        errors="replace",
        timeout=MOST_SECONDS,
        env=env,
        check=False,
    )
    assert it.returncode == 0, f"{' '.join(call)}: status {it.returncode}, {it.stdout}"
    return it.stdout


def why_no_root() -> str | None:
    """Why there can be no root of its own here, if that is so."""
    if os.getuid() != 0:
        return "this isn't root"
    if lacking := [it for it in WANTED if not shutil.which(it)]:
        return f"there is no {', '.join(lacking)}"
    script = (
        f"cd {LAYER} && mount -t tmpfs tmpfs {LAYER} && cd {LAYER} && mkdir u w m && "
        "mount -t overlay overlay -o lowerdir=/,upperdir=u,workdir=w m"
    )
    tried = subprocess.run(
        ["unshare", "--mount", "--net", "--propagation", "private", "sh", "-c", script],
        capture_output=True,
        check=False,
    )
    return None if tried.returncode == 0 else "there is no right to mount"


class Root:
    """A root below LAYER with an account. Whoever makes a kind of it puts its files there by `fill`."""

    path = f"{LAYER}/root"

    def __init__(self, account: str) -> None:
        self.account = account
        # no folder that is removed at the end has a mount in it
        done(["mount", "-t", "tmpfs", "tmpfs", LAYER])
        os.mkdir(self.path)
        self.fill()
        for it in ("dev", "tmp", "run"):
            done(["mount", "-t", "tmpfs", "tmpfs", f"{self.path}/{it}"])
        done(["mount", "-t", "proc", "proc", f"{self.path}/proc"])
        os.chmod(f"{self.path}/tmp", 0o1777)
        for name, number in DEVICES.items():
            os.mknod(f"{self.path}/dev/{name}", 0o666 | stat.S_IFCHR, os.makedev(*number))
            os.chmod(f"{self.path}/dev/{name}", 0o666)
        os.symlink("/proc/self/fd", f"{self.path}/dev/fd")
        self.by_root("useradd", "--create-home", "--shell", "/bin/bash", account)

    def fill(self) -> None:
        """Puts the files there."""
        raise NotImplementedError

    def by_root(self, *words: str) -> str:
        variables = ["PATH=/usr/sbin:/usr/bin:/sbin:/bin", "DEBIAN_FRONTEND=noninteractive"]
        return done(["chroot", self.path, "env", "-i", *variables, *words])

    def call(self, *words: str) -> list[str]:
        """A call by the account."""
        rights = ["setpriv", f"--reuid={self.account}", f"--regid={self.account}", "--init-groups"]
        variables = [f"PATH={PATH}", f"HOME=/home/{self.account}", f"USER={self.account}", "LANG=C.UTF-8", "TERM=xterm"]
        return ["chroot", self.path, *rights, "env", "-i", *variables, "bash", "-c", 'cd; exec "$@"', "bash", *words]

    def by(self, *words: str, text: str = "") -> str:
        return done(self.call(*words), text)

    def shell(self, script: str, text: str = "") -> str:
        return self.by("bash", "-c", f"set -e; {script}", text=text)


def in_a_root(act: Callable[[], None]) -> None:
    """Does something in a child that has mounts and processes of its own, which no other process sees and which go with it."""
    if lacking := why_no_root():
        pytest.skip(f"the packages weren't installed, since {lacking}")

    def separate() -> None:
        assert ctypes.CDLL(None).unshare(CLONE_NEWNS | CLONE_NEWNET | CLONE_NEWPID) == 0
        done_by_a_child(act_alone)

    def act_alone() -> None:
        done(["mount", "--make-rprivate", "/"])
        done(["mount", "-t", "proc", "proc", "/proc"])
        act()

    sys.stdout.flush()
    done_by_a_child(separate)


def done_by_a_child(act: Callable[[], None]) -> None:
    """Does something in a child; it must go well there. The first child after new namespaces is the first process in them."""
    child = os.fork()
    if child == 0:
        status = 1
        try:
            act()
            status = 0
        except BaseException:
            traceback.print_exc()
        finally:
            sys.stdout.flush()
            sys.stderr.flush()
            os._exit(status)
    assert os.waitpid(child, 0)[1] == 0, "the child says above what is wrong"
