"""The folder of a farm that is served: its lock, its records and its sockets."""

from __future__ import annotations

import argparse
import contextlib
import fcntl
import grp
import os
import pwd
import re
import shlex
import shutil
import socket
import stat
import struct
import subprocess
import time
from typing import Any

import tomllib

TOP = os.path.dirname(os.path.dirname(os.path.dirname(os.path.abspath(__file__))))
# Whoever runs a program here says himself whether it is proved, so the programs' own commands don't.
os.environ["NADZSUMEK_QUIET"] = "yes"
# The folders of examples that can be loaded, each with the ending of their names.
EXAMPLES = {".s": os.path.join(TOP, "examples", "programs"), ".occ": os.path.join(TOP, "examples", "occam")}
# The word by which `serve` and `class` refuse what isn't proved, and the variable by which each command does.
PROVED, REFUSING = "--proved", "NADZSUMEK_PROVED"
OPERATOR = "operator"
# What a farm tells whoever connects, if its program isn't known to be proved.
NOT_PROVED = "note: the program of this farm isn't proved yet"
# The plan of the farm, which is copied at the first start.
PLAN = "plan"
# What is kept of a class, in the folder above those of its farms.
CLASS = "class.json"
# The folder of what is put into its place by an order of a class, and of what is taken back: see replacement.py. As long as one of
# them is there, some files of the class are as before an order and others as after it.
CLASS_READY, CLASS_BACK = "class.ready", "class.back"
# What a `class` locks that changes a class, or starts and stops its farms. No other account can open it.
CLASS_LOCK = "class.lock"
# What the `serve` of a farm of a class says, in the folder of the farm.
LOG = "serve.log"
# A lock of a whole file for one process alone, as `fcntl` reads and writes it: its kind, from where its bytes are counted,
# its first byte, how many bytes there are (0: all), and the number of the process.
LOCK = struct.Struct("@hhqqi4x")
# How long a folder is waited for that another process has, as it does while it ends.
LOCK_SECONDS = 1
# The modes of a folder that `serve` makes, of the plan's copy, and of folders and files for its own account alone.
FOLDER_MODE, COPY_MODE, OWN_MODE, OWN_FILE = 0o755, 0o644, 0o700, 0o600
OTHERS_WRITE = 0o022
# As many bytes as the path of a socket may have.
MOST_PATH = 107
# Stands for a user's name in the name of a group.
USER_HERE = "%u"


class Refused(Exception):
    """What can't be done, and what to do about it."""


def program(name: str) -> str:
    """The path of a program: that of the variable with its name in capitals (LIVE), or else the command at the top. The lab is run
    by its command in any case, which starts the program at LAB, if that is set, with the front end of occam beside it.
    """
    own = (given_path(name) if name != "lab" else None) or os.path.join(TOP, name)
    # a package that pip has installed has no commands beside it
    return os.path.abspath(own if os.path.exists(own) else shutil.which(name) or own)


def add_proved(parser: argparse.ArgumentParser) -> None:
    """Lets a command take the word by which it runs no program that isn't known to be proved."""
    parser.add_argument(PROVED, action="store_true", help="no program is run that isn't known to be proved")


def refuse_unproved() -> None:
    """Has this command, and each that it starts, refuse what isn't known to be proved."""
    os.environ[REFUSING] = "yes"


def given_path(name: str) -> str | None:
    """The program that a variable names; none if what isn't proved is to be refused."""
    return None if os.environ.get(REFUSING) else os.environ.get(name.upper())


def start_says(*words: str, stderr: int | None = None) -> bool:
    """Whether tools/start has status 0."""
    call = [os.path.join(TOP, "tools", "start"), *words]
    if not os.path.exists(call[0]):
        # the commands in the path start what they have, and say themselves whether that is proved
        return words[0] != "--is-built" and all(shutil.which(it) for it in words[-1:])
    null = subprocess.DEVNULL
    return subprocess.run(call, stdin=null, stdout=null, stderr=stderr, check=False).returncode == 0


def is_proved(name: str) -> bool:
    """Whether a program is known to be proved, or a variable names one, which is taken as it is."""
    return bool(given_path(name)) or start_says("--is-built", name, stderr=subprocess.DEVNULL)


def is_built(name: str) -> bool:
    """Whether a program can be run at once."""
    return is_proved(name) or start_says("--is-ready", name)


def build(command: str, *names: str) -> None:
    """Sees that a command can run these programs. Those that aren't proved are built without a proof, and that is said."""
    left = [it for it in names if not is_proved(it)]
    if left and not start_says("--ready", command, *left):
        raise Refused(f"{' and '.join(left)} can't be run: see above")


def socket_path(folder: str, name: str) -> str:
    """The path of a user's socket, or of the operator's."""
    path = os.path.join(folder, f"{name}.sock")
    if len(os.fsencode(path)) > MOST_PATH:
        raise Refused(f"the path {path} is longer than {MOST_PATH} bytes: choose a folder with a shorter path")
    return path


def users_of(folder: str) -> list[str]:
    """The users who have sockets in a folder, sorted, without the operator."""
    return sorted({it[:-5] for it in os.listdir(folder) if it.endswith(".sock")} - {OPERATOR})


def no_socket(folder: str, name: str) -> str:
    """Why there is no socket of this name, and what to do."""
    if not os.path.isdir(folder):
        return f"there is no folder {folder}: give the folder of the farm, as serve PLAN DIR has it"
    try:
        there = sorted(it[:-5] for it in os.listdir(folder) if it.endswith(".sock"))
    except PermissionError:
        return f"there is no socket of {name} in {folder}: is the farm up, and is this the user's name?"
    if there:
        return f"there is no socket of {name} in {folder}: there are {', '.join(there)}"
    above = os.path.dirname(os.path.abspath(folder))
    how = (
        f"class start {shlex.quote(above)} starts it"
        if os.path.isfile(os.path.join(above, CLASS))
        else f"start it by serve PLAN {folder}"
    )
    return f"no farm is up in {folder}: {how}"


def no_right(folder: str, name: str) -> str:
    """Why this account can't open the socket of this name, and what to do."""
    me, told = account_name(os.geteuid()), "ask the operator (serve --mode, --group)"
    try:
        it = os.stat(os.path.join(folder, f"{name}.sock"))
    except OSError:
        return f"this account ({me}) may not enter the folder {folder}: ask the operator for its mode"
    owner, whose = f"the account {account_name(it.st_uid)}", f"this account ({me}) may not speak as {name}"
    if not it.st_mode & stat.S_IWGRP:
        return f"{whose}: the socket is for {owner} alone. If it is yours, {told}"
    group = group_name(it.st_gid)
    if me in group.gr_mem and it.st_gid not in os.getgroups():
        return f"{whose} yet: it came into the group {group.gr_name} after it had logged in. Log in again"
    return f"{whose}: the socket is for {owner} and the group {group.gr_name}. If it is yours, {told}"


def account_name(number: int) -> str:
    try:
        return pwd.getpwuid(number).pw_name
    except KeyError:
        return str(number)


def group_name(number: int) -> grp.struct_group:
    """A group with its members, also if it has no name."""
    try:
        return grp.getgrgid(number)
    except KeyError:
        return grp.struct_group((str(number), "", number, []))


def holder(folder: str) -> int | None:
    """The number of the process that serves the folder at present; none if there is none. To look at the lock takes no
    lock."""
    return holder_of(os.path.join(folder, "lock"))


def holder_of(path: str) -> int | None:
    """The number of the process that has locked a file; none if there is none."""
    try:
        file = os.open(path, os.O_RDONLY | os.O_NOFOLLOW)
    except FileNotFoundError:
        return None
    except PermissionError:
        raise Refused(
            f"this account ({account_name(os.geteuid())}) may not see who has {os.path.dirname(path)}: "
            f"ask the account that started the farm there"
        ) from None
    try:
        return locker(file)
    finally:
        os.close(file)


def locker(file: int) -> int | None:
    """The number of another process that has locked an open file; none if there is none."""
    kind, *_, number = LOCK.unpack(fcntl.fcntl(file, fcntl.F_GETLK, LOCK.pack(fcntl.F_WRLCK, os.SEEK_SET, 0, 0, 0)))
    return None if kind == fcntl.F_UNLCK else number


def is_locked(folder: str) -> bool:
    """Whether a `serve` has the folder at present."""
    return holder(folder) is not None


def was_stopped(folder: str) -> bool:
    """Whether the last `serve` of a folder ended since it was stopped, or since its folder was removed."""
    try:
        return os.path.getsize(os.path.join(folder, "lock")) == 0
    except FileNotFoundError:
        return True


def made(path: str, mode: int) -> list[str]:
    """Makes a folder with this mode, whatever the mask of the process is, and the folders above it. Which were made, the
    lowest last."""
    above = [] if os.path.isdir(os.path.dirname(path)) else made(os.path.dirname(path), FOLDER_MODE)
    try:
        os.mkdir(path)
    except FileExistsError:
        return above
    os.chmod(path, mode)
    return [*above, path]


def check_own(path: str) -> None:
    """Refuses a folder that is a link or another account's, or in which others may write: they could put anything in the
    place of what is in it."""
    it = os.lstat(path)
    if not stat.S_ISDIR(it.st_mode):
        raise Refused(f"{path} is no folder: choose another")
    if it.st_uid != os.geteuid():
        raise Refused(
            f"{path} belongs to the account {account_name(it.st_uid)}, and this is {account_name(os.geteuid())}: do "
            f"this as that account, or choose another folder"
        )
    if it.st_mode & OTHERS_WRITE:
        raise Refused(f"other accounts may write in {path}: chmod go-w {path} forbids it, or choose another folder")


def check_own_file(path: str) -> None:
    """Refuses a file that is a link or another account's, or that others may write: it isn't what this account wrote."""
    it = os.lstat(path)
    if not stat.S_ISREG(it.st_mode):
        raise Refused(f"{path} is no file of its own: put a copy of the file in its place")
    if it.st_uid != os.geteuid():
        raise Refused(
            f"{path} belongs to the account {account_name(it.st_uid)}, and this is {account_name(os.geteuid())}: do "
            f"this as that account"
        )
    if it.st_mode & OTHERS_WRITE:
        raise Refused(f"other accounts may write {path}: look at what it says, and then chmod go-w {path} forbids it")


def is_half_done(course: str) -> bool:
    """Whether some files of a class are as before an order and others as after it."""
    return any(os.path.exists(os.path.join(course, it)) for it in (CLASS_READY, CLASS_BACK))


def check_whole(course: str) -> None:
    """Refuses a farm of a class of which an order is half done: its plan and its records may not fit."""
    if is_half_done(course):
        raise Refused(
            f"an order of the class in {course} was cut short: class start {shlex.quote(course)} ends it first"
        )


def own_plan(farm: str) -> str:
    """The path of the plan of a farm of a class, which nobody else can have written."""
    path = os.path.join(farm, "plan.toml")
    check_own(farm)
    check_own_file(path)
    return path


def new_file(path: str, mode: int | None) -> int:
    """A new file that is open to be written and read, in place of what was there. No link is followed. Without a mode it has
    the one that is usual."""
    with contextlib.suppress(FileNotFoundError):
        os.unlink(path)
    file = os.open(path, os.O_RDWR | os.O_CREAT | os.O_EXCL | os.O_NOFOLLOW, 0o666 if mode is None else OWN_FILE)
    if mode is not None:
        os.fchmod(file, mode)
    return file


def put_whole(path: str, content: bytes, mode: int | None) -> None:
    """Writes a file anew. An earlier one is there until the new one is whole."""
    with open(new_file(f"{path}.new", mode), "wb") as it:
        it.write(content)
    os.replace(f"{path}.new", path)


def sync(path: str) -> None:
    """Sees that the names in a folder are on the disk."""
    file = os.open(path, os.O_RDONLY | os.O_DIRECTORY)
    try:
        os.fsync(file)
    finally:
        os.close(file)


def contents(path: str) -> bytes:
    with open(path, "rb") as it:
        return it.read()


def meaning(plan: bytes) -> dict[str, Any] | bytes:
    """What a plan says, if it is TOML: two plans that differ in comments and blanks alone are the same."""
    try:
        return tomllib.loads(plan.decode())
    except ValueError:
        return plan


class Folder:
    """A folder that this process has for itself until it ends."""

    def __init__(self, path: str, syncs: bool = False) -> None:
        self.path = os.path.abspath(path)
        self.records, self.plan = os.path.join(self.path, "records"), os.path.join(self.path, PLAN)
        self.sockets: dict[str, int] = {}
        self.is_first = False
        try:
            new = made(self.path, FOLDER_MODE)
            check_own(self.path)
            self.lock()
            check_whole(os.path.dirname(self.path))
            new += made(self.records, OWN_MODE)
        except (FileExistsError, NotADirectoryError):
            raise Refused(f"{self.path} is no folder, and can't be made: choose another") from None
        except PermissionError:
            raise Refused(
                f"this account ({account_name(os.geteuid())}) may not write in {self.path}: choose another folder, or "
                f"let the operator give it to this account"
            ) from None
        except OSError as error:
            raise Refused(f"{error.filename or self.path}: {error.strerror}") from None
        check_own(self.records)
        for it in new if syncs else ():
            sync(os.path.dirname(it))

    def lock(self) -> None:
        """Locks the folder, and leaves the number of this process in the lock's file. A link isn't followed."""
        path = os.path.join(self.path, "lock")
        try:
            self.file = os.open(path, os.O_RDWR | os.O_CREAT | os.O_NOFOLLOW, 0o600)
        except PermissionError:
            raise
        except OSError as error:
            raise Refused(f"{path}: {error.strerror}: it is to be a file of serve's own, so remove it first") from None
        end = time.monotonic() + LOCK_SECONDS
        while True:
            try:
                fcntl.lockf(self.file, fcntl.LOCK_EX | fcntl.LOCK_NB)
                break
            except OSError:
                if time.monotonic() > end:
                    raise Refused(
                        f"{self.path} is served already, by process {holder(self.path)}: use its sockets, or stop it "
                        f"first"
                    ) from None
                time.sleep(0.05)
        os.ftruncate(self.file, 0)
        os.pwrite(self.file, f"{os.getpid()}\n".encode(), 0)

    def is_removed(self) -> bool:
        """Whether somebody has removed the folder, with the file of the lock. A folder that is moved has it still."""
        return os.fstat(self.file).st_nlink == 0

    def mark_stopped(self) -> None:
        """Lets who looks at the lock's file see that this process ends since it was stopped."""
        os.ftruncate(self.file, 0)

    def plan_to_run(self, given: str) -> str:
        """The path of the plan that the farm runs: at its first start a copy of the one that is given, and then always this
        copy. A plan that says something else is refused."""
        plan = contents(given)
        try:
            kept = None if os.path.islink(self.plan) else contents(self.plan)
        except FileNotFoundError:
            kept = None
        if kept is not None:
            check_own_file(self.plan)
        self.is_first = kept is None
        if kept is not None and meaning(kept) != meaning(plan):
            raise Refused(
                f"the plan {given} isn't the one that this farm runs, which is {self.plan}. To go on as before: cp "
                f"{self.plan} {given}. To run the new plan from now on: cp {given} {self.plan}; then the users whose "
                f"part is the same keep what they have, and the records of others are refused"
            )
        if not self.is_first:
            return self.plan
        path = f"{self.plan}.new"
        with open(new_file(path, COPY_MODE), "wb") as it:
            it.write(plan)
            os.fsync(it.fileno())
        return path

    def keep_plan(self) -> None:
        """Keeps the copy that `live` has accepted."""
        if self.is_first:
            os.replace(f"{self.plan}.new", self.plan)
            sync(self.path)
            self.is_first = False

    def remove_new_plan(self) -> None:
        """Removes a copy that `live` hasn't accepted."""
        if self.is_first:
            with contextlib.suppress(FileNotFoundError):
                os.unlink(f"{self.plan}.new")

    def remove_sockets(self) -> None:
        """Removes the sockets that this process has made, if they are there still."""
        for path, made_as in self.sockets.items():
            with contextlib.suppress(OSError):
                if os.lstat(path).st_ino == made_as:
                    os.unlink(path)

    def remove_dead(self, path: str) -> None:
        """Removes the socket that a killed `serve` left at this path. Nothing else is removed: not one behind which
        somebody listens, and no file."""
        try:
            it = os.lstat(path)
        except FileNotFoundError:
            return
        if not stat.S_ISSOCK(it.st_mode):
            raise Refused(f"{path} is there and no socket: a user's socket is to be there, so move it away")
        with socket.socket(socket.AF_UNIX, socket.SOCK_STREAM) as one:
            one.settimeout(LOCK_SECONDS)
            try:
                one.connect(path)
            except ConnectionRefusedError:
                os.unlink(path)
                return
            except OSError:
                pass
        raise Refused(f"another program listens at {path}: stop it, or choose another folder")

    def listen(self, name: str, mode: int, group: int | None) -> socket.socket:
        """The socket of this name. Until it has its mode and its group, no other account can open it."""
        path = socket_path(self.path, name)
        self.remove_dead(path)
        one = socket.socket(socket.AF_UNIX, socket.SOCK_STREAM)
        before = os.umask(0o177)
        try:
            one.bind(path)
        finally:
            os.umask(before)
        self.sockets[path] = os.lstat(path).st_ino
        if group is not None:
            os.chown(path, -1, group)
        os.chmod(path, mode)
        one.setblocking(False)
        return one


def mode_of(word: str) -> int:
    if not re.fullmatch(r"0?[0-7]{3}", word):
        raise argparse.ArgumentTypeError("three octal digits are wanted, such as 660")
    return int(word, 8)


def group_number(pattern: str, user: str) -> int:
    """The number of the group of a user's socket. A number is taken for a group's only if it was given as it is: a name that
    was made of the user's is never taken for a number."""
    name = pattern.replace(USER_HERE, user)
    try:
        return grp.getgrnam(name).gr_gid
    except KeyError:
        if USER_HERE not in pattern and re.fullmatch("[0-9]+", name):
            return int(name)
        raise Refused(f"there is no group {name}: make it (groupadd {name}), or leave --group out") from None
