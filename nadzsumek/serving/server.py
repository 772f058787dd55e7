"""The sockets of a farm that stays up, round one `live`."""

from __future__ import annotations

import argparse
import asyncio
import contextlib
import logging
import os
import re
import resource
import signal
import socket
import struct
import subprocess
import sys
from typing import TYPE_CHECKING

from ..course.questions import Course
from . import running
from .accepting import accept
from .backlogs import MOST_OF_USER
from .escapes import escaped
from .folder import (
    NOT_PROVED,
    OPERATOR,
    Folder,
    Refused,
    account_name,
    add_proved,
    build,
    group_number,
    is_built,
    is_proved,
    mode_of,
    program,
    refuse_unproved,
    socket_path,
)
from .replays import REPLAYED, REPLAYING, Replay
from .own_record import Given
from .ports import Wiring, found_in, ports_told, users_in, wiring_in
from .reports import Reports, open_streams
from .rooms import RECORD_ROOM, ROOM, Needed, add_bounds, bounds_in, words_of_bounds
from .rooms import shown as shown_size
from .speakers import UNANSWERED, Asked, Client, Operator, Speaker, shown, without_tag
from .versions import add_version
from .watching import Watches

if TYPE_CHECKING:
    from .running import Live
    from .speakers import Asked

# How long a farm may take to answer what waits when it is stopped.
STOP_SECONDS = 60
# How long `live` may answer nothing unless another time is given, and how often it is asked meanwhile.
PATIENCE, WATCHES = 30, 3
# How often it is looked whether the folder is still there.
LOOK_SECONDS = 2
# How long `lab plan` may take.
LAB_SECONDS = 10
# The status after a stop if `live` ended with a fault, as it does if a record isn't whole.
STOPPED_BADLY = 3
# The status of the lab if a plan is refused.
REFUSED_PLAN = 3
# So many connections wait before a socket.
MOST_WAITING = 128
# Clients of 64 users need so many open files at most.
MOST_FILES = 4096
# What a user may be called.
NAME = re.compile(r"[a-z0-9-]{1,32}", re.ASCII)
# Who is at the other end of a socket, as the system says it: the numbers of a process, an account and a group.
PEER = struct.Struct("@3i")


class Server:
    """A farm, its speakers and their sockets."""

    def __init__(self, words: argparse.Namespace, reports: Reports) -> None:
        self.words, self.reports, self.folder = words, reports, Folder(words.DIR, words.sync)
        self.plan = self.folder.plan_to_run(words.PLAN)
        self.live: running.Live | None = None
        self.is_up, self.is_stopping, self.is_proved = False, False, True
        # set while lines are handed on, or refused since the farm is stopped
        self.goes = asyncio.Event()
        self.starts, self.replays = running.Starts(), dict[str, Replay]()
        # those of whom it is known that nothing of theirs is replayed
        self.are_entered: set[str] = set()
        self.speakers: dict[str, Speaker] = {}
        self.operator: Operator
        self.accepting: list[asyncio.Task[None]] = []
        self.wirings: dict[str, Wiring] = {}
        self.course = Course(self.folder.path)
        self.watches = Watches(self)
        self.given = Given(self.folder.records, lambda: self.plan)

    def current_live(self) -> running.Live:
        """The run of `live` that is there once the farm is up."""
        assert self.live, "it was begun"
        return self.live

    def prepare(self) -> None:
        """Takes the sockets away that a killed `serve` has left, and sees that each user has his group. A plan that can't be
        read is left to `live`. If it can be, the sockets are opened at once: when that is must not show how long anybody's
        record is."""
        names = [name for users in users_in(self.plan) for name in users]
        for name in [*names, OPERATOR]:
            with contextlib.suppress(Refused):
                self.folder.remove_dead(socket_path(self.folder.path, name))
        self.groups_of(names)
        if names and OPERATOR not in names and all(NAME.fullmatch(it) for it in names):
            self.open(names)

    def groups_of(self, users: list[str]) -> list[int | None]:
        """The number of the group of each user's socket; none if no group was given."""
        it = self.words.group
        return [None if it is None else group_number(it, name) for name in users]

    def call(self) -> list[str]:
        """The words of `live`."""
        it = self.words
        more = [
            word
            for name in ("workers", "quantum")
            if (value := getattr(it, name)) is not None
            for word in (f"--{name}", str(value))
        ]
        # a bound that isn't given is left to `live`
        more += words_of_bounds(bounds_in(it))
        more += ["--sync"] if it.sync else []
        return [program("live"), *more, "--record", self.folder.records, "--resume", self.plan]

    def open(self, users: list[str]) -> None:
        """A socket for each user and for the operator. No socket is there before it is known that each has its group."""
        if OPERATOR in users:
            raise Refused(
                f"a user is called {OPERATOR}, as the operator's socket is: give him another name in the plan"
            )
        groups = self.groups_of(users)
        self.speakers = {name: Speaker(name) for name in users}
        self.operator = Operator(OPERATOR, len(users), "" if self.is_proved else NOT_PROVED)
        self.speakers[OPERATOR] = self.operator
        for speaker, group in zip(self.speakers.values(), groups):
            self.open_socket(speaker, self.words.mode, group)
        self.open_socket(self.speakers[OPERATOR], 0o600, None)

    def open_socket(self, speaker: Speaker, mode: int, group: int | None) -> None:
        async def serve(reader: asyncio.StreamReader, writer: asyncio.StreamWriter) -> None:
            client = Client(speaker, reader, writer)
            who = self.peer(writer) if speaker.name == OPERATOR else None
            if who:
                self.reports.say(f"serve: {who} has opened the operator's socket")
            if not self.is_proved:
                client.tell(f"{NOT_PROVED}\n".encode())
            if not self.is_up:
                client.tell(b"note: the farm isn't up yet. Lines are answered when it is\n")
            await client.serve(self.send)
            if who:
                self.reports.say(f"serve: {who} has left the operator's socket")

        def refused(error: OSError) -> None:
            self.reports.say(f"serve: a connection of {speaker.name} can't be let in: {error.strerror}")

        one = self.folder.listen(speaker.name, mode, group)
        one.listen(MOST_WAITING)
        self.accepting.append(asyncio.ensure_future(accept(one, serve, refused)))

    @staticmethod
    def peer(writer: asyncio.StreamWriter) -> str:
        """The process and the account at the other end."""
        process, account, _ = PEER.unpack(
            writer.get_extra_info("socket").getsockopt(socket.SOL_SOCKET, socket.SO_PEERCRED, PEER.size)
        )
        return f"process {process} of {account_name(account)}"

    async def send(self, speaker: Speaker, client: Client, line: bytes) -> None:
        """Sends a client's line without its tag as his speaker's, as soon as there is room and `live` is up, if he is there
        still. A farm that is stopped takes no more lines."""
        tag, text = without_tag(line)
        client.has_tags = client.has_tags or bool(tag)
        if speaker.stops(text):
            self.end()
            return
        if (news := speaker.news(text)) is not None:
            self.tell_all(f"the operator says: {escaped(news.decode(errors='surrogateescape'))}")
            return
        if self.watches.answers(speaker, client, tag, text):
            return
        asked = await speaker.enter(text, client, tag)
        await self.goes.wait()
        if client.is_gone() or self.is_stopping:
            speaker.free(asked)
            client.tell(tag + b"error: the farm is stopped, so this is not done: " + shown(text) + b"\n")
            return
        if speaker.asks_ports(text):
            self.say_ports(speaker, asked)
            return
        if beside := self.course if speaker.asks_course(text) else self.given if speaker.asks_record(text) else None:
            beside.answer(speaker, asked)
            return
        speaker.sent(*self.current_live().say(speaker.line(text)), asked)

    def tell_operator(self, text: str) -> None:
        self.reports.say(text)
        if OPERATOR in self.speakers:
            self.speakers[OPERATOR].tell(f"note: {escaped(text)}\n".encode())

    def read_wirings(self, users: list[str]) -> None:
        """Reads in the plan what these users have, unless it is known: it is asked for also when no file can be opened."""
        for name in users:
            if name not in self.wirings and (found := found_in(self.plan, name, wiring_in)):
                self.wirings[name] = found

    def say_ports(self, speaker: Speaker, asked: Asked) -> None:
        """Answers a user's client which of his ports are joined: by the words of the switch, of which he gets those of his own
        ports. His domain isn't asked, so nothing is recorded. As long as what his machine did is replayed he is told that alone.
        """
        self.read_wirings([speaker.name])
        wiring, live, nobodys = self.wirings.get(speaker.name), self.current_live(), Asked(b"", None, 0)
        assert asked.client, "a client has asked"
        client: Client = asked.client
        client.waits += 1
        left = [asked]

        def told(text: bytes) -> tuple[Speaker, bytes, Asked]:
            left.clear()
            client.waits -= 1
            speaker.free(asked)
            return speaker, text + b"\n", asked

        def hear(answer: bytes | None) -> tuple[Speaker, bytes, Asked]:
            if answer is None or wiring is None:
                return told(UNANSWERED + shown(asked.text))
            return told(ports_told(answer.decode(), wiring.physical).encode())

        def hear_row(row: bytes | None) -> tuple[Speaker, bytes, Asked]:
            words = row.decode(errors="replace").split(" ") if row else []
            if not left or row and words[1:2] != [speaker.name]:
                return self.operator, b"", nobodys
            if row and REPLAYING in words[2:]:
                return told(f"ports {REPLAYING}".encode())
            if row is None:
                return hear(None)
            left.clear()
            self.are_entered.add(speaker.name)
            self.operator.watch(live, hear)
            return self.operator, b"", nobodys

        if speaker.name in self.are_entered:
            self.operator.watch(live, hear)
        else:
            self.operator.ask_users(live, hear_row)

    def tell_all(self, text: str) -> None:
        self.reports.say(f"serve: {text}")
        self.tell_clients(text)

    def tell_clients(self, text: str) -> None:
        for speaker in self.speakers.values():
            speaker.tell(f"note: {text}\n".encode())

    def hear_error(self, text: str) -> None:
        """Hands on a line of the standard error of `live`: to the operator, and to whose record is replayed."""
        if found := REPLAYED.fullmatch(text):
            self.tell_progress(text[: found.end(2)], found[2], int(found[3]), found[4])
        if found := running.NOBODYS.fullmatch(text):
            self.pass_over(int(found[1]))
        self.tell_operator(text)

    def pass_over(self, place: int) -> None:
        """Names a line that `live` couldn't read to who sent it, by its place among all lines."""
        for speaker in self.speakers.values():
            if lost := speaker.pass_over(place):
                self.current_live().pass_over(speaker.line(lost.text))

    def tell_progress(self, path: str, record: str, done: int, mebibytes: str | None) -> None:
        """Tells the users of a domain how far its record is replayed."""
        replay = self.replays.setdefault(record, Replay(f"{path}.replay"))
        if (far := replay.words(done, mebibytes)) is None:
            return
        for users in users_in(self.plan):
            if re.fullmatch(rf"{re.escape(users[0])}(\.\d+)?", record):
                for name in users:
                    if name in self.speakers:
                        self.speakers[name].tell(f"note: what your machine did is replayed: {far}\n".encode())

    def say_rooms(self) -> None:
        """Says what the rooms of all domains may take, beside what is there. Of a plan that can't be read nothing is said."""
        domains, rooms = len(users_in(self.plan)), (self.words.room or ROOM, self.words.record_room or RECORD_ROOM)
        if not domains:
            return
        with contextlib.suppress(OSError):
            needed = Needed(domains, *rooms, self.folder.path)
            for text in (needed.told(), *needed.warnings()):
                self.reports.say(f"serve: {text}")
        unread = (len(self.speakers) - 1) * MOST_OF_USER
        self.reports.say(f"serve: what users don't read may take {shown_size(unread)} of memory more")

    async def hear(self) -> None:
        """Hands on what `live` says until its output ends. What a speaker is told at once is told in one piece."""
        while lines := await self.current_live().some():
            told: dict[Speaker, list[tuple[bytes, Asked | None]]] = {}
            for line in lines:
                name = OPERATOR if line.startswith(b"!") else line.partition(b" ")[0].decode(errors="replace")
                speaker = self.speakers.get(name)
                if speaker is None:
                    self.reports.say(f"serve: live said {line!r}")
                    continue
                asked = speaker.answered(line)
                self.watches.changed(speaker)
                text = speaker.told(line) + b"\n"
                if asked is not None and asked.hear:
                    speaker, text, asked = asked.hear(line)
                told.setdefault(speaker, []).append((text, asked))
            for speaker, answers in told.items():
                speaker.tell_answers(answers)
                speaker.rest()

    async def watch(self) -> None:
        """Ends a `live` that answers nothing any more, so that it is started again."""
        pause = self.words.patience / WATCHES
        while True:
            await asyncio.sleep(pause)
            running.give_back()
            live = self.live
            if live is None or not self.is_up or self.is_stopping:
                continue
            is_answered = self.operator.watch(live)
            for _ in range(WATCHES):
                await asyncio.sleep(pause)
                if is_answered() or live is not self.live or self.is_stopping:
                    break
            else:
                self.tell_all(f"the farm has answered nothing for {self.words.patience:g} seconds")
                live.kill()

    async def look_for_folder(self) -> None:
        """Stops the farm when its folder was removed: nobody can come to its sockets any more, and its records are gone."""
        while not self.folder.is_removed():
            await asyncio.sleep(LOOK_SECONDS)
        self.tell_all(f"{self.folder.path} was removed, so the farm ends")
        self.end()

    async def begin(self) -> None:
        """Starts `live`, opens the sockets if they aren't open yet, and says to whom lines go."""
        self.replays.clear()
        self.are_entered.clear()
        self.live, users = await running.begin(self.call(), self.folder.records, self.begun, self.hear_error)
        if not self.speakers:
            self.open(users)
        elif users != [*self.speakers][:-1]:
            raise Refused(
                "the plan has other users now: start serve again in a fresh folder, or give the plan as it was"
            )
        self.folder.keep_plan()
        self.plan = self.folder.plan
        self.read_wirings(users)
        self.is_up = True
        self.goes.set()
        if self.is_stopping:
            self.current_live().say(b"!stop\n")

    def begun(self, live: Live) -> None:
        self.live = live
        if self.is_stopping:
            live.kill()

    async def keep(self) -> int:
        """Keeps the farm up until it is stopped; the status."""
        try:
            await self.begin()
        except OSError as error:
            raise Refused(f"live can't be started: {error.filename or program('live')}: {error.strerror}") from None
        self.reports.say(
            f"serve: {len(self.speakers) - 1} user{'s' * (len(self.speakers) != 2)}, their sockets are in "
            f"{self.folder.path}"
        )
        self.say_rooms()
        for speaker in self.speakers.values():
            speaker.tell(b"note: the farm is up\n")
        while True:
            await self.hear()
            status = await self.current_live().end()
            self.is_up = False
            if not self.is_stopping:
                self.goes.clear()
            for speaker in self.speakers.values():
                speaker.forget()
            if status == 0 or self.is_stopping:
                self.tell_all("the farm is stopped")
                if status > 0:
                    self.reports.say(f"serve: live ended {running.how(status)} at the stop: see above")
                return 0 if status <= 0 else STOPPED_BADLY
            self.tell_all(f"the farm ended {running.how(status)} and is started again")
            await self.go_on(running.how(status))
            self.tell_all("the farm goes on")

    async def go_on(self, how: str) -> None:
        """Starts `live` again, as often as is allowed. `how` tells why it ended."""
        has_started = True
        while (pause := self.starts.another(has_started)) is not None:
            await asyncio.sleep(pause)
            try:
                await self.begin()
                return
            except running.Ended as ended:
                if self.is_stopping:
                    raise
                how, has_started = running.how(ended.status), True
            except OSError as error:
                how, has_started = f"since it can't be started ({error.strerror})", False
                self.reports.say(f"serve: live can't be started: {error.filename or program('live')}: {error.strerror}")
        raise Refused(
            f"live ended {running.MOST_STARTS + 1} times in a minute, the last time {how}. What was told is in "
            f"{self.folder.records}. Look above for what live said, and start serve again after that"
        )

    def end(self) -> None:
        """Stops the farm when all lines that wait are answered. A farm that isn't up yet, or doesn't end in time, is ended at
        once."""
        if self.is_stopping:
            return
        self.is_stopping = True
        self.goes.set()
        if self.is_up:
            self.current_live().say(b"!stop\n")
            asyncio.get_running_loop().call_later(STOP_SECONDS, self.kill)
        else:
            self.kill()

    def kill(self) -> None:
        if self.live is not None:
            self.live.kill()

    def stop(self) -> None:
        """Stops the farm by a signal; the second time at once."""
        if self.is_stopping:
            self.kill()
        self.end()

    async def close(self) -> None:
        """Takes the sockets away and lets the clients read what they were told."""
        self.kill()
        await self.course.end()
        await self.given.end()
        if self.is_stopping:
            self.folder.mark_stopped()
        self.folder.remove_new_plan()
        clients = [client for speaker in self.speakers.values() for client in speaker.clients]
        for task in self.accepting:
            task.cancel()
        self.folder.remove_sockets()
        for client in clients:
            client.backlog.end()
        await asyncio.gather(*self.accepting, return_exceptions=True)


async def run(words: argparse.Namespace, reports: Reports) -> int:
    server = Server(words, reports)
    loop = asyncio.get_running_loop()
    for one in (signal.SIGTERM, signal.SIGINT, signal.SIGHUP):
        if signal.getsignal(one) != signal.SIG_IGN:
            loop.add_signal_handler(one, server.stop)
    watching = [asyncio.ensure_future(it) for it in (server.watch(), server.look_for_folder(), server.watches.look())]
    try:
        server.is_proved = await asyncio.to_thread(is_proved, "live")
        server.prepare()
        return await server.keep()
    except running.Ended as ended:
        if server.is_stopping:
            return 0
        # what live said may be of any user's record
        server.tell_clients("the farm could not be started")
        faults = plan_faults(words.PLAN) if ended.status == running.PLAN else ""
        reports.say(f"serve: {ended.advice(words.PLAN, faults)}")
        return 1
    except Refused as refused:
        server.tell_all(f"{refused}")
        return 1
    finally:
        for it in watching:
            it.cancel()
        await server.close()


def plan_faults(path: str) -> str:
    """Where and why a plan is refused, as `lab plan` says it on a line; nothing if the lab isn't built."""
    with contextlib.suppress(OSError, subprocess.TimeoutExpired), open(path, "rb") as plan:
        if is_built("lab"):
            done = subprocess.run(
                [program("lab"), "plan"], stdin=plan, capture_output=True, timeout=LAB_SECONDS, check=False
            )
            if done.returncode == REFUSED_PLAN:
                return "; ".join(done.stderr.decode(errors="replace").splitlines())
    return ""


def seconds_of(word: str) -> float:
    if not re.fullmatch(r"[0-9]{1,6}(\.[0-9]+)?", word) or not float(word):
        raise argparse.ArgumentTypeError("a number of seconds is wanted, such as 30")
    return float(word)


def words_of(given: list[str]) -> argparse.Namespace:
    it = argparse.ArgumentParser(prog="serve", description="Keeps a farm up and gives each of its users a socket.")
    add_version(it)
    it.add_argument("PLAN", help="the file of the plan")
    it.add_argument("DIR", help="the folder for sockets and records; it is made if it isn't there")
    it.add_argument("--workers", type=int, metavar="N", help="as for live")
    it.add_argument("--quantum", type=int, metavar="N", help="as for live")
    add_bounds(it)
    it.add_argument(
        "--mode", type=mode_of, default=0o600, metavar="M", help="the mode of the users' sockets, default 600"
    )
    it.add_argument(
        "--group", metavar="G", help="the group of the users' sockets; %%u in it stands for the user's name"
    )
    it.add_argument("--sync", action="store_true", help="records are on the disk before an answer is told")
    add_proved(it)
    it.add_argument(
        "--patience",
        type=seconds_of,
        default=PATIENCE,
        metavar="S",
        help=f"how many seconds live may answer nothing before it is started again, default {PATIENCE}",
    )
    return it.parse_args(given)


def main(given: list[str]) -> int:
    open_streams()
    words = words_of(given)
    if words.proved:
        refuse_unproved()
    logging.getLogger("asyncio").setLevel(logging.CRITICAL)
    # what is made is for this account alone, unless a mode is given to it
    os.umask(0o077)
    most = resource.getrlimit(resource.RLIMIT_NOFILE)[1]
    resource.setrlimit(resource.RLIMIT_NOFILE, (most if most in range(MOST_FILES) else MOST_FILES, most))
    try:
        with open(words.PLAN, "rb"):
            pass
    except OSError as error:
        print(f"serve: the plan {words.PLAN} can't be read: {error.strerror}", file=sys.stderr)
        return 1
    reports = Reports()
    try:
        build("serve", "live")
        return asyncio.run(run(words, reports))
    except Refused as error:
        reports.say(f"serve: {error}")
        return 1
    except OSError as error:
        reports.say(f"serve: {error.filename or words.DIR}: {error.strerror}")
        return 1
    finally:
        reports.end()
