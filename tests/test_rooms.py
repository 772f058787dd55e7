"""The rooms of domains of `live`: two nodes that never stop, and a flood of commands, fill their room and then rest, while neighbours
are answered as before and the memory of the process stays in its bounds; what a domain that rests answers, what `restart` gives back,
what a loop takes and how fast it comes to its limit, what is there after a kill, and what becomes of a farm that has no memory left."""

import glob
import os
import re
import resource
import signal
import threading
import time

import pytest
from support.live_lines import LOOP, PINGS, PINGS_PLAN, PLAN, median
from support.rooms_farm import MIB, Farm, Row
from support.serving_trials import Served
from support.trials import TOP, run, text_of

# How long a room may stay as full as it is before its domain rests, and what the memory of the process may grow beside the room.
FILL_SECONDS, BESIDE = 60, 8 * MIB
# The room of each domain unless `--room` gives another.
DEFAULT_ROOM = 64 * MIB
# How many bytes a look takes at the least: an entry of the journal, what was seen, and a place in the list of its user.
LOOK_BYTES = 24 + 28 + 36
# A file takes whole blocks of the disk.
BLOCK = 4096
# A neighbour pauses so long after each answer, as his looks take of his own room.
PAUSE = 0.01
LOOKED = "ann look 0 booting overruns 0 0 0 0\n"
# How many bytes a farm may take more when it runs out of memory: less than a line of a MiB needs, and more than an answer does.
SPARE = MIB // 2
# The plan of the floods: ann's limit is no bound there.
FLOOD_PLAN = PLAN.replace("limit = 1000000\n", "limit = 1099511627776\n")


def ping_pong(farm: Farm) -> None:
    """bob's two nodes give each other a byte for ever."""
    for line in PINGS:
        assert farm.ask(f"bob {line}").split()[:2] == ["bob", line.split()[0]]


def until_rests(farm: Farm, name: str, pause: float = PAUSE) -> tuple[list[float], Row]:
    """Asks for a neighbour until this user's domain rests: how long each of the neighbour's answers took, and the user's row."""
    times, used, end = [], 0, time.monotonic() + FILL_SECONDS
    while time.monotonic() < end:
        begun = time.monotonic()
        assert farm.ask("ann look 0") == LOOKED
        times.append(time.monotonic() - begun)
        row = farm.row(name)
        assert row.used <= row.room, row
        if row.used > used:
            used, end = row.used, time.monotonic() + FILL_SECONDS
        time.sleep(pause)
        if "rests" in row.words:
            # what was at work is done by now
            return times, farm.row(name)
    raise AssertionError(f"{name}'s domain neither rests nor takes more for {FILL_SECONDS} seconds: {row}")


def times_of(farm: Farm, line: str, answer: str, count: int = 50) -> list[float]:
    """How long each of some answers takes, each of which must be this."""
    times = []
    for _ in range(count):
        begun = time.monotonic()
        assert farm.ask(line) == answer
        times.append(time.monotonic() - begun)
    return times


def check_bounds(row: Row, room: int, grown: int) -> None:
    """What holds of each domain that has a room, and of the process."""
    assert (row.room, 0 < row.used <= room) == (room, True)
    assert grown <= room + BESIDE, f"the process has {grown / MIB:.1f} MiB more, and the room is {room / MIB:.0f} MiB"


@pytest.mark.alone
def test_two_nodes_fill_their_room() -> None:
    """Two nodes that never stop come to rest, once, and their neighbour is answered as before."""
    with Farm(PINGS_PLAN, "--room", "1M") as farm:
        times_of(farm, "ann look 0", LOOKED)
        before = farm.resident()
        ping_pong(farm)
        beside, row = until_rests(farm, "bob")
        check_bounds(row, MIB, farm.resident() - before)
        after = times_of(farm, "ann look 0", LOOKED)
        assert farm.row("bob")[1:] == row[1:]
        assert farm.noted() == [f"bob note rests {row.used} {row.room}\n"]
        told = farm.memory()
        assert (abs(told[0] - farm.resident()) < 4 * MIB, told[1]) == (True, 2 * MIB)
        assert farm.row("ann").words == ["quiet"]
        status, rest, errors = farm.end()
        assert (status, rest, len([it for it in errors if "rests" in it])) == (0, [], 1)
    assert median(beside) <= 0.1
    assert median(after) <= 0.1


def test_two_nodes_fill_the_default_room() -> None:
    """The room that a domain has if no word gives another is filled by two nodes that never stop: they rest, and a neighbour is
    answered meanwhile."""
    with Farm(PINGS_PLAN) as farm:
        times_of(farm, "ann look 0", LOOKED)
        before = farm.resident()
        ping_pong(farm)
        row = until_rests(farm, "bob", pause=0.2)[1]
        check_bounds(row, DEFAULT_ROOM, farm.resident() - before)
        assert farm.noted() == [f"bob note rests {row.used} {row.room}\n"]
        assert farm.ask("bob rest") == "bob rest full\n"
        times_of(farm, "ann look 0", LOOKED)
        assert (farm.row("bob")[1:], farm.row("ann").words) == (row[1:], ["quiet"])
        assert farm.end()[:2] == (0, [])


def test_reserve_answers_commands(folder: str) -> None:
    """A domain that rests answers commands, and says that it rests; when the reserve is used up nothing is done by a line any
    more."""
    with Farm(PINGS_PLAN, "--room", "1M", "--record", f"{folder}/records") as farm:
        ping_pong(farm)
        until_rests(farm, "bob")
        assert farm.ask("bob rest") == "bob rest full\n"
        why = farm.ask_why("bob why")
        assert any("restart" in it or " room" in it for it in why)
        assert not any("restart" in it or " room" in it for it in farm.ask_why("ann why"))
        looks = 0
        while not (told := farm.ask("bob look 0")).endswith(" full\n"):
            assert re.fullmatch(r"bob look 0 (running|idle) overruns( \d+){4}\n", told) is not None, told
            looks += 1
            assert looks <= MIB // LOOK_BYTES
        assert (looks > 0, told) == (True, f"bob error {farm.counts['bob']} full\n")
        row = farm.row("bob")
        size = os.path.getsize(f"{folder}/records/bob.replay")
        for line in ("look 0", "config " + "0200" * 8, "look 1", "write 0 " + "05" * 100, "look 0"):
            assert (line, farm.ask(f"bob {line}")) == (line, f"bob error {farm.counts['bob']} full\n")
        assert (farm.row("bob")[1:], os.path.getsize(f"{folder}/records/bob.replay")) == (row[1:], size)
        check_bounds(row, MIB, 0)
        assert farm.ask("bob rest") == "bob rest full\n"
        assert farm.ask("ann look 0") == LOOKED
        assert farm.ask("bob restart") == "bob restart ok\n"
        assert farm.ask("bob look 0") == "bob look 0 booting overruns 0 0 0 0\n"
        assert farm.row("bob").words == ["quiet"]
        assert farm.end()[:2] == (0, [])


def flood(farm: Farm, name: str, bytes_of_line: int, until: str) -> int:
    """Lines of configuration bytes, 16 at a time, until an answer ends so: how many lines were answered otherwise."""
    line, done = f"{name} config " + "04" * bytes_of_line, 0
    end = time.monotonic() + FILL_SECONDS
    while time.monotonic() < end:
        farm.say(f"{line}\n" * 16)
        for _ in range(16):
            told = farm.hear(name)
            if told.endswith(until):
                return done
            assert told == f"{name} config -\n"
            done += 1
    raise AssertionError(f"no answer ended by {until!r} in {FILL_SECONDS} seconds")


@pytest.mark.alone
def test_restart_gives_memory_back() -> None:
    """After `restart` a domain that has used up 32 MiB works at once, and most of what the process had grown is the system's again
    within a second."""
    room = 32 * MIB
    with Farm(FLOOD_PLAN, "--room", "32M") as farm:
        times_of(farm, "ann look 0", LOOKED)
        before = farm.resident()
        flood(farm, "ann", 10_000, " full\n")
        farm.drain("ann")
        grown = farm.resident() - before
        check_bounds(farm.row("ann"), room, grown)
        assert grown > room // 4
        assert farm.ask("ann restart") == "ann restart ok\n"
        assert farm.ask("ann look 0") == LOOKED
        assert farm.row("ann").words == ["quiet"]
        end = time.monotonic() + 1
        while (left := farm.resident() - before) > grown // 2 and time.monotonic() < end:
            time.sleep(0.02)
        assert left <= grown // 2, f"of {grown / MIB:.1f} MiB the process has {left / MIB:.1f} still"
        # the room is there again, all of it
        flood(farm, "ann", 10_000, " full\n")
        farm.drain("ann")
        check_bounds(farm.row("ann"), room, farm.resident() - before)
        assert farm.end()[:2] == (0, [])


def records_of(folder: str, name: str) -> dict[int, int]:
    """The records of a user by their numbers, with their sizes."""
    return {
        int((re.search(r"\.(\d+)\.replay$", it) or ("", 1))[1]): os.path.getsize(it)
        for it in glob.glob(f"{folder}/{name}.replay") + glob.glob(f"{folder}/{name}.*.replay")
    }


def test_restart_removes_old_records(folder: str) -> None:
    """At a restart the records that are more than the record room go, the oldest first, and standard error names each. The newest
    stays, and so do a neighbour's."""
    more = ("--room", "1M", "--record-room", "3M", "--record", f"{folder}/records")
    with Farm(PINGS_PLAN, *more) as farm:
        assert farm.ask("ann look 0") == LOOKED
        for number in range(2, 7):
            ping_pong(farm)
            until_rests(farm, "bob")
            # What the domain has done is recorded with the answer to a line.
            assert farm.ask("bob rest") == "bob rest full\n"
            row, newest = farm.row("bob"), records_of(f"{folder}/records", "bob")[number - 1]
            assert (newest <= 3 * MIB, row.record_room) == (True, 3 * MIB)
            assert farm.ask("bob restart") == "bob restart ok\n"
            there = records_of(f"{folder}/records", "bob")
            assert sorted(there) == [*range(min(there), number + 1)]
            taken = sum(-(-it // BLOCK) * BLOCK for it in there.values())
            assert (taken <= 3 * MIB, farm.row("bob").records) == (True, taken)
        gone = [it for it in range(1, number + 1) if it not in there]
        assert (len(gone) > 0, [*records_of(f"{folder}/records", "ann")]) == (True, [1])
        status, rest, errors = farm.end()
        removed = [it.partition(": removed")[0] for it in errors if ": removed" in it]
    assert (status, rest) == (0, [])
    assert removed == [
        f"{folder}/records/bob.replay" if it == 1 else f"{folder}/records/bob.{it}.replay" for it in gone
    ]


@pytest.mark.alone
def test_flood_of_commands_is_bounded() -> None:
    """One user floods configuration bytes: his room's bound holds, and another is answered meanwhile."""
    with Farm(FLOOD_PLAN, "--room", "1M") as farm:
        answer = "bob look 0 booting overruns 0 0 0 0\n"
        times_of(farm, "bob look 0", answer)
        before = farm.resident()
        times: list[float] = []
        lines: list[int] = []
        flooding = threading.Thread(target=lambda: lines.append(flood(farm, "ann", 500, " full\n")))
        flooding.start()
        while flooding.is_alive() or len(times) < 50:
            times += times_of(farm, "bob look 0", answer, 1)
        flooding.join()
        assert len(lines) == 1
        farm.drain("ann")
        row = farm.row("ann")
        check_bounds(row, MIB, farm.resident() - before)
        for _ in range(200):
            assert farm.ask("ann config " + "04" * 500) == f"ann error {farm.counts['ann']} full\n"
        assert farm.row("ann")[1:] == row[1:]
        assert (len(farm.noted()), farm.noted()[0][:15]) == (1, "ann note rests ")
        check_bounds(row, MIB, farm.resident() - before)
        assert farm.end()[:2] == (0, [])
    assert median(times) <= 0.1


@pytest.mark.alone
@pytest.mark.parametrize("seconds", [1, pytest.param(30, marks=pytest.mark.long)])
def test_loop_takes_no_room(seconds: int) -> None:
    """A loop of two bytes is recorded by the million and takes less than a KiB, and in the same time two nodes that send take
    much."""
    told = {}
    for name, plan, lines in (("a loop", PLAN, LOOP), ("a ping-pong", PINGS_PLAN, PINGS)):
        with Farm(plan, "--room", "64M") as farm:
            for line in lines:
                assert farm.ask(f"bob {line}").split()[:2] == ["bob", line.split()[0]]
            before = farm.row("bob")
            time.sleep(seconds)
            after = farm.row("bob")
            told[name] = after.recorded - before.recorded, after.used - before.used
            assert farm.row("bob").words == ["busy"]
            # a command after so many events is done on the domain that did them
            assert farm.ask("bob look 0").split()[3] in ("running", "idle")
            assert farm.end()[:2] == (0, [])
    (events, used), (_, taken) = told["a loop"], told["a ping-pong"]
    assert events > 1_000_000
    assert used < 1024
    assert taken > 64 * 1024


@pytest.mark.alone
def test_loop_keeps_a_pace(folder: str, limit: int = 400_000_000, seconds: int = 2) -> None:
    """A loop does half of its limit as fast as it can, and after that five million Steps a second. A restart begins anew, and a
    farm that goes on goes on at this pace."""
    half, plan = limit // 2, PLAN.replace("limit = 1099511627776\n", f"limit = {limit}\n")
    more = ("--record", f"{folder}/records")
    with Farm(plan, *more) as farm:
        looping(farm, "bob")
        until_recorded(farm, "bob", half)
        check_pace(farm, "bob", seconds)
        assert farm.ask("!restart bob") == "!restart bob ok\n"
        looping(farm, "bob")
        until_recorded(farm, "bob", half)
        assert farm.ask("ann look 0") == LOOKED
        assert farm.end()[:2] == (0, [])
    with Farm(plan, *more, "--resume") as farm:
        until_recorded(farm, "bob", half)
        check_pace(farm, "bob", seconds)
        assert farm.end()[:2] == (0, [])


def looping(farm: Farm, name: str) -> None:
    """The node of a user loops."""
    for line in LOOP:
        assert farm.ask(f"{name} {line}").split()[:2] == [name, line.split()[0]]


def until_recorded(farm: Farm, name: str, events: int) -> None:
    """Waits until a domain has recorded so many events."""
    begun = time.monotonic()
    while farm.row(name).recorded < events:
        assert time.monotonic() - begun < FILL_SECONDS
        time.sleep(0.02)


def check_pace(farm: Farm, name: str, seconds: int) -> None:
    """For some time a domain records some events, and no more than the pace allows: half a million in each tenth of a second, and
    one burst more."""
    before, begun = farm.row(name).recorded, time.monotonic()
    time.sleep(seconds)
    after, took = farm.row(name).recorded, time.monotonic() - begun
    most = (took / 0.1 + 2) * 500_000 + 65_536
    assert 0 < after - before <= most


def until_at_rest(farm: Farm, name: str) -> Row:
    """Waits until a user's domain rests; the user's row then."""
    end = time.monotonic() + FILL_SECONDS
    while "rests" not in (row := farm.row(name)).words:
        assert time.monotonic() < end, row
        time.sleep(0.02)
    time.sleep(0.1)
    return farm.row(name)


def noted_of(farm: Farm, name: str) -> list[str]:
    """The notes of this user so far, of which the first is waited for."""
    return [it for it in farm.noted() if it.startswith(f"{name} ")]


def test_steps_without_a_line_are_bounded() -> None:
    """A loop does a number of Steps after a line of its user, and rests until the next; after more of them it rests until a restart.
    Each rest says why, and a neighbour's nodes don't rest."""
    with Farm(PLAN, "--line-steps", "1M", "--restart-steps", "2M") as farm:
        looping(farm, "bob")
        first = until_at_rest(farm, "bob")
        assert MIB <= first.recorded < 2 * MIB
        assert noted_of(farm, "bob") == ["bob note rests line\n"]
        assert farm.ask("bob look 0").startswith("bob look 0 running ")
        second = until_at_rest(farm, "bob")
        assert 2 * MIB <= second.recorded < 3 * MIB
        assert noted_of(farm, "bob")[1:] == ["bob note rests steps\n"]
        assert (farm.ask("bob rest"), farm.row("bob").recorded) == ("bob rest full\n", second.recorded)
        assert (farm.ask("ann look 0"), farm.row("ann").words) == (LOOKED, ["quiet"])
        assert farm.ask("!restart bob") == "!restart bob ok\n"
        looping(farm, "bob")
        assert until_at_rest(farm, "bob").recorded < 2 * MIB
        status, rest, errors = farm.end()
        assert (status, rest) == (0, [])
        assert [it.partition(" rests: ")[2] for it in errors] == [
            "its nodes have done as many Steps as they may after a line. Its nodes do nothing more until its users' next line\n",
            "its nodes have done as many Steps as they may. Its nodes do nothing more until it begins anew\n",
            "its nodes have done as many Steps as they may after a line. Its nodes do nothing more until its users' next line\n",
        ]


def test_resumed_domain_rests_again(folder: str) -> None:
    """After a kill the domain that rested rests again, its users are answered, and others go on; `restart` begins it anew."""
    more = ("--room", "1M", "--record", f"{folder}/records")
    with Farm(PINGS_PLAN, *more) as farm:
        ping_pong(farm)
        _, row = until_rests(farm, "bob")
        looked = farm.ask("bob look 0")
        farm.process.send_signal(signal.SIGKILL)
        farm.process.wait()
    with Farm(PINGS_PLAN, *more, "--resume") as farm:
        assert farm.ask("ann look 0") == LOOKED
        _, resumed = until_rests(farm, "bob")
        assert resumed.recorded >= row.recorded
        check_bounds(resumed, MIB, 0)
        assert (farm.ask("bob look 0"), farm.ask("bob rest")) == (looked, "bob rest full\n")
        assert (farm.ask("ann look 0"), farm.row("ann").words) == (LOOKED, ["quiet"])
        assert farm.ask("bob restart") == "bob restart ok\n"
        ping_pong(farm)
        until_rests(farm, "bob")
        assert farm.end()[:2] == (0, [])


def bound_memory(farm: Farm, spare: int) -> None:
    """From now on the program gets so many bytes of addresses more than it has, and no more."""
    most = int(text_of(f"/proc/{farm.process.pid}/statm").split()[0]) * resource.getpagesize() + spare
    resource.prlimit(farm.process.pid, resource.RLIMIT_AS, (most, most))


@pytest.mark.alone
def test_out_of_memory_is_the_users_who_meets_it() -> None:
    """A user whose line is too long for the memory that is left is answered that there is none. Their domain rests, others go on,
    and `restart` begins it anew, while there is no more memory than before."""
    with Farm(FLOOD_PLAN, "--room", "1M") as farm:
        others = {name: f"{name} look 0 booting overruns 0 0 0 0\n" for name in ("bob", "cas")}
        for name, answer in (("ann", LOOKED), *others.items()):
            assert farm.ask(f"{name} look 0") == answer
        bound_memory(farm, SPARE)
        assert farm.ask("ann config " + "04" * 524_000) == f"ann error {farm.counts['ann']} memory\n"
        assert "rests" in farm.row("ann").words
        for _ in range(20):
            for name, answer in others.items():
                assert farm.ask(f"{name} look 0") == answer
        assert farm.row("bob").words == ["quiet"]
        assert (farm.ask("ann look 0"), farm.ask("ann restart"), farm.ask("ann look 0")) == (
            LOOKED,
            "ann restart ok\n",
            LOOKED,
        )
        assert (farm.row("ann").words, farm.process.poll()) == (["quiet"], None)
        assert farm.end()[0] == 0


def test_users_of_serve_are_told() -> None:
    """Under `serve` each socket of the users of the domain is told that it rests, and no other; a terminal says what to do."""
    with Served(PINGS_PLAN, starts=False) as served:
        served.start("--room", "1M")
        ann, bob, other = served.client("ann"), served.client("bob"), served.client("bob")
        for line in PINGS:
            bob.say(f"{line}\n")
            assert bob.until(line.split()[0]).split()[0] == line.split()[0]
        notes = [client.until("note rests ") for client in (bob, other)]
        assert re.fullmatch(r"note rests \d+ 1048576", notes[0]) is not None, notes[0]
        assert notes[1] == notes[0]
        assert (bob.ask("rest"), ann.ask("look 0")) == ("rest full", LOOKED[4:-1])
        status, output, _ = run([f"{TOP}/connect", served.folder, "bob"], b"rest\nrestart\nlook 0\n")
        first, second, *rest = output.decode().splitlines()
        assert (status, first, rest) == (0, "rest full", ["restart ok", "look 0 booting overruns 0 0 0 0"])
        assert "restart begins anew" in second
        operator = served.client("operator")
        assert re.fullmatch(r"!memory \d+ 2097152", operator.ask("memory"))
        assert served.stop()[0] == 0


@pytest.mark.long
def test_rooms_hold_for_long(minutes: float, folder: str) -> None:
    """A room that is filled and given back again and again: the bounds hold all the time."""
    room, rounds, most = 4 * MIB, 0, 0
    more = ("--room", "4M", "--record-room", "16M", "--record", f"{folder}/records")
    with Farm(PINGS_PLAN, *more) as farm:
        times_of(farm, "ann look 0", LOOKED)
        before, end = farm.resident(), time.monotonic() + 60 * minutes
        while time.monotonic() < end:
            ping_pong(farm)
            row = until_rests(farm, "bob")[1]
            most = max(most, farm.resident() - before)
            check_bounds(row, room, most)
            assert farm.ask("bob restart") == "bob restart ok\n"
            there = records_of(f"{folder}/records", "bob")
            assert sum(there.values()) <= 16 * MIB
            assert max(there) == rounds + 2
            rounds += 1
        assert (len(farm.noted()), farm.end()[:2]) == (rounds, (0, []))
