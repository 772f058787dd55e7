"""What one program without end costs the others of a class: see bench/class."""

import glob
import os
import random
import subprocess
import sys
import tempfile
import threading
import time

from rates import TOP

sys.path.append(TOP)
from nadzsumek.failures import FarmError
from nadzsumek.farm import Farm, User
from nadzsumek.results import Rest
from nadzsumek.serving.ports import Ports

STUDENTS, MIB = 30, 1 << 20
# How long a student waits between two questions, on average.
PAUSE = 1.0
# Where a student's word is in the memory of node 0; after how many seconds memory is looked at, and the row is printed on the way.
ADDRESS, SAMPLE, EACH = 0x8000_0100, 5, 300
# The program of the guide's case of two nodes that never stop. ldlp 1, mint, ldnlp 5, ldc 1, in, ldlp 1, mint, ldnlp 1, ldc 1,
# out and j -14 give back each byte of link 1; ajw 4 comes before it, and with mint, ldnlp 1, ldc 9, outbyte a node begins.
BACK = "1124f25541f7" "1124f25141fb" "6002"
SECOND, FIRST = bytes.fromhex("b4" + BACK), bytes.fromhex("b424f25149fe" + BACK)


def class_of(folder: str, *words: str) -> str:
    """What `class` prints."""
    return subprocess.run(
        [f"{TOP}/class", *words], cwd=folder, capture_output=True, encoding="utf-8", check=True
    ).stdout


class Answers:
    """What the 29 asked and were answered, all together."""

    def __init__(self) -> None:
        self.lock, self.times, self.wrong, self.restarts = threading.Lock(), list[float](), list[str](), 0

    def note(self, seconds: float, fault: str | None) -> None:
        with self.lock:
            self.times.append(seconds)
            if fault:
                self.wrong.append(fault)

    def row(self) -> str:
        with self.lock:
            times = sorted(self.times)

        def at(share: float) -> str:
            return f"{times[min(len(times) - 1, int(len(times) * share))] * 1000:.1f} ms"

        return (
            f"{len(times):,} answers, {len(self.wrong)} wrong: {at(0.5)}, {at(0.99)} for 99 of 100, at most {at(1)}; "
            f"{self.restarts} restarts"
        )


def ports_of(user: User) -> Ports:
    """The user's ports by the plan as it is now."""
    ports = user.ports
    assert ports
    return ports


def neighbour(farm: Farm, name: str, answers: Answers, end: float) -> None:
    """Asks until the end what only the student's own lines decide."""
    chance = random.Random(name)
    word = chance.getrandbits(32)
    wanted: int | str
    with farm.user(name) as user:
        user.join(ports_of(user).link, ports_of(user).port)
        user.poke(ports_of(user).host, ADDRESS, word)
        while time.monotonic() < end:
            time.sleep(chance.uniform(0, 2 * PAUSE))
            begun = time.monotonic()
            try:
                if chance.random() < 0.5:
                    told, wanted = user.peek(ports_of(user).host, ADDRESS), word
                else:
                    told, wanted = user.look(0).state.value, "booting"
                fault = None if told == wanted else f"{name}: {told!r} in place of {wanted!r}"
            except FarmError as error:
                fault = f"{name}: {error}"
            answers.note(time.monotonic() - begun, fault)


def ping_pong(farm: Farm, name: str, answers: Answers, end: float) -> None:
    """Two nodes give each other a byte for ever, and once the machine rests the student begins again."""
    with farm.user(name) as user:
        host, port = ports_of(user).host, ports_of(user).port
        while time.monotonic() < end:
            # link 0 of node 1 is at port 2, and the links 1 of both nodes are at the ports 1 and 3
            user.join(2, port)
            user.join(1, 3)
            user.boot(host, SECOND)
            user.config(bytes((5, 2)))
            user.join(0, port)
            user.boot(host, FIRST)
            while time.monotonic() < end and user.rest() is not Rest.FULL:
                time.sleep(0.5)
            user.restart()
            answers.restarts += 1


def memory_of(folder: str) -> list[int]:
    """MiB of memory of each farm's `live`."""
    told = subprocess.run(["ps", "-eo", "rss,args"], capture_output=True, encoding="utf-8", check=True).stdout
    return [int(it.split()[0]) // 1024 for it in told.splitlines() if f"{folder}/" in it and "/live" in it.split()[1]]


def disk_of(folder: str) -> int:
    """MiB of the disk that the class takes."""
    return int(
        subprocess.run(["du", "-sm", folder], capture_output=True, encoding="utf-8", check=True).stdout.split()[0]
    )


def main(words: list[str]) -> int:
    seconds = float(words[0]) if words else 600
    with tempfile.TemporaryDirectory() as folder:
        with open(f"{folder}/names", "w", encoding="ascii") as it:
            it.writelines(f"student-{number}\n" for number in range(STUDENTS))
        class_of(folder, "--students", "names", "--nodes", "2", "course")
        class_of(folder, "start", "course")
        try:
            is_right = measured(folder, seconds)
        finally:
            begun = time.monotonic()
            stopped = class_of(folder, "stop", "course")
            print(f"stopped in {time.monotonic() - begun:.1f} s")
        begun = time.monotonic()
        class_of(folder, "start", "course")
        print(f"up again after {time.monotonic() - begun:.1f} s")
        class_of(folder, "stop", "course")
        return 0 if is_right and stopped.count(": off") == len(glob.glob(f"{folder}/course/farm-*")) else 1


def measured(folder: str, seconds: float) -> bool:
    """Whether all answers were right."""
    answers, most, begun = Answers(), [0], time.monotonic()
    asked = [(Farm(it), name) for it in sorted(glob.glob(f"{folder}/course/farm-*")) for name in Farm(it).users()]
    threads = [
        threading.Thread(target=ping_pong if at == 0 else neighbour, args=(farm, name, answers, begun + seconds))
        for at, (farm, name) in enumerate(asked)
    ]

    def row() -> str:
        farms = f"a farm has at most {max(most)} MiB of memory"
        return f"{answers.row()}; {farms}, and the class takes {disk_of(folder)} MiB of the disk"

    for it in threads:
        it.start()
    shown = begun
    while (now := time.monotonic()) < begun + seconds:
        time.sleep(min(SAMPLE, begun + seconds - now))
        most += memory_of(folder)
        if time.monotonic() > shown + EACH:
            shown = time.monotonic()
            print(f"{time.strftime('%H:%M')}, load {os.getloadavg()[0]:.1f}: {row()}", flush=True)
    for it in threads:
        it.join()
    print(f"{len(asked)} students for {seconds:g} s: {row()}")
    print("".join(f"  {it}\n" for it in answers.wrong[:10]), end="")
    return not answers.wrong
