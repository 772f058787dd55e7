"""Who comes and goes in a class that is there: students are added, removed, changed and renamed."""

from __future__ import annotations

import argparse
import contextlib
import os
import re
from collections.abc import Callable
from typing import TYPE_CHECKING, TypeVar

from ..course.book import follow_names
from .changing import changing
from .escapes import escaped
from .folder import Refused, group_number, mode_of, socket_path
from .kept import student_in
from .places import MOST_RANGES, part_of, place_for
from .plans import PORTS, VERSION, check_person, checked_name, people_in, refuse_all, students_among, user_name
from .records import records_of
from .sheets import count, person_of, sheet, sheet_path, ways_of
from .supervising import supervisor_of

if TYPE_CHECKING:
    from .changing import Change
    from .places import Part
    from .plans import Machine

Answer = TypeVar("Answer")
# The folder of a class in which the plans of those are who were removed.
REMOVED = "removed"


def plan_of_removed(course: str, user: str) -> str:
    return os.path.join(course, REMOVED, f"{user}.toml")


def say_all(lines: list[str]) -> None:
    print("".join(f"{escaped(it)}\n" for it in lines), end="", flush=True)


def write_sheet(change: Change, person: str, part: Part, farm: str) -> str:
    """Lets the sheet of a student be written; its path."""
    rights = argparse.ArgumentParser(add_help=False)
    rights.add_argument("--mode", type=mode_of, default=0o600)
    mode = rights.parse_known_args(change.kept.rights)[0].mode
    path = sheet_path(change.course, part.name)
    change.files[path] = sheet(person, part.name, part.machine, farm, ways_of(mode)).encode()
    return path


def may_give(process: int, group: int) -> bool:
    """Whether a process may give a socket to a group: it is root's, or is in the group since it began."""
    with contextlib.suppress(OSError):
        with open(f"/proc/{process}/status", encoding="utf-8") as it:
            words = {line.split(":")[0]: line.split()[1:] for line in it}
        return words["Uid"][1] == "0" or f"{group}" in [words["Gid"][1], *words["Groups"]]
    return True


def check_group(change: Change, user: str) -> None:
    """Refuses a user whose group isn't there, or to which his socket couldn't be given."""
    rights = change.kept.rights
    if "--group" not in rights:
        return
    name = rights[rights.index("--group") + 1]
    group, shown_name = group_number(name, user), name.replace("%u", user)
    supervisor = supervisor_of(change.course)
    if not may_give(os.getpid(), group):
        raise Refused(
            f"this account isn't in the group {shown_name}: usermod --append --groups {shown_name}, and log in again"
        )
    if supervisor is not None and not may_give(supervisor, group):
        raise Refused(
            f"the process that has the farms of this class ({supervisor}) came up before its account was in the group "
            f"{shown_name}: stop it, and give this order again before it is started"
        )


def shape(machine: Machine) -> str:
    return f"{count(machine.nodes, 'node')} and {count(machine.hosts, 'host')}"


def next_farm(change: Change) -> str:
    """The folder of one more farm."""
    there = {os.path.basename(it) for it in [*change.farms, *change.removed.values()]} | {*os.listdir(change.course)}
    numbers = [int(it[1]) for name in there if (it := re.fullmatch(r"farm-(\d+)", name))]
    return os.path.join(change.course, f"farm-{max(numbers, default=0) + 1}")


def come_back(change: Change, user: str) -> tuple[str, Part]:
    """Puts a student who was removed back into his place, with what he had."""
    farm = change.removed[user]
    with open(plan_of_removed(change.course, user), encoding="utf-8") as it:
        part = part_of(it.read().removeprefix(VERSION))
    taken = {port for it in change.of(farm) for port in it.ports}
    if taken & {*part.ports} or place_for(change.of(farm), 0) is None:
        raise Refused(
            f"{user} was removed, and his place in {os.path.basename(farm)} is another's now: add something to the "
            "name"
        )
    del change.removed[user]
    change.files[plan_of_removed(change.course, user)] = None
    change.put(farm, part)
    return farm, part


def find_place(change: Change, user: str, machine: Machine) -> tuple[str, Part]:
    """Puts a new student into the first farm that has a place for him, or else into one more farm."""
    count_of_ports = machine.ports()
    for farm in [*change.farms, None]:
        farm = farm or next_farm(change)
        ranges = place_for(change.of(farm), count_of_ports)
        if ranges is not None:
            part = part_of(machine.domain(user, ranges))
            change.put(farm, part)
            change.begun.append((farm, user))
            return farm, part
    raise AssertionError


def check_new(change: Change, person: str, user: str) -> None:
    """Refuses a student who can't come."""
    if change.kept.farm_of(user):
        raise Refused(f"{person} is the user {user}, who is there already: add something to the name")
    for farm in [*change.kept.farms, next_farm(change)]:
        socket_path(farm, user)
    check_group(change, user)


def all_of(wrong: list[str], does: Callable[..., Answer], *given: object) -> Answer | None:
    """What a call answers; none if it refuses, which is put to all that is wrong."""
    try:
        return does(*given)
    except Refused as refused:
        wrong.append(f"{refused}")
        return None


def add(words: list[str]) -> int:
    """Adds students."""
    it = argparse.ArgumentParser(
        prog="class add",
        usage="class add DIR NAME ..\n       class add --students NAMES.txt DIR",
        description="Adds students to a class. The others keep what they have.",
    )
    it.add_argument("--students", metavar="NAMES.txt", help="a file with one name a line")
    it.add_argument("DIR", help="the folder of the class")
    it.add_argument("NAME", nargs="*", help="a student's name")
    given = it.parse_args(words)
    people = [("", name) for name in given.NAME] + (people_in(given.students) if given.students else [])
    if not people:
        raise Refused("add wants the folder of the class and a name. Try: class add course 'Ada Lovelace'")
    with changing(given.DIR) as change:
        machine = change.machine()
        backs: dict[str, tuple[str, Part]] = {}

        def check(user: str, person: str) -> None:
            check_new(change, person, user)
            if user in change.removed:
                backs[user] = come_back(change, user)

        students, notes = students_among(people, check)
        places = {user: backs.get(user) or find_place(change, user, machine) for user in students}
        told = [f"note: {it}" for it in notes]
        for user, (farm, part) in places.items():
            how = "is back in" if user in backs else "is in"
            person = shown_name(change.course, user, user, students[user]) if user in backs else students[user]
            path = write_sheet(change, person, part, farm)
            told.append(
                f"{user} {how} {os.path.basename(farm)} with {shape(part.machine)}; the sheet is {shown(given.DIR, path)}"
            )
        status = change.carry_out()
        say_all(told)
    return status


def shown(course: str, path: str) -> str:
    """A path below the folder of a class, as that was given."""
    return os.path.join(course, os.path.relpath(path, os.path.abspath(course)))


def found_all(change: Change, course: str, names: list[str] | tuple[str, ...]) -> list[str]:
    """The users of these students. All that are no students are refused at once."""
    wrong: list[str] = []
    users: list[str] = []
    for name in names:
        found = all_of(wrong, student_in, change.kept.farms, name, course)
        if found and found[1] in users:
            wrong.append(f"{name} is the user {found[1]}, who is named twice")
        users += [found[1]] if found else []
    refuse_all(wrong)
    return users


def remove(course: str, *names: str) -> int:
    """Removes students. What they did stays until the class is finished."""
    with changing(course) as change:
        told = []
        for user in found_all(change, course, names):
            farm, part = change.farm_of(user), change.part(user)
            change.files[plan_of_removed(change.course, user)] = f"{VERSION}\n{part.text}\n".encode()
            change.take(farm, user)
            change.removed[user] = farm
            told.append(
                f"{user} is removed from {os.path.basename(farm)}; what is there of {user} stays until class finish"
            )
        status = change.carry_out()
        say_all(told)
    return status


def change_one(words: list[str]) -> int:
    """Gives a student another machine."""
    it = argparse.ArgumentParser(
        prog="class change",
        usage="class change DIR NAME --nodes N [--hosts H]",
        description="Gives a student a machine of another shape, which begins anew.",
    )
    it.add_argument("DIR", help="the folder of the class")
    it.add_argument("NAME", help="the student's name")
    it.add_argument("--nodes", type=int, required=True, metavar="N", help="how many nodes, 1 to 8")
    it.add_argument("--hosts", type=int, metavar="H", help="how many hosts, 1 to 4, as before unless given")
    given = it.parse_args(words)
    with changing(given.DIR) as change:
        (user,) = found_all(change, given.DIR, [given.NAME])
        farm, before = change.farm_of(user), change.part(user)
        machine = before.machine._replace(
            nodes=given.nodes, hosts=given.hosts if given.hosts is not None else before.machine.hosts
        )
        machine.check()
        if machine == before.machine:
            raise Refused(f"{user} has {shape(machine)} already. The student's own restart gives a fresh machine")
        at = change.take(farm, user)
        ranges = place_for(change.of(farm), machine.ports())
        if ranges is None:
            free = count(PORTS - sum(len(it.ports) for it in change.of(farm)), "port")
            raise Refused(
                f"{user} can't have {shape(machine)}: that takes {count(machine.ports(), 'port')}, and "
                f"{os.path.basename(farm)} has {free} for it, in {MOST_RANGES} ranges at most. A class of its own "
                f"has the room"
            )
        part = part_of(machine.domain(user, ranges))
        change.put(farm, part, at)
        path = write_sheet(change, person_of(change.course, user), part, farm)
        change.begun.append((farm, user))
        status = change.carry_out()
        record = os.path.basename([f"{user}.replay", *records_of(os.path.join(farm, "records"), user)][-1])
        say_all(
            [
                f"{user} has {shape(machine)} now, and begins anew with {record}; the sheet is "
                f"{shown(given.DIR, path)}"
            ]
        )
    return status


def check_renamed(change: Change, farm: str, line: str) -> tuple[str, str, list[str]]:
    """The user of a new name, if it may be given, with the name that is shown."""
    check_person(line)
    user, person, left = checked_name(line.strip(), {})
    if change.kept.farm_of(user):
        raise Refused(f"{person} is the user {user}, who is there already: choose another name")
    if user in change.removed or records_of(os.path.join(farm, "records"), user):
        raise Refused(f"{person} is the user {user}, of whom there are records already: choose another name")
    socket_path(farm, user)
    check_group(change, user)
    return user, person, left


def shown_name(course: str, before: str, user: str, person: str) -> str:
    """The name that is shown of one who is called so now: who has one that doesn't make the user's name keeps it, if only that of
    the user is given."""
    old = person_of(course, before)
    return old if person == user and user_name(old)[0] != before else person


def rename_page(change: Change, before: str, user: str) -> None:
    """Lets the sheet with the address of a student's page have the new name. The address stays."""
    old, new = (os.path.join(change.course, "sheets", f"{name}.page.txt") for name in (before, user))
    with contextlib.suppress(FileNotFoundError), open(old, encoding="utf-8") as it:
        lines = [line if "/enter/" in line else re.sub(rf"\b{before}\b", user, line) for line in it]
        change.files[old], change.files[new] = None, "".join(lines).encode()


def rename(course: str, old: str, line: str) -> int:
    """Gives a student another name. The records go with him."""
    with changing(course) as change:
        wrong: list[str] = []
        found = all_of(wrong, student_in, change.kept.farms, old, course)
        farm = found[0] if found else next(iter(change.kept.farms), change.course)
        renamed = all_of(wrong, check_renamed, change, farm, line)
        refuse_all(wrong)
        assert found and renamed, "what is wrong is refused above"
        (farm, before), (user, person, left) = found, renamed
        person = shown_name(change.course, before, user, person)
        part = change.part(before)
        part = part_of(re.sub(rf'(\bname\s*=\s*)"{before}"', rf'\1"{user}"', part.text, count=1))
        if part.name != user:
            raise Refused(f"the plan of {before} isn't as class wrote it, so class can't change it")
        change.parts[farm] = [part if it.name == before else it for it in change.of(farm)]
        change.farms[farm] = [user if it == before else it for it in change.farms[farm]]
        change.touch(farm)
        change.renamed.append((farm, before, user))
        names = [it for it in change.earlier.pop(before, []) if it not in (before, user)]
        change.earlier[user] = [*names, before]
        if os.path.exists(sheet_path(change.course, before)):
            change.files[sheet_path(change.course, before)] = None
        rename_page(change, before, user)
        path = write_sheet(change, person, part, farm)
        status = change.carry_out()
        why: list[str] = []
        if status == 0:
            all_of(why, follow_names, change.course)
        say_all([f"note: {it}. What was handed in gets the name by the next order" for it in why])
        say_all([f"note: {person} is the user {user}, without {' and '.join(left)}"] if left else [])
        say_all([f"{before} is {user} now, and so are the records; the sheet is {shown(course, path)}"])
    return status
