"""What is kept of a class in its folder: its farms and students, the rights of the sockets, the rooms, and who has left."""

from __future__ import annotations

import argparse
import difflib
import json
import os
import shlex
from typing import Any, NamedTuple

from .folder import CLASS, OPERATOR, OTHERS_WRITE, Refused, check_own, check_own_file
from .plans import Machine, user_name
from .rooms import BOUNDS, bounds_in, bytes_of, words_of_bounds
from .sheets import person_of


class Rooms(NamedTuple):
    """The bounds of each student's domain: sizes as `serve` takes them."""

    room: str = BOUNDS["room"][0]
    record_room: str = BOUNDS["record-room"][0]
    line_steps: str = BOUNDS["line-steps"][0]
    restart_steps: str = BOUNDS["restart-steps"][0]

    def words(self) -> list[str]:
        return words_of_bounds({name: getattr(self, name.replace("-", "_")) for name in BOUNDS})

    def changed(self, words: argparse.Namespace) -> Rooms:
        """The same with those bounds that the words of the command line give."""
        given = {name.replace("-", "_"): value for name, value in bounds_in(words).items() if value}
        return self._replace(**given)


class Kept(NamedTuple):
    """What is kept of a class: the folder of each farm with its users, the rights of the sockets, the rooms, and the machine that
    each student gets (none in a class of an earlier version). Of those who were removed the folder of the farm, and of those who
    were renamed the names that they had before. `web` are the words of `class web` by which it has pages, none if it has none.
    """

    farms: dict[str, list[str]]
    rights: list[str]
    rooms: Rooms = Rooms()
    machine: Machine | None = None
    removed: dict[str, str] = {}
    earlier: dict[str, list[str]] = {}
    web: list[str] | None = None

    def text(self) -> str:
        """The text of the file."""
        farms = {os.path.basename(farm): names for farm, names in self.farms.items()}
        kept: dict[str, Any] = {"farms": farms, "rights": self.rights, "rooms": self.rooms._asdict()}
        kept |= {"machine": self.machine._asdict()} if self.machine else {}
        kept |= (
            {"removed": {name: os.path.basename(farm) for name, farm in self.removed.items()}} if self.removed else {}
        )
        kept |= {"earlier": self.earlier} if self.earlier else {}
        kept |= {"web": self.web} if self.web is not None else {}
        return json.dumps(kept, indent=1) + "\n"

    def farm_of(self, user: str) -> str | None:
        """The folder of a student's farm; none if there is no such student."""
        return next((farm for farm, names in self.farms.items() if user in names), None)


def read(folder: str, kept: dict[str, Any]) -> Kept:
    """What the file says. A value of a wrong kind is an error of one kind or another."""
    farms, rights, rooms = kept["farms"], kept["rights"], Rooms(**kept.get("rooms", {}))
    machine = Machine(**kept["machine"]) if "machine" in kept else None
    removed, earlier, web = kept.get("removed", {}), kept.get("earlier", {}), kept.get("web")
    texts = [*farms, *rights, *(web or ()), *(name for names in farms.values() for name in names)]
    texts += [it for pair in removed.items() for it in pair] + [
        it for name, names in earlier.items() for it in [name, *names]
    ]
    if (
        None in [bytes_of(it) for it in rooms]
        or not all(isinstance(it, str) for it in texts)
        or not all(isinstance(it, int) for it in machine or ())
        or not isinstance(web, (list, type(None)))
    ):
        raise ValueError
    top = os.path.abspath(folder)
    return Kept(
        {os.path.join(top, farm): names for farm, names in farms.items()},
        rights,
        rooms,
        machine,
        {name: os.path.join(top, farm) for name, farm in removed.items()},
        earlier,
        web,
    )


def class_in(folder: str) -> Kept:
    """What is kept of a class. One of an earlier version has the rooms that are usual."""
    path = os.path.join(folder, CLASS)
    try:
        with open(path, encoding="utf-8") as it:
            return read(folder, json.load(it))
    except FileNotFoundError:
        raise Refused(f"there is no class in {folder}: make it first, see ./class --help") from None
    except NotADirectoryError:
        raise Refused(f"{folder} is no folder: give the folder of the class") from None
    except (ValueError, LookupError, TypeError, AttributeError):
        raise Refused(
            f"{path} isn't as class wrote it: put back a copy, or make the class anew in another folder"
        ) from None


def own_class(folder: str) -> Kept:
    """What is kept of a class that this account has made, and in which no other may write."""
    kept, top = class_in(folder), os.path.realpath(folder)
    path = os.path.join(folder, CLASS)
    farms = [os.path.join(top, os.path.basename(it)) for it in kept.farms]
    parts = [top, path, *farms, *(os.path.join(it, "plan.toml") for it in farms)]
    if sum(os.path.exists(it) and bool(os.stat(it).st_mode & OTHERS_WRITE) for it in parts) > 1:
        raise Refused(
            f"other accounts may write in {folder}, as its mask was when the class was made: see that class.json and the "
            f"plans are as you left them, and then find {shlex.quote(folder)} ! -type s -exec chmod go-w {{}} + forbids it"
        )
    check_own(top)
    check_own_file(path)
    return kept


def student_in(farms: dict[str, list[str]], name: str, course: str) -> tuple[str, str]:
    """The folder of a student's farm, and his user's name. He may be named as in the file of names too, and as on the sheet by who may
    read that."""
    users = {user: folder for folder, names in farms.items() for user in names}
    for it in (name, user_name(name)[0]):
        if it in users:
            return users[it], it
    shown = [user for user in users if person_of(course, user) == name.strip()]
    if len(shown) == 1:
        return users[shown[0]], shown[0]
    near = difflib.get_close_matches(user_name(name)[0], users, 3, 0.5)
    more = f"near are {', '.join(near)}" if near else f"class status {shlex.quote(course)} lists all"
    raise Refused(f"there is no student {name} in {course}: {more}")


def place_of(folder: str, name: str) -> tuple[str, str]:
    """The folder of the farm in which a user is, and his name: of a class its farm, and of any other folder itself."""
    if not os.path.isfile(os.path.join(folder, CLASS)):
        return folder, name
    try:
        kept = class_in(folder)
    except PermissionError:
        raise Refused(f"this account may not read {folder}/{CLASS}: give the folder of the farm") from None
    if name == OPERATOR:
        farms = [os.path.join(folder, os.path.basename(it)) for it in kept.farms]
        if len(farms) == 1:
            return farms[0], name
        farm = shlex.quote(farms[0] if farms else folder)
        raise Refused(f"each farm of a class has an operator: connect {farm} {OPERATOR}, say")
    user = user_name(name)[0]
    new = next((it for it, names in kept.earlier.items() if user in names), None)
    if kept.farm_of(user) is None and kept.farm_of(name) is None:
        if user in kept.removed:
            raise Refused(f"{user} was removed from the class in {folder}: ask whoever runs it")
        if new is not None:
            raise Refused(f"{user} is called {new} now: connect {shlex.quote(folder)} {new}")
    farm, user = student_in(kept.farms, name, folder)
    return os.path.join(folder, os.path.basename(farm)), user
