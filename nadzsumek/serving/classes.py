"""A class: its folders and sheets, its farms, and what its students have done."""

from __future__ import annotations

import argparse
import fcntl
import os
import shlex
import signal
import sys
import time
from collections.abc import Callable
from concurrent.futures import ThreadPoolExecutor

from ..mistakes.nearness import nearest
from .changing import forget_away, hold, starting
from .checking import check
from .coming import add, change_one, remove, rename
from .escapes import escaped, set_errors
from .finishing import finish
from .folder import (
    CLASS,
    FOLDER_MODE,
    PROVED,
    Refused,
    add_proved,
    build,
    check_own,
    is_half_done,
    is_locked,
    made,
    mode_of,
    own_plan,
    program,
    refuse_unproved,
    socket_path,
)
from .kept import Kept, Rooms, own_class
from .plans import LIMIT, Machine, farms_of, plan_of, students_of
from .replacement import replace
from .rooms import Needed, add_bounds
from .sheets import count, sheet, sheet_path, ways_of
from .sites import StartSite, StopSite, address_of, keeper_of
from .status import OFF, table, told_by
from .supervising import LEAVE_OFF, Supervisor, tell
from .upkeep import INTERRUPTED, LAST_SECONDS, PAUSE, Stop, Work, do_all
from .verifying import verify
from .versions import add_version
from .wall import wall

# How many farms are asked at once.
MOST_ASKED = 32
# The words of pages, as for `class web`, and what each wants behind it.
OF_PAGES = {"listen": "ADDRESS:PORT", "address": "URL", "cert": "FILE", "key": "FILE"}
# What most orders want behind them.
FOLDER_ALONE = "the folder of the class behind it, and nothing else"


def say_rooms(folder: str, domains: int, rooms: Rooms) -> None:
    """Says what the rooms may take together, if there isn't so much."""
    needed = Needed(domains, rooms.room, rooms.record_room, folder)
    warnings = [*needed.warnings()]
    print("".join(f"{escaped(it)}\n" for it in ([f"note: {needed.told()}", *warnings] if warnings else [])), end="")


def check_free(folder: str) -> None:
    """Refuses a folder that has a class."""
    if os.path.exists(os.path.join(folder, CLASS)):
        raise Refused(
            f"there is a class in {os.path.abspath(folder)} already: take another folder. Or begin again: class stop "
            f"{shlex.quote(folder)}, and then remove the folder, with all that its students did"
        )


def make(words: argparse.Namespace) -> int:
    """Writes the folders, plans and sheets of a class."""
    folder, machine = os.path.abspath(words.DIR), Machine(words.nodes, words.hosts, words.memory, words.limit)
    machine.check()
    (students, notes), ways = students_of(words.students), ways_of(words.mode)
    check_free(words.DIR)
    farms = {f"farm-{at}": names for at, names in enumerate(farms_of([*students], machine), 1)}
    for farm in farms:
        for name in farms[farm]:
            socket_path(os.path.join(folder, farm), name)
    made(folder, FOLDER_MODE)
    check_own(folder)
    for it in ("sheets", *farms):
        if os.path.lexists(os.path.join(folder, it)):
            check_own(os.path.join(folder, it))
    files = {}
    for farm, names in farms.items():
        place = os.path.join(folder, farm)
        files[os.path.join(place, "plan.toml")] = plan_of(names, machine).encode()
        for name in names:
            files[sheet_path(folder, name)] = sheet(students[name], name, machine, place, ways).encode()
    rights = ["--mode", f"{words.mode:03o}"] + (["--group", words.group] if words.group else [])
    rights += [PROVED] if words.proved else []
    rooms = Rooms().changed(words)
    files[os.path.join(folder, CLASS)] = Kept(farms, rights, rooms, machine).text().encode()
    with hold(folder, fcntl.LOCK_EX):
        check_free(words.DIR)
        replace(folder, files)
    print("".join(f"note: {escaped(it)}\n" for it in notes), end="")
    print(
        f"{count(len(students), 'student')} in {count(len(farms), 'farm')}, each with {count(machine.ports(), 'port')}; "
        f"their sheets are in {os.path.join(words.DIR, 'sheets')}"
    )
    say_rooms(folder, len(students), rooms)
    return 0


def start(folder: str) -> int:
    """Starts each farm that isn't served yet, and waits until it answers."""
    if PROVED in own_class(folder).rights:
        refuse_unproved()
    build("class", "live", "lab")
    with hold(folder, fcntl.LOCK_SH, brings_back=False):
        forget_away(folder)
        kept = own_class(folder)
        works: list[Work] = [starting(kept, farm, folder, names) for farm, names in kept.farms.items()]
        # pages ask the farms, and wait for those that aren't up yet
        return do_all(works + ([StartSite(os.path.abspath(folder), kept.web)] if kept.web is not None else []))


def words_of_start(words: list[str]) -> argparse.Namespace:
    parser = argparse.ArgumentParser(
        prog="class start",
        usage="class start [--room SIZE] [--record-room SIZE] [--line-steps SIZE] [--restart-steps SIZE] [--proved]\n"
        "                   [--web [--listen ADDRESS:PORT] [--address URL] [--cert FILE --key FILE]|--no-web] DIR",
        description="Starts the farms of a class with other bounds, with proved programs alone, or with pages, also from then on.",
    )
    add_bounds(parser)
    add_proved(parser)
    parser.add_argument("--web", action="store_true", help="pages come up with the farms, also from then on")
    parser.add_argument("--no-web", action="store_true", help="no pages come up with them any more")
    for name, what in OF_PAGES.items():
        parser.add_argument(f"--{name}", metavar=what, help="as for class web")
    parser.add_argument("DIR", help="the folder of the class")
    it = parser.parse_args(words)
    if any(getattr(it, name) for name in OF_PAGES) and not it.web:
        parser.error("--listen, --address, --cert and --key are words of --web")
    if it.web and it.no_web:
        parser.error("--web and --no-web aren't wanted together")
    return it


def pages_of(it: argparse.Namespace, kept: Kept) -> list[str] | None:
    """The words of the pages that a class has from now on. Files are named so that they are found from anywhere."""
    if it.no_web or not it.web:
        return None if it.no_web else kept.web
    given = {name: value for name in OF_PAGES if (value := getattr(it, name))}
    if not given:
        return kept.web or []
    given |= {name: os.path.abspath(given[name]) for name in ("cert", "key") if name in given}
    words = [word for name, value in given.items() for word in (f"--{name}", value)]
    from ..web.command import words_of

    # what is wrong is said before anything is kept
    words_of([*words, it.DIR])
    return words


def start_with(words: list[str]) -> int:
    """Starts the farms with other rooms than they had, with proved programs alone, or with pages, which is kept from then on."""
    it = words_of_start(words)
    kept = own_class(it.DIR)
    rooms, web = kept.rooms.changed(it), pages_of(it, kept)
    rights = kept.rights + ([PROVED] if it.proved and PROVED not in kept.rights else [])
    if (rooms, rights) != (kept.rooms, kept.rights):
        for farm in kept.farms:
            if is_locked(farm):
                raise Refused(
                    f"{os.path.basename(farm)} is up, as it was started: class stop {shlex.quote(it.DIR)} first"
                )
    if web != kept.web and (number := keeper_of(it.DIR)) is not None:
        raise Refused(f"the pages are up (process {number}): class stop {shlex.quote(it.DIR)} first")
    if (rooms, rights, web) != (kept.rooms, kept.rights, kept.web):
        with hold(it.DIR, fcntl.LOCK_EX):
            text = own_class(it.DIR)._replace(rooms=rooms, rights=rights, web=web).text()
            replace(os.path.abspath(it.DIR), {os.path.join(os.path.abspath(it.DIR), CLASS): text.encode()})
    if rooms != kept.rooms:
        say_rooms(it.DIR, sum(len(names) for names in kept.farms.values()), rooms)
    return start(it.DIR)


def mend_soon(course: str) -> None:
    """Ends an order that is half done, unless another process of the class does. Units start all its farms side by side."""
    end = time.monotonic() + LAST_SECONDS
    while is_half_done(course):
        try:
            with hold(course, fcntl.LOCK_EX, brings_back=False):
                pass
        except Refused:
            if time.monotonic() > end:
                raise
            time.sleep(PAUSE)


def serve(*words: str) -> int:
    """Becomes the `serve` of one farm, with what is kept of its class, or has those of all its farms as children, as a unit of
    systemd wants it."""
    *more, farm = words if words else ("",)
    if not farm or [it for it in more if it not in ("--sync", "--no-web")]:
        raise Refused(
            "serve wants the folder of a farm behind it or that of a class, or --sync and the folder. Try: class serve "
            "course/farm-1"
        )
    has_pages, more = "--no-web" not in more, [it for it in more if it != "--no-web"]
    farm = os.path.abspath(farm)
    is_whole = os.path.isfile(os.path.join(farm, CLASS))
    course = farm if is_whole else os.path.dirname(farm)
    own_class(course)
    mend_soon(course)
    kept = own_class(course)
    if is_whole:
        return Supervisor(farm, more, has_pages).run()
    if farm not in kept.farms:
        raise Refused(
            f"{farm} is no farm of its class: there are {', '.join(os.path.basename(it) for it in kept.farms)}"
        )
    call = [program("serve"), *more, *kept.rights, *kept.rooms.words(), own_plan(farm), farm]
    os.execv(call[0], call)


def stop(folder: str) -> int:
    """Stops each farm. Its records stay, and it goes on from them when it is started again."""
    own_class(folder)
    with hold(folder, fcntl.LOCK_SH, mends=False):
        forget_away(folder)
        tell(folder, LEAVE_OFF)
        kept = own_class(folder)
        # pages that class web serves by itself stay: they say that the farms are away
        works: list[Work] = [StopSite(os.path.abspath(folder))] if kept.web is not None and keeper_of(folder) else []
        return do_all(works + [Stop(farm, folder) for farm in kept.farms])


def status(folder: str) -> int:
    """Prints a row for each student, and below them how much memory each farm has that answers, and whether it is proved."""
    kept = own_class(folder)
    farms = kept.farms
    # a farm that doesn't answer delays no other's rows
    with ThreadPoolExecutor(MOST_ASKED) as pool:
        told = [*pool.map(told_by, farms.keys(), farms.values())]
    print("\n".join(table([row for rows, _ in told for row in rows])))
    remarks = [escaped(it) for it in [*(it for _, lines in told for it in lines), *of_pages(folder, kept)]]
    print("".join(f"{it}\n" for it in (["", *remarks] if remarks else [])), end="")
    return 0


def of_pages(folder: str, kept: Kept) -> list[str]:
    """What is said of the pages below the rows: where they are, or that they are off though the class has some."""
    if (number := keeper_of(folder)) is None:
        return [] if kept.web is None else [f"the pages are {OFF}"]
    address = address_of(folder)
    return [f"the pages are at {address}" if address else f"the pages don't answer yet (process {number})"]


def check_record(folder: str, name: str, file: str) -> int:
    """Says whether a file is what the farm has recorded of a student."""
    how, lines = verify(folder, own_class(folder), name, file)
    print("\n".join(escaped(it) for it in lines))
    return how


# Each with what it wants behind it, and an example of that.
ORDERS: dict[str, tuple[Callable[..., int], str, str]] = {
    "start": (start, FOLDER_ALONE, "course"),
    "stop": (stop, FOLDER_ALONE, "course"),
    "status": (status, FOLDER_ALONE, "course"),
    "remove": (remove, "the folder of the class and a student's name", "course ada-lovelace"),
    "rename": (rename, "the folder of the class, a student's name and the new one", "course ada-lovelace 'Ada Byron'"),
    "verify": (
        check_record,
        "the folder of the class, a student's name and a file",
        "course ada-lovelace ada-lovelace.replay",
    ),
}


def web(words: list[str]) -> int:
    """Serves pages for the students, by what only they want."""
    from ..web.command import pages

    return pages(words)


def handed_in(words: list[str]) -> int:
    from ..course.orders import submitted

    return submitted(words)


def marked(words: list[str]) -> int:
    from ..course.orders import marks

    return marks(words)


def exercises(words: list[str]) -> int:
    from ..course import orders

    return orders.exercises(words)


# Those that read their words by themselves.
MORE_ORDERS: dict[str, Callable[[list[str]], int]] = {
    "serve": lambda words: serve(*words),
    "add": add,
    "change": change_one,
    "finish": finish,
    "check": check,
    "wall": wall,
    "web": web,
    "submitted": handed_in,
    "marks": marked,
    "exercises": exercises,
}


ABOUT_ORDERS = """\
a class that is there:
  class start DIR             starts the farms that aren't up, and waits until they answer. With --room, --record-room,
                              --line-steps or --restart-steps they have other bounds from then on, and with --proved they
                              run no program that isn't proved; stop them first. With --web pages come up with them, by the
                              words of class web, and with --no-web no more
  class serve DIR/FARM        is the serve of one farm, until it is stopped, as a unit of systemd wants it; also with --sync
  class serve DIR             is those of all farms, until it is stopped, also of farms that are added later, and keeps the
                              pages up, but with --no-web
  class stop DIR              stops the farms; they go on where they were when they are started again
  class status DIR            shows what each student has done
  class add DIR NAME ..       adds students: each gets a place in a farm that has one, or in one more farm. Others keep what
                              they have, but a farm with a new place is away for a second. With --students NAMES.txt too
  class remove DIR NAME ..    removes students. Their records, plans and sheets stay until the class is finished
  class change DIR NAME       gives a student a machine of another shape, which begins anew, with --nodes N [--hosts H]
  class rename DIR OLD NEW    gives a student another name; the records go with him
  class finish DIR [ARCHIVE]  puts all records, plans and sheets into an archive (DIR.tar.xz unless given); with --remove the
                              class is stopped, and what the archive has is removed then
  class verify DIR NAME FILE  says whether a file is what the farm has recorded of a student
  class check DIR EXERCISE PROGRAMS
                              tries each student's program in an exercise, in farms of its own, and prints a table; also for
                              a spreadsheet with --csv FILE, and as a page with --html FILE; with --submitted in place of
                              PROGRAMS what each handed in last
  class web DIR               serves a page for each student, and one for the teacher, until it is stopped; the addresses are
                              beside the sheets. See class web --help
  class exercises FOLDER      tries each exercise of a folder against its own solutions and wrong programs; with --close NAME
                              TIME an exercise of a class closes then
  class submitted DIR         shows what students have handed in
  class marks DIR             shows each student's points, by what was handed in last; both also with --csv FILE
  class wall DIR              shows a tile for each student, those who need help first, again every few seconds (--seconds N),
                              or once with --once; with a FILE behind it as a page for a browser
"""


def words_of(given: list[str]) -> argparse.Namespace:
    parser = argparse.ArgumentParser(
        prog="class",
        description="A farm for each student of a class.",
        epilog=ABOUT_ORDERS,
        formatter_class=argparse.RawDescriptionHelpFormatter,
        usage="""\
class --students NAMES.txt --nodes N [--hosts H] [--memory M] [--limit L] [--room SIZE] [--record-room SIZE]
             [--line-steps SIZE] [--restart-steps SIZE] [--mode M] [--group G] [--proved] DIR
       class start [--room SIZE] [--record-room SIZE] [--line-steps SIZE] [--restart-steps SIZE] [--proved]
             [--web [--listen ADDRESS:PORT] [--address URL] [--cert FILE --key FILE]|--no-web] DIR
       class serve [--sync] [--no-web] DIR|DIR/FARM
       class stop|status DIR
       class add [--students NAMES.txt] DIR [NAME ..]
       class remove DIR NAME ..
       class change DIR NAME --nodes N [--hosts H]
       class rename DIR OLD NEW
       class finish [--remove] DIR [ARCHIVE]
       class verify DIR NAME FILE
       class check [--csv FILE] [--html FILE] [--submitted] DIR EXERCISE [PROGRAMS]
       class web [--listen ADDRESS:PORT] [--address URL] [--cert FILE --key FILE]
                 [--new NAME|--new-teacher] DIR
       class exercises FOLDER|--close NAME TIME DIR
       class submitted|marks [--csv FILE] DIR
       class wall [--seconds N] [--once] DIR [FILE]""",
    )
    add_version(parser)
    parser.add_argument("--students", required=True, metavar="NAMES.txt", help="a file with one name a line")
    parser.add_argument("--nodes", type=int, required=True, metavar="N", help="how many nodes each student has, 1 to 8")
    parser.add_argument("--hosts", type=int, default=1, metavar="H", help="how many hosts, 1 to 4, default 1")
    parser.add_argument(
        "--memory", type=int, default=4096, metavar="M", help="how many bytes each node has, default 4096"
    )
    parser.add_argument(
        "--limit", type=int, default=LIMIT[-1], metavar="L", help=f"how many events are recorded, default {LIMIT[-1]}"
    )
    add_bounds(parser, has_defaults=True)
    parser.add_argument(
        "--mode", type=mode_of, default=0o600, metavar="M", help="the mode of the students' sockets, default 600"
    )
    parser.add_argument(
        "--group", metavar="G", help="the group of the students' sockets; %%u in it stands for the user's name"
    )
    add_proved(parser)
    parser.add_argument("DIR", help="the folder of the class")
    return parser.parse_args(given)


def order(given: list[str]) -> int:
    """Does what is asked of a class that is there."""
    first, *words = given
    if first in MORE_ORDERS:
        return MORE_ORDERS[first](words)
    if first not in ORDERS:
        near = nearest(first.lower(), [*ORDERS, *MORE_ORDERS])
        there = shlex.quote(words[0]) if len(words) == 1 else "course"
        how = example_of(near, there) if near and near in ORDERS else f"class {near} --help" if near else None
        more = f"Is it {near}? Try: {how}" if near else "A new class wants --students, see class --help"
        *names, last = sorted([*ORDERS, *MORE_ORDERS])
        raise Refused(f"there is no subcommand {first}: there are {', '.join(names)} and {last}. {more}")
    if first == "start" and any(it.startswith("--") for it in words):
        return start_with(words)
    does, wants, example = ORDERS[first]
    least = len(shlex.split(example))
    if len(words) < least or (len(words) > least and first != "remove"):
        raise Refused(f"{first} wants {wants}. Try: {example_of(first)}")
    return does(*words)


def example_of(name: str, folder: str = "course") -> str:
    """An order as it may be typed, of this class."""
    return f"class {name} {ORDERS[name][2].replace('course', folder, 1)}"


def done(given: list[str]) -> int:
    """Does what these words ask for; the status."""
    if given and (given[0] in (*ORDERS, *MORE_ORDERS) or not any(it.startswith("-") for it in given)):
        return order(given)
    return make(words_of(given))


def main(given: list[str]) -> int:
    set_errors(sys.stdout, "backslashreplace")
    for it in (signal.SIGTERM, signal.SIGHUP):
        # a terminal that is closed, or a service manager, breaks an order off as Ctrl-C does
        if signal.getsignal(it) is signal.SIG_DFL:
            signal.signal(it, signal.default_int_handler)
    try:
        try:
            return done(given)
        finally:
            # a reader who is gone is noticed here, and not when Python ends
            sys.stdout.flush()
    except BrokenPipeError:
        # nobody reads any more
        os.dup2(os.open(os.devnull, os.O_WRONLY), sys.stdout.fileno())
        return 1
    except (Refused, OSError) as error:
        print("".join(f"class: {escaped(it)}\n" for it in str(error).split("\n")), end="", file=sys.stderr)
        return 1
    except KeyboardInterrupt:
        return INTERRUPTED
