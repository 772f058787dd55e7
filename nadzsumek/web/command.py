"""`class web`: pages for the students of a class, and one for the teacher."""

from __future__ import annotations

import argparse
import asyncio
import ipaddress
import logging
import os
import re
import resource
import signal
import socket
import ssl
import sys
from collections.abc import Callable
from typing import TYPE_CHECKING, NamedTuple

from ..course.book import TEACHER, Book
from ..occam.asking import BOUNDED
from ..serving.escapes import escaped
from ..serving.folder import OWN_FILE, Refused, build, put_whole
from ..serving.kept import own_class, student_in
from .keeping import MOST_WAITING, Keeper, listening_at

if TYPE_CHECKING:
    from .site import Site

LISTEN = "127.0.0.1:8000"
# Where Debian's Python is, which finds Debian's packages.
DEBIAN = "/usr/bin/python3"
# Connections, machines and programs that are run need so many open files at most.
MOST_FILES = 8192
# How many connections are let in before others are served again.
MOST_AT_ONCE = 128
# The words that say where the pages are.
PLACES = ("listen", "address", "cert", "key")
# The file with the teacher's address, in the folder of the class.
TEACHER_SHEET = "teacher.page.txt"
SHEET = """{who}: this is the address of your page:

    {address}

Open it in a browser. Who has it comes in as {who}, so keep it to yourself. class web {again} DIR makes another, and this one is
worth nothing then.
"""


class Place(NamedTuple):
    """Where the site listens: the address of the machine, and the port."""

    host: str
    port: int

    def text(self) -> str:
        return f"[{self.host}]:{self.port}" if ":" in self.host else f"{self.host}:{self.port}"


def place_of(word: str) -> Place:
    found = re.fullmatch(r"(?:\[([0-9a-f:]+)\]|([0-9.]+)):(\d{1,5})", word)
    if not found or int(found[3]) not in range(65536):
        raise argparse.ArgumentTypeError(f"an address and a port are wanted, such as {LISTEN}")
    try:
        return Place(str(ipaddress.ip_address(found[1] or found[2])), int(found[3]))
    except ValueError:
        raise argparse.ArgumentTypeError(f"{found[1] or found[2]} is no address of a machine") from None


def address_of(word: str) -> str:
    if not re.fullmatch(r"https?://[\w.:\[\]-]+", word, re.A):
        raise argparse.ArgumentTypeError("how browsers call the site is wanted, such as https://farm.example.edu")
    return word


def words_of(given: list[str]) -> argparse.Namespace:
    parser = argparse.ArgumentParser(
        prog="class web",
        usage="class web [--listen ADDRESS:PORT] [--address URL] [--cert FILE --key FILE] DIR\n"
        "       class web --new NAME|--new-teacher [--address URL] DIR",
        description="Pages for the students of a class, each by an address of its own, and one for the teacher. Ctrl-C ends it.",
    )
    parser.add_argument(
        "--listen", type=place_of, default=place_of(LISTEN), metavar="ADDRESS:PORT", help=f"default {LISTEN}"
    )
    parser.add_argument(
        "--address", type=address_of, metavar="URL", help="how browsers call the site, if a proxy passes it on"
    )
    parser.add_argument("--cert", metavar="FILE", help="the certificate for TLS, with those above it")
    parser.add_argument("--key", metavar="FILE", help="its key")
    parser.add_argument("--new", metavar="NAME", help="makes another address for a student, and ends")
    parser.add_argument("--new-teacher", action="store_true", help="makes another address for the teacher, and ends")
    parser.add_argument("DIR", help="the folder of the class")
    it = parser.parse_args(given)
    if bool(it.cert) != bool(it.key):
        parser.error("--cert and --key are wanted together")
    return it


def check_aiohttp(given: list[str]) -> None:
    """Goes on with Debian's Python if this one has no aiohttp, and says how to install it if neither has."""
    try:
        import aiohttp  # noqa: F401  only whether it is there is asked
    except ImportError:
        if os.path.realpath(sys.executable) != os.path.realpath(DEBIAN) and os.path.exists(DEBIAN):
            command = os.path.abspath(sys.argv[0])
            os.execv(DEBIAN, [DEBIAN, "-B", command, "web", *given])
        raise Refused("pages want Python's aiohttp: apt-get install python3-aiohttp") from None


def tls_of(it: argparse.Namespace) -> ssl.SSLContext | None:
    """How connections are kept private; none at this machine alone, or if a proxy does it."""
    if it.cert:
        context = ssl.create_default_context(ssl.Purpose.CLIENT_AUTH)
        try:
            context.load_cert_chain(it.cert, it.key)
        except (OSError, ssl.SSLError) as error:
            raise Refused(f"{it.cert} and {it.key} are no certificate and its key: {error}") from None
        return context
    if not ipaddress.ip_address(it.listen.host).is_loopback:
        raise Refused(
            f"at {it.listen.host} secrets would go over the network as they are: give --cert and --key, or listen at "
            "127.0.0.1 and let a proxy with TLS pass the site on (see the guide)"
        )
    return None


def url_of(it: argparse.Namespace) -> str:
    """How browsers call the site."""
    return str(it.address or f"http{'s' if it.cert else ''}://{it.listen.text()}")


def new_address(course: str, book: Book, name: str, url: str) -> str:
    """Makes a secret, and writes its address down, a student's beside the sheets; the path of that file."""
    path = os.path.join(course, "sheets", f"{name}.page.txt") if name else os.path.join(course, TEACHER_SHEET)
    text = SHEET.format(
        who=name or "the teacher",
        address=f"{url}/enter/{book.new_secret(name)}",
        again=f"--new {name}" if name else "--new-teacher",
    )
    put_whole(path, text.encode(), OWN_FILE)
    return path


def new_addresses(course: str, book: Book, url: str) -> list[str]:
    """Makes an address for the teacher and for each student who has none."""
    kept = own_class(course)
    names = {TEACHER, *(name for names in kept.farms.values() for name in names)}
    return [new_address(course, book, name, url) for name in sorted(names - book.holders())]


async def serve(site: Site, it: argparse.Namespace, place: socket.socket, up: Callable[[str], None]) -> None:
    """Serves the site until a signal ends it. `up` is told its address."""
    from aiohttp import web

    tls = tls_of(it)
    ended, loop = asyncio.Event(), asyncio.get_running_loop()
    for one in (signal.SIGINT, signal.SIGTERM, signal.SIGHUP):
        loop.add_signal_handler(one, ended.set)
    runner = web.AppRunner(site.application(), access_log=None, keepalive_timeout=30, handle_signals=False)
    await runner.setup()
    if runner.server is not None:
        site.doors.hang(runner.server)
    watching = asyncio.ensure_future(site.watch())
    try:
        await web.SockSite(runner, place, ssl_context=tls, shutdown_timeout=1, backlog=MOST_AT_ONCE).start()
        # more may wait than are let in at once
        place.listen(MOST_WAITING)
        print(f"the pages of {escaped(it.DIR)} are at {url_of(it)}", flush=True)
        up(url_of(it))
        await ended.wait()
    finally:
        watching.cancel()
        await runner.cleanup()


def pages(given: list[str]) -> int:
    """Serves the pages of a class, or makes a new address."""
    it = words_of(given)
    check_aiohttp(given)
    course, kept = os.path.abspath(it.DIR), own_class(it.DIR)
    if kept.web and not any(getattr(it, name) != getattr(words_of([it.DIR]), name) for name in PLACES):
        # as class start --web has kept them
        it = words_of([*kept.web, *given])
    url = url_of(it)
    tls_of(it)
    if it.new is not None or it.new_teacher:
        name = TEACHER if it.new is None else student_in(kept.farms, it.new, it.DIR)[1]
        book = Book(course)
        print(f"the new address is in {escaped(new_address(course, book, name, url))}")
        book.close()
        return 0
    build("class", "live", "lab")
    # a student's text is compiled within bounds
    os.environ[BOUNDED] = "yes"
    os.umask(0o077)
    most = resource.getrlimit(resource.RLIMIT_NOFILE)[1]
    resource.setrlimit(resource.RLIMIT_NOFILE, (most if most in range(MOST_FILES) else MOST_FILES, most))
    keeper = Keeper(course)
    with listening_at(*it.listen) as place:
        return keeper.keep(lambda: site_of(it, course, place, keeper.is_up))


def site_of(it: argparse.Namespace, course: str, place: socket.socket, up: Callable[[str], None]) -> int:
    """Serves the site at this socket; the status."""
    from .site import Site

    # what strangers send isn't told: they would fill the log
    for name in ("aiohttp", "asyncio"):
        logging.getLogger(name).setLevel(logging.CRITICAL + 1)
    url = url_of(it)
    hosts = {it.listen.text(), url.partition("://")[2]}
    if ipaddress.ip_address(it.listen.host).is_loopback:
        hosts.add(f"localhost:{it.listen.port}")
    site = Site(course, hosts, url.startswith("https:"))
    made = new_addresses(course, site.book, url)
    if made:
        print(f"new addresses: {escaped(made[0])}" + (f", and {len(made) - 1} more" if made[1:] else ""), flush=True)

    def came() -> None:
        with Book(course) as book:
            new_addresses(course, book, url)

    site.came = came
    asyncio.run(serve(site, it, place, up))
    return 0
