"""Pages that come up with their class: `class start --web`, what `status` says, what ends them, what brings them back when they are
killed, their unit, and Debian's nginx before them with the configuration of packaging/."""

import contextlib
import http.client
import json
import os
import re
import shutil
import signal
import socket
import sqlite3
import ssl
import subprocess
import time
from collections.abc import Callable, Iterator

import pytest
from support.courses import Course, child_of
from support.pages import HOST, free_port
from support.serving_trials import SECONDS
from support.trials import TOP, put, text_of


class Kept(Course):
    """A class with pages at a port of its own."""

    def __init__(self, count: int) -> None:
        super().__init__(count)
        self.port = free_port()
        self.place = f"{HOST}:{self.port}"

    def start(self, *words: str) -> str:
        done = self.call("start", *words, self.folder)
        assert (done.returncode, done.stderr) == (0, ""), done.stdout
        return done.stdout

    def secret(self, name: str) -> str:
        path = "teacher.page.txt" if name == "teacher" else f"sheets/{name}.page.txt"
        found = re.search(r"https?://\S+", text_of(os.path.join(self.folder, path)))
        assert found
        return found[0].rpartition("/")[2]

    def status_of(self, name: str, path: str = "/text") -> int:
        it = http.client.HTTPConnection(HOST, self.port, timeout=SECONDS)
        try:
            it.request("GET", path, headers={"Cookie": f"nadzsumek={self.secret(name)}"})
            return it.getresponse().status
        finally:
            it.close()

    def keeper(self) -> int:
        return int(text_of(f"{self.folder}/web.lock").splitlines()[0])

    def site(self) -> int:
        """The number of the process that serves the pages now."""
        keeper = self.keeper()
        return int(text_of(f"/proc/{keeper}/task/{keeper}/children").split()[0])


@pytest.fixture
def kept() -> Iterator[Kept]:
    with Kept(2) as it:
        yield it


def until(is_so: Callable[[], bool]) -> None:
    """Waits until something is so."""
    end = time.monotonic() + SECONDS
    while True:
        try:
            if is_so():
                return
        except (OSError, http.client.HTTPException, ValueError, IndexError):
            pass
        assert time.monotonic() < end
        time.sleep(0.05)


def test_pages_come_with_the_class(kept: Kept) -> None:
    """Also at the next start; they are shown, and end with the class; and they don't come any more when that is said."""
    told = kept.start("--web", "--listen", kept.place)
    assert told.splitlines()[-1] == f"pages: up at http://{kept.place}"
    assert kept.status_of("student-1") == 200
    assert f"the pages are at http://{kept.place}" in kept.must("status").splitlines()
    assert kept.start().splitlines()[-1] == f"pages: up at http://{kept.place}"
    assert kept.must("stop").splitlines()[0] == "pages: off"
    with pytest.raises(ConnectionRefusedError):
        kept.status_of("student-1")
    assert "the pages are off" in kept.must("status").splitlines()
    assert kept.start().splitlines()[-1] == f"pages: up at http://{kept.place}"
    assert kept.status_of("student-2") == 200
    done = kept.call("start", "--no-web", kept.folder)
    assert (done.returncode, "class stop" in done.stderr) == (1, True)
    kept.must("stop")
    assert "pages" not in kept.start("--no-web")
    assert "pages" not in kept.must("status")


def test_words_of_pages(kept: Kept) -> None:
    """What is refused, with nothing kept of it."""
    before = text_of(f"{kept.folder}/class.json")
    for words, told in (
        (["--listen", kept.place], "are words of --web"),
        (["--web", "--no-web"], "aren't wanted together"),
        (["--web", "--listen", "nowhere"], "an address and a port are wanted"),
        (["--web", "--cert", "x"], "--cert and --key are wanted together"),
    ):
        done = kept.call("start", *words, kept.folder)
        assert (words, done.returncode, told in done.stderr) == (words, 2, True), done.stderr
    assert text_of(f"{kept.folder}/class.json") == before
    with socket.create_server((HOST, kept.port)):
        done = kept.call("start", "--web", "--listen", kept.place, kept.folder)
    assert done.returncode == 1
    assert f"pages: they did not start, see {kept.folder}/web.log: the site can't listen at" in done.stdout


def test_site_is_killed(kept: Kept) -> None:
    """It is begun again at the same place, and who comes meanwhile waits for it. What was kept is there."""
    kept.start("--web", "--listen", kept.place)
    site = kept.site()
    os.kill(site, signal.SIGKILL)
    assert kept.status_of("student-1") == 200
    assert kept.site() != site
    until(lambda: f"the pages are at http://{kept.place}" in kept.must("status"))
    assert "the site ended by signal 9 (SIGKILL), and is begun again" in text_of(f"{kept.folder}/web.log")


def test_nothing_answered_is_lost(kept: Kept) -> None:
    """What a page was answered is so after the site, `live` and `serve` were killed, each as soon as it had answered."""
    kept.start("--web", "--listen", kept.place)
    headers = {"Cookie": f"nadzsumek={kept.secret('student-1')}", "Origin": f"http://{kept.place}"}

    def asked(path: str, **words: str) -> dict[str, list[str]]:
        it = http.client.HTTPConnection(HOST, kept.port, timeout=SECONDS)
        try:
            it.request("POST", path, json.dumps(words), headers)
            return dict(json.loads(it.getresponse().read()))
        finally:
            it.close()

    def ports() -> str:
        return asked("/line", line="ports").get("lines", [""])[0]

    kills: tuple[Callable[[], int], ...] = (kept.site, lambda: child_of(kept.lock(1)), lambda: kept.lock(1))
    for at, kill in enumerate(kills):
        line, told = ("join 0 1", "ports 0:1 1:0") if at % 2 == 0 else ("config 0500", "ports 0:- 1:0")
        asked("/text", kind="occ", text=f"-- {at}\nSKIP\n")
        assert asked("/line", line=line)["lines"][0] == "config -"
        os.kill(kill(), signal.SIGKILL)
        if at == 2:
            kept.start()
        until(lambda: ports() == told)
        until(lambda: kept.status_of("student-1") == 200)
        with contextlib.closing(sqlite3.connect(f"{kept.folder}/pages.sqlite")) as base:
            assert base.execute("SELECT text FROM version ORDER BY number DESC").fetchone()[0] == f"-- {at}\nSKIP\n"


def test_keeper_is_killed(kept: Kept) -> None:
    """The site ends with it, and the process that keeps the whole class begins another. One that was stopped stays off."""
    kept.start("--web", "--listen", kept.place)
    kept.must("stop")
    whole = kept.begin("serve")
    try:
        until(lambda: kept.status_of("student-1") == 200)
        keeper, site = kept.keeper(), kept.site()
        os.kill(keeper, signal.SIGKILL)
        until(lambda: kept.keeper() != keeper and kept.status_of("student-1") == 200)
        assert not os.path.exists(f"/proc/{site}")
        kept.must("stop")
        time.sleep(3)
        assert "the pages are off" in kept.must("status")
        kept.start()
        assert kept.status_of("student-1") == 200
    finally:
        whole.terminate()
        whole.communicate(timeout=SECONDS)
    until(lambda: "the pages are off" in kept.must("status"))


def test_who_comes_later(kept: Kept) -> None:
    """Has an address without another start, and who is renamed keeps the one there was."""
    kept.start("--web", "--listen", kept.place)
    secret = kept.secret("student-1")
    kept.must_change("add", "Ada Byron")
    until(lambda: os.path.exists(f"{kept.folder}/sheets/ada-byron.page.txt"))
    assert kept.status_of("ada-byron") == 200
    assert secret == kept.secret("student-1")


def test_class_with_pages_ends(kept: Kept) -> None:
    """`finish --remove` leaves nothing of them behind."""
    kept.start("--web", "--listen", kept.place)
    done = kept.call("finish", "--remove", kept.folder)
    assert (done.returncode, done.stderr, "stays" in done.stdout) == (0, "", False), done.stdout
    assert not os.path.exists(kept.folder)


@pytest.mark.skipif(not shutil.which("systemd-analyze"), reason="there is no systemd here")
def test_unit(kept: Kept) -> None:
    """What systemd says of the unit of pages."""
    unit = text_of(f"{TOP}/nadzsumek/serving/pages@.service").replace("@PREFIX@/bin/class", f"{TOP}/class")
    path = put(f"{kept.room.name}/pages@.service", unit.replace("User=farm", "User=daemon"))
    done = subprocess.run(
        ["systemd-analyze", "verify", "--man=no", path], capture_output=True, encoding="utf-8", check=False
    )
    assert (done.stdout, done.stderr) == ("", "")
    call = ["systemd-analyze", "security", "--offline=true", "--no-pager", "--threshold=25", path]
    assert subprocess.run(call, capture_output=True, check=False).returncode == 0


def certificate(room: str) -> tuple[str, str]:
    """A certificate of this machine, and its key."""
    cert, key = f"{room}/cert.pem", f"{room}/key.pem"
    call = ["openssl", "req", "-x509", "-newkey", "rsa:2048", "-nodes", "-days", "2", "-keyout", key, "-out", cert]
    call += ["-subj", "/CN=localhost", "-addext", "subjectAltName=DNS:localhost"]
    subprocess.run(call, check=True, capture_output=True)
    return cert, key


@pytest.mark.skipif(not shutil.which("nginx") or not shutil.which("openssl"), reason="there is no nginx here")
def test_nginx(kept: Kept) -> None:
    """The configuration of packaging/, with other names and ports: pages over TLS, also what they hear; a body that is too long, and
    a name that isn't the site's."""
    port, clear, room = free_port(), free_port(), kept.room.name
    cert, key = certificate(room)
    kept.start("--web", "--listen", kept.place, "--address", f"https://localhost:{port}")
    text = text_of(f"{TOP}/packaging/nginx.conf")
    for old, new in (
        ("127.0.0.1:8000", kept.place),
        ("listen 80;", f"listen {HOST}:{clear};"),
        ("listen 443 ssl http2;", f"listen {HOST}:{port} ssl http2;"),
        ("Host $host;", f"Host $host:{port};"),
        ("https://farm.example.edu$", f"https://localhost:{port}$"),
        ("server_name farm.example.edu;", "server_name localhost;"),
        ("/etc/ssl/certs/farm.pem", cert),
        ("/etc/ssl/private/farm.key", key),
    ):
        assert old in text
        text = text.replace(old, new)
    folders = "".join(f"{it}_temp_path {room}/{it};\n" for it in ("client_body", "proxy", "fastcgi", "uwsgi", "scgi"))
    whole = (
        f"daemon off;\npid {room}/nginx.pid;\nerror_log {room}/error.log;\nevents {{}}\nhttp {{\n{folders}{text}}}\n"
    )
    path = put(f"{room}/nginx.conf", whole)
    nginx = subprocess.Popen(["nginx", "-c", path, "-e", f"{room}/error.log"])
    context = ssl.create_default_context(cafile=cert)

    def asked(method: str, path: str, body: bytes | None = None, **headers: str) -> tuple[int, dict[str, str], bytes]:
        it = http.client.HTTPSConnection("localhost", port, context=context, timeout=SECONDS)
        try:
            it.request(method, path, body, headers)
            answer = it.getresponse()
            return answer.status, dict(answer.getheaders()), answer.read()
        finally:
            it.close()

    try:
        until(lambda: asked("GET", "/")[0] == 401)
        status, headers, _ = asked("GET", f"/enter/{kept.secret('student-1')}")
        assert (status, "; Secure" in headers["Set-Cookie"]) == (200, True)
        assert "Strict-Transport-Security" in headers
        cookie = {"Cookie": f"nadzsumek={kept.secret('student-1')}", "Origin": f"https://localhost:{port}"}
        status, _, told = asked("POST", "/line", json.dumps({"line": "ports"}).encode(), **cookie)
        assert (status, json.loads(told)["lines"][0]) == (200, "ports 0:- 1:-")
        assert asked("POST", "/line", b"x" * 300_000, **cookie)[0] == 413
        with context.wrap_socket(socket.create_connection((HOST, port)), server_hostname="localhost") as stream:
            lines = [f"GET /live HTTP/1.1\r\nHost: localhost:{port}", *(f"{name}: {it}" for name, it in cookie.items())]
            lines += ["Upgrade: websocket", "Connection: Upgrade", "Sec-WebSocket-Version: 13"]
            stream.sendall("\r\n".join([*lines, f"Sec-WebSocket-Key: {'A' * 22}==", "", ""]).encode())
            stream.settimeout(SECONDS)
            heard = b""
            while b'"rest"' not in heard:
                assert (piece := stream.recv(4096))
                heard += piece
        assert heard.startswith(b"HTTP/1.1 101 ")
        it = http.client.HTTPConnection(HOST, clear, timeout=SECONDS)
        it.request("GET", "/")
        assert it.getresponse().headers["Location"] == f"https://localhost:{port}/"
        it.close()
    finally:
        nginx.terminate()
        nginx.wait(timeout=SECONDS)
