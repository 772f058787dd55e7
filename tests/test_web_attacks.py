"""Pages of a class that are attacked: connections without number, requests that never end, secrets that are guessed, and texts, names and
outputs full of markup. Nobody gets in, nothing is shown that isn't theirs, a student's page is answered meanwhile, and the memory of
the site stays within its bound."""

import contextlib
import json
import os
import random
import resource
import socket
import threading
import time
from collections.abc import Iterator

import pytest
from support.pages import HOST, Pages
from support.serving_trials import SECONDS
from support.trials import NEXT, text_of

# How many MB of memory the site may have at most, whatever is asked of it.
MOST_MEMORY = 256
HEAD = "POST /run HTTP/1.1\r\nHost: {place}\r\nOrigin: http://{place}\r\nCookie: nadzsumek={secret}\r\n"
MARKUP = "<script>alert(1)</script><img src=x onerror=alert(2)>\u202e\x1b[2J"


@pytest.fixture(scope="module")
def pages() -> Iterator[Pages]:
    with Pages(3) as it:
        it.run("student-1", NEXT, "HAL")
        yield it


def site_of(pages: Pages) -> int:
    keeper = int(text_of(f"{pages.folder}/web.lock").splitlines()[0])
    return int(text_of(f"/proc/{keeper}/task/{keeper}/children").split()[0])


def memory_of(number: int, what: str = "VmRSS") -> float:
    """How many MB of memory a process has."""
    line = next(it for it in text_of(f"/proc/{number}/status").splitlines() if it.startswith(what))
    return int(line.split()[1]) / 1024


@contextlib.contextmanager
def answered(pages: Pages, seconds: float) -> Iterator[None]:
    """A student's programs are run during a block, none in more than these seconds."""
    slow, ended = list[float](), threading.Event()
    wrong = list[object]()

    def run() -> None:
        while not ended.is_set():
            begun = time.monotonic()
            try:
                told = pages.post("student-1", "/run", kind="occ", text=NEXT, send="HAL").told()
                if told["came"]["letters"] != '"IBM"':
                    wrong.append(told)
            except (OSError, ValueError, LookupError) as error:
                wrong.append(error)
            slow.append(time.monotonic() - begun)
            ended.wait(0.2)

    thread = threading.Thread(target=run)
    thread.start()
    try:
        yield
    finally:
        ended.set()
        thread.join()
    print(f"{len(slow)} runs meanwhile, the slowest in {max(slow):.2f} s")
    assert (wrong, max(slow) < seconds) == ([], True), (wrong[:3], max(slow))


@pytest.mark.long
@pytest.mark.alone
def test_ten_thousand_connections(pages: Pages) -> None:
    """Strangers who say nothing, or half a request, keep nobody out, and take no more memory than is said."""
    most = resource.getrlimit(resource.RLIMIT_NOFILE)[1]
    resource.setrlimit(resource.RLIMIT_NOFILE, (most, most))
    held, site = list[socket.socket](), site_of(pages)
    halves = (b"", b"GET / HTTP/1.1\r\nHost: ", b"POST /run HTTP/1.1\r\nContent-Length: 99999\r\n\r\n", b"\x16\x03\x01")
    with answered(pages, 10):
        for number in range(10_000):
            try:
                it = socket.create_connection((HOST, pages.port), timeout=5)
            except OSError:
                continue
            with contextlib.suppress(OSError):
                it.sendall(halves[number % 4])
            held.append(it)
            if len(held) > most - 200:
                held.pop(0).close()
        time.sleep(2)
    print(f"{len(held)} connections, and the site has {memory_of(site, 'VmHWM'):.0f} MB at most")
    files = len(os.listdir(f"/proc/{site}/fd"))
    assert files < 2300
    assert memory_of(site, "VmHWM") < MOST_MEMORY
    for it in held:
        it.close()
    time.sleep(1)
    assert site_of(pages) == site
    assert pages.run("student-2", NEXT, "HAL")["came"]["letters"] == '"IBM"'


def test_bodies_without_end(pages: Pages) -> None:
    """Of one who has a secret: a body that says no length, one that is longer than may be, and one that comes byte by byte."""
    site = site_of(pages)
    head = HEAD.format(place=pages.place, secret=pages.secret("student-2"))
    with answered(pages, 5):
        for kind, most in (
            ("Transfer-Encoding: chunked\r\n\r\n", 4 << 20),
            ("Content-Length: 999999999\r\n\r\n", 4 << 20),
        ):
            with socket.create_connection((HOST, pages.port), timeout=SECONDS) as it:
                it.sendall((head + kind).encode())
                sent, is_refused = 0, False
                try:
                    while sent < most:
                        it.sendall(b"8000\r\n" + b"x" * 0x8000 + b"\r\n" if "chunked" in kind else b"x" * 0x8000)
                        sent += 0x8000
                    it.settimeout(SECONDS)
                    is_refused = b" 413 " in it.recv(100)
                except OSError:
                    is_refused = True
                assert (kind, is_refused) == (kind, True)
        with socket.create_connection((HOST, pages.port), timeout=SECONDS) as it:
            it.sendall((head + "Content-Length: 1000\r\n\r\n").encode())
            it.settimeout(0.5)
            begun, answer = time.monotonic(), b""
            while not answer and time.monotonic() < begun + 20:
                with contextlib.suppress(TimeoutError, BrokenPipeError, ConnectionResetError):
                    it.sendall(b"x")
                    answer = it.recv(100)
            assert answer.startswith(b"HTTP/1.1 408 ")
    assert memory_of(site, "VmHWM") < MOST_MEMORY


def test_heads_without_end(pages: Pages) -> None:
    """A head that is too long, with lines without number or a path without end."""
    for head in (
        b"GET /" + b"x" * 100_000,
        b"GET / HTTP/1.1\r\n" + b"X: y\r\n" * 100_000,
        b"GET / HTTP/1.1\r\nCookie: nadzsumek=" + b"a" * 100_000 + b"\r\n\r\n",
    ):
        with socket.create_connection((HOST, pages.port), timeout=SECONDS) as it:
            with contextlib.suppress(OSError):
                it.sendall(head)
                it.shutdown(socket.SHUT_WR)
                answer = it.recv(1000)
                assert answer[:12] in (b"", b"HTTP/1.1 400", b"HTTP/1.0 400", b"HTTP/1.1 401"), answer
    assert pages.get("student-1", "/text").status == 200


def test_guessed_secrets(pages: Pages) -> None:
    """Those that are near a right one, and hundreds by chance: none is let in, by cookie or by address."""
    chance = random.Random(1)
    letters = "ABCDEFGHIJKLMNOPQRSTUVWXYZabcdefghijklmnopqrstuvwxyz0123456789-_"
    right = pages.secret("student-1")
    guesses = [right[:at] + ("A" if right[at] != "A" else "B") + right[at + 1 :] for at in range(len(right) - 1)]
    guesses += ["".join(chance.choices(letters, k=22)) for _ in range(200)]
    guesses += [right + "A", right[:-1], right.lower(), f"{right};{right}x", "null", "undefined", "' OR 1=1 --", "*"]
    for guess in guesses:
        if guess in (right, f"{right};{right}x"):
            continue
        it = pages.request("GET", "/text", headers={"Cookie": f"nadzsumek={guess}"})
        assert (guess, it.status) == (guess, 401)
    for guess in guesses[:40]:
        if all(letter in letters for letter in guess):
            assert pages.request("GET", f"/enter/{guess}").status == 401


def test_markup(pages: Pages) -> None:
    """In texts, in what is sent, and in lines: what comes back is JSON, or HTML in which nothing of it is markup."""
    told = pages.post("student-1", "/run", kind="occ", text=MARKUP, send=MARKUP)
    assert told.headers["Content-Type"].startswith("application/json")
    assert told.told()["mistakes"]
    assert pages.post("student-1", "/text", kind="occ", text=MARKUP).status == 200
    assert pages.get("student-1", "/text").told()["text"] == MARKUP
    program = 'CHAN OF BYTE to:\nPLACE to AT link0.out:\nout.string ("</script><script>alert(1)</script>", to)\n'
    pages.run("student-1", program)
    film = pages.get("student-1", "/film")
    assert film.status == 200
    assert film.text.count("<script>alert(1)") == 0
    assert film.headers["Content-Security-Policy"].startswith("sandbox allow-scripts; default-src 'none'")
    for line in (f"send 0 {MARKUP}", f"look {MARKUP}", f"{MARKUP} 0"):
        assert pages.post("student-1", "/line", line=line).headers["Content-Type"].startswith("application/json")
    for path in (f"/guide/{MARKUP[:8]}", "/guide/..%2fUSER", "/guide/../../README", "/files/%3Cscript%3E"):
        it = pages.get("student-1", path.replace("<", "%3C").replace(">", "%3E"))
        assert (path, it.status, "<script" in it.text) == (path, 404, False)


def test_one_secret_has_a_bound_of_connections(pages: Pages) -> None:
    """Who has a secret, and opens hundreds, ends the own ones."""
    head = (
        f"GET /text HTTP/1.1\r\nHost: {pages.place}\r\nCookie: nadzsumek={pages.secret('student-3')}\r\n\r\n".encode()
    )
    held = []
    for _ in range(120):
        it = socket.create_connection((HOST, pages.port), timeout=SECONDS)
        it.sendall(head)
        assert it.recv(20).startswith(b"HTTP/1.1 200")
        held.append(it)
    with answered(pages, 5):
        open_now = 0
        for it in held:
            it.settimeout(0.05)
            try:
                while it.recv(65536):
                    pass
            except TimeoutError:
                open_now += 1
            except OSError:
                pass
            it.close()
    assert open_now <= 48
    streams = []
    for number in range(6):
        it = socket.create_connection((HOST, pages.port), timeout=SECONDS)
        lines = [f"GET /live HTTP/1.1\r\nHost: {pages.place}\r\nOrigin: http://{pages.place}"]
        lines += [f"Cookie: nadzsumek={pages.secret('student-3')}", "Upgrade: websocket", "Connection: Upgrade"]
        lines += ["Sec-WebSocket-Version: 13", f"Sec-WebSocket-Key: {'A' * 22}=="]
        it.sendall("\r\n".join([*lines, "", ""]).encode())
        answer = it.recv(30)
        assert (number, answer[9:12]) == (number, b"101" if number < 4 else b"429")
        streams.append(it)
    for it in streams:
        it.close()


@pytest.mark.alone
def test_texts_that_take_long(pages: Pages) -> None:
    """Texts of one student that a compiler works at for long, one after another, hold up no other's page."""
    deep = "SEQ\n" + "".join(f"  VAL n{at} IS {' + '.join(['1'] * 300)}:\n" for at in range(40)) + "  SKIP\n"
    ended = threading.Event()

    def flood(number: int) -> None:
        at = 0
        while not ended.is_set():
            at += 1
            text = f"-- {number} {at}\n{deep}"
            pages.post("student-2", "/mistakes", kind="occ", text=text)

    threads = [threading.Thread(target=flood, args=(number,)) for number in range(6)]
    with answered(pages, 10):
        for it in threads:
            it.start()
        time.sleep(6)
        ended.set()
        for it in threads:
            it.join()
    assert memory_of(site_of(pages), "VmHWM") < MOST_MEMORY
    assert json.dumps(deep)
