"""Pages of a class: programs that are run from them, who comes in and who doesn't, and what bounds requests. It wants Debian's
python3-aiohttp, which ./test installs. What a browser shows is tried in test_web_browser.py."""

import concurrent.futures
import http.client
import json
import os
import shutil
import socket
import sqlite3
import ssl
import stat
import subprocess
import time
from collections.abc import Iterator

import pytest
from support.pages import HOST, Pages, free_port
from support.serving_trials import SECONDS
from support.trials import NEXT, TOP, contents, put, text_of

GREETING = """CHAN OF BYTE to:
PLACE to AT link0.out:
out.string ("hello*n", to)
"""
DEADLOCK = """CHAN OF INT c:
INT x:
SEQ
  c ! 1
  c ? x
"""
LETTERS_AND_MORE = {"count": 3, "letters": '"IBM"', "numbers": None, "hex": "49 42 4d"}


@pytest.fixture(scope="module")
def pages() -> Iterator[Pages]:
    with Pages(3) as it:
        yield it


def test_run(pages: Pages) -> None:
    """What came, in letters and digits, and the line in which the program waits."""
    told = pages.run("student-1", NEXT, "HAL")
    assert told["came"] == LETTERS_AND_MORE
    assert told["why"][0] == "node 0 rests."
    assert told["why"][-1].endswith(" waits in line 7: from ? letter")
    told = pages.run(
        "student-1", "        ajw 4\n        mint\n        ldc 7\n        outbyte\n        stopp\n", kind="s"
    )
    assert told["came"]["hex"] == "07"


def test_mistakes_change_nothing(pages: Pages) -> None:
    """A wrong text is said with its place, and the machine goes on as it was."""
    pages.run("student-1", NEXT, "A")
    told = pages.run("student-1", "INT x:\nSEQ\n  x := y\n")
    assert [(it["line"], it["column"]) for it in told["mistakes"]] == [(3, 8)]
    assert pages.post("student-1", "/line", line="send 0 Z").told()["lines"] == ["write 0 1"]
    assert pages.post("student-1", "/line", line="collect 0").told()["lines"] == ['collect 0 5b  "["']


def test_other_programs_have_no_lines(pages: Pages) -> None:
    """Of a program that came by hand no lines are said, and of the page's again when it is run again."""
    told = pages.run("student-2", NEXT, "A")
    assert told["why"][-1].endswith(" waits in line 7: from ? letter")
    for line in ("reset 0", "boot 0 4021f5"):
        pages.post("student-2", "/line", line=line)
    assert not any(" in line " in it for it in pages.get("student-2", "/state").told()["why"])
    assert pages.run("student-2", NEXT, "A")["why"][-1].endswith(" waits in line 7: from ? letter")
    pages.post("student-2", "/line", line="restart")


def test_lines(pages: Pages) -> None:
    """Any line of a terminal is answered, but those that read files of the server."""
    told = pages.post("student-2", "/line", line="ports").told()["lines"]
    assert told == ["ports 0:- 1:-", "  (nothing is joined: join joins two ports)"]
    assert pages.post("student-2", "/line", line="help look").told()["lines"][0].startswith("look 0 ")
    assert pages.post("student-2", "/line", line="look 0").told()["lines"] == ["look 0 booting overruns 0 0 0 0"]
    for line in ("load 0 /etc/passwd", "load /etc/passwd", "boot 0", "nonsense", "!stop", "quit", "look 0\nlook 0", ""):
        told = pages.post("student-2", "/line", line=line).told()
        assert ([*told], "root:" in told["error"]) == (["error"], False), line
    assert pages.post("student-2", "/line", line="look 0").told()["lines"] == ["look 0 booting overruns 0 0 0 0"]


def test_texts_are_kept(pages: Pages) -> None:
    """Each version, for the student and the teacher alone, and over an end of the server."""
    for text in ("SKIP\n", "STOP\n", "STOP\n"):
        assert pages.post("student-3", "/text", kind="occ", text=text).status == 200
    assert pages.get("student-3", "/text").told()["text"] == "STOP\n"
    assert pages.get("student-2", "/text?of=student-3").told()["name"] == "student-2"
    assert pages.get("teacher", "/text?of=student-3").told()["text"] == "STOP\n"
    assert pages.end() == 0
    pages.web = pages.served()
    assert pages.get("student-3", "/text").told()["text"] == "STOP\n"
    path = f"{pages.folder}/pages.sqlite"
    assert stat.S_IMODE(os.stat(path).st_mode) == 0o600
    with sqlite3.connect(path) as base:
        assert [it for (it,) in base.execute("SELECT text FROM version WHERE name = 'student-3'")] == [
            "SKIP\n",
            "STOP\n",
        ]


def test_secrets(pages: Pages) -> None:
    """They are kept as hashes, aren't guessed, and one that was made again is worth nothing."""
    old = pages.secret("student-2")
    content = contents(f"{pages.folder}/pages.sqlite")
    for name in ("student-1", "student-2", "student-3", "teacher"):
        assert len(pages.secret(name)) >= 22
        assert pages.secret(name).encode() not in content
    entered = pages.request("GET", f"/enter/{old}")
    cookie = entered.headers["Set-Cookie"]
    assert (entered.status, "HttpOnly" in cookie, "SameSite=Strict" in cookie, old in entered.text) == (
        200,
        True,
        True,
        False,
    )
    done = pages.call("web", "--new", "Student 2", "--address", f"http://{pages.place}", pages.folder)
    assert (done.returncode, done.stderr) == (0, "")
    assert pages.secret("student-2") != old
    for secret in (old, "", "x" * 22, old[:-1], "../" + old, "%00", pages.secret("student-1")[::-1]):
        for path in ("/", "/text", "/live", "/film", "/wall", "/files/page.css"):
            it = pages.request("GET", path, headers={"Cookie": f"nadzsumek={secret}"})
            assert (secret, path, it.status, "student" in it.text) == (secret, path, 401, False)
        assert pages.request("GET", f"/enter/{secret}").status in (400, 401, 404)
    assert pages.get("student-2", "/text").status == 200


def test_others_are_kept_out(pages: Pages) -> None:
    """A student has the own machine alone, and what a page of another site asks isn't done."""
    for path in ("/wall", "/text?of=student-1"):
        it = pages.get("student-2", path)
        assert (path, it.status, "student-1" in it.text) == (path, 403 if path == "/wall" else 200, False)
    for path in ("/live", "/film", "/state", "/versions", "/film?of=nobody", "/state?of=../x"):
        assert (path, pages.get("teacher", path).status) == (path, 403)
    for path in ("/submissions", "/marks.csv"):
        assert (path, pages.get("student-2", path).status) == (path, 403)
    for path in ("/state?of=student-1", "/versions?of=student-1"):
        assert pages.get("student-2", path).told() == pages.get("student-2", path.partition("?")[0]).told()
    assert pages.post("teacher", "/line", line="ports").status == 403
    cookie = {"Cookie": f"nadzsumek={pages.secret('student-2')}"}
    body = json.dumps({"line": "restart"}).encode()
    origins: list[dict[str, str]] = [{}]
    origins += [{"Origin": it} for it in ("http://elsewhere", "null", f"http://{pages.place}.elsewhere")]
    for origin in origins:
        it = pages.request("POST", "/line", body, {**cookie, **origin})
        assert (origin, it.status) == (origin, 403)
        upgrade = {"Upgrade": "websocket", "Connection": "Upgrade", "Sec-WebSocket-Version": "13"}
        it = pages.request(
            "GET", "/live", headers={**cookie, **origin, **upgrade, "Sec-WebSocket-Key": "A" * 22 + "=="}
        )
        assert (origin, it.status) == (origin, 403)
    assert pages.request("GET", "/", headers={**cookie, "Host": "elsewhere"}).status == 421


def test_odd_requests(pages: Pages) -> None:
    """Paths with dots, bodies that are too long or no JSON, and methods that nobody has: each is refused, and the page goes on."""
    for path in (
        "/files/../book.py",
        "/files/..%2fbook.py",
        "/files/%2e%2e/site.py",
        "//etc/passwd",
        "/files/",
        "/files/x\x00y",
    ):
        it = pages.get("student-1", path.replace("\x00", "%00"))
        assert (path, it.status, "import" in it.text) == (path, 404, False)
    headers = {"Cookie": f"nadzsumek={pages.secret('student-1')}", "Origin": f"http://{pages.place}"}
    for body in (
        b"",
        b"[]",
        b'{"line": 1}',
        b'{"other": "x"}',
        b"\xff\xfe",
        b'{"line": "' + b"[" * 5000,
        b"[" * 100_000,
    ):
        assert (body[:20], pages.request("POST", "/line", body, headers).status) == (body[:20], 400)
    assert pages.request("POST", "/line", b"x" * 300_000, headers).status == 413
    assert pages.post("student-1", "/text", kind="occ", text="x" * 65_537).status == 400
    assert pages.post("student-1", "/run", kind="py", text="", send="").status == 400
    for method in ("PUT", "DELETE", "PATCH", "NONSENSE"):
        assert pages.request(method, "/text", headers=headers).status in (400, 405)
    assert pages.get("student-1", "/text").status == 200


def test_headers(pages: Pages) -> None:
    """Nothing is loaded from elsewhere, and no answer is kept or shown in another site."""
    for path in ("/", "/files/page.css", "/files/student.js", "/files/editor.js", "/guide/USER", "/text", "/nowhere"):
        it = pages.get("student-1", path)
        policy = it.headers["Content-Security-Policy"]
        assert (path, "default-src 'none'" in policy, "unsafe" in policy) == (path, True, False)
        assert (it.headers["X-Content-Type-Options"], it.headers["Cache-Control"]) == ("nosniff", "no-store")


def test_slow_requests_are_ended(pages: Pages) -> None:
    """Those of which no whole one comes, while a page is answered as before."""
    halves = []
    for text in (b"", b"GET / HT", b"GET / HTTP/1.1\r\nHost: x\r\nX: "):
        it = socket.create_connection((HOST, pages.port), timeout=40)
        it.sendall(text)
        halves.append(it)
    assert pages.get("student-1", "/text").status == 200
    until = time.monotonic() + 40
    for it in halves:
        it.settimeout(max(0.1, until - time.monotonic()))
        try:
            assert it.recv(100)[:12] in (b"", b"HTTP/1.1 400", b"HTTP/1.0 400")
        except ConnectionResetError:
            pass
        it.close()


def test_farm_is_away(pages: Pages) -> None:
    """It is said, and the page goes on when the farm is up again."""
    pages.must("stop")
    told = pages.post("student-1", "/line", line="ports").told()
    assert "error" in told
    pages.must("start")
    assert pages.post("student-1", "/line", line="ports").told()["lines"][0].startswith("ports 0:")


def test_wall(pages: Pages) -> None:
    """A tile for each student, and no machine has an event of it."""
    before = pages.post("student-1", "/line", line="why").told()["lines"][0]
    time.sleep(3.1)
    told = {it["name"]: it for it in pages.get("teacher", "/wall").told()}
    assert sorted(told) == ["student-1", "student-2", "student-3"]
    assert told["student-1"]["person"] == "Student 1"
    assert pages.post("student-1", "/line", line="why").told()["lines"][0] == before


@pytest.mark.skipif(not shutil.which("openssl"), reason="there is no openssl here")
def test_tls(pages: Pages) -> None:
    """With a certificate nothing goes in the clear, and the cookie goes over TLS alone."""
    key, cert, port = f"{pages.room.name}/key.pem", f"{pages.room.name}/cert.pem", free_port()
    names = ["-subj", "/CN=localhost", "-addext", "subjectAltName=DNS:localhost"]
    call = [
        "openssl",
        "req",
        "-x509",
        "-newkey",
        "rsa:2048",
        "-nodes",
        "-days",
        "2",
        "-keyout",
        key,
        "-out",
        cert,
        *names,
    ]
    subprocess.run(call, check=True, capture_output=True)
    assert pages.end() == 0
    web = pages.served("--cert", cert, "--key", key, "--address", f"https://localhost:{port}", place=f"{HOST}:{port}")
    try:
        context = ssl.create_default_context(cafile=cert)
        it = http.client.HTTPSConnection("localhost", port, context=context, timeout=SECONDS)
        it.request("GET", f"/enter/{pages.secret('student-1')}")
        answer = it.getresponse()
        assert (answer.status, "; Secure" in answer.headers["Set-Cookie"]) == (200, True)
        it.close()
        clear = http.client.HTTPConnection(HOST, port, timeout=SECONDS)
        clear.request("GET", "/")
        with pytest.raises((http.client.BadStatusLine, ConnectionError)):
            clear.getresponse()
        clear.close()
    finally:
        assert pages.end(web) == 0
        pages.web = pages.served()


def test_words(pages: Pages) -> None:
    """What the command refuses."""
    wrong = (
        (["--listen", "0.0.0.0:1"], "at 0.0.0.0 secrets would go over the network as they are"),
        (["--listen", f"{HOST}:{free_port()}"], "are served already, by process"),
        (
            ["--cert", f"{pages.folder}/class.json", "--key", f"{pages.folder}/class.json"],
            "are no certificate and its key",
        ),
        (["--new", "nobody"], "there is no student nobody"),
    )
    for words, told in wrong:
        done = pages.call("web", *words, pages.folder)
        assert (words, done.returncode, told in done.stderr) == (words, 1, True), done.stderr
    put(f"{pages.room.name}/file", "")
    assert "is no folder" in pages.call("web", f"{pages.room.name}/file").stderr
    assert text_of(f"{pages.folder}/class.json")


@pytest.mark.alone
def test_flood_holds_up_nobody(pages: Pages) -> None:
    """One page asks as fast as it can, and another's programs are run."""
    with concurrent.futures.ThreadPoolExecutor(16) as pool:
        floods = [pool.submit(pages.post, "student-1", "/run", kind="occ", text=NEXT, send="HAL") for _ in range(48)]
        time.sleep(0.5)
        begun = time.monotonic()
        assert pages.run("student-2", NEXT, "HAL")["came"] == LETTERS_AND_MORE
        assert time.monotonic() < begun + SECONDS / 4
        answers = [it.result() for it in floods]
    assert {it.status for it in answers} == {200, 429}
    assert {it.told()["came"]["hex"] for it in answers if it.status == 200} == {"49 42 4d"}


@pytest.mark.long
@pytest.mark.alone
def test_thirty_do_the_first_lesson() -> None:
    """Each from the address on the sheet alone: the page, a greeting, a mistake that is mended, letters that come back changed, a
    deadlock; and the teacher sees all of them. How long answers took is printed."""
    with Pages(30) as pages, concurrent.futures.ThreadPoolExecutor(30) as pool:

        def lesson(name: str) -> list[float]:
            assert pages.request("GET", pages.address(name).partition(pages.place)[2]).status == 200
            assert "Run" in pages.get(name, "/").text
            seconds = []
            for text, send, came in (
                (GREETING, "", b"hello\n"),
                (NEXT.replace("BYTE letter", "BYTE lettre"), "", None),
                (NEXT, "HAL", b"IBM"),
                (NEXT, name, bytes(it + 1 for it in name.encode())),
                (DEADLOCK, "", b""),
            ):
                begun = time.monotonic()
                told = pages.run(name, text, send)
                seconds.append(time.monotonic() - begun)
                assert ("mistakes" in told) == (came is None)
                assert came is None or bytes.fromhex(told["came"]["hex"]) == came
                time.sleep(1)
            return seconds

        names = [f"student-{number}" for number in range(1, 31)]
        seconds = sorted(it for each in pool.map(lesson, names) for it in each)
        print(f"{len(seconds)} runs: half in {seconds[len(seconds) // 2]:.2f} s, the slowest in {seconds[-1]:.2f} s")
        told = pages.get("teacher", "/wall").told()
        assert {it["name"] for it in told} == {*names}
        assert all("a deadlock" in it["why"] for it in told)


ADDS = """CHAN OF INT from, to:
PLACE from AT link0.in:
PLACE to AT link0.out:
INT n:
WHILE TRUE
  SEQ
    from ? n
    to ! n + 1
"""


def test_exercises(pages: Pages) -> None:
    """A program is tried in the teacher's own tests and handed in; what was handed in stays over a kill, and the marks have it."""
    folder = f"{pages.folder}/exercises"
    os.makedirs(folder)
    put(f"{folder}/successor.txt", text_of(f"{TOP}/examples/exercises/successor.txt"))
    put(f"{folder}/broken.txt", "nonsense\n")
    told = pages.get("student-1", "/exercises").told()["exercises"]
    assert [(it["name"], it["title"], it["closed"], it["submitted"]) for it in told] == [
        ("successor", "Add one to each word", False, None)
    ]
    asked = {"exercise": "successor", "kind": "occ", "text": ADDS.replace("n + 1", "n")}
    told = pages.post("student-1", "/check", **asked).told()
    assert (told["points"], told["of"], "number" in told) == (0, 5, False)
    assert told["tests"][0]["remark"].endswith(": 7 is expected, and 6 came")
    told = pages.post("student-1", "/check", **{**asked, "text": "nonsense\n"}).told()
    assert (told["points"], told["remark"].startswith("line 1, column ")) == (0, True)
    assert pages.post("student-1", "/submit", **asked).told()["number"] == 1
    with concurrent.futures.ThreadPoolExecutor(2) as pool:
        asked["text"] = ADDS
        both = [pool.submit(pages.post, name, "/submit", **asked) for name in ("student-1", "student-2")]
        assert [it.result().told()["points"] for it in both] == [5, 5]
    pages.web.kill()
    pages.web.wait()
    assert pages.web.stdout
    pages.web.stdout.close()
    pages.web = pages.served()
    told = pages.get("student-1", "/exercises").told()["exercises"]
    assert (told[0]["submitted"]["points"], told[0]["submitted"]["of"]) == (5, 5)
    put(f"{folder}/successor.closed", "")
    assert "closed" in pages.post("student-3", "/submit", **asked).told()["error"]
    assert pages.post("student-3", "/check", **asked).told()["points"] == 5
    for name, why in (
        ("../x", "the name of an exercise has small letters"),
        ("sum", "there is no such exercise as sum"),
    ):
        assert pages.post("student-3", "/submit", **{**asked, "exercise": name}).told()["error"].startswith(why)
    done = pages.call("marks", "--csv", f"{pages.room.name}/marks.csv", pages.folder)
    assert (done.returncode, done.stderr) == (0, "")
    assert [it.split() for it in done.stdout.splitlines()] == [
        ["student", "name", "broken", "successor", "points"],
        ["student-1", "Student", "1", "-", "5", "5"],
        ["student-2", "Student", "2", "-", "5", "5"],
        ["student-3", "Student", "3", "-", "-", "0"],
    ]
    assert text_of(f"{pages.room.name}/marks.csv").splitlines()[1] == "student-1,Student 1,-,5,5"
    rows = [it.split() for it in pages.call("submitted", pages.folder).stdout.splitlines()]
    assert [(it[0], it[1], it[4], it[5]) for it in rows[1:]][:1] == [("student-1", "successor", "0", "5")]
    assert sorted((it[0], it[4]) for it in rows[2:]) == [("student-1", "5"), ("student-2", "5")]
