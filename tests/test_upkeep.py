"""What an operator meets: scripts in files, plans that are refused, folders that are removed, readers who are gone, and
installations that fail or are stopped."""

import contextlib
import fcntl
import glob
import html.parser
import os
import re
import shutil
import signal
import subprocess
import sys
import time

from support.courses import Course, child_of
from support.live_lines import PLAN, SECONDS
from support.roots import UNTRUE
from support.serving_trials import Served, hears_ctrl_c
from support.trials import EXAMPLES, TOP, contents, program, put, run_text

# A plan whose node has the port of the host, and what `lab plan` says of it (docs/guides/OPERATOR.md).
CLASHING = 'version = 1\ndomain = [{name="ann", first=0, last=7, limit=1000, host=[7], node=[{memory=4096, links=[0,7,-1,-1]}]}]\n'
CLASH = (
    "plan: 11: domain 0 (ann): user 0's host 0 and node 0's link 1 are both at virtual port 7, which holds one of them"
)
# How often an installation is broken off, and how long it is waited before that.
BROKEN_OFF = ((signal.SIGTERM, 0.02), (signal.SIGKILL, 0.1), (signal.SIGINT, 0.2), (signal.SIGKILL, 0.3))


def ran(*call: str, text: str = "", env: dict[str, str] | None = None, cwd: str | None = None) -> tuple[int, str, str]:
    """A call's status, what it prints, and what it says."""
    done = run_text([*call], text, env, cwd)
    return done.returncode, done.stdout, done.stderr


def test_scripts_are_in_files(folder: str) -> None:
    """`./farm FILE` is as the same text on standard input, with words before it and behind it."""
    farm, path = f"{TOP}/farm", f"{EXAMPLES}/two-users.farm"
    printed = contents(f"{EXAMPLES}/two-users.out").decode()
    for words in (
        [path],
        [path, "--workers", "2"],
        ["--workers", "1", path],
        ["--quantum=64", path],
        ["--explain", path],
    ):
        assert (words, ran(farm, *words)) == (words, (0, printed, ""))
    # a number behind a word that wants one is no file, and a text of standard input isn't read beside a file
    put(f"{folder}/2", "version = 9\n")
    assert ran(farm, "--workers", "2", text=contents(path).decode(), cwd=folder) == (0, printed, "")
    assert ran(farm, "2", text=contents(path).decode(), cwd=folder)[0] == 3
    put(f"{folder}/wrong.farm", contents(path).decode() + "ann boot O 21f5\n")
    status, told, said = ran(farm, "--explain", f"{folder}/wrong.farm")
    assert (status, told, '"O" is no host number' in said) == (4, "", True)
    for words, status, said in (
        ([f"{folder}/none"], 6, f"farm: the file {folder}/none isn't there, or can't be read\n"),
        ([folder], 6, f"farm: {folder} is a folder: give the file of a plan and a script\n"),
    ):
        assert ran(farm, *words) == (status, "", said)
    assert ran(farm, path, path)[0] == 2


def test_serve_says_where_a_plan_is_wrong() -> None:
    """`serve` and `class start` say where and why a plan is refused, if the lab is there."""
    for lab, told in ((program("lab"), CLASH), ("/nonexistent", None)):
        with Served(CLASHING, starts=False) as it:
            status, _, said = ran(*it.call(), env={**it.env, "LAB": lab})
            told = told or f"./lab plan < {it.plan} says where and why"
            assert (status, f"serve: the plan is refused: {told}\n" in said) == (1, True)
    with Course(1) as it:
        put(f"{it.folder}/farm-1/plan.toml", CLASHING)
        done = it.call("start", it.folder)
        assert (done.returncode, done.stdout.endswith(f": serve: the plan is refused: {CLASH}\n")) == (1, True)


def test_removed_folders_end_their_farms() -> None:
    """A farm whose folder is removed ends with its `live`; one whose folder is moved goes on."""
    with Served(PLAN) as it:
        number = it.live_process()
        os.rename(it.folder, f"{it.folder}-moved")
        time.sleep(3)
        it.folder += "-moved"
        assert it.ask("ann", "look 0") == "look 0 booting overruns 0 0 0 0"
        ann = it.client("ann")
        shutil.rmtree(it.folder)
        said = it.process.communicate(timeout=SECONDS)[1].decode()
        assert (it.process.returncode, "was removed, so the farm ends" in said, "Traceback" in said) == (0, True, False)
        assert "was removed, so the farm ends" in ann.until("note: ")
        assert not os.path.exists(f"/proc/{number}")
    with Course(17) as it:
        with subprocess.Popen(
            [f"{TOP}/class", "serve", it.folder],
            env=it.env,
            stdout=subprocess.DEVNULL,
            stderr=subprocess.PIPE,
            encoding="utf-8",
        ) as serving:
            assert [line for line in it.must("start").splitlines() if "up, " in line] == [
                "farm-1: up, 16 users",
                "farm-2: up, 1 user",
            ]
            numbers = [it.lock(1), it.lock(2)]
            numbers += [child_of(one) for one in numbers]
            shutil.rmtree(it.folder)
            said = serving.communicate(timeout=SECONDS)[1]
        assert "Traceback" not in said
        end = time.monotonic() + SECONDS
        while (left := [one for one in numbers if os.path.exists(f"/proc/{one}")]) and time.monotonic() < end:
            time.sleep(0.1)
        assert left == []


def test_readers_may_go() -> None:
    """Who reads no more of what `class` prints is told nothing."""
    with Course(3) as it:
        # as people have it: what is printed waits for more
        it.env.pop("PYTHONUNBUFFERED", None)
        for words in (["status", it.folder], ["--help"]):
            reads, writes = os.pipe()
            os.close(reads)
            done = subprocess.run(
                [f"{TOP}/class", *words],
                env=it.env,
                stdout=writes,
                stderr=subprocess.PIPE,
                encoding="utf-8",
                timeout=SECONDS,
                check=False,
            )
            os.close(writes)
            assert (words, done.stderr) == (words, "")


def dead_links(folder: str) -> tuple[list[tuple[str, str]], list[tuple[str, str]]]:
    """The links of the pages below a folder, and those that lead to nothing."""
    links: list[tuple[str, str]] = []
    for at, _, names in os.walk(folder):
        for name in (it for it in names if it.endswith(".md")):
            is_block = False
            for line in contents(f"{at}/{name}").decode().split("\n"):
                is_block ^= line.lstrip().startswith("```")
                if not is_block:
                    links += [
                        (f"{at}/{name}", path) for path in re.findall(r"\]\(([^)#\s]+)", line) if "://" not in path
                    ]
    return links, [
        (page, path) for page, path in links if not os.path.exists(os.path.join(os.path.dirname(page), path))
    ]


def test_installations_stay(folder: str) -> None:
    """What is installed has no dead link, and is there whatever becomes of the next installation."""
    prefix = f"{folder}/prefix"
    assert ran(f"{TOP}/tools/install", "--draft", prefix)[::2] == (0, "")

    def works() -> None:
        assert ran(f"{prefix}/bin/lab", "disassemble", text="21f5\n", env={"PATH": "/usr/bin:/bin"}) == (
            0,
            "stopp\n",
            "",
        )

    works()
    links, dead = dead_links(f"{prefix}/share/doc/nadzsumek")
    assert (dead, len(links) > 100) == ([], True)
    pages = glob.glob(f"{prefix}/share/doc/nadzsumek/**/*.md", recursive=True)
    assert f"{prefix}/share/doc/nadzsumek/guides/CLASS.md" in pages
    assert [(it, found[0]) for it in pages if (found := UNTRUE.search(contents(it).decode()))] == []
    script = f"{prefix}/lib/nadzsumek/examples/two-users.farm"
    assert ran(f"{prefix}/bin/farm", script, env={"PATH": "/usr/bin:/bin"}) == (
        0,
        contents(f"{EXAMPLES}/two-users.out").decode(),
        "",
    )
    status, _, said = ran(f"{TOP}/tools/install", "--draft", prefix, env={**os.environ, "LIVE": "/nonexistent"})
    assert (status, said) == (1, "install: there is no program /nonexistent, so nothing is installed\n")
    works()
    for sent, seconds in BROKEN_OFF:
        with subprocess.Popen(
            [f"{TOP}/tools/install", "--draft", prefix],
            stdout=subprocess.DEVNULL,
            stderr=subprocess.DEVNULL,
            start_new_session=True,
            preexec_fn=hears_ctrl_c,
        ) as installing:
            time.sleep(seconds)
            with contextlib.suppress(ProcessLookupError):
                os.killpg(installing.pid, sent)
        works()


class Reader(html.parser.HTMLParser):
    """What a page for a browser has: links, names to which links lead, blocks, and its text outside of code."""

    def __init__(self, path: str) -> None:
        super().__init__()
        self.links: list[str] = []
        self.names: set[str] = set()
        self.blocks, self.depth, self.text = 0, 0, ""
        self.feed(contents(path).decode())

    def handle_starttag(self, tag: str, attrs: list[tuple[str, str | None]]) -> None:
        self.blocks += tag == "pre"
        self.depth += tag in ("code", "style")
        for name, value in attrs:
            if name in ("href", "src") and value:
                self.links.append(value)
            elif name == "id" and value:
                self.names.add(value)

    def handle_endtag(self, tag: str) -> None:
        self.depth -= tag in ("code", "style")

    def handle_data(self, data: str) -> None:
        self.text += "" if self.depth else data


def test_installed_pages_are_read_in_a_browser(folder: str) -> None:
    """Beside each installed page is one for a browser, with all its blocks, whose links lead to such pages and to names in them. What
    is left of Markdown is in code alone."""
    prefix = f"{folder}/prefix"
    assert ran(f"{TOP}/tools/install", "--draft", prefix)[::2] == (0, "")
    marked = glob.glob(f"{prefix}/share/doc/nadzsumek/**/*.md", recursive=True)
    pages = {it: Reader(f"{it.removesuffix('.md')}.html") for it in marked}
    names = {f"{it.removesuffix('.md')}.html": page.names for it, page in pages.items()}
    assert len(pages) > 30
    for path, page in pages.items():
        assert (path, page.blocks) == (path, len(re.findall(r"^```\w*$", contents(path).decode(), re.M)) // 2)
        assert (path, re.findall(r"\]\(|```|\*\*", page.text)) == (path, [])
        for link in page.links:
            target, _, name = link.partition("#")
            there = os.path.normpath(os.path.join(os.path.dirname(path), target)) if target else f"{path[:-3]}.html"
            if "://" not in link:
                assert (path, link, os.path.exists(there), target.endswith(".md")) == (path, link, True, False)
                assert (path, link, not name or name in names[there]) == (path, link, True)


def files_below(folder: str) -> set[str]:
    """All paths below a folder, of folders too."""
    return {f"{at}/{it}" for at, folders, names in os.walk(folder) for it in (*folders, *names)}


def test_installations_are_removed(folder: str) -> None:
    """What is installed is removed again, also what an earlier version had, and what others have put there stays."""
    prefix, script = f"{folder}/prefix", f"{TOP}/tools/install"
    os.makedirs(f"{prefix}/share/man/man1")
    put(f"{prefix}/share/man/man1/other.1", "of others")
    before = files_below(prefix)
    assert ran(script, "--remove", prefix)[::2] == (
        1,
        f"install: there is no list {prefix}/lib/nadzsumek/INSTALLED, so nothing is removed\n",
    )
    assert ran(script, "--draft", prefix)[::2] == (0, "")
    earlier = put(f"{prefix}/share/doc/nadzsumek/EARLIER.md", "a page of an earlier version")
    with open(f"{prefix}/lib/nadzsumek/INSTALLED", "a", encoding="utf-8") as file:
        file.write("share/doc/nadzsumek/EARLIER.md\n")
    assert ran(script, "--draft", prefix)[::2] == (0, "")
    assert not os.path.exists(earlier)
    listed = contents(f"{prefix}/lib/nadzsumek/INSTALLED").decode().splitlines()
    assert [it for it in listed if not os.path.exists(f"{prefix}/{it}")] == []
    # Python has put its own beside the package, and somebody a page beside the pages
    os.mkdir(f"{prefix}/lib/nadzsumek/nadzsumek/__pycache__")
    other = put(f"{prefix}/share/doc/nadzsumek/OTHER.md", "of others")
    assert ran(script, "--remove", prefix)[::2] == (0, "")
    folders = {f"{prefix}/share/doc", f"{prefix}/share/doc/nadzsumek"}
    assert files_below(prefix) == before | folders | {other}
    os.remove(other)
    assert ran(script, "--draft", f"{folder}/second")[0] == ran(script, "--remove", f"{folder}/second")[0] == 0
    assert not os.path.exists(f"{folder}/second")


def test_builds_wait_quietly() -> None:
    """A build that waits for another one says so, and Ctrl-C ends it without more ado."""
    with open(f"{TOP}/crates.txt", encoding="utf-8") as lock:
        fcntl.flock(lock, fcntl.LOCK_EX)

        with subprocess.Popen(
            [sys.executable, "-B", f"{TOP}/tools/program", "farm"],
            stdout=subprocess.DEVNULL,
            stderr=subprocess.PIPE,
            encoding="utf-8",
            preexec_fn=hears_ctrl_c,
        ) as building:
            try:
                assert building.stderr
                told = building.stderr.readline()
                building.send_signal(signal.SIGINT)
                rest = building.communicate(timeout=SECONDS)[1]
            finally:
                building.kill()
    assert (told, rest, building.returncode) == (
        "another build is at work here: this one waits until that has ended, or until Ctrl-C\n",
        "",
        130,
    )
