"""Debian's package on a fresh machine: that nothing but Debian and Python is needed, that an account without rights has a class there
within a minute, that the manual is true of what is installed, that an update goes on with a class that is up, and that nothing is
left when the package is removed but the class.

The machine is a root of Debian 12 that mmdebstrap makes, with the packages that each Debian has (minbase) and Python. That needs root,
Debian's packages from the network, and the right to mount; where one isn't there the tests are left out."""

import glob
import os
import re
import shutil
import subprocess
import time

import pytest
from support.roots import KEPT, MOST_SECONDS, UNTRUE, Root, done, in_a_root, why_no_root
from support.trials import EXAMPLES, TOP, contents, text_of

pytestmark = pytest.mark.long

SUITE, ACCOUNT = "bookworm", "nadz-fresh"
COMMANDS = ("farm", "live", "lab", "serve", "connect", "class")
# The commands that the tests need of this machine, and Debian's packages that have them.
NEEDED = {"mmdebstrap": "mmdebstrap", "man": "man-db", "dpkg-deb": "dpkg"}
MOST_TO_FIRST_ANSWER = 60
DOC, UNITS = "usr/share/doc/nadzsumek", "usr/lib/systemd/system"
# What a developer's machine has and this one hasn't.
TOOLS = ("rt", "rattle", "git", "cc", "gcc", "make")
EARLIER = "0.0.9"


def mirror() -> str | None:
    """Where the machine's own /etc/apt finds Debian's packages."""
    told = ["apt-get", "indextargets", "--format", "$(ORIGIN) $(RELEASE) $(REPO_URI)", "Created-By: Packages"]
    rows = [line.split() for line in done(told).splitlines()]
    return next((row[2] for row in rows if len(row) == 3 and row[0] == "Debian"), None)


def needs() -> str:
    """Installs what the tests need of this machine; the mirror. Where that isn't possible, the tests are left out."""
    if lacking := why_no_root():
        pytest.skip(f"there is no fresh machine, since {lacking}")
    if not shutil.which("apt-get"):
        pytest.skip("there is no fresh machine, since this one isn't Debian")
    try:
        packages = [it for command, it in NEEDED.items() if not shutil.which(command)]
        found = mirror()
        if packages or not found:
            done(["apt-get", "-q", "update"])
        if packages:
            env = {**os.environ, "DEBIAN_FRONTEND": "noninteractive"}
            done(["apt-get", "-q", "install", "-y", "--no-install-recommends", *packages], env=env)
        found = found or mirror()
    except AssertionError as refused:
        pytest.skip(f"there is no fresh machine, since {refused}")
    if not found:
        pytest.skip("there is no fresh machine, since /etc/apt names no place of Debian's packages")
    return found


@pytest.fixture(scope="module")
def machine(tmp_path_factory: pytest.TempPathFactory) -> str:
    """The archive of a fresh root."""
    place, begun = needs(), time.monotonic()
    archive = f"{tmp_path_factory.mktemp('machine')}/root.tar"
    call = ["mmdebstrap", "--quiet", "--variant=minbase", "--include=python3", SUITE, archive, place]
    made = subprocess.run(call, capture_output=True, encoding="utf-8", timeout=MOST_SECONDS, check=False)
    if made.returncode:
        pytest.skip(f"there is no fresh machine, since mmdebstrap says: {made.stderr[-300:]}")
    print(f"a fresh root: {time.monotonic() - begun:.1f} s")
    return archive


@pytest.fixture(scope="module")
def package(tmp_path_factory: pytest.TempPathFactory) -> str:
    """Debian's package of this tree."""
    out, begun = str(tmp_path_factory.mktemp("package")), time.monotonic()
    done([f"{TOP}/tools/release", "--draft", out])
    print(f"the package: {time.monotonic() - begun:.1f} s")
    return glob.glob(f"{out}/*.deb")[0]


@pytest.fixture(scope="module")
def earlier(package: str, tmp_path_factory: pytest.TempPathFactory) -> str:
    """The same package with a lower version."""
    room = str(tmp_path_factory.mktemp("earlier"))
    done(["dpkg-deb", "--raw-extract", package, f"{room}/tree"])
    for path, before in (("DEBIAN/control", "Version: "), ("usr/lib/nadzsumek/RELEASE", "version ")):
        text = re.sub(rf"^{before}.*$", f"{before}{EARLIER}", text_of(f"{room}/tree/{path}"), flags=re.M)
        with open(f"{room}/tree/{path}", "w", encoding="utf-8") as file:
            file.write(text)
    made = f"{room}/nadzsumek_{EARLIER}_amd64.deb"
    done(["dpkg-deb", "--root-owner-group", "--build", f"{room}/tree", made])
    return made


class Fresh(Root):
    """The fresh root, unpacked."""

    def __init__(self, archive: str) -> None:
        self.archive = archive
        super().__init__(ACCOUNT)

    def fill(self) -> None:
        done(["tar", "-C", self.path, "--exclude=./dev/*", "-xf", self.archive])

    def files(self) -> set[str]:
        """All paths but those where the system keeps what it knows, and those of the account."""
        found = {
            os.path.relpath(f"{at}/{it}", self.path)
            for at, folders, names in os.walk(self.path)
            for it in (*folders, *names)
        }
        return {it for it in found if not it.startswith(KEPT)}

    def install(self, package: str) -> str:
        """Installs a package as its page says."""
        shutil.copy(package, f"{self.path}/tmp")
        begun = time.monotonic()
        told = self.by_root("apt", "install", "-y", f"/tmp/{os.path.basename(package)}")
        print(f"apt install of {os.path.basename(package)}: {time.monotonic() - begun:.1f} s")
        return told

    def asks(self, user: str, *lines: str) -> list[str]:
        """What a user of the class is answered."""
        return self.by("connect", "one/farm-1", user, text="".join(f"{it}\n" for it in lines)).splitlines()


def class_answers(root: Fresh) -> None:
    """A class of two: up, and a program of each answers."""
    begun = time.monotonic()
    root.shell("printf 'Ada\\nBob\\n' > names; class --students names --nodes 1 one")
    assert root.by("class", "start", "one") == "farm-1: up, 2 users\n"
    told = root.asks("ada", "join 0 1", "load 0 hello.s", "collect 0")
    seconds = time.monotonic() - begun
    assert told == ["config -", "boot 0 17", 'collect 0 68656c6c6f0a  "hello\\n"']
    print(f"a class of two, to the first program's answer: {seconds:.1f} s")
    assert seconds < MOST_TO_FIRST_ANSWER
    assert root.asks("bob", "join 0 1", "load 0 hello.occ", "collect 0")[-1] == told[-1]


def commands_say_what_they_are(root: Fresh, version: str) -> None:
    """The options that each command has."""
    for name in COMMANDS:
        assert root.by(name, "--version").startswith(f"{name} of Nadzsumek {version}, commit ")
        assert re.search(rf"^usage: {name}\b", root.by(name, "--help"), re.M | re.I) is not None


def manual_is_true(root: Fresh) -> None:
    """The manual's pages, the units and the documents are there, and say nothing that isn't so on this machine."""
    texts = {}
    for name in COMMANDS:
        texts[name] = done(
            ["man", "--manpath", f"{root.path}/usr/share/man", name], env={**os.environ, "MANWIDTH": "200"}
        )
        assert f"{name} - " in texts[name]
    for name, call in (
        ("farm@", "/usr/bin/serve --sync"),
        ("class@", "/usr/bin/class serve"),
        ("pages@", "/usr/bin/class web"),
    ):
        texts[name] = text_of(f"{root.path}/{UNITS}/{name}.service")
        assert f"ExecStart={call}" in texts[name] and "PREFIX" not in texts[name]
    pages = glob.glob(f"{root.path}/{DOC}/**/*.md", recursive=True)
    assert len(pages) > 20
    texts |= {os.path.relpath(it, f"{root.path}/{DOC}"): text_of(it) for it in pages}
    untrue = [(name, line) for name, text in texts.items() for line in text.splitlines() if UNTRUE.search(line)]
    assert untrue == []
    named = {it for text in texts.values() for it in re.findall(r"/usr/(?:bin|lib|share)/[\w./@-]*\w", text)}
    assert [it for it in sorted(named) if "/nadzsumek" in it and not os.path.exists(f"{root.path}{it}")] == []


def is_used_and_removed(root: Fresh, package: str) -> None:
    """The package, from a machine that has nothing to one that has nothing but a class."""
    assert root.shell(f"for it in {' '.join(TOOLS)}; do ! command -v $it; done") == ""
    before = root.files()
    told = root.install(package)
    assert " 1 newly installed, 0 to remove " in told and "Need to get 0 B" in told
    class_answers(root)
    commands_say_what_they_are(root, text_of(f"{TOP}/VERSION").strip())
    told = root.by("farm", "/usr/lib/nadzsumek/examples/two-users.farm")
    assert told == text_of(f"{EXAMPLES}/two-users.out")
    manual_is_true(root)
    assert "no licence" in text_of(f"{root.path}/{DOC}/copyright")
    root.by("class", "stop", "one")
    # by root, whose Python puts folders of its own beside the package
    root.by_root("env", "PYTHONPATH=/usr/lib/nadzsumek", "python3", "-c", "import nadzsumek")
    root.by_root("apt", "remove", "-y", "nadzsumek")
    assert sorted(root.files() - before) == []
    root.by_root("apt", "purge", "-y", "nadzsumek")
    assert (sorted(root.files() ^ before), root.by_root("sh", "-c", "dpkg -l | grep -c nadzsumek || true")) == (
        [],
        "0\n",
    )
    assert root.by("ls", "one/farm-1/records").split() == ["ada.replay", "bob.replay", "lock"]


def is_updated(root: Fresh, earlier: str, package: str) -> None:
    """A class that is up under an earlier version goes on under the new one, with all its records."""
    root.install(earlier)
    class_answers(root)
    told, path = root.asks("ada", "look 0"), f"{root.path}/home/{ACCOUNT}/one/farm-1/records/ada.replay"
    record = contents(path)
    root.install(package)
    assert root.by("farm", "--version").startswith(f"farm of Nadzsumek {text_of(f'{TOP}/VERSION').strip()}")
    # the farm that is up goes on
    status = root.by("class", "status", "one")
    assert re.search(r"^ada +farm-1 ", status, re.M) is not None and root.asks("ada", "look 0") == told, status
    assert root.asks("ada", "reset 0", "load 0 hello.occ", "collect 0")[-1] == 'collect 0 68656c6c6f0a  "hello\\n"'
    told = root.asks("ada", "look 0")
    assert contents(path).startswith(record) and len(contents(path)) > len(record)
    begun = time.monotonic()
    root.by("class", "stop", "one")
    root.by("class", "start", "one")
    assert root.asks("ada", "look 0") == told
    assert contents(path).startswith(record)
    print(f"after the update, stopped, started and answered: {time.monotonic() - begun:.1f} s")
    root.by("class", "stop", "one")


def test_is_used_and_removed(machine: str, package: str) -> None:
    in_a_root(lambda: is_used_and_removed(Fresh(machine), package))


def test_is_updated(machine: str, earlier: str, package: str) -> None:
    in_a_root(lambda: is_updated(Fresh(machine), earlier, package))
