"""Pages of a class in a real browser (Debian's chromium): a lesson from the sheet's address to a submitted exercise, by the keyboard
alone too, what is marked while one types, what comes back after a kill, on a phone and in dark colours, and the teacher's page. The
folder that the variable PICTURES names gets pictures of the pages."""

import json
import os
import signal
import time
from collections.abc import Iterator

import pytest
from support import browser
from support.pages import Pages
from support.trials import NEXT, TOP, put, text_of

pytestmark = [
    pytest.mark.browser,
    pytest.mark.skipif(not browser.is_there(), reason="there is no chromium: apt-get install chromium"),
]
DEADLOCK = """CHAN OF INT c:
INT x:
SEQ
  c ! 1
  c ? x
"""
# Sends whatever its page must not take for its own words.
MARKUP = """-- <img src=x onerror=alert(1)> </script>
CHAN OF BYTE to:
PLACE to AT link0.out:
out.string ("<img src=x onerror=alert(1)>", to)
"""
FAULT = "        mint\n        ldc 0\n        stnl 5000\n        mint\n        ldnl -1\n        stopp\n"
ADDS = """CHAN OF INT from, to:
PLACE from AT link0.in:
PLACE to AT link0.out:
INT n:
WHILE TRUE
  SEQ
    from ? n
    to ! n + 1
"""


@pytest.fixture(scope="module")
def pages() -> Iterator[Pages]:
    with Pages(3) as it:
        os.makedirs(f"{it.folder}/exercises")
        put(f"{it.folder}/exercises/successor.txt", text_of(f"{TOP}/examples/exercises/successor.txt"))
        yield it


class Page(browser.Browser):
    """The page of a student, or the teacher's."""

    def __init__(self, pages: Pages, name: str, until: str = "document.getElementById('state')?.textContent") -> None:
        super().__init__(f"http://{pages.place}", f"ws://{pages.place}")
        self.size(1280, 800)
        self.visit(pages.address(name), until)

    def __enter__(self) -> "Page":
        return self

    def text(self, name: str) -> str:
        return str(self.look(f"$({json.dumps(name)}).textContent"))

    def write(self, text: str, kind: str = "occ") -> None:
        """Puts a text into the editor, in one piece."""
        self.look(f"$('kind').value = '{kind}'; editor.put({json.dumps(text)}); changed()")

    def run(self, text: str, send: str, until: str, kind: str = "occ") -> None:
        self.write(text, kind)
        self.look(f"$('send').value = {json.dumps(send)}; $('run').click()")
        self.wait_for(f"!$('run').disabled && ({until})")

    def shot(self, name: str) -> None:
        if folder := os.environ.get("PICTURES"):
            os.makedirs(folder, exist_ok=True)
            self.picture(f"{folder}/{name}.png")


def test_lesson(pages: Pages) -> None:
    """From the sheet's address to a program that answers, a deadlock by line, a fault, and what programs and texts have of markup, which
    is shown as it is; the film, the debugger's steps and the guide."""
    with Page(pages, "student-1") as it:
        assert it.look("location.pathname") == "/"
        assert it.look("document.cookie") == ""
        assert it.text("state") == "it rests"
        it.run(NEXT, "HAL", "$('came').textContent.includes('IBM')")
        it.wait_for("$('why').textContent.includes('node 0 waits in line 7: from ? letter')")
        it.wait_for("document.querySelector('.picture .node.waits')")
        assert it.look("document.querySelectorAll('.picture .join').length") == 1
        it.wait_for("document.querySelector('#numbers .waits').textContent.trim() == '7'")
        assert it.look("document.querySelectorAll('#colours .word').length") > 4
        it.shot("student")
        it.run(DEADLOCK, "", "document.querySelector('.picture .deadlock')")
        assert "line 4" in it.text("why")
        it.shot("deadlock")
        it.run(FAULT, "", "document.querySelector('.picture .fault')", "s")
        it.shot("fault")
        it.run(MARKUP, "", "$('came').textContent.includes('<img src=x')")
        assert it.look("document.images.length") == 0
        it.look("$('film').click()")
        it.wait_for("$('shown').src.includes('/film')")
        time.sleep(1)
        it.look("show('filmed')")
        it.shot("film")
        it.run(NEXT, "HAL", "$('came').textContent.includes('IBM')")
        it.look("show('stepping')")
        it.wait_for("$('where').textContent.includes('node 0 waits in line 7')")
        it.look("document.querySelector('[data-how=back]').click()")
        it.wait_for("$('where').textContent.includes('node 0 goes on in line')")
        it.wait_for("$('values').textContent.includes('letter (line 4)76')")
        it.shot("steps")
        it.look("show('guide')")
        it.wait_for("$('read').contentDocument?.querySelector('h2')")
        it.shot("guide")
        assert it.faults == []


def test_typing(pages: Pages) -> None:
    """What is wrong is marked at its place while one types, verbs are completed as at a terminal, and the whole of it goes by keys."""
    with Page(pages, "student-2") as it:
        it.look("editor.put(''); $('text').focus()")
        it.type("INT lettre:")
        it.press("Enter")
        it.type("SEQ")
        it.press("Enter")
        it.type("letter := 1")
        assert it.look("editor.text") == "INT lettre:\nSEQ\n  letter := 1"
        it.wait_for("$('mistakes').textContent.includes('line 3, column 3')")
        assert it.look("document.querySelector('#colours .mistake').textContent") == "letter"
        assert it.look("document.querySelector('#numbers .wrong').textContent.trim()") == "3"
        it.shot("mistake")
        it.look("editor.put('')")
        it.type(NEXT.rstrip("\n"))
        it.wait_for("!$('mistakes').textContent")
        for _ in range(30):
            it.press("Tab")
            if it.look("document.activeElement.id") == "send":
                break
        it.type("HAL")
        it.press("Enter", control=True)
        it.wait_for("$('came').textContent.includes('IBM')")
        it.look("$('line').focus()")
        it.type("rep")
        assert it.text("hint") == ""
        it.look("$('line').value = ''")
        it.type("po")
        assert it.text("hint") == "ports  poke"
        it.type("rt")
        assert it.text("hint").startswith("ports: tells which ports are joined")
        it.press("Tab")
        assert it.look("$('line').value") == "ports "
        it.press("Enter")
        it.wait_for("$('answers').textContent.includes('what host 0 at port 1 sends goes to link 0 of node 0')")
        it.look("$('line').value = 'prots'")
        it.press("Enter")
        it.wait_for("""$('answers').textContent.includes("Is it ports? Try: ports")""")
        for at in range(30):
            it.press("Tab", shift=True)
            if it.look("document.activeElement.role") == "tab":
                break
        it.press("ArrowRight")
        assert it.look("document.activeElement.getAttribute('aria-controls')") == "handing"
        assert it.look("$('handing').hidden") is False
        it.wait_for("$('task').textContent")
        it.write(ADDS)
        it.press("Tab")
        it.press("Tab")
        assert it.look("document.activeElement.id") == "check"
        it.press("Tab")
        it.press("Enter")
        it.wait_for("$('submitted').textContent.includes('5 of 5 points')")
        it.shot("submitted")
        assert it.faults == []


def test_it_comes_back(pages: Pages) -> None:
    """Texts survive a page that is closed at once, a server that is killed or away, and a farm that is killed; pages hear again by
    themselves."""
    with Page(pages, "student-3") as it:
        it.write("-- one\nSKIP\n")
        it.visit(pages.address("student-3"), "typeof editor == 'object' && editor.text.includes('-- one')")
        it.wait_for("$('state').textContent == 'it rests'")
        keeper = int(text_of(f"{pages.folder}/web.lock").splitlines()[0])
        site = int(text_of(f"/proc/{keeper}/task/{keeper}/children").split()[0])
        os.kill(site, signal.SIGKILL)
        it.run(NEXT, "HAL", "$('came').textContent.includes('IBM')")
        it.wait_for("!$('connection').textContent && $('state').textContent == 'it rests'")
        it.visit(pages.address("student-3"), "document.getElementById('why')?.textContent.includes('waits in line 7')")
        pages.end()
        it.wait_for("$('connection').textContent")
        it.write("-- two\nSKIP\n")
        it.wait_for("$('kept').textContent.includes('be reached')")
        pages.web = pages.served()
        it.wait_for("!$('connection').textContent && $('kept').textContent == 'kept'")
        assert pages.get("student-3", "/text").told()["text"] == "-- two\nSKIP\n"
        serve = pages.lock(1)
        live = int(text_of(f"/proc/{serve}/task/{serve}/children").split()[-1])
        os.kill(live, signal.SIGKILL)
        it.run(NEXT, "HAL", "$('came').textContent.includes('IBM')")
        os.kill(serve, signal.SIGKILL)
        it.wait_for("$('state').textContent.includes('farm')")
        pages.must("start")
        it.wait_for("$('state').textContent == 'it rests' && $('why').textContent.includes('node 0 rests')")
        it.look("showVersions()")
        it.wait_for("$('version').options.length > 3")
        it.look("$('version').selectedIndex = $('version').options.length - 1; $('version').onchange()")
        it.wait_for("editor.text == '-- one\\nSKIP\\n'")


def test_phone_and_dark(pages: Pages) -> None:
    """Nothing is wider than a phone, and dark colours can be read."""
    with Page(pages, "student-1") as it:
        it.run(NEXT, "HAL", "$('came').textContent.includes('IBM')")
        it.wait_for("$('why').textContent.includes('node 0 waits in line 7')")
        it.size(390, 800)
        assert it.look("document.documentElement.scrollWidth <= 390")
        it.shot("phone")
        it.size(1280, 800)
        it.colours("dark")
        it.shot("dark")
        assert it.look("getComputedStyle(document.body).colorScheme || true")
        assert it.faults == []


def test_teacher(pages: Pages) -> None:
    """A click on a tile shows a student's text, picture and record, and what was handed in has its result."""
    pages.run("student-1", DEADLOCK, "")
    asked = {"exercise": "successor", "kind": "occ", "text": ADDS}
    assert pages.post("student-2", "/submit", **asked).told()["points"] == 5
    with Page(pages, "teacher", "document.querySelectorAll('.tile').length == 3") as it:
        it.wait_for("document.querySelector('.tile').className == 'tile deadlock'")
        it.look("document.querySelector('.tile').click()")
        it.wait_for("$('text').textContent.includes('c ! 1') && document.querySelector('.picture .deadlock')")
        it.look("$('film').click()")
        it.wait_for("$('shown').src.includes('of=student-1')")
        time.sleep(1)
        it.shot("teacher")
        it.look("document.querySelectorAll('[role=tab]')[1].click()")
        it.wait_for("$('handed').textContent.includes('5 of 5')")
        it.shot("handed")
        assert it.faults == []
    told = pages.get("teacher", "/marks.csv")
    assert told.headers["Content-Type"].startswith("text/csv")
    assert "student-2,Student 2,5,5" in told.text.splitlines()


def test_thirty_tiles() -> None:
    """All fit on one screen of 1280 by 800, those who need help first."""
    with Pages(30) as pages:
        for name in ("student-7", "student-30"):
            pages.run(name, DEADLOCK, "")
        for name in ("student-1", "student-2", "student-3"):
            pages.run(name, NEXT, "HAL")
        with Page(pages, "teacher", "document.querySelectorAll('.tile').length == 30") as it:
            it.wait_for("document.querySelectorAll('.tile.deadlock').length == 2")
            names = it.look("[...document.querySelectorAll('.tile')].slice(0, 2).map((it) => it.title).sort()")
            assert names == ["student-30", "student-7"]
            assert it.look(
                "Math.max(...[...document.querySelectorAll('.tile')].map((it) => it.getBoundingClientRect().bottom)) <= 800"
            )
            assert it.look("document.documentElement.scrollWidth <= 1280")
            it.shot("thirty")
            assert it.faults == []
