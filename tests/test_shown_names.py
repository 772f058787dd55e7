"""Names of users with names that are shown: `li = 李 小龙` in the list of a class, on sheets, walls and marks, and over other orders."""

import pytest
from nadzsumek.serving.folder import Refused
from nadzsumek.serving.plans import checked_name, students_among
from nadzsumek.serving.tiles import FRESH, QUIET, Tile, fitted, on_screen, wide
from support.courses import Course
from support.trials import put, text_of

# Lines of a list, each with the user and the name that is shown.
GOOD = (
    ("li = 李 小龙", ("li", "李 小龙")),
    ("  ada-2=Ada Lovelace", ("ada-2", "Ada Lovelace")),
    ("x1 = a = b", ("x1", "a = b")),
    ("Émile Borel", ("emile-borel", "Émile Borel")),
)
BAD = (
    ("Li = 李", "before = stands a user's name"),
    ("= 李", "before = stands a user's name"),
    ("a--b = x", "before = stands a user's name"),
    ("-a = x", "before = stands a user's name"),
    ("a b = x", "before = stands a user's name"),
    ("é = x", "before = stands a user's name"),
    (f"{'a' * 33} = x", "before = stands a user's name"),
    ("li =", "behind = stands the name that is shown"),
    ("operator = Ann", "that name is reserved"),
    ("李 小龙", "or one before it: li = 李 小龙"),
)


def test_forms() -> None:
    """Each is read as it is meant, or refused with its line and the cause; and two with one user are refused."""
    for line, (user, person) in GOOD:
        assert (line, checked_name(line.strip(), {})) == (line, (user, person, []))
    for line, why in BAD:
        with pytest.raises(Refused) as refused:
            students_among([("names.txt, line 3: ", line)])
        told = str(refused.value)
        assert (line, told.startswith("names.txt, line 3: "), why in told) == (line, True, True)
    with pytest.raises(Refused) as refused:
        students_among([("1: ", "li = 李 小龙"), ("2: ", "Li")])
    assert str(refused.value) == "2: Li is the user li, as 李 小龙 is: add something to one"


def test_orders_keep_the_name() -> None:
    """It is on the sheet, the wall and in the marks, and stays when the user is renamed, changed, or comes back."""
    with Course(1) as it:
        names, folder = f"{it.room.name}/list.txt", f"{it.room.name}/named"
        put(names, "li = 李 小龙\nAda Lovelace\n")
        assert it.call("--students", names, "--nodes", "1", folder).returncode == 0

        def must(*words: str) -> str:
            done = it.call(*words)
            assert (words, done.returncode, done.stderr) == (words, 0, "")
            return done.stdout

        def sheet(user: str) -> list[str]:
            return text_of(f"{folder}/sheets/{user}.txt").splitlines()[:3]

        assert sheet("li") == ["李 小龙", "", sheet("li")[2]]
        assert sheet("li")[2].startswith("On the farm you are the user li. ")
        assert "li  " in must("status", folder)
        assert [row.split()[:3] for row in must("marks", folder).splitlines()[1:2]] == [["li", "李", "小龙"]]
        must("wall", "--once", folder, f"{it.room.name}/wall.html")
        assert "<strong>李 小龙</strong>" in text_of(f"{it.room.name}/wall.html")
        assert "李 小龙" in must("wall", "--once", folder)
        must("change", folder, "李 小龙", "--nodes", "2")
        assert sheet("li")[0] == "李 小龙"
        must("rename", folder, "li", "lee")
        assert sheet("lee")[0] == "李 小龙"
        must("remove", folder, "lee")
        must("add", folder, "lee")
        assert sheet("lee")[0] == "李 小龙"
        must("rename", folder, "lee", "bruce = Bruce Lee")
        assert sheet("bruce")[0] == "Bruce Lee"
        must("rename", folder, "bruce", "Li Xiaolong")
        assert sheet("li-xiaolong")[0] == "Li Xiaolong"
        done = it.call("rename", folder, "li-xiaolong", "Li = 李")
        assert (done.returncode, "before = stands a user's name" in done.stderr) == (1, True)
        assert sheet("li-xiaolong")[0] == "Li Xiaolong"


def tile(name: str, kind: str) -> Tile:
    return Tile(name, f"李 {name}", "farm-1", kind, kind, ("node 0 rests.",), ("",) * 9)


def test_thirty_tiles_fit_on_a_screen() -> None:
    """Each of thirty has a place of its own at 80 by 24 and on larger screens, in the order that is given, and no line is too wide; on
    a smaller screen it is said how many don't fit."""
    tiles = [tile(f"s{number}", QUIET if number % 2 else FRESH) for number in range(30)]
    for width, height in ((80, 24), (100, 30), (132, 43), (200, 50), (300, 100)):
        lines = on_screen(tiles, "head", width, height - 1, False)
        assert len(lines) < height
        assert all(sum(wide(letter) for letter in line) <= width for line in lines)
        shown = [word for line in lines for word in line.split() if word.startswith("s") and word[1:].isdigit()]
        assert (width, shown) == (width, [it.user for it in tiles])
    assert "don't fit" in on_screen(tiles, "head", 40, 10, False)[0]
    assert len(on_screen(tiles, "head", 40, 10, True)) <= 10
    assert fitted("李小龙", 5) == "李小 "
