"""What pages make of listings and of what is said of nodes, beside what the lab says itself."""

import glob
import os
import subprocess

from support.trials import NEXT, TOP, put

from nadzsumek.web.guide import GUIDES, guide, html_of
from nadzsumek.web.listing import by_line, listing_of
from nadzsumek.web.picture import nodes_in


def said(*words: str) -> str:
    return subprocess.run([f"{TOP}/lab", *words], capture_output=True, encoding="utf-8", check=False).stdout


TABLE = """CHAN OF BYTE to:
PLACE to AT link0.out:
SEQ
  to ! 'a'
  out.string ("<b>", to)
"""


def test_code_of_listings(lab: str, folder: str) -> None:
    """It is that of `--code`, which is there if a boot takes it, also where words begin at the next multiple of four."""
    files = sorted(glob.glob(f"{TOP}/examples/occam/*.occ"))
    assert len(files) > 20
    tables = [put(f"{folder}/{count}.occ", TABLE + "  to ! 'a'\n" * count) for count in range(4)]
    for path in [*files[::4], *tables]:
        listing = listing_of(said("occam", path, "--listing"))
        assert (os.path.basename(path), listing.code.hex() if listing.is_booted() else "") == (
            os.path.basename(path),
            said("occam", path, "--code").strip(),
        )


def test_lines_of_why(lab: str, folder: str) -> None:
    """They are those of `lab why`, also of a program that is poked."""
    long = f"{NEXT}".replace("BYTE letter:", 'VAL text IS "' + "x" * 250 + '":\nBYTE letter:').replace(
        "+ 1", "+ (SIZE text)"
    )
    for text, send in (
        (NEXT, "HAL"),
        (long, "A"),
        ("CHAN OF INT c:\nINT x:\nSEQ\n  c ! 1\n  c ? x\n", ""),
        ("INT x:\nSEQ\n  x := 0\n  x := 7 / x\n", ""),
    ):
        path = put(f"{folder}/program.occ", text)
        record = put(f"{folder}/record.replay", said("run", path, "--record", "0", *(["--send", send] if send else [])))
        wanted = said("why", record, "--program", "0", path).splitlines()[1:]
        plain = said("why", record).splitlines()[1:]
        listing = listing_of(said("occam", path, "--listing"))
        assert listing.is_booted() == (text is not long)
        assert by_line(plain, listing) == wanted
        _, processes = nodes_in(wanted, 1)
        assert processes and all(it["node"] == 0 and it["line"] for it in processes)


def test_states() -> None:
    """One word for what is said of a node."""
    for lines, state in (
        (["node 0 waits for a control byte.", "  No byte comes by link 0."], "unused"),
        (["node 0 rests.", "  The process at 80000050 waits in `in`."], "waits"),
        (["node 0 rests.", "  No other process is left that could come there: a deadlock."], "deadlock"),
        (["node 0 halted by fault 1 in event 9: an address lies outside memory."], "fault"),
        (["node 0 has ended: no process is left."], "ended"),
        (["node 0 runs, 1200 Steps since a packet came or went."], "runs"),
        (["node 0 takes code by link 0: 2 of 180 bytes have come, as the control byte b4 asks."], "boots"),
    ):
        (node,), _ = nodes_in(lines, 1)
        assert (lines, node.state()) == (lines, state)


def test_guides() -> None:
    """All are there as HTML, and nothing of a text is markup of its own."""
    for name in GUIDES:
        text = guide(name)
        assert text and "<h2" in text and "```" not in text
    made = html_of(
        "# A <b>\n\nx `<i>` [here](<script>) **bold** *more* [you](USER.md#at-a-terminal)\n\n```sh\n<img>\n```\n\n| a | b |\n|---|---|\n| <u> | 2 |\n\n- one\n- two\n"
    )
    for part in ("<b>", "<i>", "<script", "<img", "<u>"):
        assert part not in made
    for part in (
        "<code>&lt;i&gt;</code>",
        "<strong>bold</strong>",
        '<a href="/guide/USER#at-a-terminal">you</a>',
        "<pre>&lt;img&gt;</pre>",
        "<td>2</td>",
        "<li>two</li>",
    ):
        assert part in made
