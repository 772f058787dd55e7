"""A hundred pages, each of which runs a program every ten seconds, beside sixteen machines that compute without end: how long their
answers take beside the same lines at the socket. The figures are printed."""

import asyncio
import json
import statistics
import time

import aiohttp
import pytest
from support.pages import Pages
from support.trials import NEXT

from nadzsumek.farm import AsyncUser, Farm
from nadzsumek.verbs import Question

PAGES, LOOPS, EACH_SECONDS = 100, 16, 10.0
# How much longer than at the socket half of the answers may take, and 99 of 100, in seconds.
MOST_HALF, MOST_OF_99 = 0.050, 0.300
FOREVER = "INT x:\nWHILE TRUE\n  x := x + 1\n"
BYTES = b"HAL"


def text_of(number: int, turn: int) -> str:
    """A program that nobody has run before."""
    return f"-- page {number}, turn {turn}\n{NEXT}"


class Socket:
    """A student at the socket, whose program is compiled already."""

    def __init__(self, user: AsyncUser, code: str) -> None:
        self.user, self.code = user, code

    async def run(self) -> float:
        """Runs the program as a page does; how long that took."""
        begun, ports = time.monotonic(), self.user.ports
        assert ports
        lines = ["restart", f"join {ports.link} {ports.port}", f"boot {ports.host} {self.code}"]
        await self.user.do(Question([*lines, f"write {ports.host} {BYTES.hex()}"]))
        came = b""
        while len(came) < len(BYTES):
            came += await self.user.collect(ports.host)
        assert came == b"IBM"
        return time.monotonic() - begun


class Browser:
    """A page that is open: it hears what its machine does, looks for mistakes as one types, and runs a program now and then."""

    def __init__(self, pages: Pages, name: str, number: int) -> None:
        self.name, self.number, self.base = name, number, f"http://{pages.place}"
        headers = {"Cookie": f"nadzsumek={pages.secret(name)}", "Origin": self.base}
        self.session = aiohttp.ClientSession(headers=headers)
        self.stream: aiohttp.ClientWebSocketResponse | None = None

    async def open(self) -> None:
        self.stream = await self.session.ws_connect(f"{self.base}/live")
        asyncio.ensure_future(self.hear(self.stream))

    @staticmethod
    async def hear(stream: aiohttp.ClientWebSocketResponse) -> None:
        async for _ in stream:
            pass

    async def ask(self, path: str, **asked: str) -> dict[str, object]:
        async with self.session.post(f"{self.base}{path}", data=json.dumps(asked)) as answer:
            assert answer.status == 200, await answer.text()
            return dict(await answer.json())

    async def run(self, turn: int) -> float:
        text = text_of(self.number, turn)
        assert (await self.ask("/mistakes", kind="occ", text=text))["mistakes"] == []
        begun = time.monotonic()
        told = await self.ask("/run", kind="occ", text=text, send=BYTES.decode())
        took = time.monotonic() - begun
        assert isinstance(told["came"], dict) and told["came"]["letters"] == '"IBM"', told
        return took

    async def close(self) -> None:
        if self.stream:
            await self.stream.close()
        await self.session.close()


async def measured(pages: Pages, minutes: float) -> tuple[list[float], list[float]]:
    """How long the runs of pages took, and those at the socket beside them."""
    farm, names = Farm(pages.folder), [f"student-{number}" for number in range(1, PAGES + LOOPS + 2)]
    loops, students, last = names[:LOOPS], names[LOOPS : LOOPS + PAGES], names[-1]
    opened = [Browser(pages, name, number) for number, name in enumerate(students)]
    for name in loops:
        page = Browser(pages, name, -1)
        await page.ask("/run", kind="occ", text=FOREVER, send="")
        await page.close()
    for it in opened:
        await it.open()
    end = time.monotonic() + 60 * minutes
    took: list[float] = []

    async def go_on(page: Browser, number: int) -> None:
        await asyncio.sleep(EACH_SECONDS * number / PAGES)
        turn = 0
        while time.monotonic() < end:
            begun, turn = time.monotonic(), turn + 1
            took.append(await page.run(turn))
            await asyncio.sleep(max(0, EACH_SECONDS - (time.monotonic() - begun)))

    at_socket: list[float] = []

    async def beside() -> None:
        async with farm.async_user(last) as user:
            done = await asyncio.to_thread(pages.call, "status", pages.folder)
            assert done.returncode == 0
            from nadzsumek.verbs import load_question

            with open(f"{pages.room.name}/next.occ", "w", encoding="utf-8") as it:
                it.write(NEXT)
            loading = await asyncio.to_thread(load_question, 0, f"{pages.room.name}/next.occ")
            student = Socket(user, loading.lines[-1].split(" ")[2])
            while time.monotonic() < end:
                at_socket.append(await student.run())
                await asyncio.sleep(0.2)

    try:
        await asyncio.gather(beside(), *(go_on(it, number) for number, it in enumerate(opened)))
    finally:
        for it in opened:
            await it.close()
    return sorted(took), sorted(at_socket)


@pytest.mark.long
@pytest.mark.alone
def test_hundred_pages(minutes: float) -> None:
    """Half of the answers come within 50 ms of the same at the socket, and 99 of 100 within 300 ms."""
    with Pages(PAGES + LOOPS + 1) as pages:
        took, at_socket = asyncio.run(measured(pages, minutes))
    for what, them in (("pages", took), ("socket", at_socket)):
        half, most = statistics.median(them), them[len(them) * 99 // 100]
        print(
            f"{what}: {len(them)} runs, half in {half * 1000:.0f} ms, 99 of 100 in {most * 1000:.0f} ms, the slowest in {them[-1] * 1000:.0f} ms"
        )
    half = statistics.median(took) - statistics.median(at_socket)
    of_99 = took[len(took) * 99 // 100] - at_socket[len(at_socket) * 99 // 100]
    assert (half <= MOST_HALF, of_99 <= MOST_OF_99) == (True, True), (half, of_99)
