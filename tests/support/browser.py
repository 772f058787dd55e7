"""Chromium without a window: a page is opened, asked and seen, over the pipe of its DevTools protocol."""
from __future__ import annotations

import base64
import json
import os
import selectors
import shutil
import subprocess
import tempfile
import time
from typing import Any

SECONDS = 30
# The program of Debian's package chromium, which ./test installs.
PROGRAM = "chromium"


def is_there() -> bool:
    """Whether the browser is installed."""
    return shutil.which(PROGRAM) is not None


class PageFailed(Exception):
    """The page or the browser said that something went wrong."""


class Browser:
    """A browser with one page. Whatever the page's script throws is kept in `faults`, and what it asks for elsewhere than at the
    places that are named."""

    def __init__(self, *places: str) -> None:
        self.places = ("file:", "about:", *places)
        self.folder = tempfile.TemporaryDirectory(ignore_cleanup_errors=True)
        asks, self.asked = os.pipe()
        self.told, tells = os.pipe()
        # The browser takes commands from its third file and writes to its fourth.
        words = [
            PROGRAM,
            "--headless=new",
            "--no-sandbox",
            "--disable-gpu",
            "--disable-dev-shm-usage",
            "--hide-scrollbars",
            "--no-first-run",
            "--disable-background-networking",
            "--disable-component-update",
            "--remote-debugging-pipe",
            f"--user-data-dir={self.folder.name}",
            "about:blank",
        ]
        self.process = subprocess.Popen(
            ["bash", "-c", f'exec "$@" 3<&{asks} 4>&{tells}', "bash", *words],
            pass_fds=(asks, tells),
            stdout=subprocess.DEVNULL,
            stderr=subprocess.DEVNULL,
        )
        os.close(asks)
        os.close(tells)
        self.rest, self.count = b"", 0
        self.faults: list[str] = []
        self.session: str | None = None
        self.waits = selectors.DefaultSelector()
        self.waits.register(self.told, selectors.EVENT_READ)
        page = next(it for it in self.ask("Target.getTargets")["targetInfos"] if it["type"] == "page")
        self.session = self.ask("Target.attachToTarget", targetId=page["targetId"], flatten=True)["sessionId"]
        for domain in ("Page", "Runtime", "Network"):
            self.ask(f"{domain}.enable")

    def __enter__(self) -> Browser:
        return self

    def __exit__(self, *_: object) -> None:
        os.close(self.asked)
        try:
            self.process.wait(timeout=SECONDS)
        except subprocess.TimeoutExpired:
            self.process.kill()
            self.process.wait()
        os.close(self.told)
        self.folder.cleanup()

    def hear(self, until: float) -> Any:
        """The next message."""
        while b"\0" not in self.rest:
            if not self.waits.select(max(0, until - time.monotonic())):
                raise PageFailed("the browser says nothing")
            more = os.read(self.told, 1 << 20)
            if not more:
                raise PageFailed("the browser has ended")
            self.rest += more
        message, self.rest = self.rest.split(b"\0", 1)
        return json.loads(message)

    def note(self, message: Any) -> None:
        method, more = message.get("method"), message.get("params", {})
        if method == "Runtime.exceptionThrown":
            self.faults.append(json.dumps(more["exceptionDetails"].get("exception", {}).get("description", more)))
        elif method == "Network.requestWillBeSent" and not more["request"]["url"].startswith(self.places):
            self.faults.append(f"the page asks for {more['request']['url']}")

    def ask(self, method: str, **words: Any) -> Any:
        """What a command answers."""
        self.count += 1
        session = {} if self.session is None else {"sessionId": self.session}
        text = json.dumps({"id": self.count, "method": method, "params": words, **session}).encode() + b"\0"
        while text:
            text = text[os.write(self.asked, text) :]
        until = time.monotonic() + SECONDS
        while (message := self.hear(until)).get("id") != self.count:
            self.note(message)
        if "error" in message:
            raise PageFailed(f"{method}: {message['error']}")
        return message["result"]

    def open(self, path: str, width: int = 1280, height: int = 800) -> float:
        """Opens a file, and waits until its script has run. The answer is how many seconds that took."""
        self.size(width, height)
        self.ask("Page.navigate", url="about:blank")
        while self.look("location.href") != "about:blank":
            time.sleep(0.01)
        self.faults = []
        begun = time.monotonic()
        self.ask("Page.navigate", url=f"file://{path}")
        while not self.look("location.protocol == 'file:' && document.readyState == 'complete'"):
            if time.monotonic() > begun + SECONDS:
                raise PageFailed(f"{path} isn't open after {SECONDS} s")
            time.sleep(0.01)
        return time.monotonic() - begun

    def visit(self, address: str, is_there: str) -> None:
        """Goes to a page of a server, and waits until an expression is true in it."""
        self.ask("Page.navigate", url=address)
        self.wait_for(is_there)

    def wait_for(self, expression: str) -> None:
        """Waits until an expression is true in the page."""
        until = time.monotonic() + SECONDS
        while not self.look(f"Boolean({expression})"):
            if time.monotonic() > until:
                raise PageFailed(f"{expression} isn't so after {SECONDS} s")
            time.sleep(0.05)

    def look(self, expression: str) -> Any:
        """The value of an expression in the page."""
        told = self.ask("Runtime.evaluate", expression=expression, returnByValue=True)
        if "exceptionDetails" in told:
            raise PageFailed(f"{expression}: {told['exceptionDetails']}")
        return told["result"].get("value")

    def press(self, key: str, shift: bool = False, control: bool = False) -> None:
        """Presses a key, as `a`, `ArrowLeft` or `Home`."""
        more = {"text": "\r", "windowsVirtualKeyCode": 13} if key == "Enter" else {}
        more |= {"windowsVirtualKeyCode": 9} if key == "Tab" else {}
        for kind in ("keyDown", "keyUp"):
            modifiers = (8 if shift else 0) + (2 if control else 0)
            self.ask("Input.dispatchKeyEvent", type=kind, key=key, modifiers=modifiers, **more)

    def type(self, text: str) -> None:
        """Writes into what has the focus, as a keyboard does."""
        self.ask("Input.insertText", text=text)

    def size(self, width: int, height: int) -> None:
        self.ask("Emulation.setDeviceMetricsOverride", width=width, height=height, deviceScaleFactor=1, mobile=False)

    def colours(self, scheme: str) -> None:
        """`light` or `dark`."""
        self.ask("Emulation.setEmulatedMedia", features=[{"name": "prefers-color-scheme", "value": scheme}])

    def picture(self, path: str) -> None:
        """A picture of the whole page."""
        told = self.ask("Page.captureScreenshot", format="png", captureBeyondViewport=True)
        with open(path, "wb") as it:
            it.write(base64.b64decode(told["data"]))
