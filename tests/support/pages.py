"""The pages of a class, by `class web`, and requests as browsers and others send them."""

from __future__ import annotations

import http.client
import json
import os
import re
import signal
import socket
import subprocess
from typing import Any, NamedTuple

from support.courses import Course
from support.serving_trials import SECONDS
from support.trials import TOP, text_of

HOST = "127.0.0.1"


class Answer(NamedTuple):
    """What a request is answered."""

    status: int
    headers: dict[str, str]
    text: str

    def told(self) -> Any:
        return json.loads(self.text)


def free_port() -> int:
    with socket.socket() as it:
        it.bind((HOST, 0))
        return int(it.getsockname()[1])


class Pages(Course):
    """A class whose farms are up and whose pages are served."""

    def __init__(self, count: int, *more: str) -> None:
        super().__init__(count, *more)
        self.port = free_port()
        self.place = f"{HOST}:{self.port}"
        self.must("start")
        self.web = self.served()

    def served(self, *words: str, place: str | None = None) -> subprocess.Popen[str]:
        """`class web` with these words, once it says where it is."""
        call = [f"{TOP}/class", "web", "--listen", place or self.place, *words, self.folder]
        it = subprocess.Popen(call, env=self.env, stdout=subprocess.PIPE, stderr=subprocess.STDOUT, encoding="utf-8")
        assert it.stdout
        told = ""
        while not told.startswith("the pages of "):
            told = it.stdout.readline()
            assert told, "class web has ended"
        return it

    def end(self, it: subprocess.Popen[str] | None = None) -> int:
        """Ends a `class web`; its status."""
        it = it or self.web
        it.send_signal(signal.SIGTERM)
        status = it.wait(timeout=SECONDS)
        assert it.stdout
        it.stdout.close()
        return status

    def __exit__(self, *_: object) -> None:
        if self.web.poll() is None:
            self.end()
        super().__exit__()

    def address(self, name: str) -> str:
        """The address on the sheet of a student, or the teacher's."""
        path = "teacher.page.txt" if name == "teacher" else f"sheets/{name}.page.txt"
        found = re.search(r"http://\S+", text_of(os.path.join(self.folder, path)))
        assert found
        return found[0]

    def secret(self, name: str) -> str:
        return self.address(name).rpartition("/")[2]

    def request(
        self, method: str, path: str, body: bytes | None = None, headers: dict[str, str] | None = None
    ) -> Answer:
        """What any request is answered."""
        it = http.client.HTTPConnection(HOST, self.port, timeout=SECONDS)
        try:
            it.request(method, path, body, headers or {})
            answer = it.getresponse()
            return Answer(answer.status, dict(answer.getheaders()), answer.read().decode())
        finally:
            it.close()

    def get(self, name: str, path: str) -> Answer:
        """What the page of a student, or the teacher's, gets."""
        return self.request("GET", path, headers={"Cookie": f"nadzsumek={self.secret(name)}"})

    def post(self, name: str, path: str, **asked: str) -> Answer:
        """What it is answered when it asks for something."""
        headers = {"Cookie": f"nadzsumek={self.secret(name)}", "Origin": f"http://{self.place}"}
        return self.request("POST", path, json.dumps(asked).encode(), headers)

    def run(self, name: str, text: str, send: str = "", kind: str = "occ") -> Any:
        """What Run answers, and behind it why the nodes do no more."""
        answer = self.post(name, "/run", kind=kind, text=text, send=send)
        assert answer.status == 200, answer
        return {**answer.told(), "why": self.get(name, "/state").told().get("why", [])}
