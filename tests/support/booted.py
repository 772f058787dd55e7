"""A machine of its own that systemd boots: a container above this system's files, which stay as they are."""

import contextlib
import os
import subprocess
import time

SECONDS = 60
PATH = "/usr/local/sbin:/usr/local/bin:/usr/sbin:/usr/bin:/sbin:/bin"


class NotBooted(Exception):
    """No machine can be booted here, and why."""


class Booted:
    """A booted machine, in which some folders of this one are at other paths too. What is written there is gone at the end."""

    def __init__(self, room: str, folders: dict[str, str]) -> None:
        self.room, self.folders, self.root = room, folders, f"{room}/over/root"
        self.process: subprocess.Popen[bytes] | None = None
        self.number = ""
        self.undone = contextlib.ExitStack()

    def __enter__(self) -> "Booted":
        over = f"{self.room}/over"
        os.mkdir(over)
        with contextlib.ExitStack() as self.undone:
            self.mount("-t", "tmpfs", "-o", "size=500m", "nadzsumek", over)
            for name in ("upper", "work", "root"):
                os.mkdir(f"{over}/{name}")
            self.mount(
                "-t", "overlay", "-o", f"lowerdir=/,upperdir={over}/upper,workdir={over}/work", "nadzsumek", self.root
            )
            # a machine has a number of its own
            with open(f"{self.root}/etc/machine-id", "w", encoding="ascii") as it:
                it.write(os.urandom(16).hex() + "\n")
            self.undone.callback(self.halt)
            self.boot()
            self.undone = self.undone.pop_all()
        return self

    def __exit__(self, *_: object) -> None:
        self.undone.close()

    def mount(self, *words: str) -> None:
        """Mounts something until the end."""
        done = subprocess.run(["mount", *words], check=False, capture_output=True, encoding="utf-8")
        if done.returncode != 0:
            raise NotBooted(done.stderr.strip())
        self.undone.callback(lambda: subprocess.run(["umount", "--lazy", words[-1]], check=False, capture_output=True))

    def boot(self) -> None:
        """Boots it, and waits until its units are started."""
        call = [
            "systemd-nspawn",
            "--quiet",
            "-D",
            self.root,
            "--register=no",
            "--console=pipe",
            "--link-journal=no",
            *([] if os.path.isdir("/run/systemd/system") else ["--keep-unit"]),
            *(f"--bind-ro={here}:{there}" for here, there in self.folders.items()),
            "--boot",
            "systemd.unit=multi-user.target",
            "systemd.mask=ssh.service",
        ]
        with open(f"{self.room}/boot.log", "ab") as log:
            # pylint: disable-next=consider-using-with
            self.process = subprocess.Popen(call, stdin=subprocess.DEVNULL, stdout=log, stderr=log)
        end = time.monotonic() + SECONDS
        while not self.is_running():
            if self.process.poll() is not None or time.monotonic() > end:
                with open(f"{self.room}/boot.log", encoding="utf-8", errors="replace") as log:
                    raise NotBooted(f"no machine could be booted: {log.read()}")
            time.sleep(0.1)

    def is_running(self) -> bool:
        """Whether it has started all that it should."""
        assert self.process
        with open(f"/proc/{self.process.pid}/task/{self.process.pid}/children", encoding="ascii") as it:
            self.number = next(iter(it.read().split()), "")
        return self.number != "" and self.call("systemctl", "is-system-running")[1].strip() in ("running", "degraded")

    def call(self, *words: str, text: str = "") -> tuple[int, str]:
        """The status of a call there, and what it says."""
        done = subprocess.run(
            [
                "nsenter",
                "-t",
                self.number,
                "-m",
                "-u",
                "-i",
                "-n",
                "-p",
                "-C",
                "-r",
                "-w",
                "env",
                "-i",
                f"PATH={PATH}",
                "LANG=C.UTF-8",
                *words,
            ],
            input=text,
            stdout=subprocess.PIPE,
            stderr=subprocess.STDOUT,
            encoding="utf-8",
            errors="replace",
            timeout=SECONDS + 30,
            check=False,
        )
        return done.returncode, done.stdout

    def must(self, *words: str, text: str = "") -> str:
        """What a call there says that must go well."""
        status, told = self.call(*words, text=text)
        assert status == 0, f"{words}: status {status}: {told}"
        return told

    def until(self, *words: str, text: str = "", starts: str = "") -> str:
        """What a call there says as soon as it goes well, and that begins so."""
        end = time.monotonic() + SECONDS
        while True:
            status, told = self.call(*words, text=text)
            if status == 0 and told.startswith(starts):
                return told
            if time.monotonic() > end:
                raise AssertionError(f"{words}: status {status}: {told}")
            time.sleep(0.2)

    def halt(self) -> None:
        """Ends it as a machine that is switched off by its button."""
        if self.process is None:
            return
        self.process.terminate()
        try:
            self.process.wait(timeout=SECONDS)
        except subprocess.TimeoutExpired:
            self.process.kill()
            self.process.wait()
