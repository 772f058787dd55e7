"""A terminal for one user of a farm, or for its operator."""

from __future__ import annotations

import argparse
import collections
import contextlib
import math
import os
import readline
import signal
import socket
import sys
import threading
import time

from ..course import telling
from ..mistakes.verbs import OF_RECORD, Wrong, check, goes_on, help_lines
from .answers import Due, Loading, refusal, with_meaning
from .completion import complete_with
from .connections import NO_FARM, REFUSED, opened
from .escapes import escaped, set_errors
from .folder import OPERATOR, Refused
from .kept import place_of
from .loads import COLLECTING, LOOKING, Hindered, check_line, remark_on
from .orders import lines_of, split, table_of, text_of
from .ports import drivers_in, joins_told, ports_of, wiring_of
from .taking import Taking
from .versions import add_version

HISTORY = os.path.expanduser("~/.nadzsumek_history")
MOST_HISTORY = 1000
# How long the next line waits for the answers to the line before it: at a prompt, and if lines come from a file.
PROMPT_SECONDS, FILE_SECONDS = 0.5, 60
# How long the lines of a program wait at a prompt for what `why` says of its node.
WHY_SECONDS = 5
# How long the operator waits until the farm that he stops has ended.
STOP_SECONDS = 60
# So many lines of a `load` are sent at once. Ctrl-C leaves out those that follow.
AT_ONCE = 64
# The status of a program that Ctrl-C has ended.
INTERRUPTED = 130
# How long is waited until Ctrl-C is noticed before the prompt is woken, and how often it is woken at most.
NOTICED_SECONDS, MOST_WAKES = 0.05, 100
# Names of users by which somebody may want help.
HELP = ("-h", "--help")
STATUS = """Without a terminal the status is 0 if all lines were answered, 1 if one was wrong, refused or not
answered, 2 if these words are wrong, and 3 if there is no farm or its connection has ended."""
# What `serve` does by itself: it answers by a note.
TELL = "!tell "
# What divides the lines of a text of several.
LINES = "\n"


class Gone(Exception):
    """The connection has ended while the person was asked for a line."""


class Terminal:
    """A connection, whose answers are printed by a thread of their own as they come."""

    def __init__(self, folder: str, name: str, is_person: bool, is_checked: bool) -> None:
        self.stream, self.folder, self.name, self.is_person = opened(folder, name), folder, name, is_person
        self.ports, self.wiring, self.is_checked = ports_of(folder, name), wiring_of(folder, name), is_checked
        self.taking = Taking(folder, name)
        self.due: collections.deque[Due] = collections.deque()
        self.status, self.stops, self.is_unread = 0, False, False
        self.news, self.has_ended, self.at_prompt = threading.Condition(), False, False
        self.interrupts, self.is_sending, self.is_noticed = 0, False, threading.Event()
        self.prompt, self.answer, self.is_done = f"{escaped(name)}> ", "", False
        self.exercises: set[str] = set()
        self.reader = threading.Thread(target=self.read, daemon=True)
        self.reader.start()

    def show(self, text: str) -> None:
        """Prints a line. What is typed at the prompt is shown again below it."""
        try:
            if self.at_prompt:
                typed = f"{self.prompt}{escaped(readline.get_line_buffer())}"
                print(f"\r\x1b[K{escaped(text)}\n{typed}", end="", flush=True)
            else:
                print(escaped(text), flush=True)
        except OSError:
            self.is_unread = True
            raise

    def read(self) -> None:
        """Shows the answers until the connection ends, and then calls the person away from the prompt."""
        try:
            with self.stream.makefile("rb") as lines:
                for line in lines:
                    if line.endswith(b"\n"):
                        self.hear(line.decode(errors="surrogateescape").removesuffix("\n"))
        except OSError:
            pass
        with self.news:
            self.has_ended = True
            self.news.notify_all()
        while self.at_prompt:
            signal.pthread_kill(threading.main_thread().ident or 0, signal.SIGUSR1)
            time.sleep(0.1)

    def hear(self, answer: str) -> None:
        self.exercises.update(telling.exercises_named(answer))
        with self.news:
            due = next((it for it in self.due if it.is_answered_by(answer)), None)
            for text in due.told(answer) if due else with_meaning(None, answer):
                self.show(text)
            if due and due.line == "ports" and self.wiring and drivers_in(answer) is not None:
                for text in joins_told(answer, self.wiring):
                    self.show(text)
            if due and not goes_on(answer):
                self.answer, self.is_done = answer, not refusal(due.line, answer)
                self.due.remove(due)
                if not self.is_person and not self.is_done:
                    self.status = REFUSED
                self.news.notify_all()

    def send(self, lines: list[str]) -> None:
        """Sends the lines of one verb, whole ones always. Ctrl-C leaves out what isn't sent yet."""
        loading = Loading() if len(lines) > 1 else None
        for at in range(0, len(lines), AT_ONCE):
            if self.interrupts:
                self.show(f"  (broken off: {at} of {len(lines)} lines were sent)")
                break
            piece = lines[at : at + AT_ONCE]
            with self.news:
                self.due.extend(Due(line, loading) for line in piece if line != "!stop" and not line.startswith(TELL))
            self.is_sending = True
            self.stream.sendall("".join(f"{line}\n" for line in piece).encode("utf-8", "surrogateescape"))
            self.is_sending = False

    def do(self, line: str) -> bool:
        """Does one line; false if it is the last."""
        first, verb, words = split(self.name, line, self.ports)
        self.stops = first == "stop"
        if first == "quit":
            return False
        if first == "help":
            for text in help_lines(table_of(self.name, self.ports), words[0] if words else None):
                self.show(text)
        elif first in OF_RECORD:
            check(first, verb, words)
            self.settle(FILE_SECONDS)
            self.take(first, words)
        else:
            lines = lines_of(self.name, line, self.ports)
            self.answer = ""
            if first not in LOOKING or not self.is_checked or self.may_send(first, words):
                self.send(lines)
                self.after(first, words)
        return True

    def after(self, first: str, words: list[str]) -> None:
        """What is said, or kept, once a line of some verbs is answered."""
        if first in COLLECTING and self.is_checked:
            self.remark()
        elif first == "why" and self.taking.texts.all():
            self.settle(WHY_SECONDS if self.is_person else FILE_SECONDS)
            for text in self.taking.waits(int(words[0]) if words else None) if self.answer == "why end" else []:
                self.show(text)
        elif first == "load":
            self.settle(FILE_SECONDS)
            if self.answer and self.is_done:
                self.taking.loaded(self.wiring, int(words[0]), text_of(words[0], words[1]))

    def take(self, first: str, words: list[str]) -> None:
        """Does one of the verbs of records."""
        if first != "debug":
            for text in self.taking.do(first, words[0] if words else None):
                self.show(text)
            return
        # it takes a while to load
        from ..debugging.console import look_through  # pylint: disable=import-outside-toplevel

        def leave(*_: object) -> None:
            self.is_noticed.set()
            raise KeyboardInterrupt

        with self.taking.with_programs() as record:
            before = signal.signal(signal.SIGINT, leave)
            try:
                look_through(record)
            finally:
                signal.signal(signal.SIGINT, before)

    def remark(self) -> None:
        """Says why no byte has come, if that was the answer and a byte was lost."""
        self.settle(PROMPT_SECONDS if self.is_person else FILE_SECONDS)
        remark = remark_on(self.folder, self.name, self.wiring, self.answer)
        if remark:
            self.show(remark)

    def may_send(self, first: str, words: list[str]) -> bool:
        """Whether a program or bytes are sent: if they would be lost, the person is asked what to do first."""
        self.settle(FILE_SECONDS)
        try:
            check_line(self.folder, self.name, self.wiring, first, words)
            return True
        except Hindered as why:
            if not self.is_person:
                raise
            self.show(f"{why.why}.")
            if why.lines:
                if not self.agrees(f"{', '.join(why.lines)} and then {first}? (y/n) "):
                    return False
                for line in why.lines:
                    self.send(lines_of(self.name, line, self.ports))
                return self.may_send(first, words)
            self.show(f"{why.advice}.")
            return self.agrees(f"{first} even so? (y/n) ")

    def agrees(self, question: str) -> bool:
        """Whether the person answers a question by yes."""
        before, self.prompt, lines = self.prompt, question, readline.get_current_history_length()
        try:
            answer = self.typed()
            return answer is not None and answer.strip().lower() in ("y", "yes")
        except KeyboardInterrupt:
            print(flush=True)
            return False
        finally:
            self.prompt = before
            if readline.get_current_history_length() > lines:
                # it is no line that anybody wants back
                readline.remove_history_item(lines)

    def settle(self, seconds: float | int) -> None:
        """Waits until all lines are answered, so long at most."""
        with self.news:
            self.news.wait_for(lambda: self.has_ended or not self.due, seconds)

    def wait(self) -> None:
        """Waits a little, so that the answers stand before what comes next."""
        if self.is_person:
            self.settle(PROMPT_SECONDS)
        else:
            is_of_course = any(it.line.split(" ")[0] in telling.VERBS for it in self.due)
            self.settle(telling.SECONDS if is_of_course else FILE_SECONDS)
        with self.news:
            if not self.is_person:
                self.due.clear()
            elif self.due and not self.due[-1].is_told and not self.has_ended:
                self.due[-1].is_told = True
                self.show("(waiting)")

    def ask(self) -> str | None:
        """The next line of the person, or of the input; none at the end."""
        self.wait()
        if not self.is_person:
            return None if self.has_ended else sys.stdin.readline() or None
        return self.typed()

    def typed(self) -> str | None:
        """What the person types at the prompt; none at the end."""
        with self.news:
            self.at_prompt = not self.has_ended
        try:
            return input(self.prompt) if self.at_prompt else None
        except EOFError:
            print()
            return None
        finally:
            self.at_prompt = False

    def go_on(self) -> bool:
        """Does the next line; false if it was the last."""
        line = self.ask()
        self.interrupts = 0
        if line is None:
            return False
        if not line.strip() or line.lstrip().startswith("#"):
            return True
        try:
            return self.do(line)
        except Wrong as wrong:
            self.status = 0 if self.is_person else REFUSED
            print(f"error: {escaped(str(wrong), LINES)}", file=sys.stderr, flush=True)
            return True

    def run(self) -> int:
        """Does lines until the input or the connection ends; the status."""
        goes_on = True
        while goes_on:
            try:
                goes_on = self.go_on()
            except KeyboardInterrupt:
                if not self.is_person:
                    raise
                print(flush=True)
            except (Gone, OSError):
                goes_on = False
        return max(self.status, self.end())

    def end(self) -> int:
        """Sends nothing more, and waits for the answers that are due."""
        self.interrupts = 0
        if self.stops:
            self.join(STOP_SECONDS)
        ended_first = self.has_ended and not self.stops
        with contextlib.suppress(OSError):
            self.stream.shutdown(socket.SHUT_WR)
        self.join(math.inf)
        if self.is_unread:
            os.dup2(os.open(os.devnull, os.O_WRONLY), sys.stdout.fileno())
        elif ended_first or (self.due and self.has_ended and not self.stops):
            print("error: the farm has ended the connection. When it is up again, connect once more", file=sys.stderr)
            return NO_FARM
        else:
            return 0
        return 1

    def join(self, seconds: float) -> None:
        """Waits for the end of the connection, so long at most, or until Ctrl-C."""
        end = time.monotonic() + seconds
        while self.reader.is_alive() and not self.interrupts and time.monotonic() < end:
            self.reader.join(0.1)

    def called_away(self, *_: object) -> None:
        """The reader has sent a signal: the connection has ended."""
        if self.at_prompt:
            raise Gone

    def watch(self, signals: int) -> None:
        """Wakes the prompt until it has noticed Ctrl-C: what reads a line passes over a signal that comes after the prompt is
        shown and before it waits for a key, and would notice it at the next key alone."""
        while numbers := os.read(signals, AT_ONCE):
            for _ in range(MOST_WAKES if signal.SIGINT in numbers else 0):
                if self.is_noticed.wait(NOTICED_SECONDS):
                    break
                signal.pthread_kill(threading.main_thread().ident or 0, signal.SIGUSR2)
            self.is_noticed.clear()

    def interrupt(self, *_: object) -> None:
        """Ctrl-C. At the prompt it drops what is typed. Else it is noted, so that nothing is left half done; if lines can't
        be sent, the next one ends the terminal."""
        self.is_noticed.set()
        if self.at_prompt:
            raise KeyboardInterrupt
        self.interrupts += 1
        if self.is_sending and self.interrupts > 1:
            raise Gone


def at_terminal(terminal: Terminal, folder: str) -> int:
    """Runs a terminal with completion and the history of earlier ones."""
    complete_with(folder, terminal.name, lambda: sorted(terminal.exercises))
    with contextlib.suppress(OSError):
        readline.read_history_file(HISTORY)
    readline.set_history_length(MOST_HISTORY)
    signal.signal(signal.SIGUSR1, terminal.called_away)
    signal.signal(signal.SIGUSR2, lambda *_: None)
    signal.signal(signal.SIGINT, terminal.interrupt)
    signals, noted = os.pipe()
    os.set_blocking(noted, False)
    signal.set_wakeup_fd(noted, warn_on_full_buffer=False)
    threading.Thread(target=terminal.watch, args=(signals,), daemon=True).start()
    print(f"You are {escaped(terminal.name)}. help lists the verbs, Ctrl-D ends.")
    try:
        return terminal.run()
    finally:
        with contextlib.suppress(OSError):
            readline.write_history_file(HISTORY)


def words_of(given: list[str]) -> argparse.Namespace:
    """The words. After DIR any word is a name, also if it begins with a hyphen."""
    it = argparse.ArgumentParser(
        prog="connect",
        usage="connect [-h] [--] DIR USER [-c LINE].. [--json] [--unchecked]",
        description="A terminal for a user of a farm that serve keeps up.",
        epilog=STATUS,
        formatter_class=argparse.RawDescriptionHelpFormatter,
        allow_abbrev=False,
    )
    add_version(it)
    it.add_argument("DIR", help="the folder of the farm, or of its class; after -- it may begin with a hyphen")
    it.add_argument("USER", help=f"the user's name, or {OPERATOR}; it may begin with a hyphen")
    it.add_argument("-c", action="append", metavar="LINE", help="does this line; several are done in their order")
    it.add_argument(
        "--json",
        action="store_true",
        help="prints a JSON object for each line of an answer; without -c the lines " "are those of standard input",
    )
    it.add_argument(
        "--unchecked",
        action="store_true",
        help="load, send and write send also what would be lost, without a question or a refusal",
    )
    plain = given[1:] if given[:1] == ["--"] else given
    if len(plain) > 2 and plain[1] == "--":
        plain = [plain[0], *plain[2:]]
    if len(plain) > 1 and (plain is not given or not plain[0].startswith("-")):
        words = it.parse_args([*plain[2:], "DIR", "USER"])
        words.DIR, words.USER = plain[:2]
        return words
    return it.parse_args(given)


def main(given: list[str]) -> int:
    words = words_of(given)
    set_errors(sys.stdin, "surrogateescape")
    set_errors(sys.stdout, "backslashreplace")
    is_person = sys.stdin.isatty() and sys.stdout.isatty()
    try:
        folder, name = place_of(words.DIR, words.USER)
        if words.c or words.json:
            # it takes a while to load, and a terminal needs none of it
            from .asking import run  # pylint: disable=import-outside-toplevel

            return run(folder, name, words)
        terminal = Terminal(folder, name, is_person, not words.unchecked)
        return at_terminal(terminal, folder) if is_person else terminal.run()
    except (Refused, OSError) as error:
        more = ". For help: connect --help" if words.USER in HELP else ""
        print(f"connect: {escaped(str(error), LINES)}{more}", file=sys.stderr)
        return NO_FARM
    except KeyboardInterrupt:
        return INTERRUPTED
