"""The lines of `connect -c`, and those of standard input with `--json`: only their own answers are printed, whoever else speaks as
this user, and the status says whether one was refused."""

from __future__ import annotations

import argparse
import json
import os
import sys
from typing import TYPE_CHECKING

from nadzsumek import Farm, NoFarm, NotAnswered
from nadzsumek.results import plain, result_of
from nadzsumek.verbs import Question

from ..mistakes.verbs import OF_RECORD, Wrong, check, help_lines
from .answers import Loading, meaning, refusal, shortfall, with_meaning
from .connections import NO_FARM, REFUSED
from .escapes import escaped
from .folder import Refused
from .loads import LOOKING, Hindered, check_line, remark_on
from .orders import lines_of, split, table_of, text_of
from .ports import drivers_in, joins_told, wiring_of
from .taking import Taking

if TYPE_CHECKING:
    from nadzsumek.farm import User
    from nadzsumek.results import Note

# What divides the lines of a text of several.
LINES = "\n"
# How a script knows that bytes weren't sent since they would be lost.
LOST = "lost"


class Asking:
    """A user's lines, whose answers are printed as at a terminal, or in JSON."""

    def __init__(self, folder: str, user: User, is_json: bool, is_checked: bool) -> None:
        self.folder, self.user, self.is_json, self.is_checked, self.status = folder, user, is_json, is_checked, 0
        self.ports, self.wiring, self.taking = user.ports, wiring_of(folder, user.name), Taking(folder, user.name)

    def show(self, texts: list[str], **fields: object) -> None:
        """Prints lines of text, or in JSON an object with these fields."""
        for text in [json.dumps(fields)] if self.is_json else texts:
            print(escaped(text), flush=True)

    def show_answer(self, line: str, asked: str, answers: list[str], loading: Loading | None) -> None:
        """Prints the answer to one of the lines that a line sends."""
        for at, answer in enumerate(answers):
            texts, word = loading.told(asked, answer) if loading else with_meaning(asked, answer), refusal(
                asked, answer
            )
            is_told = asked == "ports" and self.wiring is not None and drivers_in(answer) is not None
            texts += joins_told(answer, self.wiring) if is_told and self.wiring else []
            more = {"meaning": meaning(answer) or shortfall(asked, answer)} if word else {}
            if not word and at == len(answers) - 1:
                more["result"] = plain(result_of(answers))
            remark = (
                remark_on(self.folder, self.user.name, self.wiring, answer)
                if self.is_checked and not self.is_json
                else None
            )
            texts += [remark] if remark else []
            if texts:
                self.show(texts, line=line, answer=answer, refused=word, **more)
            self.status = REFUSED if word else self.status

    def show_fault(self, line: str, word: str, why: str) -> None:
        """Says why a line has no answer."""
        self.status = REFUSED
        if self.is_json:
            self.show([], line=line, answer=None, refused=word, meaning=why)
        else:
            print(f"error: {escaped(why, LINES)}", file=sys.stderr, flush=True)

    def ask(self, line: str) -> None:
        """Sends what a line asks for, and prints the answers."""
        sent = lines_of(self.user.name, line, self.ports)
        loading = Loading() if len(sent) > 1 else None
        # only what follows says how many lines an answer about users has
        more = ["!words"] if sent == ["!users"] else []
        for asked, answers in zip(sent, self.user.do(Question(sent + more, lambda it: it, strict=False))):
            self.show_answer(line, asked, answers, loading)

    def show_lines(self, line: str, texts: list[str]) -> None:
        """Prints what the terminal says by itself of a line; in JSON only if there is something."""
        if texts:
            self.show(texts, line=line, lines=texts)

    def after(self, line: str, first: str, words: list[str]) -> None:
        """What is said, or kept, once a line is answered."""
        if first == "load":
            self.taking.loaded(self.wiring, int(words[0]), text_of(words[0], words[1]))
        elif first == "why":
            self.show_lines(line, self.taking.waits(int(words[0]) if words else None))

    def take(self, line: str, first: str, words: list[str]) -> None:
        """Does one of the verbs of records."""
        if first == "debug":
            raise Wrong("debug is for a terminal. Try: record, and then lab debug with its file")
        self.show_lines(line, self.taking.do(first, words[0] if words else None))

    def do(self, line: str) -> bool:
        """Does one line; false if it is the last."""
        try:
            first, verb, words = split(self.user.name, line, self.ports)
            if first == "help":
                texts = help_lines(table_of(self.user.name, self.ports), words[0] if words else None)
                self.show(texts, line=line, help=texts)
            elif first in OF_RECORD:
                check(first, verb, words)
                self.take(line, first, words)
            elif first != "quit":
                if first in LOOKING and self.is_checked:
                    lines_of(self.user.name, line, self.ports)
                    check_line(self.folder, self.user.name, self.wiring, first, words)
                before, self.status = self.status, 0
                self.ask(line)
                if not self.status:
                    self.after(line, first, words)
                self.status = max(self.status, before)
            return first != "quit"
        except Hindered as hindered:
            self.show_fault(line, hindered.word if first == "load" else LOST, f"{hindered}")
        except Wrong as wrong:
            self.show_fault(line, "wrong", f"{wrong}")
        except NotAnswered as late:
            self.show_fault(line, "unanswered", f"{late}")
        except NoFarm:
            if first != "stop":
                raise
            return False
        return True


def run(folder: str, name: str, words: argparse.Namespace) -> int:
    """Does the lines of the words as this user, or those of standard input if there are none; the status."""
    asking: Asking | None = None

    def noted(note: Note) -> None:
        if asking:
            asking.show(with_meaning(None, note.text), note=note.text)

    try:
        with Farm(folder).user(name, noted) as user:
            asking = Asking(folder, user, words.json, not words.unchecked)
            for line in words.c or sys.stdin:
                text = line.strip()
                if text and not text.startswith("#") and not asking.do(text):
                    break
            return asking.status
    except NoFarm as error:
        if asking is None:
            raise Refused(f"{error}") from None
        print(f"error: {escaped(str(error))}", file=sys.stderr)
        return NO_FARM
    except BrokenPipeError:
        os.dup2(os.open(os.devnull, os.O_WRONLY), sys.stdout.fileno())
        return REFUSED
