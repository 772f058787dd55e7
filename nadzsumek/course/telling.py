"""What is answered about exercises, as lines that people read. A terminal, `lab check` and the tests of both use these."""

from __future__ import annotations

import json
import textwrap
import time
from typing import Any

# The verbs whose answers are an object in JSON behind the verb, and what stands there instead if the line is refused.
VERBS, REFUSED = ("exercises", "check", "submit", "submitted"), "refused"
# How many seconds an answer is waited for at least: programs of others may be tried before.
SECONDS = 600
# How wide a line is, and how much of a hash is shown.
WIDTH, HASH = 100, 12
OWN_MACHINE = "It was tried on a fresh machine of its own, and yours is as it was."
Answer = dict[str, Any]


def read(answer: str) -> tuple[str, Answer] | None:
    """The verb of an answer about exercises with what it says; none if it is another answer."""
    verb, _, text = answer.partition(" ")
    if verb not in VERBS or not text.startswith("{"):
        return None
    told = json.loads(text)
    return (verb, told) if isinstance(told, dict) else None


def exercises_named(answer: str) -> list[str]:
    """The exercises that an answer lists; none if it is another answer."""
    verb, told = read(answer) or ("", {})
    return [it["name"] for it in told["exercises"]] if verb == "exercises" else []


def refusal(answer: str) -> str | None:
    """Why an answer about exercises refuses its line; none if it doesn't."""
    verb, word, text = (*answer.split(" ", 2), "", "")[:3]
    return text if verb in VERBS and word == REFUSED else None


def moment(at: float) -> str:
    return time.strftime("%Y-%m-%d %H:%M:%S", time.localtime(at))


def of_tests(told: Answer) -> list[str]:
    """What came of a program: the points, each test, and of a wrong one what was sent and why the nodes did no more."""
    lines = [f"{told['title']}: {told['points']} of {told['of']} points"]
    lines += [told["remark"]] if told["remark"] and not told["tests"] else []
    for it in told["tests"]:
        lines += [f"{it['name']}: {it['result']}" + (f", {it['remark']}" if it["remark"] else "")]
        lines += [f"  after {text}" for text in it["sent"]] + [f"  {line}" for line in it["why"]]
    return lines


def of_submission(it: Answer) -> str:
    """A program that was handed in, as a line."""
    points = f"{it['points']} of {it['of']}"
    return f"{it['number']}  {moment(it['at'])}  {it['exercise']}  {points}  {it['hash'][:HASH]}"


def of_exercise(it: Answer, with_task: bool) -> list[str]:
    """An exercise: its name and title, when it closes, and the points of what was handed in last; and the task."""
    when = f"closed at {moment(it['closes'])}" if it["closed"] else f"closes at {moment(it['closes'] or 0)}"
    last = it["submitted"]
    parts = [it["title"], *([when] if it["closes"] is not None else [])]
    parts += [f"{last['points']} of {last['of']} points" if last else "nothing was handed in"]
    task = textwrap.wrap(it["task"], WIDTH) + [f"test {name}" for name in it["tests"]] if with_task else []
    return [f"{it['name']}: {', '.join(parts)}", *(f"  {line}" for line in task)]


def lines_of(verb: str, told: Answer) -> list[str]:
    """What an answer says."""
    if verb == "exercises":
        every = told["exercises"]
        return [line for it in every for line in of_exercise(it, told["one"])] or ["The class has no exercise yet."]
    if verb == "submitted":
        text = told.get("text")
        return [of_submission(it) for it in told["submissions"]] + (text.split("\n") if text is not None else []) or [
            "Nothing was handed in yet."
        ]
    done = [f"handed in as {told['number']} at {moment(told['at'])}, {told['hash'][:HASH]}"] if verb == "submit" else []
    return [*of_tests(told), *done, OWN_MACHINE]
