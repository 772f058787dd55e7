"""What Tab completes at a terminal: verbs, verbs behind `help`, files behind `load`, `check` and `submit`, examples behind `load`,
exercises that `exercises` has listed, and the operator's users."""
import os
import readline
from collections.abc import Callable, Iterable

from .folder import OPERATOR, users_of
from ..mistakes.verbs import OF_FILES
from .orders import examples, table_of


# The verbs behind which an exercise is named.
OF_EXERCISES = ("exercises", "check", "submit")


def files(text: str, has_examples: bool = True) -> list[str]:
    """The files whose path begins so, folders with a slash behind them; and the examples, if they are wanted and no folder is named."""
    folder, start = os.path.split(text)
    place = os.path.expanduser(folder) or "."
    there = [
        it + "/" if os.path.isdir(os.path.join(place, it)) else it for it in os.listdir(place) if it.startswith(start)
    ]
    if not folder and has_examples:
        there += [it for it in examples() if it.startswith(start)]
    return sorted({os.path.join(folder, it) for it in there if start or not it.startswith(".")})


def candidates(folder: str, name: str, line: str, exercises: Iterable[str] = ()) -> list[str]:
    """How the last word of a line can go on, if these exercises are known."""
    table, (*words, text) = table_of(name), line.split(" ") if line.strip() else [""]
    words = [it for it in words if it]
    if not words:
        mark = "!" if name == OPERATOR and text.startswith("!") else ""
        return [f"{mark}{it} " for it in table if it.startswith(text.removeprefix(mark))]
    verb = words[0].removeprefix("!") if name == OPERATOR else words[0]
    if verb == "help" and len(words) == 1:
        return [it for it in table if it.startswith(text)]
    if verb in OF_EXERCISES and verb in table and len(words) == 1:
        return [f"{it} " for it in exercises if it.startswith(text)]
    if verb in OF_FILES and verb in table and len(words) == 2:
        return files(text, verb == "load")
    if verb == "restart" and len(words) == 1 and name == OPERATOR:
        return [it for it in users_of(folder) if it.startswith(text)]
    return []


def complete_with(folder: str, name: str, exercises: Callable[[], Iterable[str]]) -> None:
    """Lets Tab complete the lines of this user. `exercises` gives those that are known by then."""

    def complete(_: str, number: int) -> str | None:
        try:
            line = readline.get_line_buffer()[: readline.get_endidx()]
            return [*candidates(folder, name, line, exercises()), None][number]
        except OSError:
            return None

    readline.set_completer_delims(" ")
    readline.set_completer(complete)
    readline.parse_and_bind("tab: complete")
