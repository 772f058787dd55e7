"""From a text to all that is known of it."""

from __future__ import annotations

import sys
from typing import NamedTuple

from .core import CoreProgram
from .mistakes import Mistake, WrongText, own_mistake
from .names import core_of_tree, prelude
from .program_warnings import warnings_of
from .reader import tree_of
from .source_names import SourceNames

# How deep functions call one another here: names are found in 250 processes in one another, and in 64 parentheses each.
MOST_CALLS = 50_000


class Compiled(NamedTuple):
    """The core of a text, what is known of its names, and its warnings."""

    program: CoreProgram
    names: SourceNames
    warnings: list[str]


def compiled(text: bytes) -> Compiled:
    """What is known of a text.

    Raises WrongText, whatever is wrong: a mistake of this compiler is one of its messages.
    """
    if sys.getrecursionlimit() < MOST_CALLS:
        sys.setrecursionlimit(MOST_CALLS)
    try:
        return parts_of(text)
    except Mistake as mistake:
        raise WrongText([mistake]) from None
    except WrongText:
        raise
    except Exception as error:  # pylint: disable=broad-exception-caught
        raise WrongText([own_mistake(error)]) from error


def parts_of(text: bytes) -> Compiled:
    process = tree_of(text)
    program = core_of_tree(process)
    names = SourceNames(prelude(), process)
    return Compiled(program, names, warnings_of(program, names.unused))
