"""A unit: what the proved compiler gets of one text, as JSON in one line.

    {"version": 1, "text": .., "mistakes": [line, ..], "warnings": [line, ..], "core": .., "tables": [word, ..], "variables": [..],
     "links": [..], "procedures": [..], "instances": [..], "folds": [..], "expressions": [row, ..], "processes": [row, ..]}

- If there are mistakes, all that comes after them is empty. The text is as it was read; what isn't UTF-8 is replaced.
- `core` is the core as a text of occam. It is there if it was asked for.
- `tables` are the words of constant tables, which are the first of the variables.
- `variables` are in the order of their words, and each word is in exactly one of them. What has no name in the text of the user has
  the name null: the words of tables (one row, of line 0), the count of a replicator (after the word of its index), what the core
  alone has (such as the subscript of another name), and what is in a procedure of the prelude (which has the line of its instance).
  `length` is the number of elements, of an array of arrays all of them; it is null of what is no array. A debugger shows those that
  have names; faults 35 to 37 name a word by them, and say `a variable` of one without a name.
- `links` are the channels at links, `procedures` the procedures and functions in the order of their declarations (those of the
  prelude, with line 0, are the first), and `instances` the places of `Line` processes that are instances of these.
- `folds` are the operations on constants that were evaluated here, with their operands and what they give.
- `expressions` and `processes` are the core, in rows (see `core_rows`). The last of the processes is the program.
"""

from __future__ import annotations

import json
from collections.abc import Iterator
from typing import Any

from .compiling import Compiled, compiled
from .core import ArrayOf, ChannelOf, CoreProgram, Declaration, Folds, Role, base_of
from .core_rows import CoreRows
from .core_text import text_of_core
from .mistakes import WrongText, own_mistake

VERSION = 1
LISTS = ("tables", "variables", "links", "procedures", "instances", "folds", "expressions", "processes")


def unit_of(text: bytes, with_core: bool = False) -> str:
    """The unit of a text, without a line feed."""
    try:
        whole = compiled(text)
        core = {"core": text_of_core(whole.program)} if with_core else {}
        return written(text, [], {"warnings": whole.warnings} | core | parts_of(whole))
    except WrongText as wrong:
        return refused_unit(text, wrong.lines)
    except Exception as error:  # pylint: disable=broad-exception-caught
        return refused_unit(text, [str(own_mistake(error))])


def refused_unit(text: bytes, mistakes: list[str]) -> str:
    """The unit of a text in which something is wrong."""
    return written(text, mistakes, {"warnings": []} | {name: [] for name in LISTS})


def written(text: bytes, mistakes: list[str], parts: dict[str, Any]) -> str:
    unit = {"version": VERSION, "text": text.decode("utf-8", "replace"), "mistakes": mistakes} | parts
    return json.dumps(unit, ensure_ascii=False, separators=(",", ":"))


def parts_of(whole: Compiled) -> dict[str, Any]:
    """The core of a text, and what belongs to its words and lines."""
    program, names = whole.program, whole.names
    rows = CoreRows(program.process)
    return {
        "tables": program.tables,
        "variables": [*variables_of(program)],
        "links": [{"number": it.number, "name": it.name, "line": it.line} for it in program.links],
        "procedures": [{"name": it.text, "line": it.place.line} for it in names.procedures],
        "instances": [
            {"line": it.place.line, "column": it.place.column, "procedure": it.procedure} for it in names.instances
        ],
        "folds": fold_rows(program.folds),
        "expressions": rows.expressions,
        "processes": rows.processes,
    }


def fold_rows(folds: Folds) -> list[dict[str, Any]]:
    """Operations with their operands and results; those on one value are `One`."""
    return [{"One" if len(key) == 2 else "Two": [*key, value]} for key, value in folds.items()]


def variables_of(program: CoreProgram) -> Iterator[dict[str, Any]]:
    """The variables in the order of their words."""
    if program.tables:
        yield variable(None, "INT", 0, 0, len(program.tables), None)
    for it in program.declarations:
        if it.role is Role.TABLE:
            continue
        # what is in a procedure of the prelude has no place
        name = it.name if it.place is not None else None
        if it.role is Role.INDEX:
            yield variable(name, "INT", it.line, it.first, 1, None)
            yield variable(None, "INT", it.line, it.first + 1, 1, None)
        else:
            yield variable(name, type_name(it), it.line, it.first, it.words, elements(it))


def variable(name: str | None, of: str, line: int, first: int, words: int, length: int | None) -> dict[str, Any]:
    return {"name": name, "type": of, "line": line, "first": first, "words": words, "length": length}


def type_name(declaration: Declaration) -> str:
    """INT, BYTE, BOOL or CHAN: of an array that of its elements."""
    of = base_of(declaration.type)
    return "CHAN" if isinstance(of, ChannelOf) else str(of)


def elements(declaration: Declaration) -> int | None:
    """How many elements an array has."""
    return declaration.type.length if isinstance(declaration.type, ArrayOf) else None
