"""The arguments of definitions and lemmas, for the rule on names of one letter: a lemma calls an argument by one letter only
if a definition of specs/ or of std has that letter for an argument of the same type, or if its type is a parameter."""

import re
from collections.abc import Iterator

# An argument's name, if it has one, and its type.
Argument = tuple[str | None, str]
# What std's definitions have, as far as a lemma here needs it.
STD_LETTERS = {("e", "ℕ"), ("p", "ℕ"), ("r", "List ℕ"), ("r", "Result A E"), ("r", "Result T E")}
BRACKETS = {"(": ")", "[": "]", "{": "}"}
OTHER_LINES = re.compile(r"--|use |pub use |(pub )?(mod|record|data|rule|ruleset) ")
BINDER = re.compile(r"[({]\s*([A-Za-z_][\w'\- ]*?)\s+:\s+([^(){}]*)")


def declarations(text: str) -> Iterator[str]:
    """The declarations of a file: those that begin in the first column begin one. A module gives one of its parameters, and
    those that stand in it."""
    text = re.sub(r"(?m)--.*$", "", text)
    for it in re.split(r"\n(?=[^\s\])}|])", text):
        module = re.match(r"module (\S+) (.*?)\swhere\n", it, re.S)
        if module:
            yield f"{module[1]} : {module[2]} → {module[1]}"
            yield from declarations(re.sub(r"(?m)^  ", "", it[module.end() :]))
        elif it.strip() and not OTHER_LINES.match(it):
            yield it


def outside(text: str) -> Iterator[tuple[int, str, bool]]:
    """Each letter of a text with its place, and whether it stands outside all brackets."""
    depth = 0
    for place, letter in enumerate(text):
        depth -= letter in BRACKETS.values()
        yield place, letter, depth == 0
        depth += letter in BRACKETS


def pieces(text: str, mark: str) -> list[str]:
    """A text divided at each mark that stands outside all brackets."""
    places = [place for place, letter, is_outside in outside(text) if letter == mark and is_outside]
    return [text[a:b] for a, b in zip([0, *(it + 1 for it in places)], [*places, len(text)])]


def typed(text: str) -> str:
    """A type with single blanks."""
    return re.sub(r"\s+", " ", re.split(r"\s(?:=|in)\s", text)[0]).strip()


def words_of(text: str) -> list[str]:
    """The words and bracketed groups of a text."""
    found, begun = [], None
    for place, letter, is_outside in [*outside(text), (len(text), " ", True)]:
        if begun is None and not letter.isspace():
            begun = place
        elif begun is not None and is_outside and (letter.isspace() or letter in BRACKETS):
            found.append(text[begun:place])
            begun = None if letter.isspace() else place
    return found


def explicit(signature: str) -> list[Argument]:
    """The arguments of a signature that a call writes, each with its name, if it has one, and its type."""
    found, parts = [], pieces(signature, "→")
    for number, part in enumerate(parts):
        part = part.strip()
        while part[:1] in ("(", "{"):
            group = words_of(part)[0]
            match = re.fullmatch(r"[({]\s*([A-Za-z_][\w'\- ]*?)\s+:\s+(.*)[)}]", group, re.S)
            if not match:
                break
            if group[0] == "(":
                found += [(name, typed(match[2])) for name in match[1].split()]
            part = part[len(group) :].strip()
        if number + 1 < len(parts) and part:
            found.append((None, typed(part)))
    return found


def arguments(text: str) -> Iterator[tuple[str, list[tuple[str, str]]]]:
    """Of each declaration of a file its name, and of its signature and its clauses the arguments, each with its type."""
    signatures = {}
    for it in declarations(text):
        match = re.match(r"(?:(?:abbrev|unfoldable|pub) )*(\S+)\s+:(?=\s)(.*)", it, re.S)
        if match:
            signatures[match[1]] = explicit(match[2])
            yield match[1], [(name, kind) for name, kind in signatures[match[1]] if name]
            continue
        name, _, rest = it.partition(" ")
        if name in signatures:
            patterns = [word for word in words_of(pieces(rest, "=")[0]) if word[0] != "{"]
            yield name, [(word, kind) for word, (_, kind) in zip(patterns, signatures[name])]


def letters_of(text: str) -> set[tuple[str, str]]:
    """The pairs of a letter and a type that the definitions of a file have, those of bound variables too."""
    pairs = {(name, typed(match[2])) for match in BINDER.finditer(text) for name in match[1].split()}
    return {*pairs, *(pair for _, of_one in arguments(text) for pair in of_one)}


def is_parameter(kind: str) -> bool:
    """Whether a type is a parameter, or a function between such: of a value of that type nothing is known."""
    return kind.startswith("goal.") or bool(re.fullmatch(r"[A-Z](\s*→\s*([A-Z]|Type 0|Bool))*", kind.strip("() ")))


def wrong_letters(text: str, pairs: set[tuple[str, str]]) -> Iterator[tuple[str, str, str]]:
    """The arguments of one small letter whose letter no definition has for their type, each with its lemma."""
    for lemma, of_one in arguments(text):
        for name, kind in of_one:
            is_letter = len(name) == 1 and name.isalpha() and name.islower()
            if is_letter and (name, kind) not in pairs | STD_LETTERS and not is_parameter(kind):
                yield lemma, name, kind
