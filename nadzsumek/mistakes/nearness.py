"""The name that a mistyped word most likely stands for."""

import difflib
from collections.abc import Iterable

# Shorter words are near to too many names.
SHORTEST = 3
# How alike a word and a name are at least, from 0 to 1.
ALIKE = 0.65


def nearest(word: str, names: Iterable[str], alike: float = ALIKE) -> str | None:
    """The name that is nearest to a word, if one is near. A name of the same letters comes first: `stpe` is `step`."""
    if len(word) < SHORTEST:
        return None
    near = difflib.get_close_matches(word, names, 5, alike)
    same = [name for name in near if sorted(name) == sorted(word)]
    return next(iter(same or near), None)


def in_other_letters(word: str, names: Iterable[str]) -> str | None:
    """The name that a word is but for small letters and capitals."""
    return next((name for name in names if name != word and name.lower() == word.lower()), None)
