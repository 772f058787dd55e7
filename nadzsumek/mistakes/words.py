"""What is wrong with one word of a line, whatever the line is: characters that no word has, a prefix or a sign before digits, and an
odd number of digits."""

import re

BLANK = "put one space between words"
TAB = f"there is a tab: {BLANK}"
CARRIAGE_RETURN = "there is a carriage return, and only one at the end of a line is left out"
SEMICOLON = "each line asks one thing, and no semicolon ends it"
ANSWER = "write the answer that a line expects after =, with a space on both sides of it"
PREFIX = "write the digits alone, without 0x or #"
NUMBER_SIGN = "write hexadecimal digits after #, as in #2a"
SIGN = "write the digits alone, without a sign"
ODD_DIGITS = "each byte has two digits, as 05"
REMARK = "a remark has a line of its own, which begins with #"
CAPITALS = "small and capital letters differ: write "
# How many characters of a word are shown.
SHOWN = 24
ESCAPES = {"\t": "\\t", "\r": "\\r", "\n": "\\n", "\0": "\\0", "'": "\\'", '"': '\\"', "\\": "\\\\"}


def help_of_characters(word: str) -> str | None:
    """What helps where a word has a character that no word has."""
    found = (("\t", TAB), ("\r", CARRIAGE_RETURN), (";", SEMICOLON), ("=", ANSWER))
    return next((told for letter, told in found if letter in word), None)


def help_of_digits(word: str, are_pairs: bool) -> str | None:
    """What helps where a number should be, or pairs of digits."""
    if word[:2] in ("0x", "0X") or word[:1] == "#":
        return PREFIX
    if word[:1] in ("-", "+"):
        return SIGN
    return ODD_DIGITS if are_pairs and len(word) % 2 and re.fullmatch(r"[0-9a-fA-F]+", word) else None


def shown(word: bytes) -> str:
    """The beginning of a word in quotes, in which what isn't printable is escaped; of what isn't UTF-8 the first byte that isn't."""
    if not word:
        return "an empty word"
    try:
        text = word.decode()
    except UnicodeDecodeError as error:
        return f"the byte {word[error.start]:02x}"
    letters = "".join(ESCAPES.get(it, it if it.isprintable() else f"\\u{{{ord(it):x}}}") for it in text[:SHOWN])
    return f'"{letters}"' if len(text) <= SHOWN else f'"{letters}..."'


def meant(text: str) -> str:
    """The word that is shown so, without its escapes and without the dots after what is left out."""
    escapes = {told: letter for letter, told in ESCAPES.items()}
    return re.sub(
        r"\\(?:u\{([0-9a-f]+)\}|.)",
        lambda it: chr(int(it[1], 16)) if it[1] else escapes.get(it[0], it[0]),
        text.removesuffix("...") if len(text) > SHOWN else text,
    )
