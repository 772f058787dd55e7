"""What helps where the lab refuses a text: the lines that it says, each with what helps after it. The lab asks for it by the pipe of its
front end (`nadzsumek/occam/asking.py`), and shows the answer."""

from __future__ import annotations

import functools
import re
from collections.abc import Callable

from .elsewhere import DIRECTIVES, INSTRUCTIONS, advice_on, left_out
from .lines import divided, in_brackets, lines_of, text_of, wrong_line
from .nearness import in_other_letters, nearest
from .plans import MARK_MISSING, reason, users_of
from .words import BLANK, CAPITALS, NUMBER_SIGN, REMARK, help_of_characters, help_of_digits, meant

# What a line may have instead of the number of a domain, and what a state of a link needs before it.
ALONE = ("words", "reopen")
LINK_STATES = ("sends", "holds", "overruns", "acknowledges", "awaits", "acknowledged", "watched", "input", "output")
DOMAIN_FIRST = "a line begins with a domain's number in the plan, from 0, or with a user's name, and not with a verb"
USERS_LINE = "a line of a user has it, which begins with the user's name"
FEWER_TIMES = "only Steps of one node by the farm may be asked more often"
LINK_FIRST = "write link and its number before a state of a link"
SMALL_LETTERS = "names of instructions are in small letters"
COMMENT = "A comment begins with --"
SUMS = "Operands have + and - alone, and no parentheses"
INSTRUCTION = "an operation as add, a function and its operand as ldc 5, or hex and bytes"
# A plan that is the text, or before its script. Of a plan elsewhere the program says where it begins, or what finds its fault.
PLAN = re.compile(
    r"plan: (\d+): (?!.*(?:in the plan that begins|`lab plan` says)).*?( \(no line after it is just ---.*\))?"
)
# The front end itself says what helps with a text of occam. The first line of its mistakes has the name of the file.
OCCAM_FILE = ".occ: line "
OCCAM = re.compile(rf"(?!line \d+, ).*{re.escape(OCCAM_FILE)}")
SCRIPT = re.compile(r"line (\d+): (user|verb|args|hex)")
WORD = re.compile(
    r'(.*column \d+: (?:"(?P<word>.*)"|(?P<blank>a blank)|the end of the line|the byte ..)'
    r" where (?P<wanted>.*?))(?P<tail>; a record has lines as .*)?"
)
ASSEMBLY = re.compile(r'.*fault (?P<fault>\d+): expected .*?, not "(?P<word>(?:[^"\\]|\\.)*)"(?P<told>\. .*)?')


def with_help(refusal: bytes, source: bytes) -> bytes:
    """The lines of a refusal with what helps. `source` is the text that is refused, or the one line of it, if the lines don't say
    enough."""
    lines = refusal.decode(errors="replace").removesuffix("\n").split("\n")
    if OCCAM.match(lines[0]):
        return refusal
    return "".join(f"{line_with_help(line, source)}\n" for line in lines).encode()


def line_with_help(line: str, source: bytes) -> str:
    """A line of a refusal with what helps."""
    forms: tuple[tuple[re.Pattern[str], Callable[[re.Match[str], bytes], str | None]], ...] = (
        (PLAN, of_plan),
        (SCRIPT, of_script),
        (ASSEMBLY, of_assembly),
        (WORD, of_word),
    )
    for form, told in forms:
        found = form.fullmatch(line)
        if found:
            return told(found, source) or line
    return line


def of_plan(found: re.Match[str], source: bytes) -> str | None:
    """The place at which a plan is refused. A tail says that no line divides it from a script."""
    told = reason(int(found[1]), divided(source)[0])
    tail = "" if told is None or MARK_MISSING in told else found[2] or ""
    return told and f"plan: {found[1]}: {told}{tail}"


@functools.lru_cache(maxsize=1)
def script_of(text: bytes) -> tuple[list[str], list[bytes]]:
    """The users of a plan, and the lines of the script after it."""
    return users_of(text), lines_of(divided(text)[1] or b"")


def of_script(found: re.Match[str], source: bytes) -> str | None:
    """What is wrong with a line of a user: one of a script after a plan, or the one that `source` is."""
    number = int(found[1])
    if b"\n" in source:
        names, lines = script_of(source)
        line = lines[number - 1] if number <= len(lines) else b""
    else:
        names, line = [text_of(source.split(b" ")[0])], source
    wrong = wrong_line(names, line)
    return f"line {number}{wrong.told()}" if wrong and wrong.kind == found[2] else None


def of_word(found: re.Match[str], _source: bytes) -> str | None:
    """A line of the lab, with what helps for its word."""
    what, _, form = found["wanted"].partition(" should be: ")
    if found["blank"]:
        told: str | None = BLANK
    elif found["word"] is None:
        told = None
    else:
        told = help_of_word(meant(found["word"]), what, form)
    return found[1] + in_brackets(told) + (found["tail"] or "")


def help_of_word(word: str, what: str, form: str) -> str | None:
    """What helps where a word is there instead of something in a form. At the end of a line there is no form."""
    told = help_of_characters(word)
    if not form:
        return told or (REMARK if word.startswith("#") else None)
    if form.startswith(INSTRUCTION):
        names = listed(form.removeprefix(INSTRUCTION).removeprefix(", or "))
        return lowered(left_out(word)) or told or help_of_name(word, what, names) or help_of_instruction(word)
    if form.startswith("a decimal number from"):
        return told or (NUMBER_SIGN if word.startswith("0x") else None)
    if what == "a number of times" and word.isdigit() and form.endswith(" 0 to 1000000"):
        return FEWER_TIMES
    if "digits" in form:
        return told or help_of_digits(word, form.startswith("two")) or help_of_begin(word, what)
    return told or (None if form.startswith(("@", "a text")) else help_of_name(word, what, listed(form)))


def listed(names: str) -> list[str]:
    """The names of a list, with commas between them and `or` before the last."""
    return names.replace(" or ", ", ").split(", ") if names else []


def lowered(told: str | None) -> str | None:
    """A sentence as a part of another."""
    return told and told[0].lower() + told[1:]


def help_of_begin(word: str, what: str) -> str | None:
    """What helps where a line should begin with a domain's number."""
    if what != "a domain's number":
        return None
    same, near = in_other_letters(word, ALONE), nearest(word, ALONE)
    if same or near:
        return CAPITALS + same if same else f"is it {near}?"
    return DOMAIN_FIRST if re.search(r"[a-zA-Z]", word) else None


def help_of_name(word: str, what: str, names: list[str]) -> str | None:
    """What helps where one of some names should be."""
    same = in_other_letters(word, names)
    if same:
        return CAPITALS + same
    if what == "a verb of a domain" and word in ("boot", "poke", "peek", "collect"):
        return USERS_LINE
    if "state" in what and word in LINK_STATES:
        return LINK_FIRST
    near = nearest(word, names)
    return f"is it {near}?" if near else None


def help_of_instruction(word: str) -> str | None:
    """What helps where an instruction should be."""
    if word.lower() in INSTRUCTIONS:
        return SMALL_LETTERS
    near = nearest(word, INSTRUCTIONS)
    return lowered(advice_on(word)) or (f"is it {near}?" if near else None)


def of_assembly(found: re.Match[str], _source: bytes) -> str | None:
    """A line of the assembler, with what helps for its word."""
    if OCCAM_FILE in found[0]:
        return None
    told = help_of_fault(int(found["fault"]), meant(found["word"]), bool(found["told"]))
    return f"{found[0]}. {told}" if told else None


def help_of_fault(fault: int, word: str, is_told: bool) -> str | None:
    """What helps where a word is there instead of what a fault of the assembler names. More may be said of it already."""
    if word.startswith((";", "//", "/*")) or (fault == 2 and word.startswith("#")) or word == "#":
        return COMMENT if fault in (2, 11) else None
    if is_told:
        return None
    if fault == 2:
        return help_of_statement(word)
    if fault == 4 and word[:2] in ("0x", "0X"):
        return f"Write hexadecimal digits after #: #{word[2:]}"
    if (fault in (3, 10, 22) and word.startswith("(")) or (fault == 11 and word[:1] in ("*", "/", "(")):
        return SUMS
    return "Write spaces between the names of local" if fault == 20 and word == "," else None


def help_of_statement(word: str) -> str | None:
    """What helps where a statement of the assembler should begin."""
    names = DIRECTIVES + INSTRUCTIONS
    same, near = in_other_letters(word, names), nearest(word, names)
    told = f"It is written in lower case: {same}" if same else advice_on(word)
    return left_out(word) or told or (f"Is it {near}?" if near else None)
