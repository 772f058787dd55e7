"""Man pages and what bash completes, made from what the commands print for `--help`."""
import re
from collections.abc import Iterable, Iterator, Mapping
from typing import Optional

# Help begins an entry this far from the left at most; what goes on with one is further right.
ENTRY = 10
SECTIONS = {
    "Commands": "COMMANDS",
    "Arguments": "ARGUMENTS",
    "Options": "OPTIONS",
    "positional arguments": "ARGUMENTS",
    "options": "OPTIONS",
    "Example": "EXAMPLE",
    "a class that is there": "ORDERS",
}


class Help:
    """What a program prints for --help, in its parts: how it is called, what it says of itself, its sections by their heads (of
    each the entries with what is said of them), and the paragraphs between them."""

    def __init__(self, text: str) -> None:
        self.usage: list[str] = []
        self.about = ""
        # of a paragraph, none and its text
        self.parts: list[tuple[Optional[str], str | list[tuple[str, str]]]] = []
        for block in re.split(r"\n\n+", text.strip("\n")):
            first, _, rest = block.partition("\n")
            head = first.rstrip(":")
            if first.lower().startswith("usage:"):
                self.usage = [it.strip() for it in block[len("usage:") :].split("\n")]
            elif first.endswith(":") and head in SECTIONS:
                self.parts.append((SECTIONS[head], list(entries(rest))))
            elif not self.about:
                self.about = " ".join(block.split()).rstrip(".")
            else:
                self.parts.append((None, " ".join(block.split())))

    def section(self, name: str) -> list[tuple[str, str]]:
        """The entries of the sections of this head."""
        return [it for head, all_of in self.parts if head == name and isinstance(all_of, list) for it in all_of]


def entries(text: str) -> Iterator[tuple[str, str]]:
    """The entries of a section, each with what is said of it."""
    name: Optional[str] = None
    said: list[str] = []
    for line in text.split("\n"):
        if len(line) - len(line.lstrip()) < ENTRY:
            if name is not None:
                yield name, " ".join(said)
            name, _, first = line.strip().partition("  ")
            said = [first.strip()] if first.strip() else []
        else:
            said.append(line.strip())
    if name is not None:
        yield name, " ".join(said)


# A command as it is called at the top of a clone, and a page of it: who reads a man page has the first in the path.
OF_CLONES = re.compile(r"(?<![\w/.])(?:\./(?=[a-z])|docs/(?=[\w/]+\.md))")


def roff(text: str) -> str:
    """A text as troff reads it, with commands and pages as they are installed."""
    safe = (
        OF_CLONES.sub("", text)
        .replace("\\", "\\e")
        .replace("-", "\\-")
        .replace("'", "\\(aq")
        .replace("`", "\\(ga")
        .replace("~", "\\(ti")
    )
    safe = safe.replace("^", "\\(ha")
    return f"\\&{safe}" if safe.startswith(".") else safe


def section_of(head: str, all_of: Iterable[tuple[str, str]]) -> list[str]:
    """A section of a page."""
    lines = [f".SH {head}"]
    if head == "EXAMPLE":
        return [*lines, ".nf", *(f"    {roff(' '.join(it).strip())}" for it in all_of), ".fi"]
    for name, said in all_of:
        lines += [".TP", f"\\fB{roff(name)}\\fR", roff(said or name)]
    return lines


def body_of(told: Help) -> list[str]:
    """The parts of a help as lines of a page."""
    lines: list[str] = []
    for head, part in told.parts:
        if isinstance(part, str):
            lines += [".PP", roff(part)]
        else:
            lines += section_of(head or "", part)
    return lines


def man_page(name: str, told: Help, below: dict[str, Help], words: dict[str, str], version: str, more: str) -> str:
    """The page of a command: what it says of itself, what it says of each of its subcommands, the words of the command around
    the program, and where to read on."""
    lines = [
        f'.TH {name.upper()} 1 "" "Nadzsumek {version}" "Nadzsumek"',
        '.\\" Made by tools/commands from what the programs print for --help.',
        ".SH NAME",
        f"{name} \\- {roff(told.about[:1].lower() + told.about[1:])}",
        ".SH SYNOPSIS",
    ]
    for at, call in enumerate(told.usage):
        lines += [*([".br"] if at else []), f"\\fB{roff(call)}\\fR"]
    lines += body_of(told)
    if words:
        lines += section_of("OPTIONS OF THE COMMAND", words.items())
    for word, it in below.items():
        lines += [f".SH {name.upper()} {word.upper()}", f"{roff(it.about)}.", ".PP", f"\\fB{roff(it.usage[0])}\\fR"]
        for entry, said in [*it.section("ARGUMENTS"), *it.section("OPTIONS")]:
            lines += [".TP", f"\\fB{roff(entry)}\\fR", roff(said or entry)]
    lines += [
        ".SH FILES",
        f"\\fI{roff(more)}\\fR in the folder of documents, /usr/share/doc/nadzsumek for Debian's package, or docs/ "
        "of the sources, tells all of it.",
        ".SH SEE ALSO",
        ", ".join(f"\\fB{it}\\fR(1)" for it in ("farm", "live", "lab", "serve", "connect", "class") if it != name),
    ]
    return "".join(f"{line}\n" for line in lines)


def options_of(entry_list: Iterable[tuple[str, str]]) -> tuple[list[str], list[str]]:
    """The options of a section, each by its longest name, and those of them that want a value."""
    names: list[str] = []
    wanting: list[str] = []
    for entry, _ in entry_list:
        found = re.findall(r"(?<![\w-])--?[a-z][a-z-]*", entry)
        names += found
        if re.search(r"[<\s][<A-Z]", entry.replace(",", " ")):
            wanting += found
    return names, wanting


# The words of a call, as ("lab", "why"), and its options, each with whether it wants a value.
Call = tuple[str, ...]
Options = dict[str, bool]
COMPLETION = """# Completion of bash for farm, live, lab, serve, connect and class. Made by tools/commands from what they print for --help.

_nadzsumek_options() {
  case $1 in
@OPTIONS@  esac
}

_nadzsumek_wants_value() {
  case " $(_nadzsumek_values "$1") " in *" $2 "*) return 0 ;; esac
  return 1
}

_nadzsumek_values() {
  case $1 in
@VALUES@  esac
}

_nadzsumek_words() {
  case $1 in
@WORDS@  esac
}

# The names of these files, without folder and ending.
_nadzsumek_names() {
  local it
  for it; do
    [ ! -e "$it" ] || { it=${it##*/}; echo "${it%.*}"; }
  done | sort -u
}

_nadzsumek() {
  local command=${COMP_WORDS[0]##*/} word=${COMP_WORDS[COMP_CWORD]} before=${COMP_WORDS[COMP_CWORD-1]} call at plain=() names=
  call=$command
  COMPREPLY=()
  for ((at = 1; at < COMP_CWORD; at++)); do
    if _nadzsumek_wants_value "$call" "${COMP_WORDS[at]}"; then
      at=$((at + 1))
      [ "$at" -lt "$COMP_CWORD" ] || break
      continue
    fi
    case ${COMP_WORDS[at]} in
      -*) ;;
      *)
        plain+=("${COMP_WORDS[at]}")
        case " $(_nadzsumek_words "$command") " in
          *" ${COMP_WORDS[at]} "*) [ ${#plain[@]} != 1 ] || call="$command ${COMP_WORDS[at]}" ;;
        esac
        ;;
    esac
  done
  if [ "$COMP_CWORD" -gt 1 ] && _nadzsumek_wants_value "$call" "$before"; then
    case $before in
      --record) mapfile -t COMPREPLY < <(compgen -d -- "$word") ;;
      --group) mapfile -t COMPREPLY < <(compgen -g -- "$word") ;;
      --workers) mapfile -t COMPREPLY < <(compgen -W "1 2 3 4 5 6 7 8" -- "$word") ;;
      --students | --program | --plan) mapfile -t COMPREPLY < <(compgen -f -- "$word") ;;
    esac
    return 0
  fi
  case $word in
    -*)
      mapfile -t COMPREPLY < <(compgen -W "$(_nadzsumek_options "$call")" -- "$word")
      return 0
      ;;
  esac
  if [ ${#plain[@]} = 0 ]; then mapfile -t COMPREPLY < <(compgen -W "$(_nadzsumek_words "$command")" -- "$word"); fi
  # each user of a farm that is up has a socket in its folder, and each student of a class a sheet
  case $call:${#plain[@]} in
    connect:1) names=$(_nadzsumek_names "${plain[0]%/}"/*.sock "${plain[0]%/}"/*/*.sock) ;;
    class\\ change:2 | class\\ rename:2 | class\\ verify:2 | class\\ remove:[2-9]*)
      names=$(_nadzsumek_names "${plain[1]%/}"/sheets/*.txt)
      ;;
  esac
  case $call:${#plain[@]} in
    connect:[1-9]* | class\\ add:[2-9]* | class\\ change:[2-9]* | class\\ rename:[2-9]* | class\\ remove:[2-9]* | class\\ verify:2)
      mapfile -t COMPREPLY < <(compgen -W "$names" -- "$word")
      return 0
      ;;
  esac
  case $call in
    lab) ;;
    class\\ finish | class\\ verify) mapfile -t COMPREPLY < <(compgen -f -- "$word") ;;
    connect | class | class\\ *) mapfile -t -O "${#COMPREPLY[@]}" COMPREPLY < <(compgen -d -- "$word") ;;
    *) mapfile -t -O "${#COMPREPLY[@]}" COMPREPLY < <(compgen -f -- "$word") ;;
  esac
}

complete -o filenames -F _nadzsumek farm live lab serve connect class
"""


def completion(
    texts: dict[Call, Help],
    words: dict[str, list[str]],
    orders: dict[str, dict[str, Options]],
    more: dict[str, dict[str, str]],
) -> str:
    """What bash sources: the options of each command and subcommand, those of them that want a value, and the words that may come
    first. Subcommands without a help of their own are those of `orders`, with their options."""
    options: dict[Call, Options] = {}
    for call, told in texts.items():
        names, wanting = options_of(
            [*told.section("OPTIONS"), *(more.get(call[0], {}).items() if len(call) == 1 else ())]
        )
        options[call] = {it: it in wanting for it in names}
    for name, all_of in orders.items():
        options.update({(name, word): told for word, told in all_of.items()})

    def cases(rows: Mapping[str, Iterable[str]]) -> str:
        return "".join(
            f"    {label.replace(' ', chr(92) + ' ')}) echo '{' '.join(it)}' ;;\n" for label, it in rows.items() if it
        )

    labels = {" ".join(call): told for call, told in options.items()}
    values = {label: [it for it, wants in told.items() if wants] for label, told in labels.items()}
    first = {**words, **{name: list(it) for name, it in orders.items()}}
    return (
        COMPLETION.replace("@OPTIONS@", cases(labels))
        .replace("@VALUES@", cases(values))
        .replace("@WORDS@", cases(first))
    )
