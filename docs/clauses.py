"""The file docs/clauses.txt: for each of the sections 8 to 13 of PROMISES.md the files of definitions to believe, and of each public call
the clauses of its contract, with the definitions that each cites.

usage: python3 docs/clauses.py    writes it; docs/check compares
"""

import re
from collections.abc import Iterator
from pathlib import Path

ROOT = Path(__file__).resolve().parent.parent
CLAUSES = ROOT / "docs/clauses.txt"
HEAD = """# For each of the sections 8 to 13 of PROMISES.md, as `python3 docs/clauses.py` writes it: the files of definitions to believe, in the
# order in which to read them, each with the first sentence of what it says of itself; and then the public calls. The line of a call has
# after the colon its clauses, each with the definitions that it cites in brackets. A clause without a name is shown by its definitions.
"""
# The sections of PROMISES.md whose calls are written, each with the files whose public contracts it has, and with private functions whose contracts
# carry a promise.
SECTIONS = {
    "8. The promises of the assembler": [
        "t414_assembly/src/codes.rt",
        "t414_assembly/src/spelling.rt",
        "t414_assembly/src/shortest.rt",
        "t414_assembly/src/layout.rt",
        "t414_assembly/src/assembling.rt",
        "t414_assembly/src/disassembly.rt",
        "t414_assembly/src/laws.rt",
    ],
    "9. The program": [
        "plan_checker/src/read.rt",
        "farm_cli/src/command_line.rt",
        "farm_cli/src/reading.rt",
        "farm_cli/src/ending.rt",
        "script_text/src/lines.rt",
        "script_text/src/reading.rt",
        "script_text/src/writing.rt",
        "script_text/src/hexadecimal.rt",
        "script_lines/src/script.rt",
        "script_lines/src/fault.rt",
        "line_answers/src/line.rt",
        "farm_program/src/farm.rt",
        "farm_program/src/answering.rt",
        "farm_program/src/program.rt",
        "answer_text/src/replies.rt",
        "event_text/src/events.rt",
    ],
    "10. The lab on one thread": [
        "farm_replay/src/replaying.rt",
        "script_replay/src/answering.rt",
        "script_replay/src/recording.rt",
    ],
    "11. The server": [
        "live_lines/src/command_line.rt",
        "live_lines/src/parsing.rt",
        "live_farm/src/fate.rt",
        "live_farm/src/answering.rt",
        "live_farm/src/outlet.rt",
        "live_farm/src/program.rt",
    ],
    "12. Records": [
        "farm_records/src/writing.rt",
        "farm_records/src/head.rt",
        "farm_records/src/redoing.rt",
        "farm_records/src/reading.rt",
        "farm_records/src/laws.rt",
        "record_keeping/src/record.rt",
        "node_causes/src/finding.rt",
    ],
    "13. The compiler of occam": [
        "occam_code/src/expressions.rt",
        "occam_code/src/layout_laws.rt",
        "occam_code/src/process_laws.rt",
        "occam_code/src/processes.rt",
        "occam_code/src/emission.rt",
        "occam_code/src/words.rt",
        "occam_core/src/bounds.rt",
        "occam_core/src/results.rt",
        "occam_uses/src/finding.rt",
        "occam_core/src/laws.rt",
        "occam_uses/src/laws.rt",
        "occam_units/src/reading.rt",
        "occam_units/src/compiling.rt",
    ],
}
# What is to be believed in each section besides the files of those before it, in the order in which to read it.
BELIEVED = {
    "8. The promises of the assembler": [
        "t414_assembly/specs/Spelled.antt",
        "t414_assembly/specs/Usual.antt",
        "t414_assembly/specs/Program.antt",
        "t414_assembly/specs/Reassembled.antt",
        "script_text/specs/Lines.antt",
        "t414_assembly/specs/Faults.antt",
    ],
    "9. The program": [
        "farm_cli/specs/Settings.antt",
        "script_text/specs/Lines.antt",
        "script_text/specs/Writing.antt",
        "script_text/specs/Hexadecimal.antt",
        "script_text/specs/HexFaults.antt",
        "script_text/specs/ReadFaults.antt",
        "script_lines/specs/Faults.antt",
        "node_memory/specs/Faults.antt",
        "script_lines/specs/Verbs.antt",
        "script_lines/specs/Words.antt",
        "script_lines/specs/Lines.antt",
        "script_lines/specs/Script.antt",
        "answer_text/specs/Digits.antt",
        "answer_text/specs/Replies.antt",
        "answer_text/specs/Results.antt",
        "line_answers/specs/Asks.antt",
        "line_answers/specs/Lines.antt",
        "line_answers/specs/Sessions.antt",
        "plan_rules/specs/Users.antt",
        "farm_program/specs/Users.antt",
        "farm_program/specs/Closing.antt",
        "farm_program/specs/Screens.antt",
        "farm_cli/specs/Requests.antt",
        "farm_cli/specs/Failures.antt",
        "farm_program/specs/Output.antt",
        "farm_cli/specs/Endings.antt",
        "farm_program/specs/Statuses.antt",
    ],
    "10. The lab on one thread": [
        "event_text/specs/Events.antt",
        "event_text/specs/Entries.antt",
        "farm_replay/specs/Listing.antt",
        "farm_replay/specs/Plain.antt",
        "farm_replay/specs/Runs.antt",
        "script_replay/specs/Lines.antt",
    ],
    "11. The server": [
        "live_lines/specs/LiveRanges.antt",
        "live_lines/specs/LiveSettings.antt",
        "shorthand_lines/specs/ShorthandVerbs.antt",
        "shorthand_lines/specs/QuotedTexts.antt",
        "shorthand_lines/specs/ShorthandLines.antt",
        "live_lines/specs/LiveVerbs.antt",
        "live_lines/specs/LiveLines.antt",
        "domain_core/specs/Moments.antt",
        "record_following/specs/Following.antt",
        "record_keeping/specs/Counts.antt",
        "live_farm/specs/Names.antt",
        "live_farm/specs/Asking.antt",
        "node_causes/specs/Causes.antt",
        "node_causes/specs/Explained.antt",
        "live_farm/specs/LiveTexts.antt",
        "live_farm/specs/Whys.antt",
        "live_farm/specs/WholeLines.antt",
        "live_farm/specs/Fates.antt",
        "live_farm/specs/Closings.antt",
        "live_farm/specs/Groups.antt",
    ],
    "12. Records": [
        "farm_records/specs/RecordText.antt",
        "farm_records/specs/Heads.antt",
        "script_replay/specs/Recording.antt",
        "farm_records/specs/Records.antt",
        "farm_records/specs/Taking.antt",
        "farm_records/specs/Laws.antt",
        "record_keeping/specs/Writing.antt",
        "record_keeping/specs/Pieces.antt",
        "record_keeping/specs/Keeping.antt",
    ],
    "13. The compiler of occam": [
        "occam_core/specs/Values.antt",
        "occam_core/specs/Processes.antt",
        "occam_core/specs/Traces.antt",
        "occam_core/specs/Laws.antt",
        "occam_core/specs/Bounds.antt",
        "occam_uses/specs/Subscripts.antt",
        "occam_uses/specs/Uses.antt",
        "occam_uses/specs/Laws.antt",
        "occam_units/specs/Units.antt",
        "occam_code/specs/Instructions.antt",
        "occam_code/specs/Words.antt",
        "occam_code/specs/Expressions.antt",
        "occam_code/specs/Guards.antt",
        "occam_code/specs/Components.antt",
        "occam_code/specs/Code.antt",
        "occam_code/specs/Layout.antt",
        "occam_code/specs/Machine.antt",
        "occam_code/specs/Evaluates.antt",
        "occam_code/specs/Alone.antt",
        "occam_code/specs/Behaves.antt",
    ],
}
DEFINED = re.compile(r"^(?:abbrev |pub |law |record |data |def )+([\w-]+)", re.M)


def defined(top: Path) -> set[str]:
    """The names that the definitions of specs/ define."""
    return {
        name for it in top.glob("crates/*/specs/*.antt") for name in DEFINED.findall(it.read_text(encoding="utf-8"))
    }


def contracts(path: Path) -> Iterator[tuple[str, list[tuple[str, str]]]]:
    """The public functions of a file that have clauses: the name, with that of its type, and the name and the text of each clause."""
    text = re.sub(r"^\s*//.*\n", "", path.read_text(encoding="utf-8"), flags=re.M)
    of = ""
    for found in re.finditer(
        r"^(?:impl(?:<[^\n{]*?>)? (?:[^\n{]* for )?|pub trait )(\w+)|^( *)pub (?:const )?fn (\w+)((?:(?!\n *(?:pub )?fn ).)*?)\n *\{(?:\}|\n|$)|^\}",
        text,
        flags=re.M | re.S,
    ):
        block, indent, name, contract = found.groups()
        if name is None:
            of = block or ""
            continue
        clauses = re.split(r"\n\s*(ensures|requires|decreases)\b", contract)
        told = [
            (text.split("{")[0].strip(), text) for kind, text in zip(clauses[1::2], clauses[2::2]) if kind == "ensures"
        ]
        if told:
            yield (f"{of}::{name}" if of and indent else name), told


def row(name: str, clauses: list[tuple[str, str]], known: set[str]) -> str:
    """The line of a call."""
    told = []
    for clause, text in clauses:
        cited = [it for it in dict.fromkeys(re.findall(r"[\w-]+", text)) if it in known and it != clause]
        names = ", ".join(cited)
        told.append(clause + (f" ({names})" if names and clause else names))
    return f"{name}: {'; '.join(it for it in told if it) or 'its one clause'}"


def rows_of(files: list[str], known: set[str], top: Path) -> list[str]:
    """The lines of a section."""
    rows = []
    for path in (top / "crates" / file for file in files):
        cited = known & set(
            re.findall(r"[\w-]+", " ".join(re.findall(r"ghost use (.*?);", path.read_text(encoding="utf-8"), re.S)))
        )
        rows += [row(name, told, cited) for name, told in contracts(path)]
    return [*dict.fromkeys(rows)]


def head_of(path: Path) -> str:
    """The first sentence of what a file of definitions says of itself."""
    said = []
    for line in path.read_text(encoding="utf-8").split("\n"):
        if not line.startswith("-- "):
            break
        said.append(line.removeprefix("-- "))
    return re.split(r"(?<=\.)\s+(?=[A-Z])", " ".join(said))[0]


def written(top: Path) -> str:
    """The file as it should be."""
    known = defined(top)
    parts = [
        "\n".join(
            [
                section,
                *(f"crates/{it}: {head_of(top / 'crates' / it)}" for it in BELIEVED[section]),
                *rows_of(files, known, top),
            ]
        )
        for section, files in SECTIONS.items()
    ]
    return HEAD + "\n" + "\n\n".join(parts) + "\n"


if __name__ == "__main__":
    CLAUSES.write_text(written(ROOT), encoding="utf-8")
