"""What documents and the importer have of the rows that are read: their forms and meanings are those of the program's help, their
stages those of its definitions, and the words that a field takes those of what it tells people."""

import re
from collections.abc import Iterator
from dataclasses import dataclass
from functools import cache

from command_line import TOP, Fault
from help_tables import helps, made_of
from manual import SENTENCE, parts_of

FORM = re.compile(r"[a-z]+(?:,[A-Za-z]+)+$")
STAGES = re.compile(r"Stages? (\d)(?: to (\d))?\b")
ALONE = "In an archive alone"
EXAMPLE = "Example:"
WORDS = re.compile(r"\w+(?:, \w+)* or \w+$")


@dataclass(frozen=True)
class RowForm:
    """A form of a row in the help."""

    kind: str
    fields: tuple[str, ...]  # behind the kind: what is filled in is in capitals
    meaning: str
    stage: int  # as a title of the help says it; 0 where none does
    is_taken: bool  # by a command


@cache
def row_forms() -> tuple[RowForm, ...]:
    """All forms of rows that are read, in the order of the help."""
    text = helps()["program"].partition("\nRows that are read:\n")[2].partition("\nBlocks of an office:\n")[0]
    found: list[RowForm] = []
    title, first, last = "", 0, 0
    for part in parts_of(text):
        if part.kind == "title":
            title, told = part.lead, STAGES.match(part.lead)
            first, last = (int(told[1]), int(told[2] or told[1])) if told else (0, 0)
        elif part.kind == "item" and FORM.match(part.lead):
            kind, *fields = part.lead.split(",")
            found.append(RowForm(kind, tuple(fields), meaning_of(part.text), first, title != ALONE))
            # (of several stages each has one kind)
            first = min(first + 1, last)
    if not found:
        raise Fault("the help of the program has no rows that are read")
    return tuple(found)


def meaning_of(text: str) -> str:
    """What an item says, without its example."""
    return " ".join(it for it in SENTENCE.split(text.partition(EXAMPLE)[0].strip()) if it)


@cache
def stages() -> dict[str, int]:
    """The words of all kinds of rows that are read, each with its stage, as the program's definitions have them."""
    text = (TOP / "crates/gd_text_part/specs/Kinds.antt").read_text(encoding="utf-8")
    words = {kind: word for word, kind in re.findall(r'is_text text \(codes "(\w+)"\) then Some kind\.(\w+)', text)}
    found = re.findall(r"^stage_of kind\.(\w+) = (\d)$", text, re.M)
    return {words.get(kind, f"the kind {kind}"): int(stage) for kind, stage in found}


def stage_of(row: RowForm) -> int:
    if row.kind not in stages():
        raise Fault(f"Kinds has no row {row.kind}, which the help has")
    return stages()[row.kind]


@cache
def choices() -> tuple[tuple[str, ...], ...]:
    """The words of each field that takes some words alone."""
    text = (TOP / "crates/gd_messages/src/field.rt").read_text(encoding="utf-8")
    told = re.findall(r'Wanted::Word\("([^"]*)"\)', text)
    return tuple(dict.fromkeys(tuple(re.split(r", | or ", words)) for words in told if WORDS.match(words)))


def words_for(field: str) -> tuple[str, ...]:
    """The words that may stand in place of a word of a form, with itself."""
    if field.isupper():
        return (field,)
    found = [words for words in choices() if field in words]
    if len(found) != 1:
        raise Fault(f"messages tell {len(found)} times which words a field takes that may be {field}")
    return found[0]


def titles_of(row: RowForm) -> str:
    """What the fields of a form are: words in capitals, or the words that a field takes."""
    return " ".join("|".join(words_for(field)) for field in row.fields)


# The importer's module.


def by_kind() -> dict[str, list[RowForm]]:
    """The forms of each kind that a command takes."""
    found: dict[str, list[RowForm]] = {}
    for row in row_forms():
        if row.is_taken:
            found.setdefault(row.kind, []).append(row)
    return found


def stages_module(script: str) -> str:
    """The importer's module of the kinds of each stage, and of the second form that a kind may have."""
    several = {kind: rows for kind, rows in by_kind().items() if len(rows) > 1}
    if any(len(rows) > 2 for rows in several.values()):
        raise Fault("the importer knows no row with three forms")
    lines = ["# " + made_of(script, "the program's help, its stages and its messages"),
             '"""The kinds of rows of each stage of a text, with the titles of the fields behind them."""', "", "STAGES = ("]
    for stage in range(1, max(stages().values()) + 1):
        kinds = {kind: rows[0] for kind, rows in by_kind().items() if stage_of(rows[0]) == stage}
        lines += ["    {", *(f'        "{kind}": "{titles_of(row)}",' for kind, row in kinds.items()), "    },"]
    lines += [")", "SECOND = {", *(f'    "{kind}": "{titles_of(rows[1])}",' for kind, rows in several.items()), "}"]
    return "\n".join(lines) + "\n"


# The table of a document.


def others_of(row: RowForm) -> Iterator[str]:
    """The words that may stand in place of a form's own, but for those that another form of its kind has."""
    for place, field in enumerate(row.fields):
        taken = {other.fields[place] for other in row_forms() if other.kind == row.kind and place < len(other.fields)}
        yield from (word for word in words_for(field) if word not in taken and not word.isupper())


def rows_table() -> str:
    """All rows that are read, with their stages and meanings."""
    lines = ["| Stage | Row | Meaning |", "|---|---|---|"]
    for row in row_forms():
        others = ", ".join(f"`{word}`" for word in others_of(row))
        form = f"`{','.join([row.kind, *row.fields])}`" + (f" (or {others})" if others else "")
        lines.append(f"| {stage_of(row)} | {form} | {row.meaning} |")
    return "\n".join(lines)
