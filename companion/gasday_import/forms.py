"""The kinds of rows: the stage of a text in which each stands, and what its fields are.

Their titles stand in stages.py, which tests/make_tables.py makes. A title is a word in capitals, or the words that its
field takes.
"""

import re
from dataclasses import dataclass

from .stages import SECOND, STAGES

FIELDS = 8
Form = tuple[str, ...]

PIPELINE, EVENT = 1, len(STAGES)
INTERRUPTIBLE = tuple(SECOND["contract"].split())
# A confirmation that names its line by what it was nominated with. It has a ninth field, and no text of `gasday` has it.
NAMED_RESPOND = ("MOMENT", "PARTY", "CONTRACT", "PACKAGE", "ORIGIN", "DEST", "origin|dest", "QUANTITY")

# What else a word may be called; it is written as `gasday` has it.
CALLED = {"origin|dest": {"receipt": "origin", "delivery": "dest", "destination": "dest"}}

NUMBERS = {"CAPACITY", "QUANTITY", "CYCLE", "ROUND", "CLASS", "FLOOR", "CEILING", "LINE", "LEVEL", "MOMENT", "SLOT", "BAND"}
SIGNED, TEXTS = {"WORD", "SPREAD"}, {"DATE", "ZONE"}


@dataclass(frozen=True, slots=True)
class Kind:
    """What holds of all rows of a kind."""

    stage: int  # from 1
    titles: tuple[str, ...]
    clean: re.Pattern[str]  # a row where nothing is to be repaired, and perhaps a line end


def is_name(title: str) -> bool:
    return title.isupper() and not is_number(title) and title not in TEXTS


def is_number(title: str) -> bool:
    return title in NUMBERS or title in SIGNED


def pattern_of(title: str) -> str:
    """A field without quotes where nothing is to be repaired; an empty one is left to `gasday`."""
    if title in NUMBERS:
        return "[0-9]{0,18}"
    if title in SIGNED:
        return "(?:-?[0-9]{1,18})?"
    if title in TEXTS:
        return r'(?:[^\s",](?:[^",\r\n]*[^\s",])?)?'
    return "[A-Z0-9-]{0,16}" if title.isupper() else f"(?:{title})?"


def clean_row(kind: str, *forms: tuple[str, ...]) -> re.Pattern[str]:
    """The rows of a kind where nothing is to be repaired."""
    bodies = [",".join(map(pattern_of, titles)) + "," * (FIELDS - 1 - len(titles)) for titles in forms]
    return re.compile(f"{kind},(?:{'|'.join(bodies)})[\r\n]*")


def kinds_of(stage: int, forms: dict[str, str]) -> dict[str, Kind]:
    kinds = {}
    for kind, form in forms.items():
        titles = tuple(form.split())
        more = [tuple(SECOND[kind].split())] if kind in SECOND else []
        kinds[kind] = Kind(stage, titles, clean_row(kind, titles, *more))
    return kinds


KINDS = {kind: what for stage, forms in enumerate(STAGES, 1) for kind, what in kinds_of(stage, forms).items()}


def forms_of(kind: str) -> tuple[Form, ...]:
    """The forms in which the rows of a kind may come, the table's first."""
    more = {"contract": (INTERRUPTIBLE,), "respond": (NAMED_RESPOND,)}
    return KINDS[kind].titles, *more.get(kind, ())
