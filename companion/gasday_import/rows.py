"""The rows of a text."""

import csv
import re
from dataclasses import dataclass

from .forms import FIELDS, INTERRUPTIBLE, KINDS, NAMED_RESPOND, Form
from .log import Place

NEEDS_QUOTES = re.compile('[",\r\n]')
# The fields that name places, of each kind of a pipeline's row.
PLACES = {"segment": slice(2, 4), "point": slice(3, 4), "pool": slice(2, 3)}


@dataclass(slots=True, eq=False)
class Row:
    """A row of a source."""

    source: str
    line: int  # counted from 1
    kind: str
    text: str  # as it is to be written; empty while the source's own can't be
    fields: tuple[str, ...] = ()  # none where nothing is to be repaired
    labels: tuple[str, ...] = ()  # what a header calls the fields; none where they are called by their numbers
    at: int = 0  # how many rows were read before it
    is_local: bool = False  # whether its moment is still a local time

    @property
    def place(self) -> Place:
        return Place(self.source, self.line)

    @property
    def stage(self) -> int:
        return KINDS[self.kind].stage

    def label(self, number: int) -> str:
        """What people call a field, by its number from 1."""
        return self.labels[number - 1] if number <= len(self.labels) else f"field {number}"

    def cells(self) -> tuple[str, ...]:
        """The fields, whether or not anything was repaired."""
        return self.fields or tuple(next(csv.reader([self.text])))

    def places(self) -> set[str]:
        """The places of a pipeline's row: the two ends of a segment, and where a point or pool hangs."""
        fields = self.fields or tuple(self.text.split(","))
        return set(fields[PLACES[self.kind]])

    def titles(self) -> Form:
        """The titles of its fields behind its kind; it has to have fields."""
        if self.kind == "contract" and [field.strip().lower() for field in self.fields[3:4]] == ["interruptible"]:
            return INTERRUPTIBLE
        if self.kind == "respond" and len(self.fields) > FIELDS and any(field.strip() for field in self.fields[6:]):
            return NAMED_RESPOND
        return KINDS[self.kind].titles


def written(fields: list[str]) -> str:
    """A row of these eight fields, with quotes where one needs them."""
    text = ",".join(fields)
    if len(NEEDS_QUOTES.findall(text)) == FIELDS - 1:
        return text
    return ",".join(quoted(field) if NEEDS_QUOTES.search(field) else field for field in fields)


def quoted(field: str) -> str:
    return '"' + field.replace('"', '""') + '"'
