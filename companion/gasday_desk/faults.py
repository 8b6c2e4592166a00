"""What the faults of the program say in words: those of the rows of a live day, and of its file."""

from collections.abc import Sequence

from .forms import FIELDS, OF_PARTIES
from .rows import Row, words_of

# What a field has to be, by its name; what is no quantity, number or word is a name.
NAME = "1 to 16 of A to Z, 0 to 9 and '-'"
FORMS = {
    "moment": "seconds since 1970, at most 4,200,000,000",
    "quantity": "a whole number from 0 to 1,000,000,000", "capacity": "a whole number from 0 to 1,000,000,000",
    "line": "the number of a line", "round": "the number of a round", "end": "origin or dest",
}
# A cause with what it says. {row} is the row's number in the text.
CAUSES = {
    "FieldCount": "row {row} has not eight fields",
    "UnknownKind": "row {row} is of no kind that the program knows",
    "Order": "row {row} may not come there",
    "Missing": "a row is missing: the text has no day row",
    "Limit": "row {row} is over a limit of the program",
    "Duplicate": "row {row} has a name that another row has already",
    "Unjoined": "the segment of row {row} joins no place that is known, or both its ends are known",
    "UnknownPlace": "row {row} names a place that no segment has",
    "TooMany": "row {row} is one more than the program takes of its kind",
    "NoSegment": "there is no segment row",
    "UnknownEnd": "row {row} names an end that is no point and no pool",
    "WrongEnd": "row {row} has gas come from a delivery point, or go to a receipt point",
    "SameEnd": "row {row} has the same end twice",
    "NoRoute": "row {row} passes a segment against its direction",
    "UnknownElement": "row {row} names an element that is not there",
    "IsPool": "row {row} gives a pool a capacity",
    "ReadFailed": "the program could not read its input",
    "TooLong": "the book has as many rows or bytes as it may have, and takes no more calls",
    "OutOfMemory": "the program ran out of memory",
    "Store": "the book's file can't be opened, read or written: look at its rights and the room on the disk",
    "Busy": "another process has the book's file: end that one, or wait until it has ended",
}


def is_fault(row: Sequence[str]) -> bool:
    return len(row) > 3 and row[0] == "fault"


def field_words(asked: Row, number: int) -> str:
    """What is wrong with a field of a call's row, by its number from 1."""
    kind = asked[0]
    names = ("kind", "moment", *(("party",) if kind in OF_PARTIES else ()), *FIELDS.get(kind, ()))
    if not 1 <= number <= len(names):
        return f"field {number} of the row is not of its form"
    name = names[number - 1]
    return f"the {name} {asked[number - 1]!r} is not {FORMS.get(name, NAME)}"


def fault_words(told: Sequence[str], asked: Row | None = None) -> str:
    """A fault as a sentence; of a call that was asked for with the field that is wrong."""
    _, row, cause, field = told[:4]
    if cause == "BadField" and field.isdigit():
        return field_words(asked, int(field)) if asked else f"field {field} of row {row} is not of its form"
    words = CAUSES.get(cause)
    if words is None:
        return f"the program reports {words_of(tuple(told))}"
    return words.format(row=row) if asked is None else words.format(row="").replace("row  ", "the row ")


def told_words(told: Sequence[str]) -> str:
    """What the program reports where it does not do what it was asked, in words if it is a fault."""
    return fault_words(told) if is_fault(told) else f"the program reports {words_of(tuple(told))}"
