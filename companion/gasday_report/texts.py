"""Reading files, and parting the rows of a text."""

import csv
import hashlib
import io
from collections.abc import Collection, Iterable
from typing import NamedTuple

Row = list[str]

ANSWER_KINDS = ("sched", "price", "inside")
# What else may stand in an answer: the head of what `solve` prints, and a posting's bumped lines.
HEAD_KINDS = ("best", "total", "cut", "bumped")
QUESTION_KINDS = ("segment", "point", "pool", "question", "capacity", "line")


class Fault(Exception):
    """The report can't be made: of usage, of reading, or of a text's form. The exit status is 2."""


class Input(NamedTuple):
    """A file that was read."""

    role: str
    path: str
    data: bytes

    def digest(self) -> str:
        return hashlib.sha256(self.data).hexdigest()

    def rows(self) -> list[Row]:
        return rows_in(self.data, self.path)


def read_input(role: str, path: str) -> Input:
    try:
        with open(path, "rb") as file:
            return Input(role, path, file.read())
    except OSError as error:
        raise Fault(f"{role}: {path} can't be read: {error.strerror}") from None


def rows_in(data: bytes, name: str) -> list[Row]:
    """The rows of a text, as lists of eight fields; empty lines are skipped."""
    try:
        text = data.decode("utf-8-sig")  # the program drops a byte order mark too
        rows = [row for row in csv.reader(io.StringIO(text, newline=""), strict=True) if row]
    except (UnicodeDecodeError, csv.Error) as error:
        raise Fault(f"{name}: no text of comma-separated fields: {error}") from None
    for at, row in enumerate(rows, 1):
        if len(row) != 8:
            raise Fault(f"{name}: row {at} has {len(row)} fields, not eight")
    return rows


def written(rows: Iterable[Row]) -> bytes:
    """The rows as a text of their own."""
    out = io.StringIO(newline="")
    csv.writer(out, lineterminator="\n").writerows(rows)
    return out.getvalue().encode()


def of_kinds(rows: Iterable[Row], kinds: Collection[str]) -> list[Row]:
    return [row for row in rows if row[0] in kinds]


def question_text(question: Input) -> bytes:
    """The bytes of a question, less the rows of an answer where some stand in its text."""
    rows = question.rows()
    if not of_kinds(rows, ANSWER_KINDS + HEAD_KINDS):
        ended = question.data.endswith((b"\n", b"\r"))
        return question.data + (b"" if ended or not question.data else b"\n")
    return written(row for row in rows if row[0] not in ANSWER_KINDS + HEAD_KINDS)


def number_of(field: str, name: str) -> int:
    if not (field.isascii() and field.isdigit() and len(field) <= 18):
        raise Fault(f"{name}: '{field}' is no number")
    return int(field)
