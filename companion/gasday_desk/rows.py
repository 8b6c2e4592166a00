"""Rows of eight fields, as `gasday day --book` takes and tells them: one line each, with no quotation mark."""

import hashlib
import re
from collections.abc import Iterable, Sequence

Row = tuple[str, ...]
FIELDS = 8
CALLS = ("nominate", "respond", "post", "freeze", "settle", "publish", "declare", "waive", "skip")
# Rows that wait for the call behind them.
WAITING = ("sched", "price", "inside")
# The row that begins what a call is told.
HEADS = ("accepted", "done", "frozen", "published", "declared", "refused")
# A field that can end no row and begin no other one. Whether it is a good one is for the program to say.
SAFE = re.compile(r"[A-Za-z0-9-]{0,64}")


class Unsafe(ValueError):
    """A field that no row of a call can have."""


def row_of(*fields: str | int) -> Row:
    """A row of these fields, with empty ones behind them."""
    row = tuple(map(str, fields)) + ("",) * (FIELDS - len(fields))
    for field in row:
        if not SAFE.fullmatch(field):
            raise Unsafe(f"{field[:40]!r} is no field of a row; it may have A to Z, 0 to 9 and '-', and 64 of them at most")
    if len(row) != FIELDS:
        raise Unsafe(f"a row has {FIELDS} fields, not {len(row)}")
    return row


def line_of(row: Row) -> bytes:
    return (",".join(row) + "\n").encode()


def lines_of(rows: Iterable[Row]) -> bytes:
    return b"".join(map(line_of, rows))


def rows_in(text: bytes) -> list[Row]:
    """The rows of what the program tells, which has no quotation marks."""
    return [tuple(line.split(",")) for line in text.decode("utf-8", "replace").split("\n") if line]


def words_of(row: Row) -> str:
    """A row without the empty fields at its end."""
    return ",".join(row).rstrip(",")


def sha256_of(rows: Iterable[Row]) -> str:
    """Of the lines of these rows, each with its line feed."""
    return hashlib.sha256(lines_of(rows)).hexdigest()


def groups_of(rows: Iterable[Row]) -> list[list[Row]]:
    """The calls of a text: each call with the rows that wait for it before it."""
    groups: list[list[Row]] = []
    waiting: list[Row] = []
    for row in rows:
        waiting.append(row)
        if row[0] not in WAITING:
            groups.append(waiting)
            waiting = []
    return groups


def told_groups_of(rows: Iterable[Row]) -> list[list[Row]]:
    """What each call was told, in order."""
    groups: list[list[Row]] = []
    for row in rows:
        if row[0] in HEADS or not groups:
            groups.append([])
        groups[-1].append(row)
    return groups


def of_kind(rows: Sequence[Row], kind: str) -> list[Row]:
    return [row for row in rows if row[0] == kind]
