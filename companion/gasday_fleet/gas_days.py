"""A gas day as a worker runs it once more, by `gasday day`: are what it tells and publishes what was told and kept?"""

import csv
import io
import os
import tempfile
import time
from collections.abc import Iterable, Sequence
from pathlib import Path
from typing import NamedTuple

from .postings import Posting, Unreadable, books_in, first_other, other_postings, postings_in, shown
from .program import Answer, Program, Told, failure, no_answer, sha256_of, unread

ARCHIVE = "archive.db"


class Day(NamedTuple):
    """A gas day as it is kept: its text, and what it was told and its postings, where they are to be compared."""

    text: bytes
    told: bytes | None
    kept: list[Posting] | None


def first_book(lines: Iterable[str]) -> str:
    """The book that the `day` row of a text names; nothing where there is no such row."""
    try:
        return next((row[3] for row in csv.reader(lines, strict=True) if row[:1] == ["day"] and len(row) > 3), "")
    except (UnicodeDecodeError, csv.Error) as error:
        raise Unreadable(f"the text is none of comma-separated fields: {error}") from None


def book_of(text: bytes) -> str:
    return first_book(io.TextIOWrapper(io.BytesIO(text), encoding="utf-8-sig", newline=""))


def part_of(folder: str, kind: str, day: str) -> bytes:
    try:
        return Path(folder, kind, day).read_bytes()
    except OSError as error:
        raise Unreadable(f"{kind}/{day} can't be read: {error.strerror}") from None


def is_told(folder: str) -> bool:
    """Whether it stands in a folder what its gas days were told."""
    return os.path.isdir(os.path.join(folder, "told"))


def read_day(folder: str, day: str, is_kept: bool) -> Day:
    """A gas day of a folder. Where its postings are compared, it need not have been kept what it was told."""
    text = part_of(folder, "texts", day)
    told = part_of(folder, "told", day) if is_told(folder) or not is_kept else None
    return Day(text, told, postings_in(os.path.join(folder, ARCHIVE), book_of(text)) if is_kept else None)


def books_of(folder: str) -> set[str]:
    """The books of a folder's texts, less those texts that can't be read, which their own gas days tell."""
    books = set()
    for path in Path(folder, "texts").glob("*.csv"):
        try:
            with open(path, encoding="utf-8-sig", newline="") as file:
                books.add(first_book(file))
        except (OSError, Unreadable):
            continue
    return books


def surplus_of(folder: str) -> dict[str, Answer]:
    """The books of which a folder's archive keeps postings and no text is there, each with the answer to that."""
    path, known = os.path.join(folder, ARCHIVE), books_of(folder)
    try:
        kept = {book: postings_in(path, book) for book in books_in(path) if book not in known}
    except Unreadable:
        return {}  # which each gas day tells
    told = "it is kept, and no text that can be read is of this book"
    return {f"book {book}": {"verdict": "differs", "told": told, "postings": str(len(its)), "kept_sha256": sum_of(its)}
            for book, its in kept.items()}


def sum_of(kept: list[Posting]) -> str:
    return sha256_of(repr(kept).encode())


def sums_of(day: Day) -> Answer:
    """The SHA-256 of all that is compared."""
    sums = {"text_sha256": sha256_of(day.text)}
    sums |= {} if day.told is None else {"told_sha256": sha256_of(day.told)}
    return sums if day.kept is None else {**sums, "kept_sha256": sum_of(day.kept)}


def other_row(held: Sequence[str], told: Sequence[str]) -> str:
    """The first row in which what was told is not what is told now; nothing where there is none."""
    if held == told:
        return ""
    at = first_other(held, told)
    return f"row {at + 1} that was told is {shown(held, at)}, and gasday day tells {shown(told, at)}"


def rows_of(out: bytes) -> list[str]:
    """The rows that were told, less what was told of an archive."""
    rows = out.decode("utf-8", "replace").splitlines()
    return [row for row in rows if row and not row.startswith("refused,keep,")]


def told_once_more(program: Program, day: Day) -> tuple[Told, list[Posting]]:
    """What `gasday day` tells of a text, and what it publishes where that is to be compared."""
    with tempfile.TemporaryDirectory(prefix="gasday-fleet-") as folder:
        path = os.path.join(folder, ARCHIVE)
        told = program.call(["day"] if day.kept is None else ["day", "--archive", path], day.text)
        has_postings = day.kept is not None and os.path.exists(path)
        return told, postings_in(path, book_of(day.text)) if has_postings else []


def run_day(program: Program, day: Day) -> Answer:
    begun = time.monotonic()
    told, made = told_once_more(program, day)
    answer = {"seconds": f"{time.monotonic() - begun:.3f}", **sums_of(day)}
    if told.is_a("fault", 2):
        return {**answer, **failure(told.first())}
    if told.status not in (0, 1):
        raise no_answer(told, "day")
    if day.kept is not None:
        answer["postings"] = str(len(day.kept))
    others = [] if day.told is None else [other_row(rows_of(day.told), rows_of(told.out))]
    other = "; ".join(filter(None, [*others, *other_postings(day.kept or [], made)]))
    return {**answer, "verdict": "differs" if other else "same", "told": other}


def run_sent(program: Program, day: Day) -> list[Answer]:
    """Runs a gas day that was sent."""
    try:
        return [run_day(program, day)]
    except Unreadable as error:
        return [failure(str(error))]


def run_day_in(program: Program, folder: str, name: str, is_kept: bool) -> list[Answer]:
    """Runs a gas day that stands in a folder which the worker sees."""
    try:
        return run_sent(program, read_day(folder, name, is_kept))
    except Unreadable as error:
        return [unread(str(error))]
