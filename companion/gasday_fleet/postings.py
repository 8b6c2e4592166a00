"""The postings that an archive keeps, as other tools read them, and in what they are others than those that a run publishes.

Nothing is written beside an archive, so that it may stand where nothing can be."""

import os
import sqlite3
import tempfile
from collections.abc import Iterator, Sequence
from contextlib import closing, contextmanager
from typing import NamedTuple
from urllib.parse import quote

from .archives import LOG, copied, log_of

QUERY = "select cycle, round, rule, body from posting2 where book = ? order by cycle, round, rule, body"
BOOKS = "select distinct book from posting2 order by book"
NO_TABLE = "no such table: posting2"
MOST_SHOWN = 80  # of a row


class Unreadable(Exception):
    """A gas day's text, what it was told or what was kept of it can't be read."""


class Posting(NamedTuple):
    """A row of an archive, whatever stands in it."""

    cycle: object
    round: object
    rule: object
    body: object


def state_of(path: str) -> list[tuple[int, int]]:
    """By which one sees that an archive or the log beside it has changed."""
    stats = [os.stat(name) for name in (path, path + LOG) if os.path.exists(name)]
    return [(one.st_size, one.st_mtime_ns) for one in stats]


@contextmanager
def opened(path: str) -> Iterator[sqlite3.Connection]:
    """An archive as it stands, which SQLite then neither locks nor touches; with changes in the log beside it, copies of both."""
    if not log_of(path):
        with closing(sqlite3.connect(f"file:{quote(os.path.abspath(path))}?mode=ro&immutable=1", uri=True)) as archive:
            yield archive
        return
    with (tempfile.TemporaryDirectory(prefix="gasday-fleet-") as folder,
          closing(sqlite3.connect(copied(path, folder))) as archive):
        yield archive


def rows_in(path: str, query: str, *values: object) -> list[tuple[object, ...]]:
    name = os.path.basename(path)
    try:
        before = state_of(path)
        with opened(path) as archive:
            rows = archive.execute(query, values).fetchall()
        is_other = state_of(path) != before
    except sqlite3.Error as error:
        hint = ", and gasday migrate makes it where the archive is of version 1" if str(error) == NO_TABLE else ""
        raise Unreadable(f"{name} can't be read: {error}{hint}") from None
    except OSError as error:
        raise Unreadable(f"{name} can't be read: {error.strerror}") from None
    if is_other:
        raise Unreadable(f"{name} changed while it was read")
    return rows


def postings_in(path: str, book: object) -> list[Posting]:
    return [Posting(*row) for row in rows_in(path, QUERY, book)]


def books_in(path: str) -> list[object]:
    return [book for (book,) in rows_in(path, BOOKS)]


def shown(rows: Sequence[str], at: int) -> str:
    return rows[at].rstrip(",")[:MOST_SHOWN] if at < len(rows) else "nothing"


def first_other(held: Sequence[str], new: Sequence[str]) -> int:
    """The first place at which two lists differ; one behind the shorter, where it begins the longer."""
    return next((k for k, (a, b) in enumerate(zip(held, new, strict=False)) if a != b), min(len(held), len(new)))


def difference(held: Posting, new: Posting) -> str:
    """In what a posting that is kept is another one than the one that is published."""
    for name, one, other in (("round", held.round, new.round), ("rule", held.rule, new.rule)):
        if one != other:
            return f"its {name} is {one}, and not {other}"
    if not isinstance(held.body, bytes) or not isinstance(new.body, bytes):
        return "its body is no text"
    rows, others = (body.decode("utf-8", "backslashreplace").splitlines() for body in (held.body, new.body))
    at = first_other(rows, others)
    return f"row {at + 1} of its body is {shown(rows, at)}, and not {shown(others, at)}"


def other_postings(kept: Sequence[Posting], made: Sequence[Posting]) -> Iterator[str]:
    """Each cycle whose posting is missing, surplus, or not the one that is published now."""
    for cycle in sorted({posting.cycle for posting in (*kept, *made)}, key=str):
        held, new = ([posting for posting in side if posting.cycle == cycle] for side in (kept, made))
        if not held:
            yield f"cycle {cycle} is published, and not kept"
        elif not new:
            yield f"cycle {cycle} is kept, and not published"
        elif len(held) > 1:
            yield f"cycle {cycle} is kept {len(held)} times"
        elif held != new:
            yield f"the posting of cycle {cycle} that is kept is not the one that is published: {difference(held[0], new[0])}"
