"""Postings as an archive keeps them."""

import hashlib
import os
import sqlite3
import tempfile
from collections.abc import Iterator
from contextlib import closing, contextmanager
from dataclasses import dataclass

from .texts import Fault, Input

# What stands beside an archive: its last changes, where they aren't copied into it yet.
LOG = "-wal"


@dataclass(frozen=True)
class Posting:
    """What was published of a cycle: its question with the schedule, the prices and the bumped lines, as rows."""

    book: str
    cycle: int
    round: int
    body: bytes

    def digest(self) -> str:
        return hashlib.sha256(self.body).hexdigest()


def postings_in(path: str, book: str) -> list[Posting]:
    """The postings of a book in a file that nobody else uses, by cycle."""
    with closing(sqlite3.connect(path)) as archive:
        rows = archive.execute("select cycle, round, cast(body as blob) from posting2 where book = ? order by cycle", (book,))
        return [Posting(book, cycle, number, body) for cycle, number, body in rows]


@contextmanager
def scratch_folder() -> Iterator[str]:
    """A folder that is there for as long as it is needed; that there is no room for it is told."""
    try:
        with tempfile.TemporaryDirectory(prefix="gasday-report-") as folder:
            yield folder
    except OSError as error:
        raise Fault(f"{error.filename or tempfile.gettempdir()} can't be written: {error.strerror}; the report needs room for a"
                    " copy of the archive there (TMPDIR names another folder)") from None


def log_beside(path: str) -> bytes:
    try:
        with open(path + LOG, "rb") as file:
            return file.read()
    except FileNotFoundError:
        return b""
    except OSError as error:
        raise Fault(f"archive: {path + LOG} can't be read: {error.strerror}") from None


def postings_of(archive: Input, book: str) -> list[Posting]:
    """The postings of a book in an archive. A copy is opened, so that nothing is written beside it."""
    log = log_beside(archive.path)
    with scratch_folder() as folder:
        path = os.path.join(folder, "archive.db")
        for name, data in ((path, archive.data), (path + LOG, log)):
            if data:
                with open(name, "wb") as file:
                    file.write(data)
        try:
            return postings_in(path, book)
        except sqlite3.DatabaseError as error:
            raise Fault(f"archive: {archive.path} is no archive of version 2 ({error}); one of version 1 is brought to it by"
                        " `gasday migrate` on a copy") from None
