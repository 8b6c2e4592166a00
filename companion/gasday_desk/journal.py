"""What the desk keeps beside the books: who made which call by which form, and why calls are stopped.

A call is entered with its token before it is sent. So a form that comes again, after whatever break, finds its own call, and is
no second nomination. What the book holds is for its file alone to say.
"""

import sqlite3
import threading
from collections.abc import Iterable, Iterator, Mapping, Sequence
from contextlib import contextmanager
from dataclasses import dataclass, replace
from pathlib import Path
from typing import NamedTuple

from .program import Failed
from .rows import Row, lines_of, rows_in

SENT, KEPT, FAULTY, LOST = "sent", "kept", "faulty", "lost"
SCHEMA = """
CREATE TABLE IF NOT EXISTS call (
    id INTEGER PRIMARY KEY, book TEXT NOT NULL, token TEXT NOT NULL, user TEXT NOT NULL, role TEXT NOT NULL,
    party TEXT NOT NULL, moment INTEGER NOT NULL, rows BLOB NOT NULL, number INTEGER, told BLOB NOT NULL,
    state TEXT NOT NULL CHECK (state IN ('sent', 'kept', 'faulty', 'lost')), UNIQUE (book, token));
CREATE UNIQUE INDEX IF NOT EXISTS numbered ON call (book, number) WHERE number IS NOT NULL;
CREATE INDEX IF NOT EXISTS lost ON call (book) WHERE state = 'lost';
CREATE TABLE IF NOT EXISTS guard (one INTEGER PRIMARY KEY CHECK (one = 1), reason TEXT NOT NULL);
INSERT OR IGNORE INTO guard VALUES (1, '');
CREATE TABLE IF NOT EXISTS session (id TEXT PRIMARY KEY, user TEXT NOT NULL, key TEXT NOT NULL, began INTEGER NOT NULL);
"""
COLUMNS = "id, book, token, user, role, party, moment, rows, number, told, state"


class Maker(NamedTuple):
    """Who makes a call, and in which role and for which party."""

    user: str
    role: str
    party: str


class Origin(NamedTuple):
    """Where calls of a book come from that were made by no form of this journal. A form's token has a colon, and these none."""

    token: str
    user: str


OTHERS = Origin("other.", "not by this desk")
REBUILT = Origin("rebuilt.", "not known")


@dataclass(frozen=True)
class Entry:
    """A call as it was sent. Its number is that of the call in the book's file, none where it isn't kept; what it was told is
    held here where it is faulty, since then the file doesn't have it."""

    id: int
    book: str
    token: str
    maker: Maker
    moment: int
    rows: tuple[Row, ...]
    number: int | None
    told: tuple[Row, ...]
    state: str

    def kept_as(self, number: int) -> "Entry":
        return replace(self, number=number, state=KEPT)

    @property
    def is_rebuilt(self) -> bool:
        """Whether it was made of the book after the journal was lost, so that its form is not known."""
        return self.token.startswith(REBUILT.token)

    def faulty(self, told: Iterable[Row]) -> "Entry":
        return replace(self, told=tuple(told), state=FAULTY)

    def lost(self) -> "Entry":
        return replace(self, state=LOST)


def entry_of(record: Sequence[object]) -> Entry:
    number, book, token, user, role, party, moment, rows, call, told, state = record
    assert isinstance(number, int) and isinstance(moment, int) and isinstance(rows, bytes) and isinstance(told, bytes)
    assert call is None or isinstance(call, int)
    maker = Maker(str(user), str(role), str(party))
    return Entry(number, str(book), str(token), maker, moment, tuple(rows_in(rows)), call, tuple(rows_in(told)), str(state))


class Journal:
    """The file, used by all threads in turn. A call is on the disk before it is sent."""

    def __init__(self, path: Path) -> None:
        self.lock = threading.Lock()
        try:
            self.file = sqlite3.connect(path, isolation_level=None, check_same_thread=False, timeout=20)
            self.file.execute("PRAGMA journal_mode = WAL")
            self.file.execute("PRAGMA synchronous = FULL")
            self.file.executescript(SCHEMA)
            path.chmod(0o640)
        except (sqlite3.Error, OSError) as error:
            raise Failed(f"{path} can't be used: {error}. If it is damaged, move it away, and run `gasday-desk rebuild` on the"
                         " folder") from None

    def close(self) -> None:
        with self.lock:
            self.file.close()

    def find(self, book: str, token: str) -> Entry | None:
        with self.lock:
            record = self.file.execute(f"SELECT {COLUMNS} FROM call WHERE book = ? AND token = ?", (book, token)).fetchone()
        return entry_of(record) if record else None

    def of_form(self, book: str, token: str) -> list[Entry]:
        """The calls of a form with several: each has the form's token with something behind a point."""
        with self.lock:
            records = self.file.execute(f"SELECT {COLUMNS} FROM call WHERE book = ? AND (token = ? OR substr(token, 1, ?) = ?)"
                                        " ORDER BY id", (book, token, len(token) + 1, token + ".")).fetchall()
        return [entry_of(record) for record in records]

    def not_kept(self, book: str) -> list[Entry]:
        """The calls of a book that were sent and that its file doesn't keep, the last ones first."""
        with self.lock:
            records = self.file.execute(f"SELECT {COLUMNS} FROM call WHERE book = ? AND state = 'lost' ORDER BY id DESC"
                                        " LIMIT 100", (book,)).fetchall()
        return [entry_of(record) for record in records]

    def of_book(self, book: str) -> list[Entry]:
        """All calls of a book, in the order in which they were sent."""
        with self.lock:
            records = self.file.execute(f"SELECT {COLUMNS} FROM call WHERE book = ? ORDER BY id", (book,)).fetchall()
        return [entry_of(record) for record in records]

    def last_moment(self) -> int:
        with self.lock:
            return int(self.file.execute("SELECT coalesce(max(moment), 0) FROM call").fetchone()[0])

    def begin(self, entries: Sequence[Entry]) -> list[Entry]:
        """Enters calls that are about to be sent, in one commit. A form whose call wasn't kept may be sent once more: that is
        a new entry in the place of the old one."""
        begun = []
        with self.transaction():
            for entry in entries:
                self.file.execute("DELETE FROM call WHERE book = ? AND token = ? AND state IN ('faulty', 'lost')",
                                  (entry.book, entry.token))
                cursor = self.file.execute(
                    "INSERT INTO call (book, token, user, role, party, moment, rows, number, told, state)"
                    " VALUES (?, ?, ?, ?, ?, ?, ?, NULL, x'', 'sent')",
                    (entry.book, entry.token, *entry.maker, entry.moment, lines_of(entry.rows)))
                begun.append(replace(entry, id=cursor.lastrowid or 0))
        return begun

    def adopt(self, book: str, calls: Mapping[int, tuple[Row, ...]], origin: Origin) -> dict[int, Entry]:
        """Enters calls that the book has and this journal doesn't; the entries by the numbers of their calls."""
        with self.transaction():
            for number, rows in calls.items():
                party = rows[-1][2] if rows[-1][0] in ("nominate", "respond") else ""
                self.file.execute("INSERT INTO call (book, token, user, role, party, moment, rows, number, told, state)"
                                  " VALUES (?, ?, ?, '', ?, ?, ?, ?, x'', 'kept')",
                                  (book, f"{origin.token}{number}", origin.user, party, int(rows[-1][1]), lines_of(rows), number))
        return {entry.number: entry for entry in self.of_book(book) if entry.number and entry.number in calls}

    def settle(self, entries: Sequence[Entry]) -> None:
        """Enters what became of calls that were sent. This isn't waited for to be on the disk: what a power cut takes of it is
        found in the book's file again."""
        with self.transaction("NORMAL"):
            self.file.executemany("UPDATE call SET number = ?, told = ?, state = ? WHERE id = ?",
                                  [(one.number, lines_of(one.told), one.state, one.id) for one in entries])

    def read(self, words: str) -> list[tuple[object, ...]]:
        """The records of a query of another table."""
        with self.lock:
            return list(self.file.execute(words))

    def write(self, words: str, values: tuple[object, ...]) -> None:
        """A change of another table, in a commit of its own."""
        with self.transaction():
            self.file.execute(words, values)

    @contextmanager
    def transaction(self, synchronous: str = "FULL") -> Iterator[None]:
        """All that is done within is entered, or nothing of it; some faults, as a full disk, have taken it back already."""
        with self.lock:
            self.file.execute(f"PRAGMA synchronous = {synchronous}")
            self.file.execute("BEGIN IMMEDIATE")
            try:
                yield
                self.file.execute("COMMIT")
            except BaseException:
                if self.file.in_transaction:
                    self.file.execute("ROLLBACK")
                raise

    def reason(self) -> str:
        """Why calls are stopped; nothing where they aren't."""
        with self.lock:
            return str(self.file.execute("SELECT reason FROM guard").fetchone()[0])

    def keep_reason(self, reason: str) -> None:
        with self.transaction():
            self.file.execute("UPDATE guard SET reason = ?", (reason,))


def is_call(entry: Entry, call: Sequence[Row]) -> bool:
    """Whether a call that the file keeps is the one that was sent. A settled cycle is kept as what it came to, and of a group
    with a faulty row what stands behind it."""
    sent, kept = entry.rows[-1], call[-1]
    if sent[0] == "settle" and kept[0] in ("publish", "declare"):
        return sent[1] == kept[1]
    return entry.rows[-len(call):] == tuple(call)


def has(calls: Sequence[Sequence[Row]], entry: Entry) -> bool:
    """Whether these calls have the entry's at its number."""
    return entry.number is not None and entry.number <= len(calls) and is_call(entry, calls[entry.number - 1])


def missing(entries: Sequence[Entry], calls: Sequence[Sequence[Row]]) -> Entry | None:
    """The first call that was told as kept and that the file doesn't have at its number."""
    return next((entry for entry in entries if entry.state == KEPT and not has(calls, entry)), None)


def resolved(entries: Sequence[Entry], calls: Sequence[Sequence[Row]]) -> list[Entry]:
    """What became of the calls that were sent and not answered: those of the file that no entry has are theirs, in their
    order, since the program keeps what it reads in its order."""
    known = {entry.number for entry in entries}
    free = [number for number in range(1, len(calls) + 1) if number not in known]
    found, at = [], 0
    for entry in (one for one in entries if one.state == SENT):
        match = next((k for k in range(at, len(free)) if is_call(entry, calls[free[k] - 1])), None)
        if match is None:
            found.append(entry.lost())
        else:
            found.append(entry.kept_as(free[match]))
            at = match + 1
    return found
