"""A gas day in one archive: its text, its file, its answers, who made which call, and the reports; with hashes."""

import contextlib
import csv
import hashlib
import io
import sqlite3
import tarfile
import tempfile
import time
from pathlib import Path

from gasday_import.writing import whole as complete

from .answers import answer_of, day_page, question_of, save, shown_of
from .faults import told_words
from .journal import Journal
from .keeper import wanted_file
from .program import BUSY_PAUSE, Failed, Kept, Program, program_at, written
from .rows import line_of, sha256_of, words_of
from .settings import Folder, Wrong, settings_of
from .view import DayView, opening_of

SECONDS = 60.0
README = """{book}: a gas day, as the desk kept it.

{book}.book    the book's file; `gasday audit {book}.book` makes all its calls again
audit.csv      what it told when this archive was made
{book}.csv     the text of the day (`gasday text`); `gasday day < {book}.csv` tells told.csv once more
told.csv       what was told
postings.db    what was published, with its certificates (`gasday day --archive`); `gasday audit postings.db` checks it
calls.csv      who made which call, as the desk noted it, with the hashes of the receipts
day.html       the day for people: its calls, and what each was told (not proved)
rounds/        of each answered round its question, its answer, and the report with both checks (not proved)
SHA256SUMS     of all of these; `sha256sum -c SHA256SUMS`
"""


def copy_book(source: Path, target: Path, seconds: float = SECONDS) -> None:
    """A copy of the file between two of its commits. Who has the file is waited for: a desk gives it back when it is wanted."""
    until = time.monotonic() + seconds
    wanted_file(source).touch()
    try:
        copy_when_free(source, target, until)
    finally:
        wanted_file(source).unlink(missing_ok=True)


def copy_when_free(source: Path, target: Path, until: float) -> None:
    while True:
        try:
            book, copy = sqlite3.connect(f"{source.resolve().as_uri()}?mode=ro", uri=True, timeout=0), sqlite3.connect(target)
            try:
                book.backup(copy)
                return
            finally:
                book.close()
                copy.close()
        except sqlite3.OperationalError as error:
            if "locked" not in str(error) or time.monotonic() > until:
                raise Failed(f"{source} can't be copied: {error}; is a desk busy with it? try again") from None
            time.sleep(BUSY_PAUSE)
            wanted_file(source).touch()
        except sqlite3.Error as error:
            raise Failed(f"{source} can't be copied: {error}") from None


def write_calls(journal: Journal, book: str, view: DayView, path: Path) -> None:
    entries = {entry.number: entry for entry in journal.of_book(book) if entry.number}
    out = io.StringIO(newline="")
    writer = csv.writer(out, lineterminator="\n")
    writer.writerow(["call", "moment", "user", "role", "party", "row", "told", "sha256_of_rows", "sha256_of_reply"])
    for call in view.calls:
        entry = entries.get(call.number)
        rows = entry.rows if entry else call.rows
        maker = entry.maker if entry else ("", "", "")
        writer.writerow([call.number, call.moment, *maker, words_of(rows[-1]), words_of(call.told[0]), sha256_of(rows),
                         sha256_of(call.told)])
    path.write_text(out.getvalue(), encoding="utf-8")


def write_rounds(program: Program, view: DayView, kept: Kept, folder: Path) -> None:
    folder.mkdir()
    for one in view.rounds:
        if one.closed_by:
            name = f"{view.opening.book}-{one.cycle}-round-{one.number}"
            save(shown_of(program, question_of(view, one), answer_of(view, one, kept.text), name), folder, name)


def write_day(program: Program, journal: Journal, book: str, source: Path, folder: Path, zone: str) -> None:
    """All files of the archive but the hashes; everything is made of the one copy of the book."""
    copy = folder / f"{book}.book"
    copy_book(source, copy)
    audit = program.ask("audit", str(copy))
    (folder / "audit.csv").write_bytes(audit.out)
    if audit.first()[0] != "replayed":
        raise Failed(f"{source} doesn't replay: {told_words(audit.first())}")
    kept = program.kept_by(copy)
    day = next(row for row in kept.opening if row[0] == "day")
    view = DayView(opening_of(kept.opening, program.ask("calendar", text=written([day])).rows()))
    for rows, replies in zip(kept.calls, kept.told, strict=True):
        view.add(rows, replies)
    (folder / f"{book}.csv").write_bytes(kept.text)
    told = b"".join(line_of(row) for rows in kept.told for row in rows)
    (folder / "told.csv").write_bytes(told)
    (folder / "day.html").write_text(day_page(program, kept.text, told, zone), encoding="utf-8")
    program.ask("day", "--archive", str(folder / "postings.db"), text=kept.text)
    write_calls(journal, book, view, folder / "calls.csv")
    write_rounds(program, view, kept, folder / "rounds")
    (folder / "README").write_text(README.format(book=book), encoding="utf-8")


def close_files(folder: Path) -> None:
    """Brings what stands in the logs beside the SQLite files into them, and the logs away."""
    for path in [*folder.glob("*.book"), *folder.glob("*.db")]:
        with contextlib.closing(sqlite3.connect(path)) as file:
            file.execute("PRAGMA wal_checkpoint(TRUNCATE)")


def write_sums(folder: Path) -> None:
    files = sorted(path for path in folder.rglob("*") if path.is_file())
    lines = [f"{hashlib.sha256(path.read_bytes()).hexdigest()}  {path.relative_to(folder)}\n" for path in files]
    (folder / "SHA256SUMS").write_text("".join(lines), encoding="utf-8")


def export_day(path: Path, book: str, program: str | None, output: Path | None) -> Path:
    """Makes the archive of a day, whole or not at all; its path."""
    from .desk import BOOK
    folder, settings = Folder(path), settings_of(path / "desk.toml")
    if not BOOK.fullmatch(book) or not folder.book_file(book).is_file():
        raise Wrong(f"{path} has no book {book[:40]!r}; its books are the files in {path / 'books'}")
    target = output or folder.at("archives", f"{book}.tar.gz")
    journal = Journal(folder.at("desk.db"))
    try:
        with tempfile.TemporaryDirectory() as name:
            whole = Path(name) / book
            whole.mkdir()
            made = program_at(program or settings.program)
            write_day(made, journal, book, folder.book_file(book), whole, settings.clock)
            close_files(whole)
            write_sums(whole)
            with complete(target, 0o640) as file, tarfile.open(fileobj=file, mode="w:gz") as archive:
                archive.add(whole, arcname=book)
    finally:
        journal.close()
    return target
