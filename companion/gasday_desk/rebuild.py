"""Enters the calls of the books into a journal that was lost or is an old copy.

The book says which calls were made. By which forms and keys, and by which users of a party, only the lost journal said: a call
that asks for the same as one of these, by a form that is not known, is refused until its user says that it is a new one.
"""

from pathlib import Path

from .desk import BOOK, hold
from .journal import REBUILT, Journal, missing, resolved
from .program import Failed, Program, program_at
from .settings import Folder, settings_of


def rebuild_book(journal: Journal, program: Program, file: Path) -> int:
    """How many calls of a book were entered."""
    kept, entries = program.kept_by(file), journal.of_book(file.stem)
    lacking = missing(entries, kept.calls)
    if lacking:
        raise Failed(f"{file.name} lacks call {lacking.number} as desk.db has it, so it is an older copy;"
                     " bring back the right one")
    found = resolved(entries, kept.calls)
    journal.settle(found)
    known = {entry.number for entry in [*entries, *found]}
    strange = {number: tuple(rows) for number, rows in enumerate(kept.calls, 1) if number not in known}
    journal.adopt(file.stem, strange, REBUILT)
    return len(strange)


def rebuild(path: Path, program: str | None) -> dict[str, int]:
    """How many calls of each book were entered. No server may run on the folder meanwhile."""
    folder, settings = Folder(path), settings_of(path / "desk.toml")
    held = hold(folder)
    try:
        made, journal = program_at(program or settings.program), Journal(folder.at("desk.db"))
        try:
            files = sorted(file for file in folder.at("books").glob("*.book") if BOOK.fullmatch(file.stem))
            return {file.stem: rebuild_book(journal, made, file) for file in files}
        finally:
            journal.close()
    finally:
        held.close()
