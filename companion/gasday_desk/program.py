"""The program `gasday`, asked for one answer at a time. What is asked of an open gas day goes through `coprocess`."""

import csv
import io
import os
import shutil
import subprocess
import time
from collections.abc import Sequence
from dataclasses import dataclass
from pathlib import Path
from typing import NamedTuple

from .faults import told_words
from .rows import CALLS, WAITING, Row, groups_of, rows_in, told_groups_of, words_of

BUILT = Path(__file__).resolve().parents[2] / "crates" / "gasday" / "out" / "gasday"
SECONDS = 600.0
# How long a file that another process has is waited for, and how long between two looks.
BUSY_SECONDS, BUSY_PAUSE = 20.0, 0.05


class Failed(Exception):
    """The program can't be run, or told no answer; what is to be done is in the words."""


class Busy(Failed):
    """Another process has the book's file."""


class Answer(NamedTuple):
    out: bytes
    status: int

    def rows(self) -> list[Row]:
        return rows_in(self.out)

    def first(self) -> Row:
        return next(iter(self.rows()), ("",) * 8)


class Kept(NamedTuple):
    """What a book's file keeps: its opening, and its calls with what each was told."""

    text: bytes
    opening: list[list[str]]
    calls: list[list[Row]]
    told: list[list[Row]]


@dataclass(frozen=True)
class Program:
    path: str

    def ask(self, *words: str, text: bytes = b"") -> Answer:
        try:
            done = subprocess.run([self.path, *words], input=text, stdout=subprocess.PIPE, stderr=subprocess.DEVNULL,
                                  timeout=SECONDS, start_new_session=True)
        except OSError as error:
            raise Failed(f"{self.path} can't be run: {error.strerror}") from None
        except subprocess.TimeoutExpired:
            raise Failed(f"gasday {words[0]} was not ready after {SECONDS:g} seconds") from None
        return Answer(done.stdout, done.returncode)

    def text_of(self, file: Path, seconds: float = BUSY_SECONDS) -> bytes:
        """The text of the gas day that a file keeps. Who has the file is waited for, since it ends with its input."""
        until = time.monotonic() + seconds
        while True:
            answer = self.ask("text", str(file))
            if answer.status == 0:
                return answer.out
            if answer.first()[:3] != ("fault", "0", "Busy"):
                raise Failed(f"{file.name} can't be read as a book: {told_words(answer.first())}")
            if time.monotonic() > until:
                raise Busy(f"another process has the file {file.name}; end that one, and try again")
            time.sleep(BUSY_PAUSE)

    def kept_by(self, file: Path, seconds: float = BUSY_SECONDS) -> Kept:
        """What a file keeps, its calls told once more by `gasday day`."""
        return self.kept_in(self.text_of(file, seconds))

    def kept_in(self, text: bytes) -> Kept:
        opening, rows = parts_of(text)
        calls = groups_of(rows)
        answer = self.ask("day", text=text)
        told = told_groups_of(answer.rows()) if calls else []
        if answer.status != 0 or len(told) != len(calls):
            raise Failed(f"gasday day tells {len(told)} calls where the text has {len(calls)}: {words_of(answer.first())}")
        return Kept(text, opening, calls, told)

    def make_book(self, file: Path, opening: bytes) -> Row:
        """Makes the file of a gas day; the row that was told, which is `opened` where it was made."""
        answer = self.ask("day", "--book", str(file), text=opening)
        told = answer.first()
        if told[0] not in ("opened", "refused", "fault"):
            raise Failed(f"gasday day --book ended with status {answer.status} and told nothing")
        return told


def parts_of(text: bytes) -> tuple[list[list[str]], list[Row]]:
    """The rows of the opening of a day's text, which may have quoted fields, and those of its calls, which have none."""
    lines = io.StringIO(text.decode("utf-8"), newline="\n").readlines()
    at = next((at for at, line in enumerate(lines) if line.split(",", 1)[0] in CALLS + WAITING), len(lines))
    opening = [row for row in csv.reader(io.StringIO("".join(lines[:at]), newline="")) if row]
    return opening, [tuple(line.rstrip("\r\n").split(",")) for line in lines[at:] if line.strip()]


def program_at(path: str | None) -> Program:
    """The program that is named, else the built one, else the one on the PATH."""
    found = shutil.which(path or (str(BUILT) if os.access(BUILT, os.X_OK) else "gasday"))
    if found is None:
        raise Failed(f"there is no program {path or 'gasday'}; name one by --gasday or in desk.toml, or put it on the PATH")
    return Program(os.path.abspath(found))


def written(rows: Sequence[Sequence[str]]) -> bytes:
    """Rows as a text, with quotation marks where a field needs them."""
    out = io.StringIO(newline="")
    csv.writer(out, lineterminator="\n").writerows(rows)
    return out.getvalue().encode()
