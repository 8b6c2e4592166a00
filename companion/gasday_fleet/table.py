"""The table of a run: whole rows in a file as they come, and in the order of the items when the run ends."""

import contextlib
import csv
import fcntl
import io
import os
import sys
import tempfile
from collections.abc import Iterator
from typing import IO

from gasday_report.texts import Fault

from .job import Job, Row
from .program import FAILED, Answer


def line_of(row: Row) -> bytes:
    out = io.StringIO(newline="")
    csv.writer(out, lineterminator="\n").writerow(row)
    return out.getvalue().encode("utf-8", "surrogateescape")


def rows_in(data: bytes) -> Iterator[Row]:
    """The whole rows of a table; what a run that broke off left behind them is passed over."""
    whole = data[:data.rfind(b"\n") + 1].decode("utf-8", "surrogateescape")
    with contextlib.suppress(csv.Error):
        yield from csv.reader(io.StringIO(whole, newline=""), strict=True)


def locked(file: IO[bytes], path: str) -> IO[bytes]:
    """Two runs don't write to one table at the same time."""
    try:
        fcntl.flock(file, fcntl.LOCK_EX | fcntl.LOCK_NB)
    except OSError:
        raise Fault(f"{path} is being written by another run") from None
    return file


def check_output(path: str | None, is_resumed: bool) -> None:
    """What was made before is not written over, and a run goes on with a regular file alone."""
    if path is None or not os.path.exists(path):
        return
    if not os.path.isfile(path):
        raise Fault(f"{path} is no regular file, and a table is kept in one: leave --output out, and the table is printed")
    if not is_resumed:
        raise Fault(f"{path} is there already; --resume goes on with it")


class Table:
    """Without a path it stands in a file without a name, and is printed when the run ends."""

    def __init__(self, job: Job, path: str | None, is_resumed: bool) -> None:
        self.job, self.path = job, path and os.path.realpath(path)
        self.places: dict[int, tuple[int, int]] = {}  # where the row of an item begins and ends
        self.size = 0
        if path is None:
            self.file: IO[bytes] = tempfile.TemporaryFile()  # noqa: SIM115 (close does it)
        elif is_resumed and os.path.exists(path):
            self.file = self.resumed(path)
            return
        else:
            check_output(path, is_resumed)
            self.file = locked(open(path, "x+b"), path)  # noqa: SIM115 (close does it)
        self.write(line_of(list(job.columns)))

    def resumed(self, path: str) -> IO[bytes]:
        """A table with those rows that still hold; all others are to be made again."""
        with locked(open(path, "r+b"), path) as before:
            rows = rows_in(before.read())
            if next(rows, None) != list(self.job.columns):
                raise Fault(f"{path} is no table of such a run: its first row is another one")
            self.file = locked(open(self.beside(), "w+b"), path)  # noqa: SIM115 (close does it)
            self.write(line_of(list(self.job.columns)))
            items = {tuple(self.job.key(item).values()): item for item in range(len(self.job))}
            for row in rows:
                self.keep(row, items)
            os.replace(self.beside(), self.path or path)
        return self.file

    def keep(self, row: Row, items: dict[tuple[str, ...], int]) -> None:
        if not self.job.is_sound(row):
            return
        cells = dict(zip(self.job.columns, row, strict=True))
        item = items.get(tuple(cells[name] for name in self.job.key(0)))
        holds = item is not None and item not in self.places and cells["verdict"] not in ("", FAILED)
        if holds and item is not None and self.job.is_as_it_was(item, cells):
            self.places[item] = self.write(line_of(row))

    def beside(self) -> str:
        """Where a table is made that then takes the place of another."""
        return f"{self.path}.part"

    def write(self, data: bytes) -> tuple[int, int]:
        self.file.write(data)
        self.file.flush()
        begun, self.size = self.size, self.size + len(data)
        return begun, self.size

    def todo(self) -> list[int]:
        return [item for item in range(len(self.job)) if item not in self.places]

    def add(self, item: int, answer: Answer) -> Row:
        row = self.job.row(item, answer)
        self.places[item] = self.write(line_of(row))
        return row

    def line_at(self, begun: int, end: int) -> bytes:
        self.file.seek(begun)
        return self.file.read(end - begun)

    def lines(self) -> Iterator[bytes]:
        """The first row, and the others in the order of the items."""
        yield line_of(list(self.job.columns))
        for item in sorted(self.places):
            yield self.line_at(*self.places[item])

    def rows(self) -> Iterator[tuple[int, dict[str, str]]]:
        for item in sorted(self.places):
            row = next(rows_in(self.line_at(*self.places[item])))
            yield item, dict(zip(self.job.columns, row, strict=True))

    def end(self) -> None:
        """Puts the rows into the order of the items."""
        if self.path is None:
            sys.stdout.buffer.writelines(self.lines())
            sys.stdout.buffer.flush()
        elif list(self.places) != sorted(self.places):
            with open(self.beside(), "wb") as ordered:
                ordered.writelines(self.lines())
                ordered.flush()
                os.fsync(ordered.fileno())
            os.replace(self.beside(), self.path)

    def close(self) -> None:
        self.file.close()
