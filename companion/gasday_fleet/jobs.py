"""The jobs of `audit` and `days`: which items there are, and what a worker is asked of each."""

import os
from collections.abc import Iterable, Mapping, Sequence
from pathlib import Path

from .archives import audit_archives, audit_sent, log_of
from .gas_days import is_told, read_day, run_day_in, run_sent, sums_of, surplus_of
from .job import MADE, Call, Job, Words
from .postings import Unreadable
from .program import Answer, Program, failure, sha256_of_file


def seen_among(paths: Iterable[str]) -> tuple[str, ...]:
    """The folders of these paths, as far as they are here, which workers have to see as well."""
    there = (os.path.abspath(path) for path in paths if os.path.exists(path))
    return tuple(dict.fromkeys(path if os.path.isdir(path) else os.path.dirname(path) for path in there))


def answered(answer: Answer) -> list[Answer]:
    """An answer that was found here."""
    return [answer]


class Audit(Job):
    words = Words("archive", "sound", ("unsound",))
    columns = ("file", "postings", "verdict", "told", "seconds", "sha256", *MADE)

    def __init__(self, program: Program, files: Sequence[str], is_sent: bool) -> None:
        self.program, self.is_sent = program, is_sent
        self.files = list(dict.fromkeys(files))

    def __len__(self) -> int:
        return len(self.files)

    def key(self, item: int) -> Mapping[str, str]:
        return {"file": self.files[item]}

    def call(self, items: Sequence[int]) -> Call:
        paths = [os.path.abspath(self.files[item]) for item in items]
        if not self.is_sent:
            return Call(audit_archives, (self.program, paths))
        try:
            return Call(audit_sent, (self.program, Path(paths[0]).read_bytes(), log_of(paths[0])))
        except OSError as error:
            return Call(answered, (failure(f"it can't be read: {error.strerror}"),))

    def is_as_it_was(self, item: int, row: Mapping[str, str]) -> bool:
        path = self.files[item]
        try:
            return not log_of(path) and sha256_of_file(path) == row["sha256"]
        except OSError:
            return False


class Days(Job):
    """The gas days of folders, each with a text, what was told and its postings; and books that an archive has beside them."""

    words = Words("gas day", "same", ("differs",))
    columns = ("folder", "day", "verdict", "told", "postings", "seconds", "text_sha256", "told_sha256", "kept_sha256", *MADE)

    def __init__(self, program: Program, folders: Sequence[str], is_kept: bool, is_sent: bool) -> None:
        self.program, self.is_kept, self.is_sent = program, is_kept, is_sent
        self.folders = list(dict.fromkeys(folders))
        self.surplus = {(folder, book): answer for folder in self.folders if is_kept
                        for book, answer in surplus_of(folder).items()}
        self.days = [(folder, day) for folder in self.folders
                     for day in [*days_in(folder), *(book for its, book in self.surplus if its == folder)]]

    def __len__(self) -> int:
        return len(self.days)

    def key(self, item: int) -> Mapping[str, str]:
        folder, day = self.days[item]
        return {"folder": folder, "day": day.removesuffix(".csv")}

    def untold(self) -> list[str]:
        """The folders in which nothing stands of what their gas days were told, so that their postings alone are compared."""
        return [folder for folder in self.folders if self.is_kept and Path(folder, "texts").is_dir() and not is_told(folder)]

    def call(self, items: Sequence[int]) -> Call:
        folder, day = self.days[items[0]]
        if (folder, day) in self.surplus:
            return Call(answered, (self.surplus[folder, day],))
        if not self.is_sent:
            return Call(run_day_in, (self.program, os.path.abspath(folder), day, self.is_kept))
        try:
            return Call(run_sent, (self.program, read_day(folder, day, self.is_kept)))
        except Unreadable as error:
            return Call(answered, (failure(str(error)),))

    def is_as_it_was(self, item: int, row: Mapping[str, str]) -> bool:
        try:
            surplus = self.surplus.get(self.days[item])
            sums = surplus or sums_of(read_day(*self.days[item], self.is_kept))
        except Unreadable:
            return False
        return all(sums.get(name, "") == row[name] for name in self.columns if name.endswith("_sha256") and name not in MADE)


def days_in(folder: str) -> list[str]:
    """The names of a folder's gas days, each a text or what was told; one that isn't there where it has none."""
    names: set[str] = set()
    for kind in ("texts", "told"):
        path = Path(folder, kind)
        if path.is_dir():
            names |= {name for name in os.listdir(path) if name.endswith(".csv")}
    return sorted(names) or ["*.csv"]
