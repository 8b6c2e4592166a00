"""The program `gasday` as a worker runs it: which one it is, and what it tells."""

import hashlib
import os
import shutil
import subprocess
import tempfile
from collections.abc import Sequence
from dataclasses import dataclass
from functools import lru_cache
from typing import NamedTuple

# What a worker answers of an item, by the names of the table's columns.
Answer = dict[str, str]
FAILED = "failed"
# By this Dask has its workers give memory back in small pieces, which costs a short run more than it spares.
MEMORY_OF_WORKERS = "MALLOC_TRIM_THRESHOLD_"


class Died(Exception):
    """The program came to no answer. Another try may do better."""


class Told(NamedTuple):
    """What the program printed, and its exit status."""

    out: bytes
    status: int

    def rows(self) -> list[list[str]]:
        return [row.split(",") for row in self.out.decode("utf-8", "replace").splitlines()]

    def first(self) -> str:
        """Its first row, less the empty fields at the end."""
        return self.out.partition(b"\n")[0].decode("utf-8", "replace").rstrip(",")

    def is_a(self, kind: str, status: int) -> bool:
        return self.status == status and self.first().split(",")[0] == kind


def failure(why: str) -> Answer:
    return {"verdict": FAILED, "told": why}


def unread(why: str) -> Answer:
    """The answer of a worker that can't read a file, which another worker may see."""
    return {**failure(why), "unread": "yes"}


def sha256_of(data: bytes) -> str:
    return hashlib.sha256(data).hexdigest()


def sha256_of_file(path: str) -> str:
    with open(path, "rb") as file:
        return hashlib.file_digest(file, "sha256").hexdigest()


@lru_cache(maxsize=16)
def sha256_of_state(path: str, *_state: int) -> str:
    return sha256_of_file(path)


def sha256_of_program(path: str) -> str:
    """Worked out once for each state of the file."""
    at = os.stat(path)
    return sha256_of_state(path, at.st_mtime_ns, at.st_size, at.st_ino)


def called(words: Sequence[str], text: bytes, seconds: float) -> Told:
    """Runs a program in a session of its own, so that a Ctrl-C at a terminal ends the run in order and not each program."""
    what = " ".join(["gasday", *words[1:2]])
    environment = {name: value for name, value in os.environ.items() if name != MEMORY_OF_WORKERS}
    try:
        with tempfile.TemporaryFile() as file:  # which is read at once, where a pipe is filled bit by bit
            file.write(text)
            file.seek(0)
            done = subprocess.run(words, stdin=file, stdout=subprocess.PIPE, stderr=subprocess.DEVNULL, timeout=seconds,
                                  start_new_session=True, env=environment)
    except OSError as error:
        raise Died(f"{words[0]} can't be run: {error.strerror}") from None
    except subprocess.TimeoutExpired:
        raise Died(f"{what} was not ready after {seconds:g} seconds") from None
    if done.returncode < 0:
        raise Died(f"{what} was ended by signal {-done.returncode}")
    return Told(done.stdout, done.returncode)


@dataclass(frozen=True)
class Program:
    """The program that all workers have to run, and how many seconds each of its runs may take."""

    name: str  # a path, or a name on the PATH of whoever runs it
    version: str
    sha256: str
    seconds: float

    def call(self, words: Sequence[str], text: bytes = b"") -> Told:
        path = shutil.which(self.name)
        if path is None:
            raise Died(f"there is no program {self.name}")
        try:
            summed = sha256_of_program(path)
        except OSError as error:
            raise Died(f"{path} can't be read: {error.strerror}") from None
        if summed != self.sha256:
            raise Died(f"{path} is another program than the one that the run began with")
        return called([path, *words], text, self.seconds)


def no_answer(told: Told, words: str) -> Died:
    return Died(f"gasday {words} ended with status {told.status} and no answer that is known: {told.first()[:80]}")
