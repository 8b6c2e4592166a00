"""The program that checks: where it is, which one it is, and what it tells."""

import hashlib
import os
import shutil
import subprocess
from collections.abc import Sequence
from dataclasses import dataclass
from pathlib import Path

from .texts import Fault

BUILT = Path(__file__).resolve().parents[2] / "crates" / "gasday" / "out" / "gasday"
SECONDS = 600


def program_at(path: str | None) -> str:
    """The program to run: the one that is named, else the built one, else the one on the PATH."""
    found = shutil.which(path or (str(BUILT) if os.access(BUILT, os.X_OK) else "gasday"))
    if not found:
        raise Fault(f"there is no program {path or 'gasday'}; --gasday names one")
    return found


def call(program: str, words: Sequence[str], text: bytes, seconds: int = SECONDS) -> tuple[bytes, int]:
    """What the program prints, and its exit status."""
    try:
        done = subprocess.run([program, *words], input=text, capture_output=True, timeout=seconds)
    except OSError as error:
        raise Fault(f"{program} can't be run: {error.strerror}") from None
    except subprocess.TimeoutExpired:
        raise Fault(f"{program} was not ready after {seconds} seconds") from None
    return done.stdout, done.returncode


@dataclass(frozen=True)
class Program:
    """A program as the report names it, so that a reader can find the same one."""

    path: str
    version: str  # what `--version` prints in its first line
    sha256: str

    def call(self, words: Sequence[str], text: bytes = b"") -> tuple[bytes, int]:
        return call(self.path, words, text)


def program_of(path: str | None) -> Program:
    try:
        found = os.path.realpath(program_at(path))
    except Fault as fault:
        raise Fault(f"{fault}; --certificate-alone checks an answer without one") from None
    try:
        with open(found, "rb") as file:
            digest = hashlib.file_digest(file, "sha256").hexdigest()
    except OSError as error:
        raise Fault(f"{found} can't be read: {error.strerror}") from None
    out, status = call(found, ["--version"], b"")
    first = out.decode("utf-8", "replace").partition("\n")[0].strip()
    return Program(found, first if status == 0 and first else "of no known version", digest)
