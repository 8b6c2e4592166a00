"""What a worker is asked before its first task: which program and which code it has, and whether it sees the folders."""

import hashlib
import inspect
import os
import shutil
import sys
from collections.abc import Sequence
from typing import NamedTuple

import certificate
from gasday_report import texts

from . import archives, base, gas_days, postings, program, solving
from .program import Died, called, sha256_of_program

SECONDS = 60  # that the program may take to tell its version
RUN_BY_WORKERS = (certificate, texts, program, archives, postings, gas_days, base, solving, sys.modules[__name__])
# The SHA-256 of all code that workers run, as this process has it loaded.
CODE = hashlib.sha256("".join(map(inspect.getsource, RUN_BY_WORKERS)).encode()).hexdigest()


class Found(NamedTuple):
    """What a worker has. A fault says why it has no program."""

    path: str = ""
    version: str = ""
    sha256: str = ""
    code: str = CODE
    sees: bool = True
    fault: str = ""
    missing: str = ""  # the first folder that it doesn't see


def found(name: str, seen: Sequence[str]) -> Found:
    """What is found where this runs: of the program with this name, and of each folder that is to be seen."""
    missing = next((folder for folder in seen if not os.access(folder, os.R_OK | os.X_OK)), "")
    sees = not seen or any(os.access(folder, os.R_OK | os.X_OK) for folder in seen)
    return found_program(name)._replace(sees=sees, missing=missing)


def found_program(name: str) -> Found:
    path = shutil.which(name)
    if path is None:
        return Found(fault=f"there is no program {name}")
    try:
        summed, told = sha256_of_program(path), called([path, "--version"], b"", SECONDS)
    except OSError as error:
        return Found(fault=f"{path} can't be read: {error.strerror}")
    except Died as death:
        return Found(fault=str(death))
    if told.status or not told.first().startswith("gasday"):
        return Found(fault=f"{path} is no gasday: it tells of no version")
    return Found(path, told.first(), summed)
