"""An archive as a worker audits it, by `gasday audit --all`, which looks at bumped lines too."""

import os
import shutil
import tempfile
import time
from collections.abc import Sequence

from .program import Answer, Program, Told, failure, no_answer, sha256_of_file, unread

# What stands beside an archive: its last changes, where they are not copied into it yet. With no more than its own head and
# that of a page it holds none.
LOG, EMPTY_LOG = "-wal", 32 + 24


def verdict_of(told: Told) -> Answer:
    """What the rows of all postings come to, of which the last one counts those that are sound."""
    if told.is_a("fault", 2):
        return failure(told.first())
    *postings, last = told.rows() or [[""]]
    unsound = [",".join(row).rstrip(",") for row in postings if row[0] == "unsound"]
    if last[0] == "audited" and told.status == 0 and not unsound:
        return {"verdict": "sound", "told": ",".join(last).rstrip(","), "postings": last[1]}
    if last[0] == "audited" and told.status == 1 and unsound:
        more = f" and {len(unsound) - 1} more" if len(unsound) > 1 else ""
        return {"verdict": "unsound", "told": unsound[0] + more}
    raise no_answer(told, "audit")


def copied(path: str, folder: str) -> str:
    """A copy of an archive with the log beside it, in a folder of one's own."""
    copy = os.path.join(folder, "archive.db")
    for end in ("", LOG):
        if not end or os.path.exists(path + end):
            shutil.copyfile(path + end, copy + end)
    return copy


def audit_archive(program: Program, path: str) -> Answer:
    """Audits a file that the worker sees."""
    try:
        before = sha256_of_file(path)
        begun = time.monotonic()
        told = program.call(["audit", "--all", path])
        seconds = time.monotonic() - begun
        if sha256_of_file(path) != before:
            return failure("it changed while it was audited")
    except OSError as error:
        return unread(f"it can't be read: {error.strerror}")
    return {**verdict_of(told), "seconds": f"{seconds:.3f}", "sha256": before}


def audit_sent(program: Program, data: bytes, log: bytes) -> list[Answer]:
    """Audits a file that was sent, with the log beside it."""
    with tempfile.TemporaryDirectory(prefix="gasday-fleet-") as folder:
        path = os.path.join(folder, "archive.db")
        for name, content in ((path, data), (path + LOG, log)):
            if content or name == path:
                with open(name, "wb") as file:
                    file.write(content)
        return [audit_archive(program, path)]


def audit_archives(program: Program, paths: Sequence[str]) -> list[Answer]:
    return [audit_archive(program, path) for path in paths]


def log_of(path: str) -> bytes:
    """The log beside an archive; nothing where it holds no changes."""
    try:
        with open(path + LOG, "rb") as file:
            log = file.read()
    except FileNotFoundError:
        return b""
    return log if len(log) > EMPTY_LOG else b""
