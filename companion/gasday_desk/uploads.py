"""A file of calls out of a spreadsheet: through the importer to rows, each of which is one call, answered by itself.

The importer runs in a process of its own with bounds on its time and memory. How many run at once is bounded in `bounds`.
"""

import csv
import os
import signal
import subprocess
import sys
import tempfile
from collections.abc import Callable, Iterable
from pathlib import Path

from .calls import FIELDS, Unclear, Wish, asked_of
from .desk import Desk
from .keeper import Asked, Keeper
from .permissions import Viewer
from .rows import Row
from .view import DayView

# How Python runs the importer in a process of its own.
RUN = ["-m", "gasday_desk.importing"]
COMPANION = Path(__file__).resolve().parents[1]
MOST_CALLS, MOST_LINES, LINE_BYTES = 20_000, 20_100, 4_000
SECONDS = 30.0
MOST_ERRORS = 12
KINDS = ("nominate", "respond")


def check_size(data: bytes) -> None:
    """Refuses at once what no spreadsheet of calls is."""
    lines = data.replace(b"\r\n", b"\n").replace(b"\r", b"\n").split(b"\n")
    if len(lines) > MOST_LINES:
        raise Unclear(f"the file has {len(lines):,} lines; {MOST_CALLS:,} rows are the most")
    long = next((at for at, line in enumerate(lines, 1) if len(line) > LINE_BYTES), 0)
    if long:
        raise Unclear(f"line {long} of the file is longer than {LINE_BYTES:,} bytes, which no call is")


def names_of(view: DayView) -> set[str]:
    """All names of the day that a call may have."""
    opening = view.opening
    return {*opening.elements, *opening.contracts, *(line.key.package for line in view.lines)}


def names_table(names: Iterable[str]) -> dict[str, str]:
    """What people write for names with '-', which is a blank; not where that may be two names."""
    table: dict[str, set[str]] = {}
    for name in names:
        if "-" in name.strip("-"):
            table.setdefault(" ".join(name.replace("-", " ").split()), set()).add(name)
    return {text: found.pop() for text, found in table.items() if len(found) == 1}


def check_new_names(path: Path, known: dict[str, str]) -> None:
    """Refuses a name that the importer made up, but for one that differs by blanks and small letters alone."""
    with path.open(encoding="utf-8", newline="") as file:
        rows = [row for row in csv.reader(file) if len(row) == 2][1:]
    for text, name in rows:
        if text not in known and "-".join(text.upper().split() if text.isascii() else ()) != name:
            raise Unclear(f"the file can't be taken: {text[:40]!r} is no name; a name has 1 to 16 of A to Z, 0 to 9 and '-'")


def imported(data: bytes, kind: str = "nominate", names: Iterable[str] = ()) -> list[Row]:
    """The rows of a file, as `gasday-import` reads it; what it can't read is reported in its words."""
    check_size(data)
    with tempfile.TemporaryDirectory() as folder:
        source, out, table = (Path(folder, name) for name in ("upload.csv", "rows.csv", "names.csv"))
        source.write_bytes(data)
        known = names_table(names)
        with table.open("w", encoding="utf-8", newline="") as file:
            csv.writer(file, lineterminator="\n").writerows([("written", "name"), *known.items()])
        run_importer([kind, str(source), str(table), str(out)])
        check_new_names(table, known)
        text = out.read_text(encoding="utf-8")
    return [tuple(line.split(",")) for line in text.split("\n") if line]


def run_importer(words: list[str]) -> None:
    """Runs the importer to its end, or to the end of its time."""
    command = [sys.executable, *RUN, *words]
    environment = {**os.environ, "PYTHONPATH": str(COMPANION), "PYTHONDONTWRITEBYTECODE": "1"}
    try:
        done = subprocess.run(command, capture_output=True, timeout=SECONDS, env=environment, start_new_session=True)
    except subprocess.TimeoutExpired:
        raise Unclear(f"the file was not read within {SECONDS:g} seconds; send fewer rows") from None
    if done.returncode in (-signal.SIGXCPU, -signal.SIGKILL):
        raise Unclear("reading the file takes too long; send fewer rows")
    if done.returncode != 0:
        raise Unclear("\n".join(["The file can't be taken, and nothing of it was sent:", *errors_in(done.stderr, words[1])]))


def errors_in(told: bytes, file: str) -> list[str]:
    """What the importer couldn't repair, line by line; else what it said last."""
    lines = told.decode("utf-8", "replace").splitlines()
    errors = [line.removeprefix(f"{file}:").replace(": error: ", ": ", 1) for line in lines if ": error: " in line]
    last = [line.replace(file, "the file")[:300] for line in lines[-2:]]
    shown = [f"line {line[:300]}" for line in errors[:MOST_ERRORS]] or last
    return shown + ([f"and {len(errors) - MOST_ERRORS:,} more"] if len(errors) > MOST_ERRORS else [])


def wish_of(row: Row, party: str) -> Wish:
    """The call that a row asks for. Its moment is the server's, and its party the user's own."""
    kind = row[0]
    if kind not in KINDS:
        raise Unclear(f"a row {kind[:20]!r} can't be uploaded; nominate and respond rows can")
    if len(row) != 8:
        raise Unclear("a field of the file has a comma or a quotation mark, which no call has")
    if row[2] not in ("", party):
        raise Unclear(f"a row of the party {row[2]} can't be uploaded by {party}")
    return Wish(kind, dict(zip(FIELDS[kind], row[3:], strict=False)))


def asked_of_upload(view: DayView, viewer: Viewer, data: bytes, token: str) -> list[Asked]:
    """The calls of a file; where one of them may not be made none is."""
    rows = imported(data, "respond" if viewer.may_call("respond") else "nominate", names_of(view))
    if not rows:
        raise Unclear("the file has no rows")
    if len(rows) > MOST_CALLS:
        raise Unclear(f"the file has {len(rows):,} rows, {MOST_CALLS:,} is the most")
    return [asked_of(wish_of(row, viewer.party), viewer, view, f"{token}.{at}") for at, row in enumerate(rows, 1)]


def answers_of_upload(desk: Desk, keeper: Keeper, viewer: Viewer, data: bytes, token: str, check: Callable[[], None]) -> None:
    """Makes the calls of a file, in its order. The check is made before each few of them, and ends them where it fails."""
    desk.guard.look()
    keeper.call_all(asked_of_upload(keeper.view, viewer, data, token), is_bulk=True, check=check)
