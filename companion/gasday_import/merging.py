"""The calls of several files in the order of their moments."""

from collections.abc import Sequence

from .forms import EVENT
from .log import Log
from .moments import TIMED, moment_in
from .rows import Row


def keys_of(calls: Sequence[Row]) -> list[int]:
    """What each row of a file is ordered by, so that the rows of the file keep their order: the latest moment up to it. A row
    without a moment, as those of a schedule that the next row publishes, goes with the next one that has one."""
    keys: list[int] = []
    latest = 0
    for row in calls:
        moment = moment_in(row) if row.kind in TIMED else None
        if moment is not None:
            latest = max(latest, moment)
        keys.append(latest if moment is not None else -1)
    following = latest
    for at in range(len(keys) - 1, -1, -1):
        following = keys[at] = keys[at] if keys[at] >= 0 else following
    return keys


def merge_by_time(rows: list[Row], log: Log) -> list[Row]:
    """The rows with their calls merged by moment, and kept in order within a file; of calls at one moment those of the file
    that is read first come first."""
    first = next((at for at, row in enumerate(rows) if row.stage == EVENT), len(rows))
    session = next((row for row in rows if row.kind in ("session", "desk")), None)
    if session:
        log.error(session.place, "--by-time goes with the calls of one gas day: those of an office's sessions are not merged")
    if session or log.errors:
        return rows
    files: dict[str, list[Row]] = {}
    for row in rows[first:]:
        files.setdefault(row.source, []).append(row)
    keyed = [pair for calls in files.values() for pair in zip(keys_of(calls), calls, strict=True)]
    calls = [row for _, row in sorted(keyed, key=lambda pair: pair[0])]
    if calls != rows[first:]:
        names = ", ".join(files)
        log.note("gasday-import", f"the calls of {names} are merged by their moments, which is no repair")
    return rows[:first] + calls
