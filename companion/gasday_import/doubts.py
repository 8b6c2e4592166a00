"""What a text may have that nothing is wrong with, and that people have to look at: names that differ by case alone,
nominations that come twice, and calls that are not in the order of time."""

import functools
from collections.abc import Sequence

from .forms import KINDS, Form, is_name
from .log import Log
from .mending import Left
from .moments import TIMED, clock_of, moment_in
from .rows import Row

# What the names of each field belong to: names of different things may be alike.
THINGS = {"FROM": "place", "TO": "place", "PLACE": "place", "ORIGIN": "element", "DEST": "element", "ELEMENT": "element",
          "CONTRACT": "contract", "SHIPPER": "party", "OPERATOR": "party", "PARTY": "party", "PACKAGE": "package", "BOOK": "book"}
EARLIER = "moments earlier than the row before"

Key = tuple[str, str]


@functools.cache
def names_in(kind: str, form: Form) -> tuple[tuple[int, str], ...]:
    """The fields of a form that have names, by their numbers from 0, with what each is the name of."""
    own = "contract" if kind == "contract" else "element"
    return tuple((at, THINGS.get(title, own)) for at, title in enumerate(form, 1) if is_name(title))


def report_cases(rows: Sequence[Row], left: Left, table: set[str], log: Log) -> None:
    """Reports names that are written in several ways which differ by case alone, and so become one. A writing that the table
    of names has is one that somebody looked at."""
    writings = left.small
    writings.update({(row, at): " ".join(row.fields[at].split()) for row, at in left.names})
    wanted = {row.fields[at] for row, at in writings}
    found: dict[Key, dict[str, tuple[Row, int]]] = {}
    for row in rows if wanted else ():
        cells = row.cells()
        for at, thing in names_in(row.kind, row.titles() if row.fields else KINDS[row.kind].titles):
            if cells[at] not in wanted:
                continue
            written = writings.get((row, at), cells[at])
            forms = found.setdefault((thing, written.casefold()), {})
            if written not in forms and written not in table:
                forms[written] = row, at
                report_case(forms, written, log)


def report_case(forms: dict[str, tuple[Row, int]], written: str, log: Log) -> None:
    """Reports of a writing of a name that is not its first one."""
    first = next(iter(forms))
    if written != first:
        row, at = forms[written]
        words = f"{written} is taken for the same name as {first} at {forms[first][0].place}: they differ by case alone"
        log.repair(row.place, "names that differ by case alone made one", f"{row.label(at + 1)}: {words}", is_doubtful=True)


def report_twice(rows: Sequence[Row], log: Log) -> None:
    """Reports nominations that are the same as one before, in all fields. In an office those of a session are compared."""
    seen: dict[str, Row] = {}
    for row in rows:
        if row.kind in ("session", "desk"):
            seen = {}
        elif row.kind == "nominate" and row.text:
            first = seen.setdefault(row.text, row)
            if first is not row:
                log.repair(row.place, "nominations that come twice",
                           f"the nomination is the same as that at {first.place} in all fields; both are kept", is_doubtful=True)


def report_earlier(rows: Sequence[Row], log: Log) -> None:
    """Reports calls whose moment is earlier than that of the call before, the first of each file; in an office those of a
    session."""
    before: Row | None = None
    last = 0
    clock = clock_of(rows)
    for row in rows:
        if row.kind in ("session", "desk"):
            before = None
        elif row.kind in TIMED and (moment := moment_in(row)) is not None:
            if before and moment < last:
                way = "" if before.source == row.source else "; --by-time merges files by their moments"
                words = f"the call of {clock(moment)} follows that of {clock(last)} at {before.place}{way}"
                log.repair(row.place, EARLIER, words, is_doubtful=True, once=EARLIER)
            before, last = row, moment
