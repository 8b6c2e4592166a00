"""Repairs of a row in its fields."""

from dataclasses import dataclass, field

from .fields import NAME, UPPER, Marks, mended_field
from .forms import FIELDS, KINDS, NAMED_RESPOND, Form, is_name
from .log import Log
from .rows import Row, written


@dataclass
class Left:
    """What waits until all rows are read."""

    are_names_left: bool = False  # or told at once, since there is no table for them
    names: list[tuple[Row, int]] = field(default_factory=list)  # rows with the place of a field that is no name
    times: list[Row] = field(default_factory=list)
    lines: list[Row] = field(default_factory=list)  # confirmations that name their line's contract
    small: dict[tuple[Row, int], str] = field(default_factory=dict)  # names that were made upper case, as they were written


def eight_fields(row: Row, titles: Form, log: Log) -> list[str]:
    """The fields of a row without blanks around them, padded or trimmed to eight, or to as many as its form has."""
    fields = [field.strip() for field in row.fields]
    changed = [row.label(at) for at, (field, old) in enumerate(zip(fields, row.fields, strict=True), 1) if field != old]
    if changed:
        where = ", ".join(changed) if row.labels else "field " + ", ".join(label.removeprefix("field ") for label in changed)
        log.repair(row.place, "rows with blanks trimmed", f"blanks trimmed in {where}")
    first, size = len(titles) + 2, max(FIELDS, len(titles) + 1)
    for number, text in enumerate(fields[first - 1 :], first):
        if text:
            log.error(row.place, f"{row.label(number)} ({text!r}) has to be empty in a row of this kind")
    if len(fields) != size:
        word = "padded" if len(fields) < size else "trimmed"
        log.repair(row.place, f"rows {word} to {size} fields", f"{word} from {len(fields)} to {size} fields")
    return (fields + [""] * size)[:size]


def mend_behind_kind(row: Row, titles: Form, fields: list[str], marks: Marks, left: Left, log: Log) -> None:
    """Repairs the fields behind a row's kind, each by its title."""
    for number, title in enumerate(titles, 2):
        text, label = fields[number - 1], row.label(number)
        mended = mended_field(title, text, marks)
        if mended.is_left:
            row.is_local = True
            left.times.append(row)
        elif mended.field is None and left.are_names_left and is_name(title):
            left.names.append((row, number - 1))
        elif mended.field is None:
            log.error(row.place, f"{label} ({text!r}) {mended.why}")
        elif mended.field != text:
            doubt = f", doubtful: {mended.doubt}" if mended.doubt else ""
            log.repair(row.place, mended.why, f"{label}: {text} made {mended.field}{doubt}", bool(doubt),
                       once=mended.doubt if marks.agree else "")
            fields[number - 1] = mended.field
            if mended.why == UPPER:
                left.small[row, number - 1] = text


def mend(row: Row, marks: Marks, left: Left, log: Log) -> None:
    """Repairs a row that has fields."""
    titles = row.titles()
    fields = eight_fields(row, titles, log)
    if fields[0] != row.kind:
        log.repair(row.place, "kinds of rows made lower case", f"kind {fields[0]} made {row.kind}")
        fields[0] = row.kind
    if titles is NAMED_RESPOND:
        left.lines.append(row)
    if titles is NAMED_RESPOND or not KINDS[row.kind].clean.fullmatch(",".join(fields)):
        mend_behind_kind(row, titles, fields, marks, left, log)
    if tuple(fields) != row.fields or not row.text:
        row.fields, row.text = tuple(fields), written(fields)


def valid_names(rows: list[Row]) -> set[str]:
    """All names that stand in rows, but for what is no name."""
    found = set()
    for row in rows:
        cells = row.cells()
        form = row.titles() if row.fields else Row(row.source, row.line, row.kind, "", cells).titles()
        found |= {cell for title, cell in zip(form, cells[1:], strict=False) if is_name(title) and NAME.fullmatch(cell)}
    return found
