"""The tables of a gas day, each for whoever looks: the same rows as a page, as CSV and as JSON."""

import csv
import io
from collections import Counter
from collections.abc import Iterator, Mapping, Sequence
from dataclasses import dataclass, field
from typing import Any

from gasday_report.day import asked_words, told_words

from .answers import CutShown, Shown
from .faults import fault_words, is_fault
from .journal import Entry
from .keeper import Told
from .moments import shown, span
from .permissions import Viewer
from .rows import Row, sha256_of, words_of
from .tomorrow import carried_rows
from .view import CYCLES, ENDS, Call, DayView, Line, Times

Cell = str | int | None


@dataclass(frozen=True)
class Column:
    key: str
    title: str
    is_number: bool = False
    link: str = ""  # what a cell of it leads to: call or cycle

    @property
    def is_below(self) -> bool:
        """Whether a page shows it below the row, over its whole width: long words would be cut off at its end."""
        return self.key == "why"

    @property
    def style(self) -> str:
        """The class of its cells in the style sheet."""
        return "number" if self.is_number else "words" if self.key in ("asked", "told", "row") else "name"


@dataclass
class Table:
    name: str
    title: str
    columns: list[Column]
    rows: list[list[Cell]] = field(default_factory=list)
    note: str = ""
    marks: dict[int, str] = field(default_factory=dict)  # rows that stand out, with the class of the style sheet

    def as_csv(self) -> str:
        out = io.StringIO(newline="")
        writer = csv.writer(out, lineterminator="\n")
        writer.writerow([column.key for column in self.columns])
        writer.writerows(self.rows)
        return out.getvalue()

    @property
    def heads(self) -> list[Column]:
        """The columns that a page shows next to each other."""
        return [column for column in self.columns if not column.is_below]

    def cells(self, row: list[Cell], below: bool = False) -> list[tuple[Column, str]]:
        """The cells of a row as a page shows them: those next to each other, or the words below them."""
        shown = (f"{value:,}" if isinstance(value, int) and column.is_number else "" if value is None else str(value)
                 for column, value in zip(self.columns, row, strict=True))
        return [(column, text) for column, text in zip(self.columns, shown, strict=True) if column.is_below == below]

    def records(self) -> list[dict[str, Cell]]:
        return [dict(zip([column.key for column in self.columns], row, strict=True)) for row in self.rows]

    def as_json(self) -> dict[str, Any]:
        return {"table": self.name, "rows": self.records()}


def columns(*names: str) -> list[Column]:
    """Columns by `key title`, with # before those of numbers, and > where a cell leads to a call."""
    made = []
    for name in names:
        key, _, title = name.lstrip("#>").partition(" ")
        made.append(Column(key, title or key, name.startswith(("#", ">")), "call" if name.startswith(">") else ""))
    return made


LINE = ("#line", "contract", "package", "origin from", "destination to")


def line_cells(line: Line) -> list[Cell]:
    return [line.number, *line.key]


def own_lines(view: DayView, viewer: Viewer, page: str) -> Iterator[Line]:
    return (line for line in view.lines if viewer.sees_line(view, line, page))


# Of the day itself.

NEXT = (("received", "nominations are due"), ("confirmed", "confirmations are due"), ("schedules", "the schedule is due"),
        ("effective", "it takes effect"))


def cycle_state(view: DayView, cycle: int, times: Times, now: float) -> str:
    if view.published(cycle):
        return "published"
    if view.is_skipped(cycle):
        return "skipped"
    if cycle > view.cycle:
        return "open for nominations" if now <= times.received else "waits"
    if view.state != "confirming":
        return view.state
    return "open for nominations" if now <= times.received else "confirming"


def due(times: Times, now: float) -> str:
    """What comes next of a cycle, and in how many minutes."""
    for name, words in NEXT:
        moment = getattr(times, name)
        if now <= moment:
            return f"{words} in {span(moment - now)}"
    return ""


def cycle_table(view: DayView, now: float, zone: str) -> Table:
    table = Table("cycles", "The five cycles", columns(
        "#cycle", "name cycle", "state", "next", "leaves nominations leave", "received", "quick quick response", "confirmed",
        "schedules schedules out", "effective in effect"))
    for cycle, times in view.opening.times.items():
        state = cycle_state(view, cycle, times, now)
        is_over = state in ("published", "skipped")
        if cycle == view.cycle:
            table.marks[len(table.rows)] = "now"
        table.rows.append([cycle, CYCLES[cycle], state, "" if is_over else due(times, now), *(shown(at, zone) for at in times)])
    return table


# Of lines.

def line_table(view: DayView, viewer: Viewer) -> Table:
    table = Table("lines", "Lines", columns(*LINE, "shipper", "#nominated", "#from_cycle from cycle", "#later later nominated",
                                            "#later_cycle from cycle", "#scheduled scheduled last"))
    effect = view.in_effect()
    for line in own_lines(view, viewer, "lines"):
        now, later = line.nominated(min(view.cycle, len(CYCLES))), line.later(min(view.cycle, len(CYCLES)))
        scheduled = effect.scheduled[line.number - 1] if effect and line.number <= len(effect.scheduled) else None
        table.rows.append([*line_cells(line), view.opening.shipper_of(line.key.contract),
                           now.quantity if now else None, now.cycle if now else None,
                           later.quantity if later else None, later.cycle if later else None, scheduled])
    return table


def end_of(line: Line, end: str) -> str:
    return line.key.origin if end == "origin" else line.key.destination


def confirmation_table(view: DayView, viewer: Viewer) -> Table:
    """The ends of the lines of the current cycle, silent ones first."""
    table = Table("confirmations", "Confirmations", columns(
        *LINE, "end", "point", "operator", "#nominated", "#response", "state"))
    rows: list[tuple[bool, list[Cell]]] = []
    for line in own_lines(view, viewer, "confirmations"):
        nomination = line.nominated(view.cycle)
        for end in ENDS if nomination else ():
            point = end_of(line, end)
            if viewer.role == "operator" and not viewer.owns_end(view, point):
                continue
            response = view.responses.get((line.number, end))
            rows.append((response is not None, [*line_cells(line), end, point, view.opening.operator_of(point),
                                                nomination.quantity if nomination else None, response,
                                                "silent" if response is None else "confirmed"]))
    table.rows = [row for _, row in sorted(rows, key=lambda one: one[0])]
    table.marks = {at: "silent" for at, row in enumerate(table.rows) if row[-1] == "silent"}
    return table


def contract_table(view: DayView, viewer: Viewer) -> Table:
    table = Table("contracts", "Contracts", columns("contract", "shipper", "service", "#quantity", "origin primary from",
                                                    "destination primary to", "band rate band"))
    for one in view.opening.contracts.values():
        if viewer.sees_all("contracts") or viewer.owns_contract(view, one.name):
            table.rows.append([one.name, one.shipper, one.service, one.quantity, one.origin, one.destination, one.band])
    return table


def tomorrow_table(view: DayView, viewer: Viewer) -> Table:
    table = Table("tomorrow", "What the day after carries over", columns(
        "contract", "package", "origin from", "destination to", "#quantity", "row"))
    for key, quantity, row in carried_rows(view):
        number = view.at.get(key)
        if viewer.sees_all("tomorrow") or (number and viewer.sees_line(view, view.lines[number - 1], "tomorrow")):
            table.rows.append([*key, quantity, words_of(row)])
    return table


def capacity_table(view: DayView) -> Table:
    table = Table("capacities", "Capacities", columns("element", "kind", "start at or from", "end to", "operator", "#capacity",
                                                      "#posted posted today"))
    for one in view.opening.elements.values():
        if one.capacity is not None:
            table.rows.append([one.name, one.kind, one.start, one.end, one.operator, one.capacity, view.posted.get(one.name)])
    return table


# Of schedules.

def round_table(view: DayView) -> Table:
    table = Table("rounds", "Schedules by cycle and round", [
        Column("round", "round", True), Column("cycle", "cycle", True, "cycle"), Column("name", "cycle"),
        Column("outcome", "outcome"),
        Column("lines", "lines", True), Column("frozen_by", "frozen by call", True, "call"),
        Column("closed_by", "published or declared by call", True, "call"), Column("bumped", "bumped lines", True)])
    for one in view.rounds:
        outcome = "impossible, then skipped" if one.skipped else "impossible" if one.outcome == "declared" else one.outcome
        table.rows.append([one.number, one.cycle, CYCLES[one.cycle], outcome, len(one.bounds), one.frozen_by,
                           one.closed_by or None, len(one.bumped)])
    return table


def schedule_table(view: DayView, viewer: Viewer, cycle: int, answer: Shown | None) -> Table:
    """The lines of a published round, with the report's reasons where its checks passed."""
    table = Table("schedule", f"{CYCLES[cycle]}: what was scheduled", columns(
        *LINE, "#class", "#floor", "#ceiling asked and confirmed", "#scheduled", "#short", "#bumped", "why"))
    one = view.published(cycle)
    if one is None:
        return table
    for number, (bound, quantity) in enumerate(zip(one.bounds, one.scheduled, strict=True), 1):
        line = view.lines[number - 1]
        if not viewer.sees_line(view, line, "schedule"):
            continue
        why = answer.why(number, cycle) if answer else ""
        if number in one.bumped:
            table.marks[len(table.rows)] = "bumped"
        elif quantity < bound.ceiling:
            table.marks[len(table.rows)] = "short"
        table.rows.append([*line_cells(line), *bound, quantity, bound.ceiling - quantity, one.bumped.get(number), why])
    return table


def element_table(answer: Shown | None) -> Table:
    """What each element carries, as the report adds it up."""
    table = Table("elements", "Segments, points and pools", columns("element", "kind", "start at or from", "end to", "operator",
                                                                    "#capacity", "#load", "#room"))
    facts = answer.facts if answer else None
    for one in facts.elements if facts else ():
        if one.room == 0:
            table.marks[len(table.rows)] = "full"
        table.rows.append([one.name, one.kind, one.start, one.end, one.operator, one.capacity, one.load, one.room])
    return table


def waiver_table(view: DayView, viewer: Viewer, cut: CutShown) -> Table:
    table = Table("waivers", "Whose waiver frees how much", columns(
        *LINE, "shipper", "#floor", "#waived floor if waived", "#frees", "#left excess left by this set",
        "waived"))
    for freed in cut.freed:
        line = view.lines[freed.line - 1]
        if viewer.sees_line(view, line, "impossible"):
            table.rows.append([*line_cells(line), view.opening.shipper_of(line.key.contract), freed.floor, freed.waived,
                               freed.frees, max(0, cut.excess - freed.frees), "waived" if freed.line in view.waived else ""])
    return table


def public_table(view: DayView, answer: Shown | None, contracted: Mapping[str, int]) -> Table:
    """Constraints and unsubscribed room, and nothing of anybody's gas."""
    table = Table("public", "Constraints and unsubscribed room", columns(
        "element", "kind", "#capacity", "#unsubscribed", "#room room in the schedule", "constraint"))
    facts = answer.facts if answer else None
    rooms = {one.name: one.room for one in facts.elements} if facts else {}
    for one in view.opening.elements.values():
        capacity = view.capacity(one.name)
        if capacity is not None:
            room = rooms.get(one.name)
            if room == 0:
                table.marks[len(table.rows)] = "full"
            table.rows.append([one.name, one.kind, capacity, max(0, capacity - contracted.get(one.name, 0)), room,
                               "full" if room == 0 else ""])
    return table


# Of calls.

def call_words(call: Call) -> str:
    return asked_words(list(call.row))


def told_of(call: Call, viewer: Viewer) -> str:
    """What was told, in words; totals are of everybody's gas, and are told to those alone who see all."""
    rest = call.told[1:] if viewer.sees_all("calls") else ()
    head = told_words(list(call.told[0]), [list(row) for row in rest])
    return head.removesuffix(", nothing scheduled") if not rest else head


def hint_of(view: DayView, call: Call, zone: str) -> str:
    """What a refusal leaves open: how much a line may have, or when a freeze may come. The facts are the opening's and those of
    replies; the program alone decides what it takes."""
    if not call.is_refused:
        return ""
    why = call.told[0][3]
    if why == "OverContract" and call.left is not None:
        name, has = call.row[3], view.opening.contracts[call.row[3]].quantity
        return f"{name} has {has:,}; its other lines leave {max(0, call.left):,} for this one"
    if why == "TooEarly" and call.cycle in view.opening.times:
        return f"{CYCLES[call.cycle]} may be frozen from {shown(view.opening.times[call.cycle].confirmed, zone)} on"
    if why == "DayClosed":
        return f"The last nominations were due at {shown(view.opening.times[len(CYCLES)].received, zone)}"
    return ""


def told_with_hint(view: DayView, call: Call, viewer: Viewer, zone: str) -> str:
    return ". ".join(filter(None, (told_of(call, viewer), hint_of(view, call, zone))))


def call_table(view: DayView, viewer: Viewer, entries: Mapping[int, Entry], zone: str, most: int | None = None) -> Table:
    """All calls that are to be seen, or the last of them."""
    table = Table("calls", "Calls", columns(">call", "moment", "user", "role", "party", "kind", "asked", "told answer", "event",
                                            "cycle"))
    seen = [call for call in list(view.calls) if viewer.sees_call(view, call)]
    for call in seen[-most:] if most else seen:
        if call.is_refused:
            table.marks[len(table.rows)] = "refused"
        maker = entries[call.number].maker if call.number in entries else ("not by this desk", "", "")
        cycle = call.told[0][2] if call.told[0][0] in ("accepted", "frozen", "published", "declared") else ""
        table.rows.append([call.number, shown(call.moment, zone), *maker, call.kind, call_words(call),
                           told_with_hint(view, call, viewer, zone), call.event, cycle])
    return table


def asked_of_row(row: Row) -> str:
    """What a row asks for, in words; of a faulty one whose fields say nothing the row itself."""
    try:
        return asked_words(list(row))
    except (KeyError, IndexError):
        return words_of(row)


def answer_state(told: Told) -> str:
    if told.call is None:
        return "faulty" if told.told else "not stored"
    return "refused" if told.call.is_refused else "accepted"


def answer_words(view: DayView, viewer: Viewer, told: Told, zone: str) -> str:
    """What became of a call, in words."""
    if told.call:
        return told_with_hint(view, told.call, viewer, zone)
    asked = told.entry.rows[-1]
    faults = [fault_words(row, asked) for row in told.told if is_fault(row)]
    return "; ".join(faults) or "the file does not have it; send the form again"


def answer_table(view: DayView, viewer: Viewer, answers: Sequence[Told], zone: str) -> Table:
    """What became of the calls of a form with several, in their order."""
    table = Table("answers", "Answers", columns(">call", "state", "asked", "told answer"))
    for one in answers:
        state = answer_state(one)
        if state != "accepted":
            table.marks[len(table.rows)] = "refused"
        number = one.call.number if one.call else None
        table.rows.append([number, state, asked_of_row(one.entry.rows[-1]), answer_words(view, viewer, one, zone)])
    counts = Counter(str(row[1]) for row in table.rows)
    table.note = ", ".join(f"{count:,} {state}" for state, count in counts.items())
    return table


def sees_row(view: DayView, viewer: Viewer, row: Row) -> bool:
    """Whether a row of a reply may be shown: those of lines to whoever sees the line, totals to those who see all calls."""
    if viewer.sees_all("calls"):
        return True
    if row[0] in ("bound", "sched", "bumped"):
        line = view.line(int(row[1]))
        return line is not None and viewer.sees_line(view, line, "schedule")
    return row[0] != "total"


def receipt_of(view: DayView, viewer: Viewer, call: Call, entry: Entry | None, zone: str) -> dict[str, Any]:
    """What the reader may store of a call. The hashes are of the rows that are shown and of no others, each with its line feed:
    a hash of hidden rows would let the reader search for what is in them."""
    maker = entry.maker if entry else ("not by this desk", "", "")
    told = call.told[0]
    cycle = int(told[2]) if told[0] in ("accepted", "frozen", "published", "declared") else None
    asked = call.rows if viewer.sees_all("calls") else (call.row,)
    reply = [row for row in call.told if sees_row(view, viewer, row)]
    return {
        "book": view.opening.book, "call": call.number, "event": call.event, "kind": call.kind,
        "moment": call.moment, "time": shown(call.moment, zone), "user": maker[0], "role": maker[1],
        "party": maker[2], "cycle": cycle, "cycle_name": CYCLES.get(cycle or 0, ""), "line": call.line,
        "accepted": not call.is_refused,
        "asked": call_words(call), "told": told_of(call, viewer), "more": hint_of(view, call, zone), "row": words_of(call.row),
        "reply": [words_of(row) for row in reply], "is_whole": len(asked) == len(call.rows) and len(reply) == len(call.told),
        "sha256_of_rows": sha256_of(asked), "sha256_of_reply": sha256_of(reply),
    }
