"""The report as tables for spreadsheets, with a row of names. docs/REPORT.md lists the columns."""

import csv
from collections.abc import Iterable, Iterator, Sequence
from typing import TextIO

from certificate import CLASSES

from .cause_words import words_of
from .causes import AnswerCause, ElementCause, PoolCause
from .day import Call, Day
from .day_text import reasons_of
from .deciding import Cause, Decision, decision_in
from .facts import ElementFact, Facts, LineFact
from .report import Report
from .rounds import RoundFacts, RoundLine

Cell = str | int | None

DECISION_COLUMNS = ("decided_by", "decided_class", "decided_exactly", "share_percent")
LINE_COLUMNS = ("line", "origin", "destination", "class", "floor", "ceiling", "scheduled", "short", "bumped",
                "reason_elements", "reason", "cut_way", "cut_quantity", "reason_kinds", *DECISION_COLUMNS)
ELEMENT_COLUMNS = ("element", "kind", "from", "to", "operator", "capacity", "load", "room", "full",
                   *(f"price_{c}" for c in range(1, CLASSES + 1)), *(f"spread_{c}" for c in range(1, CLASSES + 1)),
                   "inside", "cut_capacity", "usual_capacity")
CALL_COLUMNS = ("call", "moment", "local", "kind", "refused", "asked", "told")
ROUND_COLUMNS = ("cycle", "round", "outcome")
ROUND_LINE_COLUMNS = (*ROUND_COLUMNS, "line", "shipper", "contract", "package", "origin", "destination", "class", "nominated",
                      "origin_operator", "origin_confirmed", "destination_operator", "destination_confirmed", "confirmed",
                      "confirmed_by", "former", "waived", "floor", "scheduled", "bumped", "reason_kinds", "reason_elements",
                      "reason", "cut_way", "cut_quantity", "freed_by_waiver", *DECISION_COLUMNS)
SHARING_COLUMNS = ("element", "kind", "capacity", "usual_capacity", "load", "line", "class", "floor", "scheduled")


def blank(value: Cell) -> str | int:
    if isinstance(value, bool):
        return int(value)
    return "" if value is None else value


def element_in(cause: Cause) -> str:
    """The element or pool that a cause names, or the ends whose operators answered."""
    if isinstance(cause, ElementCause):
        return cause.sharing.element
    if isinstance(cause, PoolCause):
        return cause.pool
    return "+".join(answer.end for answer in cause.answers) if isinstance(cause, AnswerCause) else ""


def reason_cells(causes: Sequence[Cause]) -> tuple[str, str]:
    """The kinds of the causes, and their elements; what decides has columns of its own."""
    shown = [cause for cause in causes if not isinstance(cause, Decision)]
    return " ".join(cause.kind.replace(" ", "_") for cause in shown), " ".join(map(element_in, shown))


def decision_cells(causes: Iterable[Cause]) -> list[Cell]:
    decision = decision_in(causes)
    if decision is None:
        return [None] * len(DECISION_COLUMNS)
    percent = f"{decision.share.percent:.2f}" if decision.share else None
    return [decision.kind.replace(" ", "_"), decision.first_class or None, decision.is_exact, percent]


def line_row(line: LineFact, cycle: int) -> list[Cell]:
    kinds, elements = reason_cells(line.causes)
    words = "; ".join(words_of(line.causes, cycle, line.class_number))
    return [line.number, line.origin, line.destination, line.class_number, line.floor, line.ceiling, line.scheduled, line.short,
            line.bumped, elements, words, line.cut_way, line.cut_quantity, kinds, *decision_cells(line.causes)]


def element_row(element: ElementFact) -> list[Cell]:
    full = None if element.room is None else element.room == 0
    price: Sequence[Cell] = element.price or (None,) * (2 * CLASSES)
    return [element.name, element.kind, element.start, element.end, element.operator, element.capacity, element.load,
            element.room, full, *price, element.inside, element.cut_capacity, element.usual]


def call_row(call: Call) -> list[Cell]:
    return [call.number, call.seconds, call.moment, call.kind, call.refused, call.asked, call.told]


def round_line_row(line: RoundLine, made: RoundFacts) -> list[Cell]:
    at, cycle = line.line, made.round.cycle
    answers = [cell for answer in line.answers for cell in (answer.operator, answer.quantity)]
    words, (kinds, elements) = "; ".join(reasons_of(line, cycle)), reason_cells(line.causes)
    return [at.number, at.shipper, at.contract, at.package, at.origin, at.destination, line.class_number, line.nominated,
            *answers, line.confirmed, line.confirmed_by, line.former, line.waived, line.floor, line.scheduled, line.bumped,
            kinds, elements, words, line.cut_way, line.cut_quantity, line.freed, *decision_cells(line.causes)]


def rounds_of(day: Day | None) -> Iterator[tuple[list[Cell], RoundFacts]]:
    for cycle in day.cycles if day else ():
        for made in cycle.rounds:
            yield [made.round.cycle, made.round.number, made.round.outcome], made


def sharing_rows(facts: Facts | None) -> Iterator[list[Cell]]:
    for sharing in facts.sharings if facts else ():
        head: list[Cell] = [sharing.element, sharing.kind, sharing.capacity, sharing.usual, sharing.load]
        for share in sharing.lines:
            yield [*head, share.line, share.class_number, share.floor, share.scheduled]


def day_table(day: Day | None, table: str) -> tuple[Sequence[str], Iterable[list[Cell]]]:
    """A table of all rounds of a gas day."""
    rounds = rounds_of(day)
    if table == "cycle-lines":
        return ROUND_LINE_COLUMNS, ([*at, *round_line_row(line, made)] for at, made in rounds
                                    for line in made.lines)
    if table == "cycle-elements":
        return (*ROUND_COLUMNS, *ELEMENT_COLUMNS), ([*at, *element_row(element)] for at, made in rounds
                                                    for element in (made.facts.elements if made.facts else ()))
    return (*ROUND_COLUMNS, *SHARING_COLUMNS), ([*at, *row] for at, made in rounds for row in sharing_rows(made.facts))


def table_of(report: Report, table: str) -> tuple[Sequence[str], Iterable[list[Cell]]]:
    """The names of a table and its rows; none of what there is not."""
    facts = report.facts
    if table == "calls":
        return CALL_COLUMNS, map(call_row, report.day.calls if report.day else ())
    if table.startswith("cycle-"):
        return day_table(report.day, table)
    if table == "sharing":
        return SHARING_COLUMNS, sharing_rows(facts)
    if table == "elements":
        return ELEMENT_COLUMNS, map(element_row, facts.elements if facts else ())
    return LINE_COLUMNS, (line_row(line, facts.cycle) for line in facts.lines) if facts else ()


def print_csv(report: Report, table: str, out: TextIO) -> None:
    writer = csv.writer(out, lineterminator="\n")
    names, rows = table_of(report, table)
    writer.writerow(names)
    writer.writerows([blank(value) for value in row] for row in rows)
