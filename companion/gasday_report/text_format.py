"""The report as plain text."""

from collections.abc import Iterable, Iterator
from typing import TextIO

from certificate import Sums

from .cause_words import arithmetic_words, line_number, sharing_words, words_of
from .day import Day
from .day_text import cycle_rows, times_rows
from .facts import ElementFact, Facts, LineFact
from .report import Report
from .texts import Input
from .words import ARITHMETIC_NOTES, CUT_NOTE, CYCLES, REASON_NOTES, exact_words, grouped, listed, price_in_words

KINDS = {"segment": "segment", "receipt": "receipt point", "delivery": "delivery point", "pool": "pool"}
MOST_MEMBERS = 20


def verdict_rows(report: Report) -> list[str]:
    """The verdicts, and who gave them."""
    rows = [f"{'PASS' if verdict.passed else 'FAIL'}  {verdict.by}: {verdict.words}" for verdict in report.verdicts]
    return [*rows, report.checked_by()] if report.checked_by() else rows


def input_rows(inputs: Iterable[Input]) -> list[str]:
    return [f"{file.role:<8} {file.path}  SHA-256 {file.digest()}" for file in inputs]


def heading(facts: Facts) -> str:
    cycle = CYCLES.get(facts.cycle, "unknown")
    return f"Book {facts.book}, cycle {facts.cycle} ({cycle}), round {facts.round}"


def line_head(line: LineFact) -> str:
    return f"Line {line.number}: {line.origin} to {line.destination}, class {line.class_number}"


def line_rows(line: LineFact, cycle: int, arithmetic: bool) -> Iterator[str]:
    """A line of a question by itself: who nominated and confirmed it isn't known."""
    short = f", short by {grouped(line.short)}" if line.short else ""
    bumped = f", bumped by {grouped(line.bumped)}" if line.bumped else ""
    yield (f"{line_head(line)}: floor {grouped(line.floor)}, confirmed {grouped(line.ceiling)}, scheduled"
           f" {grouped(line.scheduled or 0)}{short}{bumped}")
    yield from (f"    why: {words}" for words in words_of(line.causes, cycle, line.class_number))
    if arithmetic and line.reason:
        yield from (f"    arithmetic: {words}" for words in arithmetic_words(line.reason))


def element_row(element: ElementFact, arithmetic: bool) -> str:
    if element.kind == "pool":
        words = f"{grouped(element.load or 0)} in and {grouped(element.load or 0)} out"
    else:
        words = f"{grouped(element.load or 0)} of {grouped(element.capacity or 0)}, room {grouped(element.room or 0)}"
        words += " (full)" if element.room == 0 else ""
    price = f"; price {price_in_words(element.price)}" if element.price and arithmetic else ""
    return f"{KINDS[element.kind]} {element.name}: {words}{price}"


def total_rows(facts: Facts) -> list[str]:
    return [f"class {number}: {grouped(given)} of {grouped(asked)}" for number, asked, given in facts.totals]


def schedule_rows(facts: Facts, arithmetic: bool) -> Iterator[str]:
    yield "Totals, scheduled of confirmed"
    yield from total_rows(facts)
    yield ""
    yield "Lines"
    for line in facts.lines:
        yield from line_rows(line, facts.cycle, arithmetic)
    if facts.short_lines:
        yield exact_words(facts.short_lines, facts.exact_reasons)
    yield ""
    if facts.sharings:
        yield "Who shares what is full"
        yield from (sharing_words(sharing, line_number) for sharing in facts.sharings)
        yield ""
    yield "Elements"
    yield from (element_row(element, arithmetic) for element in facts.elements)
    yield ""
    yield from REASON_NOTES + (ARITHMETIC_NOTES if arithmetic else ())


def set_in_words(facts: Facts) -> str:
    words = []
    for kind in ("place", "point", "pool"):
        names = [name for group, name in facts.members if group == kind]
        more = [f"{len(names) - MOST_MEMBERS:,} more"] if len(names) > MOST_MEMBERS else []
        if names:
            words.append(f"{kind if len(names) == 1 else kind + 's'} {listed(names[:MOST_MEMBERS] + more)}")
    return "; ".join(words)


def cut_rows(facts: Facts, sums: Sums) -> Iterator[str]:
    leave, back, flow, excess = map(grouped, sums)
    yield f"The set: {set_in_words(facts)}"
    yield ""
    yield f"What must leave it, by the floors of the lines that start inside and end outside: {leave}"
    yield from (f"  {line_head(line)}: {grouped(line.cut_quantity or 0)}" for line in facts.lines if line.cut_way == "out")
    yield f"What can come back, by the ceilings of the lines that start outside and end inside: {back}"
    yield from (f"  {line_head(line)}: {grouped(line.cut_quantity or 0)}" for line in facts.lines if line.cut_way == "in")
    yield f"What can flow out, by the capacities of the segments and points that lead out: {flow}"
    yield from (f"  {KINDS[e.kind]} {e.name}: {grouped(e.cut_capacity)}" for e in facts.elements if e.cut_capacity is not None)
    yield ""
    yield f"{leave} must leave, {back} can come back and {flow} can flow out, so {excess} too many must leave: the excess."
    yield CUT_NOTE


def call_rows(day: Day) -> Iterator[str]:
    yield ""
    yield "Calls"
    for call in day.calls:
        yield f"{call.number:>4}  {call.moment}  {'REFUSED  ' if call.refused else ''}{call.asked}: {call.told}"
        yield from (f"      {words}" for words in call.details)


def checks_of(report: Report) -> Iterator[str]:
    """What was checked, by whom, and of which files."""
    yield from verdict_rows(report)
    yield ""
    yield from input_rows(report.inputs)
    yield from report.notes


def text_of(report: Report, arithmetic: bool) -> Iterator[str]:
    """The whole report; after a FAIL only what was checked and told."""
    yield from checks_of(report)
    if facts := report.facts:
        yield ""
        yield heading(facts)
        yield from schedule_rows(facts, arithmetic) if facts.sums is None else cut_rows(facts, facts.sums)
    if report.day:
        yield ""
        yield from times_rows(report.day)
        yield from cycle_rows(report.day, arithmetic)
        yield from call_rows(report.day)
        yield ""
        yield from REASON_NOTES + (ARITHMETIC_NOTES if arithmetic else ())


def print_text(report: Report, out: TextIO, arithmetic: bool = False) -> None:
    out.writelines(row + "\n" for row in text_of(report, arithmetic))
