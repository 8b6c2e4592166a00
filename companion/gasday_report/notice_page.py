"""The public page of a cycle: what each segment and point carries and what is left, and what is full. It names no shipper."""

from html import escape

from .causes import sharings_in
from .day import Day
from .facts import ElementFact, Facts
from .html_parts import document, section, table_html
from .page_tables import Cell, Column, Table, column, numbers
from .report import Report
from .rounds import RoundFacts
from .text_format import set_in_words
from .words import CYCLES, grouped, listed


def limited_classes(made: RoundFacts) -> dict[str, set[int]]:
    """For each element that keeps a line from its confirmed quantity, the classes of such lines."""
    found: dict[str, set[int]] = {}
    for line in made.lines:
        for cause in line.causes:
            for sharing in sharings_in(cause):
                found.setdefault(sharing.element, set()).add(line.class_number)
    return found


def element_columns() -> list[Column]:
    return [column("element", name=True), column("kind"), column("at or from", name=True), column("to", name=True),
            *numbers("capacity", "usual capacity", "scheduled", "available"), column("limits")]


def limit_words(classes: set[int]) -> str:
    return f"class{'es' * (len(classes) > 1)} {listed(map(str, sorted(classes)))}" if classes else ""


def element_table(facts: Facts, limited: dict[str, set[int]]) -> Table:
    """Segments and points, what limits a class first."""
    def order(element: ElementFact) -> bool:
        return element.name not in limited
    elements = sorted((element for element in facts.elements if element.kind != "pool"), key=order)
    rows: list[list[Cell]] = [
        [element.name, element.kind, element.start, element.end, element.capacity, element.usual, element.load, element.room,
         limit_words(limited.get(element.name, set()))] for element in elements]
    return {"id": "constraints", "columns": element_columns(), "rows": rows, "choice": 1,
            "marks": [{"name": "limiting", "column": 8, "kind": "full"}]}


def cut_html(facts: Facts) -> str:
    assert facts.sums
    ways = [f"{element.name} ({grouped(element.cut_capacity)})" for element in facts.elements
            if element.cut_capacity is not None]
    return section("No schedule is possible", f"<p>{grouped(facts.sums.excess)} dekatherms more must leave the part of the"
                   f" pipeline that is named here than can: {escape(set_in_words(facts))}.</p>"
                   f"<p>Out of it lead: {escape(listed(ways) or 'nothing')}.</p>")


def constraints_page(report: Report, day: Day, made: RoundFacts, words: str) -> str:
    cycle, facts = made.round.cycle, made.facts
    title = f"{day.book}, gas day {day.date}, {CYCLES[cycle]}: {words}"
    under = (f"Round {made.round.number}. Quantities are dekatherms for one gas day. This page is not proved; the check of gasday"
             f" is. {report.published_by()}")
    if facts is None:
        body = section("Constraints", "<p>What is full can't be told of this round.</p>")
    elif facts.is_cut:
        body = cut_html(facts)
    else:
        body = section("Constraints", table_html(element_table(facts, limited_classes(made))))
    return document(title, under, body)
