"""The tables of the HTML page: columns, rows, and which rows are marked."""

from collections.abc import Callable, Iterable, Sequence
from dataclasses import dataclass
from typing import NotRequired, TypedDict

from .cause_words import arithmetic_words, words_of
from .day import Day
from .day_text import answer_part, by_words, reasons_of
from .facts import ElementFact, Facts, LineFact
from .reasons import Reason
from .rounds import RoundFacts, RoundLine
from .sharing import Sharing
from .words import grouped, price_in_words

MOST_DETAILS, MOST_SHARES = 12, 5_000
ARITHMETIC = "show the arithmetic"


@dataclass(frozen=True)
class Sentences:
    """A cell of sentences, some of which are shown only when the reader asks for them."""

    shown: tuple[str, ...] = ()
    hidden: tuple[str, ...] = ()
    summary: str = ARITHMETIC

    def __bool__(self) -> bool:
        return bool(self.shown or self.hidden)


Cell = str | int | None | Sentences


class Column(TypedDict):
    title: str
    number: bool  # whether it holds numbers, which stand at the right
    down: bool  # whether the greatest come first where it is sorted by
    name: bool  # whether it holds names, which are not broken
    words: bool  # whether it holds sentences, which want room


class Mark(TypedDict):
    """Rows that have something in a column, or exactly this, are marked, and can be filtered."""

    name: str
    column: int
    kind: str  # the class of the style sheet
    equals: NotRequired[int]


class Table(TypedDict):
    id: str
    columns: list[Column]
    rows: list[list[Cell]]
    marks: list[Mark]
    choice: int  # the column by whose values rows are chosen


def column(title: str, number: bool = False, down: bool = False, name: bool = False, words: bool = False) -> Column:
    return {"title": title, "number": number, "down": down, "name": name, "words": words}


def numbers(*titles: str) -> list[Column]:
    return [column(title, number=True, down=True) for title in titles]


def mark(name: str, at: int, kind: str) -> Mark:
    return {"name": name, "column": at, "kind": kind}


ENDS = [column("line", number=True), column("from", name=True), column("to", name=True), column("class", number=True)]


def line_cells(line: LineFact) -> list[Cell]:
    return [line.number, line.origin, line.destination, line.class_number, line.floor, line.ceiling]


def element_cells(element: ElementFact) -> list[Cell]:
    return [element.name, element.kind, element.start, element.end, element.operator, element.capacity]


def why_cell(words: Iterable[str], reason: Reason | None) -> Sentences:
    return Sentences(tuple(words), tuple(arithmetic_words(reason)) if reason else ())


def line_table(facts: Facts) -> Table:
    has_bumped = any(line.bumped is not None for line in facts.lines)
    columns = ENDS + numbers("floor", "confirmed", "scheduled", "short by") + numbers(*["bumped by"] * has_bumped)
    columns.append(column("why", words=True))
    marks = [mark("short", 7, "short")] + ([mark("bumped", 8, "bumped")] if has_bumped else [])
    rows: list[list[Cell]] = []
    for line in facts.lines:
        bumped: list[Cell] = [line.bumped] if has_bumped else []
        words = words_of(line.causes, facts.cycle, line.class_number)
        rows.append([*line_cells(line), line.scheduled, line.short, *bumped, why_cell(words, line.reason)])
    return {"id": "lines", "columns": columns, "rows": rows, "marks": marks, "choice": 3}


def element_table(facts: Facts, name: str = "elements") -> Table:
    columns = [column("element", name=True), column("kind"), column("at or from", name=True), column("to", name=True),
               column("operator", name=True), *numbers("capacity", "load", "room"), column("price")]
    rows: list[list[Cell]] = []
    for element in facts.elements:
        price = Sentences(hidden=(price_in_words(element.price),)) if element.price else None
        rows.append([*element_cells(element), element.load, element.room, price])
    full: Mark = {"name": "full", "column": 7, "kind": "full", "equals": 0}
    marks = [full, mark("priced", 8, "")]
    return {"id": name, "columns": columns, "rows": rows, "marks": marks, "choice": 1}


def cut_line_table(facts: Facts) -> Table:
    columns = ENDS + numbers("floor", "confirmed") + [column("crosses")] + numbers("counts")
    ways = {"out": "leaves the set", "in": "comes back"}
    rows: list[list[Cell]] = [[*line_cells(line), ways.get(line.cut_way, ""), line.cut_quantity] for line in facts.lines]
    return {"id": "lines", "columns": columns, "rows": rows, "marks": [mark("crossing", 6, "crosses")], "choice": 3}


def cut_element_table(facts: Facts, name: str = "elements") -> Table:
    columns = [column("element", name=True), column("kind"), column("at or from", name=True), column("to", name=True),
               column("operator", name=True), *numbers("capacity"), column("member"), *numbers("can flow out")]
    rows: list[list[Cell]] = [[*element_cells(element), "inside" if element.inside else "", element.cut_capacity]
                              for element in facts.elements]
    marks: list[Mark] = [mark("inside", 6, ""), {"name": "leading out", "column": 7, "kind": "crosses"}]
    return {"id": name, "columns": columns, "rows": rows, "marks": marks, "choice": 1}


# Names that go together share a column, so that all columns of a desk's window are seen.
ROUND_COLUMNS = [column("line", number=True), column("shipper"), column("contract, package"), column("from, to"),
                 column("class", number=True), *numbers("nominated", "confirmed"), column("confirmed by", words=True),
                 *numbers("floor")]


def by_cell(line: RoundLine, cycle: int) -> Sentences:
    """By whom a line was confirmed; what both ends answered is shown when the reader asks for it."""
    return Sentences((by_words(line, cycle),), tuple(map(answer_part, line.answers)), "show the answers")


def round_line_cells(line: RoundLine, cycle: int) -> list[Cell]:
    at = line.line
    return [at.number, at.shipper, f"{at.contract}, {at.package}", f"{at.origin} to {at.destination}", line.class_number,
            line.nominated, line.confirmed, by_cell(line, cycle), line.floor]


def round_line_table(made: RoundFacts, name: str) -> Table:
    """The lines of a round that was published, or is frozen."""
    columns = [*ROUND_COLUMNS, *numbers("scheduled", "less than nominated", "bumped by"), column("why", words=True)]
    rows, cycle = [], made.round.cycle
    for line in made.lines:
        less = None if line.scheduled is None else max(line.nominated - line.scheduled, 0)
        why = why_cell(reasons_of(line, cycle), line.reason)
        rows.append([*round_line_cells(line, cycle), line.scheduled, less, line.bumped, why])
    marks = [mark("with less than nominated", 10, "short"), mark("bumped", 11, "bumped")]
    return {"id": name, "columns": columns, "rows": rows, "marks": marks, "choice": 1}


def round_cut_table(made: RoundFacts, excess: int, name: str) -> Table:
    """The lines of a declared round: which count in the cut, and what a waiver of each would free."""
    columns = [*ROUND_COLUMNS, column("crosses"), *numbers("counts", "waiver frees"), column("and then"),
               column("why less than nominated", words=True)]
    ways = {"out": "leaves the set", "in": "comes back"}
    rows: list[list[Cell]] = []
    for line in made.lines:
        left = excess - line.freed if line.freed is not None else None
        means = "" if left is None else "this set is no cut" if left <= 0 else f"{grouped(left)} too many"
        why = why_cell(reasons_of(line, made.round.cycle), None)
        rows.append([*round_line_cells(line, made.round.cycle), ways.get(line.cut_way, ""), line.cut_quantity, line.freed,
                     means, why])
    return {"id": name, "columns": columns, "rows": rows, "marks": [mark("those that count", 10, "crosses")], "choice": 1}


def shown_sharings(facts: Facts) -> list[Sharing]:
    """Those that the page has room for: there may be hundreds of elements, each with thousands of lines."""
    shown: list[Sharing] = []
    for sharing in facts.sharings:
        if shown and sum(len(one.lines) for one in shown) + len(sharing.lines) > MOST_SHARES:
            break
        shown.append(sharing)
    return shown


def sharing_table(facts: Facts, name: str, columns: Sequence[Column], who: Callable[[int], Sequence[Cell]]) -> Table:
    """Who shares what is full, element by element and line by line, each line as these columns name it."""
    heads = [column("element", name=True), *numbers("capacity", "load"), column("class", number=True),
             column("line", number=True), *columns, *numbers("floor", "scheduled")]
    rows: list[list[Cell]] = [
        [sharing.element, sharing.capacity, sharing.load, share.class_number, share.line, *who(share.line), share.floor,
         share.scheduled] for sharing in shown_sharings(facts) for share in sharing.lines]
    return {"id": name, "columns": heads, "rows": rows, "marks": [], "choice": 0}


def answer_sharing(facts: Facts) -> Table:
    """Of a question by itself, whose lines have ends and no shippers."""
    def who(line: int) -> Sequence[Cell]:
        at = facts.lines[line - 1]
        return at.origin, at.destination
    return sharing_table(facts, "sharing", ENDS[1:3], who)


def round_sharing(made: RoundFacts, facts: Facts, name: str) -> Table:
    def who(line: int) -> Sequence[Cell]:
        at = made.lines[line - 1].line
        return at.shipper, at.contract
    return sharing_table(facts, name, [column("shipper", name=True), column("contract", name=True)], who)


def call_table(day: Day) -> Table:
    columns = [column("call", number=True), column("moment", name=True), column("kind", name=True), column("asked"),
               column("refused"), column("told"), column("in detail", words=True)]
    rows: list[list[Cell]] = []
    for call in day.calls:
        more = len(call.details) - MOST_DETAILS
        details = call.details[:MOST_DETAILS] + ([f"and {more:,} more"] if more > 0 else [])
        shown = Sentences(hidden=tuple(details), summary=f"{len(call.details):,} rows") if details else None
        rows.append([call.number, call.moment, call.kind, call.asked, "refused" if call.refused else "", call.told, shown])
    return {"id": "calls", "columns": columns, "rows": rows, "marks": [mark("refused", 4, "refused")], "choice": 2}
