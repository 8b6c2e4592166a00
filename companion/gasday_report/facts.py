"""What an answer that passed says of each line and each element; every format is made of these facts."""

from collections.abc import Iterable, Iterator, Mapping, Sequence
from typing import NamedTuple

from certificate import NOTHING, Answer, Crossing, Question, Sums, Words, crossing_of, sums_of

from .causes import Causes, sharings_in
from .deciding import Cause
from .program import Program
from .reasons import Reason, Reasons
from .sharing import Sharing, Sharings
from .solving import Outcome, outcomes_of
from .texts import Fault, Input, Row, number_of, of_kinds


class LineFact(NamedTuple):
    number: int
    origin: str
    destination: str
    class_number: int
    floor: int
    ceiling: int
    scheduled: int | None = None  # none where a cut shows that there is no schedule
    short: int | None = None
    bumped: int | None = None  # none where the answer tells of no bumped line
    reason: Reason | None = None  # where the line is short: the arithmetic
    causes: tuple[Cause, ...] = ()  # and what it says in words of the trade
    cut_way: str = ""  # of a cut: out, in or nothing
    cut_quantity: int | None = None


class ElementFact(NamedTuple):
    name: str
    kind: str
    start: str  # the place that a segment leaves, or the place of a point or pool
    end: str  # the place that a segment enters
    operator: str
    capacity: int | None  # none at a pool
    load: int | None  # of a pool what enters it
    room: int | None
    price: Words | None  # none where all its words are 0
    inside: bool | None  # of a cut: whether a point or pool is a member
    cut_capacity: int | None  # of a cut: what can flow out by it
    usual: int | None = None  # the capacity without a posted one; none at a pool


class Total(NamedTuple):
    """Of all lines of a class."""

    class_number: int
    asked: int  # their ceilings
    given: int  # what is scheduled


class Facts(NamedTuple):
    book: str
    cycle: int
    round: int
    lines: list[LineFact]
    elements: list[ElementFact]
    totals: list[Total]  # of each class with a line
    sums: Sums | None  # of a cut
    members: list[tuple[str, str]]  # of a cut: kind and name, in order of entry
    asked: Question
    sharings: tuple[Sharing, ...] = ()  # who shares the elements that a reason names
    short_lines: int = 0  # lines that are below their ceilings
    exact_reasons: int = 0  # and of how many the reason is exact, since the question was solved again

    @property
    def is_cut(self) -> bool:
        return self.sums is not None


def bumped_of(rows: Sequence[Row], count: int) -> dict[int, int]:
    """What the `bumped` rows say, by line."""
    bumped: dict[int, int] = {}
    for row in of_kinds(rows, ("bumped",)):
        line = number_of(row[1], "bumped")
        if not 1 <= line <= count or line in bumped:
            raise Fault(f"bumped: line {row[1]} is not one of {count} lines, or is given twice")
        bumped[line] = number_of(row[2], "bumped")
    return bumped


def usual_capacities(rows: Sequence[Row]) -> dict[str, int]:
    """The capacities that segments and points have where no other one is posted."""
    return {row[1]: number_of(row[4 if row[0] == "segment" else 5], "question") for row in of_kinds(rows, ("segment", "point"))}


def scheduled_lines(asked: Question, answer: Answer, sharings: Sharings, bumped: Mapping[int, int],
                    outcomes: Mapping[int, Outcome]) -> Iterator[LineFact]:
    reasons = Reasons(asked, answer, sharings.loads)
    causes = Causes(asked, reasons, sharings, outcomes)
    for number, (line, quantity) in enumerate(zip(asked.lines, answer.quantities, strict=True), 1):
        more = bumped.get(number, 0) if bumped else None
        yield LineFact(number, *line, scheduled=quantity, short=line.ceiling - quantity, bumped=more,
                       reason=reasons.reason(number), causes=tuple(causes.of_line(number)))


def cut_lines(asked: Question, crossing: Crossing) -> Iterator[LineFact]:
    ways = {number: ("out", quantity) for number, quantity in crossing.must_leave}
    ways.update((number, ("in", quantity)) for number, quantity in crossing.can_return)
    for number, line in enumerate(asked.lines, 1):
        way, quantity = ways.get(number, ("", None))
        yield LineFact(number, *line, cut_way=way, cut_quantity=quantity)


def named_sharings(lines: Iterable[LineFact]) -> tuple[Sharing, ...]:
    """The full elements that the reasons name, each once."""
    named = {sharing.element: sharing for line in lines for cause in line.causes for sharing in sharings_in(cause)}
    return tuple(named.values())


def entering(asked: Question, quantities: Sequence[int]) -> dict[str, int]:
    """What enters each pool."""
    sums: dict[str, int] = {}
    for line, quantity in zip(asked.lines, quantities, strict=True):
        sums[line.destination] = sums.get(line.destination, 0) + quantity
    return sums


def element_facts(asked: Question, rows: Sequence[Row], answer: Answer, loads: Mapping[str, int] | None,
                  crossing: Crossing | None) -> Iterator[ElementFact]:
    """Of a schedule with its loads, or of a cut with what crosses its set."""
    operators = {row[1]: row[4 if row[0] == "point" else 3] for row in of_kinds(rows, ("point", "pool"))}
    names = list(asked.places)
    into = {} if loads is None else entering(asked, answer.quantities)
    ways_out, usual = dict(crossing.can_flow) if crossing else {}, usual_capacities(rows)
    for name, kind, ends, capacity in asked.in_order():
        is_pool, is_segment = kind == "pool", kind == "segment"
        load = None if loads is None else into.get(name, 0) if is_pool else loads[name]
        price = answer.prices.get(name, NOTHING)
        is_member = ("pool" if is_pool else "point", name) in answer.members
        yield ElementFact(
            name=name, kind=kind, start=names[ends[0]], end=names[ends[1]] if is_segment else "",
            operator=operators.get(name, ""), capacity=None if is_pool else capacity, load=load,
            room=None if is_pool or load is None else capacity - load, price=price if price != NOTHING else None,
            inside=None if crossing is None or is_segment else is_member, cut_capacity=ways_out.get(name), usual=usual.get(name))


def totals_of(lines: Sequence[LineFact]) -> list[Total]:
    sums: dict[int, tuple[int, int]] = {}
    for line in lines:
        asked, given = sums.get(line.class_number, (0, 0))
        sums[line.class_number] = asked + line.ceiling, given + (line.scheduled or 0)
    return [Total(number, *sums[number]) for number in sorted(sums)]


def members_of(asked: Question, answer: Answer) -> list[tuple[str, str]]:
    """The members of a cut, places first, each kind in order of entry."""
    places = [("place", name) for name in asked.places]
    ends = [("pool" if e.kind == "pool" else "point", e.name) for e in asked.in_order() if e.kind != "segment"]
    return [member for member in places + ends if member in answer.members]


def facts_of(question: Input, answer_file: Input, asked: Question, answer: Answer, program: Program | None = None) -> Facts:
    """The facts of a question and an answer that passed. The program solves the question again for the lines that are
    short; where none is given, their reasons are bounds."""
    rows = question.rows()
    _, book, cycle, times = of_kinds(rows, ("question",))[0][:4]
    head = book, number_of(cycle, "question"), number_of(times, "question")
    bumped = bumped_of(answer_file.rows(), len(asked.lines))
    if answer.is_cut:
        crossing = crossing_of(asked, answer.members)
        lines = list(cut_lines(asked, crossing))
        return Facts(*head, lines, list(element_facts(asked, rows, answer, None, crossing)), totals_of(lines), sums_of(crossing),
                     members_of(asked, answer), asked)
    loads = asked.loads(answer.quantities)
    sharings = Sharings(asked, answer.quantities, loads, usual_capacities(rows))
    outcomes = outcomes_of(program, question, asked, answer) if program else {}
    lines = list(scheduled_lines(asked, answer, sharings, bumped, outcomes))
    return Facts(*head, lines, list(element_facts(asked, rows, answer, loads, None)), totals_of(lines), None, [], asked,
                 named_sharings(lines), sum(bool(line.short) for line in lines), len(outcomes))
