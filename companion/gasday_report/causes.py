"""Why a line has less than was nominated, as data: the words are in cause_words.py."""

from collections.abc import Iterable, Iterator, Mapping, Sequence
from dataclasses import dataclass, replace
from itertools import islice

from certificate import Question

from .deciding import HIGHER_CLASS, SHARED, Cause, Decision, OwnShare, decision_of
from .reasons import MOST_LOOKED_AT, MOST_NAMED, Reasons, deciding_class
from .sharing import Sharing, Sharings
from .solving import Outcome

NOMINATION = "nomination"  # nothing reduces what was nominated
CONFIRMATION, SILENCE, ELAPSED, UNTOLD = "confirmation", "silence", "elapsed", "untold"
CAPACITY, POOL = "capacity", "pool"


@dataclass(frozen=True)
class EndAnswer:
    """What the operator of one end of a line answered in a cycle; no quantity where it was silent."""

    end: str  # origin or destination
    operator: str
    quantity: int | None


@dataclass(frozen=True)
class AnswerCause(Cause):
    """Less was confirmed than was nominated, or nothing was, by these answers."""

    answers: tuple[EndAnswer, ...]


@dataclass(frozen=True)
class ElementCause(Cause):
    """A segment or point is full; with the class that goes first, as the line's decision has it."""

    sharing: Sharing
    first_class: int


@dataclass(frozen=True)
class PoolCause(Cause):
    """No more can leave a pool, so no more can be brought into it; or the other way round."""

    pool: str
    load: int  # what enters it, and leaves it
    leaving: bool  # whether it is the way out of the pool that is full
    through: tuple[str, ...]  # pools that the ways lead through
    full: tuple[Sharing, ...]  # what is full at their ends, the first few
    more_full: int  # and how many more are
    open_lines: int  # lines on that side that are below their ceilings
    filled_lines: int  # and those that are at them


def sharings_in(cause: Cause) -> Iterator[Sharing]:
    """The full elements that a cause names."""
    if isinstance(cause, ElementCause):
        yield cause.sharing
    elif isinstance(cause, PoolCause):
        yield from cause.full


class Causes:
    """Finds, for lines that are below their ceilings, what decides and what is full on their ways."""

    def __init__(self, question: Question, reasons: Reasons, sharings: Sharings, outcomes: Mapping[int, Outcome]) -> None:
        self.question, self.reasons, self.sharings, self.outcomes = question, reasons, sharings, outcomes
        self.entering = dict.fromkeys(question.elements, 0)
        for line, quantity in zip(question.lines, reasons.quantities, strict=True):
            self.entering[line.destination] += quantity
        self.pool_sides: dict[tuple[str, bool], dict[int, tuple[int, int]]] = {}

    def of_line(self, number: int) -> Iterator[Cause]:
        """What keeps a line from more: what decides, and then where. Nothing where it is at its ceiling."""
        line, scheduled = self.question.lines[number - 1], self.reasons.quantities[number - 1]
        if scheduled >= line.ceiling:
            return
        bound = self.reasons.bound(number)
        decision = decision_of(line, number, scheduled, bound, self.outcomes.get(number))
        elements = self.deciding_elements(number, bound)
        if decision.limits:
            yield decision
            yield from self.of_limits(number, decision, decision.limits.elements[:MOST_NAMED], elements)
            return
        share, looked_at = self.first_share(number, elements, decision.first_class), 0
        if decision.is_exact and share is None:
            on_route = list(islice(self.full_on_route(number), MOST_LOOKED_AT))
            share, looked_at = self.first_share(number, on_route, decision.first_class), len(on_route)
            elements = [share.element] if share else elements
        yield replace(decision, share=share if decision.kind == SHARED else None,
                      through_pools=decision.is_exact and share is None and looked_at < MOST_LOOKED_AT)
        yield from (self.of_element(number, name, decision) for name in elements)

    def of_limits(self, number: int, decision: Decision, limiting: Sequence[str], priced: Sequence[str]) -> Iterator[Cause]:
        """Where no schedule gives more: the elements of the cut, and the pools that the prices name, or all that they name."""
        causes = [self.of_element(number, name, decision) for name in priced if self.is_pool(name) or not limiting]
        named = {sharing.element for cause in causes for sharing in sharings_in(cause)}
        yield from (self.of_element(number, name, decision) for name in limiting if name not in named)
        yield from causes

    def is_pool(self, name: str) -> bool:
        return self.question.elements[name].kind == "pool"

    def deciding_elements(self, number: int, bound: int) -> list[str]:
        """Where a line pays in the class that bounds it; an element whose price is of lower classes alone decides nothing,
        nor one whose price the line gets back."""
        paid = self.reasons.payments(number)[0]
        found = [payment for payment in paid if payment.amount[bound - 1] > 0]
        found = found or [payment for payment in paid if deciding_class(payment.amount) <= bound]
        return [payment.element for payment in found[:MOST_NAMED]]

    def of_element(self, number: int, name: str, decision: Decision) -> Cause:
        steps, line = (decision.before, decision.after), self.question.lines[number - 1]
        if not self.is_pool(name):
            kind = HIGHER_CLASS if decision.kind == HIGHER_CLASS else CAPACITY
            return ElementCause(kind, *steps, self.sharings.of(name), decision.first_class)
        leaving = name == line.destination
        trace = self.reasons.trace(name, leaving)
        full = tuple(self.sharings.of(at) for at in trace.full[:MOST_NAMED])
        return PoolCause(POOL, *steps, name, self.entering[name], leaving, tuple(trace.pools[1:]), full,
                         len(trace.full) - len(full), trace.open_lines, trace.filled_lines)

    def full_on_route(self, number: int) -> Iterator[str]:
        """What is full of all that a line passes."""
        line, loads = self.question.lines[number - 1], self.sharings.loads
        for name in (line.origin, *self.reasons.route(number), line.destination):
            if not self.is_pool(name) and loads[name] == self.question.elements[name].capacity:
                yield name

    def pool_classes(self, pool: str, entering: bool) -> dict[int, tuple[int, int]]:
        """Of each class how many lines bring gas into a pool, or take it out, and how much."""
        if (pool, entering) not in self.pool_sides:
            side = self.pool_sides[pool, entering] = {}
            for number in (self.reasons.lines_in if entering else self.reasons.lines_out).get(pool, ()):
                line = self.question.lines[number - 1]
                lines, scheduled = side.get(line.class_number, (0, 0))
                side[line.class_number] = lines + bool(line.ceiling), scheduled + self.reasons.quantities[number - 1]
        return self.pool_sides[pool, entering]

    def classes(self, name: str, entering: bool) -> dict[int, tuple[int, int]]:
        """The same of a segment, a point, or one side of a pool."""
        if self.is_pool(name):
            return self.pool_classes(name, entering)
        return {share.class_number: (share.lines, share.scheduled) for share in self.sharings.of(name).classes}

    def first_share(self, number: int, elements: Iterable[str], class_number: int) -> OwnShare | None:
        """What a line has of the gas of a class, at the first of these elements where other lines of the class have some."""
        line = self.question.lines[number - 1]
        is_own = line.class_number == class_number
        for name in elements:
            lines, scheduled = self.classes(name, name == line.destination).get(class_number, (0, 0))
            own = self.reasons.quantities[number - 1] if is_own else 0
            if scheduled > own:
                return OwnShare(name, own, scheduled - own, lines - is_own)
        return None
