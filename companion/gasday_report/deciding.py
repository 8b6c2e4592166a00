"""What decides that a line gets no more: the class whose gas goes first, found exactly or known as a bound.

A dekatherm pays the prices of what it crosses and of the pool that it enters, and gets back the price of the pool that it leaves.
Prices are not unique, so the first class of that net amount is a bound: one dekatherm more displaces gas of that class or of a
higher one, which is a class with a smaller number, or no schedule allows it. Solving again finds which of these it is."""

from collections.abc import Iterable
from dataclasses import dataclass

from certificate import Crossing, Line, sums_of

from .solving import Outcome

HIGHER_CLASS, SHARED, NO_SCHEDULE = "higher class", "shared", "no schedule"


@dataclass(frozen=True)
class Cause:
    """One step down, from what was left before it to what is left after it."""

    kind: str
    before: int
    after: int


@dataclass(frozen=True)
class OwnShare:
    """What a line has of the gas of a class at an element or pool, and what the other lines of the class have."""

    element: str
    own: int
    others: int
    other_lines: int

    @property
    def percent(self) -> float:
        return 100 * self.own / (self.own + self.others)


@dataclass(frozen=True)
class Limits:
    """Why no schedule gives a line more. In a cut, its quantity is the capacity with the returning ceilings, less the floors."""

    elements: tuple[str, ...]  # what leads out of the cut's set; all of it is full
    capacity: int  # of these together
    returning_lines: int  # lines that come back into the set
    returning: int  # and their ceilings
    floor_lines: int  # other lines that leave the set
    floors: int  # and their floors


@dataclass(frozen=True)
class Decision(Cause):
    """What decides: the first cause of a line that is below its ceiling."""

    first_class: int  # the class that goes first: the line's own where it is shared, and 0 where no schedule gives more
    is_exact: bool  # whether it was found by solving again; else it is this class or a higher one, or no schedule
    through_pools: bool = False  # whether that gas passes none of what is full on the line's way
    takes_more: bool = False  # of what is shared: whether the class would lose more by the line's dekatherm than it gains
    share: OwnShare | None = None
    limits: Limits | None = None


def decision_in(causes: Iterable[Cause]) -> Decision | None:
    return next((cause for cause in causes if isinstance(cause, Decision)), None)


def limits_of(crossing: Crossing, number: int) -> Limits:
    """What leaves a line just its quantity, of the cut that passes it."""
    returning = [ceiling for _, ceiling in crossing.can_return if ceiling]
    floors = [floor for line, floor in crossing.must_leave if floor and line != number]
    elements = tuple(name for name, _ in crossing.can_flow)
    return Limits(elements, sums_of(crossing).flow, len(returning), sum(returning), len(floors), sum(floors))


def decision_of(line: Line, number: int, scheduled: int, bound: int, outcome: Outcome | None) -> Decision:
    """What decides of a line, by its outcome; where it was not solved again by the class that bounds it."""
    own, steps = line.class_number, (line.ceiling, scheduled)
    if outcome is None:
        return Decision(HIGHER_CLASS if bound < own else SHARED, *steps, bound, False)
    if outcome.crossing:
        return Decision(NO_SCHEDULE, *steps, 0, True, limits=limits_of(outcome.crossing, number))
    first = outcome.first_fall
    if 0 < first < own:
        return Decision(HIGHER_CLASS, *steps, first, True)
    return Decision(SHARED, *steps, own, True, takes_more=first == own)
