"""Why a line is short: the elements whose prices its next dekatherm would have to pay, traced through pools to what is
full."""

from collections.abc import Iterator, Mapping
from typing import NamedTuple

from certificate import CLASSES, NOTHING, Answer, Line, Question, Words, plus, tenth_of, worth_of

from .words import displaced

# A route may have thousands of priced segments: so many of a rank are looked at from each end, and so many are named.
MOST_LOOKED_AT = 32
MOST_NAMED = 3


def rank_of(amount: Words) -> int:
    """Greater amounts have lesser ranks, by their first word that isn't 0: it decides before all words behind it."""
    at = next(k for k, word in enumerate(amount) if word)
    return at if amount[at] > 0 else 2 * len(amount) - at


def deciding_class(amount: Words) -> int:
    """The first class of an amount; beyond all classes where it has words of the spread alone."""
    return next((at for at, word in enumerate(amount[:CLASSES], 1) if word), CLASSES + 1)


class Payment(NamedTuple):
    """What a dekatherm of a line pays at one element."""

    element: str
    amount: Words


class Reason(NamedTuple):
    """What the next dekatherm of a line would have to pay, and what it is worth."""

    paid: list[Payment]  # at the elements where it would pay most, those first
    back: list[Payment]  # what it would get back
    more: int  # elements of the route with a price that are not named
    class_number: int
    tenth: int
    is_less: bool  # whether it is worth less than all that it would pay, and not just as much

    @property
    def words(self) -> list[str]:
        """What the next dekatherm would displace, element by element, and what it would let in."""
        return [*(f"at {element} {displaced(amount)}" for element, amount in self.paid),
                *(f"in return, at {element}, {displaced(amount)}" for element, amount in self.back)]

    @property
    def rest(self) -> str:
        """And how its worth compares."""
        worth = "is worth less than all that" if self.is_less else "is worth just that, so nothing would be gained"
        return f"its next dekatherm, of class {self.class_number} and tenth {self.tenth}, {worth}"


class Trace(NamedTuple):
    """What keeps more gas from leaving a pool, or from being brought into it."""

    pools: list[str]  # the pools that were passed, the first being the pool itself
    full: list[str]  # the full elements at which the ways end, by name
    open_lines: int  # lines of these pools, on that side, that are below their ceilings
    filled_lines: int  # and those that are at them


class Reasons:
    """Looks up reasons by line number (from 1) in the prices of a schedule that passed."""

    def __init__(self, question: Question, answer: Answer, loads: Mapping[str, int]) -> None:
        self.question, self.prices, self.loads = question, answer.prices, loads
        self.quantities, self.costs = answer.quantities, question.costs(answer.prices)
        self.ranks = [rank_of(price) if price != NOTHING else None for price in map(self.price, question.segment_at)]
        ranks = sorted({rank for rank in self.ranks if rank is not None})
        self.priced_above = {rank: self.find_priced(rank) for rank in ranks}
        self.priced_count = self.count_priced()
        self.lines_out, self.lines_in = self.lines_of_pools()
        self.traces: dict[tuple[str, bool], Trace] = {}

    def price(self, name: str) -> Words:
        return self.prices.get(name, NOTHING)

    def find_priced(self, rank: int) -> list[int | None]:
        """For each place the nearest one, itself or above it, whose segment upwards has a price of this rank; else None."""
        nearest: list[int | None] = [None]
        for place in range(1, len(self.question.parent)):
            nearest.append(place if self.ranks[place] == rank else nearest[self.question.parent[place]])
        return nearest

    def count_priced(self) -> list[int]:
        """Priced segments from the root, counted with the sign of their direction: along a route they differ by how many
        it passes."""
        counts = [0]
        for place in range(1, len(self.question.parent)):
            step = 1 if self.question.upward[place] else -1
            counts.append(counts[self.question.parent[place]] + (step if self.ranks[place] is not None else 0))
        return counts

    def lines_of_pools(self) -> tuple[dict[str, list[int]], dict[str, list[int]]]:
        out: dict[str, list[int]] = {}
        into: dict[str, list[int]] = {}
        for number, line in enumerate(self.question.lines, 1):
            for table, end in ((out, line.origin), (into, line.destination)):
                if self.question.elements[end].kind == "pool":
                    table.setdefault(end, []).append(number)
        return out, into

    def segments_of_rank(self, rank: int, start: int, end: int) -> list[str]:
        """The first segments of the route between two places whose price has a rank, from either end."""
        question, above = self.question, self.priced_above[rank]
        found: list[str] = []
        for foot, other in ((start, end), (end, start)):
            place = above[foot]
            for _ in range(MOST_LOOKED_AT):
                if place is None or question.has_below(place, other):
                    break
                found.append(question.segment_at[place])
                place = above[question.parent[place]]
        return found

    def route(self, number: int) -> Iterator[str]:
        """The segments that a line passes, from either end."""
        question, line = self.question, self.question.lines[number - 1]
        start, end = question.place_of(line.origin), question.place_of(line.destination)
        for place, other in ((start, end), (end, start)):
            while not question.has_below(place, other):
                yield question.segment_at[place]
                place = question.parent[place]

    def priced_segments(self, start: int, end: int, deciding: int) -> list[str]:
        """Segments of the route with the greatest prices, and those with prices below zero: no less than are named, if
        there are so many; and those whose prices begin with the class that decides."""
        found: list[str] = []
        above_zero = [rank for rank in self.priced_above if rank < len(NOTHING)]
        below_zero = [rank for rank in reversed(self.priced_above) if rank > len(NOTHING)]
        for ranks in (above_zero, below_zero):
            side: list[str] = []
            for rank in ranks:
                if len(side) < MOST_NAMED or rank == deciding - 1:
                    side += self.segments_of_rank(rank, start, end)
            found += side
        return found

    def bound(self, number: int) -> int:
        """The first class of what a dekatherm of a line pays, less what it gets back."""
        return deciding_class(self.costs[number - 1])

    def payments(self, number: int) -> tuple[list[Payment], list[Payment], int]:
        """The most that the line pays and gets back, in lists that the greatest begin; and how many elements of its route
        have a price."""
        line, question = self.question.lines[number - 1], self.question
        start, end = question.place_of(line.origin), question.place_of(line.destination)
        segments = self.priced_segments(start, end, self.bound(number))
        amounts = [Payment(name, self.price(name)) for name in (*segments, line.destination)]
        amounts.append(Payment(line.origin, plus(NOTHING, question.sign_at(line.origin), self.price(line.origin))))
        paid = sorted((p for p in amounts if p.amount > NOTHING), key=lambda payment: payment.amount, reverse=True)
        back = sorted((p for p in amounts if p.amount < NOTHING), key=lambda payment: payment.amount)
        count = self.priced_count[start] - self.priced_count[end]
        return paid, back, count + sum(self.price(name) != NOTHING for name in (line.origin, line.destination))

    def trace(self, pool: str, leaving: bool) -> Trace:
        """Follows the lines that could take more out of a pool (or bring more into it) to the full elements on their ways,
        through other pools with a price of the same sign."""
        if (pool, leaving) in self.traces:
            return self.traces[pool, leaving]
        pools, open_lines, filled_lines = [pool], 0, 0
        ends: dict[str, None] = {}
        table = self.lines_out if leaving else self.lines_in
        for at in pools:
            for number in table.get(at, ()):
                line = self.question.lines[number - 1]
                if self.quantities[number - 1] >= line.ceiling:
                    filled_lines += 1
                    continue
                open_lines += 1
                self.follow(line, number, pools, ends)
        trace = Trace(pools, list(ends), open_lines, filled_lines)
        self.traces[pool, leaving] = trace
        return trace

    def follow(self, line: Line, number: int, pools: list[str], ends: dict[str, None]) -> None:
        """Notes the full elements of a line's way, and the pool at its other end."""
        for payment in self.payments(number)[0]:
            if self.question.elements[payment.element].kind != "pool":
                ends[payment.element] = None
            elif payment.element in (line.origin, line.destination) and payment.element not in pools:
                pools.append(payment.element)

    def reason(self, number: int) -> Reason | None:
        """Why this line is below its ceiling; None where it isn't."""
        line, quantity = self.question.lines[number - 1], self.quantities[number - 1]
        if quantity >= line.ceiling:
            return None
        paid, back, count = self.payments(number)
        named = paid[:MOST_NAMED], back[:MOST_NAMED]
        is_less = worth_of(line, quantity + 1) < self.costs[number - 1]
        more = count - sum(map(len, named))
        return Reason(*named, more, line.class_number, tenth_of(line.ceiling, quantity + 1), is_less)
