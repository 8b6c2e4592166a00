"""The independent check against the plain definitions: routes that are walked, all schedules of small questions, and all
sets. The questions are those of a fixed sequence."""

import itertools
import time
import unittest
from collections.abc import Callable, Iterator, Sequence
from typing import TypeVar

import helpers  # noqa: F401 (it makes certificate.py found)

from certificate import CLASSES, NOTHING, Question, Unreadable, Words, Wrong, check_best, check_schedule, crossing_of, sums_of

QUESTIONS = 60
Item = TypeVar("Item")
# A segment by its two places, and a line: origin, destination, class, floor, ceiling, and its route by numbers of segments.
Segment = tuple[int, int]
Asked = tuple[str, str, int, int, int, list[int]]


class Numbers:
    """Numbers that look random, the same ones each time (Knuth's MMIX generator)."""

    def __init__(self, seed: int) -> None:
        self.state = seed

    def below(self, count: int) -> int:
        self.state = (self.state * 6364136223846793005 + 1442695040888963407) % 2**64
        return (self.state >> 33) % count

    def pick(self, items: Sequence[Item]) -> Item:
        return items[self.below(len(items))]


def row(*fields: object) -> str:
    return ",".join(map(str, fields)) + "," * (8 - len(fields)) + "\n"


def pipeline(numbers: Numbers, places: int, capacity: Callable[[], int]) -> tuple[list[Segment], dict[str, int], list[str]]:
    """A tree of one-way segments, as pairs of places, with points and pools hung on it."""
    segments = []
    for k in range(1, places):
        other = numbers.below(k)
        segments.append((k, other) if numbers.below(2) else (other, k))
    ends = [(name, kind, numbers.below(places)) for name, kind in (
        ("R1", "receipt"), ("R2", "receipt"), ("D1", "delivery"), ("D2", "delivery"), ("P1", "pool"))]
    rows = [row("segment", f"S{k}", f"L{a}", f"L{b}", capacity()) for k, (a, b) in enumerate(segments, 1)]
    rows += [row("pool", name, f"L{place}", "OP") if kind == "pool" else
             row("point", name, kind, f"L{place}", "OP", capacity()) for name, kind, place in ends]
    return segments, {name: place for name, _, place in ends}, rows


def walk(segments: Sequence[Segment], start: int, end: int) -> list[int] | None:
    """The segments of the route by number, walked along their directions; None where there is none."""
    ways: list[tuple[int, list[int]]] = [(start, [])]
    for place, route in ways:
        if place == end:
            return route
        ways += [(b, [*route, k]) for k, (a, b) in enumerate(segments, 1) if a == place]
    return None


class Small:
    """A small question, with the plain definitions of what is asked of it."""

    def __init__(self, numbers: Numbers, places: int = 4, most_lines: int = 4) -> None:
        self.segments, self.place, rows = pipeline(numbers, places, lambda: numbers.below(4))
        self.lines: list[Asked] = []
        while len(self.lines) < most_lines:
            origin, destination = numbers.pick(("R1", "R2", "P1")), numbers.pick(("D1", "D2", "P1"))
            route = walk(self.segments, self.place[origin], self.place[destination])
            if route is not None and origin != destination:
                ceiling = numbers.below(4)
                self.lines.append((origin, destination, 1 + numbers.below(3), numbers.below(ceiling + 1), ceiling, route))
            elif numbers.below(8) == 0:
                break
        rows += [row("question", "SMALL", 3, 3)] + [row("line", *line[:5]) for line in self.lines]
        self.question = Question("".join(rows))
        self.names = list(self.question.elements)

    def crossing(self, line: Asked, name: str) -> int:
        origin, destination, _, _, _, route = line
        leaves = -1 if name == "P1" else 1
        return leaves * (name == origin) + (name == destination) + (name in [f"S{k}" for k in route])

    def load(self, schedule: Sequence[int], name: str) -> int:
        return sum(self.crossing(line, name) * quantity for line, quantity in zip(self.lines, schedule, strict=True))

    def is_allowed(self, schedule: Sequence[int]) -> bool:
        for name in self.names:
            load, capacity = self.load(schedule, name), self.question.elements[name].capacity
            if load != 0 if name == "P1" else load > capacity:
                return False
        return True

    def schedules(self) -> list[tuple[int, ...]]:
        ranges = [range(floor, ceiling + 1) for _, _, _, floor, ceiling, _ in self.lines]
        return [schedule for schedule in itertools.product(*ranges) if self.is_allowed(schedule)]

    def value(self, schedule: Sequence[int]) -> Words:
        """Class totals, and then for each class minus the sum of the tenths of its dekatherms."""
        value = [0] * (2 * CLASSES)
        for (_, _, rank, _, ceiling, _), quantity in zip(self.lines, schedule, strict=True):
            for dekatherm in range(1, quantity + 1):
                value[rank - 1] += 1
                value[CLASSES + rank - 1] -= next(j for j in range(1, 11) if ceiling * j >= 10 * dekatherm)
        return tuple(value)


def passes(question: Question, schedule: Sequence[int], prices: dict[str, Words]) -> bool:
    try:
        check_best(question, list(schedule), prices)
    except Wrong:
        return False
    return True


def likely_prices(small: Small) -> Iterator[dict[str, Words]]:
    """Prices that single dekatherms are worth, at one or two elements."""
    units: set[Words] = set()
    for _, _, rank, _, ceiling, _ in small.lines:
        for tenth in {next(j for j in range(1, 11) if ceiling * j >= 10 * d) for d in range(1, ceiling + 1)}:
            unit = list(NOTHING)
            unit[rank - 1], unit[CLASSES + rank - 1] = 1, -tenth
            units.add(tuple(unit))
    yield {}
    for first, second in itertools.combinations_with_replacement(small.names, 2):
        for one, other in itertools.product(sorted(units), repeat=2):
            yield {first: one, second: other}


class Walked(unittest.TestCase):
    def test_loads_costs_and_routes(self) -> None:
        """On larger trees: every pair of ends has a route exactly where one is walked."""
        numbers = Numbers(7)
        for _ in range(200):
            segments, place, rows = pipeline(numbers, 2 + numbers.below(12), lambda: 1000)
            head = "".join(rows) + row("question", "TREE", 3, 3)
            lines = []
            for origin, destination in itertools.product(("R1", "R2", "P1"), ("D1", "D2", "P1")):
                route = walk(segments, place[origin], place[destination])
                if origin != destination and route is not None:
                    lines.append((origin, destination, route))
                elif origin != destination:
                    with self.assertRaises(Unreadable):
                        Question(head + row("line", origin, destination, 1, 0, 9))
            question = Question(head + "".join(row("line", a, b, 1, 0, 9) for a, b, _ in lines))
            self.compare(question, lines, numbers)

    def compare(self, question: Question, lines: Sequence[tuple[str, str, list[int]]], numbers: Numbers) -> None:
        quantities = [numbers.below(10) for _ in lines]
        prices = {name: tuple(numbers.below(5) - 2 for _ in NOTHING) for name in question.elements}
        loads, costs = question.loads(quantities), question.costs(prices)
        want = dict.fromkeys(question.elements, 0)
        for (origin, destination, route), quantity, cost in zip(lines, quantities, costs, strict=True):
            crossed = [(f"S{k}", 1) for k in route] + [(destination, 1), (origin, -1 if origin == "P1" else 1)]
            for name, sign in crossed:
                want[name] += sign * quantity
            paid = [sum(sign * prices[name][at] for name, sign in crossed) for at in range(2 * CLASSES)]
            self.assertEqual(list(cost), paid)
        self.assertEqual(loads, want)


class Sound(unittest.TestCase):
    def test_only_best_schedules_pass(self) -> None:
        """Whatever schedule and prices are offered: what passes has no better schedule among all that are allowed."""
        numbers, passed = Numbers(11), 0
        for _ in range(QUESTIONS):
            small = Small(numbers, places=3, most_lines=3)
            schedules = small.schedules()
            best = max(map(small.value, schedules), default=None)
            for prices in itertools.islice(likely_prices(small), 150):
                for schedule in schedules[:40]:
                    if passes(small.question, schedule, prices):
                        self.assertEqual(small.value(schedule), best)
                        passed += 1
        self.assertGreater(passed, 0)

    def test_allowed_is_what_the_definition_says(self) -> None:
        numbers = Numbers(13)
        for _ in range(QUESTIONS):
            small = Small(numbers)
            allowed = set(small.schedules())
            for schedule in itertools.product(*(range(line[4] + 2) for line in small.lines)):
                try:
                    check_schedule(small.question, list(schedule))
                    told = True
                except Wrong:
                    told = False
                self.assertEqual(told, schedule in allowed)


class Exact(unittest.TestCase):
    def test_there_is_a_cut_exactly_where_there_is_no_schedule(self) -> None:
        """Hoffman's theorem, over all sets of places, points and pools."""
        numbers, without = Numbers(17), 0
        for _ in range(QUESTIONS):
            small = Small(numbers, places=3, most_lines=3)
            members = [("place", name) for name in small.question.places]
            members += [("pool" if name == "P1" else "point", name) for name in small.place]
            sets = itertools.chain.from_iterable(itertools.combinations(members, k) for k in range(len(members) + 1))
            has_cut = any(sums_of(crossing_of(small.question, set(chosen)))[3] > 0 for chosen in sets)
            self.assertEqual(has_cut, not small.schedules())
            without += has_cut
        self.assertTrue(0 < without < QUESTIONS)


class Large(unittest.TestCase):
    def test_a_chain_of_4095_segments_and_20000_lines(self) -> None:
        """Line k, of class 1, fills 10 of each segment from place k mod 2000 to the end; nothing else is asked. Segment s
        carries what starts up to it: 10 lines of 10 from each of its places, of 2,000."""
        rows = [row("segment", f"S{k}", f"L{k}", f"L{k + 1}", 10**6) for k in range(4095)]
        rows += [row("point", f"R{k}", "receipt", f"L{k}", "OP", 100) for k in range(2000)]
        rows += [row("point", "D", "delivery", "L4095", "OP", 200000), row("question", "CHAIN", 3, 3)]
        rows += [row("line", f"R{k % 2000}", "D", 1, 0, 10) for k in range(20000)]
        began = time.monotonic()
        question = Question("".join(rows))
        loads = check_schedule(question, [10] * 20000)
        check_best(question, [10] * 20000, {})
        self.assertLess(time.monotonic() - began, 30)
        self.assertEqual([loads[name] for name in ("S0", "S1", "S1999", "S4094", "R7", "D")],
                         [100, 200, 200000, 200000, 100, 200000])


if __name__ == "__main__":
    unittest.main()
