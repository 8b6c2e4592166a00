"""The question that a study begins with, and the text of each scenario, which is its rows with some changed.

No rule of the tariff is here: capacities, floors and ceilings are written into rows, and `gasday` says what comes of them.
"""

from collections import Counter
from collections.abc import Mapping, Sequence
from dataclasses import dataclass

from certificate import Question
from gasday_report.texts import Fault, of_kinds, rows_in, written

# The kinds of rows that stand before a question's lines.
HEAD = ("segment", "point", "pool", "question", "capacity")


@dataclass(frozen=True)
class Scenario:
    """What a scenario changes, each number as it was written. An empty floor or ceiling is left as it is."""

    name: str
    labels: tuple[str, ...]
    capacities: tuple[tuple[str, str], ...]  # an element and its capacity
    bounds: tuple[tuple[int, str, str], ...]  # the number of a line, its floor and its ceiling


class Base:
    """The rows of a question: all before its lines, and the lines."""

    def __init__(self, data: bytes, name: str) -> None:
        rows = rows_in(data, name)
        for at, row in enumerate(rows, 1):
            if row[0] not in (*HEAD, "line"):
                raise Fault(f"{name}: row {at} is no row of a question, but begins with '{row[0]}'")
        self.head, self.lines = of_kinds(rows, HEAD), of_kinds(rows, ("line",))
        if rows != self.head + self.lines:
            raise Fault(f"{name}: lines stand before other rows")
        self.before = written(self.head)
        self.written_lines = [written([line]) for line in self.lines]

    def kinds(self) -> dict[str, str]:
        """Of each segment, point and pool its kind."""
        return {row[1]: row[0] for row in of_kinds(self.head, ("segment", "point", "pool"))}

    def text_of(self, scenario: Scenario | None = None) -> bytes:
        """The question's text. A later `capacity` row of an element counts, so a scenario's stand behind all others."""
        if scenario is None:
            return self.before + b"".join(self.written_lines)
        capacities = written(["capacity", *change, *[""] * 5] for change in scenario.capacities)
        lines = list(self.written_lines)
        for number, floor, ceiling in scenario.bounds:
            row = self.lines[number - 1]
            lines[number - 1] = written([[*row[:4], floor or row[4], ceiling or row[5], *row[6:]]])
        return self.before + capacities + b"".join(lines)


@dataclass(frozen=True)
class Solved:
    """A base with its answer, which has passed its check: what scenarios are compared with."""

    base: Base
    asked: Question
    quantities: tuple[int, ...]
    totals: tuple[int, ...]  # of class 1 on, as far as the check tells them
    binding: frozenset[str]  # the elements whose price is above zero

    def capacities(self, scenario: Scenario) -> Mapping[str, int]:
        """The capacity of each segment and point in a scenario."""
        given = {name: element.capacity for name, element in self.asked.elements.items() if element.kind != "pool"}
        return {**given, **{name: int(capacity) for name, capacity in scenario.capacities}}

    def ceilings(self, scenario: Scenario) -> dict[int, int]:
        """The ceilings that a scenario changes, by the number of the line."""
        return {number: int(ceiling) for number, _, ceiling in scenario.bounds if ceiling}

    def asked_by_class(self, scenario: Scenario) -> Mapping[int, int]:
        """What was asked and confirmed of each class in a scenario: the ceilings of its lines."""
        changed = self.ceilings(scenario)
        asked: Counter[int] = Counter()
        for number, line in enumerate(self.asked.lines, 1):
            asked[line.class_number] += changed.get(number, line.ceiling)
        return asked


def solved(data: bytes, name: str, quantities: Sequence[int], totals: Sequence[int], binding: Sequence[str]) -> Solved:
    base = Base(data, name)
    return Solved(base, Question(base.text_of().decode()), tuple(quantities), tuple(totals), frozenset(binding))
