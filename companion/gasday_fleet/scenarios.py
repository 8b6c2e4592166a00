"""Reading SCENARIOS: a table with a row of names, and a row for each scenario. All that is wrong is told before anything runs."""

import csv
import io
from collections.abc import Collection, Iterator, Sequence
from dataclasses import dataclass, field

from gasday_report.texts import Fault

from .base import Base, Scenario

CAPACITY, BOUNDS = ("element", "capacity"), ("line", "floor", "ceiling")
MOST_TOLD = 20


@dataclass
class Columns:
    """Where the columns stand; a table may have several changes side by side, so that a scenario makes several."""

    scenario: int = -1
    capacities: list[int] = field(default_factory=list)
    bounds: list[int] = field(default_factory=list)
    labels: dict[str, int] = field(default_factory=dict)


@dataclass
class Scenarios:
    labels: tuple[str, ...]
    scenarios: list[Scenario]


class Wrong(Exception):
    """What is wrong with a row."""


def columns_of(names: Sequence[str], taken: Collection[str]) -> Columns:
    columns, at = Columns(), 0
    while at < len(names):
        name = names[at]
        if tuple(names[at:at + 2]) == CAPACITY:
            columns.capacities.append(at)
        elif tuple(names[at:at + 3]) == BOUNDS:
            columns.bounds.append(at)
        elif name == "scenario" and columns.scenario < 0:
            columns.scenario = at
        elif name in (*CAPACITY, *BOUNDS):
            raise Wrong(f"column {at + 1} is '{name}', which stands in 'element,capacity' or in 'line,floor,ceiling' alone")
        elif not name or name in taken or name in columns.labels:
            raise Wrong(f"column {at + 1} is '{name}', which is no name for a label, or is taken")
        else:
            columns.labels[name] = at
        at += 2 if at in columns.capacities else 3 if at in columns.bounds else 1
    if columns.scenario < 0 or not (columns.capacities or columns.bounds):
        raise Wrong("the first row has to name the columns 'scenario', and 'element,capacity' or 'line,floor,ceiling'")
    return columns


def number(word: str, what: str) -> str:
    if not (word.isascii() and word.isdigit() and len(word) <= 18):
        raise Wrong(f"the {what} '{word}' is no number")
    return word


class Reader:
    """Reads rows by the elements and lines of the base."""

    def __init__(self, base: Base, columns: Columns) -> None:
        self.kinds, self.lines, self.columns = base.kinds(), len(base.lines), columns
        self.seen: dict[str, int] = {}

    def capacity(self, element: str, capacity: str) -> tuple[str, str]:
        if element not in self.kinds:
            raise Wrong(f"the question has no element '{element}'")
        if self.kinds[element] == "pool":
            raise Wrong(f"'{element}' is a pool, which has no capacity")
        return element, number(capacity, "capacity")

    def bound(self, line: str, floor: str, ceiling: str) -> tuple[int, str, str]:
        at = int(number(line, "line"))
        if not 1 <= at <= self.lines:
            raise Wrong(f"the question has no line {line}, but lines 1 to {self.lines}")
        if not floor and not ceiling:
            raise Wrong(f"line {line} has neither a floor nor a ceiling")
        return at, floor and number(floor, "floor"), ceiling and number(ceiling, "ceiling")

    def changes(self, row: Sequence[str], starts: Sequence[int], width: int) -> Iterator[Sequence[str]]:
        """The changes of one form that a row has; one that is left empty is none."""
        for start in starts:
            if any(row[start:start + width]):
                yield row[start:start + width]

    def scenario(self, row: Sequence[str], at: int, width: int) -> Scenario:
        if len(row) != width:
            raise Wrong(f"it has {len(row)} fields, where the first row has {width}")
        name = row[self.columns.scenario]
        if not name:
            raise Wrong("it names no scenario")
        if name in self.seen:
            raise Wrong(f"scenario '{name}' stands in line {self.seen[name]} already")
        self.seen[name] = at
        capacities = [self.capacity(*change) for change in self.changes(row, self.columns.capacities, 2)]
        bounds = [self.bound(*change) for change in self.changes(row, self.columns.bounds, 3)]
        if not capacities and not bounds:
            raise Wrong(f"scenario '{name}' names no element and no line")
        changed = [change[0] for change in (*capacities, *bounds)]
        if len(set(changed)) < len(changed):
            raise Wrong(f"scenario '{name}' changes an element or a line twice")
        return Scenario(name, tuple(row[k] for k in self.columns.labels.values()), tuple(capacities), tuple(bounds))


def rows_in(data: bytes, name: str) -> Iterator[tuple[int, list[str]]]:
    """The rows of a table that aren't empty, each with the line of the file in which it begins."""
    try:
        rows, before = csv.reader(io.StringIO(data.decode("utf-8-sig"), newline=""), strict=True), 0
        for row in rows:
            at, before = before + 1, rows.line_num
            if any(row):
                yield at, [cell.strip() for cell in row]
    except (UnicodeDecodeError, csv.Error) as error:
        raise Fault(f"{name}: no table of comma-separated fields: {error}") from None


def read_scenarios(data: bytes, name: str, base: Base, taken: Collection[str]) -> Scenarios:
    """The scenarios of a table. A label can't have a name that is taken."""
    rows = rows_in(data, name)
    at, names = next(rows, (1, []))
    try:
        reader = Reader(base, columns_of(names, taken))
    except Wrong as wrong:
        raise Fault(f"{name}:{at}: {wrong}") from None
    found, told = [], []
    for at, row in rows:
        try:
            found.append(reader.scenario(row, at, len(names)))
        except Wrong as wrong:
            told.append(f"{name}:{at}: {wrong}")
    if told:
        more = [f"and {len(told) - MOST_TOLD} more"] if len(told) > MOST_TOLD else []
        raise Fault("\n".join([*told[:MOST_TOLD], *more]))
    if not found:
        raise Fault(f"{name}: it has no scenario")
    return Scenarios(tuple(reader.columns.labels), found)
