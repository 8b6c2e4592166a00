"""What a whole study says of its classes, lines and elements, added up scenario by scenario. Every format is made of this."""

from collections import Counter
from collections.abc import Callable, Iterator, Mapping, Sequence
from dataclasses import dataclass, field

from gasday_report.texts import Input

from .base import Scenario, Solved
from .program import Program

PERCENTS = (50, 75, 90, 95, 99, 100)
CHECKS = {"best": "gasday check best", "impossible": "gasday check cut"}


@dataclass
class ScenarioFact:
    """A row of the table, with its numbers as numbers."""

    scenario: Scenario
    verdict: str
    told: str
    sha256: str
    excess: int | None
    totals: list[int]
    class_losses: list[int]
    class_cuts: list[int]
    short: int | None
    losses: dict[int, int]  # of each line that has less, or below zero more, than in the base
    full: list[str]
    binds: list[str]
    inside: list[str]
    program: str  # the SHA-256 of the one that made the row


@dataclass
class ScenarioLine:
    """What is kept of a scenario when it is added up: numbers, and what binds there but not in the base."""

    scenario: Scenario
    verdict: str
    told: str
    excess: int | None
    class_losses: list[int]
    class_cuts: list[int]
    short: int | None
    full: int
    binds: int
    newly: list[str]


def nearest(rising: Sequence[int], percent: int) -> int | None:
    """The percentile of numbers by the nearest rank."""
    return rising[max(0, -(-percent * len(rising) // 100) - 1)] if rising else None


@dataclass
class ClassFact:
    """What a class loses over all scenarios that have a schedule, and what is cut of it."""

    class_number: int
    total: int  # in the base
    losses: list[int]  # rising
    cuts: list[int] = field(default_factory=list)  # rising

    def percentile(self, percent: int) -> int | None:
        """The least loss that so many percent of the scenarios don't lose more than."""
        return nearest(self.losses, percent)

    def cut_percentile(self, percent: int) -> int | None:
        """The least cut that so many percent of the scenarios don't exceed."""
        return nearest(self.cuts, percent)


@dataclass
class LineFact:
    number: int
    origin: str
    destination: str
    class_number: int
    ceiling: int  # in the base, like the quantity
    quantity: int
    short: int = 0  # in how many scenarios it is below its ceiling
    loses: int = 0  # in how many it has less than in the base
    sum: int = 0  # of what it loses in these
    greatest: int = 0

    def is_short(self) -> bool:
        return self.quantity < self.ceiling

    def add(self, loss: int, ceiling: int) -> None:
        """Counts a scenario in which it isn't as in the base."""
        self.short += (self.quantity - loss < ceiling) - self.is_short()
        self.loses, self.sum, self.greatest = self.loses + (loss > 0), self.sum + max(loss, 0), max(self.greatest, loss)


@dataclass
class ElementFact:
    name: str
    kind: str
    start: str
    end: str
    capacity: int  # in the base, like the load
    load: int
    full: int = 0  # in how many scenarios it is full
    binds: int = 0  # in how many more capacity would make a difference, or it leads out of the cut


def line_facts(solved: Solved) -> list[LineFact]:
    given = enumerate(zip(solved.asked.lines, solved.quantities, strict=True), 1)
    return [LineFact(number, line.origin, line.destination, line.class_number, line.ceiling, quantity)
            for number, (line, quantity) in given]


def element_facts(solved: Solved) -> list[ElementFact]:
    loads, places = solved.asked.loads(solved.quantities), list(solved.asked.places)
    return [ElementFact(name, kind, places[ends[0]], places[ends[-1]] if kind == "segment" else "", capacity, loads[name])
            for name, kind, ends, capacity in solved.asked.in_order() if kind != "pool"]


@dataclass
class Summary:
    program: Program
    inputs: Sequence[Input]
    labels: Sequence[str]
    solved: Solved
    facts: Callable[[], Iterator[ScenarioFact]]  # the scenarios, each time they are asked for
    scenarios: list[ScenarioLine] = field(default_factory=list)
    verdicts: Counter[str] = field(default_factory=Counter)
    programs: Counter[str] = field(default_factory=Counter)  # how many scenarios each made, by its SHA-256

    def __post_init__(self) -> None:
        self.book, self.cycle = next(row for row in self.solved.base.head if row[0] == "question")[1:3]
        self.lines, self.elements = line_facts(self.solved), element_facts(self.solved)
        numbers = sorted({line.class_number for line in self.solved.asked.lines})
        self.classes = [ClassFact(number, self.solved.totals[number - 1], []) for number in numbers]
        named = {fact.name: fact for fact in self.elements}
        for fact in self.facts():
            self.add(fact, named)
        for one in self.classes:
            one.losses.sort()
            one.cuts.sort()
        for line in self.lines:
            line.short += line.is_short() * self.verdicts["best"]

    def add(self, fact: ScenarioFact, named: Mapping[str, ElementFact]) -> None:
        self.verdicts[fact.verdict] += 1
        self.programs[fact.program] += 1
        for name in fact.full:
            named[name].full += 1
        for name in fact.binds:
            named[name].binds += 1
        if fact.verdict == "best":
            for one in self.classes:
                one.losses.append(fact.class_losses[one.class_number - 1])
                one.cuts.append(fact.class_cuts[one.class_number - 1])
            ceilings = self.solved.ceilings(fact.scenario)
            for number in fact.losses.keys() | ceilings.keys():
                line = self.lines[number - 1]
                line.add(fact.losses.get(number, 0), ceilings.get(number, line.ceiling))
        usual = self.solved.binding if fact.verdict == "best" else ()
        self.scenarios.append(ScenarioLine(
            fact.scenario, fact.verdict, fact.told, fact.excess, fact.class_losses, fact.class_cuts, fact.short, len(fact.full),
            len(fact.binds), [name for name in fact.binds if name not in usual]))


def numbers_in(row: Mapping[str, str], name: str) -> list[int]:
    """The columns of this name for class 1 on, as far as they are told."""
    cells = (row[f"{name}_{c}"] for c in range(1, 9))
    return [int(cell) for cell in cells if cell]


def losses_in(cell: str) -> dict[int, int]:
    pairs = (part.split(":") for part in cell.split())
    return {int(line): int(loss) for line, loss in pairs}


def scenario_fact(scenario: Scenario, row: Mapping[str, str]) -> ScenarioFact:
    return ScenarioFact(
        scenario, row["verdict"], row["told"], row["sha256"], int(row["excess"]) if row["excess"] else None,
        numbers_in(row, "total"), numbers_in(row, "loss"), numbers_in(row, "cut"), int(row["short"]) if row["short"] else None,
        losses_in(row["losses"]), row["full"].split(), row["binds"].split(), row["inside"].split(),
        row["program_sha256"])
