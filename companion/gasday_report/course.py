"""The course of a gas day: its cycles and rounds, each with what was nominated, answered, posted and told. It only puts
together what stands in the day's text and in the replies, and decides nothing."""

from collections.abc import Iterable, Iterator, Sequence
from dataclasses import dataclass, field

from .texts import Row, number_of, of_kinds

PUBLISHED, DECLARED, FROZEN, SKIPPED = "published", "declared", "frozen", "skipped"
ENDS = {"origin": "origin", "dest": "destination"}
Key = tuple[str, str, str, str]  # contract, package, origin, destination


@dataclass(frozen=True)
class Bound:
    """What a freeze told of a line."""

    class_number: int
    floor: int
    ceiling: int


@dataclass(frozen=True)
class DayLine:
    """A line of the gas day, as the nomination that was accepted first names it."""

    number: int
    shipper: str
    contract: str
    package: str
    origin: str
    destination: str


@dataclass(frozen=True)
class Response:
    """What an operator confirmed at one end of a line."""

    party: str
    quantity: int


@dataclass
class Round:
    """One freeze with what it was followed by."""

    cycle: int
    number: int
    frozen_at: int  # seconds
    bounds: list[Bound]
    nominated: list[int]
    former: list[int]  # the schedule in effect; in Timely what was carried over
    responses: dict[tuple[int, str], Response]  # by line and end
    capacities: dict[str, int]  # those that were posted
    waived: frozenset[int]
    outcome: str = FROZEN
    ended_at: int | None = None
    last_row: int = 0  # the number of rows of the day's text up to the call that ended it
    scheduled: list[int] = field(default_factory=list)
    bumped: dict[int, int] = field(default_factory=dict)
    inside: list[Row] = field(default_factory=list)


@dataclass
class Cycle:
    number: int
    rounds: list[Round] = field(default_factory=list)
    skipped_at: int | None = None


@dataclass(frozen=True)
class Taken:
    """A call that was accepted: its row, where it stands in the text, and what was told of it."""

    row: Row
    at: int  # how many rows of the text end with it
    head: Row
    rest: Sequence[Row]

    @property
    def seconds(self) -> int:
        return number_of(self.row[1], "events")


class Course:
    """Walks along the accepted calls of a gas day."""

    def __init__(self, rows: Sequence[Row], calls: Iterable[Taken]) -> None:
        self.rows = rows
        self.shippers = {row[1]: row[2] for row in of_kinds(rows, ("contract",))}
        carried: Iterator[tuple[Key, int]] = (((row[1], row[2], row[3], row[4]), number_of(row[5], "events"))
                                              for row in of_kinds(rows, ("carry",)))
        self.carried: dict[Key, int] = dict(carried)
        self.lines: list[DayLine] = []
        self.nominations: list[list[tuple[int, int]]] = []  # of each line the cycle and the quantity, in order
        self.responses: dict[tuple[int, str], Response] = {}
        self.capacities: dict[str, int] = {}
        self.waived: set[int] = set()
        self.in_effect: list[int] = []
        self.cycles = [Cycle(1)]
        for taken in calls:
            walk = getattr(self, "after_" + taken.row[0])
            walk(taken)

    def after_nominate(self, taken: Taken) -> None:
        _, _, party, contract, package, origin, destination, quantity = taken.row
        cycle, line = (number_of(word, "replies") for word in taken.head[2:4])
        if line > len(self.lines):
            shipper = self.shippers.get(contract, party)
            self.lines.append(DayLine(len(self.lines) + 1, shipper, contract, package, origin, destination))
            self.nominations.append([])
        self.nominations[line - 1].append((cycle, number_of(quantity, "events")))

    def after_respond(self, taken: Taken) -> None:
        _, _, party, line, end, quantity = taken.row[:6]
        self.responses[number_of(line, "events"), ENDS.get(end, end)] = Response(party, number_of(quantity, "events"))

    def after_post(self, taken: Taken) -> None:
        self.capacities[taken.row[2]] = number_of(taken.row[3], "events")

    def after_waive(self, taken: Taken) -> None:
        self.waived.add(number_of(taken.row[2], "events"))

    def nominated(self, line: int, cycle: int) -> int:
        """What was nominated last for a cycle at most this one."""
        return next((quantity for at, quantity in reversed(self.nominations[line - 1]) if at <= cycle), 0)

    def former(self, line: DayLine, cycle: int) -> int:
        if cycle == 1:
            return self.carried.get((line.contract, line.package, line.origin, line.destination), 0)
        return self.in_effect[line.number - 1] if line.number <= len(self.in_effect) else 0

    def after_freeze(self, taken: Taken) -> None:
        cycle, number = (number_of(word, "replies") for word in taken.head[2:4])
        bounds = [Bound(*(number_of(word, "replies") for word in row[2:5])) for row in of_kinds(taken.rest, ("bound",))]
        lines = self.lines[:len(bounds)]
        self.cycles[-1].rounds.append(Round(
            cycle, number, taken.seconds, bounds, [self.nominated(line.number, cycle) for line in lines],
            [self.former(line, cycle) for line in lines], dict(self.responses), dict(self.capacities),
            frozenset(self.waived)))

    def end_round(self, taken: Taken, outcome: str) -> Round:
        ended = self.cycles[-1].rounds[-1]
        ended.outcome, ended.ended_at, ended.last_row = outcome, taken.seconds, taken.at
        return ended

    def end_cycle(self) -> None:
        self.responses.clear()
        self.waived.clear()
        self.cycles.append(Cycle(self.cycles[-1].number + 1))

    def after_settle(self, taken: Taken) -> None:
        if taken.head[0] == DECLARED:
            self.end_round(taken, DECLARED).inside = of_kinds(taken.rest, ("inside",))
            return
        ended = self.end_round(taken, PUBLISHED)
        ended.scheduled = [number_of(row[2], "replies") for row in of_kinds(taken.rest, ("sched",))]
        ended.bumped = {number_of(row[1], "replies"): number_of(row[2], "replies")
                        for row in of_kinds(taken.rest, ("bumped",))}
        self.in_effect = ended.scheduled
        self.end_cycle()

    after_publish = after_declare = after_settle

    def after_skip(self, taken: Taken) -> None:
        self.cycles[-1].skipped_at = taken.seconds
        self.end_cycle()
