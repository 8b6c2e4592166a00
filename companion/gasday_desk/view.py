"""What a gas day looks like: made of its opening's rows, of its calls' rows and of what was told, and of nothing else.

No rule of the tariff is here. Which nominations count, what is scheduled, bumped or impossible, and which cycle is over, is
read from the replies.
"""

from collections.abc import Sequence
from dataclasses import dataclass, field
from typing import NamedTuple

from .rows import Row, of_kind

CYCLES = {1: "Timely", 2: "Evening", 3: "Intraday 1", 4: "Intraday 2", 5: "Intraday 3"}
ENDS = ("origin", "dest")


class Key(NamedTuple):
    """What a line is told apart by."""

    contract: str
    package: str
    origin: str
    destination: str


@dataclass(frozen=True)
class Element:
    name: str
    kind: str  # segment, receipt, delivery or pool
    start: str
    end: str  # of a segment alone
    operator: str  # of a point or pool
    capacity: int | None  # none of a pool


@dataclass(frozen=True)
class Contract:
    name: str
    shipper: str
    service: str
    quantity: int
    origin: str  # the primary ends of firm service
    destination: str
    band: str  # of interruptible service


class Times(NamedTuple):
    """The moments of a cycle, as `gasday calendar` tells them."""

    leaves: int
    received: int
    quick: int
    confirmed: int
    schedules: int
    effective: int


@dataclass(frozen=True)
class Opening:
    """What a gas day opens with."""

    pipeline: list[list[str]]  # its rows, as they stand
    elements: dict[str, Element]
    contracts: dict[str, Contract]
    carried: dict[Key, int]
    date: str
    zone: str
    book: str
    times: dict[int, Times]

    def operator_of(self, end: str) -> str:
        return self.elements[end].operator if end in self.elements else ""

    def shipper_of(self, contract: str) -> str:
        return self.contracts[contract].shipper if contract in self.contracts else ""


class Nomination(NamedTuple):
    """An accepted one: the cycle from which it counts, as told, and the number of its call."""

    cycle: int
    quantity: int
    call: int


@dataclass
class Line:
    number: int
    key: Key
    nominations: list[Nomination] = field(default_factory=list)

    def nominated(self, cycle: int, calls: int | None = None) -> Nomination | None:
        """What was accepted last for this cycle or one before it; or what was after so many calls."""
        return next((one for one in reversed(self.nominations)
                     if one.cycle <= cycle and (calls is None or one.call <= calls)), None)

    def later(self, cycle: int) -> Nomination | None:
        last = self.nominations[-1]
        return last if last.cycle > cycle else None


class Bound(NamedTuple):
    """What a freeze told of a line."""

    class_number: int
    floor: int
    ceiling: int


@dataclass
class Round:
    """A freeze, and what it came to."""

    cycle: int
    number: int
    frozen_by: int  # the number of its call
    bounds: list[Bound]
    posted: dict[str, int]  # the capacities that were posted till then
    outcome: str = "frozen"  # then published or declared
    closed_by: int = 0
    totals: dict[int, int] = field(default_factory=dict)
    scheduled: list[int] = field(default_factory=list)
    bumped: dict[int, int] = field(default_factory=dict)
    inside: list[tuple[str, str]] = field(default_factory=list)
    skipped: bool = False


@dataclass(frozen=True)
class Call:
    """A call that the file keeps, by its number from 1."""

    number: int
    rows: tuple[Row, ...]  # those that waited for it, and its own
    told: tuple[Row, ...]
    cycle: int = 1  # the current one when it was made
    left: int | None = None  # of a nomination: what the contract's other lines left then

    @property
    def row(self) -> Row:
        return self.rows[-1]

    @property
    def kind(self) -> str:
        return self.row[0]

    @property
    def moment(self) -> int:
        return int(self.row[1])

    @property
    def is_refused(self) -> bool:
        return self.told[0][0] == "refused"

    @property
    def event(self) -> str:
        """Its number in the history; none of a refused one."""
        return "" if self.is_refused else self.told[0][1]

    @property
    def line(self) -> int | None:
        """The line that it speaks of, if it is one."""
        if self.kind == "nominate":
            return None if self.is_refused else int(self.told[0][3])
        field_of = {"respond": 3, "waive": 2}.get(self.kind)
        text = self.row[field_of] if field_of else ""
        return int(text) if text.isdigit() else None


@dataclass
class DayView:
    """The day so far. Calls are added in the order of the file."""

    opening: Opening
    calls: list[Call] = field(default_factory=list)
    lines: list[Line] = field(default_factory=list)
    at: dict[Key, int] = field(default_factory=dict)
    rounds: list[Round] = field(default_factory=list)
    cycle: int = 1  # 6 where all are settled
    posted: dict[str, int] = field(default_factory=dict)
    responses: dict[tuple[int, str], int] = field(default_factory=dict)
    waived: set[int] = field(default_factory=set)

    @property
    def is_settled(self) -> bool:
        return self.cycle > len(CYCLES)

    @property
    def frozen(self) -> Round | None:
        """The round that waits for its schedule."""
        return self.rounds[-1] if self.rounds and self.rounds[-1].outcome == "frozen" else None

    @property
    def declared(self) -> Round | None:
        """The last round of the current cycle, where it has no schedule."""
        last = self.rounds[-1] if self.rounds else None
        return last if last and last.outcome == "declared" and not last.skipped else None

    @property
    def state(self) -> str:
        if self.is_settled:
            return "settled"
        if self.frozen:
            return "frozen"
        return "impossible" if self.declared else "confirming"

    def capacity(self, name: str) -> int | None:
        return self.posted.get(name, self.opening.elements[name].capacity)

    def published(self, cycle: int) -> Round | None:
        return next((one for one in reversed(self.rounds) if one.cycle == cycle and one.outcome == "published"), None)

    def in_effect(self) -> Round | None:
        """The round that was published last."""
        return next((one for one in reversed(self.rounds) if one.outcome == "published"), None)

    def is_skipped(self, cycle: int) -> bool:
        return any(one.cycle == cycle and one.skipped for one in self.rounds)

    def line(self, number: int) -> Line | None:
        return self.lines[number - 1] if 1 <= number <= len(self.lines) else None

    def left_by_others(self, row: Row) -> int | None:
        """The quantity of a nomination's contract, less what its other lines are nominated last."""
        contract, key = self.opening.contracts.get(row[3]), Key(*row[3:7])
        if contract is None:
            return None
        others = (line for line in self.lines if line.key.contract == key.contract and line.key != key)
        return contract.quantity - sum(line.nominations[-1].quantity for line in others)

    def add(self, rows: Sequence[Row], told: Sequence[Row]) -> Call:
        """Takes a call with what it was told."""
        left = self.left_by_others(rows[-1]) if told[0][0] == "refused" and rows[-1][0] == "nominate" else None
        call = Call(len(self.calls) + 1, tuple(rows), tuple(told), self.cycle, left)
        self.calls.append(call)
        if not call.is_refused:
            TAKERS[told[0][0]](self, call)
        return call


def take_accepted(view: DayView, call: Call) -> None:
    _, _, _, contract, package, origin, destination, quantity = call.row
    key, number = Key(contract, package, origin, destination), int(call.told[0][3])
    if number == len(view.lines) + 1:
        view.lines.append(Line(number, key))
        view.at[key] = number
    view.lines[number - 1].nominations.append(Nomination(int(call.told[0][2]), int(quantity), call.number))


def take_done(view: DayView, call: Call) -> None:
    row = call.row
    if row[0] == "respond":
        view.responses[int(row[3]), row[4]] = int(row[5])
    elif row[0] == "post":
        view.posted[row[2]] = int(row[3])
    elif row[0] == "waive":
        view.waived.add(int(row[2]))
    elif row[0] == "skip":
        view.rounds[-1].skipped = True
        begin_cycle(view, view.rounds[-1].cycle + 1)


def take_frozen(view: DayView, call: Call) -> None:
    bounds = [Bound(*map(int, row[2:5])) for row in of_kind(call.told, "bound")]
    view.rounds.append(Round(int(call.told[0][2]), int(call.told[0][3]), call.number, bounds, dict(view.posted)))


def take_published(view: DayView, call: Call) -> None:
    last = view.rounds[-1]
    last.outcome, last.closed_by = "published", call.number
    last.totals = {int(row[1]): int(row[2]) for row in of_kind(call.told, "total")}
    last.scheduled = [int(row[2]) for row in of_kind(call.told, "sched")]
    last.bumped = {int(row[1]): int(row[2]) for row in of_kind(call.told, "bumped")}
    begin_cycle(view, last.cycle + 1)


def take_declared(view: DayView, call: Call) -> None:
    last = view.rounds[-1]
    last.outcome, last.closed_by = "declared", call.number
    last.inside = [(row[1], row[2]) for row in of_kind(call.told, "inside")]


def begin_cycle(view: DayView, cycle: int) -> None:
    view.cycle = cycle
    view.responses.clear()
    view.waived.clear()


TAKERS = {"accepted": take_accepted, "done": take_done, "frozen": take_frozen, "published": take_published,
          "declared": take_declared}


def element_of(row: Sequence[str]) -> Element:
    if row[0] == "segment":
        return Element(row[1], "segment", row[2], row[3], "", int(row[4]))
    if row[0] == "point":
        return Element(row[1], row[2], row[3], "", row[4], int(row[5]))
    return Element(row[1], "pool", row[2], "", row[3], None)


def contract_of(row: Sequence[str]) -> Contract:
    is_firm = row[3] == "firm"
    ends = (row[5], row[6]) if is_firm else ("", "")
    return Contract(row[1], row[2], row[3], int(row[4]), *ends, "" if is_firm else row[5] or "1")


def opening_of(rows: Sequence[Sequence[str]], calendar: Sequence[Row]) -> Opening:
    """The opening of these rows, with the calendar that `gasday calendar` told of its `day` row."""
    pipeline = [list(row) for row in rows if row[0] in ("segment", "point", "pool")]
    day = next(row for row in rows if row[0] == "day")
    carried = {Key(*row[1:5]): int(row[5]) for row in rows if row[0] == "carry"}
    times = {int(row[1]): Times(*map(int, row[2:8])) for row in of_kind(calendar, "cycle")}
    contracts = {row[1]: contract_of(row) for row in rows if row[0] == "contract"}
    return Opening(pipeline, {row[1]: element_of(row) for row in pipeline}, contracts, carried, day[1], day[2], day[3], times)
