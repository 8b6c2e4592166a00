#!/usr/bin/env python3
"""certificate.py QUESTION ANSWER

Checks an answer to a question of `gasday` by the rules of docs/CERTIFICATES.md, in exact integers. It shares no code with
`gasday` and needs nothing but Python's standard library.

QUESTION is a text of `segment`, `point`, `pool`, `question`, `capacity` and `line` rows. ANSWER holds `sched` and `price`
rows, which are to show the schedule best, or `inside` rows, which are to be a cut; its other rows are not looked at. What is
printed is that the answer holds, or the first thing that is wrong. The exit status is 0 where it holds, 1 where it doesn't,
and 2 where a file can't be read as such a text, or the verdict can't be written.

No route is walked. The pipeline is a tree: gas passes a segment in one direction only, so its load is what enters less what
leaves beyond it, and what a dekatherm pays on its way is the difference of two sums of prices from the root.
"""

import contextlib
import csv
import io
import sys
from collections.abc import Mapping, Sequence
from typing import NamedTuple, TypeVar

CLASSES, TENTHS = 8, 10
# A price, a cost or a worth: the words of classes 1 to 8, then their words of the spread. Python compares from the front on.
Words = tuple[int, ...]
NOTHING: Words = (0,) * (2 * CLASSES)
# How many of the eight fields each kind of row uses; the others are empty.
QUESTION_FIELDS = {"segment": 5, "point": 6, "pool": 4, "question": 4, "capacity": 3, "line": 6}
ANSWER_FIELDS = {"sched": 3, "price": 5, "inside": 3}


class Element(NamedTuple):
    name: str
    kind: str  # segment, receipt, delivery or pool
    ends: tuple[int, ...]  # the two places of a segment, or the one place of a point or pool, by number
    capacity: int  # a pool's means nothing


class Line(NamedTuple):
    origin: str
    destination: str
    class_number: int
    floor: int
    ceiling: int


class Crossing(NamedTuple):
    """What counts of a set, each with its quantity."""

    must_leave: list[tuple[int, int]]  # lines that start inside and end outside, by number, with their floors
    can_return: list[tuple[int, int]]  # lines that start outside and end inside, by number, with their ceilings
    can_flow: list[tuple[str, int]]  # elements that lead out, by name, with their capacities


class Sums(NamedTuple):
    """What must leave a set, what can come back, what can flow out, and by how much too many must leave."""

    leave: int
    back: int
    flow: int
    excess: int


Known = TypeVar("Known")


class Unreadable(Exception):
    """The text is no question, or no answer to one."""


class Wrong(Exception):
    """The first thing that is wrong with an answer: the rule's name, the line or element, and what it is in words."""

    def __init__(self, name: str, item: int | str | None, words: str) -> None:
        super().__init__(words)
        self.name, self.item, self.words = name, item, words


def need(holds: object, words: str) -> None:
    if not holds:
        raise Unreadable(words)


def number(field: str, signed: bool = False) -> int:
    digits = field[1:] if signed and field.startswith("-") else field
    need(digits.isascii() and digits.isdigit() and len(digits) <= 18, f"'{field}' is no number")
    return int(field)


def known(table: Mapping[str, Known], name: str) -> Known:
    need(name in table, f"'{name}' is not known")
    return table[name]


def read_row(row: list[str], used: int, reader: object) -> None:
    need(used and len(row) == 8 and not any(row[used:]), "it is not of a form that stands here")
    getattr(reader, "read_" + row[0])(*row[1:used])


def read_rows(text: str, fields: Mapping[str, int], reader: object, others: bool = False) -> None:
    """Hands each row of a text to the reader's method for its kind; other kinds of rows are passed over, or refused."""
    try:
        for at, row in enumerate(filter(None, csv.reader(io.StringIO(text, newline=""), strict=True)), 1):
            try:
                if row[0] in fields or not others:
                    read_row(row, fields.get(row[0], 0), reader)
            except Unreadable as error:
                raise Unreadable(f"row {at}: {error}") from None
    except csv.Error as error:
        raise Unreadable(f"no rows of comma-separated fields: {error}") from None


def plus(a: Words, sign: int, b: Words) -> Words:
    return tuple(x + sign * y for x, y in zip(a, b, strict=True))


def tenth_of(ceiling: int, dekatherm: int) -> int:
    """The tenth of a ceiling in which its dekatherm of this number ends."""
    return -(-TENTHS * dekatherm // ceiling)


def worth_of(line: Line, dekatherm: int) -> Words:
    """1 at the line's class, and in the spread minus the tenth."""
    worth = list(NOTHING)
    worth[line.class_number - 1] = 1
    worth[CLASSES + line.class_number - 1] = -tenth_of(line.ceiling, dekatherm)
    return tuple(worth)


class Question:
    """The lines, and the pipeline as a tree of places. The root is 0, and each other place stands behind its parent, which
    its own segment joins it to, upward where gas flows to the parent. The root has no segment, and is its own parent."""

    def __init__(self, text: str) -> None:
        self.elements: dict[str, Element] = {}
        self.places: dict[str, int] = {}
        self.lines: list[Line] = []
        self.heads = 0
        self.parent: list[int] = []
        self.segment_at: list[str] = []
        self.upward: list[bool] = []
        read_rows(text, QUESTION_FIELDS, self)
        need(self.heads == 1 and self.parent, "the text has no segment, or not exactly one question row")
        self.find_subtrees()
        for at, line in enumerate(self.lines, 1):
            need(self.has_route(line), f"line {at} has no route from {line.origin} to {line.destination}")

    def enter(self, name: str, kind: str, ends: tuple[int, ...], capacity: str) -> None:
        need(name and name not in self.elements, f"'{name}' is empty, or given twice")
        self.elements[name] = Element(name, kind, ends, number(capacity))

    def add_place(self, name: str, parent: int, segment: str, upward: bool) -> None:
        self.places[name] = len(self.parent)
        self.parent.append(parent)
        self.segment_at.append(segment)
        self.upward.append(upward)

    def read_segment(self, name: str, start: str, end: str, capacity: str) -> None:
        if not self.places:
            self.add_place(start, 0, "", False)
        upward = end in self.places
        need((start in self.places) != upward, f"segment {name} doesn't join one new place to the pipeline")
        self.add_place(start if upward else end, self.places[end if upward else start], name, upward)
        self.enter(name, "segment", (self.places[start], self.places[end]), capacity)

    def read_point(self, name: str, kind: str, place: str, _operator: str, capacity: str) -> None:
        need(kind in ("receipt", "delivery"), f"'{kind}' is neither receipt nor delivery")
        self.enter(name, kind, (known(self.places, place),), capacity)

    def read_pool(self, name: str, place: str, _operator: str) -> None:
        self.enter(name, "pool", (known(self.places, place),), "0")

    def read_question(self, *_head: str) -> None:
        self.heads += 1

    def read_capacity(self, name: str, capacity: str) -> None:
        need(known(self.elements, name).kind != "pool", f"{name} is a pool and has no capacity")
        self.elements[name] = self.elements[name]._replace(capacity=number(capacity))

    def read_line(self, origin: str, destination: str, class_number: str, floor: str, ceiling: str) -> None:
        line = Line(origin, destination, number(class_number), number(floor), number(ceiling))
        need(known(self.elements, origin).kind in ("receipt", "pool"), f"no line starts at {origin}")
        need(known(self.elements, destination).kind in ("delivery", "pool"), f"no line ends at {destination}")
        need(origin != destination and line.floor <= line.ceiling, "the ends are the same, or the floor is above the ceiling")
        need(1 <= line.class_number <= CLASSES, "the class is not 1 to 8")
        self.lines.append(line)

    def in_order(self) -> list[Element]:
        """The elements: segments, then points, then pools."""
        return sorted(self.elements.values(), key=lambda e: (e.kind != "segment") + (e.kind == "pool"))

    def place_of(self, end: str) -> int:
        return self.elements[end].ends[0]

    def sign_at(self, origin: str) -> int:
        """A line gets the price of the pool that it leaves, and pays all others."""
        return -1 if self.elements[origin].kind == "pool" else 1

    def find_subtrees(self) -> None:
        """Positions in which the places of each subtree stand side by side; and how far up gas gets from each place, and
        from how far up it gets there."""
        count = len(self.parent)
        self.size, self.first, free = [1] * count, [0] * count, [1] * count
        self.rise, self.fall = list(range(count)), list(range(count))
        for place in range(count - 1, 0, -1):
            self.size[self.parent[place]] += self.size[place]
        for place in range(1, count):
            above = self.parent[place]
            self.first[place] = free[above]
            free[above] += self.size[place]
            free[place] = self.first[place] + 1
            reach = self.rise if self.upward[place] else self.fall
            reach[place] = reach[above]

    def has_below(self, place: int, other: int) -> bool:
        return self.first[place] <= self.first[other] < self.first[place] + self.size[place]

    def has_route(self, line: Line) -> bool:
        """The route turns at the last place that both ends have above them. The origin's gas gets there, and the
        destination's comes from there, exactly where these two hold."""
        start, end = self.place_of(line.origin), self.place_of(line.destination)
        return self.has_below(self.rise[start], end) and self.has_below(self.fall[end], start)

    def loads(self, quantities: Sequence[int]) -> dict[str, int]:
        """What each element carries; of a pool what enters it less what leaves it."""
        surplus, loads = [0] * len(self.parent), dict.fromkeys(self.elements, 0)
        for line, quantity in zip(self.lines, quantities, strict=True):
            loads[line.origin] += self.sign_at(line.origin) * quantity
            loads[line.destination] += quantity
            surplus[self.place_of(line.origin)] += quantity
            surplus[self.place_of(line.destination)] -= quantity
        for place in range(len(self.parent) - 1, 0, -1):
            loads[self.segment_at[place]] = surplus[place] if self.upward[place] else -surplus[place]
            surplus[self.parent[place]] += surplus[place]
        return loads

    def costs(self, prices: Mapping[str, Words]) -> list[Words]:
        """What a dekatherm of each line pays: at the segments and points that it passes and the pool that it enters, less
        what it gets back at the pool that it leaves."""
        from_root: list[Words] = [NOTHING]
        costs: list[Words] = []
        for place in range(1, len(self.parent)):
            price = prices.get(self.segment_at[place], NOTHING)
            from_root.append(plus(from_root[self.parent[place]], 1 if self.upward[place] else -1, price))
        for line in self.lines:
            cost = plus(from_root[self.place_of(line.origin)], -1, from_root[self.place_of(line.destination)])
            cost = plus(cost, self.sign_at(line.origin), prices.get(line.origin, NOTHING))
            costs.append(plus(cost, 1, prices.get(line.destination, NOTHING)))
        return costs


class Answer:
    """A schedule with the prices of elements by name, or the members of a set: each a kind and a name."""

    def __init__(self, text: str, question: Question) -> None:
        self.question = question
        self.quantities: list[int] = []
        self.prices: dict[str, Words] = {}
        self.levels: set[tuple[str, int]] = set()
        self.members: set[tuple[str, str]] = set()
        read_rows(text, ANSWER_FIELDS, self, others=True)
        self.is_cut = bool(self.members)
        need(not self.is_cut or not (self.quantities or self.prices), "there are both a set and a schedule or prices")

    def read_sched(self, line: str, quantity: str) -> None:
        need(number(line) == len(self.quantities) + 1, f"line {line} doesn't follow line {len(self.quantities)}")
        self.quantities.append(number(quantity))

    def read_price(self, name: str, level: str, word: str, spread: str) -> None:
        price, at = list(self.prices.get(known(self.question.elements, name).name, NOTHING)), number(level)
        need(1 <= at <= CLASSES and (name, at) not in self.levels, f"level {level} is not 1 to 8, or given twice")
        self.levels.add((name, at))
        price[at - 1], price[CLASSES + at - 1] = number(word, True), number(spread or "0", True)
        self.prices[name] = tuple(price)

    def read_inside(self, kind: str, name: str) -> None:
        groups = {"receipt": "point", "delivery": "point", "pool": "pool"}
        if kind == "place":
            known(self.question.places, name)
        else:
            need(groups.get(known(self.question.elements, name).kind) == kind, f"there is no {kind} {name}")
        self.members.add((kind, name))


def check_schedule(question: Question, quantities: Sequence[int]) -> dict[str, int]:
    """Tells the first fault of a schedule; its loads where it is allowed."""
    if len(quantities) != len(question.lines):
        raise Wrong("Shape", None, f"{len(quantities)} quantities for {len(question.lines)} lines")
    given = list(enumerate(zip(question.lines, quantities, strict=True), 1))
    for at, (line, quantity) in given:
        if quantity < line.floor:
            raise Wrong("BelowFloor", at, f"line {at} has {quantity}, below its floor of {line.floor}")
    for at, (line, quantity) in given:
        if quantity > line.ceiling:
            raise Wrong("AboveCeiling", at, f"line {at} has {quantity}, above its ceiling of {line.ceiling}")
    loads = question.loads(quantities)
    for name, kind, _, capacity in question.in_order():  # pools come last
        if kind != "pool" and loads[name] > capacity:
            raise Wrong("OverCapacity", name, f"{name} carries {loads[name]}, above its capacity of {capacity}")
        if kind == "pool" and loads[name] != 0:
            raise Wrong("Unbalanced", name, f"what enters pool {name} less what leaves it is {loads[name]}, not 0")
    return loads


def check_best(question: Question, quantities: Sequence[int], prices: Mapping[str, Words]) -> None:
    """Tells the first fault of a schedule with its prices; none where the prices show it best."""
    loads = check_schedule(question, quantities)
    for name, kind, _, capacity in question.in_order():
        price, load = prices.get(name, NOTHING), loads[name]
        if kind != "pool" and price > NOTHING and load != capacity:
            raise Wrong("PriceOnSlack", name, f"{name} has a price above zero, but carries {load} and not {capacity}")
        if kind != "pool" and price < NOTHING and load != 0:
            raise Wrong("PriceOnSlack", name, f"{name} has a price below zero, but carries {load} and not 0")
    given = list(enumerate(zip(question.lines, quantities, question.costs(prices), strict=True), 1))
    for at, (line, quantity, cost) in given:
        if quantity < line.ceiling and worth_of(line, quantity + 1) > cost:
            raise Wrong("Underfilled", at, f"line {at} is below its ceiling, and its next dekatherm is worth more than it pays")
    for at, (line, quantity, cost) in given:
        if quantity > line.floor and worth_of(line, quantity) < cost:
            raise Wrong("Overfilled", at, f"line {at} is above its floor, and its last dekatherm is worth less than it pays")


def crossing_of(question: Question, members: set[tuple[str, str]]) -> Crossing:
    """What counts of a set with these members, each a kind and a name."""
    places = {question.places[name] for kind, name in members if kind == "place"}
    ends = {name for kind, name in members if kind != "place"}
    sides = [(at, line, line.origin in ends, line.destination in ends) for at, line in enumerate(question.lines, 1)]
    must_leave = [(at, line.floor) for at, line, start, end in sides if start and not end]
    can_return = [(at, line.ceiling) for at, line, start, end in sides if end and not start]
    can_flow = []
    for name, kind, where, capacity in question.in_order():
        start, end = where[0] in places, where[-1] in places
        start, end = {"segment": (start, end), "receipt": (name in ends, start), "delivery": (start, name in ends),
                      "pool": (False, False)}[kind]
        if start and not end:
            can_flow.append((name, capacity))
    return Crossing(must_leave, can_return, can_flow)


def sums_of(crossing: Crossing) -> Sums:
    leave = sum(quantity for _, quantity in crossing.must_leave)
    back = sum(quantity for _, quantity in crossing.can_return)
    flow = sum(quantity for _, quantity in crossing.can_flow)
    return Sums(leave, back, flow, leave - back - flow)


def verdict_of(question: Question, answer: Answer) -> str:
    """What holds of an answer, in words; or tells the first thing that is wrong."""
    if not answer.is_cut:
        check_best(question, answer.quantities, answer.prices)
        return "the schedule is allowed, and the prices show it best"
    leave, back, flow, excess = sums_of(crossing_of(question, answer.members))
    words = f"{leave} must leave the set, {back} can come back and {flow} can flow out"
    if excess <= 0:
        raise Wrong("NotCut", None, f"the set is no cut: {words}")
    return f"the set is a cut, so no schedule is allowed: {words}, {excess} too many must leave"


def text_in(path: str) -> str:
    with open(path, encoding="ascii", newline="") as file:
        return file.read()


def told_of(paths: Sequence[str]) -> tuple[int, str]:
    """The exit status, and what is printed."""
    if len(paths) != 2:
        return 2, __doc__.strip()
    try:
        question_text, answer_text = map(text_in, paths)
        question = Question(question_text)
        return 0, f"holds: {verdict_of(question, Answer(answer_text, question))}"
    except (OSError, UnicodeError, Unreadable) as error:
        return 2, f"unreadable: {error}"
    except Wrong as wrong:
        return 1, f"wrong: {wrong.words}"


def main() -> int:
    """A verdict counts only once it is written, so that a full disk is not taken for a wrong answer."""
    try:
        status, words = told_of(sys.argv[1:])
        with open(1, "w", closefd=False) as out:
            print(words, file=out)
        return status
    except KeyboardInterrupt:
        why = "stopped before the end"
    except OSError as error:
        why = f"standard output can't be written: {error.strerror}"
    with contextlib.suppress(OSError), open(2, "w", closefd=False) as told:
        print(f"certificate.py: {why}", file=told)
    return 2


if __name__ == "__main__":
    if sys.argv[1:] == ["--help"]:
        print(__doc__.strip())
        sys.exit()
    sys.exit(main())
