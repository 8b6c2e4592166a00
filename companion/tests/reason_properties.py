"""The reasons of drawn questions with pools, against all schedules of each. It needs Hypothesis (Debian's python3-hypothesis) and
the built program, or the one that GASDAY names in the environment.

The definition is plain: among the allowed schedules that give a line one dekatherm more than the best schedule does, take the
best by class totals. The first class whose total is less is the class that goes first. Where none is less before the line's own
class, the line shares with its class; where there is no such schedule, that is the reason."""

import importlib
import importlib.util
import itertools
import os
import unittest
from collections import Counter
from collections.abc import Iterator, Sequence
from pathlib import Path
from typing import Any
from unittest import mock

import helpers  # noqa: F401 (it makes certificate.py found)
from test_definitions import row

from certificate import Answer, Question
from gasday_report import solving
from gasday_report.deciding import HIGHER_CLASS, NO_SCHEDULE, SHARED, Decision, decision_in
from gasday_report.facts import Facts, facts_of
from gasday_report.program import BUILT, Program
from gasday_report.texts import Input

PROGRAM = Path(os.environ.get("GASDAY", BUILT))
DRAWN, MOST_SOLVED = 2000, 2  # questions, and lines of each that are solved again
# Gas flows from place 0 to place 1, and from there to places 2 and 3.
SEGMENTS = (("S1", 0, 1), ("S2", 1, 2), ("S3", 1, 3))
ROUTES = {(0, 0): (), (1, 1): (), (2, 2): (), (3, 3): (), (0, 1): ("S1",), (1, 2): ("S2",), (1, 3): ("S3",),
          (0, 2): ("S1", "S2"), (0, 3): ("S1", "S3")}
POINTS = {"R1": "receipt", "R2": "receipt", "D1": "delivery", "D2": "delivery", "P1": "pool", "P2": "pool"}
Line = tuple[str, str, int, int, int]  # origin, destination, class, floor, ceiling


def lines_between(origins: Sequence[str], destinations: Sequence[str], ceilings: Sequence[int] = (1, 2, 3)) -> list[Line]:
    """All lines between these, with few floors."""
    return list(itertools.product(origins, destinations, range(1, 5), (0, 0, 0, 0, 1), ceilings))


def strategy() -> Any:
    """Capacities, where points and pools are, and lines, of which one enters a pool and one leaves it."""
    st: Any = importlib.import_module("hypothesis.strategies")
    segments = st.sampled_from(list(itertools.product((0, 1, 1, 2, 2, 3, 3, 4), repeat=3)))
    points = st.sampled_from(list(itertools.product(range(3, 8), repeat=4)))
    places = st.sampled_from(list(itertools.product((0,), (0, 1), (1, 2), (2, 3), (0, 1), (0, 1, 2))))
    into, out = lines_between(("R1", "R2"), ("P1",), (3,)), lines_between(("P1",), ("D1", "D2"), (2, 3))
    other = lines_between(("R1", "R1", "R1", "R2", "P1"), ("D1", "D2")) + lines_between(("R1", "P2"), ("P1", "P2"))
    lines = st.lists(st.sampled_from(other), min_size=2, max_size=3)
    return st.tuples(segments, points, places, st.sampled_from(into), st.sampled_from(out), lines)


class Drawn:
    """A drawn question with all its allowed schedules."""

    def __init__(self, drawn: Any) -> None:
        segments, points, places, into, out, others = drawn
        self.place = dict(zip(POINTS, places, strict=True))
        limits = dict(zip(("S1", "S2", "S3", "R1", "R2", "D1", "D2"), segments + points, strict=True))
        self.limits = {**limits, "P1": 0, "P2": 0}
        self.lines = [line for line in (into, out, *others) if line[0] != line[1] and self.ends(line) in ROUTES]
        self.uses = [self.use(line) for line in self.lines]
        self.allowed = list(self.schedules((), dict.fromkeys(self.limits, 0)))
        if not self.allowed:
            self.lines = [(*line[:3], 0, line[4]) for line in self.lines]
            self.allowed = list(self.schedules((), dict.fromkeys(self.limits, 0)))

    def ends(self, line: Line) -> tuple[int, int]:
        return self.place[line[0]], self.place[line[1]]

    def use(self, line: Line) -> dict[str, int]:
        """What a dekatherm of a line adds to the load of each element; of a pool to what enters it less what leaves it."""
        uses = dict.fromkeys(ROUTES[self.ends(line)], 1)
        return {**uses, line[0]: -1 if line[0] in ("P1", "P2") else 1, line[1]: 1}

    def schedules(self, first: tuple[int, ...], loads: dict[str, int]) -> Iterator[tuple[int, ...]]:
        """All allowed schedules that begin so."""
        if len(first) == len(self.lines):
            if loads["P1"] == 0 == loads["P2"]:
                yield first
            return
        _, _, _, floor, ceiling = self.lines[len(first)]
        for quantity in range(floor, ceiling + 1):
            more = dict(loads)
            for name, sign in self.uses[len(first)].items():
                more[name] += sign * quantity
            if all(more[name] <= limit for name, limit in self.limits.items() if limit or name[0] != "P"):
                yield from self.schedules((*first, quantity), more)

    def totals(self, schedule: Sequence[int]) -> tuple[int, ...]:
        totals = [0] * 4
        for line, quantity in zip(self.lines, schedule, strict=True):
            totals[line[2] - 1] += quantity
        return tuple(totals)

    def rank(self, number: int, quantity: int, best: tuple[int, ...]) -> int:
        """The class that goes first, the line's own where it shares; 0 where no schedule gives it more. Less is higher."""
        own = self.lines[number][2]
        more = max((self.totals(schedule) for schedule in self.allowed if schedule[number] > quantity), default=None)
        if more is None:
            return 0
        return next((at for at, (new, old) in enumerate(zip(more, best, strict=True), 1) if new < old and at < own), own)

    def text(self) -> str:
        rows = [row("segment", name, f"L{a}", f"L{b}", self.limits[name]) for name, a, b in SEGMENTS]
        for name, kind in POINTS.items():
            at = f"L{self.place[name]}"
            rows.append(row("pool", name, at, "OP") if kind == "pool" else row("point", name, kind, at, "OP", self.limits[name]))
        return "".join([*rows, row("question", "DRAWN", 3, 3), *(row("line", *line) for line in self.lines)])


def rank_of(decision: Decision, own: int) -> int:
    return {NO_SCHEDULE: 0, HIGHER_CLASS: decision.first_class, SHARED: own}[decision.kind]


@unittest.skipUnless(importlib.util.find_spec("hypothesis"), "Hypothesis is not installed (python3-hypothesis)")
@unittest.skipUnless(os.access(PROGRAM, os.X_OK), "no program is built")
class Reasons(unittest.TestCase):
    def setUp(self) -> None:
        self.program = Program(str(PROGRAM.resolve()), "", "")
        self.seen: Counter[str] = Counter()

    def test_drawn_questions(self) -> None:
        """A class that is claimed to be exact is the reason's; a bound is the reason's class, or a lower one."""
        hypothesis: Any = importlib.import_module("hypothesis")
        limits = hypothesis.settings(max_examples=DRAWN, deadline=None, database=None, derandomize=True,
                                     suppress_health_check=list(hypothesis.HealthCheck))
        with mock.patch.object(solving, "MOST_SOLVED", MOST_SOLVED):
            limits(hypothesis.given(strategy())(self.compare))()
        self.assertGreaterEqual(self.seen["questions"], DRAWN)
        for what in ("exact no schedule", "exact higher class", "exact shared", "bound that is exact", "bound that is lower"):
            self.assertGreater(self.seen[what], 100, self.seen)

    def facts(self, question: bytes) -> tuple[tuple[int, ...], Facts, Facts]:
        """The schedule that the program finds, with the facts that solving again gives, and with those of its prices alone."""
        out, status = self.program.call(["solve"], question)
        self.assertEqual(status, 0, question)
        files, asked = (Input("question", "", question), Input("answer", "", out)), Question(question.decode())
        given = Answer(out.decode(), asked)
        return tuple(given.quantities), facts_of(*files, asked, given, self.program), facts_of(*files, asked, given)

    def compare(self, drawn: Any) -> None:
        question = Drawn(drawn)
        text = question.text()
        schedule, exact, bounds = self.facts(text.encode())
        best = max(map(question.totals, question.allowed))
        self.assertEqual(question.totals(schedule), best, text)
        self.seen["questions"] += 1
        for number, quantity in enumerate(schedule):
            found, bound = (decision_in(facts.lines[number].causes) for facts in (exact, bounds))
            own, ceiling = question.lines[number][2], question.lines[number][4]
            self.assertEqual((found is None, bound is None), (quantity == ceiling,) * 2, text)
            if found and bound:
                rank = question.rank(number, quantity, best)
                self.compare_ranks(rank, rank_of(found, own), found, f"line {number + 1} of\n{text}")
                self.compare_ranks(rank, rank_of(bound, own), bound, f"line {number + 1} of\n{text}")
        solved = sum(decision.is_exact for line in exact.lines if (decision := decision_in(line.causes)))
        self.assertEqual(solved, min(exact.short_lines, MOST_SOLVED), text)

    def compare_ranks(self, rank: int, found: int, decision: Decision, what: str) -> None:
        if decision.is_exact:
            self.assertEqual(found, rank, what)
            self.seen[f"exact {decision.kind}"] += 1
        else:
            self.assertGreaterEqual(found, rank, what)
            self.seen["bound that is exact" if found == rank else "bound that is lower"] += 1


if __name__ == "__main__":
    unittest.main()
