"""Solves a question again with one dekatherm more for a line, to find exactly what that dekatherm displaces.

The line's floor becomes its scheduled quantity plus one, and `gasday solve` answers the changed question: either the first class
whose total falls, or a cut that shows that no schedule gives the line more."""

import heapq
import os
import re
import time
from collections.abc import Sequence
from concurrent.futures import ThreadPoolExecutor
from itertools import accumulate
from typing import NamedTuple

from certificate import Answer, Crossing, Question, Unreadable, crossing_of, sums_of

from .program import Program, call
from .reasons import deciding_class
from .texts import Fault, Input, number_of, question_text, rows_in, written

# Of each answer so many short lines are solved again, those that are shortest first; no solve starts after so many seconds.
MOST_SOLVED, SECONDS = 200, 60
MOST_THREADS = 4
HEAD = re.compile(r"best,+\n((?:total,\d,\d{1,18},+\n)+)")


class Outcome(NamedTuple):
    """The best answer where a line has one dekatherm more."""

    first_fall: int  # the first class whose total falls; 0 where none falls, or where there is no schedule
    crossing: Crossing | None  # what crosses the cut's set, where there is no schedule


def totals_in(text: str) -> list[int]:
    """The class totals of the best schedule that `gasday solve` printed, from class 1 on; none of another answer."""
    head = HEAD.match(text)
    return [int(row.split(",")[2]) for row in head[1].splitlines()] if head else []


def scheduled_in(text: str, number: int) -> int:
    """What it printed of one line; 0 where nothing."""
    row = text.partition(f"\nsched,{number},")[2].partition(",")[0]
    return number_of(row or "0", "gasday solve")


def totals_of(question: Question, quantities: Sequence[int]) -> list[int]:
    """The total of each class, up to the greatest of the question."""
    totals = [0] * max((line.class_number for line in question.lines), default=0)
    for line, quantity in zip(question.lines, quantities, strict=True):
        totals[line.class_number - 1] += quantity
    return totals


class Again:
    """A question with its answer, to be solved again for one line or another."""

    def __init__(self, program: Program, question: Input, asked: Question, answer: Answer) -> None:
        self.program, self.asked, self.quantities = program, asked, answer.quantities
        self.costs, self.totals = asked.costs(answer.prices), totals_of(asked, answer.quantities)
        rows = rows_in(question_text(question), question.path)
        parts = [written([row]) for row in rows]
        ends = zip(rows, parts, accumulate(map(len, parts)), strict=True)
        self.text, self.line_rows = b"".join(parts), [(row, end - len(part), end) for row, part, end in ends if row[0] == "line"]
        self.last_start = time.monotonic() + SECONDS

    def short_lines(self) -> list[int]:
        """The lines to solve again, by number: those that are shortest first."""
        short = [(quantity - line.ceiling, number)
                 for number, (line, quantity) in enumerate(zip(self.asked.lines, self.quantities, strict=True), 1)
                 if quantity < line.ceiling]
        return [number for _, number in heapq.nsmallest(MOST_SOLVED, short)]

    def text_with_more(self, number: int) -> bytes:
        """The question with one dekatherm more in the floor of a line."""
        row, start, end = self.line_rows[number - 1]
        changed = [*row[:4], str(self.quantities[number - 1] + 1), *row[5:]]
        return self.text[:start] + written([changed]) + self.text[end:]

    def outcome(self, number: int) -> Outcome | None:
        """None where the program gives no answer that the prices allow: then the prices' bound is all that is known."""
        if time.monotonic() > self.last_start:
            return None
        try:
            out = call(self.program.path, ["solve"], self.text_with_more(number), SECONDS)[0].decode()
            return self.cut_outcome(number, out) if out.startswith("cut,") else self.best_outcome(number, out)
        except (Fault, UnicodeDecodeError, Unreadable):
            return None

    def best_outcome(self, number: int, out: str) -> Outcome | None:
        totals, own = totals_in(out), self.asked.lines[number - 1].class_number
        if len(totals) < len(self.totals) or scheduled_in(out, number) <= self.quantities[number - 1]:
            return None
        changes = [(at, new - old) for at, (new, old) in enumerate(zip(totals, self.totals, strict=False), 1) if new != old]
        first, change = changes[0] if changes else (0, 0)
        bound = min(deciding_class(self.costs[number - 1]), own)
        is_allowed = change <= 0 and (bound == own or 0 < first <= bound)
        return Outcome(first, None) if is_allowed else None

    def cut_outcome(self, number: int, out: str) -> Outcome | None:
        """The cut passes the line, and has no room for just the one dekatherm more."""
        crossing = crossing_of(self.asked, Answer(out, self.asked).members)
        floor = dict(crossing.must_leave).get(number)
        is_cut = floor is not None and sums_of(crossing).excess - floor + self.quantities[number - 1] == 0
        return Outcome(0, crossing) if is_cut else None


def outcomes_of(program: Program, question: Input, asked: Question, answer: Answer) -> dict[int, Outcome]:
    """By line what one dekatherm more for it displaces, for the lines that were solved again."""
    again = Again(program, question, asked, answer)
    chosen = again.short_lines()
    threads = ThreadPoolExecutor(min(MOST_THREADS, os.cpu_count() or 1))
    try:
        found = zip(chosen, threads.map(again.outcome, chosen), strict=True)
        return {number: outcome for number, outcome in found if outcome is not None}
    finally:
        threads.shutdown(cancel_futures=True)
