"""A gas day's calls, and what each was told; and its cycles."""

import os
import re
from collections.abc import Callable, Iterator, Sequence
from dataclasses import dataclass
from typing import NamedTuple

from .archives import Posting, postings_in, scratch_folder
from .course import ENDS, Course, Taken
from .moments import Clock
from .program import Program
from .refusals import REFUSALS
from .rounds import CycleFacts, Rounds
from .texts import Fault, Input, Row, number_of, of_kinds, rows_in, written
from .verdicts import Verdict
from .words import CYCLES, counted, grouped, listed

CALLS = ("nominate", "respond", "post", "freeze", "settle", "skip", "publish", "declare", "waive")
HEADS = ("accepted", "done", "frozen", "published", "declared", "refused")
DETAILS = ("bound", "total", "sched", "bumped", "inside")
# How many of the eight fields a row uses at least.
FIELDS = {"nominate": 8, "respond": 6, "post": 4, "publish": 3, "declare": 3, "waive": 3,
          "accepted": 4, "done": 2, "frozen": 5, "published": 4, "declared": 4, "refused": 4}

# What a refusal says with its detail, which is taken out where there is none.
DETAIL = re.compile(r"(?:, which is)? \(?\{\}\)?")

# The six times of a cycle, in the order of its row.
TIMES = ("nominations leave", "received", "quick response", "confirmed", "schedules out", "in effect")

Amount = Callable[[str], str]


class Call(NamedTuple):
    number: int
    seconds: int
    moment: str
    kind: str
    asked: str
    refused: bool
    told: str
    details: list[str]
    row: Row  # as it was asked
    head: Row  # and the first row that was told


@dataclass
class Day:
    date: str
    book: str
    clock: Clock
    times: list[tuple[int, list[int]]]  # the number of each cycle with its six times
    calls: list[Call]
    cycles: list[CycleFacts]  # those that began


@dataclass(frozen=True)
class DayRun:
    """What the program tells of a day's text, and the postings that it keeps of it."""

    told: list[Row]
    postings: list[Posting]


def amount_in(field: str) -> str:
    return grouped(number_of(field, "events"))


def cycle_name(field: str) -> str:
    number = number_of(field, "replies")
    return f"cycle {number} ({CYCLES.get(number, 'unknown')})"


def asked_words(row: Row, amount: Amount = str) -> str:
    """What a call asks, with its quantities as they are, or as they are to be shown."""
    kind = row[0]
    if kind == "nominate":
        return f"{row[2]} nominates {amount(row[7])} under {row[3]}, package {row[4]}, from {row[5]} to {row[6]}"
    if kind == "respond":
        return f"{row[2]} confirms {amount(row[5])} at the {ENDS.get(row[4], row[4])} of line {row[3]}"
    if kind == "post":
        return f"{row[2]} is posted at {amount(row[3])}"
    words = {"freeze": "the cycle is to be frozen", "settle": "the frozen question is to be solved",
             "skip": "the cycle is to be skipped", "publish": f"a schedule is offered for round {row[2]}",
             "declare": f"a cut is offered for round {row[2]}", "waive": f"line {row[2]} gives up its protection"}
    return words[kind]


def refusal_words(row: Row) -> str:
    detail = " at ".join(field for field in row[4:6] if field)
    words = REFUSALS.get(row[3], "the rule of this name")
    return f"refused, {row[3]}: {words.format(detail) if detail else DETAIL.sub('', words)}"


def told_words(row: Row, rest: Sequence[Row], amount: Amount = str) -> str:
    """And what it was told."""
    kind = row[0]
    if kind == "refused":
        return refusal_words(row)
    if kind == "accepted":
        return f"accepted as event {row[1]}, for {cycle_name(row[2])}, on line {row[3]}"
    if kind == "done":
        return f"done, as event {row[1]}"
    head = f"{kind} as event {row[1]}: {cycle_name(row[2])}, round {row[3]}"
    if kind == "frozen":
        return f"{head}, with {counted(number_of(row[4], 'replies'), 'line')}"
    if kind == "declared":
        return f"{head} has no schedule, as a cut shows"
    totals = [f"{amount(total[2])} in class {total[1]}" for total in of_kinds(rest, ("total",)) if total[2] != "0"]
    bumped = of_kinds(rest, ("bumped",))
    more = f"; {counted(len(bumped), 'line')} bumped" if bumped else ""
    return f"{head}, {listed(totals) or 'nothing'} scheduled{more}"


def detail_words(row: Row) -> str:
    if row[0] == "bound":
        return f"line {row[1]}, class {row[2]}: floor {amount_in(row[3])}, ceiling {amount_in(row[4])}"
    if row[0] == "inside":
        return f"inside the cut: {row[1]} {row[2]}"
    return f"line {row[1]}: {'bumped by ' if row[0] == 'bumped' else ''}{amount_in(row[2])}{' scheduled' * (row[0] == 'sched')}"


def groups_of(rows: Sequence[Row]) -> list[tuple[Row, list[Row]]]:
    """The replies call by call: a head with the rows behind it."""
    groups: list[tuple[Row, list[Row]]] = []
    for row in rows:
        if row[0] in HEADS:
            groups.append((row, []))
        elif row[0] in DETAILS and groups:
            groups[-1][1].append(row)
        else:
            raise Fault(f"replies: {','.join(row).rstrip(',')} is not what a call is told")
    return groups


def check_fields(row: Row, name: str) -> None:
    if not all(row[:FIELDS.get(row[0], 2)]):
        raise Fault(f"{name}: {','.join(row)} lacks a field")


def calls_of(events: Sequence[Row], groups: Sequence[tuple[Row, list[Row]]], clock: Clock) -> Iterator[Call]:
    asked = of_kinds(events, CALLS)
    if len(groups) != len(asked):
        raise Fault(f"the replies tell of {counted(len(groups), 'call')}, the events have {len(asked):,}")
    for number, (row, (head, rest)) in enumerate(zip(asked, groups, strict=True), 1):
        check_fields(row, "events")
        check_fields(head, "replies")
        seconds, details = number_of(row[1], "events"), [detail_words(detail) for detail in rest if detail[0] != "total"]
        yield Call(number, seconds, clock.show(seconds), row[0], asked_words(row, amount_in), head[0] == "refused",
                   told_words(head, rest, amount_in), details, row, head)


def taken_of(events: Sequence[Row], groups: Sequence[tuple[Row, list[Row]]]) -> Iterator[Taken]:
    """The calls that were accepted, each with its place in the text."""
    places = [at for at, row in enumerate(events, 1) if row[0] in CALLS]
    for at, (head, rest) in zip(places, groups, strict=True):
        if head[0] != "refused":
            yield Taken(events[at - 1], at, head, rest)


def times_of(program: Program, row: Row) -> Iterator[tuple[int, list[int]]]:
    """The day's cycles with their times, as `gasday calendar` tells them."""
    out, _ = program.call(["calendar"], written([row]))
    for told in of_kinds(rows_in(out, "gasday calendar"), ("cycle",)):
        number, *moments = (number_of(field, "gasday calendar") for field in told[1:])
        yield number, moments


def run_day(program: Program, events: Input) -> DayRun:
    """Runs the program on a day's text. It keeps what is published in an archive of its own."""
    book = day_row(events)[3]
    with scratch_folder() as folder:
        path = os.path.join(folder, "postings.db")
        told = rows_in(program.call(["day", "--archive", path], events.data)[0], "gasday day")
        for row in of_kinds(told, ("fault",)):
            why = "the text has a fault" if row[1] != "0" else f"it could not be run with an archive in {folder}"
            raise Fault(f"gasday day: {why}: {','.join(row).rstrip(',')}")
        return DayRun(told, postings_in(path, book) if os.path.exists(path) else [])


def held_in(replies: Input) -> list[Row]:
    """What the replies hold of calls, less what an archive told."""
    return [row for row in replies.rows() if row[:2] != ["refused", "keep"]]


def day_verdict(run: DayRun, replies: Input) -> Verdict:
    """Whether `gasday day` tells once more what the replies hold."""
    told, held = run.told, held_in(replies)
    if told == held:
        return Verdict("gasday day", True, f"told again, the events give these {counted(len(held), 'row')}")
    at = next((k for k, (a, b) in enumerate(zip(told, held, strict=False)) if a != b), min(len(told), len(held)))
    sides = [",".join(rows[at]).rstrip(",") if at < len(rows) else "nothing" for rows in (held, told)]
    return Verdict("gasday day", False, f"row {at + 1} of the replies is {sides[0]}, and gasday day tells {sides[1]}")


def day_row(events: Input) -> Row:
    heads = of_kinds(events.rows(), ("day",))
    if len(heads) != 1:
        raise Fault(f"events: {counted(len(heads), 'day row')}, where one is wanted")
    return heads[0]


def day_of(program: Program, events: Input, run: DayRun, clock: Clock) -> tuple[Day, list[Verdict]]:
    """The day, and what was checked of its rounds."""
    rows, head = events.rows(), day_row(events)
    if run.told and run.told[0][:2] == ["refused", "calendar"]:
        raise Fault(f"the gas day has no calendar: {run.told[0][3]}")
    groups = groups_of(run.told)
    calls = list(calls_of(rows, groups, clock))
    course = Course(rows, taken_of(rows, groups))
    rounds = Rounds(program, rows, head[3], course.lines, run.postings)
    cycles = [rounds.cycle(cycle) for cycle in course.cycles if cycle.number in CYCLES]
    return Day(head[1], head[3], clock, list(times_of(program, head)), calls, cycles), rounds.all_verdicts()
