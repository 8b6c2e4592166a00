"""The report as JSON. docs/REPORT.md lists the names, which stay as they are."""

import json
from collections.abc import Sequence
from typing import Any, TextIO

from certificate import CLASSES, Sums

from .day import TIMES, Call, Day
from .day_json import arithmetic_of, causes_of, cycle_of, decided_of, moment_of, sharing_of
from .facts import ElementFact, Facts, LineFact
from .report import Report

VERSION = 2
Names = dict[str, Any]
# What each field of a call's row is, behind its kind and its moment.
ASKED = {
    "nominate": ("party", "contract", "package", "origin", "destination", "quantity"),
    "respond": ("party", "line", "end", "quantity"), "post": ("element", "capacity"), "publish": ("round",),
    "declare": ("round",), "waive": ("line",),
}
# And of the row that it was told.
TOLD = {
    "accepted": ("event", "cycle", "line"), "done": ("event",), "frozen": ("event", "cycle", "round", "lines"),
    "published": ("event", "cycle", "round"), "declared": ("event", "cycle", "round"),
    "refused": ("call", "number", "name", "detail", "item"),
}


def line_of(line: LineFact) -> Names:
    return {
        "line": line.number, "origin": line.origin, "destination": line.destination, "class": line.class_number,
        "floor": line.floor, "ceiling": line.ceiling, "scheduled": line.scheduled, "short": line.short,
        "bumped": line.bumped, "causes": causes_of(line.causes), "decided": decided_of(line.causes),
        "arithmetic": arithmetic_of(line.reason), "cut_way": line.cut_way or None, "cut_quantity": line.cut_quantity,
    }


def element_of(element: ElementFact) -> Names:
    price = element.price and {"classes": element.price[:CLASSES], "spread": element.price[CLASSES:]}
    return {
        "element": element.name, "kind": element.kind, "from": element.start, "to": element.end or None,
        "operator": element.operator or None, "capacity": element.capacity, "usual_capacity": element.usual,
        "load": element.load, "room": element.room, "full": None if element.room is None else element.room == 0,
        "price": price, "inside": element.inside, "cut_capacity": element.cut_capacity,
    }


def cut_of(facts: Facts, sums: Sums) -> Names:
    members = [{"kind": kind, "name": name} for kind, name in facts.members]
    return {"excess": sums.excess, "must_leave": sums.leave, "can_return": sums.back, "can_flow": sums.flow, "members": members}


def answer_of(facts: Facts) -> Names:
    """What is known of a schedule or of a cut, less its lines."""
    return {
        "kind": "cut" if facts.is_cut else "best",
        "totals": [{"class": c, "ceiling": asked, "scheduled": None if facts.is_cut else given}
                   for c, asked, given in facts.totals],
        "cut": None if facts.sums is None else cut_of(facts, facts.sums),
        "sharing": list(map(sharing_of, facts.sharings)), "elements": list(map(element_of, facts.elements)),
        "short_lines": facts.short_lines, "exact_reasons": facts.exact_reasons,
    }


def facts_of(facts: Facts) -> Names:
    return {"question": {"book": facts.book, "cycle": facts.cycle, "round": facts.round}, **answer_of(facts),
            "lines": list(map(line_of, facts.lines))}


def named(names: Sequence[str], fields: Sequence[str]) -> Names:
    """Fields by their names; numbers as numbers, and what is empty as null."""
    numbers = ("quantity", "capacity", "line", "round", "event", "cycle", "lines", "number")
    return {name: int(field) if name in numbers and field.isdigit() else field or None
            for name, field in zip(names, fields, strict=False)}


def call_of(call: Call, day: Day) -> Names:
    return {"call": call.number, "moment": call.seconds, "local": day.clock.show(call.seconds), "kind": call.kind,
            "refused": call.refused, "asked": named(ASKED.get(call.kind, ()), call.row[2:]),
            "told": {"kind": call.head[0], **named(TOLD.get(call.head[0], ()), call.head[1:])}}


def day_of(day: Day) -> Names:
    names = [time.replace(" ", "_") for time in TIMES]
    times: dict[int, Names] = {}
    for cycle, moments in day.times:
        times[cycle] = {name: moment_of(at, day) for name, at in zip(names, moments, strict=False)}
    cycles = []
    for facts in day.cycles:
        answers = [answer_of(made.facts) if made.facts else None for made in facts.rounds]
        cycles.append(cycle_of(facts, day, times.get(facts.cycle.number, {}), answers))
    return {"date": day.date, "book": day.book, "clock": day.clock.name, "cycles": cycles,
            "calls": [call_of(call, day) for call in day.calls]}


def json_of(report: Report) -> Names:
    program = report.program
    whole = {
        "report": "gasday-report", "version": VERSION, "passed": report.passed(),
        "program": program and {"path": program.path, "version": program.version, "sha256": program.sha256},
        "certificate_alone": report.is_alone(),
        "verdicts": [{"by": v.by, "passed": v.passed, "words": v.words} for v in report.verdicts],
        "inputs": [{"role": file.role, "path": file.path, "sha256": file.digest()} for file in report.inputs],
        "notes": report.notes,
    }
    if report.facts:
        whole.update(facts_of(report.facts))
    if report.day:
        whole["day"] = day_of(report.day)
    return whole


def print_json(report: Report, out: TextIO) -> None:
    json.dump(json_of(report), out, indent=1)
    out.write("\n")
