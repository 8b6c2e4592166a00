"""A study as JSON. docs/FLEET.md lists the names, which stay as they are."""

import json
from typing import Any, TextIO

from .summary import PERCENTS, ClassFact, ElementFact, LineFact, ScenarioFact, Summary

VERSION = 1
Names = dict[str, Any]


def scenario_of(fact: ScenarioFact, labels: tuple[str, ...]) -> Names:
    return {
        "scenario": fact.scenario.name, "labels": dict(zip(labels, fact.scenario.labels, strict=True)), "verdict": fact.verdict,
        "told": fact.told or None, "sha256": fact.sha256 or None, "excess": fact.excess, "totals": fact.totals,
        "class_losses": fact.class_losses, "class_cuts": fact.class_cuts, "program_sha256": fact.program, "short": fact.short,
        "losses": {str(line): loss for line, loss in fact.losses.items()},
        "full": fact.full, "binds": fact.binds, "inside": fact.inside,
    }


def class_of(fact: ClassFact, impossible: int) -> Names:
    return {"class": fact.class_number, "total": fact.total,
            "losses": {str(percent): fact.percentile(percent) for percent in PERCENTS},
            "cuts": {str(percent): fact.cut_percentile(percent) for percent in PERCENTS}, "impossible": impossible}


def line_of(fact: LineFact) -> Names:
    return {"line": fact.number, "origin": fact.origin, "destination": fact.destination, "class": fact.class_number,
            "ceiling": fact.ceiling, "scheduled": fact.quantity, "short": fact.short, "loses": fact.loses, "lost": fact.sum,
            "greatest": fact.greatest}


def element_of(fact: ElementFact) -> Names:
    return {"element": fact.name, "kind": fact.kind, "from": fact.start, "to": fact.end or None, "capacity": fact.capacity,
            "load": fact.load, "full": fact.full, "binds": fact.binds}


def names_of(summary: Summary) -> Names:
    """All but the scenarios, which are written one by one."""
    return {
        "study": "gasday-fleet", "version": VERSION,
        "program": {"version": summary.program.version, "sha256": summary.program.sha256},
        "inputs": [{"role": file.role, "path": file.path, "sha256": file.digest()} for file in summary.inputs],
        "question": {"book": summary.book, "cycle": int(summary.cycle)}, "verdicts": dict(sorted(summary.verdicts.items())),
        "programs": [{"sha256": sha256, "scenarios": count} for sha256, count in sorted(summary.programs.items())],
        "classes": [class_of(fact, summary.verdicts["impossible"]) for fact in summary.classes],
        "lines": [line_of(fact) for fact in summary.lines],
        "elements": [element_of(fact) for fact in summary.elements],
    }


def print_json(summary: Summary, out: TextIO) -> None:
    """A line for each scenario."""
    out.write(json.dumps(names_of(summary), separators=(",", ":")).removesuffix("}") + ',"scenarios":[')
    for at, fact in enumerate(summary.facts()):
        scenario = json.dumps(scenario_of(fact, tuple(summary.labels)), separators=(",", ":"))
        out.write(f"{',' if at else ''}\n{scenario}")
    out.write("\n]}\n")
