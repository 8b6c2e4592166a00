"""A study as one HTML page in the report's style, which asks for nothing from outside."""

from html import escape
from importlib import resources
from typing import TextIO

from gasday_report.answer_parts import PICTURE_NOTE
from gasday_report.html_format import inputs_html, verdict_html
from gasday_report.html_parts import document, notes_html, section, table_html
from gasday_report.page_tables import Cell, Mark, Table, column, mark, numbers
from gasday_report.verdicts import Verdict
from gasday_report.words import CYCLES, counted, grouped

from .histograms import histogram_of
from .picture import LEGEND, picture_of
from .summary import CHECKS, PERCENTS, ScenarioLine, Summary

NOTES = (
    "A class or a line loses what it has less than in the base; a loss below zero is a gain. Scenarios without a schedule count"
    " in no loss.",
    "What is cut of a class is what was asked and confirmed of it in the scenario, which are the ceilings of its lines, less what"
    " is scheduled. So a lower ceiling is a loss and no cut.",
    "A line is short where it is below the ceiling that the scenario gives it, and an element is full where it carries as much as"
    " the capacity that the scenario gives it: one that is out, with a capacity of 0, is full of nothing.",
    "An element binds where its price is above zero, so that a dekatherm more there would make a better schedule; or, where no"
    " schedule is possible, where it leads out of the set of the cut that shows so.",
    "Neither best schedules nor prices are unique: others may be as good, with other lines short and other elements binding.",
    "The percentile of 95 is the least loss that 95 percent of the scenarios with a schedule don't lose more than.",
)

SCENARIO_NOTE = ("By class: what it loses against the base, and below zero what it gains; and what is cut of it. Then how many"
                 " lines are short, and how many elements are full and bind; and which bind that don't in the base, or lead out"
                 " of a cut.")
MOST_NAMED = 4


def verdicts_html(summary: Summary) -> str:
    """What each answer has passed, and what is not counted."""
    boxes = [verdict_html(Verdict(check, True, f"passed the answer of {counted(summary.verdicts[verdict], 'scenario')}"
                                  + (" and the base's" if verdict == "best" else "")))
             for verdict, check in CHECKS.items() if verdict == "best" or summary.verdicts[verdict]]
    for verdict, words in (("unsound", "did not pass, so nothing of them is shown"), ("failed", "could not be run")):
        if count := summary.verdicts[verdict]:
            boxes.append(verdict_html(Verdict(counted(count, "scenario"), False, words)))
    own = summary.program
    program = "".join(
        f'<p class="note">{counted(count, "scenario")} by {escape(own.version) if sha256 == own.sha256 else "another program"},'
        f" SHA-256 <code>{escape(sha256)}</code>.</p>" for sha256, count in sorted(summary.programs.items()))
    return section("What was checked", f'<div class="verdicts">{"".join(boxes)}</div>', inputs_html(summary.inputs), program)


def counts_html(summary: Summary) -> str:
    lost = sum(any(loss > 0 for loss in fact.class_losses) for fact in summary.scenarios)
    words = [(len(summary.scenarios), "scenarios"), (summary.verdicts["impossible"], "without a schedule"),
             (lost, "in which a class loses"), (sum(fact.binds > 0 for fact in summary.elements), "elements that bind in one"),
             (sum(fact.loses > 0 for fact in summary.lines), "lines that lose in one")]
    return f'<div class="counts">{"".join(f"<div><b>{grouped(n)}</b>{escape(word)}</div>" for n, word in words)}</div>'


def classes_html(summary: Summary) -> str:
    names = ("class", "in the base", "", *(f"{p} %" for p in PERCENTS[:-1]), "most", "impossible scenarios")
    heads = "".join(f"<th>{escape(head)}</th>" for head in names)
    impossible = grouped(summary.verdicts["impossible"])
    rows = ""
    for fact in summary.classes:
        for name, of in (("loss", fact.percentile), ("cut", fact.cut_percentile)):
            found = ("" if (value := of(percent)) is None else grouped(value) for percent in PERCENTS)
            cells = [f"class {fact.class_number}", grouped(fact.total), name, *found, impossible]
            rows += f"<tr>{''.join(f'<td>{cell}</td>' for cell in cells)}</tr>"
    drawn = "".join(map(histogram_of, summary.classes))
    return section("What each class loses", counts_html(summary),
                   f'<div class="scroll"><table class="classes"><tr>{heads}</tr>{rows}</table></div>',
                   f'<div class="histograms">{drawn}</div>')


def picture_html(summary: Summary) -> str:
    svg, note = picture_of(summary)
    warning = f'<p class="warn">{escape(note)}</p>' if note else ""
    return section("Which element binds how often", warning, f'<div class="picture" data-table="elements">{svg}</div>', LEGEND,
                   f'<p class="note">{PICTURE_NOTE}</p>')


def scenario_cells(fact: ScenarioLine, classes: list[int]) -> list[Cell]:
    amounts = (fact.class_losses, fact.class_cuts)
    losses: list[Cell] = [of[c - 1] if of else None for of in amounts for c in classes]
    counts: list[Cell] = [fact.full, fact.binds] if fact.verdict == "best" else [None, None]
    more = len(fact.newly) - MOST_NAMED
    named = " ".join(fact.newly[:MOST_NAMED]) + (f" and {more} more" if more > 0 else "")
    return [fact.scenario.name, *fact.scenario.labels, fact.verdict, *losses, fact.excess, fact.short, *counts,
            named or fact.told]


def scenario_table(summary: Summary) -> Table:
    classes = [fact.class_number for fact in summary.classes]
    at = 1 + len(summary.labels)
    columns = [column("scenario", name=True), *map(column, summary.labels), column("verdict"),
               *numbers(*(f"class {c}" for c in classes), *(f"cut {c}" for c in classes), "excess", "short", "full", "binding"),
               column("newly binding", name=True)]
    marks: list[Mark] = [mark("impossible", at + 1 + 2 * len(classes), "impossible")]
    return {"id": "scenarios", "columns": columns, "choice": at, "marks": marks,
            "rows": [scenario_cells(fact, classes) for fact in summary.scenarios]}


def line_table(summary: Summary) -> Table:
    columns = [column("line", number=True), column("from", name=True), column("to", name=True), column("class", number=True),
               *numbers("ceiling", "in the base", "short in", "loses in", "on average", "most")]
    rows: list[list[Cell]] = [
        [fact.number, fact.origin, fact.destination, fact.class_number, fact.ceiling, fact.quantity, fact.short, fact.loses,
         fact.sum // max(1, summary.verdicts["best"]), fact.greatest] for fact in summary.lines]
    return {"id": "lines", "columns": columns, "rows": rows, "marks": [mark("losing", 7, "short")], "choice": 3}


def element_table(summary: Summary) -> Table:
    columns = [column("element", name=True), column("kind"), column("at or from", name=True), column("to", name=True),
               *numbers("capacity", "load in the base", "full in", "binds in")]
    rows: list[list[Cell]] = [
        [fact.name, fact.kind, fact.start, fact.end, fact.capacity, fact.load, fact.full, fact.binds]
        for fact in summary.elements]
    return {"id": "elements", "columns": columns, "rows": rows, "marks": [mark("binding", 7, "binds")], "choice": 1}


def title_of(summary: Summary) -> str:
    cycle = f"{summary.cycle} ({CYCLES.get(int(summary.cycle), 'unknown')})"
    return f"{summary.book}, cycle {cycle}: {counted(len(summary.scenarios), 'scenario')}"


def body_html(summary: Summary) -> str:
    return "".join([
        verdicts_html(summary), classes_html(summary), picture_html(summary),
        section("Scenarios", f'<p class="note">{SCENARIO_NOTE}</p>',
                table_html(scenario_table(summary))),
        section("Lines", table_html(line_table(summary))),
        section("Segments and points", table_html(element_table(summary))),
        section("How to read this", notes_html(NOTES))])


def page_of(summary: Summary) -> str:
    own_style = resources.files(__package__).joinpath("study.css").read_text(encoding="utf-8")
    return document(title_of(summary), "Quantities are dekatherms for one gas day. This page is not proved; each answer that it"
                    " counts passed the check of gasday, which is.", body_html(summary), own_style)


def print_html(summary: Summary, out: TextIO) -> None:
    out.write(page_of(summary))
