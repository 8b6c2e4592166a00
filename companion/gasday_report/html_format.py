"""The report as one HTML page, which asks for nothing from outside."""

from collections.abc import Iterable
from html import escape
from typing import TextIO

from certificate import Sums

from .answer_parts import counts_html, exact_html, picture_html, set_html, sharing_html, sum_html, totals_html
from .day_page import day_html
from .facts import Facts
from .html_parts import document, notes_html, section, table_html
from .page_tables import answer_sharing, cut_element_table, cut_line_table, element_table, line_table
from .report import Report
from .texts import Input
from .verdicts import Verdict
from .words import ARITHMETIC_NOTES, CYCLES, REASON_NOTES, counted


def verdict_html(verdict: Verdict) -> str:
    kind, word = ("pass", "PASS") if verdict.passed else ("fail", "FAIL")
    return (f'<div class="verdict {kind}"><b>{word}</b>{escape(verdict.by)}<div>{escape(verdict.words)}</div></div>')


def inputs_html(inputs: Iterable[Input]) -> str:
    rows = "".join(f"<tr><td>{escape(file.role)}</td><td>{escape(file.path)}</td><td><code>{file.digest()}</code></td></tr>"
                   for file in inputs)
    return f'<table class="inputs"><tr><th></th><th></th><th align="left">SHA-256</th></tr>{rows}</table>'


def checks_html(report: Report) -> str:
    notes = "".join(f'<p class="note">{escape(note)}</p>' for note in report.notes)
    by = f'<p class="{"warn" if report.is_alone() else "note"}">{escape(report.checked_by())}</p>' if report.checked_by() else ""
    return section("What was checked", f'<div class="verdicts">{"".join(map(verdict_html, report.verdicts))}</div>',
                   by, inputs_html(report.inputs), notes)


def schedule_html(facts: Facts) -> str:
    sharing = sharing_html(facts, answer_sharing(facts))
    return "".join([
        section("The schedule", counts_html(facts), totals_html(facts)),
        section("The pipeline", picture_html(facts, "elements")),
        section("Lines", table_html(line_table(facts)), exact_html(facts)),
        section("Who shares what is full", sharing) if sharing else "",
        section("Segments, points and pools", table_html(element_table(facts)))])


def cut_html(facts: Facts, sums: Sums) -> str:
    return "".join([
        section("There is no schedule", sum_html(sums), set_html(facts)),
        section("The pipeline", picture_html(facts, "elements")), section("Lines", table_html(cut_line_table(facts))),
        section("Segments, points and pools", table_html(cut_element_table(facts)))])


def reading_html() -> str:
    arithmetic = f"<details><summary>show the arithmetic</summary>{notes_html(ARITHMETIC_NOTES)}</details>"
    return section("How to read the reasons", notes_html(REASON_NOTES), arithmetic)


def title_of(report: Report) -> str:
    if report.facts and not report.day:
        facts = report.facts
        return f"{facts.book}, cycle {facts.cycle} ({CYCLES.get(facts.cycle, 'unknown')}), round {facts.round}"
    return f"Gas day {report.day.date}, book {report.day.book}" if report.day else "An answer that did not pass"


def under_title(report: Report) -> str:
    if not report.passed():
        return "The answer did not pass its check, so nothing of it is shown."
    lines = f"{counted(len(report.facts.lines), 'line')}. " if report.facts else ""
    proved = ("Nothing of this page is proved, nor is certificate.py, which alone has checked it." if report.is_alone() else
              "This page is not proved; the check of gasday is.")
    return f"{lines}Quantities are dekatherms for one gas day. {proved}"


def body_html(report: Report) -> str:
    facts, day = report.facts, report.day
    answer = "" if facts is None else schedule_html(facts) if facts.sums is None else cut_html(facts, facts.sums)
    return answer + (day_html(day) if day else "") + (reading_html() if facts or day else "")


def page_of(report: Report) -> str:
    return document(title_of(report), under_title(report), checks_html(report) + body_html(report))


def print_html(report: Report, out: TextIO) -> None:
    out.write(page_of(report))
