"""A gas day on the page: its cycles in a table, and of each round the picture, the lines, who shares what is full, and the cut.
"""

from html import escape

from .answer_parts import counts_html, exact_html, picture_html, set_html, sharing_html, sum_html, totals_html
from .day import TIMES, Day
from .day_text import WAIVER_NOTE, outcome_words, round_heading
from .facts import Facts
from .html_parts import section, table_html
from .page_tables import (
    Cell,
    Table,
    call_table,
    column,
    cut_element_table,
    element_table,
    numbers,
    round_cut_table,
    round_line_table,
    round_sharing,
)
from .rounds import CycleFacts, RoundFacts
from .timeline import timeline_of
from .words import CYCLES

TIMELINE_NOTE = "Green: published or skipped. Red: refused, or no schedule. Blue: all other calls. Hover for what was told."


def times_table(day: Day) -> Table:
    """When each cycle's times are."""
    columns = [column("cycle", name=True), *(column(name, name=True) for name in TIMES)]
    rows: list[list[Cell]] = [[CYCLES[cycle], *map(day.clock.show, times)] for cycle, times in day.times]
    return {"id": "times", "columns": columns, "rows": rows, "marks": [], "choice": -1}


def last_published(cycle: CycleFacts) -> RoundFacts | None:
    return cycle.rounds[-1] if cycle.rounds and cycle.rounds[-1].round.scheduled else None


def cycle_cells(cycle: CycleFacts) -> list[Cell]:
    """What came of a cycle, in numbers."""
    name, last = CYCLES[cycle.cycle.number], cycle.rounds[-1] if cycle.rounds else None
    nominated = sum(line.nominated for line in last.lines) if last else None
    confirmed = sum(line.confirmed for line in last.lines) if last else None
    published = last_published(cycle)
    if published is None:
        kept = sum(line.former for line in last.lines) if last and cycle.cycle.skipped_at is not None else None
        return [name, outcome_words(cycle), len(cycle.rounds), len(last.lines) if last else None, nominated, confirmed, kept,
                None, None, ""]
    bumped = sum(bool(line.bumped) for line in published.lines)
    less = sum(line.nominated > (line.scheduled or 0) for line in published.lines)
    full = ", ".join(sharing.element for sharing in published.facts.sharings) if published.facts else ""
    return [name, outcome_words(cycle), len(cycle.rounds), len(published.lines), nominated, confirmed,
            sum(line.scheduled or 0 for line in published.lines), less, bumped, full]


def cycles_table(day: Day) -> Table:
    columns = [column("cycle", name=True), column("what came of it"),
               *numbers("rounds", "lines", "nominated", "confirmed", "scheduled", "lines with less than nominated",
                        "lines bumped"), column("limited by")]
    known = {cycle.cycle.number: cycle_cells(cycle) for cycle in day.cycles}
    rows = [known.get(number, [name, "not reached", *[None] * 7, ""]) for number, name in CYCLES.items()]
    return {"id": "cycles", "columns": columns, "rows": rows, "marks": [], "choice": -1}


def schedule_parts(made: RoundFacts, facts: Facts, name: str) -> list[str]:
    sharing = sharing_html(facts, round_sharing(made, facts, f"sharing-{name}"))
    parts = ["<h4>Who shares what is full</h4>", sharing] if sharing else []
    return [counts_html(facts), totals_html(facts), picture_html(facts, f"elements-{name}"), "<h4>Lines</h4>",
            table_html(round_line_table(made, f"lines-{name}")), exact_html(facts), *parts, "<h4>Segments, points and pools</h4>",
            table_html(element_table(facts, f"elements-{name}"))]


def cut_parts(made: RoundFacts, facts: Facts, name: str) -> list[str]:
    assert facts.sums
    return ["<h4>There is no schedule</h4>", sum_html(facts.sums), set_html(facts), picture_html(facts, f"elements-{name}"),
            "<h4>Lines</h4>", table_html(round_cut_table(made, facts.sums.excess, f"lines-{name}")),
            f'<p class="note">{escape(WAIVER_NOTE)}</p>', "<h4>Segments, points and pools</h4>",
            table_html(cut_element_table(facts, f"elements-{name}"))]


def round_html(made: RoundFacts, day: Day) -> str:
    name, facts = f"{made.round.cycle}-{made.round.number}", made.facts
    posting = f'<p class="note">Posting: SHA-256 <code>{made.posting.digest()}</code></p>' if made.posting else ""
    notes = "".join(f'<p class="warn">{escape(note)}</p>' for note in made.notes)
    if facts is None:
        parts = ["<h4>Lines</h4>", table_html(round_line_table(made, f"lines-{name}"))]
    else:
        parts = cut_parts(made, facts, name) if facts.is_cut else schedule_parts(made, facts, name)
    return f"<h3>{escape(round_heading(made, day.clock))}</h3>{posting}{notes}{''.join(parts)}"


def cycle_html(cycle: CycleFacts, day: Day) -> str:
    number = cycle.cycle.number
    skipped = cycle.cycle.skipped_at
    ended = f'<p class="warn">Skipped {escape(day.clock.show(skipped))}: the former schedule stays in effect.</p>' \
        if skipped is not None else ""
    rounds = "".join(round_html(made, day) for made in cycle.rounds) or "<p>Nothing was frozen in it yet.</p>"
    return section(f"Cycle {number}, {CYCLES[number]}: {outcome_words(cycle)}", rounds, ended, anchor=f"cycle-{number}")


def day_html(day: Day) -> str:
    links = "".join(f'<a href="#cycle-{cycle.cycle.number}">{CYCLES[cycle.cycle.number]}</a>' for cycle in day.cycles)
    return "".join([
        section(f"Gas day {day.date}, book {day.book}", table_html(cycles_table(day)), f'<nav class="cycles">{links}</nav>',
                f'<div class="timeline">{timeline_of(day)}</div>',
                f'<p class="note">Times are by the clock of {escape(day.clock.name)}. {TIMELINE_NOTE}</p>',
                f"<details><summary>show the times of the cycles</summary>{table_html(times_table(day))}</details>"),
        *(cycle_html(cycle, day) for cycle in day.cycles),
        section("Calls", table_html(call_table(day)))])
