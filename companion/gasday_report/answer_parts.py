"""What the page shows of one answer: counts, totals, the picture and a cut's sum."""

from html import escape

from certificate import Sums

from .day_text import constraint_words
from .facts import Facts
from .html_parts import notes_html, table_html
from .page_tables import Table, shown_sharings
from .picture import picture_of
from .text_format import set_in_words
from .words import CUT_NOTE, counted, exact_words, grouped

LEGEND = """<div class="legend"><span><i style="background:var(--idle)"></i>carries nothing</span>
<span><i style="background:var(--low)"></i>below half</span><span><i style="background:var(--middle)"></i>half to 90 %</span>
<span><i style="background:var(--high)"></i>from 90 %</span><span><i style="background:var(--full)"></i>full</span>
<span>the wider, the more it carries</span><span><i class="box" style="background:#eef7ef"></i>receipt point</span>
<span><i class="box" style="background:#eef3fb"></i>delivery point</span>
<span><i class="box" style="background:#f4effa;border-style:dashed;border-color:#7b5ea7"></i>pool</span></div>"""
CUT_LEGEND = """<div class="legend">
<span><i class="box" style="background:#ffe08a;border-color:#b8860b"></i>inside the cut's set</span>
<span><i style="background:var(--full)"></i>leads out of the set</span><span>numbers are capacities</span></div>"""
PICTURE_NOTE = "Hover over an element for its numbers; choose it, by a click or by the Enter key, to see its row alone."


def counts_html(facts: Facts) -> str:
    short, bumped = sum(bool(line.short) for line in facts.lines), sum(bool(line.bumped) for line in facts.lines)
    full = sum(element.room == 0 for element in facts.elements)
    words = [(len(facts.lines), "lines"), (short, "lines with less than confirmed"), (full, "full segments and points")]
    if any(line.bumped is not None for line in facts.lines):
        words.append((bumped, "lines bumped"))
    return f'<div class="counts">{"".join(f"<div><b>{grouped(n)}</b>{escape(word)}</div>" for n, word in words)}</div>'


def totals_html(facts: Facts) -> str:
    rows = []
    for number, asked, given in facts.totals:
        share = 100 * given / asked if asked else 0
        bar = f'<div class="bar"><i style="width:{share:.2f}%"></i></div>'
        rows.append(f'<tr><td>class {number}</td><td class="wide">{bar}</td>'
                    f"<td>{grouped(given)} of {grouped(asked)}</td></tr>")
    return f'<table class="bars">{"".join(rows)}</table>'


def picture_html(facts: Facts, table: str) -> str:
    """The picture; a click on one of its elements shows its row alone in the table of this name."""
    svg, note = picture_of(facts)
    warning = f'<p class="warn">{escape(note)}</p>' if note else ""
    return (f'{warning}<div class="picture" data-table="{table}">{svg}</div>{CUT_LEGEND if facts.is_cut else LEGEND}'
            f'<p class="note">{PICTURE_NOTE}</p>')


def sharing_html(facts: Facts, table: Table) -> str:
    """Who shares what is full: each element with its classes, and then the lines."""
    if not facts.sharings:
        return ""
    left_out = len(facts.sharings) - len(shown_sharings(facts))
    more = f'<p class="warn">{counted(left_out, "more element")}: the formats json and csv have all.</p>' if left_out else ""
    return notes_html(constraint_words(facts)) + table_html(table) + more


def exact_html(facts: Facts) -> str:
    """Of how many lines that are short the reasons are exact."""
    return f'<p class="note">{escape(exact_words(facts.short_lines, facts.exact_reasons))}</p>' if facts.short_lines else ""


def sum_html(sums: Sums) -> str:
    leave, back, flow, excess = map(grouped, sums)
    return (f'<p class="sum"><b>{leave}</b> must leave \u2212 <b>{back}</b> can come back \u2212 <b>{flow}</b> can flow out'
            f" = <b>{excess}</b> too many, the excess</p>")


def set_html(facts: Facts) -> str:
    return f'<p>The set: {escape(set_in_words(facts))}.</p><p class="note">{escape(CUT_NOTE)}</p>'
