"""A picture of the pipeline, as SVG: a segment is the wider the more it carries in the base, and its colour says in how many
scenarios it binds."""

from html import escape

from gasday_report import picture
from gasday_report.facts import ElementFact as Drawn
from gasday_report.facts import Facts
from gasday_report.layout import Point, laid_out

from .summary import ElementFact, Summary

# The classes of the style sheet, each with the percent of the scenarios from which on an element has it.
COLOURS = ((50, "full"), (10, "high"), (1, "middle"), (0, "low"))
LEGEND = """<div class="legend"><span><i style="background:var(--idle)"></i>never binds</span>
<span><i style="background:var(--low)"></i>in less than 1 % of the scenarios</span>
<span><i style="background:var(--middle)"></i>from 1 %</span><span><i style="background:var(--high)"></i>from 10 %</span>
<span><i style="background:var(--full)"></i>in at least half of them</span><span>the wider, the more it carries in the base</span>
<span><i class="box" style="background:#eef7ef"></i>receipt point</span>
<span><i class="box" style="background:#eef3fb"></i>delivery point</span></div>"""


def share_of(count: int, of: int) -> str:
    """A share in words: what isn't nothing or all is never told so."""
    if count in (0, of):
        return f"{100 * count // of if of else 0} %"
    return f"{min(max(100 * count / of, 0.1), 99.9):.1f} %"


def colour_of(fact: ElementFact, of: int) -> str:
    if not fact.binds:
        return "idle"
    return next(name for percent, name in COLOURS if 100 * fact.binds >= percent * of)


def hover_of(fact: ElementFact, of: int) -> str:
    way = f", from {fact.start} to {fact.end}" if fact.kind == "segment" else f" at {fact.start}"
    return escape(f"{fact.kind} {fact.name}{way}\nin the base {fact.load} of {fact.capacity}\n"
                  f"binds in {fact.binds} of {of} scenarios ({share_of(fact.binds, of)}), is full in {fact.full}")


def drawn(fact: ElementFact) -> Drawn:
    """The element as the report draws it: what binds most often matters most."""
    return Drawn(fact.name, fact.kind, fact.start, fact.end, "", fact.capacity, fact.binds, None, None, None, None)


def part_of(summary: Summary) -> picture.Part:
    everything = Facts(summary.book, 0, 0, [], [drawn(fact) for fact in summary.elements], [], None, [], summary.solved.asked)
    part = picture.part_of(everything)
    return part._replace(note=part.note.replace("that carries most", "around what binds most often"))


def edge_svg(fact: ElementFact, points: list[Point], greatest: int, of: int) -> str:
    width = picture.width_for(fact.load, greatest)
    return (f'<g class="edge {fact.kind} {colour_of(fact, of)}" data-name="{escape(fact.name)}">'
            f"<title>{hover_of(fact, of)}</title>"
            f'<path class="line" d="{picture.curve_of(points)}" stroke-width="{width:.1f}"/>'
            f'<path class="head" d="{picture.arrow_of(points, width)}"/></g>')


def label_svg(fact: ElementFact, middle: Point, points: list[Point], greatest: int, of: int) -> str:
    x, y = picture.beside(middle, points, picture.width_for(fact.load, greatest))
    return (f'<g class="label" data-name="{escape(fact.name)}"><title>{hover_of(fact, of)}</title>'
            f'<text x="{x:.1f}" y="{y - 2:.1f}">{escape(fact.name)}</text>'
            f'<text class="amount" x="{x:.1f}" y="{y + 9:.1f}">{share_of(fact.binds, of)}</text></g>')


def end_svg(fact: ElementFact, middle: Point, width: float, of: int) -> str:
    x, y = middle
    return (f'<g class="end {fact.kind} {colour_of(fact, of)}" data-name="{escape(fact.name)}">'
            f"<title>{hover_of(fact, of)}</title>"
            f'<rect x="{x - width / 2:.1f}" y="{y - 16:.1f}" width="{width}" height="32" rx="3"/>'
            f'<text x="{x:.1f}" y="{y - 3:.1f}">{escape(fact.name)}</text>'
            f'<text class="amount" x="{x:.1f}" y="{y + 10:.1f}">{share_of(fact.binds, of)}</text></g>')


def picture_of(summary: Summary) -> tuple[str, str]:
    """The picture, and what has to be said of it."""
    part, of = part_of(summary), len(summary.scenarios)
    facts = {fact.name: fact for fact in summary.elements}
    nodes, edges = picture.graph_of(part)
    layout, width = laid_out(nodes, edges), {node.key: node.width for node in nodes}
    shown = [facts[element.name] for element in (*part.segments, *part.ends)]
    greatest = max((fact.load for fact in shown), default=0)
    curves = [layout.curves[edge.tail, edge.head] for edge in edges]
    parts = [edge_svg(fact, curve.points, greatest, of) for fact, curve in zip(shown, curves, strict=True)]
    for name in part.places:
        parts.append(picture.place_svg(name, layout.nodes["place " + name], width["place " + name], False))
    parts += [label_svg(fact, curve.label, curve.points, greatest, of)
              for fact, curve in zip(shown, curves, strict=True) if curve.label]
    parts += [end_svg(facts[end.name], layout.nodes["end " + end.name], width["end " + end.name], of) for end in part.ends]
    return picture.svg_of(layout, parts), part.note
