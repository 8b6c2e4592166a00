"""A histogram for each class, as SVG: how many scenarios lose how much of it."""

from collections import Counter
from typing import NamedTuple

from gasday_report.words import grouped

from .summary import ClassFact

MOST_BARS = 24
WIDTH, HEIGHT, LEFT, BOTTOM, TOP = 420, 190, 46, 34, 12


class Bars(NamedTuple):
    """Bars of one width in dekatherms, the first from `start` on. Below zero is a gain."""

    start: int
    width: int
    counts: list[int]


def nice(width: int) -> int:
    """The least of 1, 2, 5, 10, 20, 50 and so on that isn't less."""
    step = 1
    while True:
        for factor in (1, 2, 5):
            if factor * step >= width:
                return factor * step
        step *= 10


def bars_of(losses: list[int]) -> Bars:
    least, greatest = min(losses), max(losses)
    width = nice(max(1, -(-(greatest - least + 1) // (MOST_BARS - 1))))
    start = least // width * width
    counts = Counter((loss - start) // width for loss in losses)
    return Bars(start, width, [counts[at] for at in range((greatest - start) // width + 1)])


def in_short(number: int) -> str:
    """A number for an axis."""
    for size, letter in ((1_000_000, "M"), (1_000, "k")):
        if abs(number) >= 10 * size:
            return f"{number / size:g}{letter}"
    return str(number)


def bar_svg(bars: Bars, at: int, room: float, scale: float) -> str:
    count, first = bars.counts[at], bars.start + at * bars.width
    height = count * scale
    x, y = LEFT + at * room, HEIGHT - BOTTOM - height
    range_of = f"{first}" if bars.width == 1 else f"{first} to {first + bars.width - 1}"
    return (f'<g class="bin"><title>{count} scenarios lose {range_of}</title>'
            f'<rect x="{x + 0.5:.1f}" y="{y:.1f}" width="{max(room - 1, 1):.1f}" height="{height:.1f}"/></g>')


def axis_svg(bars: Bars, room: float, most: int) -> str:
    base, count = HEIGHT - BOTTOM, len(bars.counts)
    every = max(1, -(-count // 6))
    marks = [f'<text x="{LEFT + at * room:.1f}" y="{base + 14}">{in_short(bars.start + at * bars.width)}</text>'
             for at in range(0, count + 1, every) if LEFT + at * room < WIDTH - 12]
    return (f'<path class="axis" d="M{LEFT} {base}H{WIDTH - 6}"/>{"".join(marks)}'
            f'<text class="count" x="{LEFT - 6}" y="{TOP + 9}">{most}</text>'
            f'<text class="count" x="{LEFT - 6}" y="{base}">0</text>'
            f'<text x="{(LEFT + WIDTH) / 2:.0f}" y="{HEIGHT - 4}">lost, in dekatherms</text>')


def histogram_of(fact: ClassFact) -> str:
    """The picture of a class; nothing where no scenario has a schedule."""
    if not fact.losses:
        return ""
    bars = bars_of(fact.losses)
    most, room = max(bars.counts), (WIDTH - LEFT - 10) / max(len(bars.counts), 8)
    scale = (HEIGHT - BOTTOM - TOP) / most
    drawn = "".join(bar_svg(bars, at, room, scale) for at in range(len(bars.counts)) if bars.counts[at])
    return (f'<figure><figcaption>class {fact.class_number}, {grouped(fact.total)} in the base</figcaption>'
            f'<svg class="histogram" viewBox="0 0 {WIDTH} {HEIGHT}" role="img"'
            f' aria-label="What class {fact.class_number} loses">{drawn}{axis_svg(bars, room, most)}</svg></figure>')
