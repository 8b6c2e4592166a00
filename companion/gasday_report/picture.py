"""A picture of the pipeline, as SVG: a segment is the wider the more it carries, and its colour says how full it is."""

import heapq
import math
from collections import deque
from collections.abc import Collection, Iterator, Sequence
from html import escape
from typing import NamedTuple

from certificate import Question

from .facts import ElementFact, Facts
from .layout import HEAD, Edge, Layout, Node, Point, laid_out
from .words import grouped

# A pipeline with more places, or more points and pools, is drawn in part, and the part has these many.
MOST_PLACES, MOST_ENDS = 60, 90
PART_PLACES, PART_ENDS = 30, 40
WITH_TROUBLE = "with what is full or has a price, and what carries most"
WIDEST, NARROWEST = 12, 1.5
LETTER, HEIGHT = 6.6, 26
BESIDE = 17  # a label's middle stands so far from its line's edge at least


class Part(NamedTuple):
    """The part of a pipeline that is drawn."""

    places: list[str]
    segments: list[ElementFact]
    ends: list[ElementFact]
    note: str  # what is left out; empty where all is drawn


def is_trouble(element: ElementFact) -> bool:
    """Whether an element leads out of a cut's set, has a price, or is full of what it carries."""
    return element.cut_capacity is not None or element.price is not None or bool(element.room == 0 and element.load)


def weight_of(element: ElementFact) -> tuple[bool, int, int]:
    """How much an element matters in the picture: trouble first, and then what is carried."""
    return (is_trouble(element), element.load or 0, element.capacity or 0)


def way_between(asked: Question, start: int, taken: Collection[int]) -> list[int]:
    """The places from one to the nearest of some others, over as few segments as there are."""
    came: dict[int, int | None] = {start: None}
    waiting = deque([start])
    near = neighbours_in(asked)
    while waiting:
        place = waiting.popleft()
        if place in taken:
            way = [place]
            while (before := came[way[-1]]) is not None:
                way.append(before)
            return way
        for other in near[place]:
            if other not in came:
                came[other] = place
                waiting.append(other)
    return [start]


def neighbours_in(asked: Question) -> list[list[int]]:
    near: list[list[int]] = [[] for _ in asked.parent]
    for place in range(1, len(asked.parent)):
        near[place].append(asked.parent[place])
        near[asked.parent[place]].append(place)
    return near


def troubled_places(facts: Facts) -> list[str]:
    """The places of trouble, the weightiest first, with the ways that join them, as far as a part has room for them."""
    names, at = list(facts.asked.places), facts.asked.places
    taken: dict[int, None] = {}
    for element in sorted(filter(is_trouble, facts.elements), key=weight_of, reverse=True)[:PART_PLACES]:
        for place in (element.start, element.end):
            if place and at[place] not in taken:
                way = way_between(facts.asked, at[place], taken) if taken else [at[place]]
                if len({*taken, *way}) <= PART_PLACES:
                    taken.update(dict.fromkeys(way))
    return [names[place] for place in taken]


def busiest_part(facts: Facts) -> tuple[list[str], list[ElementFact]]:
    """Grows from the places of trouble, or from the segment that carries most, each time by the one that matters most of
    those that touch the part."""
    segments = [element for element in facts.elements if element.kind == "segment"]
    at: dict[str, list[int]] = {}
    for number, segment in enumerate(segments):
        for place in (segment.start, segment.end):
            at.setdefault(place, []).append(number)
    first = max(segments, key=weight_of)
    places: dict[str, None] = dict.fromkeys(troubled_places(facts) or [first.start])
    taken = [segment for segment in segments if segment.start in places and segment.end in places]
    waiting = [entry(segments, k) for k in sorted({k for place in places for k in at[place]})]
    heapq.heapify(waiting)
    while waiting and len(places) < PART_PLACES:
        segment = segments[heapq.heappop(waiting)[-1]]
        new = [place for place in (segment.start, segment.end) if place not in places]
        if new:
            taken.append(segment)
            places[new[0]] = None
            for k in at[new[0]]:
                heapq.heappush(waiting, entry(segments, k))
    return list(places), taken


def entry(segments: Sequence[ElementFact], k: int) -> tuple[int, ...]:
    return (*(-x for x in weight_of(segments[k])), k)


def part_of(facts: Facts) -> Part:
    everywhere = list(facts.asked.places)
    places, segments = everywhere, [element for element in facts.elements if element.kind == "segment"]
    all_ends = [element for element in facts.elements if element.kind != "segment"]
    if len(places) > MOST_PLACES:
        places, segments = busiest_part(facts)
    kept = [element for element in all_ends if element.start in set(places)]
    if len(kept) > MOST_ENDS or len(places) < len(everywhere):
        kept = sorted(kept, key=weight_of, reverse=True)[:PART_ENDS]
    note = ""
    if len(places) < len(everywhere) or len(kept) < len(all_ends):
        kind = "that matters most to the cut" if facts.is_cut else WITH_TROUBLE if any(map(is_trouble, facts.elements)) else \
            "that carries most"
        note = (f"The pipeline is too large for a picture: this is the part {kind}, {len(places)} of {len(everywhere):,}"
                f" places with {len(kept)} of {len(all_ends):,} points and pools. The tables have all of them.")
    return Part(places, segments, kept, note)


def style_of(element: ElementFact) -> str:
    """The class of the style sheet that says how full an element is."""
    if element.cut_capacity is not None:
        return "way-out"
    load, capacity = element.load, element.capacity
    if load is None or capacity is None:
        return "plain"
    if load == 0:
        return "idle"
    if load == capacity:
        return "full"
    if 2 * load < capacity:
        return "low"
    return "high" if 10 * load >= 9 * capacity else "middle"


def amount_of(element: ElementFact) -> str:
    if element.load is None:
        return "" if element.capacity is None else grouped(element.capacity)
    if element.kind == "pool":
        return f"{grouped(element.load)} through"
    return f"{grouped(element.load)} / {grouped(element.capacity or 0)}"


def hover_of(element: ElementFact) -> str:
    words = [f"{element.kind} {element.name}"]
    if element.kind == "segment":
        words.append(f"from {element.start} to {element.end}")
    if element.load is not None:
        load = grouped(element.load)
        words.append(f"{load} in and out" if element.kind == "pool" else
                     f"load {load}, capacity {grouped(element.capacity or 0)}, room {grouped(element.room or 0)}")
    elif element.capacity is not None:
        words.append(f"capacity {grouped(element.capacity)}")
    if element.cut_capacity is not None:
        words.append("leads out of the cut's set")
    return escape("\n".join(words))


def width_for(load: int | None, greatest: int) -> float:
    return NARROWEST + (WIDEST - NARROWEST) * (load or 0) / greatest if greatest else NARROWEST


def box_width(*words: str) -> int:
    return max(int(max(map(len, words)) * LETTER) + 20, 44)


def curve_of(points: Sequence[Point]) -> str:
    (x, y), rest = points[0], points[1:]
    return f"M{x:.1f} {y:.1f}C" + " ".join(f"{px:.1f} {py:.1f}" for px, py in rest)


def arrow_of(points: Sequence[Point], width: float) -> str:
    """A head that goes on from a curve's end, along its last piece."""
    x, y = points[-1]
    near = next(((px, py) for px, py in reversed(points[:-1]) if (px, py) != (x, y)), (x - 1, y))
    dx, dy = x - near[0], y - near[1]
    length = (dx * dx + dy * dy) ** 0.5
    dx, dy, side = dx / length, dy / length, 3 + width * 0.75
    return (f"M{x + dx * HEAD:.1f} {y + dy * HEAD:.1f}L{x - dy * side:.1f} {y + dx * side:.1f}"
            f"L{x + dy * side:.1f} {y - dx * side:.1f}Z")


def edge_svg(element: ElementFact, points: Sequence[Point], greatest: int) -> str:
    width = width_for(element.load, greatest)
    arrow = "" if element.kind == "pool" else f'<path class="head" d="{arrow_of(points, width)}"/>'
    return (f'<g class="edge {element.kind} {style_of(element)}" data-name="{escape(element.name)}">'
            f"<title>{hover_of(element)}</title>"
            f'<path class="line" d="{curve_of(points)}" stroke-width="{width:.1f}"/>{arrow}</g>')


def beside(label: Point, points: Sequence[Point], width: float) -> Point:
    """Moves a label away from its line, until it stands beside it however thick it is."""
    nearest = min(points_along(points), key=lambda point: math.dist(point, label))
    far = math.dist(nearest, label)
    dx, dy = ((label[0] - nearest[0]) / far, (label[1] - nearest[1]) / far) if far > 1 else (0.0, -1.0)
    more = max(width / 2 + BESIDE - far, width / 2 if far < 2 * BESIDE else 0.0, 0.0)
    return label[0] + dx * more, label[1] + dy * more


def points_along(points: Sequence[Point]) -> Iterator[Point]:
    """Some points of a curve of cubic pieces."""
    for k in range(0, len(points) - 3, 3):
        piece = points[k:k + 4]
        for step in range(11):
            t = step / 10
            shares = ((1 - t) ** 3, 3 * t * (1 - t) ** 2, 3 * t * t * (1 - t), t ** 3)
            yield (sum(share * x for share, (x, _) in zip(shares, piece, strict=True)),
                   sum(share * y for share, (_, y) in zip(shares, piece, strict=True)))


def label_svg(segment: ElementFact, middle: Point, points: Sequence[Point], greatest: int) -> str:
    """A segment's name and load, beside its line."""
    x, y = beside(middle, points, width_for(segment.load, greatest))
    return (f'<g class="label" data-name="{escape(segment.name)}"><title>{hover_of(segment)}</title>'
            f'<text x="{x:.1f}" y="{y - 2:.1f}">{escape(segment.name)}</text>'
            f'<text class="amount" x="{x:.1f}" y="{y + 9:.1f}">{escape(amount_of(segment))}</text></g>')


def end_svg(element: ElementFact, middle: Point, width: float) -> str:
    x, y = middle
    inside, amount = " inside" if element.inside else "", amount_of(element)
    round_by = HEIGHT / 2 if element.kind == "pool" else 3
    return (f'<g class="end {element.kind} {style_of(element)}{inside}" data-name="{escape(element.name)}">'
            f"<title>{hover_of(element)}</title>"
            f'<rect x="{x - width / 2:.1f}" y="{y - 16}" width="{width}" height="32" rx="{round_by}"/>'
            f'<text x="{x:.1f}" y="{y - 3 if amount else y + 4:.1f}">{escape(element.name)}</text>'
            f'<text class="amount" x="{x:.1f}" y="{y + 10:.1f}">{escape(amount)}</text></g>')


def place_svg(name: str, middle: Point, width: float, inside: bool) -> str:
    x, y = middle
    mark = " inside" if inside else ""
    return (f'<g class="place{mark}"><title>place {escape(name)}</title>'
            f'<rect x="{x - width / 2:.1f}" y="{y - 13:.1f}" width="{width}" height="26" rx="13"/>'
            f'<text x="{x:.1f}" y="{y + 4:.1f}">{escape(name)}</text></g>')


def graph_of(part: Part) -> tuple[list[Node], list[Edge]]:
    """The nodes and edges of a part. A key begins with the kind, since places have names of their own. Receipt points and pools
    stand in the column of their place, and delivery points behind it."""
    nodes = [Node("place " + name, box_width(name) + 8, HEIGHT) for name in part.places]
    edges = [Edge("place " + s.start, "place " + s.end, max(len(s.name), len(amount_of(s)))) for s in part.segments]
    for end in part.ends:
        key, place = "end " + end.name, "place " + end.start
        nodes.append(Node(key, box_width(end.name, amount_of(end)), 32, place if end.kind != "delivery" else None))
        edges.append(Edge(key, place, 0) if end.kind == "receipt" else Edge(place, key, 0))
    return nodes, edges


def svg_of(layout: Layout, drawn: Sequence[str]) -> str:
    """The picture of what was drawn, of its own size at most."""
    width, height = layout.width + 16, layout.height + 16
    return (f'<svg class="fits" viewBox="-8 -8 {width:.0f} {height:.0f}" width="{1.3 * width:.0f}" height="{1.3 * height:.0f}"'
            f' role="group" aria-label="The pipeline">{"".join(drawn)}</svg>')


def picture_of(facts: Facts) -> tuple[str, str]:
    """The picture, and what has to be said of it."""
    part = part_of(facts)
    nodes, edges = graph_of(part)
    layout = laid_out(nodes, edges)
    elements = [*part.segments, *part.ends]
    greatest = max((element.load or 0 for element in elements), default=0)
    width = {node.key: node.width for node in nodes}
    inside = {name for kind, name in facts.members if kind == "place"}
    drawn = []
    curves = [layout.curves[edge.tail, edge.head] for edge in edges]
    drawn += [edge_svg(element, points, greatest) for element, (points, _) in zip(elements, curves, strict=True)]
    for name in part.places:
        key = "place " + name
        drawn.append(place_svg(name, layout.nodes[key], width[key], name in inside))
    labels = [(element, label, points) for element, (points, label) in zip(elements, curves, strict=True) if label]
    drawn += [label_svg(element, label, points, greatest) for element, label, points in labels]
    drawn += [end_svg(end, layout.nodes["end " + end.name], width["end " + end.name]) for end in part.ends]
    return svg_of(layout, drawn), part.note
