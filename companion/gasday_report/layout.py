"""Where the nodes and edges of a picture stand: by Graphviz's dot where it is installed, else in plain layers."""

import shutil
import subprocess
from collections.abc import Mapping, Sequence
from typing import NamedTuple

INCH = 72
SECONDS = 20
LAYER, SLOT, MARGIN = 250, 50, 60
LETTERS = 15  # how far above its curve a label stands
HEAD = 10  # the length of an arrow's head, which goes on from its curve

Point = tuple[float, float]


class Node(NamedTuple):
    key: str
    width: int
    height: int
    beside: str | None = None  # the key of a node in whose layer this one stands


class Edge(NamedTuple):
    tail: str
    head: str
    label: int  # the width that its label takes, in letters; 0 for none


class Curve(NamedTuple):
    points: list[Point]  # of cubic pieces
    label: Point | None  # the middle of the label


class Layout(NamedTuple):
    width: float
    height: float
    nodes: dict[str, Point]  # the middle of each node, by key
    curves: dict[tuple[str, str], Curve]  # for each tail and head
    by_dot: bool


def dot_source(nodes: Sequence[Node], edges: Sequence[Edge]) -> str:
    """The graph in dot's language. It has numbers in place of names, so nothing in it needs quoting."""
    at = {node.key: number for number, node in enumerate(nodes)}
    rows = ["digraph {", "rankdir=LR; nodesep=0.28; ranksep=0.45;", 'node [shape=box fixedsize=true label=""];',
            'edge [fontsize=12 fontname="Helvetica"];']
    for node in nodes:
        rows.append(f"n{at[node.key]} [width={node.width / INCH:.3f} height={node.height / INCH:.3f}];")
        if node.beside is not None:
            rows.append(f"{{rank=same; n{at[node.key]}; n{at[node.beside]};}}")
    for edge in edges:
        label = f' [label="{"x" * edge.label}\\nx"]' if edge.label else ""
        rows.append(f"n{at[edge.tail]} -> n{at[edge.head]}{label};")
    return "\n".join([*rows, "}"])


def point(words: Sequence[str], height: float) -> Point:
    return float(words[0]) * INCH, height - float(words[1]) * INCH


def read_plain(text: str, nodes: Sequence[Node]) -> Layout:
    """What `dot -Tplain` printed; its y grows upwards."""
    keys, height = [node.key for node in nodes], 0.0
    width: float | None = None
    places: dict[str, Point] = {}
    curves: dict[tuple[str, str], Curve] = {}
    for row in text.splitlines():
        kind, *words = row.split()
        if kind == "graph":
            width, height = float(words[1]) * INCH, float(words[2]) * INCH
        elif kind == "node":
            places[keys[int(words[0][1:])]] = point(words[1:3], height)
        elif kind == "edge":
            count = int(words[2])
            points = [point(words[k:k + 2], height) for k in range(3, 3 + 2 * count, 2)]
            rest = words[3 + 2 * count:]
            label = point(rest[1:3], height) if len(rest) == 5 else None
            curves[keys[int(words[0][1:])], keys[int(words[1][1:])]] = Curve(points, label)
    if width is None:
        raise ValueError("dot tells of no graph")
    return Layout(width, height, places, curves, True)


def by_dot(nodes: Sequence[Node], edges: Sequence[Edge]) -> Layout | None:
    """dot's layout, or None where it isn't there or doesn't end."""
    program = shutil.which("dot")
    if not program or not nodes:
        return None
    try:
        done = subprocess.run([program, "-Tplain"], input=dot_source(nodes, edges), capture_output=True, text=True,
                              timeout=SECONDS)
        return read_plain(done.stdout, nodes) if done.returncode == 0 else None
    except (OSError, subprocess.TimeoutExpired, ValueError, IndexError):
        return None


def neighbours_of(nodes: Sequence[Node], edges: Sequence[Edge]) -> dict[str, list[tuple[str, int]]]:
    """For each node the nodes that an edge joins it to, each with how many layers further it stands."""
    beside = {node.key for node in nodes if node.beside is not None}
    near: dict[str, list[tuple[str, int]]] = {node.key: [] for node in nodes}
    for edge in edges:
        step = 0 if edge.tail in beside or edge.head in beside else 1
        near[edge.tail].append((edge.head, step))
        near[edge.head].append((edge.tail, -step))
    return near


def plain(nodes: Sequence[Node], edges: Sequence[Edge]) -> Layout:
    """A layer for each step along the gas; within the layers the leaves of the tree stand in turn, and each other node
    in the middle of what hangs on it."""
    near = neighbours_of(nodes, edges)
    layer: dict[str, int] = {}
    order: list[str] = []
    above: dict[str, str | None] = {}
    for node in nodes:
        stack: list[tuple[str, str | None, int]] = [] if node.key in layer else [(node.key, None, 0)]
        while stack:
            key, parent, level = stack.pop()
            layer[key], above[key] = level, parent
            order.append(key)
            stack += [(other, key, level + step) for other, step in reversed(near[key]) if other != parent]
    slots: dict[str, float] = {}
    hanging: dict[str | None, list[float]] = {}
    used = 0
    for key in reversed(order):
        below = hanging.get(key)
        slots[key] = sum(below) / len(below) if below else used
        used += not below
        hanging.setdefault(above[key], []).append(slots[key])
    least = min(layer.values())
    places = apart({key: (MARGIN + 60 + (layer[key] - least) * LAYER, MARGIN + (used - 1 - slots[key]) * SLOT) for key in order})
    size = {node.key: node for node in nodes}
    curves = {(edge.tail, edge.head): straight(places, size, edge, near) for edge in edges}
    width = max(x for x, _ in places.values()) + MARGIN + 60
    return Layout(width, max(y for _, y in places.values()) + MARGIN, places, curves, False)


def apart(places: Mapping[str, Point]) -> dict[str, Point]:
    """Moves nodes of one layer that would touch one another downwards."""
    moved: dict[str, Point] = {}
    last: dict[float, float] = {}
    for key, (x, y) in sorted(places.items(), key=lambda item: item[1][1]):
        y = max(y, last.get(x, -SLOT) + SLOT)
        moved[key], last[x] = (x, y), y
    return moved


def straight(places: Mapping[str, Point], size: Mapping[str, Node], edge: Edge,
             near: Mapping[str, Sequence[tuple[str, int]]]) -> Curve:
    """A curve from a node's right side to the next one's left side; where they stand in one layer straight down, or round what
    stands between them. The label stands towards the end with fewer curves, where the curve is by itself, on the side that
    the curve turns away from."""
    (x1, y1), (x2, y2) = places[edge.tail], places[edge.head]
    head = HEAD if size[edge.tail].beside is not None else 0
    if x1 == x2 and abs(y2 - y1) > 1.5 * SLOT:
        x1, x2 = x1 - size[edge.tail].width / 2, x2 - size[edge.head].width / 2 - head
        left = min(x1, x2) - 30
        return Curve([(x1, y1), (left, y1), (left, y2), (x2, y2)], None)
    if x1 == x2:
        down = 1 if y2 > y1 else -1
        y1, y2 = y1 + down * size[edge.tail].height / 2, y2 - down * (size[edge.head].height / 2 + head)
    else:
        x1, x2 = x1 + size[edge.tail].width / 2, x2 - size[edge.head].width / 2 - HEAD
    middle = (x1 + x2) / 2
    points = [(x1, y1), (middle, y1), (middle, y2), (x2, y2)]
    leaving, entering = sum(step > 0 for _, step in near[edge.tail]), sum(step < 0 for _, step in near[edge.head])
    share = 0.3 if leaving <= entering else 0.7
    start, other = (y1, y2) if share < 0.5 else (y2, y1)
    label = x1 + share * (x2 - x1), start - LETTERS if other >= start else start + LETTERS
    return Curve(points, label if edge.label else None)


def laid_out(nodes: Sequence[Node], edges: Sequence[Edge]) -> Layout:
    return by_dot(nodes, edges) or plain(nodes, edges)
