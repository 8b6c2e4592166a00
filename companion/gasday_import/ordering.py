"""The order of the rows."""

import bisect
import heapq

from .forms import EVENT, PIPELINE
from .log import Log
from .rows import Row


def joined(segments: list[Row], log: Log) -> list[Row]:
    """The segment rows so that each joins the tree: the first, and then always the first of the rest that joins."""
    at_place: dict[str, list[int]] = {}
    for at, row in enumerate(segments):
        for end in row.places():
            at_place.setdefault(end, []).append(at)
    known: set[str] = set()
    done: set[int] = set()
    order, ready = [], [0] if segments else []
    while ready:
        at = heapq.heappop(ready)
        ends = segments[at].places()
        if at not in done and len(ends) == 2 and not ends <= known:
            done.add(at)
            order.append(segments[at])
            for end in ends - known:
                for other in at_place[end]:
                    heapq.heappush(ready, other)
            known |= ends
    for row in (row for at, row in enumerate(segments) if at not in done):
        log.error(row.place, "the segment joins the tree at no place, or closes a loop")
    return order


def blocks_of(head: list[Row]) -> list[list[Row]]:
    """The rows before the first event row by block. Where there are several day rows, as in an office alone, a segment
    row behind a day or carry row begins one."""
    if sum(row.kind == "day" for row in head) < 2:
        return [head]
    blocks: list[list[Row]] = [[]]
    before = ""
    for row in head:
        if row.kind == "segment" and before in ("day", "carry"):
            blocks.append([])
        blocks[-1].append(row)
        before = row.kind
    return blocks


def in_order(block: list[Row], log: Log) -> list[Row]:
    """The rows of a block by stage. Where a segment moves, or a point or pool comes before its place, segments stand
    first: elements are numbered kind by kind, so that nothing else changes by it."""
    rows = sorted(block, key=lambda row: row.stage)
    pipeline = [row for row in rows if row.stage == PIPELINE]
    segments = [row for row in pipeline if row.kind == "segment"]
    order = joined(segments, log)
    brought: dict[str, int] = {}
    for at, row in enumerate(pipeline):
        for place in row.places() if row.kind == "segment" else ():
            brought.setdefault(place, at)
    is_late = any(brought.get(place, at) > at for at, row in enumerate(pipeline) for place in row.places())
    is_good = order == segments and not is_late
    return rows if is_good else order + [row for row in rows if row.kind != "segment"]


def staying(order: list[int]) -> set[int]:
    """The longest rising part of the numbers, as a set: those rows need not move."""
    least: list[int] = []
    ends: list[int] = []
    before: dict[int, int | None] = {}
    for number in order:
        at = bisect.bisect(least, number)
        before[number] = ends[at - 1] if at else None
        least[at : at + 1] = ends[at : at + 1] = [number]
    part, last = set(), ends[-1] if ends else None
    while last is not None:
        part.add(last)
        last = before[last]
    return part


def tell_moved(order: list[Row], log: Log) -> None:
    """Tells the fewest rows that moved, each with the one that it now stands behind."""
    stay = staying([row.at for row in order])
    before: Row | None = None
    for row in order:
        if row.at not in stay:
            behind = f"behind line {before.line} of {before.source}" if before else "to the front"
            log.repair(row.place, "rows moved", f"{row.kind} row moved {behind}")
        before = row


def put_in_order(rows: list[Row], log: Log) -> list[Row]:
    """The rows in the order that `gasday` takes; event rows, and what stands among them, stay as they are."""
    for at, row in enumerate(rows):
        row.at = at
    first = next((row.at for row in rows if row.stage == EVENT), len(rows))
    head, events = rows[:first], rows[first:]
    order = [row for block in blocks_of(head) for row in in_order(block, log)]
    if order != head:
        tell_moved(order, log)
    return order + events
