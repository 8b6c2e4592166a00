"""Who shares an element: the lines that pass it, and how much of it each class and each line has."""

import heapq
from collections.abc import Iterable, Iterator, Mapping, Sequence
from dataclasses import dataclass

from certificate import Question

# So many lines of a class are named where it shares an element, and the rest are counted.
MOST_SHARERS = 4


@dataclass(frozen=True)
class Share:
    """What a line has of an element."""

    line: int
    class_number: int
    floor: int
    scheduled: int


@dataclass(frozen=True)
class ClassShare:
    """What the lines of a class have of an element together."""

    class_number: int
    lines: int
    floor: int
    scheduled: int
    greatest: tuple[Share, ...]  # the lines that have most, those first


@dataclass(frozen=True)
class Sharing:
    """An element that is full, with all lines that may pass it: those of which something was confirmed."""

    element: str
    kind: str
    capacity: int
    usual: int  # the capacity that the pipeline has without a posted one
    load: int
    classes: tuple[ClassShare, ...]
    lines: tuple[Share, ...]


def class_shares(shares: Iterable[Share]) -> Iterator[ClassShare]:
    by_class: dict[int, list[Share]] = {}
    for share in shares:
        by_class.setdefault(share.class_number, []).append(share)
    for number, lines in sorted(by_class.items()):
        greatest = heapq.nsmallest(MOST_SHARERS, lines, key=lambda share: (-share.scheduled, share.line))
        yield ClassShare(number, len(lines), sum(share.floor for share in lines), sum(share.scheduled for share in lines),
                         tuple(greatest))


class Sharings:
    """Looks up who shares a segment or a point of a question, each once."""

    def __init__(self, question: Question, quantities: Sequence[int], loads: Mapping[str, int], usual: Mapping[str, int]) -> None:
        self.question, self.quantities, self.loads, self.usual = question, quantities, loads, usual
        self.place_below = {name: place for place, name in enumerate(question.segment_at) if name}
        # Of each line with its number from 0 where its ends stand in the tree, and the lines of each point.
        self.places = [(question.first[question.place_of(line.origin)], question.first[question.place_of(line.destination)])
                       for line in question.lines]
        self.at_end: dict[str, list[int]] = {}
        for number, line in enumerate(question.lines):
            for end in (line.origin, line.destination):
                self.at_end.setdefault(end, []).append(number)
        self.found: dict[str, Sharing] = {}

    def passing(self, name: str) -> list[int]:
        """The lines that pass an element: a segment where one of their ends alone stands below it."""
        if self.question.elements[name].kind != "segment":
            return self.at_end.get(name, [])
        place = self.place_below[name]
        low, high = self.question.first[place], self.question.first[place] + self.question.size[place]
        return [number for number, (start, end) in enumerate(self.places) if (low <= start < high) != (low <= end < high)]

    def of(self, name: str) -> Sharing:
        if name not in self.found:
            element = self.question.elements[name]
            numbered = [(number, self.question.lines[number]) for number in self.passing(name)]
            lines = tuple(Share(number + 1, line.class_number, line.floor, self.quantities[number]) for number, line in numbered
                          if line.ceiling)
            self.found[name] = Sharing(name, element.kind, element.capacity, self.usual.get(name, element.capacity),
                                       self.loads[name], tuple(class_shares(lines)), lines)
        return self.found[name]
