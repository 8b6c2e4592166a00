"""What is told on standard error."""

from collections import Counter
from dataclasses import dataclass, field


@dataclass(slots=True)
class Place:
    """A line of a source, counted from 1 as an editor does."""

    source: str
    line: int

    def __str__(self) -> str:
        return f"{self.source}:{self.line}"


@dataclass
class Log:
    """What is told, and how much of it was repaired or could not be."""

    is_each_told: bool = False  # not only the doubtful ones
    notes: list[str] = field(default_factory=list)
    told: list[tuple[Place, str, str]] = field(default_factory=list)  # what is told of a place, and by what it is told once
    alike: Counter[tuple[str, str]] = field(default_factory=Counter)  # how often, by the source and by what it is told once
    sources: list[str] = field(default_factory=list)  # in the order in which they are told of
    repairs: Counter[str] = field(default_factory=Counter)
    first: dict[str, Place] = field(default_factory=dict)
    errors: int = 0

    def note(self, source: str, what: str) -> None:
        """Tells of a whole source what is no repair."""
        self.notes.append(f"{source}: {what}\n")

    def repair(self, place: Place, kind: str, what: str, is_doubtful: bool = False, once: str = "") -> None:
        """Counts a repair among those of its kind. One that people have to look at is told by itself; of those of a source
        that are alike by `once` the first alone, with the number of the others."""
        self.repairs[kind] += 1
        if self.repairs[kind] == 1:
            self.first[kind] = place
        once = once if is_doubtful and not self.is_each_told else ""
        if once:
            self.alike[place.source, once] += 1
        if self.is_each_told or (is_doubtful and self.alike[place.source, once] < 2):
            self.told.append((place, what, once))

    def error(self, place: Place, what: str) -> None:
        self.errors += 1
        self.told.append((place, f"error: {what}", ""))

    def others(self, place: Place, once: str) -> str:
        """How many more there are of which one is told."""
        more = self.alike[place.source, once] - 1 if once else 0
        return f" (and {more} more in this file)" if more > 0 else ""

    def by_line(self) -> list[str]:
        order = {name: at for at, name in enumerate(dict.fromkeys([*self.sources, *(one[0].source for one in self.told)]))}
        told = sorted(self.told, key=lambda one: (order[one[0].source], one[0].line))
        return [f"{place}: {what}{self.others(place, once)}\n" for place, what, once in told]

    def lines(self, is_refused: bool) -> list[str]:
        """All that is told: the repairs by their kinds first, the most frequent before the others."""
        if not self.repairs and not self.errors:
            return self.notes
        end = "; nothing is written" if is_refused else ""
        head = f"gasday-import: {self.repairs.total()} repairs, {self.errors} not repaired{end}\n"
        kinds = [f"{count:9} {kind}, {'the first ' if count > 1 else ''}at {self.first[kind]}\n"
                 for kind, count in self.repairs.most_common()]
        return [*self.notes, head, *kinds, *self.by_line()]
