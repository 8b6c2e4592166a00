"""What the day after carries over, as `carry` rows of its opening.

This is made of what was told: of each line what it was scheduled last. `gasday carry FILE` tells the same of a day's file, which
belongs to the run that serves it as long as that goes on.
"""

from .rows import Row, row_of
from .view import DayView, Key


def carried_rows(view: DayView) -> list[tuple[Key, int, Row]]:
    """The lines in their order, each with its quantity in the schedule that was published last, where that isn't 0."""
    effect = view.in_effect()
    scheduled = effect.scheduled if effect else []
    found = []
    for line, quantity in zip(view.lines, scheduled, strict=False):
        if quantity:
            found.append((line.key, quantity, row_of("carry", *line.key, quantity)))
    return found
