"""The line on a terminal that says how far a run is; elsewhere a line each minute."""

import sys
import time
from collections.abc import Callable
from dataclasses import dataclass, field
from typing import TextIO

SECONDS = 0.2  # between two changes of the line
SECONDS_OF_A_LINE = 60.0  # between two lines where there is no terminal


def spoken(seconds: float) -> str:
    """Seconds as people say them."""
    whole = round(seconds)
    if whole < 100:
        return f"{whole} s"
    return f"{whole // 60} min {whole % 60} s" if whole < 6000 else f"{whole // 3600} h {whole % 3600 // 60} min"


@dataclass
class Progress:
    """Counts what is done, and shows it: where standard error is no terminal by a line each minute."""

    total: int
    begun_with: int = 0  # what stood in the table already
    clock: Callable[[], float] = time.monotonic
    stream: TextIO = field(default_factory=lambda: sys.stderr)
    done: int = 0
    failed: int = 0
    shown: float = 0.0

    def __post_init__(self) -> None:
        self.begun = self.shown = self.clock()
        self.done = self.begun_with
        self.is_shown = self.stream.isatty()

    def words(self) -> str:
        taken, made = self.clock() - self.begun, self.done - self.begun_with
        words = f"{self.done} of {self.total}, {self.failed} failed"
        if not made or not taken:
            return words
        left = (self.total - self.done) * taken / made
        return f"{words}, {made / taken:.1f} a second, {spoken(left)} left"

    def count(self, is_failed: bool) -> None:
        self.done, self.failed = self.done + 1, self.failed + is_failed
        self.show()

    def show(self) -> None:
        if self.clock() - self.shown >= (SECONDS if self.is_shown else SECONDS_OF_A_LINE):
            self.shown = self.clock()
            self.stream.write(f"\r\x1b[K{self.words()}" if self.is_shown else f"gasday-fleet: {self.words()}\n")
            self.stream.flush()

    def end(self) -> None:
        """Leaves the line to others."""
        if self.is_shown:
            self.stream.write("\r\x1b[K")
            self.stream.flush()
