"""The server's clock, and the guard that stops calls where it can't be trusted."""

import threading
import time
from collections.abc import Callable
from dataclasses import dataclass, field

# A step of more than this many seconds, ahead of what has passed, is a jump.
JUMP = 60.0


class Clock:
    """Moments are whole seconds since 1970-01-01T00:00:00Z; ticks go on evenly whatever becomes of the moments."""

    def now(self) -> float:
        return time.time()

    def ticks(self) -> float:
        return time.monotonic()


class Stopped(Exception):
    """The clock went back or jumped; no call is made until a scheduler confirms it."""


@dataclass
class Guard:
    """Looks at the clock each second and before each call. Why calls are stopped is kept, so that it outlives the server."""

    clock: Clock
    keep: Callable[[str], None]  # keeps why calls are stopped, or that they aren't
    reason: str = ""
    last: int = 0  # the greatest moment of a call so far
    lock: threading.Lock = field(default_factory=threading.Lock)
    offset: float | None = None

    def look(self) -> None:
        """Compares the clock with what has passed since the last look."""
        with self.lock:
            self.compare(self.clock.now())

    def compare(self, now: float) -> None:
        offset = now - self.clock.ticks()
        step = 0.0 if self.offset is None else offset - self.offset
        self.offset = offset
        if step > JUMP:
            self.stop(f"the server's clock jumped ahead by {step:.0f} seconds")
        elif step <= -1:
            self.stop(f"the server's clock went back by {-step:.0f} seconds")
        elif int(now) < self.last:
            self.stop(f"the server's clock is {self.last - int(now)} seconds behind the last call")

    def stop(self, reason: str) -> None:
        if not self.reason:
            self.reason = reason
            self.keep(reason)

    def moment(self) -> int:
        """The moment of a call that is made now."""
        with self.lock:
            now = self.clock.now()
            self.compare(now)
            if self.reason:
                raise Stopped(self.reason)
            self.last = max(self.last, int(now))
            return int(now)

    def confirm(self) -> None:
        """A scheduler has looked at the clock: it is right from now on."""
        with self.lock:
            now = self.clock.now()
            self.offset, self.last, self.reason = now - self.clock.ticks(), int(now), ""
            self.keep("")
