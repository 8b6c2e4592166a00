"""How much one user, and all together, may have the server do at once.

What is over a bound is refused at once and waits for nothing, so that it holds no thread. Schedulers have bounds of their own:
what shippers, operators and strangers do at once leaves threads free for them, see `serving.THREADS`.
"""

import threading
from collections import Counter
from collections.abc import Callable
from dataclasses import dataclass, field
from typing import NamedTuple


class Bound(NamedTuple):
    of_user: int
    of_all: int
    of_schedulers: int  # of all schedulers, who don't count among the others
    words: str


BOUNDS = {
    "requests": Bound(24, 200, 40, "requests at once"),
    "streams": Bound(4, 48, 16, "pages that wait for events"),
    "uploads": Bound(1, 4, 1, "files at once"),
    "logins": Bound(8, 16, 16, "logins at once"),
}


class TooMany(Exception):
    """Something is over a bound; whether it is the user's own, or that of all."""

    def __init__(self, words: str, is_own: bool) -> None:
        super().__init__(words)
        self.is_own = is_own


@dataclass
class Bounds:
    """What is going on now, counted by kind and by user."""

    lock: threading.Lock = field(default_factory=threading.Lock)
    going: Counter[tuple[str, str]] = field(default_factory=Counter)

    def take(self, kind: str, user: str, is_scheduler: bool = False) -> Callable[[], None]:
        """Counts one more, or refuses it. What is returned is called once when it is over."""
        bound = BOUNDS[kind]
        names = ((kind, f"user {user}"), (kind, "schedulers" if is_scheduler else "all"))
        most = (bound.of_user, bound.of_schedulers if is_scheduler else bound.of_all)
        with self.lock:
            if self.going[names[0]] >= most[0]:
                raise TooMany(f"{most[0]} {bound.words} are the most for one user; try again when one has ended", True)
            if self.going[names[1]] >= most[1]:
                raise TooMany(f"the desk has {most[1]} {bound.words} and takes no more now; try again in a moment", False)
            self.going.update(names)
        return Release(self, names)


class Release:
    """Ends what was counted, once however often it is called."""

    def __init__(self, bounds: Bounds, names: tuple[tuple[str, str], ...]) -> None:
        self.bounds, self.names = bounds, names

    def __call__(self) -> None:
        with self.bounds.lock:
            for name in self.names:
                self.bounds.going[name] -= 1
                if not self.bounds.going[name]:
                    del self.bounds.going[name]
            self.names = ()
