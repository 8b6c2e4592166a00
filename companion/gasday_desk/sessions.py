"""The sessions of users who logged in, in a table of `desk.db`. A browser has the number of its session alone.

A session ends a fixed time after its login, at the log-out, and when its user is removed or gets another password, party or role.
"""

import secrets
import threading
from typing import NamedTuple

from .clock import JUMP, Clock
from .journal import Journal
from .people import token_hash

SECONDS = 12 * 3600
# A user has so many sessions at most; the oldest one ends when another one begins.
MOST_OF_USER = 20


class Session(NamedTuple):
    user: str
    key: str  # which password, party and role of the user it is good for
    began: int


class Sessions:
    """All sessions, read once and then changed here and in the table. The table has hashes of their numbers alone."""

    def __init__(self, journal: Journal, clock: Clock) -> None:
        self.journal, self.clock, self.lock = journal, clock, threading.Lock()
        records = journal.read("SELECT id, user, key, began FROM session ORDER BY began")
        self.found = {str(record[0]): Session(str(record[1]), str(record[2]), int(str(record[3]))) for record in records}

    def begin(self, user: str, key: str) -> str:
        """The number of a new session."""
        number = secrets.token_urlsafe(32)
        with self.lock:
            own = [one for one, session in self.found.items() if session.user == user]
            over = [one for one, session in self.found.items() if not self.is_on(session)]
            for one in {*over, *own[:len(own) + 1 - MOST_OF_USER]}:
                self.drop(one)
            made = self.found[token_hash(number)] = Session(user, key, int(self.clock.now()))
            self.journal.write("INSERT INTO session VALUES (?, ?, ?, ?)", (token_hash(number), *made))
        return number

    def find(self, number: str) -> Session | None:
        """The session of a number, if it is still on."""
        found = self.found.get(token_hash(number))
        return found if found and self.is_on(found) else None

    def is_on(self, session: Session) -> bool:
        return -JUMP <= self.clock.now() - session.began < SECONDS

    def end(self, number: str) -> None:
        with self.lock:
            self.drop(token_hash(number))

    def drop(self, hashed: str) -> None:
        if self.found.pop(hashed, None):
            self.journal.write("DELETE FROM session WHERE id = ?", (hashed,))
