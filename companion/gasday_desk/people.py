"""Passwords, tokens of other programs, and how often a wrong password may be tried."""

import hashlib
import hmac
import secrets
import threading
from collections import OrderedDict, deque
from dataclasses import dataclass, field

from .clock import Clock

# The form that werkzeug has for scrypt: scrypt:N:r:p$salt$hash. Its version in Debian 12 doesn't know it yet.
COST, BLOCK, PARALLEL = 2**15, 8, 1
# So many wrong passwords a minute: for a user at an address, for a user at all addresses, and for an address. The last is high,
# since all users of a company may come from one address: the tries of one of them must not keep the others out.
TRIES_SECONDS = 60.0
PAIR_TRIES, USER_TRIES, ADDRESS_TRIES = 5, 20, 100
MOST_NAMES = 10_000
# What no password has, so that an unknown user takes as long as a known one.
NOBODY = f"scrypt:{COST}:{BLOCK}:{PARALLEL}$nobody$" + "0" * 128


def scrypted(password: str, salt: str, cost: int = COST, block: int = BLOCK, parallel: int = PARALLEL) -> str:
    memory = 132 * cost * block * parallel
    return hashlib.scrypt(password.encode(), salt=salt.encode(), n=cost, r=block, p=parallel, maxmem=memory).hex()


def hash_of(password: str) -> str:
    salt = secrets.token_urlsafe(16)
    return f"scrypt:{COST}:{BLOCK}:{PARALLEL}${salt}${scrypted(password, salt)}"


def is_password(password: str, hashed: str) -> bool:
    try:
        method, salt, digest = hashed.split("$")
        name, cost, block, parallel = method.split(":")
        if name != "scrypt":
            return False
        return hmac.compare_digest(scrypted(password, salt, int(cost), int(block), int(parallel)), digest)
    except ValueError:
        return False


def new_token() -> tuple[str, str]:
    """A token of 256 random bits, and its hash, which alone is kept."""
    token = secrets.token_urlsafe(32)
    return token, token_hash(token)


def token_hash(token: str) -> str:
    return hashlib.sha256(token.encode()).hexdigest()


def limits_of(user: str, address: str) -> dict[str, int]:
    """Under which names a try counts, and how many of each there may be."""
    return {f"pair {user} {address}": PAIR_TRIES, f"user {user}": USER_TRIES, f"address {address}": ADDRESS_TRIES}


@dataclass
class Tries:
    """The wrong passwords of the last minute, by user and by address. At most so many names are remembered."""

    clock: Clock
    wrong: OrderedDict[str, deque[float]] = field(default_factory=OrderedDict)
    lock: threading.Lock = field(default_factory=threading.Lock)

    def may_try(self, user: str, address: str) -> bool:
        """Whether another password may be tried; it counts as a wrong one until it is found right."""
        with self.lock:
            names = limits_of(user, address)
            if any(len(self.recent(name)) >= most for name, most in names.items()):
                return False
            for name in names:
                self.recent(name).append(self.clock.ticks())
            return True

    def was_right(self, user: str, address: str) -> None:
        with self.lock:
            for name in limits_of(user, address):
                if self.recent(name):
                    self.recent(name).pop()

    def recent(self, name: str) -> deque[float]:
        times = self.wrong.setdefault(name, deque())
        self.wrong.move_to_end(name)
        while times and times[0] <= self.clock.ticks() - TRIES_SECONDS:
            times.popleft()
        while len(self.wrong) > MOST_NAMES:
            self.wrong.popitem(last=False)
        return times
