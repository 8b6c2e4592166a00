"""Which passwords are refused: short ones, common ones, and those made of the names of their user."""

import re
from collections.abc import Iterator
from functools import lru_cache
from pathlib import Path

from .settings import Wrong

LEAST_LETTERS, MOST_LETTERS = 10, 1000
COMMON = Path(__file__).resolve().parent / "common_passwords.txt"
# Runs of keys and letters; a part of one of these, forwards or backwards, is no password.
RUNS = ("01234567890123456789", "abcdefghijklmnopqrstuvwxyzabcdefghij", "qwertyuiopasdfghjklzxcvbnm",
        "qwertzuiopasdfghjklyxcvbnm", "azertyuiopqsdfghjklmwxcvbn", "1q2w3e4r5t6y7u8i9o0p", "q1w2e3r4t5y6u7i8o9p0",
        "1qaz2wsx3edc4rfv5tgb6yhn7ujm")
LIKE_LETTERS = str.maketrans("01345789@$!", "oleastbgasi")
AROUND = re.compile(r"^[^a-z]+|[^a-z]+$")
REPEATED = re.compile(r"(.{1,4})\1+.{0,3}", re.DOTALL)
# A name in a password counts for nothing; so many other letters have to be there.
LEAST_OTHERS = 8


@lru_cache(maxsize=1)
def common_passwords() -> frozenset[str]:
    lines = COMMON.read_text(encoding="ascii").splitlines()
    return frozenset(line for line in lines if line and not line.startswith("#"))


def bodies(small: str) -> Iterator[str]:
    """What a password comes to without its ornaments: digits and signs around it, digits for letters, the same twice."""
    for text in (small, small.translate(LIKE_LETTERS)):
        for body in (text, AROUND.sub("", text), AROUND.sub("", small).translate(LIKE_LETTERS)):
            yield body
            half = len(body) // 2
            if body[:half] == body[half:]:
                yield body[:half]


def is_common(password: str) -> bool:
    small = password.lower()
    if any(body in common_passwords() for body in bodies(small)):
        return True
    return bool(REPEATED.fullmatch(small)) or any(small in run or small in run[::-1] for run in RUNS)


def is_of_names(password: str, *names: str) -> bool:
    """Whether little is left of a password without these names."""
    rest = small = password.lower()
    for name in names:
        if len(name) > 2:
            rest = rest.replace(name.lower(), "")
    return rest != small and len(rest) < LEAST_OTHERS


def check_password(password: str, user: str, party: str) -> None:
    """Refuses a password that others would guess, and says why."""
    if len(password) < LEAST_LETTERS:
        raise Wrong(f"a password has {LEAST_LETTERS} letters at least")
    if len(password) > MOST_LETTERS:
        raise Wrong(f"a password has {MOST_LETTERS} letters at most")
    if is_common(password):
        raise Wrong("this password is a common one, which others guess first; take several words that don't belong together")
    if is_of_names(password, user, party):
        raise Wrong("this password is made of the name of its user or party; take another one")
