"""The refusals of each call in the order of the machine's tests (crates/gd_machine/specs/Machine.antt), and the lists of them in
the comments of the book's public calls (crates/gd_book/src/book.rt), which are made of that order."""

import re
from itertools import groupby

from command_line import TOP, Fault

MACHINE, BOOK = TOP / "crates/gd_machine/specs/Machine.antt", TOP / "crates/gd_book/src/book.rt"
CALL_NAMES = TOP / "crates/gd_machine/specs/Names.antt"
ROUTE = ("UnknownEnd", "WrongEnd", "SameEnd", "NoRoute")
WIDTH = 125  # of a comment in the book's source
LIST = re.compile(r"^( +/// )In this order: .*\n(?: +/// \S.*\n)*", re.M)
NAMES = re.compile(r"In this order: (?:`\w+`|those of the route)(?:, (?:`\w+`|those of the route))*")
EVENT = re.compile(r"\(event\.(\w+)")


def calls() -> dict[str, str]:
    """The calls of a book, each with its word."""
    return dict(re.findall(r'^call_name call\.(\w+) = codes "(\w+)"', CALL_NAMES.read_text(encoding="utf-8"), re.M))


def call_of(event: str) -> str:
    """The call that makes an event of the machine: it has the event's name, or that begins with it."""
    found = [call for call in calls() if call == event] or [call for call in calls() if event.startswith(call)]
    if len(found) != 1:
        raise Fault(f"the machine has {len(found)} calls that the event {event} may be of")
    return found[0]


def tested_refusals() -> dict[str, list[str]]:
    """The refusals of each of the machine's events in the order of its tests."""
    text = MACHINE.read_text(encoding="utf-8").partition("\nabbrev pub tests_of")[2].partition("\n-- ")[0]
    found = {}
    for event, tests in re.findall(r"^tests_of day h \((\w+)[^=]*=\n((?: +.*\n)+)", text, re.M):
        names: list[str] = []
        for line in tests.split("\n"):
            names += ROUTE if "route_tests" in line else re.findall(r", ([A-Z]\w+)(?: [A-Z(].*)?\)", line)
        found[event] = [name for name, _ in groupby(names)]
    return found


def told_list(names: list[str]) -> str:
    """A list of refusals in words, with want of memory behind them; those of a route stand there together."""
    told = ["those of the route" if name in ROUTE else f"`{name}`" for name in [*names, "OutOfMemory"]]
    return "In this order: " + ", ".join(words for words, _ in groupby(told))


def wrapped(margin: str, text: str) -> str:
    """A text in the lines of a comment."""
    lines = [margin.rstrip()]
    for word in text.split():
        if len(f"{lines[-1]} {word}") > WIDTH:
            lines.append(margin.rstrip())
        lines[-1] += f" {word}"
    return "\n".join(lines) + "\n"


def book_with_lists() -> str:
    """The book's source with the list of each call's refusals, before what else its comment says of them."""
    whole, tested, done = BOOK.read_text(encoding="utf-8"), tested_refusals(), set()

    def made(match: re.Match[str]) -> str:
        event = EVENT.search(whole, match.end())
        words = " ".join(line.strip().removeprefix("///").strip() for line in match[0].splitlines())
        named = NAMES.match(words)
        if not event or event[1] not in tested or event[1] in done or not named:
            raise Fault(f"book.rt: whose refusals stand there can't be read: {words}")
        done.add(event[1])
        return wrapped(match[1], told_list(tested[event[1]]) + words[named.end():])

    text = LIST.sub(made, whole)
    if missing := sorted(set(tested) - done):
        raise Fault(f"book.rt lists no refusals of {', '.join(missing)}")
    return text
