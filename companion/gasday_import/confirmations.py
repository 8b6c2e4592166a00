"""Confirmations that name contract, package and ends: the numbers of their lines, asked of `gasday`.

Lines are numbered in the order of first acceptance, and what is accepted is for `gasday` to say: so the calls before them are
run by `gasday day`."""

import subprocess
from collections.abc import Sequence
from dataclasses import dataclass

from gasday_report.texts import Fault, rows_in
from gasday_report.verdicts import program_at

from .forms import EVENT, FIELDS
from .log import Log
from .rows import Row, written

KEY = slice(3, 7)
# The number that no line has: its confirmation is refused, and changes nothing.
NO_LINE = 4_294_967_295
HEADS = ("accepted", "done", "frozen", "published", "declared", "refused", "fault")
MOST_RUNS = 100
REMEDY = "write the number of the line"

Key = tuple[str, ...]


@dataclass(frozen=True)
class Found:
    """The number of a line, or else why there is none."""

    number: int
    why: str = ""


class NotRun(Exception):
    """The calls can't be run: what is told of which row."""

    def __init__(self, row: Row, told: str) -> None:
        super().__init__(told)
        self.row = row


@dataclass
class Day:
    """The rows of a gas day up to its last confirmation by names."""

    rows: Sequence[Row]

    def __post_init__(self) -> None:
        self.named = {at: row.fields[KEY] for at, row in enumerate(self.rows) if is_named(row)}
        self.calls = [at for at, row in enumerate(self.rows) if row.stage == EVENT]
        self.keys = {at: row.cells()[KEY] for at, row in enumerate(self.rows) if row.kind == "nominate"}

    def text(self, numbers: dict[int, int]) -> bytes:
        rows = (written(list(numbered(row, numbers[at]))) if at in numbers else row.text for at, row in enumerate(self.rows))
        return ("\n".join(rows) + "\n").encode()

    def guess(self) -> dict[int, int]:
        """What the numbers are if all is accepted."""
        seen: dict[Key, int] = {}
        numbers = {}
        for at in self.calls:
            if at in self.keys:
                seen.setdefault(self.keys[at], len(seen) + 1)
            elif at in self.named:
                numbers[at] = seen.get(self.named[at], NO_LINE)
        return numbers

    def replies(self, program: str, numbers: dict[int, int]) -> list[list[str]]:
        """What each call is told."""
        try:
            out = subprocess.run([program, "day"], input=self.text(numbers), capture_output=True).stdout
        except OSError as error:
            raise Fault(f"{program} can't be run: {error.strerror}") from None
        replies = [row for row in rows_in(out, "`gasday day`") if row[0] in HEADS]
        bad = next((row for row in replies if row[0] == "fault" or row[1] == "calendar"), None)
        if bad or len(replies) != len(self.calls):
            at = int(bad[1]) if bad and bad[0] == "fault" and bad[1].isdigit() else 1
            told = ",".join(bad).rstrip(",") if bad else f"{len(replies)} replies to {len(self.calls)} calls"
            raise NotRun(self.rows[min(max(at, 1), len(self.rows)) - 1], told)
        return replies

    def found(self, replies: list[list[str]]) -> dict[int, Found]:
        """The number of each confirmation's line, as what was accepted before it has it."""
        lines: dict[Key, int] = {}
        refused: dict[Key, str] = {}
        found = {}
        for at, reply in zip(self.calls, replies, strict=True):
            if at in self.named:
                found[at] = found_line(self.named[at], lines, refused)
            elif at in self.keys and reply[0] == "accepted":
                lines[self.keys[at]] = int(reply[3])
            elif at in self.keys:
                words = f"its nomination at {self.rows[at].place} is refused, {reply[3]}, so that there is nothing to confirm"
                refused.setdefault(self.keys[at], f"{words}: take this row out")
        return found

    def settled(self, program: str) -> dict[int, Found]:
        """The numbers that stand in the text which gives them. What is told of a call rests on the calls before it alone: so
        each run makes at least one more of them right, in their order."""
        numbers = self.guess()
        for _ in range(MOST_RUNS):
            found = self.found(self.replies(program, numbers))
            if all(numbers[at] == line.number for at, line in found.items()):
                return found
            numbers = {at: line.number for at, line in found.items()}
        raise Fault(f"the lines of confirmations are not found in {MOST_RUNS} runs of `gasday day`: write their numbers")


def found_line(key: Key, lines: dict[Key, int], refused: dict[Key, str]) -> Found:
    if key in lines:
        return Found(lines[key])
    return Found(NO_LINE, refused.get(key, f"no nomination before it in the text has these names: {REMEDY}"))


def is_named(row: Row) -> bool:
    return row.kind == "respond" and len(row.fields) > FIELDS


def numbered(row: Row, number: int) -> tuple[str, ...]:
    """The eight fields of a confirmation, with its line's number."""
    kind, moment, party, *_, end, quantity = row.fields
    return kind, moment, party, str(number), end, quantity, "", ""


def words_of(row: Row) -> str:
    contract, package, origin, destination = row.fields[KEY]
    return f"{contract}, package {package}, from {origin} to {destination}"


def why_none(rows: Sequence[Row]) -> str:
    """Why no line can be found in rows of a text, whatever they say."""
    if any(row.kind in ("session", "desk") for row in rows):
        return f"an office's sessions call side by side, so that no text tells the order in which lines are numbered: {REMEDY}"
    days = sum(row.kind == "day" for row in rows)
    return "" if days == 1 else f"the text has {days or 'no'} day row{'s' if days else ''}: {REMEDY}"


def find_lines(rows: Sequence[Row], left: Sequence[Row], program: str | None, log: Log) -> None:
    """Writes the numbers of their lines into confirmations, or tells why it can't be done."""
    if not left:
        return
    why = why_none(rows)
    day = Day(rows[: 1 + max(at for at, row in enumerate(rows) if is_named(row))])
    found: dict[int, Found] = {}
    if why:
        found = {at: Found(NO_LINE, why) for at in day.named}
    elif all(number == NO_LINE for number in day.guess().values()):
        found = {at: found_line(key, {}, {}) for at, key in day.named.items()}
    elif log.errors:
        log.note("gasday-import", f"{len(left)} confirmations name their lines, which are looked up when all else is right")
    else:
        try:
            found = day.settled(found_program(program))
        except NotRun as told:
            log.error(told.row.place, f"`gasday day` tells {told} of it, so that no lines of confirmations can be found")
    write_numbers(day, found, log)


def found_program(program: str | None) -> str:
    try:
        return program_at(program)
    except Fault as fault:
        raise Fault(f"{fault}: it is asked for the lines of confirmations by names") from None


def write_numbers(day: Day, found: dict[int, Found], log: Log) -> None:
    for at, line in found.items():
        row = day.rows[at]
        if line.why:
            log.error(row.place, f"no line is found for {words_of(row)}: {line.why}")
            continue
        log.repair(row.place, "lines of confirmations found", f"line {line.number} is {words_of(row)}")
        row.fields = numbered(row, line.number)
        row.text = written(list(row.fields))
