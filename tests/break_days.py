#!/usr/bin/env python3
"""break_days.py PROGRAM

Gives PROGRAM, the built `gasday`, broken texts of gas days: the days of the examples and of the acceptance cases cut after
each byte, with each row in every other place, left out, twice, with a field too few or too many, of an unknown kind, and
with each field empty or wrong.

Each has to end by itself, with status 0 and replies to its calls, with status 1 where the gas day has no calendar, or with
status 2 and one row that tells the text's first fault. What a break stands for is worked out beside it where that is simple:
a day that ends early is told as the front of the whole answer, and a row that can't be read is the fault at that row.

A text that fails is told by its name and how it was broken. The last line is 'N passed, M failed', and the exit status is 0
only where texts were found and none failed.
"""

import csv
import os
import subprocess
import sys
from concurrent.futures import ThreadPoolExecutor
from pathlib import Path

HERE = Path(__file__).resolve().parent
LIMIT = 600
FIELDS = 8
CASES = ("worked-two-cycles-and-a-bump", "worked-cut-skip-waive-stale-round")
GROUPED = ("sched", "price", "inside")
CALLS = {"nominate", "respond", "post", "freeze", "settle", "publish", "declare", "waive", "skip"}
REPLIES = {
    "accepted", "done", "frozen", "bound", "published", "total", "sched", "bumped", "declared", "inside", "refused",
}
WRONG = (b"", b"x", b"-1", b"1000000001", b"18446744073709551616", b'"', b"\xff", b"SEVENTEEN-BYTES--")


def input_of(case):
    """The text of an acceptance case."""
    parts = (HERE / "cases" / "day" / f"{case}.case").read_bytes().split(b"-- stdin --\n", 1)
    return parts[1].split(b"\n-- ", 1)[0].removesuffix(b"\n") + b"\n"


def texts():
    """The whole texts, by name."""
    days = HERE.parent / "examples" / "gas-day"
    return {**{path.name: path.read_bytes() for path in sorted(days.glob("*.csv"))}, **{case: input_of(case) for case in CASES}}


class Day:
    """A whole text, its rows, and what is answered to it."""

    def __init__(self, program, name, text):
        self.program, self.name, self.text = program, name, text
        self.rows = text.splitlines(keepends=True)
        self.kinds = [row.split(b",", 1)[0].decode() for row in self.rows]
        self.head = self.kinds.index("day")
        self.answer, self.status = self.run(text)

    def run(self, text):
        """Standard output and exit status; a status below 0 is a signal."""
        done = subprocess.run([self.program, "day"], input=text, capture_output=True, timeout=LIMIT)
        return done.stdout, done.returncode

    def breaks(self):
        """How the text is broken, with the broken text and what must come of it: 'front' of the answer, a fault, or None."""
        yield from self.cut()
        for at, row in enumerate(self.rows):
            yield from self.misplaced(at, row)
            yield from self.unread(at, row)
            yield from self.misread(at, row)

    def cut(self):
        """After each byte; at the end of a row it is known what a shorter day is told."""
        ends = {len(b"".join(self.rows[:count])): count for count in range(len(self.rows) + 1)}
        for length in range(len(self.text)):
            yield f"cut after byte {length}", self.text[:length], self.told_of(ends[length]) if length in ends else None

    def told_of(self, count):
        """What the first rows are told: a group that no call takes and then a missing head are faults."""
        if count <= self.head:
            return f"fault,{count + 1},Missing"
        waiting = count
        while self.kinds[waiting - 1] in GROUPED:
            waiting -= 1
        return f"fault,{waiting + 1},Order" if waiting < count else "front"

    def misplaced(self, at, row):
        """A row in every other place, left out, and twice."""
        others = self.rows[:at] + self.rows[at + 1 :]
        yield f"row {at + 1} left out", b"".join(others), None
        yield f"row {at + 1} twice", b"".join(self.rows[: at + 1] + [row] + self.rows[at + 1 :]), None
        for place in range(len(self.rows)):
            if place != at:
                yield f"row {at + 1} as row {place + 1}", b"".join(others[:place] + [row] + others[place:]), None

    def unread(self, at, row):
        """A row that can't be read, which is the fault told, where no group waits for it."""
        waits = at > 0 and self.kinds[at - 1] in GROUPED
        rest = row.split(b",", 1)[1]
        for how, new, cause in (
            ("one field less", row.rstrip(b"\n").removesuffix(b",") + b"\n", "FieldCount"),
            ("one field more", row.rstrip(b"\n") + b",\n", "FieldCount"),
            ("unknown", b"nothing," + rest, "UnknownKind"),
            ("of another command", b"question," + rest, "Order"),
        ):
            if how == "one field less" and not row.rstrip(b"\n").endswith(b","):
                continue
            text = b"".join(self.rows[:at] + [new] + self.rows[at + 1 :])
            yield f"row {at + 1} {how}", text, None if waits else f"fault,{at + 1},{cause}"

    def misread(self, at, row):
        """Each field of a row wrong in turn."""
        fields = next(csv.reader([row.decode()]))
        for place in range(FIELDS):
            for wrong in WRONG:
                new = [field.encode() if "," not in field else f'"{field}"'.encode() for field in fields]
                new[place] = wrong
                text = b"".join(self.rows[:at] + [b",".join(new) + b"\n"] + self.rows[at + 1 :])
                yield f"field {place + 1} of row {at + 1} as {wrong!r}", text, None

    def is_right(self, told, answer, status):
        """Whether the answer is a good one at all, and what it has to be where that is known."""
        if not is_good(answer, status):
            return False
        if told == "front":
            return status == 0 and self.answer.startswith(answer)
        return told is None or (status == 2 and answer.decode().startswith(f"{told},"))


def is_good(answer, status):
    """Whole rows of known kinds: replies, one fault, or a refused calendar, with the status of each."""
    if answer and not answer.endswith(b"\n"):
        return False
    rows = list(csv.reader(answer.decode("utf-8").splitlines()))
    if any(len(row) != FIELDS for row in rows):
        return False
    kinds = [row[0] for row in rows]
    if status == 0:
        return set(kinds) <= REPLIES and all(row[0] != "refused" or row[1] in CALLS for row in rows)
    if status == 1:
        return kinds == ["refused"] and rows[0][1] == "calendar"
    return status == 2 and kinds == ["fault"] and int(rows[0][1]) > 0


def main():
    if len(sys.argv) != 2:
        print(__doc__.strip())
        return 2
    program = os.path.abspath(sys.argv[1])
    passed = failed = 0
    with ThreadPoolExecutor(os.cpu_count() or 2) as pool:
        for name, text in texts().items():
            day = Day(program, name, text)
            trials = list(day.breaks())
            answers = pool.map(day.run, (broken for _, broken, _ in trials))
            wrong = [how for (how, _, told), (answer, status) in zip(trials, answers) if not day.is_right(told, answer, status)]
            wrong += ["not at all"] if day.status != 0 else []
            print(f"{name}: {len(trials)} broken texts", flush=True)
            for how in wrong[:20]:
                print(f"FAIL {name}: {how}")
            passed, failed = passed + len(trials) - len(wrong), failed + len(wrong)
    print(f"{passed} passed, {failed} failed")
    return 0 if passed and not failed else 1


if __name__ == "__main__":
    sys.exit(main())
