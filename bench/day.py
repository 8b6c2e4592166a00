#!/usr/bin/env python3
"""Measures `day` on three long days.

    bench/day.py PROGRAM [--runs N] [DAY ..]

PROGRAM is the built `gasday`. The days are, all of them where none is named:

posts    1,000,000 `post` rows on a small pipeline, which are all accepted. CPython reads the same text with `csv.reader` and
         inserts the rows into a table in memory in one transaction, in the same run.
lines    20,000 lines of one contract, nominated and confirmed at both ends in Timely (60,000 rows), then `freeze`, a `sched`
         row for each line and `publish`.
settles  2,000 lines of firm and interruptible contracts over a branching pipeline of 200 segments that can't carry them all.
         In each of the five cycles a quarter of the lines is nominated anew and all ends confirm, then `freeze`, `settle`.

A time is the least of N runs, else 3. 1 MB is 1,000,000 bytes. Nothing is asserted about speed or memory: the exit status is
1 only where a run fails or ends with another row than it has to.
"""

import argparse
import csv
import os
import random
import sqlite3
import subprocess
import sys
import tempfile
import time
from datetime import datetime, timedelta, timezone
from pathlib import Path

from measure import MEGABYTE, RSS_BYTES

EVENTS = 1_000_000
LINES = 20_000
SETTLED_LINES = 2_000
SEGMENTS = 200
CONTRACTS = 40
SEED = 20_261_123
DAY = 'day,2026-01-15,"CST6CDT,M3.2.0,M11.1.0",DEMO,,,,'
# 9:00 of the gas day by Central Clock Time.
BEGIN = int(datetime(2026, 1, 15, 9, tzinfo=timezone(timedelta(hours=-6))).timestamp())
# Hours from there to the received and the confirmation time of each cycle.
CYCLES = ((-19.75, -16.5), (-14.75, -12.5), (1.25, 3.5), (5.75, 8), (10.25, 12.5))


def row(*fields):
    """A row of eight fields."""
    return ",".join(map(str, fields)) + "," * (8 - len(fields)) + "\n"


def moment(hours):
    """Seconds since 1970 so many hours after the gas day began."""
    return BEGIN + int(hours * 3600)


def pipeline(capacity):
    """One segment with a point at either end."""
    return row("segment", "S1", "A", "B", capacity) + row("point", "R1", "receipt", "A", "OPR", 1_000_000_000) + row(
        "point", "D1", "delivery", "B", "OPD", 1_000_000_000)


def posts():
    """The text of a day of posted capacities, and its last reply."""
    head = pipeline(100) + row("contract", "INT", "SHIP", "interruptible", 100) + DAY + "\n"
    return head + row("post", moment(-20), "S1", 60) * EVENTS, row("done", EVENTS)


def lines():
    """The text of a day of one cycle, published by hand, and its last reply: each line gets what it asks for."""
    received, confirmed = (moment(hours) for hours in CYCLES[0])
    text = [pipeline(1_000_000_000), row("contract", "INT", "SHIP", "interruptible", 1_000_000_000), DAY + "\n"]
    for line in range(1, LINES + 1):
        text.append(row("nominate", received, "SHIP", "INT", f"P{line}", "R1", "D1", line))
    for line in range(1, LINES + 1):
        text.append(row("respond", received + 60, "OPR", line, "origin", line))
        text.append(row("respond", received + 60, "OPD", line, "dest", line))
    text.append(row("freeze", confirmed))
    text.extend(row("sched", line, line) for line in range(1, LINES + 1))
    text.append(row("publish", confirmed, 1))
    return "".join(text), row("sched", LINES, LINES)


def settles():
    """The text of a day in which the solver settles all five cycles, and no last reply: which best schedule is found is free."""
    chance = random.Random(SEED)
    text = [row("segment", f"S{place}", f"L{(place - 1) // 2}", f"L{place}", chance.randint(2_000, 9_000))
            for place in range(1, SEGMENTS + 1)]
    text += [row("point", f"R{at}", "receipt", f"L{at}", "OPR", 20_000) for at in range(20)]
    text += [row("point", f"D{at}", "delivery", f"L{at}", "OPD", 1_000) for at in range(SEGMENTS + 1)]
    ends = []
    for _ in range(CONTRACTS):
        end = chance.randint(100, SEGMENTS)
        above = [end]
        while above[-1]:
            above.append((above[-1] - 1) // 2)
        ends.append((chance.choice([at for at in above if at < 20]), end))
    text += [row("contract", f"C{at}", "SHIP", "firm", 100_000, f"R{start}", f"D{end}") if at % 2
             else row("contract", f"C{at}", "SHIP", "interruptible", 100_000, at // 2 % 5 + 1)
             for at, (start, end) in enumerate(ends)]
    text.append(DAY + "\n")
    for cycle, (received, confirmed) in enumerate(CYCLES):
        asked = [(line, chance.randint(1, 400)) for line in range(SETTLED_LINES) if cycle == 0 or chance.random() < 0.25]
        for line, quantity in asked:
            start, end = ends[line % CONTRACTS]
            text.append(row("nominate", moment(received), "SHIP", f"C{line % CONTRACTS}", f"P{line}", f"R{start}", f"D{end}", quantity))
        for line in range(1, SETTLED_LINES + 1):
            text.append(row("respond", moment(received) + 60, "OPR", line, "origin", 400))
            text.append(row("respond", moment(received) + 60, "OPD", line, "dest", 400))
        text += [row("freeze", moment(confirmed)), row("settle", moment(confirmed))]
    return "".join(text), None


# The longest last: what this script held itself counts as a peak of the programs that it starts.
DAYS = {"lines": lines, "settles": settles, "posts": posts}


def run(words, text, answer):
    """Seconds, bytes at the peak and exit status of a run."""
    with open(text, "rb") as stdin, open(answer, "wb") as stdout:
        begun = time.perf_counter()
        child = subprocess.Popen(words, stdin=stdin, stdout=stdout, stderr=subprocess.DEVNULL)
        _, status, usage = os.wait4(child.pid, 0)
        return time.perf_counter() - begun, usage.ru_maxrss * RSS_BYTES, os.waitstatus_to_exitcode(status)


def insert(text):
    """Seconds that CPython takes to read the text and insert its rows."""
    begun = time.perf_counter()
    table = sqlite3.connect(":memory:")
    table.execute("create table event (kind, moment, element, capacity)")
    with open(text, newline="", encoding="utf-8") as file, table:
        table.executemany("insert into event values (?, ?, ?, ?)", (row[:4] for row in csv.reader(file)))
    return time.perf_counter() - begun


def is_whole(answer, last):
    """Whether nothing was refused or impossible, and the answer ends as it has to."""
    rows = answer.read_text(encoding="utf-8").splitlines(keepends=True)
    bad = [row for row in rows if row.startswith(("refused,", "declared,", "fault,"))]
    published = sum(row.startswith("published,") for row in rows)
    return not bad and (rows[-1] == last if last else published == len(CYCLES))


def measure(name, words, runs, folder):
    """Prints what a day takes, and answers whether it went well."""
    text, answer = folder / "text", folder / "answer"
    whole, last = DAYS[name]()
    text.write_text(whole, encoding="utf-8")
    size = text.stat().st_size
    taken = [run(words, text, answer) for _ in range(runs)]
    beside = f", csv and sqlite3 {min(insert(text) for _ in range(runs)):.2f} s" if name == "posts" else ""
    print(f"{name}: text {size / MEGABYTE:.1f} MB, gasday day {min(r[0] for r in taken):.2f} s{beside}, "
          f"peak {max(r[1] for r in taken) / MEGABYTE:.1f} MB, aim {64 + 20 * size / MEGABYTE:.1f} MB", flush=True)
    return all(r[2] == 0 for r in taken) and is_whole(answer, last)


def main():
    parser = argparse.ArgumentParser(description=__doc__, formatter_class=argparse.RawDescriptionHelpFormatter)
    parser.add_argument("program")
    parser.add_argument("days", nargs="*", metavar="DAY")
    parser.add_argument("--runs", type=int, default=3)
    given = parser.parse_args()
    words = [os.path.abspath(given.program), "day"]
    with tempfile.TemporaryDirectory() as folder:
        good = [measure(name, words, given.runs, Path(folder)) for name in DAYS if name in (given.days or DAYS)]
    return 0 if all(good) else 1


if __name__ == "__main__":
    sys.exit(main())
