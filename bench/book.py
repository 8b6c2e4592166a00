#!/usr/bin/env python3
"""Measures a book that is as full as it can be, beside CPython's sqlite3 in memory.

    bench/book.py TRIAL [--runs N]

TRIAL is the built `gd_trials`. It posts 1,000,000 capacities on one book; on another it nominates 20,000 lines ten
times each, freezes and publishes. For as many rows, sqlite3 inserts in one transaction, with a column for each value of the
call and of its reply.

A step's time is the least of N runs, else 3, told by the program's own clock; a peak of memory is the greatest of them, of
the whole process, sqlite3's with the interpreter. Beside each peak of the book stands how many bytes of it an event takes,
and of a book with capacities alone also how many bytes the event itself holds. 1 MB is 1,000,000 bytes. Nothing is asserted
about speed or memory: the exit status is 1 only where a run fails.
"""

import argparse
import os
import shutil
import sqlite3
import subprocess
import sys
import time
from typing import NamedTuple

from measure import MEGABYTE, RSS_BYTES

EVENTS = 1_000_000
LINES = 20_000
TIMES = 10


class Run(NamedTuple):
    told: dict  # microseconds of each step, and bytes
    peak: int  # bytes
    status: int


def run(words):
    """What a program tells, its peak of memory and its exit status."""
    child = subprocess.Popen(words, stdout=subprocess.PIPE, text=True)
    with child.stdout as rows:
        told = [row.split() for row in rows]
    _, status, usage = os.wait4(child.pid, 0)
    child.returncode = os.waitstatus_to_exitcode(status)
    numbers = {name: int(number) for name, number in told}
    return Run(numbers, usage.ru_maxrss * RSS_BYTES, child.returncode)


def capacities():
    """Moment, element and capacity, with the number of the event."""
    return ((0, 0, number, number + 1) for number in range(EVENTS))


def nominations():
    """Moment, party, key and quantity, with number, cycle and line."""
    for number in range(LINES * TIMES):
        line = number % LINES
        key = ("FIRM", f"P{line}", "R1", "D1")
        yield 0, "SHIP", *key, number // LINES + 1, number + 1, 1, line


def insert(step):
    """Inserts the rows of a step into a new table in memory, and tells the microseconds."""
    rows, columns = {"post_capacity": (capacities(), 4), "nominate": (nominations(), 10)}[step]
    connection = sqlite3.connect(":memory:")
    names = ", ".join(f"c{k}" for k in range(columns))
    connection.execute(f"create table book ({names})")
    marks = ", ".join("?" * columns)
    begun = time.perf_counter()
    with connection:
        connection.executemany(f"insert into book values ({marks})", rows)
    print(step, round((time.perf_counter() - begun) * 1_000_000))
    connection.close()


def tell(step, calls, runs, theirs):
    """Prints the row of a step."""
    least = min(run.told[step] for run in runs) / 1_000_000
    beside = f"{min(run.told[step] for run in theirs) / 1_000_000:>11.3f}" if theirs else ""
    print(f"{step:<14}{calls:>9,}{least:>10.3f}{beside}", flush=True)


def tell_peak(name, events, runs, theirs):
    """Prints the peaks of memory."""
    peak = max(run.peak for run in runs)
    beside = max(run.peak for run in theirs) / MEGABYTE
    print(f"{name}: peak {peak / MEGABYTE:.1f} MB, {peak / events:.0f} bytes an event; sqlite3 {beside:.1f} MB")


def main():
    parser = argparse.ArgumentParser(description=__doc__, formatter_class=argparse.RawDescriptionHelpFormatter)
    parser.add_argument("trial", metavar="TRIAL")
    parser.add_argument("--runs", type=int, default=3, metavar="N")
    parser.add_argument("--insert", choices=("post_capacity", "nominate"), help=argparse.SUPPRESS)
    given = parser.parse_args()
    if given.insert:
        insert(given.insert)
        return 0
    if given.runs < 1:
        parser.error("there must be a run")
    if shutil.which(given.trial) is None:
        print(f"{given.trial} isn't a program", file=sys.stderr)
        return 1
    ours, theirs = [given.trial], [sys.executable, os.path.abspath(__file__), given.trial, "--insert"]
    events, lines, posted, nominated = [], [], [], []
    for _ in range(given.runs):
        events.append(run([*ours, "events"]))
        posted.append(run([*theirs, "post_capacity"]))
        lines.append(run([*ours, "lines"]))
        nominated.append(run([*theirs, "nominate"]))
    if any(run.status != 0 for run in events + lines + posted + nominated):
        print("a run came to no end", file=sys.stderr)
        return 1
    print(f"{'step':<14}{'calls':>9}{'seconds':>10}{'sqlite3 s':>11}")
    tell("post_capacity", EVENTS, events, posted)
    tell("nominate", LINES * TIMES, lines, nominated)
    for step in ("freeze", "publish"):
        tell(step, 1, lines, [])
    tell_peak("capacities", EVENTS, events, posted)
    print(f"An event holds {events[0].told['bytes']} of these bytes.")
    tell_peak("lines", LINES * TIMES, lines, nominated)
    return 0


if __name__ == "__main__":
    sys.exit(main())
