#!/usr/bin/env python3
"""Measures archives.

    bench/archive.py PROGRAM [--runs N]

PROGRAM is the built `gasday`. It measures

audit of 5     the postings of five largest questions (20,000 lines, branching, each with the best schedule and the prices that
               `solve` gives), also with `--all`, beside `check best` over each of the same texts
audit of 1000  the postings of 1,000 small days, beside `check best` over each of the same texts
keep           `day --archive` over a day of 20,000 lines and one over a day with five cycles of 2,000 lines, beside `day` over
               the same text and what CPython's sqlite3 takes to insert the same bodies into a file

A time is the least of N runs, else 3. 1 MB is 1,000,000 bytes. Nothing is asserted about speed or memory: the exit status is 1
only where an answer is not the one that it has to be.
"""

import argparse
import os
import sqlite3
import subprocess
import sys
import tempfile
import time
from pathlib import Path

import day as days
from measure import GENERATE, MEGABYTE

LARGEST = 5
SMALL = 1_000
SMALL_BODY = """\
segment,S1,A,B,100,,,
point,R1,receipt,A,OPR,1000,,
point,D1,delivery,B,OPD,1000,,
question,{book},1,1,,,,
line,R1,D1,4,0,70,,
sched,1,70,,,,,
"""
INSERT = "insert into posting2 (book, cycle, round, body, rule) values (?, ?, ?, ?, 2)"
EMPTY_DAY = days.pipeline(100) + days.DAY + "\n"


def empty_archive(program, path):
    """An archive with nothing kept, as the program makes it."""
    subprocess.run([program, "day", "--archive", path], input=EMPTY_DAY.encode(), check=True, capture_output=True)


def fill(path, bodies):
    """Seconds that CPython's sqlite3 takes to enter these bodies, each in a transaction of its own."""
    archive = sqlite3.connect(path)
    begun = time.perf_counter()
    for book, cycle, body in bodies:
        with archive:
            archive.execute(INSERT, (book, cycle, 1, body))
    seconds = time.perf_counter() - begun
    archive.close()
    return seconds


def largest_body(program, number):
    """The body of a posting of a largest question, by the answer that `solve` gives."""
    words = [sys.executable, GENERATE, "branching", "--solve", f"--seed={number}"]
    question = subprocess.run(words, check=True, capture_output=True).stdout
    rows = question.splitlines(keepends=True)
    heads = [row for row in rows if row.startswith(b"question,")]
    question = question.replace(heads[0], b"question,BIG%d,1,1,,,,\n" % number)
    answer = subprocess.run([program, "solve"], input=question, check=True, capture_output=True).stdout
    return question + b"".join(row for row in answer.splitlines(keepends=True) if row.startswith((b"sched,", b"price,")))


def timed(words, folder, runs, text=b""):
    """The least seconds and the highest peak of the runs, and what the last one printed."""
    source, answer = folder / "text", folder / "answer"
    source.write_bytes(text)
    taken = [days.run(words, source, answer) for _ in range(runs)]
    return min(it[0] for it in taken), max(it[1] for it in taken), answer.read_bytes()


def measure_audit(program, name, bodies, folder, runs):
    """Prints what `audit` takes beside `check best`, and answers whether both found all of it sound."""
    path = folder / f"{name}.db"
    empty_archive(program, path)
    fill(path, bodies)
    seconds, peak, told = timed([program, "audit", path], folder, runs)
    each, each_peak, each_told = timed([program, "audit", "--all", path], folder, runs)
    checks = [timed([program, "check", "best"], folder, runs, body) for _, _, body in bodies]
    size = sum(len(body) for _, _, body in bodies)
    print(f"audit of {name}: bodies {size / MEGABYTE:.1f} MB, {seconds:.2f} s, peak {peak / MEGABYTE:.1f} MB; "
          f"with --all {each:.2f} s, peak {each_peak / MEGABYTE:.1f} MB; "
          f"check best {sum(it[0] for it in checks):.2f} s, peak {max(it[1] for it in checks) / MEGABYTE:.1f} MB", flush=True)
    is_sound = told == b"audited,%d,,,,,,\n" % len(bodies) and each_told.endswith(told) and each_told.count(b"sound,") == len(bodies)
    return is_sound and all(it[2].startswith(b"best,") for it in checks)


def measure_keep(program, name, folder, runs):
    """Prints what `day --archive` takes beside `day` and beside sqlite3, and answers whether what it kept is sound."""
    text = days.DAYS[name]()[0].encode()
    alone = timed([program, "day"], folder, runs, text)
    kept = []
    for at in range(runs):
        path = folder / f"{name}-{at}.db"
        kept.append(timed([program, "day", "--archive", path], folder, 1, text))
    reader = sqlite3.connect(path)
    bodies = reader.execute("select book, cycle, body from posting2").fetchall()
    reader.close()
    beside = folder / f"{name}-beside.db"
    empty_archive(program, beside)
    inserted = fill(beside, bodies)
    size = sum(len(body) for _, _, body in bodies)
    print(f"keep of {name}: {len(bodies)} bodies of {size / MEGABYTE:.1f} MB, day --archive {min(it[0] for it in kept):.2f} s, "
          f"peak {max(it[1] for it in kept) / MEGABYTE:.1f} MB; day {alone[0]:.2f} s, peak {alone[1] / MEGABYTE:.1f} MB; "
          f"sqlite3 inserts the bodies in {1000 * inserted:.1f} ms", flush=True)
    told = timed([program, "audit", path], folder, 1)[2]
    return all(it[2] == alone[2] for it in kept) and told == b"audited,%d,,,,,,\n" % len(bodies)


def main():
    parser = argparse.ArgumentParser(description=__doc__, formatter_class=argparse.RawDescriptionHelpFormatter)
    parser.add_argument("program")
    parser.add_argument("--runs", type=int, default=3)
    given = parser.parse_args()
    program = os.path.abspath(given.program)
    with tempfile.TemporaryDirectory() as name:
        folder = Path(name)
        large = [(f"BIG{at}", 1, largest_body(program, at)) for at in range(1, LARGEST + 1)]
        small = [(f"DAY{at}", 1, SMALL_BODY.format(book=f"DAY{at}").encode()) for at in range(1, SMALL + 1)]
        good = [measure_audit(program, f"{len(bodies)}", bodies, folder, given.runs) for bodies in (large, small)]
        good += [measure_keep(program, day, folder, given.runs) for day in ("lines", "settles")]
    return 0 if all(good) else 1


if __name__ == "__main__":
    sys.exit(main())
