#!/usr/bin/env python3
"""live.py PROGRAM [FOLDER]

Times `gasday day --book` on files in FOLDER (a memory disk, /dev/shm, and a folder beside this script where it isn't named):
calls that are awaited one by one, blocks of 1,000 rows, and the replay of a million calls that came in blocks and of as many as
were awaited one by one; beside each sqlite3's own inserts of the same bytes, with one commit a row or a block, on the same disk,
and beside the replay `day` over the same text; and what a turn through two pipes takes by itself, which each awaited call has and an
insert hasn't. It prints a table for docs/PERFORMANCE.md.
"""

import os
import resource
import sqlite3
import subprocess
import sys
import tempfile
import time
from pathlib import Path

OPENING = Path(__file__).resolve().parent.parent.joinpath("examples/gas-day/two-cycles.csv").read_bytes().split(b"nominate,")[0]
CALL = b"post,%d,S1,%d,,,,\n"
FIRST = 1772910900


def calls(count):
    return [CALL % (FIRST + at // 1000, at % 1000) for at in range(count)]


def opened(program, path, opening=OPENING):
    subprocess.run([program, "day", "--book", path], input=opening, stdout=subprocess.DEVNULL, check=True)
    run = subprocess.Popen([program, "day", "--book", path], stdin=subprocess.PIPE, stdout=subprocess.PIPE, bufsize=0)
    reader = open(run.stdout.fileno(), "rb", closefd=False)
    reader.readline()
    return run, reader


def awaited(program, path, count, size):
    """Calls a second, in blocks of so many rows, each block awaited before the next is sent."""
    rows = calls(count)
    run, reader = opened(program, path)
    began = time.perf_counter()
    for at in range(0, count, size):
        run.stdin.write(b"".join(rows[at : at + size]))
        for _ in range(size):
            reader.readline()
    rate = count / (time.perf_counter() - began)
    run.stdin.close()
    run.wait()
    return rate


def turned(count):
    """Turns a second through two pipes and back by a program that does nothing else, each awaited before the next."""
    row = calls(1)[0]
    run = subprocess.Popen(["cat"], stdin=subprocess.PIPE, stdout=subprocess.PIPE, bufsize=0)
    reader = open(run.stdout.fileno(), "rb", closefd=False)
    began = time.perf_counter()
    for _ in range(count):
        run.stdin.write(row)
        reader.readline()
    rate = count / (time.perf_counter() - began)
    run.stdin.close()
    run.wait()
    return rate


def inserted(path, count, size):
    """Rows a second that sqlite3 inserts, one commit a block."""
    rows = calls(count)
    file = sqlite3.connect(path, isolation_level=None)
    file.execute("PRAGMA journal_mode = WAL")
    file.execute("PRAGMA synchronous = FULL")
    file.execute("CREATE TABLE piece (number INTEGER PRIMARY KEY, rows BLOB NOT NULL, told BLOB NOT NULL)")
    began = time.perf_counter()
    for at in range(0, count, size):
        file.execute("INSERT INTO piece (rows, told) VALUES (?, ?)", (b"".join(rows[at : at + size]), b"done,post,1,,,,,\n" * size))
    rate = count / (time.perf_counter() - began)
    file.close()
    return rate


def timed(words, text=None):
    """Seconds and MB of a run."""
    began = time.perf_counter()
    child = subprocess.Popen(words, stdin=subprocess.PIPE if text else subprocess.DEVNULL, stdout=subprocess.PIPE,
                             stderr=subprocess.DEVNULL)
    if text:
        child.stdin.write(text)
        child.stdin.close()
    while child.stdout.read(1 << 20):
        pass
    _, status, usage = os.wait4(child.pid, 0)
    child.returncode = os.waitstatus_to_exitcode(status)
    return time.perf_counter() - began, usage.ru_maxrss / 1000


def main():
    if len(sys.argv) not in (2, 3):
        print(__doc__.strip())
        return 2
    program = os.path.abspath(sys.argv[1])
    folders = sys.argv[2:] or ["/dev/shm", os.path.dirname(os.path.abspath(__file__))]
    print("| Where | What | `gasday` | sqlite3 |\n|---|---|---:|---:|")
    for at in folders:
        with tempfile.TemporaryDirectory(dir=at) as folder:
            count = 20000 if at == "/dev/shm" else 10000
            rates = awaited(program, f"{folder}/one.book", count, 1), inserted(f"{folder}/one.db", count, 1)
            print(f"| {at} | single calls, each awaited, a second | {rates[0]:,.0f} | {rates[1]:,.0f} |", flush=True)
            rates = awaited(program, f"{folder}/block.book", 1000 * count // 20, 1000), inserted(f"{folder}/block.db", 1000 * count // 20, 1000)
            print(f"| {at} | rows in blocks of 1,000, each awaited, a second | {rates[0]:,.0f} | {rates[1]:,.0f} |", flush=True)
    print(f"\nA turn through two pipes by itself takes {1e6 / turned(20000):.1f} microseconds.")
    print("\n| A million calls | Seconds | MB |\n|---|---:|---:|")
    with tempfile.TemporaryDirectory(dir=folders[0]) as folder:
        for size, name in ((1000, "in blocks of 1,000"), (1, "one by one")):
            path = f"{folder}/{name.replace(' ', '-')}.book"
            awaited(program, path, 1_000_000, size)
            seconds, much = timed([program, "audit", path])
            print(f"| `audit` of calls that came {name} | {seconds:.2f} | {much:.0f} |", flush=True)
        text = OPENING + b"".join(calls(1_000_000))
        seconds, much = timed([program, "day"], text)
        print(f"| `day` over the text | {seconds:.2f} | {much:.0f} |")
    return 0


if __name__ == "__main__":
    sys.exit(main())
