#!/usr/bin/env python3
"""office.py PROGRAM [--runs N] [--stress TIMES]

Times `gasday office` of PROGRAM, the built program, on 1, 2 and 4 cores (as far as the machine has them): 64 sessions with
100,000 calls together, half of them refused, on one book and on 64 books; and the desks of 64 books with 300 lines each.
Prints the best of N runs (3), the peak memory, and how many rows of the answer say `reconciled`.

With --stress it runs 64 sessions with 1,000,000 calls together on one book and on 64 books, each so often, and tells
whether each slot was reconciled every time, and how much longer one book takes than 64.
"""

import argparse
import os
import subprocess
import sys
import tempfile
import time

SESSIONS = 64
EARLY, TIMELY = 1772910900, 1772922600
ZONE = '"CST6CDT,M3.2.0,M11.1.0"'


def block(number, lines):
    """A pipeline of one segment with as many receipt points as lines, and its book."""
    rows = ["segment,S,A,B,100000,,,", "point,D,delivery,B,OPD,1000000000,,"]
    rows += [f"point,R{line},receipt,A,OPR,1000000000,," for line in range(lines)]
    rows += ["contract,INT,SHIP,interruptible,1000000000,,,", f"day,2026-03-08,{ZONE},BOOK{number},,,,"]
    return rows


def sessions(slots, calls):
    """Sessions with so many calls together; each other call names a contract that there isn't."""
    rows = []
    for session in range(SESSIONS):
        rows.append(f"session,{session % slots + 1},SHIP,,,,,")
        mine = calls // SESSIONS + (session < calls % SESSIONS)
        for call in range(mine):
            contract = "NONE" if call % 2 else "INT"
            rows.append(f"nominate,{EARLY},SHIP,{contract},P{session}-{call % 200},R0,D,{call % 1000 + 1}")
    return rows


def text_of_calls(slots, calls):
    rows = [row for slot in range(slots) for row in block(slot, 1)]
    return rows + sessions(slots, calls) + [f"desk,{TIMELY},,,,,,"]


def text_of_desks(slots, lines):
    """Lines that are nominated, confirmed at both ends, and then settled by the desks of one moment."""
    rows = [row for slot in range(slots) for row in block(slot, lines)]
    for slot in range(slots):
        rows.append(f"session,{slot + 1},SHIP,,,,,")
        rows += [f"nominate,{EARLY},SHIP,INT,P,R{line},D,{500 + line}" for line in range(lines)]
    rows.append(f"desk,{EARLY},,,,,,")
    for party, end in (("OPR", "origin"), ("OPD", "dest")):
        for slot in range(slots):
            rows.append(f"session,{slot + 1},{party},,,,,")
            rows += [f"respond,{EARLY},{party},{line + 1},{end},{500 + line},," for line in range(lines)]
        rows.append(f"desk,{EARLY if party == 'OPR' else TIMELY},,,,,,")
    return rows


def run(program, path, cores):
    """Seconds, peak bytes, and the answer."""
    words = ["taskset", "-c", f"0-{cores - 1}", program, "office"]
    began = time.perf_counter()
    with open(path, "rb") as text:
        done = subprocess.Popen(words, stdin=text, stdout=subprocess.PIPE)
        answer = done.stdout.read()
        _, status, used = os.wait4(done.pid, 0)
    seconds = time.perf_counter() - began
    return seconds, used.ru_maxrss * 1024, os.waitstatus_to_exitcode(status), answer


def reconciled(answer):
    return sum(row.startswith(b"reconciled,") for row in answer.splitlines())


def main():
    parser = argparse.ArgumentParser()
    parser.add_argument("program")
    parser.add_argument("--runs", type=int, default=3)
    parser.add_argument("--stress", type=int, default=0)
    given = parser.parse_args()
    program = os.path.abspath(given.program)
    bad = 0
    with tempfile.TemporaryDirectory() as folder:
        path = f"{folder}/text"

        def put(rows):
            with open(path, "w") as text:
                text.write("\n".join(rows) + "\n")

        if given.stress:
            best = {}
            for slots in (1, 64):
                put(text_of_calls(slots, 1_000_000))
                for turn in range(given.stress):
                    seconds, peak, status, answer = run(program, path, os.cpu_count())
                    best[slots] = min(seconds, best.get(slots, seconds))
                    well = status == 0 and reconciled(answer) == slots
                    bad += not well
                    print(f"{slots} books, run {turn + 1}: {seconds:.2f} s, {peak / 1e6:.0f} MB, status {status}, reconciled {reconciled(answer)}", flush=True)
            print(f"one book takes {best[1] / best[64]:.2f} times as long as 64, best of {given.stress} runs each")
            print("all reconciled" if not bad else f"{bad} runs failed")
            return 1 if bad else 0
        shapes = [
            ("64 sessions, 100,000 calls, one book", text_of_calls(1, 100_000)),
            ("64 sessions, 100,000 calls, 64 books", text_of_calls(64, 100_000)),
            ("64 sessions, 200,000 calls, one book", text_of_calls(1, 200_000)),
            ("desks of 64 books, 300 lines each", text_of_desks(64, 300)),
        ]
        for name, rows in shapes:
            put(rows)
            for cores in [n for n in (1, 2, 4) if n <= os.cpu_count()]:
                tries = [run(program, path, cores) for _ in range(given.runs)]
                seconds, peak, status, answer = min(tries, key=lambda it: it[0])
                print(f"{name}, {cores} cores: {seconds:.3f} s, {peak / 1e6:.1f} MB, status {status}, reconciled {reconciled(answer)}", flush=True)
    return 0


if __name__ == "__main__":
    sys.exit(main())
