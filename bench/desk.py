#!/usr/bin/env python3
"""Measures companion/gasday-desk.

    bench/desk.py PROGRAM [--users N] [--calls N] [--rate N] [--lines N] [--kept FOLDER]

PROGRAM is the built `gasday`. A desk of its own is served on this machine by a Python with Flask and waitress. It measures

calls   so many users (50 without a number), each on a connection of its own, nominate 10,000 times in all, each call awaited
        before that user's next, as fast as they can, or at so many a second in all: calls a second, and how long an answer
        took (median, 95 and 99 of 100, greatest). Then the file has to audit, and has to have each call once.
settle  a day with so many lines (20,000 without a number) is frozen and settled by the desk while a page of it is asked for
        again and again: how long the settle took, and how long the slowest page meanwhile.

Beside it stands the greatest resident memory of the server and of the program that it drives. The exit status is 1 where an
answer is not the one that it has to be. Quantities of time are seconds; 1 MB is 1,000,000 bytes.
"""

import argparse
import os
import random
import sys
import tempfile
import threading
import time
from pathlib import Path

sys.path.insert(0, str(Path(__file__).resolve().parents[1] / "companion" / "tests"))
sys.dont_write_bytecode = True

from desk_live import LiveDesk

MEGABYTE = 1_000_000


def memory_of(pid):
    """The greatest resident memory of a process so far, in MB."""
    try:
        lines = Path(f"/proc/{pid}/status").read_text().splitlines()
    except OSError:
        return 0.0
    return next((int(line.split()[1]) * 1024 / MEGABYTE for line in lines if line.startswith("VmHWM")), 0.0)


def memories(desk):
    return f"server {memory_of(desk.pid()):.0f} MB, program {max(map(memory_of, desk.children()), default=0):.0f} MB"


def share(times, part):
    return sorted(times)[min(len(times) - 1, int(len(times) * part))]


def nominate(desk, user, count, pause, times, wrong):
    """A user's calls, one each so many seconds, or as fast as they are answered."""
    due = time.perf_counter() + pause * random.random()
    for at in range(count):
        if pause:
            time.sleep(max(0.0, due - time.perf_counter()))
            due += pause
        began = time.perf_counter()
        status, told = desk.nominate(user, f"U{user}N{at % 100}", f"order-{user}-{at:06}", 1 + at % 7)
        times.append(time.perf_counter() - began)
        if status != 200 or not told["reply"][0].startswith("accepted,"):
            wrong.append((status, told))


def measure_calls(folder, program, users, calls, rate):
    """Calls of all users at once; whether all was right."""
    desk = LiveDesk(folder / "calls", program, users)
    desk.make_book()
    desk.start()
    times, wrong = [], []
    pause = users / rate if rate else 0.0
    threads = [threading.Thread(target=nominate, args=(desk, user, calls // users, pause, times, wrong)) for user in range(users)]
    began = time.perf_counter()
    for thread in threads:
        thread.start()
    for thread in threads:
        thread.join()
    seconds = time.perf_counter() - began
    print(f"calls: {len(times)} of {users} users in {seconds:.1f}: {len(times) / seconds:.0f} a second; an answer took"
          f" {share(times, 0.5):.4f} (median), {share(times, 0.95):.4f} (95 of 100), {share(times, 0.99):.4f} (99 of 100),"
          f" {max(times):.4f} (greatest); {memories(desk)}", flush=True)
    desk.end()
    audit = desk.program.ask("audit", str(desk.file)).first()
    rows, _ = desk.kept()
    if wrong:
        print(f"calls: {len(wrong)} were not accepted, the first {wrong[0]}")
    print(f"calls: gasday audit tells {','.join(audit).rstrip(',')}; the file has {len(rows)} calls")
    return not wrong and audit[0] == "replayed" and len(rows) == len(times)


def day_of_lines(desk, lines):
    """A day whose first cycle is due: all lines are nominated, and each end confirms what is nominated."""
    day = next(row for row in desk.opening.decode().splitlines() if row.startswith("day,"))
    calendar = desk.program.ask("calendar", text=(day + "\n").encode()).rows()
    leaves, confirmed = int(calendar[0][2]), int(calendar[0][5])
    rows = [f"nominate,{leaves},S{at % 50},C{at % 50},L{at},R1,D1,{1000 + at % 977}" for at in range(lines)]
    for end, operator in (("origin", "OPR"), ("dest", "OPD")):
        rows += [f"respond,{leaves},{operator},{at + 1},{end},{1000 + at % 977},," for at in range(lines)]
    rows.append(f"post,{leaves},S1,{lines * 700},,,,")
    return "\n".join(rows).encode() + b"\n", confirmed


def measure_settle(folder, program, lines):
    """A settle by the desk, and pages meanwhile; whether it was published."""
    yesterday = time.strftime("%Y-%m-%d", time.gmtime(time.time() - 86400))
    desk = LiveDesk(folder / "settle", program, 50, yesterday)
    desk.make_book()
    text, _ = day_of_lines(desk, lines)
    desk.program.ask("day", "--book", str(desk.file), text=text)
    desk.start()
    pages, over = [], threading.Event()

    def look():
        while not over.is_set():
            began = time.perf_counter()
            status, _ = desk.ask("sam", "GET", f"/days/{desk.book}")
            pages.append((time.perf_counter() - began, status))
            time.sleep(0.02)

    began = time.perf_counter()
    desk.ask("sam", "GET", f"/days/{desk.book}")
    opened = time.perf_counter() - began
    frozen = desk.call("sam", "freeze-0001", kind="freeze")
    looking = threading.Thread(target=look)
    looking.start()
    began = time.perf_counter()
    status, told = desk.call("sam", "settle-0001", kind="settle")
    seconds = time.perf_counter() - began
    over.set()
    looking.join()
    times = [taken for taken, _ in pages]
    print(f"settle: {lines} lines opened in {opened:.2f}, settled in {seconds:.2f}; {len(times)} pages meanwhile, the slowest in"
          f" {max(times):.3f}; {memories(desk)}", flush=True)
    desk.end()
    is_right = frozen[0] == status == 200 and told["reply"][0].startswith("published,") and all(code == 200 for _, code in pages)
    if not is_right:
        print(f"settle: freeze was told {frozen}, settle {status} {str(told)[:400]}")
    return is_right


def main():
    parser = argparse.ArgumentParser(description=__doc__, formatter_class=argparse.RawDescriptionHelpFormatter)
    parser.add_argument("program")
    parser.add_argument("--users", type=int, default=50)
    parser.add_argument("--calls", type=int, default=10_000)
    parser.add_argument("--rate", type=float, default=0.0, help="so many calls a second in all, else as fast as they can")
    parser.add_argument("--lines", type=int, default=20_000)
    parser.add_argument("--kept", type=Path, help="a folder for what is made, else a temporary one")
    options = parser.parse_args()
    program = os.path.abspath(options.program)
    with tempfile.TemporaryDirectory() as name:
        folder = options.kept or Path(name)
        folder.mkdir(parents=True, exist_ok=True)
        is_right = measure_calls(folder, program, options.users, options.calls, options.rate)
        is_right &= measure_settle(folder, program, options.lines)
    return 0 if is_right else 1


if __name__ == "__main__":
    sys.exit(main())
