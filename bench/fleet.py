#!/usr/bin/env python3
"""Measures companion/gasday-fleet.

    bench/fleet.py PROGRAM audit|study [--python PYTHON] [--folder FOLDER] [--workers N]

PROGRAM is the built `gasday`, PYTHON one that has Dask, else /usr/bin/python3. What is made stands in FOLDER, and is made once
where it is named. It measures, one run each, by --serial and with N workers of a cluster on this machine, else 4,

audit  600 archives: those of 60 pipelines of 60 segments, 30 gas days in five cycles of 300 lines each, and each of them ten
       times. One has a line's quantity one dekatherm lower. It has to be found, and all others have to be sound.
study  10,000 scenarios on a question of 300 places and 1,000 lines, each with one or two other capacities, some with another
       ceiling; also with 1 and 2 workers. All tables have to be the same byte for byte.

Beside each time stands what the run took of the processors, and what all else on the machine did meanwhile. A memory is the
greatest resident one of a process, looked at each quarter of a second; 1 MB is 1,000,000 bytes. The exit status is 1 only
where an answer is not the one that it has to be.
"""

import argparse
import hashlib
import os
import random
import re
import resource
import shutil
import sqlite3
import subprocess
import sys
import tempfile
import threading
import time
from concurrent.futures import ThreadPoolExecutor
from datetime import datetime, timedelta, timezone
from pathlib import Path
from typing import NamedTuple

from day import CYCLES, row
from measure import GENERATE, MEGABYTE

FLEET = Path(__file__).resolve().parents[1] / "companion" / "gasday-fleet"
PIPELINES, DAYS, COPIES = 60, 30, 10
SEGMENTS, LINES, CONTRACTS = 60, 300, 30
TAMPERED = 417
SCENARIOS = 10_000
QUESTION = ["branching", "--solve", "--places", "300", "--points", "300", "--pools", "8", "--lines", "1000", "--tight", "60",
            "--floors", "20", "--seed", "7"]


class Run(NamedTuple):
    seconds: float
    processors: float  # seconds that its processes took of them
    others: float  # seconds that all else on the machine took of them meanwhile
    status: int
    told: str
    own: int  # bytes of the process that has client and scheduler
    workers: list  # bytes of each worker


def begin_of(date):
    """9:00 of a gas day by Central Standard Time."""
    return int(datetime(date.year, date.month, date.day, 9, tzinfo=timezone(timedelta(hours=-6))).timestamp())


def pipeline_rows(chance):
    """A random tree of segments that can't carry all, and the contracts over it."""
    text = [row("segment", f"S{at}", f"L{(at - 1) // 2}", f"L{at}", chance.randint(2_000, 9_000))
            for at in range(1, SEGMENTS + 1)]
    text += [row("point", f"R{at}", "receipt", f"L{at}", "OPR", 20_000) for at in range(10)]
    text += [row("point", f"D{at}", "delivery", f"L{at}", "OPD", 1_000) for at in range(SEGMENTS + 1)]
    ends = []
    for _ in range(CONTRACTS):
        end = chance.randint(30, SEGMENTS)
        above = [end]
        while above[-1]:
            above.append((above[-1] - 1) // 2)
        ends.append((chance.choice([at for at in above if at < 10]), end))
    text += [row("contract", f"C{at}", "SHIP", "firm", 100_000, f"R{start}", f"D{end}") if at % 2
             else row("contract", f"C{at}", "SHIP", "interruptible", 100_000, at // 2 % 5 + 1)
             for at, (start, end) in enumerate(ends)]
    return "".join(text), ends


def calls_of(chance, ends, begun):
    """In each cycle a quarter of the lines is nominated anew, all ends confirm, and it is settled."""
    text = []
    for cycle, (received, confirmed) in enumerate(CYCLES):
        received, confirmed = (begun + int(hours * 3600) for hours in (received, confirmed))
        for line in (line for line in range(LINES) if cycle == 0 or chance.random() < 0.25):
            start, end = ends[line % CONTRACTS]
            text.append(row("nominate", received, "SHIP", f"C{line % CONTRACTS}", f"P{line}", f"R{start}", f"D{end}",
                            chance.randint(1, 400)))
        for line in range(1, LINES + 1):
            text.append(row("respond", received + 60, "OPR", line, "origin", 400))
            text.append(row("respond", received + 60, "OPD", line, "dest", 400))
        text += [row("freeze", confirmed), row("settle", confirmed)]
    return "".join(text)


def make_archive(program, path, number):
    """The archive of a pipeline's month."""
    chance = random.Random(number)
    head, ends = pipeline_rows(chance)
    for day in range(DAYS):
        date = datetime(2026, 1, 1) + timedelta(days=day)
        text = head + row("day", f"{date:%Y-%m-%d}", "CST6", f"N{number}-{date:%m%d}") + calls_of(chance, ends, begin_of(date))
        subprocess.run([program, "day", "--archive", path], input=text.encode(), check=True, stdout=subprocess.DEVNULL,
                       stderr=subprocess.DEVNULL)


def tamper(path):
    """Takes one dekatherm from a line of a posting."""
    archive = sqlite3.connect(path)
    posting = "select book, cycle, body from posting2 order by book, cycle limit 1 offset 77"
    book, cycle, body = archive.execute(posting).fetchone()
    lowered = re.sub(rb"(?m)^(sched,\d+,)([1-9]\d*)", lambda found: found[1] + b"%d" % (int(found[2]) - 1), body, count=1)
    archive.execute("update posting2 set body = ? where book = ? and cycle = ?", (lowered, book, cycle))
    archive.commit()
    archive.execute("pragma wal_checkpoint(truncate)")
    archive.close()


def make_archives(program, folder):
    """All archives, of which one is tampered with. Their names."""
    kept = folder / "archives"
    if not kept.exists():
        made = folder / "made"
        shutil.rmtree(made, ignore_errors=True)
        made.mkdir(parents=True)
        with ThreadPoolExecutor(os.cpu_count()) as pool:
            list(pool.map(lambda at: make_archive(program, made / f"{at:03}-0.db", at), range(PIPELINES)))
        for at in range(PIPELINES):
            for copy in range(1, COPIES):
                shutil.copyfile(made / f"{at:03}-0.db", made / f"{at:03}-{copy}.db")
        tamper(sorted(made.glob("*.db"))[TAMPERED])
        made.rename(kept)
    return sorted(kept.glob("*.db"))


def resident(pid):
    """The most bytes that a process has held."""
    try:
        found = re.search(r"VmHWM:\s+(\d+) kB", Path(f"/proc/{pid}/status").read_text())
        return int(found[1]) * 1024 if found else 0
    except OSError:
        return 0


def watch(child, most, ended):
    """Notes the memory of a process and of the workers that it has started."""
    while not ended.wait(0.25):
        most[child.pid] = max(most.get(child.pid, 0), resident(child.pid))
        found = subprocess.run(["ps", "-o", "pid=,args=", "--ppid", str(child.pid)], capture_output=True, text=True).stdout
        for line in found.splitlines():
            pid, args = line.split(None, 1)
            if "spawn_main" in args:
                most[int(pid)] = max(most.get(int(pid), 0), resident(pid))


def run(given, *words):
    """A run of gasday-fleet."""
    begun, before, busy = time.perf_counter(), taken_by_children(), taken_by_all()
    child = subprocess.Popen([given.python, FLEET, *words, "--gasday", given.program], stderr=subprocess.PIPE, text=True)
    most, ended = {}, threading.Event()
    watcher = threading.Thread(target=watch, args=(child, most, ended))
    watcher.start()
    told = child.communicate()[1]
    seconds = time.perf_counter() - begun
    ended.set()
    watcher.join()
    own = most.pop(child.pid, 0)
    taken = taken_by_children() - before
    return Run(seconds, taken, taken_by_all() - busy - taken, child.returncode, told, own, list(most.values()))


def taken_by_children():
    usage = resource.getrusage(resource.RUSAGE_CHILDREN)
    return usage.ru_utime + usage.ru_stime


def taken_by_all():
    """Seconds of processors since the machine was started, less those in which they had nothing to do."""
    user, nice, system, _idle, _waiting, *rest = map(int, Path("/proc/stat").read_text().split("\n")[0].split()[1:9])
    return (user + nice + system + sum(rest)) / os.sysconf("SC_CLK_TCK")


def tell(name, made, count):
    workers = f", workers at most {max(made.workers) / MEGABYTE:.0f} MB each" if made.workers else ""
    print(f"{name}: {made.seconds:.1f} s, {count / made.seconds:.1f} a second, {made.processors:.0f} s of processors (all else"
          f" {made.others:.0f} s), client and scheduler {made.own / MEGABYTE:.0f} MB{workers}", flush=True)


def measure_audit(given, folder):
    names = make_archives(given.program, folder)
    size = sum(name.stat().st_size for name in names)
    print(f"{len(names)} archives of {size / MEGABYTE:.0f} MB together", flush=True)
    good, tables, taken = True, [], []
    for name, words in ((f"{given.workers} workers", ["--workers", str(given.workers)]), ("serial", ["--serial"])):
        table = folder / "audited.csv"
        table.unlink(missing_ok=True)
        made = run(given, "audit", *names, "--output", table, "--untimed", *words)
        tell(name, made, len(names))
        taken.append(made.seconds)
        tables.append(table.read_bytes())
        good &= made.status == 1 and f"{names[TAMPERED]}: unsound: " in made.told and "599 sound, 1 unsound" in made.told
    print(f"{taken[1] / taken[0]:.2f} times as fast")
    return good and tables[0] == tables[1]


def scenarios_of(question):
    """Outages and restrictions of one or two segments or points, some with less asked on a line."""
    chance, rows = random.Random(11), [line.split(",") for line in question.splitlines()]
    capacity = {"segment": 4, "point": 5}
    elements = [(fields[1], int(fields[capacity[fields[0]]])) for fields in rows if fields[0] in capacity]
    lines = [(at, int(fields[4]), int(fields[5])) for at, fields in enumerate([f for f in rows if f[0] == "line"], 1)]
    text = ["scenario,element,capacity,element,capacity,line,floor,ceiling,kind\n"]
    for at in range(SCENARIOS):
        picked = chance.sample(elements, chance.choice([1, 1, 2]))
        cells = [f"{name},{capacity * chance.choice([0, 25, 50, 75, 90]) // 100}" for name, capacity in picked]
        number, floor, ceiling = chance.choice(lines)
        line = f"{number},,{max(floor, ceiling // 2)}" if chance.random() < 0.3 else ",,"
        text.append(",".join([f"S-{at:05}", *cells, *[","] * (2 - len(cells)), line, "warm" if line != ",," else "usual"]) + "\n")
    return "".join(text)


def measure_study(given, folder):
    base, scenarios = folder / "base.csv", folder / "scenarios.csv"
    question = subprocess.run([sys.executable, GENERATE, *QUESTION], check=True, capture_output=True, text=True).stdout
    base.write_text(question)
    scenarios.write_text(scenarios_of(question))
    sums = set()
    for count in dict.fromkeys((given.workers, 2, 1, 0)):
        table = folder / f"study-{count}.csv"
        table.unlink(missing_ok=True)
        words = ["--workers", str(count)] if count else ["--serial"]
        made = run(given, "study", base, scenarios, "--output", table, "--html", folder / "study.html", "--json",
                   folder / "study.json", *words)
        tell(f"{count} workers" if count else "serial", made, SCENARIOS)
        print(made.told.splitlines()[-1], flush=True)
        sums.add(hashlib.sha256(table.read_bytes()).hexdigest())
    print(f"table {table.stat().st_size / MEGABYTE:.1f} MB, {len(sums)} different")
    return len(sums) == 1


def main():
    parser = argparse.ArgumentParser(description=__doc__, formatter_class=argparse.RawDescriptionHelpFormatter)
    parser.add_argument("program", type=os.path.abspath)
    parser.add_argument("what", choices=("audit", "study"))
    parser.add_argument("--python", default="/usr/bin/python3")
    parser.add_argument("--folder", type=Path)
    parser.add_argument("--workers", type=int, default=4)
    given = parser.parse_args()
    with tempfile.TemporaryDirectory() as scratch:
        folder = (given.folder or Path(scratch)).resolve()
        folder.mkdir(parents=True, exist_ok=True)
        is_good = {"audit": measure_audit, "study": measure_study}[given.what](given, folder)
    return 0 if is_good else 1


if __name__ == "__main__":
    sys.exit(main())
