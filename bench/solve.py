#!/usr/bin/env python3
"""Measures `PROGRAM solve`, beside LEMON's network simplex.

    bench/solve.py PROGRAM [--only WORD] [--seconds N] [--runs N] [--trial TRIAL]

The questions are made by generate.py: random ones of 200 to 20,000 lines, in
networks that grow with them, and the largest ones in each shape. Of these, six
kinds: as they come (many allowed); scarce ones, with floors (tight 20 and 95);
one dekatherm too much for the floors (impossible); and fixed lines, where one
schedule is allowed, or none. --only takes those with WORD in their names.

Of the program the table has the seconds of a whole run by the clock and by the
processor, each the least of N runs (else 3), and the greatest peak of memory;
1 MB is 1,000,000 bytes. Where lemon.cpp beside this file can be compiled (by
g++, with Debian's liblemon-dev) it runs in turn with the program. LEMON's
seconds are those of its `run` alone, without reading, the least of N runs too.
It goes by classes alone, with ten arcs a line. A run that takes longer than
--seconds, else 600, is ended.

With --trial each question is also handed to `TRIAL proposed`, which prints one
line: what became of the simplex's proposal, `passes`, `cut` or `refused`, and
the number of its pivots, which the table has too.

The exit status is 1 where an answer is wrong: where it begins with another word
than it should, or where that word or a total of a class isn't LEMON's. It is 1
too where TRIAL tells anything but `passes` for a schedule and `cut` for a cut,
and where the program takes longer than 10 seconds: then what the simplex
proposed was refused, and the plain searches did the work.
"""

import argparse
import os
import shutil
import subprocess
import sys
import tempfile
from pathlib import Path
from typing import NamedTuple

from measure import GENERATE, MEGABYTE, RSS_BYTES

LEMON = Path(__file__).resolve().parent / "lemon.cpp"
CLASSES = 8
# Seconds that no question takes whose proposal is taken.
REFUSED = 10
# How many arcs LEMON has for a line.
ARCS = (10, 1)


class Case(NamedTuple):
    name: str
    words: list  # for generate.py
    first: str  # what the answer begins with


class Answer(NamedTuple):
    first: str  # the first word
    totals: list  # of the eight classes; empty where the word isn't `best`

    def told(self):
        return " ".join(map(str, [self.first or "nothing", *self.totals]))


class Run(NamedTuple):
    seconds: float  # by the clock
    processor: float
    peak: int  # bytes
    status: int  # None where the run was ended
    answer: Answer


def sized(places, points, pools, lines):
    numbers = {"places": places, "points": points, "pools": pools, "lines": lines}
    return [f"--{name}={number}" for name, number in numbers.items()]


RANDOM = [
    (51, 50, 4, 200),
    (201, 200, 16, 1_000),
    (1_001, 1_000, 64, 5_000),
    (2_001, 2_000, 128, 10_000),
    (4_001, 4_000, 256, 20_000),
]
SHAPES = {"tree": "branching", "chain": "deep", "star": "star"}
LARGEST = [
    ("many allowed", ["--solve"], "best"),
    ("tight 20", ["--solve", "--tight=20", "--floors=30"], "best"),
    ("tight 95", ["--solve", "--tight=95", "--floors=30"], "best"),
    ("impossible", ["--solve", "--floors=50", "--impossible"], "cut"),
    ("one allowed", ["--fixed"], "best"),
    ("none allowed", ["--short"], "cut"),
]
CASES = [
    Case(f"random, {size[-1]:,} lines", ["branching", "--solve", *sized(*size)], "best")
    for size in RANDOM
] + [
    Case(f"{name}, {kind}", [shape, *words], first)
    for name, shape in SHAPES.items()
    for kind, words, first in LARGEST
]

# Runs a command for so many seconds at most, and tells its time by the clock
# and by the processor, its peak and its status. It is a process of its own,
# since the peak is that of all commands that a process has waited for; and an
# alarm ends the command, since a wait with a timeout looks every 50 ms only.
TIMED = """
import resource, signal, subprocess, sys, time
ended = []
def end(*_):
    ended.append(True)
    child.kill()
begin = time.perf_counter()
child = subprocess.Popen(sys.argv[2:])
signal.signal(signal.SIGALRM, end)
signal.setitimer(signal.ITIMER_REAL, float(sys.argv[1]))
status = child.wait()
took = time.perf_counter() - begin
used = resource.getrusage(resource.RUSAGE_CHILDREN)
seconds = used.ru_utime + used.ru_stime
print(took, seconds, used.ru_maxrss, "ended" if ended else status, file=sys.stderr)
"""


def read_answer(rows):
    """The answer that a program's rows begin with."""
    first = next(rows, "").rstrip().split(",")[0]
    totals = [0] * CLASSES
    for row in rows:
        kind, *fields = row.split(",")
        if kind != "total":
            break
        totals[int(fields[0]) - 1] = int(fields[1])
    return Answer(first, totals if first == "best" else [])


def run_program(words, text, seconds):
    """Runs a command with the file `text` as its standard input."""
    timed = [sys.executable, "-c", TIMED, str(seconds), *words]
    with open(text) as source, tempfile.TemporaryFile("w+", errors="replace") as rows:
        run = subprocess.run(timed, stdin=source, stdout=rows, stderr=subprocess.PIPE)
        rows.seek(0)
        answer = read_answer(rows)
    took, used, peak, status = run.stderr.decode().split()[-4:]
    status = None if status == "ended" else int(status)
    return Run(float(took), float(used), int(peak) * RSS_BYTES, status, answer)


def compile_lemon(folder):
    """LEMON's program, or None where it can't be had."""
    lemon = folder / "lemon"
    words = ["g++", "-O3", "-std=gnu++17", LEMON, "-o", lemon]
    if shutil.which("g++") is None:
        print("There is no g++, so LEMON's columns are empty.")
        return None
    if subprocess.run(words, stderr=subprocess.DEVNULL).returncode != 0:
        print("lemon.cpp doesn't compile (liblemon-dev?), so LEMON's columns are empty.")
        return None
    return lemon


def run_lemon(lemon, text, arcs, seconds):
    """Seconds and the answer with so many arcs a line, or None where the run was ended."""
    words = [lemon, text, str(arcs)]
    try:
        run = subprocess.run(words, stdout=subprocess.PIPE, timeout=seconds, check=True)
    except subprocess.TimeoutExpired:
        return None
    took, first, *totals = run.stdout.decode().split()
    return float(took), Answer(first, [int(total) for total in totals])


def run_trial(trial, text, seconds):
    """What became of the proposal, and the number of pivots."""
    try:
        with open(text) as source:
            run = subprocess.run(
                [trial, "proposed"], stdin=source, stdout=subprocess.PIPE, timeout=seconds
            )
    except subprocess.TimeoutExpired:
        return "ended", ""
    told = run.stdout.decode(errors="replace").split()
    return tuple(told) if len(told) == 2 else ("failed", "")


def complaints(case, runs, theirs, proposed):
    """What is wrong with the answers to a question."""
    if runs[-1].status is None:
        yield "the program was ended"
    elif min(run.seconds for run in runs) > REFUSED:
        yield "what was proposed seems to be refused"
    for run in runs:
        if run.status is not None and run.answer.first != case.first:
            first = run.answer.first or "nothing"
            yield f"{first} with status {run.status}, not {case.first}"
        for _, answer in theirs:
            if run.status is not None and run.answer != answer:
                yield f"{run.answer.told()}, but LEMON told {answer.told()}"
    if proposed is not None:
        wanted = "passes" if case.first == "best" else "cut"
        if proposed[0] != wanted:
            yield f"the trial told {proposed[0]}, not {wanted}"


def least(seconds, limit):
    return f"{min(seconds):.3f}" if seconds else f"> {limit:.0f}"


def measure(case, text, lemon, arguments):
    """Prints the question's row of the table. Answers whether all is right."""
    limit = arguments.seconds
    with open(text, "wb") as target:
        subprocess.run([sys.executable, GENERATE, *case.words], stdout=target, check=True)
    runs, theirs = [], {arcs: [] for arcs in ARCS}
    for _ in range(arguments.runs):
        runs.append(run_program([arguments.program, "solve"], text, limit))
        for arcs, found in theirs.items():
            if lemon is not None and None not in found:
                found.append(run_lemon(lemon, text, arcs, limit))
        if runs[-1].status is None:
            break
    theirs = {arcs: [run for run in found if run is not None] for arcs, found in theirs.items()}
    proposed = run_trial(arguments.trial, text, limit) if arguments.trial else None
    rows = text.read_bytes().count(b"\n")
    took = least([run.seconds for run in runs if run.status is not None], limit)
    used = min(run.processor for run in runs)
    peak = max(run.peak for run in runs) / MEGABYTE
    their_best = "".join(
        f"{least([seconds for seconds, _ in found], limit) if lemon is not None else '':>10}"
        for found in theirs.values()
    )
    pivots = "" if proposed is None else proposed[1]
    cells = f"{case.name:<22}{rows:>8}{took:>10}{used:>11.3f}{peak:>9.1f}"
    print(f"{cells}{their_best}{pivots:>9}".rstrip(), flush=True)
    everyone = [run for found in theirs.values() for run in found]
    wrong = list(dict.fromkeys(complaints(case, runs, everyone, proposed)))
    for complaint in wrong:
        print(f"{case.name}: {complaint}", file=sys.stderr, flush=True)
    return not wrong


def main():
    parser = argparse.ArgumentParser(
        description="Measures `PROGRAM solve`, beside LEMON's network simplex."
    )
    parser.add_argument("program", metavar="PROGRAM")
    parser.add_argument(
        "--only", default="", metavar="WORD", help="the questions named so"
    )
    parser.add_argument("--seconds", type=float, default=600, metavar="N", help="else 600")
    parser.add_argument("--runs", type=int, default=3, metavar="N", help="else 3")
    parser.add_argument("--trial", help="a program that tells the number of pivots")
    arguments = parser.parse_args()
    if arguments.runs < 1:
        parser.error("there must be a run")
    for program in (arguments.program, arguments.trial):
        if program is not None and shutil.which(program) is None:
            print(f"{program} isn't a program", file=sys.stderr)
            return 1
    with tempfile.TemporaryDirectory() as folder:
        text = Path(folder) / "question.csv"
        lemon = compile_lemon(Path(folder))
        cells = f"{'question':<22}{'rows':>8}{'seconds':>10}{'processor':>11}{'peak MB':>9}"
        print(f"{cells}{'LEMON 10':>10}{'LEMON 1':>10}{'pivots':>9}", flush=True)
        right = [
            measure(case, text, lemon, arguments)
            for case in CASES
            if arguments.only in case.name
        ]
        floor = run_program(["true"], os.devnull, arguments.seconds).peak / MEGABYTE
    print(f"No peak below {floor:.1f} MB can be seen: doing nothing shows as much.")
    return 0 if all(right) else 1


if __name__ == "__main__":
    sys.exit(main())
