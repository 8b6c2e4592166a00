#!/usr/bin/env python3
"""Measures `PROGRAM check allowed` on the three largest questions.

    bench/measure.py PROGRAM [--runs N] [--check allowed|best]

Each shape's text is made by generate.py beside this file. The program,
Python's csv.reader and, where it is installed, mawk, which only split the same
text into fields, then read it in turn. The table has the best wall time of each
and the program's greatest peak of memory; 1 MB is 1,000,000 bytes. The aim for the peak is 64 MB and 20
times the text. Nothing is asserted about speed or memory: the exit status is 1
only where the program doesn't answer `allowed`, or `best`, first.
"""

import argparse
import os
import shutil
import subprocess
import sys
import tempfile
import time
from pathlib import Path
from typing import NamedTuple

GENERATE = Path(__file__).resolve().parent / "generate.py"
SHAPES = ("deep", "star", "branching")
READER = [
    "python3",
    "-c",
    "import csv,sys; [None for _ in csv.reader(sys.stdin)]",
]
MAWK = ["mawk", "-F,", "{ fields += NF } END { print fields }"]
MEGABYTE = 1_000_000
# The unit of ru_maxrss.
RSS_BYTES = 1 if sys.platform == "darwin" else 1024


class Run(NamedTuple):
    seconds: float
    peak: int  # bytes
    status: int  # below 0: the signal that ended the run
    first: str  # first row of the answer


def run(words, text):
    """Runs a command with the file `text` as its standard input."""
    with open(text, "rb") as source, tempfile.TemporaryFile() as answer:
        begin = time.perf_counter()
        child = subprocess.Popen(words, stdin=source, stdout=answer)
        _, status, usage = os.wait4(child.pid, 0)
        seconds = time.perf_counter() - begin
        child.returncode = os.waitstatus_to_exitcode(status)
        answer.seek(0)
        first = answer.readline().decode(errors="replace").rstrip("\r\n")
        return Run(seconds, usage.ru_maxrss * RSS_BYTES, child.returncode, first)


def least(runs):
    """The best time of these runs in words, or nothing where there is none."""
    return f"{min(r.seconds for r in runs):.3f}" if runs else ""


def measure(program, check, shape, text, runs):
    """Prints the shape's row of the table. Answers whether each run of the
    program answered by the check's word first."""
    words = [sys.executable, GENERATE, shape] + ["--best"] * (check == "best")
    with open(text, "wb") as target:
        subprocess.run(words, stdout=target, check=True)
    content = text.read_bytes()
    ours, theirs, mawks = [], [], []
    for _ in range(runs):
        ours.append(run([program, "check", check], text))
        theirs.append(run(READER, text))
        if shutil.which(MAWK[0]) is not None:
            mawks.append(run(MAWK, text))
    rows = content.count(b"\n")
    aim = 64 + 20 * len(content) / MEGABYTE
    print(
        f"{shape:<10}{len(content):>10}{rows:>8}"
        f"{min(r.seconds for r in ours):>11.3f}"
        f"{min(r.seconds for r in theirs):>14.3f}"
        f"{least(mawks):>8}"
        f"{max(r.peak for r in ours) / MEGABYTE:>10.1f}{aim:>8.1f}",
        flush=True,
    )
    wrong = [r for r in ours if r.first.split(",")[0] != check]
    if wrong:
        print(
            f"{shape}: answered '{wrong[0].first}' with status {wrong[0].status}"
            f" in {len(wrong)} of {runs} runs, not '{check}'",
            file=sys.stderr,
        )
    return not wrong


def main():
    parser = argparse.ArgumentParser(
        description="Measures `PROGRAM check allowed` on the three largest questions."
    )
    parser.add_argument("program", metavar="PROGRAM")
    parser.add_argument("--runs", type=int, default=5, metavar="N", help="else 5")
    parser.add_argument("--check", choices=["allowed", "best"], default="allowed")
    arguments = parser.parse_args()
    if arguments.runs < 1:
        parser.error("there must be a run")
    if shutil.which(arguments.program) is None:
        print(f"{arguments.program} isn't a program", file=sys.stderr)
        return 1
    print("shape          bytes    rows  program s  csv.reader s  mawk s   peak MB  aim MB")
    with tempfile.TemporaryDirectory() as folder:
        text = Path(folder) / "question.csv"
        answers = [
            measure(arguments.program, arguments.check, shape, text, arguments.runs)
            for shape in SHAPES
        ]
    peak = run(["true"], os.devnull).peak / MEGABYTE
    print(f"No peak below {peak:.1f} MB can be seen: doing nothing shows as much.")
    return 0 if all(answers) else 1


if __name__ == "__main__":
    sys.exit(main())
