#!/usr/bin/env python3
"""Times `PROGRAM ARGUMENT ...`, and counts the walks that the settling looks at.

    bench/walks.py PROGRAM ARGUMENT ... [--only WORD]

PROGRAM is `gd_proposals`, with the argument `thrown-away` for answers without a
proposal; it gets the questions on its standard input. They are those with WORD
in their names, else the random ones of 200, 1,000 and 5,000 lines.

Each walk that the settling looks at takes one table of marks, a byte a node,
and so does each search of the repair. So this counts the calls of malloc for
that many bytes, by a library that is loaded before the C library, in a run of
its own. It takes gcc. The seconds are those of a whole run by the clock, the
peak of memory is that of all runs so far; 1 MB is 1,000,000 bytes.
"""

import argparse
import os
import resource
import subprocess
import sys
import tempfile
import time
from pathlib import Path

from measure import GENERATE, MEGABYTE, RSS_BYTES
from solve import CASES

# The first questions, which don't take too long without a proposal.
USUAL = 3

COUNTING = """
#define _GNU_SOURCE
#include <dlfcn.h>
#include <stdio.h>
#include <stdlib.h>

static size_t wanted;
static unsigned long count;

__attribute__((constructor)) static void begin(void) { wanted = strtoul(getenv("COUNTED_BYTES"), NULL, 10); }

void *malloc(size_t size) {
    static void *(*next)(size_t);
    if (!next) next = dlsym(RTLD_NEXT, "malloc");
    count += size == wanted;
    return next(size);
}

__attribute__((destructor)) static void end(void) { fprintf(stderr, "%lu\\n", count); }
"""


def walks(command, library, text):
    """How many tables of marks the command takes for a question."""
    kinds = [row.split(b",", 1)[0] for row in text.splitlines()]
    nodes = kinds.count(b"segment") + 1 + kinds.count(b"point") + kinds.count(b"pool")
    environment = {**os.environ, "LD_PRELOAD": library, "COUNTED_BYTES": str(nodes)}
    run = subprocess.run(command, input=text, capture_output=True, env=environment)
    return int(run.stderr.split()[-1])


def measure(name, command, library, text):
    """Prints a question's row: seconds, peak and walks."""
    began = time.perf_counter()
    subprocess.run(command, input=text, stdout=subprocess.DEVNULL)
    took = time.perf_counter() - began
    peak = resource.getrusage(resource.RUSAGE_CHILDREN).ru_maxrss * RSS_BYTES / MEGABYTE
    print(f"{name:<22}{took:>10.3f}{peak:>9.1f}{walks(command, library, text):>10}", flush=True)


def main():
    parser = argparse.ArgumentParser(description="Times a program, and counts walks that the settling looks at.")
    parser.add_argument("program", metavar="PROGRAM")
    parser.add_argument("arguments", nargs="*", metavar="ARGUMENT", help="else solve")
    parser.add_argument("--only", metavar="WORD", help="the questions named so")
    arguments = parser.parse_args()
    command = [arguments.program, *(arguments.arguments or ["solve"])]
    cases = CASES[:USUAL] if arguments.only is None else [case for case in CASES if arguments.only in case.name]
    with tempfile.TemporaryDirectory() as folder:
        source, library = Path(folder) / "counting.c", Path(folder) / "counting.so"
        source.write_text(COUNTING)
        subprocess.run(["gcc", "-shared", "-fPIC", "-O2", source, "-o", library, "-ldl"], check=True)
        for case in cases:
            text = subprocess.run([sys.executable, GENERATE, *case.words], stdout=subprocess.PIPE, check=True).stdout
            measure(case.name, command, str(library), text)


if __name__ == "__main__":
    main()
