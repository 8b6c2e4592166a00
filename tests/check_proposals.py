#!/usr/bin/env python3
"""check_proposals.py PROGRAM TRIAL

Tests what no contract says of the solver's proposals: that they are right, and that the answer is right without them.
PROGRAM is the built `gasday`, TRIAL the built `gd_proposals`.

- Each case of the group `solve` beside this file: the proposal passes as it is, or the question has a cut. And with each
  proposal thrown away, each quantity lowered, or the potentials reversed, `solve` still answers each case.
- 1,000 questions of a fixed sequence: no proposal is refused, and spoiled ones lead to the same totals, or to a cut.
- Questions that are hard for a network simplex: no proposal is refused, and it ends within 4 pivots an arc, so that the
  first attempt of the simplex, which may take 16 an arc, never turns in a circle.

A test that fails is printed. The last line is 'N passed, M failed', and the exit status is 0 only where none failed.
"""

import os
import shlex
import subprocess
import sys
import tempfile
from concurrent.futures import ThreadPoolExecutor
from pathlib import Path

HERE = Path(__file__).resolve().parent
SPOILED = ("thrown-away", "lowered", "reversed")
QUESTIONS = 1000
PIVOTS_AN_ARC = 4

# Stands in for PROGRAM: `solve` goes through a trial, and PROGRAM itself tells what is wrong with a text.
STAND_IN = """#!/bin/sh
[ "$1" = solve ] || exec {program} "$@"
kept=$(mktemp -d)
trap 'rm -rf "$kept"' EXIT
cat > "$kept/text"
{trial} {mode} < "$kept/text" > "$kept/answer"
status=$?
if [ $status -eq 2 ]; then
    {program} solve < "$kept/text" > "$kept/fault"
    status=$?
    [ $status -eq 2 ] || exit 99
    cat "$kept/fault"
elif [ {mode} = proposed ]; then
    [ $status -eq 0 ] || exit 98
    {program} solve < "$kept/text"
    status=$?
else
    cat "$kept/answer"
fi
exit $status
"""


class Sequence:
    """Numbers that look random, the same ones each time (Knuth's MMIX generator)."""

    def __init__(self, seed):
        self.state = seed

    def below(self, count):
        self.state = (self.state * 6364136223846793005 + 1442695040888963407) % 2**64
        return (self.state >> 33) % count

    def between(self, least, most):
        return least + self.below(most - least + 1)

    def pick(self, items):
        return items[self.below(len(items))]


def row(*fields):
    return ",".join(map(str, fields)) + "," * (8 - len(fields)) + "\n"


class Tree:
    """A tree of one-way segments: segment k joins place k to an earlier one. From places of odd numbers gas flows to the
    hub, place 0, and from there to places of even numbers."""

    def __init__(self, numbers, count):
        self.parent = [0] + [numbers.pick([0, *range(k % 2 or 2, k, 2)]) for k in range(1, count)]
        self.upwards = [k % 2 == 1 for k in range(count)]

    def way(self, place):
        ways = [place]
        while ways[-1]:
            ways.append(self.parent[ways[-1]])
        return ways

    def route(self, start, end):
        """The segments from one place to another, or None where one of them runs against the gas."""
        up, down = self.way(start), self.way(end)
        shared = set(up) & set(down)
        rise = [k for k in up if k not in shared]
        fall = [k for k in down if k not in shared]
        if all(self.upwards[k] for k in rise) and not any(self.upwards[k] for k in fall):
            return rise + fall
        return None


def ends_of(numbers, places):
    """Receipt points, delivery points and pools with their places; at least one point of each kind."""
    upstream, downstream = [0, *range(1, places, 2)], [0, *range(2, places, 2)]
    receipts = {f"R{k}": numbers.pick(upstream) for k in range(numbers.between(1, 6))}
    deliveries = {f"D{k}": numbers.pick(downstream) for k in range(numbers.between(1, 6))}
    pools = {f"P{k}": numbers.pick([0, 0, numbers.below(places)]) for k in range(numbers.below(4))}
    return receipts, deliveries, pools


def stops_of(numbers, receipts, deliveries, pools):
    """Where gas goes: from a receipt point to a delivery point, and now and then through a pool."""
    between = [numbers.pick(list(pools))] if pools and numbers.below(3) == 0 else []
    return [numbers.pick(list(receipts)), *between, numbers.pick(list(deliveries))]


def bounds_of(numbers, quantity, fixed):
    floor = quantity if fixed else numbers.pick([0, 0, quantity, quantity // 2])
    return floor, quantity + numbers.pick([0, 1, numbers.below(97)])


def lines_of(numbers, tree, ends):
    """Lines with routes, their bounds, and quantities between them that keep the pools in balance."""
    receipts, deliveries, pools = ends
    place = {**receipts, **deliveries, **pools}
    lines = []
    for _ in range(numbers.between(1, 16)):
        stops = stops_of(numbers, *ends)
        routes = [tree.route(place[a], place[b]) for a, b in zip(stops, stops[1:])]
        if None not in routes:
            quantity = numbers.below(120)
            for origin, dest, route in zip(stops, stops[1:], routes):
                floor, ceiling = bounds_of(numbers, quantity, False)
                lines.append((origin, dest, numbers.between(1, 8), floor, ceiling, quantity, route))
    return lines


def loads_of(lines):
    loads = {}
    for origin, dest, _, _, _, quantity, route in lines:
        for element in [origin, dest, *route]:
            loads[element] = loads.get(element, 0) + quantity
    return loads


def capacity_for(numbers, load):
    """Half of the capacities are full to the last dekatherm; now and then one is too small by one."""
    if load and numbers.below(40) == 0:
        return load - 1
    return load + numbers.pick([0, 0, 1, numbers.below(200)])


def question(numbers):
    """A question with pools, floors, binding capacities, eight classes and ceilings that ten doesn't divide."""
    places = numbers.between(2, 12)
    tree = Tree(numbers, places)
    receipts, deliveries, pools = ends_of(numbers, places)
    lines = lines_of(numbers, tree, (receipts, deliveries, pools))
    loads = loads_of(lines)
    rows = []
    for k in range(1, places):
        ways = (k, tree.parent[k]) if tree.upwards[k] else (tree.parent[k], k)
        rows.append(row("segment", f"S{k}", f"L{ways[0]}", f"L{ways[1]}", capacity_for(numbers, loads.get(k, 0))))
    for kind, points in (("receipt", receipts), ("delivery", deliveries)):
        for name, place in points.items():
            rows.append(row("point", name, kind, f"L{place}", "OP", capacity_for(numbers, loads.get(name, 0))))
    rows += [row("pool", name, f"L{place}", "OP") for name, place in pools.items()]
    rows.append(row("question", "DRAWN", 3, 3))
    rows += [row("line", *line[:5]) for line in lines]
    return "".join(rows)


def chain(segments, capacity):
    return [row("segment", f"S{k}", f"L{k}", f"L{k + 1}", capacity) for k in range(segments)]


def equal_lines():
    """3,000 lines of one class and one ceiling, all over one segment that carries a third of them."""
    rows = chain(1, 1000 * 7)
    for k in range(60):
        rows.append(row("point", f"R{k}", "receipt", "L0", "OP", 400))
        rows.append(row("point", f"D{k}", "delivery", "L1", "OP", 400))
    rows.append(row("question", "EQUAL", 3, 3))
    rows += [row("line", f"R{k % 60}", f"D{k // 60}", 4, 0, 7) for k in range(3000)]
    return "".join(rows)


def capacities_of_zero():
    """Each second segment that leads away from a hub carries nothing; all lines are alike."""
    rows = [row("segment", f"S{k}", "HUB", f"L{k}", k % 2 * 50) for k in range(400)]
    rows += [row("point", f"R{k}", "receipt", "HUB", "OP", k % 3 * 90) for k in range(60)]
    rows += [row("point", f"D{k}", "delivery", f"L{k}", "OP", 30) for k in range(400)]
    rows.append(row("question", "ZERO", 3, 3))
    rows += [row("line", f"R{k % 60}", f"D{k % 400}", 1 + k % 2, 0, 10) for k in range(2400)]
    return "".join(rows)


def pools_at_one_place():
    """200 pools at one place: what comes into one goes on to the next, and from the last to the delivery points."""
    rows = chain(2, 5000)
    rows += [row("point", f"R{k}", "receipt", "L0", "OP", 100) for k in range(50)]
    rows += [row("point", f"D{k}", "delivery", "L2", "OP", 100) for k in range(50)]
    rows += [row("pool", f"P{k}", "L1", "OP") for k in range(200)]
    rows.append(row("question", "POOLS", 3, 3))
    rows += [row("line", f"R{k % 50}", f"P{k % 200}", 3, 0, 40) for k in range(600)]
    rows += [row("line", f"P{k}", f"P{(k + 1) % 200}", 3, 0, 40) for k in range(200)]
    rows += [row("line", f"P{k % 200}", f"D{k % 50}", 3, 0, 40) for k in range(600)]
    return "".join(rows)


def long_chain():
    """A chain of 1,500 segments, lines of one class over all its stretches, capacities one below what is asked."""
    count, stretch = 1500, 30
    rows = chain(count, 20 * stretch - 1)
    for k in range(count):
        rows.append(row("point", f"R{k}", "receipt", f"L{k}", "OP", 19))
        rows.append(row("point", f"D{k}", "delivery", f"L{k + 1}", "OP", 20))
    rows.append(row("question", "CHAIN", 3, 3))
    rows += [row("line", f"R{k}", f"D{min(k + stretch, count) - 1}", 5, 0, 20) for k in range(count)]
    rows += [row("line", f"R{k}", f"D{k}", 5, 0, 20) for k in range(count)]
    return "".join(rows)


HARD = {
    "equal lines": equal_lines,
    "capacities of zero": capacities_of_zero,
    "pools at one place": pools_at_one_place,
    "a long chain": long_chain,
}


def run(words, text):
    """Standard output and exit status of a program; no status where it did not end in 60 seconds."""
    try:
        done = subprocess.run(words, input=text.encode(), capture_output=True, timeout=600)
    except subprocess.TimeoutExpired:
        return "", None
    return done.stdout.decode(), done.returncode


def head(answer):
    """What isn't free in an answer: of a best schedule the first row and the totals, of a cut the first word."""
    rows = answer.splitlines()
    if rows and rows[0].startswith("cut"):
        return ["cut"]
    return [row for row in rows if row.split(",")[0] in ("best", "total")]


def proposal_faults(trial, text):
    """What is wrong with the proposal for a question, and what came of it."""
    told, status = run([trial, "proposed"], text)
    words = told.split()
    if status != 0 or len(words) != 2 or words[0] not in ("passes", "cut"):
        return [f"{told.strip() or 'no answer'} with status {status}"], "refused"
    arcs = sum(line.split(",")[0] in ("segment", "point", "pool", "line") for line in text.splitlines())
    if int(words[1]) > PIVOTS_AN_ARC * arcs:
        return [f"{words[1]} pivots over {arcs} arcs"], words[0]
    return [], words[0]


def spoiled_faults(program, trial, text):
    """What is wrong with the answers to a question whose proposal is spoiled."""
    want = head(run([program, "solve"], text)[0])
    return [mode for mode in SPOILED if not want or head(run([trial, mode], text)[0]) != want]


def drawn(program, trial, numbers):
    """Faults of 1,000 questions of a fixed sequence, in lines, and how many had a schedule."""
    texts = [question(numbers) for _ in range(QUESTIONS)]
    with ThreadPoolExecutor(os.cpu_count() or 2) as pool:
        proposed = list(pool.map(lambda text: proposal_faults(trial, text), texts))
        spoiled = list(pool.map(lambda text: spoiled_faults(program, trial, text), texts))
    faults = []
    for number, ((wrong, _), modes) in enumerate(zip(proposed, spoiled), 1):
        if wrong or modes:
            faults.append(f"question {number}: {'; '.join(wrong + modes)}")
    return faults, sum(word == "passes" for _, word in proposed)


def cases(program, trial, mode, folder):
    """Runs the cases of `solve` through a trial; the counts of passed and failed."""
    stand_in = Path(folder) / mode
    stand_in.write_text(STAND_IN.format(program=shlex.quote(program), trial=shlex.quote(trial), mode=mode))
    stand_in.chmod(0o755)
    done = subprocess.run([HERE / "cases" / "run.py", stand_in, "solve"], stdout=subprocess.PIPE, text=True)
    lines = done.stdout.splitlines()
    for line in lines[:-1]:
        print(f"{mode}: {line}")
    passed, failed = lines[-1].split(" passed, ")
    return int(passed), int(failed.split()[0])


def main():
    if len(sys.argv) != 3:
        print(__doc__.strip())
        return 2
    program, trial = map(os.path.abspath, sys.argv[1:])
    passed = failed = 0
    with tempfile.TemporaryDirectory() as folder:
        for mode in ("proposed", *SPOILED):
            done, wrong = cases(program, trial, mode, folder)
            passed, failed = passed + done, failed + wrong
    faults, best = drawn(program, trial, Sequence(1))
    print(f"{QUESTIONS} questions: {best} with a schedule, {len(faults)} at fault")
    passed, failed = passed + QUESTIONS - len(faults), failed + len(faults)
    for name, make in HARD.items():
        wrong, _ = proposal_faults(trial, make())
        faults += [f"{name}: {'; '.join(wrong)}"] if wrong else []
        passed, failed = passed + (not wrong), failed + bool(wrong)
    print("".join(f"FAIL {fault}\n" for fault in faults), end="")
    print(f"{passed} passed, {failed} failed")
    return 0 if passed and not failed else 1


if __name__ == "__main__":
    sys.exit(main())
