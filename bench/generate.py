#!/usr/bin/env python3
"""Writes a question of the largest size to standard output, as a text that
`gasday check allowed` answers with `allowed`.

    bench/generate.py deep|star|branching [--best | --solve | --fixed | --short]
        [--tight P] [--floors F] [--impossible]
        [--lines N] [--places N] [--points N] [--pools N] [--seed S]

With --best each line has its ceiling, and each element has a price row for
each class, of words 0: `gasday check best` answers with `best`.

With the other three the text has no schedule and is one for `gasday solve`.
--solve leaves the bounds as they are, so that many schedules are allowed.
--fixed has each line's floor and ceiling at its quantity, but a floor of 0 at
the lines into pools: one schedule is allowed, and what leaves the pools has to
be brought into them first. --short is the same with one dekatherm more out of
the first pool than can come in: none is allowed.

The next three go with --solve. With any of them a line has no floor, but for F
percent of the lines with --floors: those have a quarter of their quantity, and
what comes into a pool leaves it again, so the floors are an allowed schedule.
With --tight a segment or point can carry P percent of what it would carry with
each line at its ceiling, but never less than with each line at its floor. With
--impossible one of them can carry one dekatherm less than that: no schedule is
allowed.

deep        one chain: each segment goes on where the one before it ended.
            Receipt points stand in the first eighth and delivery points in
            the last, so most lines cross thousands of segments; line 1
            crosses all of them.
star        one hub, half of the other places feeding it and half fed by it.
branching   a random tree: branches that gather gas towards a hub, and
            branches that carry it away from there.

In each shape gas flows from upstream places through a hub to downstream
places, so a line from any receipt point to any delivery point has a route.
The same arguments give the same text.
"""

import argparse
import random
import sys
from collections import Counter
from typing import NamedTuple

GREATEST_CAPACITY = 1_000_000_000
# 20,000 lines of this quantity still fit into the greatest capacity, so no
# load can pass it.
GREATEST_QUANTITY = 50_000
OPERATORS = 50
# A place of the branching shape hangs on one of this many earlier places of
# its side. The less, the deeper the tree.
WINDOW = 64


class Shape(NamedTuple):
    """A tree of places, numbered from 0. Place k (from 1) is joined to the
    earlier place parent[k] by segment k."""

    parent: list
    towards: list  # whether segment k runs from place k to its parent
    inward: list  # the next place on the way to the hub; the hub's is itself
    upstream: list  # places for receipt points, the first taken first
    downstream: list  # places for delivery points, the first taken first


class Pool(NamedTuple):
    name: str
    place: int
    partner: str  # a point that always has a route to or from this pool


class Network(NamedTuple):
    shape: Shape
    receipts: dict  # from a point's name to its place
    deliveries: dict
    gathering: list  # pools between receipt points and the hub
    selling: list  # pools between the hub and delivery points

    def pools(self):
        return self.gathering + self.selling

    def points(self):
        return {**self.receipts, **self.deliveries}

    def place_of(self):
        return {**self.points(), **{pool.name: pool.place for pool in self.pools()}}


class Line(NamedTuple):
    origin: str
    dest: str
    quantity: int
    journey: int  # the same for the lines that bring one quantity through pools


def deep(places, _rng):
    hub = places // 2
    eighth = max(1, places // 8)
    return Shape(
        parent=[0] + list(range(places - 1)),
        towards=[False] * places,
        inward=[k + (k < hub) - (k > hub) for k in range(places)],
        upstream=list(range(eighth)),
        downstream=list(range(places - 1, places - 1 - eighth, -1)),
    )


def star(places, _rng):
    return Shape(
        parent=[0] * places,
        towards=[k % 2 == 1 for k in range(places)],
        inward=[0] * places,
        upstream=[0] + list(range(1, places, 2)),
        downstream=[0] + list(range(2, places, 2)),
    )


def branching(places, rng):
    parent, upstream, downstream = [0], [0], [0]
    for k in range(1, places):
        side = upstream if k % 2 == 1 else downstream
        parent.append(rng.choice(side[-WINDOW:]))
        side.append(k)
    towards = [k % 2 == 1 for k in range(places)]
    return Shape(parent, towards, parent, upstream, downstream)


SHAPES = {"deep": deep, "star": star, "branching": branching}


def hang_points(prefix, count, places):
    """Spreads points over the places in turn: a dict from name to place."""
    return {f"{prefix}-{i + 1}": places[i % len(places)] for i in range(count)}


def make_pools(shape, rng, points, first, count):
    """Puts each pool on the way between one point and the hub, so that gas
    gets from a receipt point to the pool, or from it to a delivery point."""
    pools = []
    for number in range(first, first + count):
        partner = rng.choice(list(points))
        way = [points[partner]]
        while shape.inward[way[-1]] != way[-1]:
            way.append(shape.inward[way[-1]])
        pools.append(Pool(f"POOL-{number}", rng.choice(way), partner))
    return pools


def make_network(rng, arguments):
    shape = SHAPES[arguments.shape](arguments.places, rng)
    receipts = hang_points("REC", (arguments.points + 1) // 2, shape.upstream)
    deliveries = hang_points("DEL", arguments.points // 2, shape.downstream)
    half = (arguments.pools + 1) // 2
    gathering = make_pools(shape, rng, receipts, 1, half)
    selling = make_pools(shape, rng, deliveries, half + 1, arguments.pools - half)
    return Network(shape, receipts, deliveries, gathering, selling)


def make_lines(rng, count, network):
    """Draws the lines. What comes into a pool leaves it again by a line of
    the same quantity, so all pools are balanced."""
    receipts, deliveries = list(network.receipts), list(network.deliveries)
    gathering, selling = network.gathering, network.selling
    lines = [Line(receipts[0], deliveries[0], GREATEST_QUANTITY, 0)][:count]
    while len(lines) < count:
        room = count - len(lines)
        stops = [rng.choice(receipts), rng.choice(deliveries)]
        if gathering and room >= 2 and rng.random() < 0.15:
            pool = rng.choice(gathering)
            stops[:1] = [pool.partner, pool.name]
            room -= 1
        if selling and room >= 2 and rng.random() < 0.15:
            pool = rng.choice(selling)
            stops[-1:] = [pool.name, pool.partner]
        quantity = rng.randint(0, GREATEST_QUANTITY)
        journey = len(lines)
        lines += [Line(a, b, quantity, journey) for a, b in zip(stops, stops[1:])]
    rest = lines[1:]
    rng.shuffle(rest)
    return lines[:1] + rest


def segment_loads(shape, place_of, lines, quantities):
    """The load of each segment. A segment is the only way between the places
    beyond it and the others, and gas passes it in one direction only: its
    load is the difference of what enters and what leaves beyond it."""
    surplus = [0] * len(shape.parent)
    for line, quantity in zip(lines, quantities):
        surplus[place_of[line.origin]] += quantity
        surplus[place_of[line.dest]] -= quantity
    loads = [0] * len(shape.parent)
    for k in range(len(shape.parent) - 1, 0, -1):
        loads[k] = surplus[k] if shape.towards[k] else -surplus[k]
        surplus[shape.parent[k]] += surplus[k]
    return loads


def point_loads(lines, quantities):
    loads = Counter()
    for line, quantity in zip(lines, quantities):
        loads[line.origin] += quantity
        loads[line.dest] += quantity
    return loads


def loads_of(network, lines, quantities):
    """The load of each segment and point, by its name in order of entry."""
    segments = segment_loads(network.shape, network.place_of(), lines, quantities)
    loads = {f"SEG-{k}": load for k, load in enumerate(segments) if k > 0}
    points = point_loads(lines, quantities)
    loads.update((name, points[name]) for name in network.points())
    return loads


def capacity_for(rng, load):
    """One capacity in three is full to the last dekatherm."""
    spare = rng.choice([0, load // 4, rng.randint(0, 100_000)])
    return min(load + spare, GREATEST_CAPACITY)


def ceiling_for(rng, quantity):
    return quantity + rng.choice([0, 0, rng.randint(0, GREATEST_QUANTITY)])


def bounds_for(rng, quantity, full):
    """A floor and a ceiling with the quantity between them, or at the ceiling."""
    floor = rng.choice([0, 0, quantity, rng.randint(0, quantity)])
    ceiling = ceiling_for(rng, quantity)
    return floor, quantity if full else ceiling


def balanced_bounds(rng, lines, percent):
    """A floor and a ceiling for each line. The lines of a journey have the same
    floor, so that the pools are balanced at the floors."""
    floors = {}
    for line in lines:
        floor = line.quantity // 4 if rng.randrange(100) < percent else 0
        floors.setdefault(line.journey, floor)
    return [(floors[a.journey], ceiling_for(rng, a.quantity)) for a in lines]


def fixed_bounds(lines, short):
    """A floor and a ceiling for each line, so that one schedule is allowed; or,
    with one dekatherm too many out of a pool, none."""
    bounds = [(0 if is_pool(a.dest) else a.quantity, a.quantity) for a in lines]
    first = next((i for i, a in enumerate(lines) if is_pool(a.origin)), None)
    if short and first is not None:
        more = bounds[first][1] + 1
        bounds[first] = (more, more)
    return bounds


def is_pool(name):
    return name.startswith("POOL-")


def row(*fields):
    return ",".join(map(str, fields)) + "," * (8 - len(fields)) + "\n"


def usual_bounds(rng, lines, asked):
    """The bounds one by one: each is drawn just before its line's class."""
    if asked in ("fixed", "short"):
        return fixed_bounds(lines, asked == "short")
    return (bounds_for(rng, line.quantity, asked == "best") for line in lines)


def usual_capacities(rng, network, lines):
    loads = loads_of(network, lines, [line.quantity for line in lines])
    return {name: capacity_for(rng, load) for name, load in loads.items()}


def scarce_capacities(network, lines, bounds, percent):
    least = loads_of(network, lines, [floor for floor, _ in bounds])
    most = loads_of(network, lines, [ceiling for _, ceiling in bounds])
    return {
        name: min(max(least[name], most[name] * percent // 100), GREATEST_CAPACITY)
        for name in least
    }


def forbid_floors(rng, network, lines, bounds, capacities):
    """Leaves one element one dekatherm less than its load at the floors. No
    schedule has a lesser load there, since each crosses it in one direction."""
    least = loads_of(network, lines, [floor for floor, _ in bounds])
    loaded = [name for name, load in least.items() if load > 0]
    if not loaded:
        sys.exit("no floor puts a load on anything")
    name = rng.choice(loaded)
    capacities[name] = least[name] - 1


def system_rows(network, capacities):
    shape = network.shape
    for k in range(1, len(shape.parent)):
        ends = [f"PLACE-{k + 1}", f"PLACE-{shape.parent[k] + 1}"]
        if not shape.towards[k]:
            ends.reverse()
        yield row("segment", f"SEG-{k}", *ends, capacities[f"SEG-{k}"])
    for kind, points in (
        ("receipt", network.receipts),
        ("delivery", network.deliveries),
    ):
        for i, (name, place) in enumerate(points.items()):
            operator = f"OPERATOR-{i % OPERATORS + 1}"
            where = f"PLACE-{place + 1}"
            yield row("point", name, kind, where, operator, capacities[name])
    for i, pool in enumerate(network.pools()):
        operator = f"OPERATOR-{i % OPERATORS + 1}"
        yield row("pool", pool.name, f"PLACE-{pool.place + 1}", operator)


def question_rows(rng, book, lines, bounds):
    yield row("question", book, 3, 3)
    for line, (floor, ceiling) in zip(lines, bounds):
        yield row("line", line.origin, line.dest, rng.randint(1, 8), floor, ceiling)


def price_rows(capacities, pools):
    for name in [*capacities, *(pool.name for pool in pools)]:
        for level in range(1, 9):
            yield row("price", name, level, 0, 0)


def has_balanced_floors(arguments):
    """Whether the floors are those of --floors, and not drawn at random."""
    given = arguments.tight is not None or arguments.floors is not None
    return given or arguments.impossible


def text_of(arguments):
    rng = random.Random(arguments.seed)
    network = make_network(rng, arguments)
    lines = make_lines(rng, arguments.lines, network)
    if has_balanced_floors(arguments):
        bounds = balanced_bounds(rng, lines, arguments.floors or 0)
    else:
        bounds = usual_bounds(rng, lines, arguments.asked)
    if arguments.tight is None:
        capacities = usual_capacities(rng, network, lines)
    else:
        capacities = scarce_capacities(network, lines, bounds, arguments.tight)
    if arguments.impossible:
        forbid_floors(rng, network, lines, bounds, capacities)
    yield from system_rows(network, capacities)
    yield from question_rows(rng, arguments.shape.upper(), lines, bounds)
    if arguments.asked in ("allowed", "best"):
        for number, line in enumerate(lines, 1):
            yield row("sched", number, line.quantity)
    if arguments.asked == "best":
        yield from price_rows(capacities, network.pools())


def number_between(least, greatest):
    def read(word):
        number = int(word)
        if not least <= number <= greatest:
            raise argparse.ArgumentTypeError(f"{number} isn't {least} to {greatest}")
        return number

    return read


def read_arguments():
    parser = argparse.ArgumentParser(
        description="Writes a large question that `gasday check allowed` allows."
    )
    parser.add_argument("shape", choices=list(SHAPES))
    for name, least, greatest in (
        ("places", 2, 4096),
        ("points", 2, 4096),
        ("pools", 0, 256),
        ("lines", 0, 20_000),
    ):
        parser.add_argument(
            f"--{name}",
            type=number_between(least, greatest),
            default=greatest,
            metavar="N",
            help=f"{least} to {greatest}, else {greatest}",
        )
    for asked, what in (
        ("best", "with prices that show it best"),
        ("solve", "without a schedule"),
        ("fixed", "without a schedule, one being allowed"),
        ("short", "without a schedule, none being allowed"),
    ):
        parser.add_argument(
            f"--{asked}", dest="asked", action="store_const", const=asked, help=what
        )
    parser.set_defaults(asked="allowed")
    for name, letter, what in (
        ("tight", "P", "percent of the greatest loads that there is capacity for"),
        ("floors", "F", "percent of the lines that have a floor"),
    ):
        parser.add_argument(
            f"--{name}", type=number_between(0, 100), metavar=letter, help=what
        )
    parser.add_argument(
        "--impossible", action="store_true", help="one dekatherm too much at the floors"
    )
    parser.add_argument("--seed", type=int, default=1, metavar="S", help="else 1")
    arguments = parser.parse_args()
    if has_balanced_floors(arguments) and arguments.asked != "solve":
        parser.error("--tight, --floors and --impossible go with --solve")
    return arguments


def main():
    sys.stdout.writelines(text_of(read_arguments()))


if __name__ == "__main__":
    main()
