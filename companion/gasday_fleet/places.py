"""Where a run is made, with the program that is run there."""

import argparse
import os
from collections.abc import Callable, Iterator, Sequence
from contextlib import contextmanager

from gasday_report.texts import Fault
from gasday_report.verdicts import program_at

from .cluster import Cluster
from .clusters import cluster_at, dashboard_of, own_cluster, quiet
from .program import Program
from .running import Runner, Serial
from .worker import Found, found
from .workers import Workers

Place = tuple[Runner, Program]


def program_here(name: str | None) -> Found:
    """The program that is named, else the built one, else the one on the PATH."""
    one = found(os.path.abspath(program_at(name)), ())
    if one.fault:
        raise Fault(one.fault)
    return one


def program_of(options: argparse.Namespace, one: Found, name: str) -> Program:
    return Program(name, one.version, one.sha256, options.timeout)


@contextmanager
def place_of(options: argparse.Namespace, seen: Sequence[str], tell: Callable[[str], None]) -> Iterator[Place]:
    """What runs tasks, by the options; workers have to see these folders."""
    if options.serial:
        own = program_here(options.gasday)
        yield Serial(), program_of(options, own, own.path)
        return
    with quiet(), running_place(options, seen, tell) if options.scheduler else own_place(options, tell) as place:
        yield place


@contextmanager
def own_place(options: argparse.Namespace, tell: Callable[[str], None]) -> Iterator[Place]:
    """A cluster on this machine, whose workers run the program that stands here."""
    own = program_here(options.gasday)
    with (own_cluster(options.workers, options.retries) as client,
          workers_of(client, options, own, own.path, (), tell) as place):
        yield place


@contextmanager
def running_place(options: argparse.Namespace, seen: Sequence[str], tell: Callable[[str], None]) -> Iterator[Place]:
    """A running cluster. Where there is no program here, its workers have to agree on theirs."""
    try:
        own = program_here(options.gasday)
    except Fault:
        own = None
    name = options.gasday or "gasday"
    with cluster_at(options.scheduler) as client, workers_of(client, options, own, name, seen, tell) as place:
        yield place


@contextmanager
def workers_of(client: object, options: argparse.Namespace, own: Found | None, name: str, seen: Sequence[str],
               tell: Callable[[str], None]) -> Iterator[Place]:
    link = dashboard_of(client)
    if link:
        tell(f"Dask's dashboard is {link}")
    workers = Workers(client, name, seen, tell)
    one = workers.begin(own)
    cluster = Cluster(client, workers, options.retries)
    try:
        yield cluster, program_of(options, one, name)
    finally:
        cluster.end()
