"""The workers of a cluster, and on which of them tasks may run: those with the very program and code of the run."""

from collections.abc import Callable, Iterator, Mapping, Sequence
from contextlib import contextmanager
from typing import Any

from gasday_report.texts import Fault

from .clusters import send_code
from .program import Died
from .running import Stopped
from .worker import CODE, Found, found

Tell = Callable[[str], None]


class Killed(Exception):
    """The workers to which a task was given have ended."""


def is_killed(error: object) -> bool:
    """Whether the workers to which a task was given have ended, as often as it is to be tried; Dask has a word for it too."""
    return type(error).__name__ in ("Killed", "KilledWorker")


def reason_of(error: object) -> str:
    """Why a worker gave no answer, in words."""
    if is_killed(error):
        return "each worker that ran it ended meanwhile"
    return str(error) if isinstance(error, Died) else f"{type(error).__name__}: {error}"


def program_of(all_found: Mapping[str, Found], own: Found | None) -> Found:
    """The program that is to run everywhere: the one that stands here, else the one that all workers have."""
    having = {address: one for address, one in all_found.items() if not one.fault}
    programs = {one.sha256: one for one in having.values()}
    if own is None and len(programs) > 1:
        told = "; ".join(f"{address} has {one.version}, SHA-256 {one.sha256}" for address, one in having.items())
        raise Fault(f"the workers have different programs, and there is none here that decides: {told}")
    return next(iter(programs.values()), Found()) if own is None else own


@contextmanager
def reaching_the_scheduler() -> Iterator[None]:
    """Whatever Dask raises where its scheduler is gone."""
    try:
        yield
    except Exception as error:
        raise Stopped(f"the scheduler can't be reached any more: {error}") from None


class Workers:
    def __init__(self, client: Any, name: str, seen: Sequence[str], tell: Tell) -> None:
        self.client, self.name, self.seen, self.tell = client, name, seen, tell
        self.faults: dict[str, str] = {}  # of each worker that was asked, why nothing may run on it
        self.threads: dict[str, int] = {}  # of each worker that may run tasks

    def begin(self, own: Found | None) -> Found:
        """Asks all workers before the first task. The program that is to run everywhere."""
        with reaching_the_scheduler():
            threads = self.client.nthreads()
            told = self.asked(list(threads))
        self.wanted = program_of(told, own)
        self.take(threads, told)
        if not self.threads:
            raise Fault("there is no worker on which this could run")
        return self.wanted

    def look(self) -> None:
        """Asks the workers that have joined since, and leaves out those that have gone."""
        with reaching_the_scheduler():
            threads = self.client.nthreads()
            new = [address for address in threads if address not in self.faults]
            told = self.asked(new) if new else {}
        self.take(threads, told)

    def asked(self, addresses: list[str]) -> dict[str, Found]:
        """What each of these workers has; the code is sent where one hasn't got it. Who can't be reached is asked again later."""
        told = self.run(addresses)
        if not all(isinstance(one, Found | OSError) for one in told.values()):
            send_code(self.client)
            told = self.run(addresses)
        return {address: one if isinstance(one, Found) else Found(fault=reason_of(one))
                for address, one in sorted(told.items()) if not isinstance(one, OSError)}

    def run(self, addresses: list[str]) -> Mapping[str, object]:
        told: Mapping[str, object] = self.client.run(found, self.name, self.seen, workers=addresses, on_error="return")
        return told

    def take(self, threads: Mapping[str, int], told: Mapping[str, Found]) -> None:
        for address, one in told.items():
            fault = self.faults[address] = self.fault_of(one)
            if fault:
                self.tell(f"nothing runs on the worker {address}: {fault}")
            elif one.missing:
                self.tell(f"the worker {address} doesn't see {one.missing}: what it can't read is tried on others")
        self.threads = {address: count for address, count in threads.items() if self.faults.get(address) == ""}

    def fault_of(self, one: Found) -> str:
        if one.fault:
            return one.fault
        if one.sha256 != self.wanted.sha256:
            return f"{one.path} is another program: {one.version}, SHA-256 {one.sha256}"
        if one.code != CODE:
            return "it has other code of gasday-fleet loaded, and has to be started again"
        return "" if one.sees else f"it doesn't see {one.missing or self.seen}; --send sends files"
