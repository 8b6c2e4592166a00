"""Tasks run by Dask's distributed scheduler, which gives them to workers, moves what they need, and tries again those that die.

Only what may run where is said here, and tasks are handed over as others end, so that what they hold doesn't pile up.
"""

import contextlib
import time
from collections.abc import Callable, Iterator, Sequence
from dataclasses import dataclass
from typing import Any

from .clusters import SECONDS_TO_JOIN, imported
from .job import Call, Shared, Task, Tasks
from .program import Answer, Died
from .running import Answered, Stopped
from .workers import Killed, Workers, is_killed, reaching_the_scheduler, reason_of

TASKS_AHEAD = 2  # for each thread of a worker
SECONDS_BETWEEN_LOOKS, SECONDS_WITHOUT_RESULTS = 1.0, 0.02


@dataclass(frozen=True)
class Given:
    """A call that was handed over, the workers on which it, and what it needs, may run, and how often all of these ended."""

    task: Task | None
    call: Call
    retries: int
    workers: tuple[frozenset[str], ...]
    ended: int = 0
    untried: tuple[str, ...] = ()  # where what a worker could not read is tried, the first of these now

    def is_stranded(self, there: set[str]) -> bool:
        return not all(there & workers for workers in self.workers)


class Cluster:
    def __init__(self, client: Any, workers: Workers, retries: int) -> None:
        self.client, self.workers, self.retries = client, workers, retries
        self.ended = imported().as_completed(with_results=True, raise_errors=False)
        self.given: dict[Any, Given] = {}
        self.shared: dict[Shared, tuple[Any, frozenset[str]]] = {}
        self.looked = self.peopled = time.monotonic()

    def submit(self, call: Call, retries: int, only: tuple[str, ...] = ()) -> Any:
        arguments, where = list(map(self.future_of, call.arguments)), only or sorted(self.workers.threads)
        with reaching_the_scheduler():
            return self.client.submit(call.function, *arguments, workers=where, retries=retries, pure=False)

    def future_of(self, argument: object) -> Any:
        """A shared argument is worked out by Dask, once, and anew where all workers are gone that could do so."""
        if not isinstance(argument, Shared):
            return argument
        if argument not in self.shared or not self.shared[argument][1] & set(self.workers.threads):
            self.shared[argument] = self.submit(argument.call, self.retries), frozenset(self.workers.threads)
        return self.shared[argument][0]

    def give(self, call: Call, task: Task | None, retries: int, ended: int = 0, untried: tuple[str, ...] = ()) -> None:
        future = self.submit(call, retries, untried[:1])
        needed = [self.shared[argument][1] for argument in call.arguments if isinstance(argument, Shared)]
        self.given[future] = Given(task, call, retries, (frozenset(untried[:1] or self.workers.threads), *needed), ended, untried)
        self.ended.add(future)

    def is_given_elsewhere(self, given: Given, answers: Sequence[Answer]) -> bool:
        """Gives what a worker could not read to each of the workers in turn. Whether there is one left."""
        if not any(answer.get("unread") for answer in answers):
            return False
        there = sorted(self.workers.threads)
        untried = tuple(address for address in given.untried[1:] if address in there) if given.untried else tuple(there)
        if not untried or len(there) < 2:
            return False
        self.give(given.call, given.task, given.retries, given.ended, untried)
        return True

    def look(self) -> None:
        """Looks which workers there are now."""
        self.workers.look()
        self.looked = time.monotonic()
        if self.workers.threads:
            self.peopled = self.looked
        elif self.looked - self.peopled > SECONDS_TO_JOIN:
            raise Stopped(f"no worker has been there for {SECONDS_TO_JOIN} seconds")

    def stranded(self) -> Iterator[Given]:
        """Gives anew what may only run where no worker is any more, and tells what was so too often: it may have ended them."""
        there = set(self.workers.threads)
        for future, given in list(self.given.items()):
            if there and given.is_stranded(there):
                del self.given[future]
                future.cancel()
                if given.ended >= self.retries:
                    yield given
                else:
                    self.give(given.call, given.task, given.retries, given.ended + 1)

    def results(self) -> Iterator[tuple[Given, Any, object]]:
        """What has ended meanwhile: what it gave, or the error for which it gave nothing."""
        if time.monotonic() - self.looked >= SECONDS_BETWEEN_LOOKS:
            self.look()
            for given in self.stranded():
                yield given, None, Killed()
        batch = self.ended.next_batch(block=False)
        if not batch:
            time.sleep(SECONDS_WITHOUT_RESULTS)
        for future, result in batch:
            if future not in self.given:
                continue  # it was given anew
            if future.status == "error":
                yield self.given.pop(future), None, result[1]
            elif isinstance(result, BaseException):
                self.workers.look()  # which tells whether there is a scheduler
                yield self.given.pop(future), None, result
            else:
                # (its state may be another one by now, where the worker that had the result has ended since)
                yield self.given.pop(future), result, None

    def once(self, function: Callable[..., Any], *arguments: Any) -> Any:
        self.give(Call(function, arguments), None, self.retries)
        while True:
            for _, result, error in self.results():
                if error:
                    raise Died(reason_of(error))
                return result

    def has_room(self, tasks: Tasks) -> bool:
        """Whether another task may be given now."""
        if not tasks.waiting:
            return bool(tasks) and not self.given and bool(self.workers.threads)
        return len(self.given) < TASKS_AHEAD * sum(self.workers.threads.values())

    def run(self, tasks: Tasks) -> Iterator[Answered]:
        while tasks or self.given:
            while self.has_room(tasks):
                task = tasks.next()
                self.give(task.call, task, self.retries if task.is_alone else 0)
            for given, answers, error in self.results():
                if given.task and error:
                    yield tasks.failed(given.task, reason_of(error), is_killed(error))
                elif given.task and not self.is_given_elsewhere(given, answers):
                    yield tasks.answered(given.task, answers)
            yield []

    def end(self) -> None:
        """Leaves nothing running that nobody waits for."""
        with contextlib.suppress(Exception):
            self.client.cancel(list(self.given))
