"""How tasks are run: one after the other by this process, or, in cluster.py, by Dask's workers."""

from collections.abc import Callable, Iterator
from typing import Any, Protocol

from .job import Shared, Tasks
from .program import Answer, Died

Answered = list[tuple[int, Answer]]


class Stopped(Exception):
    """The run can't go on; what it made stands in the table."""


class Runner(Protocol):
    def once(self, function: Callable[..., Any], *arguments: Any) -> Any:
        """What a function gives; Died where it gives nothing."""

    def run(self, tasks: Tasks) -> Iterator[Answered]:
        """Runs all tasks, and tells their answers as they come; now and then there are none, so that others get a turn."""


class Serial:
    """Runs one task after the other, each once."""

    def __init__(self) -> None:
        self.shared: dict[Shared, Any] = {}

    def once(self, function: Callable[..., Any], *arguments: Any) -> Any:
        return function(*arguments)

    def value_of(self, argument: Any) -> Any:
        if not isinstance(argument, Shared):
            return argument
        if argument not in self.shared:
            self.shared[argument] = argument.call.function(*argument.call.arguments)
        return self.shared[argument]

    def run(self, tasks: Tasks) -> Iterator[Answered]:
        while tasks:
            task = tasks.next()
            try:
                answers = task.call.function(*map(self.value_of, task.call.arguments))
            except Died as death:
                yield tasks.failed(task, str(death))
            else:
                yield tasks.answered(task, answers)
