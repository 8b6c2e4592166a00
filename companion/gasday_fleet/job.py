"""What a run is asked for: a row of its table for each item, which workers answer by calls."""

import abc
import hashlib
from collections import deque
from collections.abc import Callable, Iterable, Mapping, Sequence
from dataclasses import dataclass, field
from typing import Any

from .program import Answer, Program, failure

Row = list[str]
# The last columns of each table: the program that made a row, and the sum of the row before it.
MADE = ("program_sha256", "row_sha256")


@dataclass(frozen=True)
class Call:
    """A function that a worker calls. That of a task gives an answer for each of its items."""

    function: Callable[..., Any]
    arguments: tuple[Any, ...]


@dataclass(frozen=True, eq=False)
class Shared:
    """An argument that many calls take: it is worked out once, and each worker keeps it."""

    call: Call


@dataclass(frozen=True)
class Words:
    """How a job is spoken of, and its verdicts: a good one, and all that are not."""

    item: str
    good: str
    bad: tuple[str, ...]


def summed(cells: Sequence[str]) -> Row:
    """A row with its last cell, the SHA-256 of all before it."""
    data = "".join(f"{len(cell)}:{cell}," for cell in cells)
    return [*cells, hashlib.sha256(data.encode("utf-8", "surrogateescape")).hexdigest()]


class Job(abc.ABC):
    """The items with their names, by which they stand in the table, and the calls that answer them."""

    words: Words
    columns: Sequence[str]  # the last ones of which are MADE
    program: Program
    batch = 1  # how many items a task has
    is_timed = True  # whether the table tells of seconds, in which no two runs are the same

    @abc.abstractmethod
    def __len__(self) -> int:
        """How many items there are."""

    @abc.abstractmethod
    def key(self, item: int) -> Mapping[str, str]:
        """The first columns of an item's row."""

    @abc.abstractmethod
    def call(self, items: Sequence[int]) -> Call:
        """The call that answers these items."""

    @abc.abstractmethod
    def is_as_it_was(self, item: int, row: Mapping[str, str]) -> bool:
        """Whether what the row of an item is of is still the same, so that it needn't be run again."""

    def name(self, item: int) -> str:
        return "/".join(self.key(item).values())

    def row(self, item: int, answer: Answer) -> Row:
        cells = {**self.key(item), **answer, "program_sha256": self.program.sha256, **({} if self.is_timed else {"seconds": ""})}
        return summed([cells.get(column, "") for column in self.columns[:-1]])

    def is_sound(self, row: Sequence[str]) -> bool:
        """Whether a row is as a run by the same program wrote it: nobody edited it."""
        return len(row) == len(self.columns) and summed(row[:-1]) == list(row) and row[-2] == self.program.sha256


@dataclass(frozen=True)
class Task:
    """Items that one call answers, together, alone, or alone while nothing else runs."""

    items: tuple[int, ...]
    call: Call
    is_by_itself: bool = False

    @property
    def is_alone(self) -> bool:
        return len(self.items) == 1


@dataclass
class Tasks:
    """The tasks of a job that wait to be given out: first the batches, and the items of a batch that failed, each alone; then,
    each by itself, the items that were there when a worker ended, since any of them may have ended it."""

    job: Job
    todo: Iterable[int]
    waiting: deque[tuple[int, ...]] = field(default_factory=deque)
    doubtful: deque[tuple[int, ...]] = field(default_factory=deque)

    def __post_init__(self) -> None:
        items, size = list(self.todo), self.job.batch
        self.waiting.extend(tuple(items[at:at + size]) for at in range(0, len(items), size))

    def __bool__(self) -> bool:
        return bool(self.waiting or self.doubtful)

    def next(self) -> Task:
        is_by_itself = not self.waiting
        items = (self.doubtful if is_by_itself else self.waiting).popleft()
        return Task(items, self.job.call(items), is_by_itself)

    def answered(self, task: Task, answers: Sequence[Answer]) -> list[tuple[int, Answer]]:
        return list(zip(task.items, answers, strict=True))

    def failed(self, task: Task, why: str, ended_worker: bool = False) -> list[tuple[int, Answer]]:
        """The answer that an item has none, or nothing where it is to be tried alone or by itself."""
        if task.is_by_itself or task.is_alone and not ended_worker:
            return [(task.items[0], failure(why))]
        (self.doubtful if ended_worker else self.waiting).extend((item,) for item in task.items)
        return []
