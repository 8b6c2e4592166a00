"""An open gas day: one thread that drives its program, keeps the journal, and takes what was told into the view.

All calls go through this thread. Those that wait together are entered in the journal in one commit, sent together, and
answered in their order. Where the program ends before it told all, a new one opens the file, and what became of each call is
read from the file.
"""

import contextlib
import logging
import sqlite3
import threading
import time
from collections.abc import Callable, Iterable, Sequence
from concurrent.futures import Future
from dataclasses import dataclass, field
from functools import partial
from pathlib import Path
from typing import NamedTuple

from .clock import Guard
from .coprocess import Coprocess, Ended
from .journal import KEPT, LOST, OTHERS, SENT, Entry, Journal, Maker, missing, resolved
from .program import BUSY_PAUSE, BUSY_SECONDS, Busy, Failed, Program, written
from .rows import Row, row_of
from .view import Call, DayView, Opening, opening_of

LOG = logging.getLogger("gasday_desk")
# So many calls at most are entered and sent together.
MOST_TOGETHER = 200
# Of an upload's calls so many at most are sent together, and none where other calls wait: an upload holds nobody up.
FEW = 50
OPENINGS = 5
# Calls that change something again if they are made twice with others between, with the number of their fields after the moment.
# The state of the cycle keeps out the others.
REPEATABLE = {"nominate": 6, "respond": 4, "post": 2, "waive": 1}
LENT_SECONDS = 10.0
LOOK_SECONDS = 0.5


class Refused(Exception):
    """A call that wasn't sent; the words say why, and what to do."""


class Resent(Refused):
    """A form came again with something else in it."""


class Repeated(Resent):
    """A call that is the same as one whose form was lost with the journal: it may be that very call."""

    def __init__(self, number: int) -> None:
        super().__init__(f"call {number} of the book asks for the same, and the journal lost by which form it was made. If this"
                         " is that call, it was made: see its receipt. If it is a new one, send it once more as a repeat")


@dataclass(frozen=True)
class Asked:
    """A call before it is made: its kind, its fields behind the moment, and the rows that wait for it."""

    kind: str
    fields: tuple[str, ...]
    maker: Maker
    token: str
    group: tuple[Row, ...] = ()
    is_repeat: bool = False  # made once more, though a call with the same content lost its form

    @property
    def content(self) -> tuple[str, ...]:
        """What the call asks for, without its moment."""
        return (self.kind, *self.fields)

    def rows(self, moment: int) -> tuple[Row, ...]:
        return (*self.group, row_of(self.kind, moment, *self.fields))


class Told(NamedTuple):
    """What became of a call: its entry, and the call as the file keeps it, if it is kept."""

    entry: Entry
    call: Call | None

    @property
    def told(self) -> tuple[Row, ...]:
        return self.call.told if self.call else self.entry.told


@dataclass
class Job:
    """Something for the thread to do: a call, or none for a turn, in which the file is given back and read."""

    asked: Asked | None
    done: "Future[Told]" = field(default_factory=Future)
    is_bulk: bool = False  # a call of an upload


class Keeper:
    """An open gas day. Whoever reads its view holds its lock, and makes no call meanwhile."""

    def __init__(self, program: Program, file: Path, book: str, journal: Journal, guard: Guard, idle: float = 20.0) -> None:
        self.program, self.file, self.book, self.journal, self.guard, self.idle = program, file, book, journal, guard, idle
        self.lock = threading.RLock()
        self.changed = threading.Condition(self.lock)
        self.version = 0
        self.jobs: list[Job] = []
        self.bulk: list[Job] = []
        self.waiting = threading.Condition()
        self.is_ending = False
        self.run: Coprocess | None = None
        self.text = b""  # what the file kept at the last turn
        self.text_calls = -1
        self.entries: dict[int, Entry] = {}
        self.formless: dict[tuple[str, ...], int] = {}  # calls that lost their form, by what they ask for
        self.unknown = 0  # how many calls of the book the journal doesn't have
        self.is_open = False
        self.file_id = file_id(file)  # of the file that the program has open
        self.view: DayView
        self.read_again()
        self.is_open = True
        self.thread = threading.Thread(target=self.serve, name=f"book {book}", daemon=True)
        self.thread.start()

    # What other threads call.

    def call(self, asked: Asked) -> Told:
        """Makes a call and waits for its answer. One whose form was answered already is told as it was."""
        return self.call_all([asked])[0]

    def call_all(self, several: Sequence[Asked], is_bulk: bool = False, check: Callable[[], None] = lambda: None) -> list[Told]:
        """Makes calls in their order. The check is made before each few of them, and ends them where it fails."""
        told = []
        for asked in several:
            asked.rows(0)  # a field that can't be sent is reported before anything is
            if len(several) > 1:
                self.known(asked)
        for at in range(0, len(several), FEW):
            check()
            jobs = [self.known(asked) or self.put(Job(asked, is_bulk=is_bulk)) for asked in several[at:at + FEW]]
            told += [job if isinstance(job, Told) else job.done.result() for job in jobs]
        return told

    def known(self, asked: Asked) -> Told | None:
        """What became of a form's call, where it is kept. A form that came with something else then is told so."""
        entry = self.journal.find(self.book, asked.token)
        if entry is None or entry.state != KEPT:
            if entry is None and not asked.is_repeat and asked.content in self.formless:
                raise Repeated(self.formless[asked.content])
            return None
        if entry.rows != asked.rows(entry.moment):
            raise Resent(f"this form was sent already, as call {entry.number}, with something else in it; open a new one")
        return self.told_of(entry)

    def told_of(self, entry: Entry) -> Told:
        with self.lock:
            is_there = entry.number is not None and entry.number <= len(self.view.calls)
            return Told(entry, self.view.calls[entry.number - 1] if is_there and entry.number else None)

    def kept_text(self) -> bytes:
        """The text of the day as its file keeps it, with all that was told so far."""
        with self.lock:
            if self.text_calls == len(self.view.calls):
                return self.text
        self.put(Job(None)).done.result()
        return self.text

    def put(self, job: Job) -> Job:
        with self.waiting:
            if self.is_ending:
                raise Refused("the desk is ending; the call was not sent, try again once it runs")
            (self.bulk if job.is_bulk else self.jobs).append(job)
            self.waiting.notify()
        return job

    def next_jobs(self) -> list[Job]:
        """The jobs that are done together now: those of uploads only where a scheduler's call doesn't wait."""
        jobs, self.jobs = self.jobs[:MOST_TOGETHER], self.jobs[MOST_TOGETHER:]
        if not self.jobs and not any(job.asked and job.asked.maker.role == "scheduler" for job in jobs):
            more, self.bulk = self.bulk[:FEW], self.bulk[FEW:]
            jobs += more
        return jobs

    def close(self) -> None:
        """Ends after the calls at hand."""
        with self.waiting:
            self.is_ending = True
            self.waiting.notify()
        self.thread.join()
        with self.changed:
            self.changed.notify_all()

    # What its own thread does.

    def serve(self) -> None:
        rested = time.monotonic()
        while True:
            with self.waiting:
                if not self.jobs and not self.bulk and not self.is_ending:
                    self.waiting.wait(min(self.idle, LOOK_SECONDS))
                jobs = self.next_jobs()
                is_over = self.is_ending and not jobs
            if jobs:
                self.do(jobs)
                rested = time.monotonic()
            elif is_over or time.monotonic() >= rested + self.idle:
                self.give_back()  # so that others may audit the file meanwhile
            if is_over:
                return
            if wanted_file(self.file).exists():
                self.lend()

    def lend(self) -> None:
        """Gives the file to somebody who copies it, for as long as it is wanted, but not for long."""
        self.give_back()
        wanted, until = wanted_file(self.file), time.monotonic() + LENT_SECONDS
        while wanted.exists() and time.monotonic() < until:
            time.sleep(BUSY_PAUSE)
        wanted.unlink(missing_ok=True)

    def do(self, jobs: Sequence[Job]) -> None:
        """Does jobs, and answers each whatever happens."""
        calls = [job for job in jobs if job.asked]
        try:
            if calls:
                self.make(calls)
            if len(calls) < len(jobs):
                self.take_turn()
        except (Failed, Refused, OSError, sqlite3.Error) as error:
            LOG.error("book %s: %s", self.book, error)
            self.refuse(jobs, Refused(f"the office of {self.book} can't go on: {error}. Send the form again once it can; if its"
                                      " call is kept it stays the one call"))
        except BaseException as error:
            LOG.exception("book %s: a fault of the desk", self.book)
            self.drop()
            self.refuse(jobs, Refused(f"a fault of the desk: {error!r}"))
        for job in jobs:
            if not job.done.done() and not job.asked:
                job.done.set_result(Told(NOTHING, None))

    def refuse(self, jobs: Sequence[Job], error: Exception) -> None:
        for job in jobs:
            if not job.done.done():
                job.done.set_exception(error)

    def make(self, jobs: Sequence[Job]) -> None:
        """Enters calls, sends them, and answers each once it is kept."""
        fresh = self.unanswered(jobs)
        if not fresh:
            return
        if self.unknown:
            self.refuse(fresh, Refused(self.halted))
            return
        run = self.opened()
        self.check_file()
        try:
            moment = self.guard.moment()
        except Exception as error:
            self.refuse(fresh, error)
            return
        entries = [Entry(0, self.book, job.asked.token, job.asked.maker, moment, job.asked.rows(moment), None, (), SENT)
                   for job in fresh if job.asked]
        entries = self.journal.begin(entries)
        for job, entry in zip(fresh, self.send(run, entries), strict=True):
            job.done.set_result(self.told_of(entry))

    def send(self, run: Coprocess, entries: Sequence[Entry]) -> list[Entry]:
        """What became of calls that are sent now."""
        settled: list[Entry] = []
        try:
            for entry, told in zip(entries, run.ask([entry.rows for entry in entries]), strict=True):
                settled.append(self.take(entry, told))
        except Ended:
            LOG.warning("book %s: the program ended, and the file is opened again", self.book)
            return self.resolve(entries)
        self.check_file()
        if any(entry.state == SENT for entry in settled):
            return self.resolve(entries)
        self.note(settled)
        return settled

    @property
    def halted(self) -> str:
        """Why no call of this book is made until the journal is rebuilt; nothing where it is whole."""
        if not self.unknown:
            return ""
        return (f"desk.db lacks {self.unknown} of the calls of {self.book}, so the desk would not recognize a form or key that"
                " comes again. End the desk and run `gasday-desk rebuild` on its folder")

    def check_file(self) -> None:
        """Fails where the book's file was taken away or replaced: what the program commits then is in no file of that name."""
        if file_id(self.file) != self.file_id:
            self.drop()
            raise Failed(f"the file {self.file.name} was taken away or replaced while the program had it open; bring it back")

    def unanswered(self, jobs: Sequence[Job]) -> list[Job]:
        """The jobs whose form hasn't been answered meanwhile; a form that stands twice among them is sent once."""
        fresh: dict[str, Job] = {}
        for job in jobs:
            assert job.asked
            token = job.asked.token
            try:
                known = self.known_now(job.asked)
            except Resent as resent:
                job.done.set_exception(resent)
                continue
            if known:
                job.done.set_result(known)
            elif token in fresh:
                fresh[token].done.add_done_callback(partial(copy_result, job))
            else:
                fresh[token] = job
        return list(fresh.values())

    def known_now(self, asked: Asked) -> Told | None:
        """What became of a form's call; where its answer wasn't entered, the file says it."""
        entry = self.journal.find(self.book, asked.token)
        if entry and entry.state == SENT:
            self.resolve([])
        return self.known(asked)

    def take(self, entry: Entry, told: Sequence[Row]) -> Entry:
        """Takes what a call was told into the view. Where it is faulty nothing was kept; but a call behind a faulty row of its
        group was made without it, so that the file has to be read for what it keeps."""
        if not told or any(row[0] == "fault" for row in told):
            if told and told[-1][:2] == ("fault", "0"):
                raise Ended  # the run ends with it, and only the file says what is kept
            return entry.faulty(told) if all(row[0] == "fault" for row in told) else entry
        with self.changed:
            call = self.view.add(entry.rows, told)
            entry = entry.kept_as(call.number)
            self.entries[call.number] = entry
            self.version += 1
            self.changed.notify_all()
        return entry

    def note(self, settled: Sequence[Entry]) -> None:
        """Enters what became of calls. Where that fails they are resolved from the file when it is opened the next time."""
        try:
            self.journal.settle(settled)
        except sqlite3.Error as error:
            LOG.error("book %s: the journal can't be written (%s); the answers stand in the book's file", self.book, error)

    def resolve(self, entries: Sequence[Entry]) -> list[Entry]:
        """What became of calls after the program ended early, as the file says."""
        self.give_back()
        self.read_again()
        found = [self.journal.find(self.book, entry.token) or entry for entry in entries]
        for entry in found:
            if entry.state == LOST:
                LOG.warning("book %s: a call of %s is not kept", self.book, entry.maker.user)
        return found

    def read_again(self) -> None:
        """Makes the day's view anew from its file, which also says what became of calls that were sent and not answered."""
        kept = self.program.kept_by(self.file)
        view = DayView(self.opening_of(kept.opening))
        entries = self.journal.of_book(self.book)
        lacking = missing(entries, kept.calls)
        if lacking:
            raise Failed(f"{self.file.name} lacks call {lacking.number} as it was told to {lacking.maker.user}, so it is not the"
                         " file that this desk kept; bring that one back")
        found = resolved(entries, kept.calls)
        if found:
            self.journal.settle(found)
        by_id = {one.id: one for one in [*entries, *found]}
        made: dict[int, Entry] = {one.number: one for one in by_id.values() if one.state == KEPT and one.number}
        strange = {number: tuple(rows) for number, rows in enumerate(kept.calls, 1) if number not in made}
        if strange and self.is_open and not self.unknown:
            made.update(self.journal.adopt(self.book, strange, OTHERS))
            strange = {}
        for number, (rows, told) in enumerate(zip(kept.calls, kept.told, strict=True), 1):
            # A settled cycle stands in the file as what it came to, and is shown as it was asked.
            view.add(made[number].rows if number in made else rows, told)
        with self.changed:
            self.view, self.entries, self.unknown = view, made, len(strange)
            self.formless = formless_of(made.values())
            self.text, self.text_calls = kept.text, len(kept.calls)
            self.version += 1
            self.changed.notify_all()

    def opening_of(self, rows: list[list[str]]) -> Opening:
        day = next((row for row in rows if row[0] == "day"), None)
        if day is None:
            raise Failed(f"{self.file.name} has no day row, so it is no book")
        return opening_of(rows, self.program.ask("calendar", text=written([day])).rows())

    def opened(self) -> Coprocess:
        """The program that serves the file. Where others made calls meanwhile, the view is made anew."""
        for _ in range(OPENINGS):
            if self.run is None:
                with contextlib.suppress(Ended):
                    self.run = self.begun()
            elif self.run.process.poll() is None:
                return self.run
            if self.run and self.run.process.poll() is None and self.run.calls == len(self.view.calls):
                return self.run
            self.resolve([])
        raise Failed(f"{self.file.name} can't be opened: the program ends, or others make calls, again and again")

    def begun(self) -> Coprocess:
        """A program that has the file; who else has it is waited for."""
        until = time.monotonic() + BUSY_SECONDS
        while True:
            if not self.file.is_file():
                raise Failed(f"the file {self.file.name} is gone; bring it back")
            try:
                run = Coprocess(self.program.path, self.file)
                self.file_id = file_id(self.file)
                return run
            except Busy:
                if time.monotonic() > until:
                    raise
                time.sleep(BUSY_PAUSE)

    def take_turn(self) -> None:
        """Gives the file back and reads its text."""
        self.give_back()
        kept = self.program.text_of(self.file)
        with self.lock:
            self.text, self.text_calls = kept, len(self.view.calls)

    def give_back(self) -> None:
        run, self.run = self.run, None
        if run:
            run.close()

    def drop(self) -> None:
        """Ends the program at once, since its answers aren't read any more; the file says what it kept."""
        if self.run:
            self.run.process.kill()
        self.give_back()


def file_id(file: Path) -> tuple[int, int] | None:
    """What tells a file apart from another one of its name; none where there is no file."""
    try:
        found = file.stat()
    except OSError:
        return None
    return found.st_dev, found.st_ino


def formless_of(entries: Iterable[Entry]) -> dict[tuple[str, ...], int]:
    """The calls that lost their form with the journal, by what they ask for."""
    found = {}
    for entry in entries:
        row = entry.rows[-1]
        if entry.is_rebuilt and row[0] in REPEATABLE:
            found[(row[0], *row[2:2 + REPEATABLE[row[0]]])] = entry.number or 0
    return found


def wanted_file(book: Path) -> Path:
    """Where this file is, somebody wants to copy the book meanwhile."""
    return book.with_suffix(".wanted")


NOTHING = Entry(0, "", "", Maker("", "", ""), 0, (), None, (), SENT)


def copy_result(twin: Job, first: "Future[Told]") -> None:
    error = first.exception()
    if error:
        twin.done.set_exception(error)
    else:
        twin.done.set_result(first.result())
