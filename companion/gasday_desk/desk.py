"""The office: its folder, its pipelines, and the gas days that are open."""

import csv
import fcntl
import io
import logging
import re
import secrets
import threading
import time
from collections import OrderedDict
from collections.abc import Callable
from functools import partial
from pathlib import Path
from typing import IO

from .alarms import look_at
from .answers import CutShown, Shown, answer_of, contracted, cut_of, question_of, shown_of
from .bounds import Bounds
from .clock import Clock, Guard, Stopped
from .faults import told_words
from .journal import Journal, Maker
from .keeper import Keeper, Refused
from .people import Tries
from .program import Failed, program_at, written
from .rows import Row, words_of
from .sessions import Sessions
from .settings import FOLDERS, Folder, Pipeline, User, Wrong, settings_of, users_of, write_whole
from .view import Round

LOG = logging.getLogger("gasday_desk")
BOOK = re.compile(r"[A-Z0-9-]{1,7}-[0-9]{8}")
# So many answers of rounds are kept at hand; and a day that nobody has asked for so long is closed until somebody does.
MOST_SHOWN = 24
CLOSED_SECONDS = 3600.0
# A book that couldn't be opened is not tried again for so long, so that it holds up nobody else's pages.
FAILED_SECONDS = 3.0
ALARM = Maker("alarm", "scheduler", "")


class Desk:
    """All of an office; made once for a server. Its folder is its own while it runs."""

    def __init__(self, path: Path, clock: Clock | None = None, program: str | None = None, idle: float = 20.0) -> None:
        self.settings = settings_of(path / "desk.toml")
        self.folder = Folder(path, users_of(path / "users.toml"))
        self.program = program_at(program or self.settings.program)
        self.clock = clock or Clock()
        self.idle = idle
        make_folders(self.folder)
        self.held = hold(self.folder)
        self.secret = secret_of(self.folder)
        self.journal = Journal(self.folder.at("desk.db"))
        self.guard = Guard(self.clock, self.journal.keep_reason, self.journal.reason(), self.journal.last_moment())
        self.tries, self.sessions, self.bounds = Tries(self.clock), Sessions(self.journal, self.clock), Bounds()
        self.lock = threading.Lock()
        self.opening = threading.Lock()
        self.making = threading.RLock()
        self.openings: dict[str, threading.Lock] = {}
        self.failed: dict[str, tuple[Failed, float]] = {}
        self.keepers: dict[str, Keeper] = {}
        self.used: dict[str, float] = {}
        self.shown: OrderedDict[tuple[str, int, str], Shown | CutShown] = OrderedDict()
        self.loads: dict[str, dict[str, int]] = {}
        self.rung: set[tuple[str, str]] = set()
        self.warned = ""
        self.is_ending = threading.Event()
        self.users_state = self.state_of_users()

    # People.

    def state_of_users(self) -> tuple[int, int]:
        try:
            at = self.folder.at("users.toml").stat()
        except OSError:
            return 0, 0
        return at.st_mtime_ns, at.st_ino

    def users(self) -> dict[str, User]:
        """The users as the file has them now; where it can't be read, as they were."""
        state = self.state_of_users()
        with self.lock:
            if state != self.users_state:
                self.users_state = state
                try:
                    self.folder = Folder(self.folder.path, users_of(self.folder.at("users.toml")))
                except Wrong as wrong:
                    LOG.error("the users stay as they were: %s", wrong)
            return self.folder.users

    # Gas days.

    def books(self) -> list[str]:
        """The names of the books that there are, latest days first."""
        names = [file.stem for file in self.folder.at("books").glob("*.book") if BOOK.fullmatch(file.stem)]
        return sorted(names, key=lambda name: (name[-8:], name), reverse=True)

    def keeper(self, book: str) -> Keeper | None:
        """The open day of this book, opened if it isn't; none where there is no such book."""
        with self.lock:
            if book in self.keepers:
                self.used[book] = self.clock.ticks()
                return self.keepers[book]
        if not BOOK.fullmatch(book) or not self.folder.book_file(book).is_file():
            return None
        with self.lock:
            opening = self.openings.setdefault(book, threading.Lock())
        with opening:
            return self.opened(book)

    def opened(self, book: str) -> Keeper:
        """Opens a day, unless another thread has. One that can't be opened is not tried again for a few seconds."""
        with self.lock:
            if book in self.keepers:
                return self.keepers[book]
            failed, since = self.failed.get(book, (None, 0.0))
            if failed and time.monotonic() < since + FAILED_SECONDS:
                raise Failed(str(failed))
        try:
            keeper = Keeper(self.program, self.folder.book_file(book), book, self.journal, self.guard, self.idle)
        except Failed as error:
            with self.lock:
                self.failed[book] = error, time.monotonic()
            raise
        if keeper.halted:
            LOG.error("%s", keeper.halted)
        with self.lock:
            self.keepers[book], self.used[book] = keeper, self.clock.ticks()
            self.failed.pop(book, None)
        return keeper

    def pipeline_of(self, book: str) -> Pipeline | None:
        return next((one for one in self.settings.pipelines if book[:-9] == one.book), None)

    def open_day(self, pipeline: Pipeline, date: str, carried: list[Row]) -> str:
        """Makes the book of a gas day; its name. What is wrong with its text is told by the program."""
        book = f"{pipeline.book}-{date.replace('-', '')}"
        if not BOOK.fullmatch(book):
            raise Refused(f"{date} is no date of the form 2026-01-15")
        file = self.folder.book_file(book)
        with self.opening:
            if file.exists():
                raise Refused(f"the gas day {date} of {pipeline.name} is open already: it has the book {book}")
            told = self.program.make_book(file, self.opening_text(pipeline, date, book, carried))
            if told[0] == "opened":
                file.chmod(0o640)
            else:
                file.unlink(missing_ok=True)
                raise Refused(f"the gas day {date} of {pipeline.name} can't be opened: {told_words(told)}")
        LOG.info("the book %s is made", book)
        return book

    def opening_text(self, pipeline: Pipeline, date: str, book: str, carried: list[Row]) -> bytes:
        folder = self.folder.at("pipelines", pipeline.name)
        rows: list[list[str]] = []
        for name in ("pipeline.csv", "contracts.csv"):
            try:
                text = (folder / name).read_text(encoding="utf-8")
            except (OSError, UnicodeDecodeError) as error:
                raise Refused(f"{folder / name} can't be read: {error}") from None
            rows += [row for row in csv.reader(io.StringIO(text, newline="")) if row]
        rows.append(["day", date, pipeline.zone, book, "", "", "", ""])
        return written(rows + [list(row) for row in carried])

    # Answers of rounds.

    def once(self, key: tuple[str, int, str], make: Callable[[], Shown | CutShown]) -> Shown | CutShown:
        """What was made once of a round that can't change any more."""
        with self.lock:
            if key in self.shown:
                self.shown.move_to_end(key)
                return self.shown[key]
        with self.making:
            with self.lock:
                if key in self.shown:
                    return self.shown[key]
            made = make()
        with self.lock:
            self.shown[key] = made
            while len(self.shown) > MOST_SHOWN:
                self.shown.popitem(last=False)
        return made

    def answer(self, keeper: Keeper, one: Round | None) -> Shown | None:
        """The report of a round that is published or declared."""
        if one is None or not one.closed_by:
            return None
        made = self.once((keeper.book, one.number, "answer"), partial(self.make_answer, keeper, one))
        assert isinstance(made, Shown)
        return made

    def make_answer(self, keeper: Keeper, one: Round) -> Shown:
        view, name = keeper.view, f"{keeper.book}-{one.cycle}"
        return shown_of(self.program, question_of(view, one), answer_of(view, one, keeper.kept_text()), name)

    def cut(self, keeper: Keeper, one: Round) -> CutShown:
        """A declared cut, with what waivers free."""
        made = self.once((keeper.book, one.number, "cut"), lambda: cut_of(
            self.program, keeper.view, one, keeper.kept_text()))
        assert isinstance(made, CutShown)
        return made

    def contracted(self, keeper: Keeper) -> dict[str, int]:
        """What firm contracts would bring to each element."""
        with self.lock:
            known = self.loads.get(keeper.book)
        if known is None:
            known = contracted(keeper.view)
            with self.lock:
                self.loads[keeper.book] = known
        return known

    # The clock.

    def start(self) -> None:
        """Looks at the clock and the alarms each second."""
        threading.Thread(target=self.tick, name="clock", daemon=True).start()

    def tick(self) -> None:
        while not self.is_ending.wait(1.0):
            try:
                self.guard.look()
                self.ring()
                self.rest()
            except Exception:
                LOG.exception("a fault of the alarms")

    def ring(self) -> None:
        """Freezes and settles what is due, where the settings say so."""
        for keeper in self.open_keepers():
            with keeper.lock:
                asked = look_at(keeper.view, self.clock.now(), self.settings, ALARM)
            if asked and (keeper.book, asked.token) not in self.rung:
                try:
                    told = keeper.call(asked)
                except (Stopped, Refused) as error:
                    self.warn_once(f"alarm: {keeper.book} {asked.kind} is not made: {error}")
                    continue
                self.rung.add((keeper.book, asked.token))
                LOG.info("alarm: %s %s was told %s", keeper.book, asked.kind, words_of(told.told[0]) if told.told else "nothing")

    def warn_once(self, words: str) -> None:
        """Logs what would be the same each second."""
        if words != self.warned:
            self.warned = words
            LOG.warning("%s", words)

    def rest(self) -> None:
        """Closes the days that are settled and that nobody has asked for for a while."""
        with self.lock:
            since = self.clock.ticks() - CLOSED_SECONDS
            old = [book for book, keeper in self.keepers.items() if keeper.view.is_settled and self.used.get(book, 0) < since]
            closed = [self.keepers.pop(book) for book in old]
        for keeper in closed:
            keeper.close()

    def open_keepers(self) -> list[Keeper]:
        with self.lock:
            return list(self.keepers.values())

    def wake(self) -> list[str]:
        """Opens the books whose days aren't over, so that their alarms ring; what is wrong with some of them."""
        wrong = []
        for book in self.books():
            if book[-8:] >= time.strftime("%Y%m%d", time.gmtime(self.clock.now() - 2 * 86400)):
                try:
                    keeper = self.keeper(book)
                    wrong += [keeper.halted] if keeper and keeper.halted else []
                except Failed as failed:
                    LOG.error("the book %s can't be opened: %s", book, failed)
                    wrong.append(f"the book {book} can't be opened: {failed}")
        return wrong

    def close(self) -> None:
        """Ends after the calls at hand."""
        self.is_ending.set()
        for keeper in self.open_keepers():
            keeper.close()
        self.journal.close()
        self.held.close()


def make_folders(folder: Folder) -> None:
    for name in FOLDERS:
        folder.at(name).mkdir(mode=0o750, parents=True, exist_ok=True)


def secret_of(folder: Folder) -> bytes:
    """What sessions are signed with; made anew where it is gone."""
    path = folder.at("secret")
    if not path.exists():
        write_whole(path, secrets.token_bytes(32), 0o600)
    return path.read_bytes()


def hold(folder: Folder) -> IO[bytes]:
    """Takes the folder for this server alone."""
    held = folder.at("desk.lock").open("wb")
    try:
        fcntl.flock(held, fcntl.LOCK_EX | fcntl.LOCK_NB)
    except OSError:
        held.close()
        raise Failed(f"another gasday-desk runs on {folder.path}; end it first") from None
    return held
