"""An open gas day: calls, forms that come again, and programs that die under calls."""

import os
import random
import signal
import sqlite3
import subprocess
import threading
import time
import unittest
from concurrent.futures import ThreadPoolExecutor
from pathlib import Path

from desk_helpers import BOOK, DeskTest

from gasday_desk.clock import Clock, Guard, Stopped
from gasday_desk.journal import FAULTY, KEPT, LOST, SENT, Entry, Journal, Maker, resolved
from gasday_desk.keeper import Asked, Keeper, Resent, Told
from gasday_desk.program import Failed, Program
from gasday_desk.rows import Row, row_of

SUE = Maker("sue", "shipper", "SHIP")


def nomination(token: str, quantity: str = "70", package: str = "P") -> Asked:
    return Asked("nominate", ("SHIP", "FIRM", package, "R1", "D1", quantity), SUE, token)


class KeptCalls(DeskTest):
    def setUp(self) -> None:
        super().setUp()
        self.file = self.folder / f"{BOOK}.book"
        self.make_book(self.file)
        self.journal = Journal(self.folder / "desk.db")
        self.keeper = self.open()

    def open(self) -> Keeper:
        guard = Guard(self.clock, self.journal.keep_reason)
        return Keeper(self.program_of(), self.file, BOOK, self.journal, guard, idle=0.2)

    def program_of(self) -> Program:
        return Program(self.program)

    def tearDown(self) -> None:
        self.keeper.close()
        self.journal.close()

    def rows_kept(self) -> list[str]:
        """The calls of the file, as the program prints them."""
        self.keeper.close()
        text = self.program_of().text_of(self.file).decode()
        self.keeper = self.open()
        return [line for line in text.splitlines() if line.startswith(("nominate", "respond", "post"))]

    def kill_program(self) -> None:
        run = self.keeper.run
        if run:
            os.kill(run.process.pid, signal.SIGKILL)


class Kept(KeptCalls):
    def test_calls_in_order(self) -> None:
        told = [self.keeper.call(nomination(f"form-{at}", str(at + 1), f"P{at}")) for at in range(3)]
        self.assertEqual([one.told[0][:4] for one in told], [("accepted", str(at), "1", str(at)) for at in (1, 2, 3)])
        self.assertEqual([one.call.number if one.call else 0 for one in told], [1, 2, 3])
        self.assertEqual(self.rows_kept()[0], "nominate,1772910000,SHIP,FIRM,P0,R1,D1,1")

    def test_a_form_that_comes_again(self) -> None:
        """It is told what it was told, also by another server; with something else in it that is said."""
        first = self.keeper.call(nomination("form-1"))
        self.clock.pass_to(1772910500)
        self.assertEqual(self.keeper.call(nomination("form-1")), first)
        self.keeper.close()
        self.keeper = self.open()
        self.assertEqual(self.keeper.call(nomination("form-1")).told, first.told)
        with self.assertRaises(Resent):
            self.keeper.call(nomination("form-1", "71"))
        with ThreadPoolExecutor(8) as pool:
            told = list(pool.map(lambda _: self.keeper.call(nomination("form-2", "5", "Q")), range(16)))
        self.assertEqual({one.call.number for one in told if one.call}, {2})
        self.assertEqual(len(self.rows_kept()), 2)

    def test_a_faulty_call_may_be_sent_once_more(self) -> None:
        told = self.keeper.call(nomination("form-1", "much"))
        self.assertEqual((told.call, told.entry.state, told.told[0][:3]), (None, FAULTY, ("fault", "1", "BadField")))
        told = self.keeper.call(nomination("form-1", "7"))
        self.assertEqual((told.entry.state, told.told[0][:3]), (KEPT, ("accepted", "1", "1")))
        self.assertEqual(len(self.rows_kept()), 1)

    def test_a_program_that_dies(self) -> None:
        """At random moments under the calls of several threads; each call is answered, and told as the file has it."""
        over, chance = threading.Event(), random.Random(2016)

        def kill() -> None:
            while not over.wait(chance.uniform(0.05, 0.3)):
                self.kill_program()

        killer = threading.Thread(target=kill)
        killer.start()
        try:
            with ThreadPoolExecutor(6) as pool:
                told = list(pool.map(self.make, range(60)))
        finally:
            over.set()
            killer.join()
        self.check_answers(told)

    def make(self, at: int) -> Told:
        """One that isn't kept is sent once more, as a person would."""
        for _ in range(20):
            told = self.keeper.call(nomination(f"form-{at}", str(at + 1), f"P{at}"))
            if told.call:
                return told
        raise AssertionError("never kept")

    def check_answers(self, told: list[Told]) -> None:
        kept = self.rows_kept()
        self.assertEqual(len(kept), len(told))
        for at, one in enumerate(told):
            assert one.call
            self.assertEqual(kept[one.call.number - 1].split(",")[4], f"P{at}")
            self.assertEqual(kept[one.call.number - 1], ",".join(one.entry.rows[-1]))

    def test_a_server_that_dies_before_it_sends(self) -> None:
        """The next one finds that the call isn't kept, shows it, and takes it by the same form."""
        entry = Entry(0, BOOK, "form-1", SUE, 1772910000, nomination("form-1").rows(1772910000), None, (), SENT)
        self.journal.begin([entry])
        self.keeper.close()
        self.keeper = self.open()
        self.assertEqual([one.rows for one in self.journal.not_kept(BOOK)], [entry.rows])
        self.assertEqual(self.keeper.call(nomination("form-1")).told[0][:2], ("accepted", "1"))
        self.assertEqual((self.journal.not_kept(BOOK), len(self.rows_kept())), ([], 1))

    def test_an_older_file(self) -> None:
        """A file that lacks what was told is not served."""
        self.keeper.call(nomination("form-1"))
        self.keeper.close()
        older = self.file.read_bytes()
        self.keeper = self.open()
        self.keeper.call(nomination("form-2", "5", "Q"))
        self.keeper.close()
        whole = self.file.read_bytes()
        for data in (older, whole.replace(b"Q,R1,D1,5", b"Q,R1,D1,6")):
            self.file.write_bytes(data)
            with self.assertRaisesRegex(Failed, "lacks call 2 as it was told to sue"):
                self.open()
        self.file.write_bytes(whole)
        self.keeper = self.open()
        self.assertEqual(len(self.keeper.view.calls), 2)

    def test_others_make_calls_meanwhile(self) -> None:
        """Once the desk rests the file is free; what others did is seen before the next call is told."""
        self.keeper.call(nomination("form-1"))
        time.sleep(0.6)
        row = b"post,1772910000,S1,60,,,,\n"
        subprocess.run([self.program, "day", "--book", self.file], input=row, check=True, capture_output=True)
        told = self.keeper.call(nomination("form-2", "5", "Q"))
        self.assertEqual(told.call.number if told.call else 0, 3)
        self.assertEqual(self.keeper.view.posted, {"S1": 60})
        self.assertEqual(self.keeper.entries[2].maker.user, "not by this desk")
        self.keeper.close()
        self.keeper = self.open()
        self.assertEqual(self.keeper.halted, "")

    def test_a_journal_that_is_full(self) -> None:
        """What can't be entered isn't sent."""
        with self.journal.lock:
            self.journal.file.execute("PRAGMA query_only = 1")
        with self.assertRaisesRegex(Exception, "can't go on"):
            self.keeper.call(nomination("form-1"))
        with self.journal.lock:
            self.journal.file.execute("PRAGMA query_only = 0")
        self.assertEqual(self.keeper.call(nomination("form-1")).told[0][1], "1")
        self.assertEqual(len(self.rows_kept()), 1)


class Crowded(KeptCalls):
    """Calls of uploads, and others that come meanwhile, with a program that takes a few milliseconds for each."""

    def fake(self) -> str:
        path = Path(super().fake())
        head = "    def call(self, row):\n"
        path.write_text(path.read_text().replace(head, head + "        import time; time.sleep(0.004)\n"))
        return str(path)

    def test_the_scheduler_waits_for_no_upload(self) -> None:
        """Twenty uploads of a hundred rows wait; a scheduler's call is sent before them, after those that are at hand."""
        rows = [[nomination(f"file-{at}.{row}", "1", f"P{at}-{row}") for row in range(100)] for at in range(20)]
        with ThreadPoolExecutor(20) as pool:
            told = [pool.submit(self.keeper.call_all, one, is_bulk=True) for one in rows]
            while len(self.keeper.view.calls) < 60:
                time.sleep(0.005)
            before = len(self.keeper.view.calls)
            one = self.keeper.call(Asked("post", ("S1", "60"), Maker("sam", "scheduler", "PIPE"), "form-1"))
            assert one.call
            self.assertLess(one.call.number - before, 110)
            self.assertEqual(sum(len(some.result()) for some in told), 2000)


class Resolved(DeskTest):
    """What became of calls that were sent and not answered."""

    def entry(self, number: int, state: str, row: Row, call: int | None = None) -> Entry:
        return Entry(number, BOOK, f"form-{number}", SUE, 5, (row,), call, (), state)

    def test_a_front_is_kept(self) -> None:
        rows = [row_of("post", 5, "S1", at) for at in range(4)]
        entries = [self.entry(1, KEPT, rows[0], 1), *(self.entry(at + 1, SENT, rows[at]) for at in (1, 2, 3))]
        found = resolved(entries, [[rows[0]], [rows[1]], [rows[2]]])
        self.assertEqual([(one.id, one.state, one.number) for one in found], [(2, KEPT, 2), (3, KEPT, 3), (4, LOST, None)])

    def test_a_settled_cycle_is_kept_as_what_it_came_to(self) -> None:
        settle, others = self.entry(1, SENT, row_of("settle", 5)), row_of("post", 5, "S1", 7)
        calls = [[others], [row_of("sched", 1, 70), row_of("publish", 5, 1)]]
        self.assertEqual([(one.state, one.number) for one in resolved([settle], calls)], [(KEPT, 2)])
        self.assertEqual(resolved([settle], [[others], [row_of("publish", 6, 1)]])[0].state, LOST)

    def test_equal_rows(self) -> None:
        row = row_of("post", 5, "S1", 7)
        found = resolved([self.entry(1, SENT, row), self.entry(2, SENT, row)], [[row]])
        self.assertEqual([(one.state, one.number) for one in found], [(KEPT, 1), (LOST, None)])

    def test_a_number_has_one_call(self) -> None:
        journal = Journal(self.folder / "desk.db")
        self.addCleanup(journal.close)
        row = row_of("post", 5, "S1", 7)
        begun = journal.begin([self.entry(0, SENT, row), Entry(0, BOOK, "other", SUE, 5, (row,), None, (), SENT)])
        with self.assertRaises(sqlite3.IntegrityError):
            journal.settle([one.kept_as(1) for one in begun])
        self.assertEqual([one.state for one in journal.of_book(BOOK)], [SENT, SENT])


class Guarded(DeskTest):
    """The clock: as it goes, back, ahead, and behind the last call."""

    def setUp(self) -> None:
        super().setUp()
        self.kept: list[str] = []
        self.guard = Guard(self.clock, self.kept.append, last=1772909000)
        self.guard.look()

    def is_stopped(self) -> bool:
        try:
            self.guard.moment()
        except Stopped:
            return True
        return False

    def test_time_passes(self) -> None:
        for moment in (1772910030, 1772913600, 1772996400):
            self.clock.pass_to(moment)
            self.assertEqual(self.guard.moment(), moment)
        self.assertEqual(self.kept, [])

    def test_small_steps(self) -> None:
        self.clock.moment += 59.0
        self.assertFalse(self.is_stopped())
        self.clock.moment += 0.5
        self.assertFalse(self.is_stopped())

    def test_steps(self) -> None:
        for step in (61.0, -2.0, -3600.0):
            self.guard.confirm()
            self.clock.moment += step
            self.assertTrue(self.is_stopped())
            self.clock.pass_to(int(self.clock.moment) + 500)
            self.assertTrue(self.is_stopped())
            self.guard.confirm()
            self.assertFalse(self.is_stopped())
        self.assertIn("went back by 2 seconds", self.kept[4])

    def test_after_a_start(self) -> None:
        """What was kept is kept on; and a clock behind the last call is seen at once."""
        self.assertTrue(Guard(self.clock, self.kept.append, "it jumped").reason)
        self.guard = Guard(self.clock, self.kept.append, last=1772910001)
        self.assertTrue(self.is_stopped())

    def test_a_real_clock(self) -> None:
        guard = Guard(Clock(), self.kept.append)
        self.assertLess(abs(guard.moment() - time.time()), 5)


if __name__ == "__main__":
    unittest.main()
