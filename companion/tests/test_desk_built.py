"""The desk with the built program, where there is one, or the one that GASDAY names in the environment."""

import contextlib
import hashlib
import io
import os
import random
import re
import shutil
import signal
import sqlite3
import subprocess
import sys
import tarfile
import threading
import unittest
from functools import lru_cache
from pathlib import Path

from desk_helpers import NO_SERVER, DeskTest, serving_python
from helpers import TOP, needs_gasday
from test_desk_view import FALLING, FALLING_TOLD, falling

from gasday_desk.answers import answer_of, cut_of, question_of, shown_of
from gasday_desk.clock import Guard
from gasday_desk.command import main
from gasday_desk.demo import make_demo
from gasday_desk.journal import Journal, Maker
from gasday_desk.keeper import Asked, Keeper
from gasday_desk.program import Program
from gasday_desk.rebuild import rebuild_book
from gasday_desk.rows import of_kind, row_of, rows_in, told_groups_of

HERE = Path(__file__).resolve().parent
NO_BROWSER = ("no Python has Flask, waitress and Selenium, or there is no Chromium (apt-get install python3-selenium"
              " chromium-driver)")


@lru_cache(maxsize=1)
def browser_python() -> str | None:
    if not shutil.which("chromedriver"):
        return None
    for python in (sys.executable, shutil.which("python3", path="/usr/bin")):
        if python and not subprocess.run([python, "-c", "import flask, selenium, waitress"], capture_output=True).returncode:
            return python
    return None


@needs_gasday
class Built(DeskTest):
    real = True

    def ask(self) -> Program:
        return Program(self.program)

    def text_of_falling(self) -> bytes:
        """The day in whose two last cycles a cut is declared, as its file keeps it."""
        file = self.folder / "falling.book"
        opening = ("segment,S1,A,B,100,,,\npoint,R1,receipt,A,OPR,1000,,\npoint,D1,delivery,B,OPD,1000,,\n"
                   "contract,FIRM,SHIP,firm,100,R1,D1,\n" 'day,2026-03-08,"CST6CDT,M3.2.0,M11.1.0",DEMO,,,,\n')
        text = (opening + FALLING).encode()
        told = self.ask().ask("day", "--book", str(file), text=text).rows()
        wanted = [row for group in told_groups_of(rows_in(FALLING_TOLD.encode())) for row in group if row[0] != "total"]
        self.assertEqual([row for row in told[1:] if row[0] != "total"], wanted)
        return self.ask().text_of(file)

    def test_answers_are_those_of_the_archive(self) -> None:
        """The question and answer that are made of what was told are those that the program keeps of a posting."""
        text, view = self.text_of_falling(), falling()
        self.ask().ask("day", "--archive", str(self.folder / "postings.db"), text=text)
        with contextlib.closing(sqlite3.connect(self.folder / "postings.db")) as archive:
            bodies = dict(archive.execute("select cycle, body from posting2"))
        for cycle, body in bodies.items():
            one = view.published(cycle)
            assert one
            made = question_of(view, one) + answer_of(view, one, text)
            self.assertEqual(sorted(rows_in(made)), sorted(rows_in(bytes(body))))
            shown = shown_of(self.ask(), question_of(view, one), answer_of(view, one, text), "x")
            self.assertEqual([verdict.passed for verdict in shown.verdicts], [True, True])

    def test_a_cut(self) -> None:
        """By hand: 80 must leave A and R1 where 60 can. Waived in Intraday 2, line 1 keeps what flowed: 16 and 64 x 4 / 19,
        which is 29."""
        text, view = self.text_of_falling(), falling(11)
        kept = self.ask().kept_in(text)
        front = text[:text.index(b"waive,")]
        cut = cut_of(self.ask(), view, view.rounds[3], front)
        self.assertEqual((cut.excess, [tuple(one) for one in [(f.line, f.floor, f.waived, f.frees) for f in cut.freed]]),
                         (20, [(1, 80, 29, 51)]))
        self.assertEqual(len(kept.calls), 14)

    def test_a_group_with_a_fault(self) -> None:
        """The call behind it is made without the group and kept as refused; what comes then has the file's numbers."""
        file = self.folder / "group.book"
        self.make_book(file)
        journal = Journal(self.folder / "desk.db")
        self.addCleanup(journal.close)
        keeper = Keeper(self.ask(), file, "GROUP", journal, Guard(self.clock, lambda reason: None))
        self.addCleanup(keeper.close)
        maker = Maker("sam", "scheduler", "PIPE")
        keeper.call(Asked("nominate", ("SHIP", "FIRM", "P", "R1", "D1", "70"), maker, "form-0"))
        self.clock.pass_to(1772922600)
        told = [keeper.call(Asked("freeze", (), maker, "form-1")),
                keeper.call(Asked("publish", ("1",), maker, "form-2", (row_of("sched", 7, 70), row_of("price", "S1", 4, 1)))),
                keeper.call(Asked("publish", ("1",), maker, "form-3", (row_of("sched", 1, "X"),))),
                keeper.call(Asked("settle", (), maker, "form-4"))]
        self.assertEqual([one.call.number if one.call else 0 for one in told], [2, 3, 4, 5])
        self.assertEqual([one.told[0][0] for one in told], ["frozen", "refused", "refused", "published"])
        self.assertEqual([one.entry.state for one in told], ["kept"] * 4)

    def test_a_settle_under_kills(self) -> None:
        """Killed at some moment of a settle, the file says whether it was made; sent again by its form it is made once."""
        chance, maker = random.Random(2016), Maker("sam", "scheduler", "PIPE")
        journal = Journal(self.folder / "desk.db")
        self.addCleanup(journal.close)
        lines = "".join(f"nominate,1772910000,SHIP,FIRM,P{at},R1,D1,0\n" for at in range(100))
        self.clock.pass_to(1772922700)
        for trial in range(8):
            file = self.folder / f"settle-{trial}.book"
            self.make_book(file)
            self.ask().ask("day", "--book", str(file), text=(lines + "freeze,1772922600,,,,,,\n").encode())
            rebuild_book(journal, self.ask(), file)
            keeper = Keeper(self.ask(), file, file.stem, journal, Guard(self.clock, lambda reason: None))
            keeper.call(Asked("post", ("S1", "70"), maker, "form-0"))
            assert keeper.run
            killer = threading.Timer(chance.uniform(0, 0.02), os.kill, (keeper.run.process.pid, signal.SIGKILL))
            killer.start()
            told = [keeper.call(Asked("settle", (), maker, "form-1")) for _ in range(3)]
            killer.join()
            keeper.close()
            self.assertEqual([one.told[0][0] for one in told[1:]], ["published"] * 2)
            # (all calls but the post, which a frozen book refuses, are events)
            self.assertEqual(self.ask().ask("audit", str(file)).first()[:5], ("replayed", "TEST-20260308", "103", "102", "1"))

    def test_a_demo_and_its_export(self) -> None:
        path = self.folder / "demo"
        password = make_demo(path, self.program, "127.0.0.1:0")
        self.assertRegex(password, "demo-[0-9a-f]{6}")
        book = next((path / "books").glob("*.book"))
        out = io.StringIO()
        with contextlib.redirect_stdout(out):
            self.assertEqual(main(["export", str(path), book.stem, "--gasday", self.program]), 0)
        self.assertEqual(Path(out.getvalue().strip()).stat().st_mode & 0o777, 0o640)
        with tarfile.open(out.getvalue().strip()) as archive:
            archive.extractall(self.folder / "out")
        whole = self.folder / "out" / book.stem
        self.assertEqual([path.name for path in whole.iterdir() if path.name.endswith(("-wal", "-shm"))], [])
        for line in (whole / "SHA256SUMS").read_text().splitlines():
            digest, name = line.split("  ")
            self.assertEqual(hashlib.sha256((whole / name).read_bytes()).hexdigest(), digest)
        self.assertEqual(self.ask().ask("audit", str(whole / f"{book.stem}.book")).first()[0], "replayed")
        self.assertIn("CITYGAS nominates 30,000 under HEAT", (whole / "day.html").read_text())
        told = self.ask().ask("day", text=(whole / f"{book.stem}.csv").read_bytes()).out
        self.assertEqual(told, (whole / "told.csv").read_bytes())
        self.assertIn("anna,shipper,CITYGAS", (whole / "calls.csv").read_text())
        self.assertEqual(len(of_kind(rows_in(told), "refused")), 0)

    @unittest.skipUnless(serving_python(), NO_SERVER)
    def test_kills(self) -> None:
        """Six, of the server and the program in turn; all of the two hundred is for a free machine."""
        done = self.script("kill_desk.py", serving_python(), "6", "4")
        self.assertRegex(done, r"[0-9]+ answered, 0 differences\n$")

    @unittest.skipUnless(browser_python(), NO_BROWSER)
    def test_a_day_in_the_browser(self) -> None:
        told = self.script("desk_browser.py", browser_python())
        self.assertRegex(told, "[0-9]+ rows told on 32 receipts")

    def script(self, name: str, python: str | None, *words: str) -> str:
        done = subprocess.run([python or "", HERE / name, self.program, *words], capture_output=True, text=True, timeout=900,
                              env={**os.environ, "PYTHONDONTWRITEBYTECODE": "1"})
        self.assertEqual((done.returncode, done.stderr), (0, ""), done.stdout + done.stderr)
        return done.stdout


class Documents(unittest.TestCase):
    def test_what_the_manual_names(self) -> None:
        """Each setting that DESK.md tells is one that is read, and each that is read is told."""
        text = (TOP / "docs" / "DESK.md").read_text()
        table = text[text.index("| Setting | |"):].partition("\n\n")[0]
        told = {name for row in table.splitlines()[2:] for name in re.findall("`([a-z_.]+)`", row.split("|")[1])}
        code = (TOP / "companion" / "gasday_desk" / "settings.py").read_text()
        plain = re.findall(r"\bfields\.(?:text|truth|number)\(\"([a-z_]+)\"", code[:code.index("def user_of")])
        alarms = re.findall(r"\balarms\.(?:text|truth|number)\(\"([a-z_]+)\"", code)
        pipeline = {"name", "book", "zone"}
        read = {*(name for name in plain if name not in pipeline), *(f"alarms.{name}" for name in alarms)}
        self.assertEqual(told, read | {f"pipeline.{name}" for name in pipeline})


if __name__ == "__main__":
    unittest.main()
