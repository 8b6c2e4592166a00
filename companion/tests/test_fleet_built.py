"""gasday-fleet with the built program, where there is one, or the one that GASDAY names in the environment."""

import shutil
import sqlite3
import subprocess
import unittest

from fleet_helpers import FleetTest, cells_of, dask_python, rows_of
from helpers import GASDAY, TOP, needs_gasday

from certificate import Answer, Question, verdict_of

DAY = TOP / "examples" / "gas-day" / "two-cycles.csv"
STUDY = [str(TOP / "examples" / "study" / name) for name in ("base.csv", "scenarios.csv")]


@needs_gasday
class Built(FleetTest):
    def setUp(self) -> None:
        super().setUp()
        self.program = GASDAY

    def gasday(self, *words: str, text: bytes) -> bytes:
        return subprocess.run([self.program, *words], input=text, cwd=self.folder, capture_output=True, timeout=600).stdout

    def change(self, name: str, old: str, new: str) -> None:
        """Tampers with the first posting of an archive."""
        archive = sqlite3.connect(self.folder / name)
        archive.execute("update posting2 set body = cast(replace(cast(body as text), ?, ?) as blob) where cycle = 1", (old, new))
        archive.commit()
        archive.execute("pragma wal_checkpoint(truncate)")
        archive.close()

    def test_archives(self) -> None:
        self.gasday("day", "--archive", "0.db", text=DAY.read_bytes())
        for number in range(1, 8):
            shutil.copyfile(self.folder / "0.db", self.folder / f"{number}.db")
        self.change("5.db", "sched,1,70", "sched,1,69")
        self.put("6.db", "no archive")
        names = [f"{number}.db" for number in range(8)]
        out, _, status = self.serial("audit", *names, "--untimed")
        self.assertEqual(cells_of(out, "verdict"), ["sound"] * 5 + ["unsound", "failed", "sound"])
        self.assertEqual((set(cells_of(out, "postings")), status), ({"2", ""}, 2))
        told = self.gasday("audit", "5.db", text=b"").decode().rstrip(",\n")
        # (the quantities that cycle 2 bumps are compared with cycle 1 as it was changed)
        self.assertEqual(rows_of(out)[5]["told"], f"{told} and 1 more")
        self.assertEqual(rows_of(out)[6]["told"], "fault,0,Store")
        if python := dask_python():
            for more in ((), ("--send",)):
                self.assertEqual(self.fleet("audit", *names, "--untimed", "--workers", "2", *more, python=python)[0], out)

    def test_days(self) -> None:
        for folder in ("same", "told", "kept", "text"):
            self.put(f"{folder}/texts/2026-03-08.csv", DAY.read_bytes())
            (self.folder / folder / "told").mkdir()
            told = self.gasday("day", "--archive", f"{folder}/archive.db", text=DAY.read_bytes()).decode()
            self.put(f"{folder}/told/2026-03-08.csv", told.replace("bumped,1,20", "bumped,1,19") if folder == "told" else told)
        self.change("kept/archive.db", "sched,1,70", "sched,1,69")
        self.put("text/texts/2026-03-08.csv", DAY.read_text().replace("S1,A,B,100", "S1,A,B,99"))
        folders = ("same", "told", "kept", "text")
        self.assertEqual(cells_of(self.serial("days", *folders)[0], "verdict"), ["same", "differs", "same", "differs"])
        out, error, status = self.serial("days", *folders, "--archive")
        self.assertEqual((cells_of(out, "verdict"), status), (["same", "differs", "differs", "differs"], 1))
        self.assertEqual(cells_of(out, "postings"), ["2"] * 4)
        self.assertIn("told/2026-03-08: differs: row 25 that was told is bumped,1,19, and gasday day tells bumped,1,20\n", error)
        self.assertIn("kept/2026-03-08: differs: the posting of cycle 1 that is kept is not the one that is published: row 6 of "
                      "its body is sched,1,69, and not sched,1,70\n", error)

    def test_what_an_archive_does_not_show(self) -> None:
        """A posting that is deleted, one of another book, another class that no price looks at, another operator, another bump:
        each archive is sound, and is not what its text gives."""
        body = "cast(replace(cast(body as text), '{}', '{}') as blob)".format
        for name, change, count, told in (
                ("missing", "delete from posting2 where cycle = 2", "1", "day: differs: cycle 2 is published, and not kept"),
                ("surplus", "insert into posting2 (book, cycle, round, body, rule) select 'OTHER', cycle, round, "
                 f"{body(',DEMO,', ',OTHER,')}, rule from posting2", "4",
                 "book OTHER: differs: it is kept, and no text that can be read is of this book"),
                ("class", f"update posting2 set body = {body('D1,4,0,70', 'D1,7,0,70')} where cycle = 1", "2",
                 "row 5 of its body is line,R1,D1,7,0,70, and not line,R1,D1,4,0,70"),
                ("operator", f"update posting2 set body = {body(',OPR,', ',OPX,')} where cycle = 1", "2",
                 "row 2 of its body is point,R1,receipt,A,OPX,1000, and not point,R1,receipt,A,OPR,1000"),
                ("bumped", f"update posting2 set body = {body('bumped,1,20', 'bumped,1,1')} where cycle = 2", "2",
                 "row 10 of its body is bumped,1,1, and not bumped,1,20")):
            self.put(f"{name}/texts/day.csv", DAY.read_bytes())
            self.gasday("day", "--archive", f"{name}/archive.db", text=DAY.read_bytes())
            archive = sqlite3.connect(self.folder / name / "archive.db")
            archive.execute(change)
            archive.commit()
            archive.close()
            self.assertEqual(self.gasday("audit", f"{name}/archive.db", text=b"").decode(), f"audited,{count},,,,,,\n")
            error, status = self.serial("days", name, "--archive")[1:]
            self.assertEqual(status, 1)
            self.assertIn(told + "\n", error)

    def test_a_study(self) -> None:
        """Some answers are held against certificate.py, and all against the totals of the base."""
        out, error, status = self.serial("study", *STUDY)
        self.assertEqual((error.splitlines()[-1], status), ("gasday-fleet: 153 scenarios: 141 best, 12 impossible", 1))
        rows = rows_of(out)
        base = [58000, 21000, 10000, 7751, 6751, 833, 0, 416]  # as examples/README.md has it
        for row in rows:
            sums = [int(row[f"total_{c}"]) + int(row[f"loss_{c}"]) for c in range(1, 9) if row["verdict"] == "best"]
            self.assertEqual(sums, base if sums else [])
        for row in rows[::17] + [row for row in rows if row["verdict"] == "impossible"][:3]:
            text = self.serial("study", *STUDY, "--question", row["scenario"])[0]
            asked = Question(text)
            told = self.gasday("solve", text=text.encode()).decode()
            answer = Answer(told, asked)
            verdict_of(asked, answer)
            self.assertEqual(answer.is_cut, row["verdict"] == "impossible")
            self.assertEqual(told.splitlines()[0].rstrip(","), row["told"] or "best")
        if python := dask_python():
            self.assertEqual(self.fleet("study", *STUDY, "--workers", "3", "--batch", "10", python=python)[0], out)


if __name__ == "__main__":
    unittest.main()
