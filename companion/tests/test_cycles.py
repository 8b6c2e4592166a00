"""A gas day cycle by cycle: who nominated and confirmed what, and why a line has less; that question, answer and day belong
together; and notices. The day of five cycles is that of examples/README.md, worked out there by hand, and needs the built
program, or the one that GASDAY names in the environment."""

import csv
import io
import json
import os
import subprocess
import unittest
from pathlib import Path
from typing import Any

from day_helpers import EVENING, FIVE_CYCLES, TIMELY, DayTest
from helpers import GASDAY, TWO_LINES, TWO_LINES_ANSWER, needs_gasday
from test_day import EVENTS, REPLIES

from gasday_report.cause_words import cause_words, line_number
from gasday_report.causes import AnswerCause, EndAnswer
from gasday_report.confirming import confirmed_by
from gasday_report.course import Bound

QUESTION = EVENING.partition("sched,")[0]
ANSWER = EVENING.removeprefix(QUESTION)


class Told(DayTest):
    """By a fake program."""

    def test_a_bumped_line(self) -> None:
        out, error, status = self.day()
        self.assertEqual((error, status), ("", 0))
        self.assertIn("PASS  the posting of each round: rounds 1, 2: it has the question", out)
        self.assertIn("PASS  gasday check best: rounds 1, 2: ", out)
        self.assertIn("  Line 1: SHIP, contract INT, package P, R1 to D1, class 4\n"
                      "      nominated 70, confirmed 70 (by silence, scheduled before: 70; OPR silent at the origin, OPD silent"
                      " at the destination), floor 0, scheduled 50, bumped by 20\n"
                      "      why: other gas of class 4 or higher goes first; S1 is full, 100 of 100\n", out)
        self.assertIn("  S1 is full, 100 of 100: class 1 has 50 (line 2 SHIP FIRM 50) and class 4 has 50 (line 1 SHIP INT"
                      " 50)\n", out)
        self.assertNotIn("tenth", out)
        self.assertIn("arithmetic: its next dekatherm, of class 4 and tenth 8, is worth just that", self.day("--arithmetic")[0])

    def test_the_program_is_named(self) -> None:
        program = json.loads(self.day("--format", "json")[0])["program"]
        path = os.path.realpath(Path(self.folder.name) / "gasday")
        told = subprocess.run(["sha256sum", path], capture_output=True, text=True).stdout.split()[0]
        self.assertEqual(program, {"path": path, "version": "gasday 9.8", "sha256": told})
        self.assertIn(f"Checked by {path}, gasday 9.8, SHA-256 {told}\n", self.day()[0])

    def test_a_posting_that_is_not_what_was_told(self) -> None:
        for old, new in (("DEMO,2,2", "DEMO,2,3"), ("DEMO,2,2", "OTHER,2,2"), ("1,0,50", "1,0,51"), ("S1,A,B,100", "S1,A,B,99"),
                         ("sched,1,50", "sched,1,49"), ("bumped,1,20", "bumped,1,19")):
            program = self.gasday(bodies=(TIMELY, EVENING.replace(old, new)))
            out, _, status = self.day(program=program)
            self.assertEqual(status, 1, new)
            self.assertIn("FAIL  the posting of each round: round 2: the posting of cycle 2", out)
            self.assertNotIn("why:", out)

    def test_where_no_posting_is_kept(self) -> None:
        """Then there are no prices, and that is said."""
        out, _, status = self.day(program=self.gasday(bodies=()))
        self.assertEqual(status, 0)
        self.assertIn("why a line has less than its confirmed quantity can't be told", out)
        self.assertNotIn("S1 is full", out)

    def test_an_archive(self) -> None:
        program = self.gasday()
        events = self.path("events.csv", EVENTS)
        for bodies, wanted in (((TIMELY, EVENING), 0), ((TIMELY,), 1), ((TIMELY, EVENING, EVENING), 1),
                               ((EVENING, TIMELY), 1), ((TIMELY, EVENING.replace("sched,2,50", "sched,2,49")), 1)):
            archive = self.archive("kept.db", *bodies)
            before = sorted(os.listdir(self.folder.name))
            out, _, status = self.run_command("--events", events, "--archive", archive, "--gasday", program)
            self.assertEqual((status, sorted(os.listdir(self.folder.name))), (wanted, before))
            self.assertEqual("S1 is full" in out, wanted == 0)
            os.unlink(archive)
        for data in (b"no archive", b""):
            archive = self.path("none.db", data)
            self.assertEqual(self.run_command("--events", events, "--archive", archive, "--gasday", program)[2], 2)

    def test_one_posting_of_an_archive(self) -> None:
        archive = self.archive("kept.db", TIMELY, EVENING)
        out, _, status = self.run_command("--archive", archive, "--posting", "DEMO", "2", "--gasday", self.gasday())
        self.assertEqual(status, 0)
        self.assertIn("Line 1: R1 to D1, class 4: floor 0, confirmed 70, scheduled 50, short by 20, bumped by 20\n", out)
        self.assertIn("PASS  the archive's posting: it is kept as book DEMO, cycle 2 (Evening), round 2, and has that head\n",
                      out)
        other = self.archive("other.db", TIMELY, EVENING.replace("DEMO,2,2", "DEMO,2,4"))
        out, _, status = self.run_command("--archive", other, "--posting", "DEMO", "2", "--gasday", self.gasday())
        self.assertEqual((status, "Line 1" in out), (1, False))
        for words in (("DEMO", "3"), ("OTHER", "2")):
            self.assertEqual(self.run_command("--archive", archive, "--posting", *words, "--gasday", self.gasday())[2], 2)

    def test_a_book(self) -> None:
        program, book = self.gasday(), self.path("0308.book", "a file")
        out, error, status = self.run_command("--book", book, "--gasday", program)
        self.assertEqual((error, status), ("", 0))
        self.assertIn("PASS  gasday audit: all calls of the book's file, made again, give what it says was told: replayed", out)
        self.assertIn("scheduled 50, bumped by 20\n", out)
        self.path("audit-told", "differs,DEMO,1,2,,,,\n")
        out, _, status = self.run_command("--book", book, "--gasday", program)
        self.assertEqual((status, "Line 1" in out), (1, False))
        self.path("text-told", "fault,0,Busy,,,,,\n")
        self.path("text-status", "2")
        _, error, status = self.run_command("--book", book, "--gasday", program)
        self.assertEqual(status, 2)
        self.assertIn("another process has it open", error)

    def test_calls_that_do_not_go_together(self) -> None:
        path = self.path("x", "")
        for words in (("--book", path, "--events", path), ("--posting", "DEMO", "1"), ("--archive", path), ("--events", path),
                      ("--replies", path), ("--certificate-alone", "--book", path), (path, path, "--notices", path),
                      (path, path, "--arithmetic", "--format", "json"),
                      (path, path, "--format", "csv", "--table", "cycle-lines")):
            self.assertEqual(self.run_command(*words)[2], 2, words)

    def test_question_answer_and_day(self) -> None:
        program, paths = self.gasday(), (self.path("events.csv", EVENTS), self.path("replies.csv", REPLIES))
        day = ("--events", paths[0], "--replies", paths[1], "--gasday", program)
        other = QUESTION.replace("DEMO,2,2", "DEMO,2,1")
        for question, answer, wanted in ((QUESTION, ANSWER, 0), (QUESTION, EVENING, 0), (other, ANSWER, 1), (QUESTION, TIMELY, 1),
                                         (QUESTION.replace("OPR,1000", "OPR,1001"), ANSWER, 1)):
            files = self.path("question.csv", question), self.path("answer.csv", answer)
            out, _, status = self.run_command(*files, *day)
            self.assertEqual(status, wanted, out)
        self.assertIn("FAIL  question, answer and gas day belong together: the question of round 2 of the gas day has other"
                      " elements, capacities or lines\n", out)

    def test_an_answer_with_another_head(self) -> None:
        """A posting's body says by itself of which question it is."""
        files = self.path("question.csv", QUESTION), self.path("answer.csv", EVENING.replace("DEMO,2,2", "DEMO,3,3"))
        out, _, status = self.run_command(*files, "--gasday", self.gasday())
        self.assertEqual(status, 1)
        self.assertIn("FAIL  question and answer belong together: the answer's head is book DEMO, cycle 3 (Intraday 1), round 3;"
                      " the question's is book DEMO, cycle 2 (Evening), round 2\n", out)

    def test_certificate_alone(self) -> None:
        paths = self.path("question.csv", TWO_LINES), self.path("answer.csv", TWO_LINES_ANSWER)
        out, error, status = self.run_command(*paths, "--certificate-alone")
        self.assertEqual((error, status), ("", 0))
        self.assertIn("Checked by certificate.py alone: gasday, whose check is proved, was not asked.\n", out)
        self.assertNotIn("gasday check", out)
        whole = json.loads(self.run_command(*paths, "--certificate-alone", "--format", "json")[0])
        self.assertEqual((whole["program"], whole["certificate_alone"]), (None, True))
        self.assertIn("certificate.py, which alone has checked it", self.run_command(*paths, "--certificate-alone", "--format",
                                                                                     "html")[0])
        self.path("answer.csv", TWO_LINES_ANSWER.replace("sched,2,20", "sched,2,19"))
        self.assertEqual(self.run_command(*paths, "--certificate-alone")[2], 1)

    def test_csv(self) -> None:
        rows = list(csv.DictReader(io.StringIO(self.day("--format", "csv", "--table", "cycle-lines")[0])))
        self.assertEqual([(row["cycle"], row["line"], row["nominated"], row["scheduled"], row["bumped"], row["confirmed_by"],
                           row["reason_kinds"], row["reason_elements"]) for row in rows],
                         [("1", "1", "70", "70", "0", "nomination", "", ""),
                          ("2", "1", "70", "50", "20", "silence", "capacity", "S1"),
                          ("2", "2", "50", "50", "0", "nomination", "", "")])
        shares = list(csv.DictReader(io.StringIO(self.day("--format", "csv", "--table", "cycle-sharing")[0])))
        self.assertEqual([(row["element"], row["capacity"], row["line"], row["class"], row["scheduled"]) for row in shares],
                         [("S1", "100", "1", "4", "50"), ("S1", "100", "2", "1", "50")])


class ByWhom(unittest.TestCase):
    """Which of the known quantities a confirmed one is; where it is none of them that isn't told."""

    def by(self, cycle: int, nominated: int, former: int, floor: int, ceiling: int, *answers: int | None) -> str:
        ends = [EndAnswer(end, "OP", answer) for end, answer in zip(("origin", "destination"), answers, strict=True)]
        return confirmed_by(cycle, nominated, former, Bound(4, floor, ceiling), ends)

    def test_timely(self) -> None:
        """The least of the nomination, the answers, and where an end is silent what was carried over."""
        self.assertEqual(self.by(1, 70, 0, 0, 70, 70, 80), "nomination")
        self.assertEqual(self.by(1, 70, 0, 0, 60, 70, 60), "confirmation")
        self.assertEqual(self.by(1, 70, 50, 0, 50, 70, None), "silence")
        self.assertEqual(self.by(1, 70, 50, 0, 40, 40, None), "confirmation")
        self.assertEqual(self.by(1, 70, 50, 0, 45, 40, None), "untold")

    def test_later(self) -> None:
        """By silence what was scheduled before; else no less than has flowed, which is the floor then."""
        self.assertEqual(self.by(3, 70, 50, 10, 50, None, 20), "silence")
        self.assertEqual(self.by(3, 70, 50, 10, 20, None, 20), "untold")
        self.assertEqual(self.by(3, 4, 50, 6, 6, 100, 100), "elapsed")
        self.assertEqual(self.by(3, 4, 50, 5, 6, 100, 100), "untold")
        cause = AnswerCause("elapsed", 4, 6, (EndAnswer("origin", "OPR", 100), EndAnswer("destination", "OPD", 100)))
        self.assertEqual(cause_words(cause, 3, 4, line_number), "raised from 4 to 6, which has flowed already; OPR at the origin"
                         " confirmed 100 and OPD at the destination confirmed 100")


@needs_gasday
class FiveCycles(DayTest):
    def made(self, *words: str) -> tuple[str, str, object]:
        program = str(GASDAY)
        events = self.path("events.csv", FIVE_CYCLES)
        told = subprocess.run([program, "day"], input=FIVE_CYCLES.encode(), capture_output=True).stdout
        return self.run_command("--events", events, "--replies", self.path("told.csv", told), "--gasday", program, *words)

    def cycles(self) -> list[dict[str, Any]]:
        out, error, status = self.made("--format", "json")
        self.assertEqual((error, status), ("", 0))
        cycles: list[dict[str, Any]] = json.loads(out)["day"]["cycles"]
        return cycles

    def test_quantities(self) -> None:
        """Of each round and line: nominated, confirmed, by what, floor, scheduled and bumped."""
        names = ("nominated", "confirmed", "confirmed_by", "floor", "scheduled", "bumped")
        found = {made["round"]: [[line[name] for name in names] for line in made["lines"]]
                 for cycle in self.cycles() for made in cycle["rounds"]}
        self.assertEqual(found, {
            1: [[30000, 30000, "nomination", 0, 30000, 0], [15000, 15000, "nomination", 0, 15000, 0],
                [5000, 0, "silence", 0, 0, 0]],
            2: [[40000, 40000, "nomination", 30000, 40000, 0], [15000, 15000, "silence", 0, 10000, 5000],
                [5000, 0, "silence", 0, 0, 0]],
            3: [[40000, 40000, "silence", 40000, None, None], [15000, 10000, "silence", 2083, None, None],
                [5000, 0, "silence", 0, None, None]],
            4: [[40000, 40000, "silence", 8333, 33917, 6083], [15000, 10000, "silence", 2083, 2083, 7917],
                [5000, 0, "silence", 0, 0, 0]],
            5: [[40000, 33917, "silence", 33917, None, None], [15000, 2083, "silence", 2083, None, None],
                [5000, 0, "silence", 0, None, None]],
            6: [[40000, 40000, "nomination", 33917, 36917, 0], [15000, 2083, "silence", 2083, 2083, 0],
                [5000, 0, "silence", 0, 0, 0]]})

    def test_causes(self) -> None:
        rounds = {made["round"]: made for cycle in self.cycles() for made in cycle["rounds"]}
        evening = rounds[2]["lines"][1]["causes"]
        self.assertEqual([(cause["kind"], cause.get("element"), cause["before"], cause["after"]) for cause in evening],
                         [("higher_class", "TRUNK", 15000, 10000)])
        decided = rounds[2]["lines"][1]["decided"]
        self.assertEqual([decided[name] for name in ("by", "class", "exact")], ["higher_class", 1, True])
        self.assertEqual([(share["class"], share["scheduled"]) for share in rounds[2]["answer"]["sharing"][0]["classes"]],
                         [(1, 40000), (4, 10000)])
        first = rounds[4]["answer"]["sharing"][0]
        self.assertEqual([first[name] for name in ("element", "capacity", "usual_capacity", "load")],
                         ["TRUNK", 36000, 50000, 36000])
        silent = rounds[1]["lines"][2]["causes"][0]
        self.assertEqual((silent["kind"], silent["before"], silent["after"]), ("silence", 5000, 0))
        self.assertEqual(silent["answers"], [{"end": "destination", "operator": "TOWN-OPS", "confirmed": None}])
        higher = [cause["kind"] for cause in rounds[4]["lines"][1]["causes"]]
        self.assertEqual(higher, ["silence", "higher_class"])

    def test_cuts_and_waivers(self) -> None:
        """Round 3: 42083 must leave where 36000 can. Line 1 waived has a floor of 8333, what flowed; line 2's floor is what
        flowed already. Round 5: 36000 must leave where 20000 can; of line 1 8333 + (33917 - 8333) * 4 / 19 = 13719 flowed."""
        rounds = {made["round"]: made for cycle in self.cycles() for made in cycle["rounds"]}
        self.assertEqual([rounds[at]["answer"]["cut"]["excess"] for at in (3, 5)], [6083, 16000])
        freed = [[line["freed_by_waiver"] for line in rounds[at]["lines"]] for at in (3, 5)]
        self.assertEqual(freed, [[40000 - 8333, 0, None], [33917 - 13719, 0, None]])

    def test_skipped(self) -> None:
        cycles = self.cycles()
        self.assertEqual([bool(cycle["skipped"]) for cycle in cycles], [False, False, False, True, False])
        self.assertIn("Cycle 4, Intraday 2: skipped: the former schedule stays in effect\n", self.made()[0])

    def test_notices(self) -> None:
        folder = str(Path(self.folder.name) / "notices")
        out, error, status = self.made("--notices", folder)
        self.assertEqual((error, status), ("", 0))
        files = self.files("notices")
        cycle = {name.partition("/")[2] for name in files if name.startswith("cycle-2-round-2/")}
        parties = ("shipper-UTILITY", "shipper-TRADER", "operator-PLANT-OPS", "operator-MILL-OPS", "operator-TOWN-OPS")
        self.assertEqual(cycle, {"constraints.html", *(f"{party}.{kind}" for party in parties for kind in ("txt", "csv"))})
        self.assertEqual({name.partition("/")[0] for name in files}, {
            "cycle-1-round-1", "cycle-2-round-2", "cycle-3-round-3", "cycle-3-round-4", "cycle-4-round-5", "cycle-4-skipped",
            "cycle-5-round-6"})
        for name, text in files.items():
            if "shipper-TRADER" in name or "operator-MILL" in name or "constraints" in name:
                self.assertNotIn("UTILITY", text, name)
                self.assertNotIn("HEAT", text, name)
            if "constraints" in name:
                self.assertNotIn("TRADER", text, name)
        notice = files["cycle-2-round-2/shipper-TRADER.txt"]
        self.assertIn("why: gas of class 1 goes before gas of class 4; TRUNK is full, 50,000 of 50,000\n", notice)
        self.assertIn("What is full, by class\n    TRUNK is full, 50,000 of 50,000: class 1 has 40,000 with 30,000 of it in"
                      " floors and class 4 has 10,000\n", notice)
        rows = list(csv.DictReader(io.StringIO(files["cycle-2-round-2/operator-MILL-OPS.csv"])))
        self.assertEqual([(row["line"], row["scheduled"]) for row in rows], [("2", "10000")])
        # A second time all is there; what is there with something else stays.
        self.assertIn("0 files written", self.made("--notices", folder)[0])
        other = Path(folder) / "cycle-1-round-1" / "shipper-TRADER.txt"
        other.write_text("something else")
        (Path(folder) / "cycle-5-round-6" / "constraints.html").unlink()
        _, error, status = self.made("--notices", folder)
        self.assertEqual((status, other.read_text()), (2, "something else"))
        self.assertFalse((Path(folder) / "cycle-5-round-6" / "constraints.html").exists())


if __name__ == "__main__":
    unittest.main()
