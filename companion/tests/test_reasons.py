"""Which class a reason names, exactly or as a bound: small questions whose reasons are worked out by hand. Most need the built
program, or the one that GASDAY names in the environment."""

import csv
import io
import json
import os
import subprocess
import unittest
from collections.abc import Iterable
from pathlib import Path
from typing import Any
from unittest import mock

from day_helpers import FIVE_CYCLES, DayTest
from helpers import TWO_LINES, TWO_LINES_ANSWER, TWO_LINES_TOLD, VERSION, ReportTest, example, winter_day
from test_page import Tables

from gasday_report import solving
from gasday_report.cause_words import share_words
from gasday_report.deciding import OwnShare
from gasday_report.program import BUILT

PROGRAM = Path(os.environ.get("GASDAY", BUILT))
IS_BUILT = os.access(PROGRAM, os.X_OK)
HEAD = """point,R1,receipt,A,OPR,1000,,
point,D1,delivery,B,OPD,1000,,
point,D2,delivery,B,OPD,1000,,
"""
# S1 limits what leaves P1. What a dekatherm on line 2 or 3 pays at S1 in class 3, P1 gives back.
POOL = f"""segment,S1,A,B,100,,,
{HEAD}pool,P1,A,OPP,,,,
question,DEMO,1,1,,,,
line,R1,P1,3,0,200,,
line,P1,D1,4,0,100,,
line,P1,D2,4,0,100,,
"""
POOL_ANSWER = """sched,1,100,,,,,
sched,2,50,,,,,
sched,3,50,,,,,
price,S1,3,1,-6,,,
price,S1,4,1,-6,,,
price,P1,3,1,-6,,,
"""
# Line 1 passes S1 and S2, of which lines 2 and 3 fill one each.
LONG_LINE = """segment,S1,A,B,10,,,
segment,S2,B,C,10,,,
point,R1,receipt,A,OPR,1000,,
point,D1,delivery,B,OPD,1000,,
point,R2,receipt,B,OPR,1000,,
point,D2,delivery,C,OPD,1000,,
question,DEMO,1,1,,,,
line,R1,D2,4,0,10,,
line,R1,D1,4,0,10,,
line,R2,D2,4,0,10,,
"""


def whys(out: str) -> list[str]:
    """The reasons of a text, in order."""
    return [row.partition("why: ")[2] for row in out.splitlines() if "    why: " in row]


class Bounds(ReportTest):
    """By prices alone."""

    def alone(self, question: str, answer: str, *words: str) -> str:
        out, error, status = self.run_command(self.path("question.csv", question), self.path("answer.csv", answer),
                                              "--certificate-alone", *words)
        self.assertEqual((error, status), ("", 0))
        return out

    def test_what_a_line_gets_back_counts(self) -> None:
        """No gas of class 3 crosses S1 but that of lines 2 and 3 themselves: they share it within class 4."""
        line_2, line_3 = whys(self.alone(POOL, POOL_ANSWER))[1:]
        self.assertEqual(line_2, "other gas of class 4 or higher goes first: this line has 50 % of class 4 at S1, and 1 other"
                         " line has 50 %; S1 is full, 100 of 100")
        self.assertEqual(line_3, line_2)

    def test_a_bound_is_called_one(self) -> None:
        decided = json.loads(self.alone(POOL, POOL_ANSWER, "--format", "json"))["lines"][1]["decided"]
        self.assertEqual(decided, {"by": "shared", "class": 4, "exact": False, "through_pools": False, "takes_more": False,
                                   "share": {"element": "S1", "own": 50, "others": 50, "other_lines": 1, "percent": 50.0},
                                   "limits": None})

    def test_who_shares_is_listed_once(self) -> None:
        for words in (("--format", "text"), ("--format", "html")):
            out = self.alone(POOL, POOL_ANSWER, *words)
            self.assertEqual(out.count("class 4 has 100") + out.count("class 4 100 in 2 lines"), 1, words)

    def test_shares_in_percent(self) -> None:
        """A small share is no share of 0 %, and a large one not all."""
        for own, others, want in ((1, 2, ("33 %", "67 %")), (0, 9, ("0 %", "100 %")), (1, 999, ("under 1 %", "over 99 %")),
                                  (999, 1, ("over 99 %", "under 1 %"))):
            self.assertEqual(share_words(OwnShare("S1", own, others, 2), 4),
                             f": this line has {want[0]} of class 4 at S1, and 2 other lines have {want[1]}")

    def test_a_program_that_can_not_solve(self) -> None:
        """Whatever it prints, a report is made, with bounds."""
        more = TWO_LINES_TOLD.replace("total,4,20", "total,4,21") + "sched,1,80,,,,,\nsched,2,21,,,,,\n"
        same = TWO_LINES_TOLD + "sched,1,80,,,,,\nsched,2,20,,,,,\n"
        for told in ("", "x", "best", "cut,1,,,,,,\n", "cut,1,,,,,,\ninside,place,A,,,,,\n", "cut,1,,,,,,\ninside,place,X,,,,,\n",
                     "fault,1,Order,,,,,\n", more, same, "best,,,,,,,\ntotal,4,x,,,,,\nsched,2,21,,,,,\n",
                     "best,,,,,,,\ntotal\nsched,2,21,,,,,\n", "\xff"):
            self.path("solved", told.encode("latin-1"))
            program = self.path("gasday", f'#!/bin/sh\n{VERSION}cat > /dev/null\nif [ "$1" = solve ]; then cat'
                                f' {self.folder.name}/solved; else echo best,,,,,,,; fi\n')
            os.chmod(program, 0o755)
            files = self.path("question.csv", TWO_LINES), self.path("answer.csv", TWO_LINES_ANSWER)
            out, error, status = self.run_command(*files, "--gasday", program)
            self.assertEqual((error, status, whys(out)), (
                "", 0, ["other gas of class 4 or higher goes first; S1 is full, 100 of 100"]), told)


@unittest.skipUnless(IS_BUILT, "no program is built")
class Exact(ReportTest):
    def solved(self, question: str, *words: str) -> str:
        """The report of what the program answers."""
        program = str(PROGRAM.resolve())
        answer = subprocess.run([program, "solve"], input=question.encode(), capture_output=True).stdout
        out, error, status = self.run_command(self.path("question.csv", question), self.path("answer.csv", answer), "--gasday",
                                              program, *words)
        self.assertEqual((error, status), ("", 0))
        return out

    def test_the_first_class_whose_total_falls(self) -> None:
        """Line 2 has all that class 1 leaves, so one more of it displaces class 1. The price of S1 is of class 4 alone."""
        out = self.solved(example("solve/question.csv"))
        self.assertEqual(whys(out), ["gas of class 1 goes before gas of class 4; S1 is full, 102 of 102",
                                     "gas of class 4 goes before gas of class 5; S1 is full, 102 of 102"])
        self.assertIn("Exact reasons: 2 of 2 lines with less than confirmed.\n", out)

    def test_shared(self) -> None:
        out = self.solved(POOL)
        self.assertEqual(whys(out)[1], "shared within class 4: this line has 50 % of class 4 at S1, and 1 other line has 50 %; S1"
                         " is full, 100 of 100")

    def test_no_schedule_gives_more(self) -> None:
        """Of line 1 no more can leave the pool: S1 is full of nothing else."""
        self.assertEqual(whys(self.solved(POOL))[0], "no schedule gives this line more; by balance at pool P1: as much must leave"
                         " as enters (100), and more could leave it only past what is full: S1 is full, 100 of 100")

    def test_floors_of_other_lines(self) -> None:
        """Lines of lower classes keep 80 of S1 by their floors, and line 2 has the 20 that are left."""
        question = TWO_LINES.replace("1,0,80", "5,70,80") + "line,R1,D1,6,10,10,,\n"
        self.assertIn("no schedule gives this line more: the floors of 2 other lines take 80; S1 is full, 100 of 100",
                      whys(self.solved(question)))

    def test_one_floor(self) -> None:
        question = TWO_LINES.replace("line,R1,D1,1,0,80", "line,R1,D1,5,80,80")
        self.assertEqual(whys(self.solved(question)), [
            "no schedule gives this line more: the floor of another line takes 80; S1 is full, 100 of 100"])

    def test_a_closed_segment(self) -> None:
        self.assertEqual(whys(self.solved(TWO_LINES.replace("A,B,100", "A,B,0"))),
                         ["no schedule gives this line more; S1 is closed, with a capacity of 0"] * 2)

    def test_all_that_a_pool_gets(self) -> None:
        """Line 1 brings its 30 into P1, so no schedule gives line 2 more."""
        question = POOL.replace("3,0,200", "3,0,30").replace("line,P1,D2,4,0,100,,\n", "")
        self.assertEqual(whys(self.solved(question)), [
            "no schedule gives this line more: 1 line that would make room is at the confirmed 30; by balance at pool P1: as much"
            " must enter as leaves (30), and 1 line into P1 is at the confirmed quantity, so no more can be brought into it"])

    def test_a_line_that_takes_more_than_it_gives(self) -> None:
        """One dekatherm on line 1 is two less of class 4."""
        self.assertEqual(whys(self.solved(LONG_LINE)), [
            "shared within class 4, which would lose more than this line gains: this line has 0 % of class 4 at S2, and 1 other"
            " line has 100 %; S2 is full, 10 of 10"])

    def test_through_pools(self) -> None:
        """Class 4 enters MERGE-POOL for each dekatherm that line 8 takes over TRUNK-1, which no gas of class 4 passes."""
        self.assertIn("gas of class 4 goes before gas of class 6, through pool balance; TRUNK-1 is full, 80,000 of 80,000"
                      " (usually 100,000)", whys(self.solved(winter_day()[0])))

    def test_the_shortest_lines_are_solved_again(self) -> None:
        """Line 3 lacks 40 and line 2 lacks 28; the others have bounds."""
        with mock.patch.object(solving, "MOST_SOLVED", 1):
            out = self.solved(example("solve/question.csv"))
        self.assertIn("Exact reasons: 1 of 2 lines with less than confirmed; the others are bounds.\n", out)
        self.assertEqual(whys(out), ["other gas of class 4 or higher goes first; S1 is full, 102 of 102",
                                     "gas of class 4 goes before gas of class 5; S1 is full, 102 of 102"])

    def test_when_the_time_is_over(self) -> None:
        with mock.patch.object(solving, "SECONDS", -1):
            self.assertIn("Exact reasons: 0 of 2 lines", self.solved(example("solve/question.csv")))

    def test_json_and_csv(self) -> None:
        whole = json.loads(self.solved(POOL, "--format", "json"))
        self.assertEqual((whole["short_lines"], whole["exact_reasons"]), (3, 3))
        decided = [line["decided"] for line in whole["lines"]]
        self.assertEqual([(one["by"], one["class"], one["exact"]) for one in decided],
                         [("no_schedule", None, True), ("shared", 4, True), ("shared", 4, True)])
        self.assertEqual(decided[0]["limits"], {"elements": ["S1"], "capacity": 100, "returning_lines": 0, "returning": 0,
                                                "floor_lines": 0, "floors": 0})
        self.assertEqual([(cause["kind"], cause.get("first_class")) for line in whole["lines"] for cause in line["causes"]],
                         [("pool", None), ("capacity", 4), ("capacity", 4)])
        rows = list(csv.DictReader(io.StringIO(self.run_command(
            self.path("question.csv", POOL), self.path("answer.csv", POOL_ANSWER), "--gasday", str(PROGRAM.resolve()), "--format",
            "csv")[0])))
        names = ("decided_by", "decided_class", "decided_exactly", "share_percent", "reason_kinds", "reason_elements")
        self.assertEqual([tuple(row[name] for name in names) for row in rows], [
            ("no_schedule", "", "1", "", "pool", "P1"), *[("shared", "4", "1", "50.00", "capacity", "S1")] * 2])


@unittest.skipUnless(IS_BUILT, "no program is built")
class GasDay(DayTest):
    def made(self, *words: str) -> str:
        program = str(PROGRAM.resolve())
        told = subprocess.run([program, "day"], input=FIVE_CYCLES.encode(), capture_output=True).stdout
        out, error, status = self.run_command("--events", self.path("events.csv", FIVE_CYCLES), "--replies",
                                              self.path("told.csv", told), "--gasday", program, *words)
        self.assertEqual((error, status), ("", 0))
        return out

    def lines(self, day: Any) -> Iterable[Any]:
        return [line for cycle in day["cycles"] for made in cycle["rounds"] for line in made["lines"]]

    def test_each_line_below_its_nomination_has_a_reason(self) -> None:
        """Whether by an answer, by silence, or since it was not scheduled."""
        short = [line for line in self.lines(json.loads(self.made("--format", "json"))["day"])
                 if line["nominated"] > (line["confirmed"] if line["scheduled"] is None else line["scheduled"])]
        self.assertEqual((len(short), [line for line in short if not line["causes"]]), (14, []))

    def test_a_declared_round_has_the_reasons_too(self) -> None:
        table = Tables(self.made("--format", "html")).rows["lines-3-3"]
        self.assertEqual(table[0][-1], "why less than nominated")
        silent = ("reduced from {} by silence: PLANT-OPS at the origin and {} at the destination were silent, so what was"
                  " scheduled before applies, {}")
        self.assertEqual([row[-1] for row in table[1:]], ["", silent.format("15,000 to 10,000", "MILL-OPS", "10,000"),
                                                          silent.format("5,000 to 0", "TOWN-OPS", "0")])

    def test_the_summary_says_what_it_counts(self) -> None:
        table = Tables(self.made("--format", "html")).rows["cycles"]
        counts = {name: [row[table[0].index(name)] for row in table[1:]] for name in table[0]}
        self.assertEqual((counts["lines with less than nominated"], counts["lines bumped"]),
                         (["1", "2", "3", "", "3"], ["0", "1", "2", "", "0"]))

    def test_counts_of_a_round(self) -> None:
        out = self.made("--format", "html")
        self.assertIn("<div><b>1</b>lines bumped</div>", out)
        self.assertIn("<div><b>1</b>lines with less than confirmed</div>", out)


class NoPosting(DayTest):
    def test_a_line_without_prices_has_an_unknown_reason(self) -> None:
        """It has 50 of its 70, and there are no prices that say why."""
        self.assertEqual(whys(self.day(program=self.gasday(bodies=()))[0]),
                         ["the reason is unknown: neither the day's text nor the replies show it"])


if __name__ == "__main__":
    unittest.main()
