"""The command with a fake `gasday`: verdicts, exit status, and what each format holds."""

import csv
import hashlib
import io
import json
import unittest
from typing import Any

from helpers import POOL_CUT, POOL_CUT_ANSWER, TWO_LINES, TWO_LINES_ANSWER, TWO_LINES_TOLD, ReportTest, example, split, winter_day

# As examples/README.md has it.
WINTER_TOLD = "best,,,,,,,\n" + "".join(
    f"total,{c},{total},,,,,\n" for c, total in enumerate((58000, 21000, 10000, 7751, 6751, 833, 0, 416), 1))


class Verdicts(ReportTest):
    def test_a_pass(self) -> None:
        out, _, status = self.report(TWO_LINES, TWO_LINES_ANSWER, TWO_LINES_TOLD)
        self.assertEqual(status, 0)
        self.assertIn("PASS  gasday check best", out)
        self.assertIn("PASS  certificate.py", out)
        for text in (TWO_LINES, TWO_LINES_ANSWER):
            self.assertIn(hashlib.sha256(text.encode()).hexdigest(), out)

    def test_what_the_program_is_asked(self) -> None:
        """The question as it stands with the answer's own rows behind it, and nothing else of the answer."""
        self.report(TWO_LINES, TWO_LINES_TOLD + TWO_LINES_ANSWER + "bumped,2,5,,,,,\n", TWO_LINES_TOLD)
        self.assertEqual((self.kept("words"), self.kept("text")), ("check best\n", TWO_LINES + TWO_LINES_ANSWER))

    def test_a_set_is_given_to_check_cut(self) -> None:
        self.report(POOL_CUT, "cut,60,,,,,,\n" + POOL_CUT_ANSWER, "cut,60,,,,,,\n")
        self.assertEqual((self.kept("words"), self.kept("text")), ("check cut\n", POOL_CUT + POOL_CUT_ANSWER))

    def test_a_fail_explains_nothing(self) -> None:
        answer = TWO_LINES_ANSWER.replace("price,S1,4,1,-4,,,\n", "")
        out, _, status = self.report(TWO_LINES, answer, "broken,Underfilled,2,,,,,\n", status=1)
        self.assertEqual(status, 1)
        self.assertIn("FAIL  gasday check best: broken, Underfilled: line 2 is below its ceiling", out)
        self.assertIn("FAIL  certificate.py: line 2 is below its ceiling", out)
        self.assertNotIn("Lines", out)

    def test_two_checks_that_differ_are_a_fail(self) -> None:
        answer = TWO_LINES_ANSWER.replace("price,S1,4,1,-4,,,\n", "")
        out, _, status = self.report(TWO_LINES, answer, TWO_LINES_TOLD)
        self.assertEqual(status, 1)
        self.assertIn("PASS  gasday check best", out)
        self.assertNotIn("Lines", out)

    def test_totals_that_the_check_does_not_tell(self) -> None:
        claimed = TWO_LINES_TOLD.replace("total,4,20", "total,4,21")
        out, _, status = self.report(TWO_LINES, claimed + TWO_LINES_ANSWER, TWO_LINES_TOLD)
        self.assertEqual(status, 1)
        self.assertIn("PASS  gasday check best", out)
        self.assertIn("FAIL  the answer's own claim: the answer says total,4,21 where the check tells total,4,20\n", out)

    def test_an_excess_that_the_check_does_not_tell(self) -> None:
        self.assertEqual(self.report(POOL_CUT, "cut,61,,,,,,\n" + POOL_CUT_ANSWER, "cut,60,,,,,,\n")[2], 1)

    def test_faults(self) -> None:
        for told, status in (("fault,5,BadField,4,,,,\n", 2), ("", 0), ("best,,,,,,,\n", 1), ("cut,1,,,,,,\n", 0)):
            _, error, ended = self.report(TWO_LINES, TWO_LINES_ANSWER, told, status=status)
            self.assertEqual((ended, error[:14]), (2, "gasday-report:"), told)

    def test_texts_that_can_not_be_read(self) -> None:
        for answer in ("sched,1,80\n", "fault,3,Order,,,,,\n", "sched,1,x,,,,,\n"):
            self.assertEqual(self.report(TWO_LINES, answer, TWO_LINES_TOLD)[2], 2)
        self.assertEqual(self.report(b"\xff\xfe", TWO_LINES_ANSWER, TWO_LINES_TOLD)[2], 2)

    def test_usage(self) -> None:
        path = self.path("question.csv", TWO_LINES)
        for words in ((), (path,), (path, path, "--table", "lines"), ("--events", path), (path, path, "--format", "pdf"),
                      (path, path, "--format", "csv", "--table", "calls"), (path, path, "--gasday", "/dev/null/none"),
                      (path, path + "x", "--gasday", self.program("")), (path, path, "--local", "Moon/Base")):
            self.assertEqual(self.run_command(*words)[2], 2, words)

    def test_a_question_that_holds_an_answer(self) -> None:
        text = example("two-lines-priced.csv")
        out, _, status = self.report(text, text, TWO_LINES_TOLD)
        self.assertEqual((status, self.kept("text")), (0, "".join(split(text))))
        self.assertIn("left out: 3", out)


class Texts(ReportTest):
    def winter(self, *words: str) -> str:
        return self.report(*winter_day(), WINTER_TOLD, *words)[0]

    def test_a_line_and_its_reason(self) -> None:
        out = self.report(TWO_LINES, TWO_LINES_ANSWER, TWO_LINES_TOLD)[0]
        self.assertIn("Line 1: R1 to D1, class 1: floor 0, confirmed 80, scheduled 80\n", out)
        self.assertIn("Line 2: R1 to D1, class 4: floor 0, confirmed 50, scheduled 20, short by 30\n"
                      "    why: other gas of class 4 or higher goes first; S1 is full, 100 of 100\n"
                      "Exact reasons: 0 of 1 line with less than confirmed; all are bounds.\n\n"
                      "Who shares what is full\n"
                      "S1 is full, 100 of 100: class 1 has 80 (line 1 80) and class 4 has 20 (line 2 20)\n", out)
        self.assertIn("segment S1: 100 of 100, room 0 (full)\n", out)
        self.assertIn("receipt point R1: 100 of 1,000, room 900\n", out)
        self.assertNotIn("tenth", out)

    def test_the_arithmetic(self) -> None:
        out = self.report(TWO_LINES, TWO_LINES_ANSWER, TWO_LINES_TOLD, "--arithmetic")[0]
        self.assertIn("    arithmetic: at S1 class 4 gas of tenth 4 would be displaced\n"
                      "    arithmetic: its next dekatherm, of class 4 and tenth 5, is worth less", out)
        self.assertIn("segment S1: 100 of 100, room 0 (full); price class 4: 1 and -4 in the spread\n", out)

    def test_a_reason_is_traced_through_a_pool(self) -> None:
        out = self.winter()
        self.assertIn("why: other gas of class 4 or higher goes first; by balance at pool MERGE-POOL: as much must leave as"
                      " enters (16,751), and more could leave it only past what is full: TRUNK-1 is full, 80,000 of 80,000"
                      " (usually 100,000)\n", out)
        self.assertIn("pool MERGE-POOL: 16,751 in and 16,751 out\n", out)

    def test_gas_of_a_higher_class_goes_first(self) -> None:
        """On TRUNK-1 gas of class 4, the last that passes, goes before line 11 of class 6."""
        out = self.winter()
        line = out.partition("Line 11: ")[2].partition("Line 12: ")[0]
        self.assertIn("why: gas of class 4 or higher goes before gas of class 6; TRUNK-1 is full, 80,000 of 80,000", line)

    def test_what_a_line_gets_back(self) -> None:
        self.assertIn("in return, at MERGE-POOL, class 4 gas of tenth 8 would be let in\n", self.winter("--arithmetic"))

    def test_notes(self) -> None:
        self.assertIn("'Class N or higher' is a bound from the prices: class N, a class with a smaller number, or no schedule"
                      " at all.\n", self.winter())
        for words in ("a shadow price and no money", "the tenths decide"):
            self.assertIn(words, self.winter("--arithmetic"))
            self.assertNotIn(words, self.winter())

    def test_bumped_lines(self) -> None:
        out = self.report(TWO_LINES, TWO_LINES_ANSWER + "bumped,2,7,,,,,\n", TWO_LINES_TOLD)[0]
        self.assertIn("scheduled 20, short by 30, bumped by 7\n", out)
        self.assertIn("neither check looks at it", out)

    def test_a_bumped_line_that_is_not_there(self) -> None:
        self.assertEqual(self.report(TWO_LINES, TWO_LINES_ANSWER + "bumped,3,7,,,,,\n", TWO_LINES_TOLD)[2], 2)

    def test_a_cut(self) -> None:
        out, _, status = self.report(POOL_CUT, POOL_CUT_ANSWER, "cut,60,,,,,,\n")
        self.assertEqual(status, 0)
        for words in ("The set: places A and B; points R1 and D1\n", "start inside and end outside: 100\n  Line 1: R1 to P1",
                      "start outside and end inside: 40\n  Line 2: P1 to D1", "that lead out: 0\n", "so 60 too many must leave",
                      "not a reduction of anybody's gas"):
            self.assertIn(words, out)

    def test_a_pool_that_nothing_leaves_any_more(self) -> None:
        """Line 2 takes all that it asked for out of the pool, so line 1 can't bring more: the pool's price is its worth."""
        question = POOL_CUT.replace("line,R1,P1,1,100,100", "line,R1,P1,1,0,100")
        answer = "sched,1,40,,,,,\nsched,2,40,,,,,\nprice,P1,1,1,-5,,,\n"
        out = self.report(question, answer, "best,,,,,,,\ntotal,1,80,,,,,\n")[0]
        self.assertIn("1 line out of P1 is at the confirmed quantity, so no more can leave it", out)

    def test_a_pool_into_which_no_more_is_brought(self) -> None:
        """Line 1 brings all its 30, so line 2 can't take more: taking out of the pool costs what its dekatherm is worth."""
        question = POOL_CUT.replace("line,R1,P1,1,100,100", "line,R1,P1,1,0,30").replace("line,P1,D1,1,40", "line,P1,D1,1,0")
        answer = "sched,1,30,,,,,\nsched,2,30,,,,,\nprice,P1,1,-1,8,,,\n"
        out = self.report(question, answer, "best,,,,,,,\ntotal,1,60,,,,,\n")[0]
        self.assertIn("by balance at pool P1: as much must enter as leaves (30), and 1 line into P1 is at the confirmed quantity,"
                      " so no more can be brought into it\n", out)


class Tables(ReportTest):
    def table(self, question: str, answer: str, told: str, *words: str) -> list[dict[str, str]]:
        out, error, status = self.report(question, answer, told, "--format", "csv", *words)
        self.assertEqual((status, error[:4]), (0, "PASS"))
        return list(csv.DictReader(io.StringIO(out)))

    def test_lines(self) -> None:
        rows = self.table(TWO_LINES, TWO_LINES_ANSWER, TWO_LINES_TOLD)
        self.assertEqual([row["scheduled"] for row in rows], ["80", "20"])
        want = {"line": "2", "origin": "R1", "destination": "D1", "class": "4", "floor": "0", "ceiling": "50", "short": "30",
                "bumped": "", "reason_elements": "S1", "cut_way": "", "cut_quantity": ""}
        self.assertEqual({name: rows[1][name] for name in want}, want)

    def test_elements(self) -> None:
        rows = self.table(TWO_LINES, TWO_LINES_ANSWER, TWO_LINES_TOLD, "--table", "elements")
        self.assertEqual([row["element"] for row in rows], ["S1", "R1", "D1"])
        want = {"kind": "segment", "from": "A", "to": "B", "operator": "", "capacity": "100", "load": "100", "room": "0",
                "full": "1", "price_3": "0", "price_4": "1", "spread_4": "-4", "inside": "", "cut_capacity": ""}
        self.assertEqual({name: rows[0][name] for name in want}, want)
        self.assertEqual((rows[1]["operator"], rows[1]["price_4"], rows[1]["full"]), ("OPR", "", "0"))

    def test_a_cut(self) -> None:
        rows = self.table(POOL_CUT, POOL_CUT_ANSWER, "cut,60,,,,,,\n")
        self.assertEqual([(row["cut_way"], row["cut_quantity"]) for row in rows], [("out", "100"), ("in", "40")])
        rows = self.table(POOL_CUT, POOL_CUT_ANSWER, "cut,60,,,,,,\n", "--table", "elements")
        self.assertEqual([(row["element"], row["inside"]) for row in rows], [("S1", ""), ("R1", "1"), ("D1", "1"), ("P1", "0")])

    def test_nothing_after_a_fail(self) -> None:
        out, error, status = self.report(TWO_LINES, TWO_LINES_ANSWER, "broken,Shape,,,,,,\n", "--format", "csv", status=1)
        self.assertEqual((out, error[:4], status), ("", "FAIL", 1))


class Json(ReportTest):
    def whole(self, question: str, answer: str, told: str, status: int = 0) -> Any:
        return json.loads(self.report(question, answer, told, "--format", "json", status=status)[0])

    def test_a_schedule(self) -> None:
        whole = self.whole(TWO_LINES, TWO_LINES_ANSWER, TWO_LINES_TOLD)
        self.assertEqual((whole["report"], whole["version"]), ("gasday-report", 2))
        self.assertEqual((whole["passed"], whole["kind"]), (True, "best"))
        self.assertEqual(whole["question"], {"book": "DEMO", "cycle": 1, "round": 1})
        self.assertEqual(whole["totals"], [{"class": 1, "ceiling": 80, "scheduled": 80},
                                           {"class": 4, "ceiling": 50, "scheduled": 20}])
        self.assertEqual((whole["lines"][0]["causes"], whole["lines"][0]["arithmetic"]), ([], None))
        cause = {"kind": "capacity", "before": 50, "after": 20, "element": "S1", "capacity": 100, "load": 100, "first_class": 4}
        self.assertEqual((whole["lines"][1]["short"], whole["lines"][1]["causes"]), (30, [cause]))
        self.assertEqual(whole["lines"][1]["arithmetic"]["tenth"], 5)
        price = {"classes": [0, 0, 0, 1, 0, 0, 0, 0], "spread": [0, 0, 0, -4, 0, 0, 0, 0]}
        self.assertEqual(whole["elements"][0]["price"], price)
        self.assertEqual(whole["inputs"][0]["sha256"], hashlib.sha256(TWO_LINES.encode()).hexdigest())

    def test_a_cut(self) -> None:
        cut = self.whole(POOL_CUT, POOL_CUT_ANSWER, "cut,60,,,,,,\n")["cut"]
        self.assertEqual((cut["excess"], cut["must_leave"], cut["can_return"], cut["can_flow"]), (60, 100, 40, 0))
        self.assertEqual(cut["members"][0], {"kind": "place", "name": "A"})

    def test_a_fail(self) -> None:
        whole = self.whole(TWO_LINES, TWO_LINES_ANSWER, "broken,Overfilled,2,,,,,\n", status=1)
        self.assertEqual((whole["passed"], "lines" in whole), (False, False))


if __name__ == "__main__":
    unittest.main()
