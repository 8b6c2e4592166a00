"""The independent check, on what docs/CERTIFICATES.md and the examples work out, and on answers that were tampered with."""

import itertools
import subprocess
import sys
import unittest

from helpers import POOL_CUT, POOL_CUT_ANSWER, TOP, TWO_LINES, TWO_LINES_ANSWER, example, split, winter_day

import certificate
from certificate import Answer, Question, Unreadable, Wrong, crossing_of, sums_of, tenth_of, verdict_of


def told(question_text: str, answer_text: str, is_cut: bool | None = None) -> str | tuple[str, int | str | None]:
    """`holds`, or the name and the line or element of the first fault."""
    question = Question(question_text)
    answer = Answer(answer_text, question)
    answer.is_cut = answer.is_cut if is_cut is None else is_cut
    try:
        verdict_of(question, answer)
    except Wrong as wrong:
        return wrong.name, wrong.item
    return "holds"


def changed(text: str, old: str, new: str) -> str:
    assert old in text, old
    return text.replace(old, new)


class Worked(unittest.TestCase):
    def test_the_small_question_holds(self) -> None:
        self.assertEqual(told(TWO_LINES, TWO_LINES_ANSWER), "holds")

    def test_no_price_leaves_line_2_underfilled(self) -> None:
        self.assertEqual(told(TWO_LINES, "sched,1,80,,,,,\nsched,2,20,,,,,\n"), ("Underfilled", 2))

    def test_no_price_shows_70_and_30_best(self) -> None:
        """Rule 2 asks that S1 cost a dekatherm of class 1, and rule 3 that it cost no more than one of class 4."""
        for level, word in itertools.product(range(1, 9), range(-2, 3)):
            answer = f"sched,1,70,,,,,\nsched,2,30,,,,,\nprice,S1,{level},{word},,,,\n"
            self.assertNotEqual(told(TWO_LINES, answer), "holds")

    def test_tenths_of_line_2(self) -> None:
        """Its dekatherms 1 to 5 lie in tenth 1, 16 to 20 in tenth 4, and the 21st in tenth 5."""
        self.assertEqual([tenth_of(50, d) for d in (1, 5, 6, 16, 20, 21, 50)], [1, 1, 2, 4, 4, 5, 10])

    def test_tenths_of_a_ceiling_that_ten_does_not_divide(self) -> None:
        """The parts of 7 end at 0.7, 1.4, 2.1, .. 7: dekatherm 1 ends in the second, 2 in the third, 3 in the fifth."""
        self.assertEqual([tenth_of(7, d) for d in range(1, 8)], [2, 3, 5, 6, 8, 9, 10])
        self.assertEqual(tenth_of(1, 1), 10)

    def test_the_cut(self) -> None:
        question = Question(POOL_CUT)
        answer = Answer(POOL_CUT_ANSWER, question)
        self.assertEqual(crossing_of(question, answer.members), ([(1, 100)], [(2, 40)], []))
        self.assertEqual(sums_of(crossing_of(question, answer.members)), (100, 40, 0, 60))
        self.assertEqual(told(POOL_CUT, POOL_CUT_ANSWER), "holds")

    def test_the_cut_of_the_solved_example(self) -> None:
        """Floors of 50 and 30 must leave A and R1, and S1 takes 60: 20 are too many."""
        question = Question(example("solve/no-schedule.csv"))
        answer = Answer("inside,place,A,,,,,\ninside,point,R1,,,,,\n", question)
        self.assertEqual(crossing_of(question, answer.members), ([(1, 50), (2, 30)], [], [("S1", 60)]))
        self.assertEqual(sums_of(crossing_of(question, answer.members)), (80, 0, 60, 20))

    def test_the_solved_example(self) -> None:
        answer = "best,,,,,,,\ntotal,1,80,,,,,\nsched,1,80,,,,,\nsched,2,22,,,,,\nsched,3,0,,,,,\nprice,S1,4,1,-5,,,\n"
        self.assertEqual(told(example("solve/question.csv"), answer), "holds")

    def test_the_winter_day(self) -> None:
        self.assertEqual(told(*winter_day()), "holds")

    def test_loads_of_the_winter_day(self) -> None:
        """As examples/README.md has them."""
        question_text, answer_text = winter_day()
        question = Question(question_text)
        loads = question.loads(Answer(answer_text, question).quantities)
        want = {"NORTH-LEG": 51833, "WEST-LEG": 28167, "TRUNK-1": 80000, "TRUNK-2": 78584, "MILL-LATERAL": 9416,
                "RIVER-LEG": 18000, "HARBOR-LEG": 10584, "CITY-UTILITY": 50000, "MERGE-POOL": 0}
        self.assertEqual({name: loads[name] for name in want}, want)


class Tampered(unittest.TestCase):
    def test_quantities_of_the_small_question(self) -> None:
        for old, new, fault in (
            ("sched,1,80", "sched,1,81", ("AboveCeiling", 1)),
            ("sched,1,80", "sched,1,79", ("PriceOnSlack", "S1")),
            ("sched,2,20", "sched,2,21", ("OverCapacity", "S1")),
            ("sched,2,20", "sched,2,19", ("PriceOnSlack", "S1")),
        ):
            self.assertEqual(told(TWO_LINES, changed(TWO_LINES_ANSWER, old, new)), fault)

    def test_prices_of_the_small_question(self) -> None:
        for price, fault in (
            ("price,S1,4,0,-4,,,", ("PriceOnSlack", "S1")),
            ("price,S1,4,2,-4,,,", ("Overfilled", 2)),
            ("price,S1,3,1,-4,,,", ("Overfilled", 2)),
            ("price,S1,5,1,-4,,,", ("Underfilled", 2)),
            ("price,S1,1,1,,,,", ("Overfilled", 1)),
            ("price,S1,4,1,-3,,,", ("Overfilled", 2)),
            ("price,S1,4,1,-6,,,", ("Underfilled", 2)),
            ("price,S1,4,1,,,,", ("Overfilled", 2)),
            ("price,R1,4,1,-4,,,", ("PriceOnSlack", "R1")),
            ("price,S1,4,1,-4,,,\nprice,D1,1,0,-1,,,", ("PriceOnSlack", "D1")),
        ):
            answer = changed(TWO_LINES_ANSWER, "price,S1,4,1,-4,,,", price)
            self.assertEqual(told(TWO_LINES, answer), fault, price)

    def test_another_right_price_holds(self) -> None:
        """At -5 the 20th dekatherm is worth more than it pays, and the 21st just that: prices are not unique."""
        self.assertEqual(told(TWO_LINES, changed(TWO_LINES_ANSWER, "-4", "-5")), "holds")

    def test_each_quantity_of_the_winter_day(self) -> None:
        """No other quantity of a single line keeps all rules: TRUNK-1 is full and priced, and the pool is balanced."""
        question, answer = winter_day()
        rows = answer.splitlines()
        for at, row in enumerate(rows):
            kind, number, quantity = row.split(",")[:3]
            for step in (-1, 1) if kind == "sched" else ():
                spoiled = rows[:at] + [f"sched,{number},{int(quantity) + step},,,,,"] + rows[at + 1:]
                self.assertNotEqual(told(question, "\n".join(spoiled) + "\n"), "holds", row)

    def test_each_price_of_the_winter_day(self) -> None:
        """TRUNK-1 and the pool share line 6 and line 8 at single dekatherms within a tenth, so each word is the only one."""
        question, answer = winter_day()
        for old in ("TRUNK-1,4,1,-8", "TRUNK-1,5,1,-8", "MERGE-POOL,4,1,-8"):
            name, level, word, spread = old.split(",")
            for w, s in ((int(word) + 1, spread), (int(word) - 1, spread), (word, int(spread) + 1), (word, int(spread) - 1)):
                spoiled = changed(answer, f"price,{old},,,", f"price,{name},{level},{w},{s},,,")
                self.assertNotEqual(told(question, spoiled), "holds", (old, w, s))

    def test_each_member_of_the_cut(self) -> None:
        """Without A, R1's 1000 can flow out of the set, and without B S1's. Without R1 nothing must leave, and without D1 its
        capacity of 1000 leads out. With P1 line 1 doesn't leave."""
        rows = POOL_CUT_ANSWER.splitlines()
        for row in rows:
            left = "".join(other + "\n" for other in rows if other != row)
            self.assertEqual(told(POOL_CUT, left), ("NotCut", None), row)
        self.assertEqual(told(POOL_CUT, POOL_CUT_ANSWER + "inside,pool,P1,,,,,\n"), ("NotCut", None))

    def test_a_set_without_members_is_no_cut(self) -> None:
        self.assertEqual(told(POOL_CUT, "cut,60,,,,,,\n", is_cut=True), ("NotCut", None))

    def test_missing_and_additional_quantities(self) -> None:
        self.assertEqual(told(TWO_LINES, "sched,1,80,,,,,\n"), ("Shape", None))
        self.assertEqual(told(TWO_LINES, TWO_LINES_ANSWER.replace("price", "sched,3,0,,,,,\nprice")), ("Shape", None))


class Unreadables(unittest.TestCase):
    def test_questions(self) -> None:
        for old, new in (
            ("line,R1,D1,1,0,80,,", "line,D1,R1,1,0,80,,"),
            ("line,R1,D1,1,0,80,,", "line,R1,R2,1,0,80,,"),
            ("line,R1,D1,1,0,80,,", "line,R1,D1,9,0,80,,"),
            ("line,R1,D1,1,0,80,,", "line,R1,D1,1,81,80,,"),
            ("line,R1,D1,1,0,80,,", "line,R1,D1,1,0,80,9,"),
            ("line,R1,D1,1,0,80,,", "line,R1,D1,1,0,-80,,"),
            ("line,R1,D1,1,0,80,,", "line,R1,D1,1,0,80"),
            ("question,DEMO,1,1,,,,\n", ""),
            ("segment,S1,A,B,100", "segment,S1,B,A,100"),
            ("segment,S1,A,B,100", "segment,S1,A,A,100"),
            ("point,D1", "point,R1"),
            ("segment,S1,A,B,100,,,\n", "segment,S1,A,B,100,,,\nsegment,S2,B,A,100,,,\n"),
            ("segment,S1,A,B,100,,,\n", "segment,S1,A,B,100,,,\nsegment,S2,C,D,100,,,\n"),
        ):
            with self.assertRaises(Unreadable, msg=new):
                Question(changed(TWO_LINES, old, new))

    def test_answers(self) -> None:
        question = Question(POOL_CUT)
        for text in ("sched,2,80,,,,,\n", "price,S2,1,1,,,,\n", "price,S1,9,1,,,,\n", "price,S1,1,1,,,,\n" * 2,
                     "price,S1,1,x,,,,\n", "inside,place,R1,,,,,\n", "inside,point,P1,,,,,\n", "inside,point,S1,,,,,\n",
                     "inside,segment,S1,,,,,\n", "inside,pool,P2,,,,,\n", "sched,1,1,,,,,\ninside,place,A,,,,,\n"):
            with self.assertRaises(Unreadable, msg=text):
                Answer(text, question)


class Commands(unittest.TestCase):
    def run_on(self, question: str, answer: str) -> tuple[str, int]:
        words = [sys.executable, str(TOP / "companion" / "certificate.py"), question, answer]
        done = subprocess.run(words, capture_output=True, text=True)
        return done.stdout.split(":")[0], done.returncode

    def test_the_command(self) -> None:
        question, answer = (str(TOP / "examples" / "solve" / name) for name in ("question.csv", "README.md"))
        self.assertEqual(self.run_on(question, answer)[1], 2)
        self.assertEqual(self.run_on(question, question), ("wrong", 1))
        self.assertEqual(self.run_on(question, "/dev/null/none"), ("unreadable", 2))


class Split(unittest.TestCase):
    def test_examples_with_their_own_answers(self) -> None:
        for name in ("two-lines-priced.csv", "pool-cut.csv"):
            self.assertEqual(told(*split(example(name))), "holds")
        self.assertEqual(told(*split(example("over-capacity.csv"))), ("OverCapacity", "S1"))

    def test_zero_is_16_words(self) -> None:
        self.assertEqual(certificate.NOTHING, (0,) * 16)


if __name__ == "__main__":
    unittest.main()
