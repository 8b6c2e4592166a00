"""gasday-fleet study, one scenario after the other: what is refused before anything runs, and what the table tells."""

import hashlib
import unittest

from fleet_helpers import QUESTION, FleetTest, cells_of, rows_of

# In the base line 1 gets 80 and line 2 gets 20.
SCENARIOS = """scenario,element,capacity,line,floor,ceiling,season
less,S1,70,,,,winter
none,S1,0,,,,winter
more,S1,200,,,,summer
warm,,,1,,30,summer
both,S1,60,2,10,50,
"""


class Study(FleetTest):
    def setUp(self) -> None:
        super().setUp()
        self.put("base.csv", QUESTION)

    def study(self, scenarios: str, *words: str) -> tuple[str, str, int]:
        return self.serial("study", "base.csv", self.put("scenarios.csv", scenarios), *words)


class BadInput(Study):
    def refused(self, scenarios: str, *told: str) -> None:
        """Each fault is told with its line, and nothing is run."""
        out, error, status = self.study(scenarios, "--output", "table.csv")
        self.assertEqual((out, error, status), ("", "".join(f"gasday-fleet: scenarios.csv:{words}\n" for words in told), 2))
        self.assertEqual((self.log(), (self.folder / "table.csv").exists()), ([], False))

    def test_rows(self) -> None:
        self.refused(
            "scenario,element,capacity,line,floor,ceiling\n"
            "a,S9,1,,,\n"
            "b,S1,many,,,\n"
            "\n"
            "c,P1,1,,,\n"
            "d,,,3,0,1\n"
            "e,,,0,0,1\n"
            "f,,,x,0,1\n"
            "g,,,1,-1,1\n"
            "h,,,1,0,1.5\n"
            "i,,,1,,\n"
            "j,,,,,\n"
            ",S1,1,,,\n"
            "k,S1,1,,\n"
            "l,S1,,,,\n"
            "m,,7,,,\n"
            "l,S1,1,,,\n",
            "2: the question has no element 'S9'", "3: the capacity 'many' is no number",
            "5: 'P1' is a pool, which has no capacity", "6: the question has no line 3, but lines 1 to 2",
            "7: the question has no line 0, but lines 1 to 2", "8: the line 'x' is no number", "9: the floor '-1' is no number",
            "10: the ceiling '1.5' is no number", "11: line 1 has neither a floor nor a ceiling",
            "12: scenario 'j' names no element and no line", "13: it names no scenario",
            "14: it has 5 fields, where the first row has 6", "15: the capacity '' is no number",
            "16: the question has no element ''", "17: scenario 'l' stands in line 15 already")

    def test_the_same_change_twice(self) -> None:
        self.refused("scenario,element,capacity,element,capacity\na,S1,1,R1,2\nb,S1,1,S1,2\n",
                     "3: scenario 'b' changes an element or a line twice")

    def test_lines_of_the_file_are_told_where_fields_have_line_ends(self) -> None:
        self.refused('scenario,element,capacity,label\na,S1,1,"two\nlines"\nb,S9,1,x\n', "4: the question has no element 'S9'")

    def test_only_the_first_faults_are_told(self) -> None:
        error = self.study("scenario,element,capacity\n" + "".join(f"{at},S9,1\n" for at in range(23)))[1]
        self.assertEqual(error.count("no element"), 20)
        self.assertTrue(error.endswith("gasday-fleet: and 3 more\n"))

    def test_first_rows(self) -> None:
        first = "the first row has to name the columns 'scenario', and 'element,capacity' or 'line,floor,ceiling'"
        self.refused("", f"1: {first}")
        self.refused("scenario,season\n", f"1: {first}")
        self.refused("element,capacity\n", f"1: {first}")
        alone = "which stands in 'element,capacity' or in 'line,floor,ceiling' alone"
        self.refused("scenario,element\n", f"1: column 2 is 'element', {alone}")
        self.refused("scenario,line,ceiling\n", f"1: column 2 is 'line', {alone}")
        for name in ("verdict", "", "season"):
            self.refused(f"scenario,element,capacity,season,{name}\n",
                         f"1: column 5 is '{name}', which is no name for a label, or is taken")

    def test_no_scenario(self) -> None:
        self.assertEqual(self.study("scenario,element,capacity\n")[1:], ("gasday-fleet: scenarios.csv: it has no scenario\n", 2))

    def test_bases(self) -> None:
        for text, words in ((QUESTION + "sched,1,80,,,,,\n", "row 8 is no row of a question, but begins with 'sched'"),
                            ("line,R1,D1,1,20,80,,\n" + QUESTION, "lines stand before other rows"),
                            (QUESTION.replace("line,R1,D1,1,20,80,,", "line,R1,D1,1,90,80,,"), "fault,6,FloorAboveCeiling"),
                            (QUESTION + "line,R1\n", "row 8 has 2 fields, not eight")):
            self.put("base.csv", text)
            self.assertEqual(self.study(SCENARIOS)[1:], (f"gasday-fleet: base.csv: {words}\n", 2))

    def test_a_base_without_a_schedule(self) -> None:
        self.put("base.csv", QUESTION.replace("A,B,100", "A,B,5"))
        self.assertEqual(self.study(SCENARIOS)[1:], (
            "gasday-fleet: base.csv has no schedule that scenarios could be compared with: cut,15\n", 1))


class Tables(Study):
    def test_what_scenarios_lose(self) -> None:
        out, error, status = self.study(SCENARIOS)
        less, none, more, warm, both = rows_of(out)
        self.assertEqual(status, 1)
        self.assertEqual(error, "gasday-fleet: none: impossible: cut,20\ngasday-fleet: 5 scenarios: 4 best, 1 impossible\n")
        self.assertEqual([row["season"] for row in rows_of(out)], ["winter", "winter", "summer", "summer", ""])
        told = ("verdict", "total_1", "total_4", "total_5", "loss_1", "loss_4", "short", "losses", "full", "binds")
        self.assertEqual([less[name] for name in told], ["best", "70", "0", "", "10", "20", "2", "1:10 2:20", "S1", "S1"])
        self.assertEqual([more[name] for name in told], ["best", "80", "50", "", "0", "-30", "0", "2:-30", "", ""])
        self.assertEqual([warm[name] for name in told], ["best", "30", "50", "", "50", "-30", "0", "1:50 2:-30", "", ""])
        self.assertEqual([both[name] for name in told], ["best", "50", "10", "", "30", "10", "2", "1:30 2:10", "S1", "S1"])
        self.assertEqual([none[name] for name in ("verdict", "told", "excess", "total_1", "short", "binds", "inside")],
                         ["impossible", "cut,20", "20", "", "", "S1", "place:A point:R1"])

    def test_the_questions_of_scenarios(self) -> None:
        """They are rows of the base with some changed, printed by --question, and summed in the table."""
        out = self.study(SCENARIOS)[0]
        changed = QUESTION.replace("line,R1,D1,4,0,50,,", "line,R1,D1,4,10,50,,").replace(
            "question,DEMO,1,1,,,,\n", "question,DEMO,1,1,,,,\ncapacity,S1,60,,,,,\n")
        asked = self.study(SCENARIOS, "--question", "both")
        self.assertEqual(asked, (changed, "", 0))
        self.assertEqual(rows_of(out)[4]["sha256"], hashlib.sha256(changed.encode()).hexdigest())
        self.assertEqual(set(cells_of(out, "base_sha256")), {hashlib.sha256(QUESTION.encode()).hexdigest()})
        self.assertEqual(self.study(SCENARIOS, "--question", "other")[1:], (
            "gasday-fleet: scenarios.csv: there is no scenario 'other'\n", 2))

    def test_each_answer_is_checked(self) -> None:
        self.study("scenario,element,capacity\na,S1,70\nb,S1,0\n")
        self.assertEqual(self.log(), ["solve 100", "check best 100", "solve 70", "check best 70", "solve 0", "check cut 0"])

    def test_what_a_check_does_not_pass(self) -> None:
        out, error, status = self.study("scenario,element,capacity\na,S1,23\nb,S1,13\nc,S1,70\n")
        self.assertEqual((cells_of(out, "verdict"), status), (["best", "unsound", "best"], 1))
        self.assertIn("b: unsound: gasday solve answers cut,7, and gasday check cut tells broken,Shape\n", error)
        self.assertEqual(rows_of(out)[1]["total_1"], "")

    def test_faults_and_deaths(self) -> None:
        out, error, status = self.study("scenario,element,capacity,line,floor,ceiling\na,,,1,90,\nb,S1,6666,,,\nc,S1,70,,,\n")
        self.assertEqual((cells_of(out, "verdict"), status), (["failed", "failed", "best"], 2))
        self.assertIn("a: failed: fault,6,FloorAboveCeiling\n", error)
        self.assertIn("b: failed: gasday solve was ended by signal 9\n", error)

    def test_blanks_and_marks_of_spreadsheets(self) -> None:
        out = self.study("\ufeffscenario, element ,capacity\r\n a , S1, 070\r\n,,\r\n")[0]
        self.assertEqual([(row["scenario"], row["total_1"]) for row in rows_of(out)], [("a", "70")])

    def test_the_size_of_batches_changes_nothing(self) -> None:
        tables = {self.study(SCENARIOS, "--batch", size)[0] for size in ("1", "2", "5", "16")}
        self.assertEqual(len(tables), 1)

    def test_going_on(self) -> None:
        words = ("--output", "table.csv")
        self.study(SCENARIOS.replace("less,S1,70", "less,S1,67"), *words)
        before = len(self.log())
        self.assertEqual(self.study(SCENARIOS.replace("more,S1,200", "more,S1,201"), *words, "--resume")[2], 1)
        self.assertEqual([entry for entry in self.log()[before + 2:] if "solve" in entry], ["solve 70", "solve 201"])
        self.assertEqual(cells_of(self.read("table.csv"), "scenario"), ["less", "none", "more", "warm", "both"])

    def test_going_on_with_another_base(self) -> None:
        """The scenario's own question is the same, but it is compared with another base."""
        scenarios = "scenario,element,capacity\na,S1,70\n"
        self.study(scenarios, "--output", "table.csv")
        self.put("base.csv", QUESTION + "\n")
        before = len(self.log())
        self.study(scenarios, "--output", "table.csv", "--resume")
        self.assertEqual(self.log()[before:], ["solve 100", "check best 100", "solve 70", "check best 70"])


if __name__ == "__main__":
    unittest.main()
