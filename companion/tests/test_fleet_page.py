"""A study as JSON and as a page: percentiles, counts, histograms and the picture; and that nothing is asked from outside."""

import json
import re
import unittest
from collections import Counter
from typing import Any, ClassVar

from fleet_helpers import QUESTION, FleetTest
from test_page import REQUESTS, Page, Tables

from gasday_fleet.histograms import MOST_BARS, bars_of, in_short, nice
from gasday_fleet.picture import share_of
from gasday_fleet.progress import Progress, spoken
from gasday_fleet.summary import ClassFact

SCENARIOS = "scenario,element,capacity,label\n" + "".join(f"s{at},S1,{at},winter\n" for at in range(15, 125))


Made = tuple[str, Any, int]


class Study(FleetTest):
    kept: ClassVar[dict[str, Made]] = {}  # what was made once already

    def made(self, scenarios: str = SCENARIOS, question: str = QUESTION) -> Made:
        """The page and the JSON of a study, and the exit status."""
        if scenarios not in self.kept:
            names = self.put("base.csv", question), self.put("scenarios.csv", scenarios)
            status = self.serial("study", *names, "--json", "study.json", "--html", "study.html")[2]
            self.kept[scenarios] = self.read("study.html").decode(), json.loads(self.read("study.json")), status
        return self.kept[scenarios]

    def test_json(self) -> None:
        """Of capacities 15 to 124 those below 20 are impossible; 100 loses nothing, and from 100 on line 2 gains."""
        _, told, status = self.made()
        self.assertEqual(status, 1)
        self.assertEqual((told["study"], told["version"], told["verdicts"]), ("gasday-fleet", 1, {"best": 105, "impossible": 5}))
        self.assertEqual(told["question"], {"book": "DEMO", "cycle": 1})
        first, fourth = told["classes"]
        # Line 1 loses 60 down to 1 in 60 scenarios, and nothing in 45; in the base it has all that it asks for.
        losses = {"50": 8, "75": 34, "90": 50, "95": 55, "99": 59, "100": 60}
        self.assertEqual(first, {"class": 1, "total": 80, "losses": losses, "cuts": losses, "impossible": 5})
        self.assertEqual((fourth["losses"]["50"], fourth["losses"]["100"]), (20, 20))
        # Line 2 asks for 50 and has 20 in the base.
        self.assertEqual((fourth["cuts"]["50"], fourth["cuts"]["100"], fourth["impossible"]), (50, 50, 5))
        one, two = told["lines"]
        self.assertEqual([one[name] for name in ("short", "loses", "lost", "greatest")], [60, 60, 1830, 60])
        self.assertEqual([two[name] for name in ("short", "loses", "greatest")], [105, 80, 20])
        element = told["elements"][0]
        self.assertEqual([element[name] for name in ("element", "load", "full", "binds")], ["S1", 100, 105, 110])
        scenario = told["scenarios"][5]
        self.assertEqual((scenario["scenario"], scenario["labels"]), ("s20", {"label": "winter"}))
        self.assertEqual(scenario["losses"], {"1": 60, "2": 20})

    def test_the_page_says_what_is_not_proved(self) -> None:
        page, _, _ = self.made()
        words = "".join(Page(page).words)
        self.assertIn("This page is not proved; each answer that it counts passed the check of gasday", words)
        self.assertIn("passed the answer of 105 scenarios and the base's", words)
        self.assertIn("passed the answer of 5 scenarios", words)
        self.assertLess(words.index("SHA-256"), words.index("What each class loses"))

    def test_nothing_from_outside(self) -> None:
        page, _, _ = self.made()
        for tag, attributes in Page(page).tags:
            self.assertFalse(REQUESTS & set(attributes), tag)
            self.assertNotIn(tag, ("link", "img", "iframe", "object", "embed", "form", "base"))
        self.assertIsNone(re.search(r"https?:|url\(|@import|fetch\(|XMLHttpRequest|import\(", page))
        self.assertIn("default-src 'none'", page)

    def test_names_are_escaped(self) -> None:
        spoiled = "<script>x&\"'</script>"
        quoted = '"' + spoiled.replace('"', '""') + '"'
        page, told, _ = self.made(f"scenario,element,capacity,{quoted}\n{quoted},S1,70,{quoted}\n")
        self.assertEqual(page.count("<script"), 1)
        self.assertEqual(Tables(page).rows["scenarios"][1][:2], [spoiled] * 2)
        self.assertEqual(told["scenarios"][0]["labels"], {spoiled: spoiled})

    def test_the_tables(self) -> None:
        page, _, _ = self.made()
        tables = Tables(page).rows
        self.assertEqual(tables["scenarios"][0], [
            "scenario", "label", "verdict", "class 1", "class 4", "cut 1", "cut 4", "excess", "short", "full", "binding",
            "newly binding"])
        self.assertEqual(tables["scenarios"][1], ["s15", "winter", "impossible", "", "", "", "", "5", "", "", "", "S1"])
        self.assertEqual(tables["scenarios"][56], ["s70", "winter", "best", "10", "20", "10", "50", "", "2", "1", "1", ""])
        self.assertEqual(tables["lines"][1], ["1", "R1", "D1", "1", "80", "80", "60", "60", "17", "60"])
        self.assertEqual(tables["elements"][1], ["S1", "segment", "A", "B", "100", "100", "105", "110"])

    def test_the_pictures(self) -> None:
        page, _, _ = self.made()
        classes = {attributes["data-name"]: attributes["class"] for tag, attributes in Page(page).tags
                   if "data-name" in attributes and not attributes["class"].startswith("label")}
        self.assertEqual((classes["S1"], classes["R1"], classes["D1"]),
                         ("edge segment full", "end receipt idle", "end delivery idle"))
        self.assertIn("binds in 110 of 110 scenarios (100 %), is full in 105", page)
        self.assertEqual(page.count('<svg class="histogram"'), 2)
        self.assertEqual(sum(int(count) for count in re.findall(r"<title>(\d+) scenarios lose ", page)), 2 * 105)

    def test_a_large_pipeline_is_drawn_in_part(self) -> None:
        """A chain of 100 places, of which only the last segment binds."""
        rows = [f"segment,S{k},L{k},L{k + 1},900,,,\n" for k in range(99)]
        rows += ["point,R1,receipt,L0,OP,900,,\n", "point,D1,delivery,L99,OP,900,,\n", "question,CHAIN,1,1,,,,\n"]
        page, told, _ = self.made("scenario,element,capacity\na,S98,20\n", "".join(rows) + "line,R1,D1,1,0,90,,\n")
        self.assertIn("this is the part around what binds most often, 30 of 100 places", page)
        # The fake program tells a price of S1.
        self.assertIn("place L1<", page)

    def test_where_nothing_has_a_schedule(self) -> None:
        page, told, status = self.made("scenario,element,capacity\na,S1,0\n")
        self.assertEqual((status, told["classes"][0]["losses"]["50"]), (1, None))
        self.assertNotIn('<svg class="histogram"', page)

    def test_files_that_cannot_be_written(self) -> None:
        names = self.put("base.csv", QUESTION), self.put("scenarios.csv", "scenario,element,capacity\na,S1,70\n")
        out, error, status = self.serial("study", *names, "--html", "nowhere/study.html", "--output", "table.csv")
        self.assertEqual(status, 2)
        self.assertIn("can't be read or written", error)
        self.assertEqual(self.read("table.csv").count(b"\n"), 2)


class Sums(unittest.TestCase):
    def test_percentiles(self) -> None:
        """By the nearest rank, as worked out by hand."""
        fact = ClassFact(1, 0, [-5, 0, 0, 3, 10])
        self.assertEqual([fact.percentile(percent) for percent in (20, 21, 50, 75, 80, 81, 100)], [-5, 0, 0, 3, 3, 10, 10])
        self.assertIsNone(ClassFact(1, 0, []).percentile(50))

    def test_bars(self) -> None:
        for losses in ([0], [0] * 9, [-7, 0, 3], list(range(1000)), [0, 1_000_000_000], [-999, 12_345], [5, 5, 6]):
            bars = bars_of(losses)
            self.assertLessEqual(len(bars.counts), MOST_BARS)
            self.assertEqual(sum(bars.counts), len(losses))
            counted = Counter((loss - bars.start) // bars.width for loss in losses)
            self.assertEqual([counted[at] for at in range(len(bars.counts))], bars.counts)
            self.assertTrue(bars.counts[0] and bars.counts[-1] and bars.start % bars.width == 0)

    def test_numbers_in_words(self) -> None:
        self.assertEqual([nice(width) for width in (1, 2, 3, 6, 11, 45, 51)], [1, 2, 5, 10, 20, 50, 100])
        self.assertEqual([in_short(n) for n in (0, 999, 1500, 12_500, -20_000, 3_000_000, 12_500_000)],
                         ["0", "999", "1500", "12.5k", "-20k", "3000k", "12.5M"])
        self.assertEqual([share_of(*pair) for pair in ((0, 9), (9, 9), (1, 10_000), (9_999, 10_000), (1, 3), (0, 0))],
                         ["0 %", "100 %", "0.1 %", "99.9 %", "33.3 %", "0 %"])
        self.assertEqual([spoken(seconds) for seconds in (0.4, 99, 100, 5999, 6000, 90_000)],
                         ["0 s", "99 s", "1 min 40 s", "99 min 59 s", "1 h 40 min", "25 h 0 min"])

    def test_the_line_on_a_terminal(self) -> None:
        class Terminal:
            def __init__(self, is_one: bool) -> None:
                self.is_one, self.told = is_one, ""

            def isatty(self) -> bool:
                return self.is_one

            def write(self, words: str) -> None:
                self.told += words

            def flush(self) -> None:
                pass

        now = iter(range(100))
        terminal, file = Terminal(True), Terminal(False)
        progress = Progress(10, 2, lambda: next(now), terminal)  # type: ignore[arg-type]
        progress.count(True)
        progress.count(False)
        progress.end()
        self.assertEqual(terminal.told.split("\r\x1b[K"), ["", "3 of 10, 1 failed, 0.3 a second, 21 s left",
                                                          "4 of 10, 1 failed, 0.3 a second, 18 s left", ""])
        Progress(10, 0, lambda: 0.0, file).count(True)  # type: ignore[arg-type]
        self.assertEqual(file.told, "")


if __name__ == "__main__":
    unittest.main()
