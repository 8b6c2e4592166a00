"""A gas day's calls, on the example whose replies stand in docs/GUIDE.md."""

import json
import os
import unittest
import zoneinfo

from helpers import VERSION, ReportTest, example

from gasday_report.day import refusal_words
from gasday_report.moments import Clock
from gasday_report.refusals import REFUSALS

HAS_ZONES = "America/Chicago" in zoneinfo.available_timezones()
EVENTS = example("gas-day/two-cycles.csv")
REPLIES = """accepted,1,1,1,,,,
accepted,2,2,2,,,,
done,3,,,,,,
done,4,,,,,,
frozen,5,1,1,1,,,
bound,1,4,0,70,,,
published,6,1,1,,,,
total,1,0,,,,,
total,2,0,,,,,
total,3,0,,,,,
total,4,70,,,,,
sched,1,70,,,,,
done,7,,,,,,
done,8,,,,,,
frozen,9,2,2,2,,,
bound,1,4,0,70,,,
bound,2,1,0,50,,,
published,10,2,2,,,,
total,1,50,,,,,
total,2,0,,,,,
total,3,0,,,,,
total,4,50,,,,,
sched,1,50,,,,,
sched,2,50,,,,,
bumped,1,20,,,,,
"""
CALENDAR = """cycle,1,1772910000,1772910900,1772911800,1772922600,1772924400,1772978400
cycle,2,1772928000,1772928900,1772929800,1772937000,1772938800,1772978400
cycle,3,1772982000,1772982900,1772983800,1772991000,1772992800,1772996400
cycle,4,1772998200,1772999100,1773000000,1773007200,1773009000,1773010800
cycle,5,1773014400,1773015300,1773016200,1773023400,1773025200,1773025200
hours,24,0,0,5,9,13,
"""


class Days(ReportTest):
    def two_answers(self, replies: str) -> str:
        """A program that tells the replies to `day`, and docs/GUIDE.md's calendar to `calendar`."""
        self.path("calendar-told", CALENDAR)
        self.path("day-told", replies)
        path = self.path("gasday", f'#!/bin/sh\n{VERSION}cat > /dev/null\ncat "{self.folder.name}/$1-told"\n')
        os.chmod(path, 0o755)
        return path

    def day(self, *words: str, events: str = EVENTS, replies: str = REPLIES, told: str = REPLIES) -> tuple[str, str, object]:
        paths = self.path("events.csv", events), self.path("replies.csv", replies)
        return self.run_command("--events", paths[0], "--replies", paths[1], "--gasday", self.two_answers(told), *words)

    def test_the_calls(self) -> None:
        out, _, status = self.day()
        self.assertEqual(status, 0)
        self.assertIn("PASS  gasday day", out)
        # docs/GUIDE.md: Sat Mar 7 13:15:00 CST 2026 is 1772910900, so 19:15 in UTC.
        self.assertIn("   1  2026-03-07 19:15:00 UTC  SHIP nominates 70 under INT, package P, from R1 to D1: accepted as event"
                      " 1, for cycle 1 (Timely), on line 1\n", out)
        self.assertIn("on line 2\n", out)
        self.assertIn("      line 1, class 4: floor 0, ceiling 70\n", out)
        self.assertIn("      line 1: bumped by 20\n", out)
        self.assertIn("published as event 10: cycle 2 (Evening), round 2, 50 in class 1 and 50 in class 4 scheduled; 1 line"
                      " bumped\n", out)

    def test_the_cycles(self) -> None:
        self.assertIn("Evening: nominations leave 2026-03-08 00:00:00 UTC, received 2026-03-08 00:15:00 UTC", self.day()[0])

    @unittest.skipUnless(HAS_ZONES, "no time zones are installed")
    def test_the_local_clock(self) -> None:
        self.assertEqual(Clock("America/Chicago").show(1772910900), "2026-03-07 13:15:00 CST")
        self.assertIn("2026-03-07 13:15:00 CST  SHIP nominates 70", self.day("--local", "America/Chicago")[0])

    def test_replies_that_the_program_does_not_tell(self) -> None:
        out, _, status = self.day(replies=REPLIES.replace("bumped,1,20", "bumped,1,19"))
        self.assertEqual(status, 1)
        self.assertIn("FAIL  gasday day: row 25 of the replies is bumped,1,19, and gasday day tells bumped,1,20\n", out)
        self.assertNotIn("Calls", out)

    def test_replies_with_what_an_archive_told(self) -> None:
        self.assertEqual(self.day(replies=REPLIES + "refused,keep,1,Kept,,,,\n")[2], 0)

    def test_refusals_in_words(self) -> None:
        head = EVENTS.split("nominate")[0]
        calls = "freeze,1772910900,,,,,,\npublish,1772910900,1,,,,,\ndeclare,1772910900,2,,,,,\n"
        told = "refused,freeze,3,TooEarly,,,,\nrefused,publish,1,NotFrozen,,,,\nrefused,declare,2,StaleRound,1,,,\n"
        out, _, status = self.day(events=head + calls, replies=told, told=told)
        self.assertEqual(status, 0)
        for words in ("REFUSED  the cycle is to be frozen: refused, TooEarly: the moment lies before the cycle's confirmation "
                      "time, which calendar tells\n",
                      "refused, NotFrozen: the cycle isn't frozen\n",
                      "refused, StaleRound: the round isn't the current one, which is 1\n"):
            self.assertIn(words, out)

    def test_refusals_with_and_without_a_detail(self) -> None:
        for name, words in REFUSALS.items():
            bare, told = (refusal_words(["refused", "publish", "3", name, detail, "", "", ""]) for detail in ("", "Shape"))
            self.assertTrue(bare.startswith(f"refused, {name}: ") and "{" not in bare + told, (bare, told))
            self.assertEqual("Shape" in told, "{}" in words, told)

    def test_faults(self) -> None:
        no_calendar = "refused,calendar,2,BadZone,,,,\n"
        self.assertEqual(self.day(events=EVENTS.replace("day,", "dey,"))[2], 2)
        self.assertEqual(self.day(told="fault,3,BadField,2,,,,\n")[2], 2)
        for replies in (no_calendar, REPLIES[19:]):
            self.assertEqual(self.day(replies=replies, told=replies)[2], 2, replies)

    def test_json_and_csv(self) -> None:
        calls = json.loads(self.day("--format", "json")[0])["day"]["calls"]
        self.assertEqual((len(calls), calls[0]["moment"], calls[0]["refused"]), (10, 1772910900, False))
        asked = {"party": "SHIP", "contract": "INT", "package": "P", "origin": "R1", "destination": "D1", "quantity": 70}
        self.assertEqual((calls[0]["asked"], calls[0]["told"]), (asked, {"kind": "accepted", "event": 1, "cycle": 1, "line": 1}))
        self.assertEqual(calls[9]["told"], {"kind": "published", "event": 10, "cycle": 2, "round": 2})
        self.assertEqual(self.day("--format", "csv")[0].splitlines()[0], "call,moment,local,kind,refused,asked,told")

    def test_a_page(self) -> None:
        out = self.day("--format", "html")[0]
        self.assertIn("Gas day 2026-03-08, book DEMO", out)
        self.assertEqual(out.count("<circle"), 10)


if __name__ == "__main__":
    unittest.main()
