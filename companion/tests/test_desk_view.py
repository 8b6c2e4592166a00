"""The view of a gas day, by worked days of the documents: what was told comes from there, and nothing is worked out."""

import re
import unittest

from desk_helpers import CALENDAR
from helpers import TOP

from gasday_desk.alarms import look_at, reminders
from gasday_desk.answers import answer_of, question_of
from gasday_desk.calls import FIELDS, OF_PARTIES
from gasday_desk.journal import Maker
from gasday_desk.permissions import CALLS as PERMITTED
from gasday_desk.permissions import Viewer
from gasday_desk.program import parts_of
from gasday_desk.rows import CALLS, groups_of, rows_in, told_groups_of
from gasday_desk.settings import Settings, User
from gasday_desk.tables import confirmation_table, cycle_table, line_table, schedule_table
from gasday_desk.tomorrow import carried_rows
from gasday_desk.view import DayView, Key, opening_of
from gasday_import.forms import KINDS

BASE = """segment,S1,A,B,100,,,
point,R1,receipt,A,OPR,1000,,
point,D1,delivery,B,OPD,1000,,
"""
HEAD = 'day,2026-03-08,"CST6CDT,M3.2.0,M11.1.0",DEMO,,,,\n'
# A day of five cycles in which the segment's capacity falls below a protected quantity: a cycle is skipped, another one has a
# cut, and then a waiver. Each line stays as it is in the acceptance cases, its answer too; totals are of class 1 alone.
FALLING = """carry,FIRM,P,R1,D1,80,,
nominate,1772910000,SHIP,FIRM,P,R1,D1,80
freeze,1772922600,,,,,,
settle,1772922600,,,,,,
freeze,1772937000,,,,,,
settle,1772937000,,,,,,
post,1772985000,S1,60,,,,
freeze,1772991000,,,,,,
settle,1772991000,,,,,,
skip,1772991100,,,,,,
freeze,1773007200,,,,,,
settle,1773007200,,,,,,
waive,1773007300,1,,,,,
freeze,1773007300,,,,,,
settle,1773007300,,,,,,
"""
FALLING_TOLD = """accepted,1,1,1,,,,
frozen,2,1,1,1,,,
bound,1,1,0,80,,,
published,3,1,1,,,,
total,1,80,,,,,
sched,1,80,,,,,
frozen,4,2,2,1,,,
bound,1,1,80,80,,,
published,5,2,2,,,,
total,1,80,,,,,
sched,1,80,,,,,
done,6,,,,,,
frozen,7,3,3,1,,,
bound,1,1,80,80,,,
declared,8,3,3,,,,
inside,place,A,,,,,
inside,point,R1,,,,,
done,9,,,,,,
frozen,10,4,4,1,,,
bound,1,1,80,80,,,
declared,11,4,4,,,,
inside,place,A,,,,,
inside,point,R1,,,,,
done,12,,,,,,
frozen,13,4,5,1,,,
bound,1,1,29,80,,,
published,14,4,5,,,,
total,1,60,,,,,
sched,1,60,,,,,
bumped,1,20,,,,,
"""
ZONE = "America/Chicago"
SETTINGS = Settings("", "", 0, None, ZONE, False, 0, True, True, 30)
ALARM = Maker("alarm", "scheduler", "")


def viewer(role: str, party: str = "") -> Viewer:
    return Viewer(User("x", party, role, ""))


def view_of(text: str, told: str, calls: int | None = None) -> DayView:
    """The day of a text after so many calls."""
    opening, rows = parts_of(text.encode())
    view = DayView(opening_of(opening, rows_in(CALENDAR.encode())))
    for group, answer in list(zip(groups_of(rows), told_groups_of(rows_in(told.encode())), strict=True))[:calls]:
        view.add(group, answer)
    return view


def two_cycles(calls: int | None = None) -> DayView:
    """The day of the guide, with what the guide says that it is told."""
    guide = (TOP / "docs" / "GUIDE.md").read_text()
    told = re.search(r"two-cycles\.csv\n(.*?)```", guide, re.DOTALL)
    assert told
    return view_of((TOP / "examples" / "gas-day" / "two-cycles.csv").read_text(), told[1], calls)


def falling(calls: int | None = None) -> DayView:
    return view_of(BASE + "contract,FIRM,SHIP,firm,100,R1,D1,\n" + HEAD + FALLING, FALLING_TOLD, calls)


class Days(unittest.TestCase):
    def test_two_cycles(self) -> None:
        view = two_cycles()
        self.assertEqual((view.cycle, view.state, len(view.calls)), (3, "confirming", 10))
        self.assertEqual([line.key for line in view.lines], [Key("INT", "P", "R1", "D1"), Key("FIRM", "P", "R1", "D1")])
        evening = view.published(2)
        assert evening
        self.assertEqual((evening.scheduled, evening.bumped, evening.totals[1], evening.totals[4]), ([50, 50], {1: 20}, 50, 50))

    def test_falling(self) -> None:
        states = " ".join(falling(calls).state for calls in range(15))
        self.assertEqual(states, "confirming confirming frozen confirming frozen confirming confirming frozen impossible"
                                 " confirming frozen impossible impossible frozen confirming")
        view = falling()
        self.assertEqual((view.cycle, view.is_skipped(3), view.is_skipped(4)), (5, True, False))
        self.assertEqual([one.outcome for one in view.rounds], ["published", "published", "declared", "declared", "published"])
        self.assertEqual(view.posted, {"S1": 60})

    def test_responses_are_of_one_cycle(self) -> None:
        self.assertEqual(two_cycles(4).responses, {(1, "origin"): 70, (1, "dest"): 70})
        self.assertEqual(two_cycles(8).responses, {(2, "origin"): 50, (2, "dest"): 50})
        self.assertEqual(two_cycles(10).responses, {})

    def test_tomorrow(self) -> None:
        rows = [row for _, _, row in carried_rows(falling())]
        self.assertEqual(rows, [("carry", "FIRM", "P", "R1", "D1", "60", "", "")])


class Tables(unittest.TestCase):
    def test_cycles(self) -> None:
        """The times of NAESB WGQ 1.3.2 by the clock of the zone."""
        table = cycle_table(two_cycles(8), 1772936400, ZONE)
        self.assertEqual([row[2] for row in table.rows], ["published", "confirming", "open for nominations",
                                                          "open for nominations", "open for nominations"])
        self.assertEqual(table.rows[1][3], "confirmations are due in 10 min")
        self.assertEqual(table.rows[2][4:8], ["2026-03-08 10:00:00 CDT", "2026-03-08 10:15:00 CDT", "2026-03-08 10:30:00 CDT",
                                              "2026-03-08 12:30:00 CDT"])

    def test_own_lines_alone(self) -> None:
        view = falling()
        for who, seen in ((viewer("shipper", "SHIP"), [1]), (viewer("shipper", "OTHER"), []), (viewer("operator", "OPD"), [1]),
                          (viewer("operator", "OTHER"), []), (viewer("scheduler"), [1]), (viewer("auditor"), [1])):
            self.assertEqual([row[0] for row in line_table(view, who).rows], seen)
            self.assertEqual([row[0] for row in schedule_table(view, who, 4, None).rows], seen)

    def test_silent_ends_come_first(self) -> None:
        rows = confirmation_table(two_cycles(7), viewer("operator", "OPR")).rows
        self.assertEqual([(row[0], row[5], row[-1]) for row in rows], [(1, "origin", "silent"), (2, "origin", "confirmed")])
        self.assertEqual(rows[0][8:10], [70, None])

    def test_a_schedule(self) -> None:
        table = schedule_table(two_cycles(), viewer("scheduler"), 2, None)
        self.assertEqual([row[5:11] for row in table.rows], [[4, 0, 70, 50, 20, 20], [1, 0, 50, 50, 0, None]])
        self.assertEqual(table.marks, {0: "bumped"})


class Forms(unittest.TestCase):
    def test_of_calls(self) -> None:
        """Each call has the fields of its row in the importer, behind moment and party; and each may be made by somebody."""
        self.assertEqual(set(FIELDS), set(CALLS))
        self.assertEqual(set(FIELDS) | {"open", "clock"}, set(PERMITTED))
        for kind, fields in FIELDS.items():
            self.assertEqual(len(fields), len(KINDS[kind].titles) - (2 if kind in OF_PARTIES else 1), kind)


class Questions(unittest.TestCase):
    def test_of_a_cut(self) -> None:
        """Floors, ceilings and classes as the freeze told them, and the capacity that was posted."""
        view = falling()
        wanted = BASE + "question,DEMO,4,4,,,,\ncapacity,S1,60,,,,,\nline,R1,D1,1,80,80,,\n"
        self.assertEqual(question_of(view, view.rounds[3]).decode(), wanted)
        self.assertEqual(answer_of(view, view.rounds[3], b"").decode(), "inside,place,A,,,,,\ninside,point,R1,,,,,\n")


class Alarms(unittest.TestCase):
    def call(self, view: DayView, now: float, settings: Settings = SETTINGS) -> str:
        asked = look_at(view, now, settings, ALARM)
        return asked.kind if asked else ""

    def test_when_they_ring(self) -> None:
        self.assertEqual(self.call(two_cycles(4), 1772922599), "")
        self.assertEqual(self.call(two_cycles(4), 1772922600), "freeze")
        self.assertEqual(self.call(two_cycles(5), 1772922600), "settle")
        self.assertEqual(self.call(falling(8), 1773000000), "")  # an impossible cycle is for people
        quiet = Settings("", "", 0, None, ZONE, False, 0, False, False, 30)
        self.assertEqual(self.call(two_cycles(4), 1772922600, quiet), "")
        self.assertEqual(reminders(two_cycles(4), 1772922600 - 600, quiet), ["The confirmation time of Timely comes in 10 min."])
        self.assertEqual(reminders(two_cycles(4), 1772922600 - 3600, quiet), [])
        self.assertIn("Freeze it", reminders(two_cycles(4), 1772922600, quiet)[0])


if __name__ == "__main__":
    unittest.main()
