"""Tests of gasday-import on a gas day: local times, and confirmations that name contract, package and ends. The moments are
those that `date` gives for the rule of the zone; what is confirmed is an example's own text."""

import unittest

from helpers import GASDAY, needs_gasday
from import_helpers import TOP, Importing

EXAMPLE = TOP / "examples" / "gas-day" / "two-cycles.csv"
ZONE = '"CST6CDT,M3.2.0,M11.1.0"'
DAY = f"day,2026-03-08,{ZONE},DEMO,,,,\n"

# The example as a scheduler has it, by the clock and by names.
CALLS = """Kind;Time;Party;Contract;Package;Receipt;Delivery;End;Dth
nominate;2026-03-07 13:15;SHIP;INT;P;R1;D1;;70
nominate;2026-03-07 1:15:01 PM;SHIP;FIRM;P;R1;D1;;50
respond;2026-03-07 13:15:02;OPR;INT;P;R1;D1;Receipt;70
respond;2026-03-07T13:15:03;OPD;INT;P;R1;D1;Delivery;70
freeze;2026-03-07 16:30;;;;;;;
settle;2026-03-07 16:30 CST;;;;;;;
respond;2026-03-07 18:33:20;OPR;FIRM;P;R1;D1;origin;50
respond;2026-03-07 18:33:20;OPD;FIRM;P;R1;D1;dest;50
freeze;2026-03-07 20:30-06:00;;;;;;;
settle;2026-03-08 02:30Z;;;;;;;
"""


def opening() -> str:
    rows = EXAMPLE.read_text().splitlines(keepends=True)
    return "".join(row for row in rows if row.split(",")[0] in ("segment", "point", "contract", "day"))


class Times(Importing):
    def takes(self, time: str, moment: int, rule: str = "CST6CDT") -> None:
        day = DAY.replace("2026-03-08", time[:10]).replace("CST6CDT", rule)
        self.imports(f"{day}freeze,{time},,,,,,\n", f"{day}freeze,{moment},,,,,,\n")

    def is_refused(self, time: str, why: str, day: str = DAY) -> None:
        self.refuses(f"{day}freeze,{time},,,,,,\n", told=(f"error: field 2 ({time!r}) {why}",))

    def test_by_the_zone_of_the_day(self) -> None:
        for time, moment in (("2026-12-09 12:30", 1796841000), ("2026-12-09T12:30:15", 1796841015),
                             ("2026-07-01 9:00", 1782914400), ("2026-12-09 12:05 am", 1796796300),
                             ("2026-12-09 12:30 p.m.", 1796841000)):
            self.takes(time, moment)
        self.takes("2026-12-09 12:30", 1796844600, "MST7MDT")

    def test_by_an_offset_of_their_own(self) -> None:
        for time in ("2026-12-09 17:30Z", "2026-12-09 18:30+01:00", "2026-12-09 11:30-0600", "2026-12-09 11:30 CST"):
            self.takes(time, 1796837400)
        self.imports("freeze,2026-12-09 17:30 UTC,,,,,,\n", "freeze,1796837400,,,,,,\n")

    def test_the_hour_that_autumn_repeats(self) -> None:
        self.is_refused("2026-11-01 01:30",
                        "comes twice, in the hour that autumn repeats: write the offset behind it, -05:00 or -06:00")
        self.takes("2026-11-01 01:30-05:00", 1793514600)
        self.takes("2026-11-01 01:30 CST", 1793518200)

    def test_the_hour_that_spring_leaves_out(self) -> None:
        self.is_refused("2026-03-08 02:30", "is shown by no clock of the zone")
        self.is_refused("2026-03-08 02:30 CST", "is shown by no clock of the zone")

    def test_what_is_no_time(self) -> None:
        self.is_refused("12/9/2026 12:30", "is no whole number, and no local time such as 2026-12-09 12:30")
        self.is_refused("2026-12-09", "is no whole number, and no local time")
        self.is_refused("2026-02-30 12:30", "is no time of the clock")
        self.is_refused("2026-12-09 13:30 PM", "has no such hour")
        self.is_refused("2026-07-01 12:30 CST", "is not CST in the zone, but CDT")
        self.is_refused("1969-12-01 12:30", "lies before 1970")

    def test_no_zone(self) -> None:
        self.is_refused("2026-12-09 12:30", "is a local time, and no one day row tells its zone", "")
        self.is_refused("2026-12-09 12:30", "has no moment, since the day's zone 'America/Chicago' is no POSIX rule",
                        DAY.replace(ZONE, "America/Chicago"))

    def test_slots_of_an_office_each_by_its_own_zone(self) -> None:
        segment = "segment,S1,A,B,1,,,\n"
        day = DAY.replace("2026-03-08", "2026-12-09")
        head = segment + day + segment + day.replace("CST6CDT", "MST7MDT").replace("DEMO", "OTHER")
        calls = "session,{},SHIP,,,,,\npost,{},S1,5,,,,\n"
        self.imports(head + calls.format(2, "2026-12-09 12:30") + calls.format(1, "2026-12-09 12:30"),
                     head + calls.format(2, 1796844600) + calls.format(1, 1796841000))
        self.refuses(head + "desk,2026-12-09 12:30,,,,,,\n", told=("no one day row tells its zone",))


class Confirmations(Importing):
    def confirmed(self, *calls: str, want: str = "", told: tuple[str, ...] = (), status: int = 0) -> str:
        """Calls with moments such as @1, which is a second after 13:15 of the day before."""
        text = DAY + "".join(f"{call}\n" for call in calls).replace("@", "177291090")
        if status:
            return self.refuses(text, "--gasday", self.fake(), told=told, status=status)
        return self.imports(text, DAY + want.replace("@", "177291090"), "--gasday", self.fake(), told=told)

    def test_lines_are_numbered_by_their_first_acceptance(self) -> None:
        self.confirmed("nominate,@1,SHIP,C1,P,R1,D1,5", "nominate,@2,SHIP,C2,P,R1,D1,5", "nominate,@3,SHIP,C1,P,R1,D1,7",
                       "respond,@4,OPR,C2,P,R1,D1,Receipt,5", "respond,@4,OPD,C1,P,R1,D1,dest,7",
                       want="nominate,@1,SHIP,C1,P,R1,D1,5\nnominate,@2,SHIP,C2,P,R1,D1,5\nnominate,@3,SHIP,C1,P,R1,D1,7\n"
                            "respond,@4,OPR,2,origin,5,,\nrespond,@4,OPD,1,dest,7,,\n",
                       told=("2 lines of confirmations found, the first at standard input:5\n",))
        self.assertEqual(self.runs(), 1)

    def test_what_gasday_refuses_is_no_line(self) -> None:
        self.confirmed("nominate,@1,SHIP,BAD,P,R1,D1,5", "nominate,@2,SHIP,C2,P,R1,D1,5", "respond,@4,OPR,C2,P,R1,D1,origin,5",
                       want="nominate,@1,SHIP,BAD,P,R1,D1,5\nnominate,@2,SHIP,C2,P,R1,D1,5\nrespond,@4,OPR,1,origin,5,,\n")
        self.assertEqual(self.runs(), 2)
        self.confirmed("nominate,@1,SHIP,BAD,P,R1,D1,5", "respond,@4,OPR,BAD,P,R1,D1,origin,5", status=1, told=(
            "standard input:3: error: no line is found for BAD, package P, from R1 to D1: its nomination at standard input:2 is"
            " refused, UnknownContract, so that there is nothing to confirm: take this row out\n",))

    def test_names_that_nobody_nominated_before(self) -> None:
        self.confirmed("respond,@4,OPR,C1,P,R1,D1,origin,5", "nominate,@5,SHIP,C1,P,R1,D1,5", status=1, told=(
            "standard input:2: error: no line is found for C1, package P, from R1 to D1: no nomination before it in the text has"
            " these names: write the number of the line\n",))
        self.assertEqual(self.runs(), 0)

    def test_where_no_line_can_be_found(self) -> None:
        row = "respond,1772910904,OPR,C1,P,R1,D1,origin,5\n"
        self.refuses(row, told=("error: no line is found for C1, package P, from R1 to D1: the text has no day row",))
        self.refuses(DAY + "session,1,OPR\n" + row, told=("an office's sessions call side by side",))
        self.confirmed("skip,@7", "nominate,@1,SHIP,C1,P,R1,D1,5", "respond,@4,OPR,C1,P,R1,D1,origin,5", status=1, told=(
            "standard input:2: error: `gasday day` tells fault,2,Order of it, so that no lines of confirmations can be found",))
        self.confirmed("nominate,@1,SHIP,C1,P,R1,D1,many", "respond,@4,OPR,C1,P,R1,D1,origin,5", status=1, told=(
            "1 confirmations name their lines, which are looked up when all else is right",))
        self.refuses(DAY + "nominate,1772910901,SHIP,C1,P,R1,D1,5\n" + row, "--gasday", "no-such-program", status=2, told=(
            "gasday-import: there is no program no-such-program; --gasday names one: it is asked for the lines of",))

    def test_numbers_stay_and_a_number_with_names_is_refused(self) -> None:
        header = "Kind,Time,Party,Line,Contract,Package,Origin,Dest,End,Qty\n"
        self.imports(header + "respond,1772910904,OPR,3,,,,,Delivery,5\n", "respond,1772910904,OPR,3,dest,5,,\n")
        self.refuses(header + "respond,1772910904,OPR,3,C1,P,R1,D1,Delivery,5\n",
                     told=("the header can't be followed for respond rows: line 2",))

    @needs_gasday
    def test_an_example_by_the_clock_and_by_names(self) -> None:
        calls, day = self.put("calls.csv", CALLS), self.put("day.csv", opening())
        self.imports("", EXAMPLE.read_text(), day, calls, "--gasday", str(GASDAY))


if __name__ == "__main__":
    unittest.main()
