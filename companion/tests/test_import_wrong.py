"""Tests of what gasday-import refuses or reports since it would be silently wrong: moments, units, faults of a spreadsheet,
prose, names by case, nominations that come twice, and the order of time. The files are in trials/import. The moments are those
that `date` gives for the rule of the zone; serial dates count days from 1899-12-30."""

import unittest
from pathlib import Path

from import_helpers import Importing

TRIALS = Path(__file__).resolve().parent / "trials" / "import"
ZONE = '"CST6CDT,M3.2.0,M11.1.0"'
DAY = f"day,2026-12-09,{ZONE},DEMO,,,,\n"
HEADER = "Kind,Name,From,To,"


def trial(folder: str, *names: str) -> list[str]:
    """The paths of a trial's files."""
    return [str(TRIALS / folder / name) for name in names]


class Moments(Importing):
    def is_refused(self, moment: int | str, why: str, day: str = DAY) -> None:
        self.refuses(f"{day}freeze,{moment},,,,,,\n", told=(f"error: field 2 ('{moment}') {why}",))

    def test_serial_dates(self) -> None:
        self.refuses("", *trial("serial-dates", "calls.csv"), told=(
            "calls.csv:2: error: field 2 ('46364') looks like the serial date of a spreadsheet, 2026-12-08, and not like the"
            " seconds since 1970: write the time as 2026-12-09 12:30\n",
            "calls.csv:3: error: field 2 ('46365') looks like the serial date of a spreadsheet, 2026-12-09"))
        self.is_refused("46365.5208", "looks like the serial date of a spreadsheet: write the time")

    def test_dates_without_marks(self) -> None:
        self.refuses("", *trial("dates-without-marks", "calls.csv"), told=(
            "calls.csv:2: error: field 2 ('20261208') looks like 2026-12-08 without marks, and not like the seconds since 1970",
            "calls.csv:3: error: field 2 ('202612081300') looks like 2026-12-08 13:00 without marks"))
        self.is_refused("20261208130000", "looks like 2026-12-08 13:00:00 without marks")

    def test_smaller_parts_of_a_second(self) -> None:
        self.is_refused(1796841000000, "looks like milliseconds since 1970")
        self.is_refused(1796841000000000, "looks like microseconds since 1970")
        self.is_refused(9999999999, "is no moment, which is a count of seconds since 1970")

    def test_another_year_and_a_time_alone(self) -> None:
        self.is_refused(1765305000, "is 2025-12-09 12:30 by the clock of the zone, 365 days before the gas day 2026-12-09")
        self.is_refused(1230, "is 1969-12-31 18:20:30 by the clock of the zone, 20797 days before the gas day 2026-12-09")
        self.refuses(DAY + "freeze,2027-12-09 12:30,,,,,,\n", told=("365 days after the gas day 2026-12-09",))

    def test_three_days_on_each_side_are_taken(self) -> None:
        for moment in (1796536800, 1796841000, 1797141599):
            self.imports(f"{DAY}freeze,{moment},,,,,,\n", f"{DAY}freeze,{moment},,,,,,\n", "--strict")
        self.is_refused(1796536799, "is 2026-12-05 23:59:59 by the clock of the zone, 4 days before")
        self.is_refused(1797141600, "is 2026-12-13 00:00 by the clock of the zone, 4 days after")

    def test_without_a_gas_day(self) -> None:
        for moment in ("46365", "20261209", "202612091230", "1796841000000"):
            self.is_refused(moment, "looks like", "")
        self.imports("freeze,1796841000,,,,,,\n", "freeze,1796841000,,,,,,\n", "--strict")

    def test_each_slot_of_an_office_by_its_own_day(self) -> None:
        segment = "segment,S1,A,B,1,,,\n"
        head = segment + DAY + segment + DAY.replace("12-09", "12-19").replace("DEMO", "OTHER")
        calls = "session,{},SHIP,,,,,\npost,{},S1,5,,,,\n"
        good = head + calls.format(2, 1797705000) + calls.format(1, 1796841000) + "desk,1797705000,,,,,,\n"
        self.imports(good, good, "--strict")
        self.refuses(head + calls.format(1, 1797705000), told=("6: error: field 2 ('1797705000') is 2026-12-19 12:30",))
        self.refuses(head + "desk,46365,,,,,,\n", told=("5: error: field 2 ('46365') looks like the serial date",))


class Units(Importing):
    def test_a_header_in_another_unit(self) -> None:
        self.refuses("", *trial("units", "segments.csv"), told=(
            "segments.csv:1: error: the header can't be followed for segment rows: \"Capacity (MDth/d)\" is in MDth/d: quantities"
            " are in Dth or MMBtu, which are the same",))
        for title, unit in (("Capacity [GJ]", "GJ"), ("Capacity Mcf", "Mcf"), ("Capacity MMcf/d", "MMcf/d"), ("MDth", "MDth"),
                            ("Quantity in GJ", "GJ"), ("Dth (thousands)", "thousands"), ("Capacity (Dth/h)", "Dth/h"),
                            ("Qty (000 Dth)", "000 Dth"), ("Capacity (Therms)", "Therms")):
            self.refuses(f"{HEADER}{title}\nsegment,S1,A,B,100\n", told=(f'segment rows: "{title}" is in {unit}: ',))

    def test_a_header_in_dekatherms(self) -> None:
        for title in ("Capacity (Dth)", "Capacity (Dth/d)", "Capacity [MMBtu]", "Capacity (MMBtu/d)", "Capacity Dth/d", "Dth/d",
                      "Qty in Dth", "MMBtu", "Capacity (dth per day)", "Capacity (Dekatherms)"):
            self.imports(f"{HEADER}{title}\nsegment,S1,A,B,100,,,\n", "segment,S1,A,B,100,,,\n")

    def test_beside_a_number(self) -> None:
        for field in ("90,000 Dth", "90,000Dth/d", "90000 MMBtu", "90'000 mmbtu/d", "90000 dth/day"):
            self.imports(f'segment,S1,A,B,"{field}",,,\n', "segment,S1,A,B,90000,,,\n")
        for field, unit in (("90 MDth", "MDth"), ("90 GJ", "GJ"), ("90Mcf", "Mcf"), ("90 Dth/h", "Dth/h"), ("90 Dt", "Dt")):
            self.refuses(f"segment,S1,A,B,{field},,,\n", told=(
                f"1: error: field 5 ({field!r}) is in {unit}: quantities are in Dth or MMBtu",))

    def test_a_number_with_its_unit_shows_no_decimal_mark(self) -> None:
        self.imports('segment,S1,A,B,"90,000 Dth",,,\nsegment,S2,B,C,"80,000",,,\n',
                     "segment,S1,A,B,90000,,,\nsegment,S2,B,C,80000,,,\n")

    def test_only_quantities_have_a_unit(self) -> None:
        self.refuses("nominate,1796841000 Dth,SHIP,C,P,R1,D1,5\n", told=("field 2 ('1796841000 Dth') is no whole number",))
        self.imports("Kind,Name (short),From,To,Capacity\nsegment,S1,A,B,1,,,\n", "segment,S1,A,B,1,,,\n")


class Dropped(Importing):
    def test_faults_of_a_spreadsheet(self) -> None:
        self.refuses("", *trial("faults", "calls.csv"), told=(
            "calls.csv:2: error: column 1 has the fault #REF!\n", "1 not repaired"))
        for fault in ("#REF!", "#N/A", "#NAME?", "#VALUE!", "#DIV/0!", "#NUM!", "#NULL!", "#SPILL!"):
            self.refuses(f"{fault},S1,A,B,1,,,\n", told=(f"1: error: column 1 has the fault {fault}\n",))
            self.refuses(f"pool,{fault},A,OP,,,,\n", "--names", "names.csv", told=(
                f"1: error: column 2 has the fault {fault}\n",))
        self.imports("#N/A so far,,,\n# REF!\n#pipeline,,#N/A\npool,P1,A,OP,,,,\n", "pool,P1,A,OP,,,,\n")

    def test_a_page_of_html(self) -> None:
        err = self.refuses("", *trial("prose", "page.html"), told=(
            "page.html:1: error: the file begins with '<html><body>', as HTML or XML does, and is no table: save it as CSV\n",))
        self.assertIn("1 not repaired", err)
        self.refuses("\n <!DOCTYPE html>\n<p>hello</p>\n", told=("2: error: the file begins with '<!DOCTYPE html>'",))

    def test_prose(self) -> None:
        self.refuses("", *trial("prose", "remark.csv"), told=(
            "remark.csv:1: error: 'Nominations of our desk' begins no row, and no field that is known is named here",
            "1 not repaired"))
        self.refuses("what we said\nKind,Name,From,To,Capacity\nsegment,S1,A,B,1,,,\n", told=(
            "1: error: 'what we said' begins no row", "1 header rows dropped, at standard input:2\n", "1 not repaired"))

    def test_a_column_with_another_name_is_not_taken_for_the_floor(self) -> None:
        header = "Kind,Origin,Dest,Class,{}\nline,R1,D1,1,500,800,,\n"
        self.refuses(header.format("Max,Ceiling"), told=(
            "1: error: the header can't be followed for line rows: no column is named floor;",))
        self.refuses(header.format("Floor,Min"), told=("for line rows: no column is named ceiling;",))
        self.refuses("Kind,Name,From,To,Remark\nsegment,S1,A,B,5,,,\n", told=("for segment rows: no column is named capacity;",))
        self.imports(header.format("Floor,Ceiling"), "line,R1,D1,1,500,800,,\n")
        for title in ("Cap", "Capcity", "Capac."):
            self.imports(f"{HEADER}{title}\nsegment,S1,A,B,100,,,\n", "segment,S1,A,B,100,,,\n",
                         told=(f'standard input:1: "{title}" is taken for capacity in segment rows\n',))


class Doubts(Importing):
    def test_names_that_differ_by_case_alone(self) -> None:
        out, err, status = self.run_on("", *trial("names-by-case", "calls.csv"))
        self.assertEqual((out.count(b",P1,"), status), (2, 0))
        self.tells(err, "1 names that differ by case alone made one, at ",
                   "calls.csv:2: field 5: P1 is taken for the same name as p1 at"
                   f" {TRIALS}/names-by-case/calls.csv:1: they differ by case alone\n")
        self.refuses("", "--strict", *trial("names-by-case", "calls.csv"))

    def test_a_name_in_one_writing_is_no_doubt_and_things_of_two_kinds_may_be_alike(self) -> None:
        text = "nominate,1796756400,SHIP,INT,p1,R1,D1,500\nnominate,1796756460,SHIP,INT,p1,P1,D1,900\n"
        self.assertNotIn("case alone", self.imports(text, text.replace("p1", "P1")))

    def test_a_writing_of_the_table_is_no_doubt(self) -> None:
        text = "pool,Leg 1,A,OP,,,,\npoint,R1,receipt,A,OP,1,,\npool,LEG 1,b,OP,,,,\npool,L2,B,OP,,,,\n"
        want = "pool,LEG-1,A,OP,,,,\npoint,R1,receipt,A,OP,1,,\npool,LEG-1,B,OP,,,,\npool,L2,B,OP,,,,\n"
        self.imports(text, want, "--names", "names.csv", told=(
            "3: field 2: LEG 1 is taken for the same name as Leg 1 at standard input:1: they differ by case alone\n",
            "4: field 3: B is taken for the same name as b at standard input:3"))
        self.put("names.csv", "written,name\nLeg 1,LEG-1\nLEG 1,LEG-1\nb,B\n")
        self.assertNotIn("case alone", self.imports(text, want, "--names", "names.csv"))

    def test_nominations_that_come_twice(self) -> None:
        file = trial("twice", "calls.csv")
        text = Path(file[0]).read_text()
        self.imports("", text, *file, told=(
            "1 nominations that come twice, at ",
            f"calls.csv:3: the nomination is the same as that at {file[0]}:1 in all fields; both are kept\n"))
        self.refuses("", "--strict", *file)
        again = "nominate,1796756400,SHIP,INT,P1,R1,D1,5\nnominate,1796756401,SHIP,INT,P1,R1,D1,5\n"
        self.imports(again, again, "--strict")
        local = DAY + "nominate,1796756400,SHIP,INT,P1,R1,D1,5\nnominate,2026-12-08 13:00,SHIP,INT,P1,R1,D1,5\n"
        self.imports(local, DAY + "nominate,1796756400,SHIP,INT,P1,R1,D1,5\n" * 2, told=("1 nominations that come twice, at",))

    def test_a_decimal_mark_is_said_once_where_the_numbers_agree(self) -> None:
        def doubts(*words: str) -> list[str]:
            out, err, status = self.run_on("", *words)
            self.assertEqual((out.count(b",150000,"), status), (1, 0))
            return [line.partition("contracts.csv:")[2] or line.partition("mixed.csv:")[2] for line in err.splitlines()
                    if "decimal mark" in line]

        words = "field 5: 150,000 made 150000, doubtful: ',' may be a decimal mark"
        self.assertEqual(doubts(*trial("agree", "contracts.csv")), [f"1: {words} (and 2 more in this file)"])
        self.assertEqual(len(doubts("--each", *trial("agree", "contracts.csv"))), 3)
        # 80000 has four digits and more, and no mark: so what the marks are is doubtful of each by itself.
        self.assertEqual(doubts(*trial("agree", "mixed.csv")), [
            f"1: {words}", "3: field 5: 70,000 made 70000, doubtful: ',' may be a decimal mark"])


class Time(Importing):
    FILES = ("day.csv", "nominations.csv", "confirmations.csv", "desk.csv")
    DAY_ROW = f"day,2026-12-09,{ZONE},DEMO,,,,\n"
    NOMINATIONS = ["nominate,1796749200,SHIP,INT,P1,R1,D1,500\n", "nominate,1796773200,SHIP,INT,P2,R1,D1,900\n"]
    CONFIRMATIONS = ["respond,1796760000,OPR,1,origin,500,,\n", "respond,1796774400,OPR,2,origin,900,,\n"]
    DESK = ["freeze,1796769000,,,,,,\n", "settle,1796769000,,,,,,\n", "freeze,1796783400,,,,,,\n", "settle,1796783400,,,,,,\n"]

    def test_files_in_turn_are_reported_where_time_runs_back(self) -> None:
        files = trial("by-time", *self.FILES)
        err = self.imports("", "".join([self.DAY_ROW, *self.NOMINATIONS, *self.CONFIRMATIONS, *self.DESK]), *files)
        self.tells(err, "2 moments earlier than the row before, the first at ",
                   f"confirmations.csv:2: the call of 2026-12-08 14:00 follows that of 2026-12-08 17:40 at {files[1]}:3;"
                   " --by-time merges files by their moments\n",
                   "desk.csv:2: the call of 2026-12-08 16:30 follows that of 2026-12-08 18:00 at")

    def test_files_merged_by_moment(self) -> None:
        first, second = self.NOMINATIONS, self.CONFIRMATIONS
        want = [self.DAY_ROW, first[0], second[0], *self.DESK[:2], first[1], second[1], *self.DESK[2:]]
        err = self.imports("", "".join(want), "--by-time", *trial("by-time", *self.FILES),
                           told=("are merged by their moments, which is no repair\n",))
        self.assertNotIn("follows that of", err)
        files = trial("by-time", "day.csv", "desk.csv", "confirmations.csv", "nominations.csv")
        self.imports("", "".join(want), "--by-time", *files)

    def test_a_file_keeps_its_order(self) -> None:
        one = self.put("one.csv", "freeze,1796769005,,,,,,\nfreeze,1796769001,,,,,,\n")
        two = self.put("two.csv", "skip,1796769003,,,,,,\nskip,1796769005,,,,,,\nskip,1796769006,,,,,,\n")
        want = ("skip,1796769003,,,,,,\nfreeze,1796769005,,,,,,\nfreeze,1796769001,,,,,,\nskip,1796769005,,,,,,\n"
                "skip,1796769006,,,,,,\n")
        self.imports("", want, "--by-time", one, two, told=(
            "one.csv:2: the call of 2026-12-08 22:30:01Z follows that of 2026-12-08 22:30:05Z at",))

    def test_what_an_event_needs_goes_with_it(self) -> None:
        one = self.put("one.csv", "skip,1796769001,,,,,,\nprice,S1,1,0,,,,\nsched,1,1,,,,,\npublish,1796769009,1,,,,,\n")
        two = self.put("two.csv", "skip,1796769004,,,,,,\n")
        want = ("skip,1796769001,,,,,,\nskip,1796769004,,,,,,\nprice,S1,1,0,,,,\nsched,1,1,,,,,\n"
                "publish,1796769009,1,,,,,\n")
        self.imports("", want, "--by-time", "--strict", one, two)

    def test_one_file_is_reported_once(self) -> None:
        text = "skip,1796769009,,,,,,\nskip,1796769008,,,,,,\nskip,1796769007,,,,,,\n"
        self.imports(text, text, told=(
            "2: the call of 2026-12-08 22:30:08Z follows that of 2026-12-08 22:30:09Z at standard input:1 (and 1 more in this"
            " file)\n",))

    def test_sessions_are_not_merged(self) -> None:
        text = "segment,S1,A,B,1,,,\n" + DAY + "session,1,SHIP,,,,,\npost,1796841000,S1,5,,,,\ndesk,1796769000,,,,,,\n"
        self.imports(text, text, "--strict")
        self.refuses(text, "--by-time", told=("3: error: --by-time goes with the calls of one gas day",))


if __name__ == "__main__":
    unittest.main()
