"""What the pages say in words: answers to uploads, faults, refusals, and what people may write in forms and files."""

import contextlib
import io
import re
import secrets
import subprocess
import sys
import tomllib
import unittest

from desk_helpers import BOOK, COMPANION, DeskTest
from desk_pages import DAY, PagesTest
from helpers import GASDAY, needs_gasday

import gasday_version
from gasday_desk.command import main
from gasday_desk.faults import CAUSES, fault_words
from gasday_desk.keeper import Refused
from gasday_desk.rows import row_of
from gasday_desk.tables import Table, columns


class Answers(PagesTest):
    """With the built program, whose refusals and faults these are."""

    real = True

    def upload(self, user: str, text: str) -> tuple[int, str]:
        """The status, and the page of the answers."""
        browser, form = self.browser(user), secrets.token_hex(8)
        status, told = browser.post(f"{DAY}/upload", file=(io.BytesIO(text.encode()), "x.csv"), form=form)
        return status, browser.get(told)[1] if status == 303 else told

    def test_of_an_upload(self) -> None:
        """Each row has words: what it asked, and what became of it."""
        status, told = self.upload("tim", "nominate,,,INT,P,R1,D1,70\nnominate,,,INT,Q,R1,D1,40\n")
        self.assertEqual((status, "1 accepted, 1 refused." in told), (303, True))
        self.assertIn("TRADE nominates 70 under INT, package P, from R1 to D1", told)
        self.assertIn("accepted as event 1, for cycle 1 (Timely), on line 1", told)
        self.assertIn("INT has 100; its other lines leave 30 for this one", told)
        self.assertNotIn("accepted,1", told)

    def test_room_of_a_contract(self) -> None:
        """A renomination stands for what it replaces, and a receipt of the past says what was left then."""
        tim = self.browser("tim")
        tim.nominate("70", "INT")
        tim.nominate("20", "INT", package="Q")
        self.assertEqual(tim.nominate("90", "INT")[1], f"{DAY}/calls/3")
        tim.nominate("100", "INT", package="Q")
        tim.nominate("0", "INT", package="Q")
        self.assertEqual(tim.nominate("100", "INT")[0], 303)
        said = [tim.json(f"{DAY}/calls/{number}.json")["more"] for number in (3, 4, 6)]
        self.assertEqual(said, ["INT has 100; its other lines leave 80 for this one",
                                "INT has 100; its other lines leave 30 for this one", ""])
        self.assertIn("INT has 100; its other lines leave 80 for this one", tim.get(f"{DAY}/calls/3")[1])

    def test_when_a_freeze_may_come(self) -> None:
        sam = self.browser("sam")
        self.assertEqual(sam.post(f"{DAY}/call/freeze")[1], f"{DAY}/calls/1")
        told = sam.get(f"{DAY}/calls/1")[1]
        self.assertIn("TooEarly", told)
        self.assertIn("Timely may be frozen from 2026-03-07 16:30:00 CST on", told)

    def test_faults_of_calls(self) -> None:
        sue = self.browser("sue")
        for field, text, words in (("quantity", "2000000000", "is not a whole number from 0 to 1,000,000,000"),
                                   ("package", "ABCDEFGHIJKLMNOPQ", "is not 1 to 16 of A to Z")):
            status, told = sue.nominate(**{"quantity": "7", field: text})
            self.assertEqual((status, f"{field} &#39;{text}&#39; {words}" in told), (422, True), told)
        status, told = self.upload("sue", "nominate,,,FIRM,P,R1,D1,2000000000\n")
        self.assertEqual((status, "1 faulty." in told, "the quantity &#39;2000000000&#39; is not" in told), (303, True, True))

    def test_a_book_that_another_process_has(self) -> None:
        """A sentence says it, and what to do."""
        from unittest import mock

        from gasday_desk import keeper
        file = self.path / "books" / f"{BOOK}.book"
        self.browser("sue").get(DAY)
        with subprocess.Popen([self.program, "day", "--book", file], stdin=subprocess.PIPE, stdout=subprocess.PIPE) as other:
            assert other.stdin and other.stdout
            other.stdout.readline()
            with mock.patch.object(keeper, "BUSY_SECONDS", 0.2):
                status, told = self.browser("sue").nominate()
            other.stdin.close()
        self.assertEqual((status, f"another process has the file {BOOK}.book" in told), (503, True))

    def test_a_day_that_can_not_be_opened(self) -> None:
        """What the program says of the texts is said in a sentence with the row."""
        contracts = self.path / "pipelines" / "test" / "contracts.csv"
        contracts.write_text("contract,FIRM,SHIP,firm,much,R1,D1,\n")
        with self.assertRaisesRegex(Refused, "field 5 of row 4 is not of its form"):
            self.desk.open_day(self.desk.settings.pipelines[0], "2026-03-09", [])
        with self.assertRaisesRegex(Refused, f"is open already: it has the book {BOOK}"):
            self.desk.open_day(self.desk.settings.pipelines[0], "2026-03-08", [])


class Written(PagesTest):
    """What may be written in a form or a file."""

    def upload(self, user: str, text: str) -> int:
        return self.browser(user).post(f"{DAY}/upload", file=(io.BytesIO(text.encode()), "x.csv"))[0]

    def asked(self) -> list[str]:
        return [row["asked"] for row in self.browser("aud").json(f"{DAY}/calls.json")["rows"]]

    def test_thousands(self) -> None:
        """As the pages show them; what isn't whole is refused in words that name the field."""
        sue = self.browser("sue")
        self.assertEqual(sue.nominate("1,500")[0], 303)
        self.assertEqual(self.browser("sam").post(f"{DAY}/call/post", element="S1", capacity="1,000,000")[0], 303)
        self.assertEqual(self.asked(), ["SHIP nominates 1500 under FIRM, package P, from R1 to D1", "S1 is posted at 1000000"])
        for text in ("1,50", "1.500", "1,5000", "0,500", "1,500.5", "-1,500"):
            status, told = sue.nominate(text)
            self.assertEqual(status, 400, text)
            self.assertIn("is no whole number; write 1500 or 1,500", told)
        self.assertIn("The package &#39;my gas&#39; is no name", sue.nominate("7", package="my gas")[1])

    def test_a_file_without_moment_and_party(self) -> None:
        self.assertEqual(self.upload("sue", "contract,package,origin,dest,quantity\nFIRM,P,R1,D1,7\n\nFIRM,Q,R1,D1,8\n"), 303)
        self.assertEqual(self.upload("ora", "line;end;quantity\n1;origin;7\n"), 303)
        self.assertEqual(self.asked()[2], "OPR confirms 7 at the origin of line 1")
        status, told = self.browser("sue").post(f"{DAY}/upload", file=(io.BytesIO(
            b"contract,package,origin,dest,quantity\nFIRM,P,R1,D1,7\n\nFIRM,Q,R1,D1,half\n"), "x.csv"))
        self.assertEqual((status, "line 4: " in told), (400, True))

    def test_names_with_blanks(self) -> None:
        """A name of the day may be written with blanks for its '-'."""
        contracts = self.path / "pipelines" / "test" / "contracts.csv"
        contracts.write_text("contract,NORTH-LEG,SHIP,firm,100,R1,D1,\n")
        book = self.desk.open_day(self.desk.settings.pipelines[0], "2026-03-09", [])
        for form in ("kind,contract,package,origin,dest,quantity\nnominate,North Leg,Pack 1,R1,D1,7\n",
                     'nominate,,,NORTH LEG,"pack 2",R1,D1,"1,500"\n'):
            answer = self.browser("sue").post(f"/days/{book}/upload", file=(io.BytesIO(form.encode()), "x.csv"))
            self.assertEqual(answer[0], 303, answer[1])
        rows = self.browser("aud").json(f"/days/{book}/calls.json")["rows"]
        self.assertEqual([row["asked"] for row in rows], ["SHIP nominates 7 under NORTH-LEG, package PACK-1, from R1 to D1",
                                                          "SHIP nominates 1500 under NORTH-LEG, package PACK-2, from R1 to D1"])

    def test_what_the_pages_say_of_files(self) -> None:
        """Each form that they name is taken."""
        for user, page in (("sue", "nominate"), ("ora", "confirm")):
            told = self.browser(user).get(f"{DAY}/{page}")[1]
            self.assertRegex(told, "The desk fills in moment and party")
            header = re.search(r"columns <code>([a-z,]+)</code>", told)
            assert header
            values = {"contract": "FIRM", "package": "P", "origin": "R1", "dest": "D1", "quantity": "7", "line": "1",
                      "end": "origin"}
            row = ",".join(values[name] for name in header[1].split(","))
            self.assertEqual(self.upload(user, f"{header[1]}\n{row}\n"), 303)


class Faults(unittest.TestCase):
    @needs_gasday
    def test_all_causes_have_words(self) -> None:
        """Those that the program's help names, but for what no day can have."""
        told = subprocess.run([GASDAY, "--help"], capture_output=True, text=True).stdout
        part = told[told.index("\nFaults:"):told.rindex("A fault of the command line")]
        named = set(re.findall(r"^  ([A-Z]\w+) {2,}", part, re.MULTILINE))
        others = {"BadField", "FloorAboveCeiling", "BadClass", "NoThread", "OldVersion"}
        self.assertEqual(named - others, set(CAUSES))

    def test_fields_of_a_call(self) -> None:
        row = row_of("respond", 5, "OPR", "x", "origin", 7)
        self.assertEqual(fault_words(("fault", "9", "BadField", "4"), row), "the line 'x' is not the number of a line")
        self.assertEqual(fault_words(("fault", "9", "BadField", "2"), row_of("freeze", "")),
                         "the moment '' is not seconds since 1970, at most 4,200,000,000")


class Tables(unittest.TestCase):
    def test_long_words_are_below_their_row(self) -> None:
        """A reason has the whole width, so that it isn't cut off at the end of the row."""
        table = Table("x", "X", columns("#line", "why"), [[1, "because"], [2, ""]])
        self.assertEqual([column.key for column in table.heads], ["line"])
        self.assertEqual([[text for _, text in table.cells(row, below)] for row in table.rows for below in (False, True)],
                         [["1"], ["because"], ["2"], [""]])
        self.assertEqual(table.as_csv(), "line,why\n1,because\n2,\n")


class Versions(DeskTest):
    def test_of_the_command(self) -> None:
        done = subprocess.run([sys.executable, COMPANION / "gasday-desk", "--version"], capture_output=True, text=True,
                              timeout=60)
        self.assertEqual((done.returncode, done.stdout.split()[:2]), (0, ["gasday-desk", gasday_version.VERSION]))
        project = tomllib.loads((COMPANION / "pyproject.toml").read_text())
        self.assertEqual(project["tool"]["setuptools"]["dynamic"]["version"], {"attr": "gasday_version.VERSION"})
        with contextlib.redirect_stdout(io.StringIO()) as told, contextlib.suppress(SystemExit):
            main(["--version"])
        self.assertEqual(told.getvalue(), done.stdout)


if __name__ == "__main__":
    unittest.main()
