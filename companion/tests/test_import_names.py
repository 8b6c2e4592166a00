"""Tests of gasday-import's table of names, of workbooks, and of the file that it writes."""

import shutil
import subprocess
import sys
import tempfile
import unittest
import zipfile
from functools import lru_cache
from pathlib import Path

from import_helpers import Importing

TEXT = "segment,North Leg,A,B,100,,,\npoint,R1,receipt,A,north  leg,5,,\npool,P_1,B,OP,,,,\n"
WANT = "segment,NORTH-LEG,A,B,100,,,\npoint,R1,receipt,A,NORTH-LEG,5,,\npool,P-1,B,OP,,,,\n"

# A workbook as a spreadsheet keeps it: a header, numbers as numbers, a date, a time, a row that is left out, and a sheet more.
BOOK = """
import datetime, openpyxl, sys
book = openpyxl.Workbook()
sheet = book.active
sheet.title = "Pipeline"
for row in (["Kind", "Name", "To", "From", "Capacity"], ["segment", "S1", "B", "A", 50000.0], [],
            ["Segment", "S2", "C", "B", "60 000"]):
    sheet.append(row)
calls = book.create_sheet("Calls")
calls.append(["day", datetime.datetime(2026, 12, 9), "CST6CDT,M3.2.0,M11.1.0", "DEMO"])
calls["B1"].number_format = "yyyy-mm-dd"
calls.append(["post", datetime.datetime(2026, 12, 9, 12, 30), "S1", 70])
calls["B2"].number_format = "yyyy-mm-dd h:mm"
notes = book.create_sheet("Notes")
notes.append(["what we said"])
odd = book.create_sheet("Odd")
odd.append(["segment", "S1", "A", "B", "=1+1"])
odd.append(["segment", "S2", "B", "C", "#REF!"])
book.save(sys.argv[1])
"""
READ = """segment,S1,A,B,50000,,,
segment,S2,B,C,60000,,,
day,2026-12-09,"CST6CDT,M3.2.0,M11.1.0",DEMO,,,,
post,1796841000,S1,70,,,,
"""


@lru_cache
def book_python() -> str | None:
    """A Python that has openpyxl: this one, or Debian's own."""
    for python in (sys.executable, "/usr/bin/python3"):
        if shutil.which(python) and subprocess.run([python, "-c", "import openpyxl"], capture_output=True).returncode == 0:
            return python
    return None


NO_BOOKS = "no Python here has openpyxl: apt-get install python3-openpyxl"


class Names(Importing):
    def table(self) -> str:
        return (self.folder / "names.csv").read_text()

    def test_a_table_is_written_and_read_again(self) -> None:
        self.imports(TEXT, WANT, "--names", "names.csv", told=(
            "names.csv: 2 names are new, and are added: look at them there\n", "3 names taken from the table, the first at"))
        self.assertEqual(self.table(), "written,name\nNorth Leg,NORTH-LEG\nP_1,P-1\n")
        self.put("names.csv", "written,name\nNorth Leg,NL\nP_1,P-1")
        self.imports(TEXT.replace("R1", "R 1"), WANT.replace("NORTH-LEG", "NL").replace("R1", "R-1"), "--names", "names.csv",
                     told=("4 names taken from the table, the first at standard input:1\n",))
        self.assertEqual(self.table(), "written,name\nNorth Leg,NL\nP_1,P-1\nR 1,R-1\n")

    def test_names_that_others_have(self) -> None:
        text = ("segment,NORTH-LEG,A,B,1,,,\nsegment,North Leg,B,C,1,,,\nsegment,Delivery Point 10,C,D,1,,,\n"
                "segment,Delivery Point 11,D,E,1,,,\nsegment,Deliver.Point.10,E,F,1,,,\nsegment,\u00c9t\u00e9,F,G,1,,,\n"
                "segment,???,G,H,1,,,\n")
        self.imports(text, "segment,NORTH-LEG,A,B,1,,,\nsegment,NORTH-LEG-X2,B,C,1,,,\nsegment,DELIVER-POINT-10,C,D,1,,,\n"
                           "segment,DELIVER-POINT-11,D,E,1,,,\nsegment,DELI-POINT-10-X2,E,F,1,,,\nsegment,ETE,F,G,1,,,\n"
                           "segment,NAME,G,H,1,,,\n", "--names", "names.csv", told=(
            "2: field 2: North Leg made NORTH-LEG-X2, doubtful: NORTH-LEG is the name of something else; names.csv keeps it\n",
            "3: field 2: Delivery Point 10 made DELIVER-POINT-10, doubtful: it is shortened; names.csv keeps it\n"))

    def test_a_name_of_the_table_that_is_written_too(self) -> None:
        self.put("names.csv", "North Leg,NORTH-LEG\n")
        self.imports("pool,NORTH-LEG,A,OP,,,,\npool,P2,North Leg,OP,,,,\n", "pool,NORTH-LEG,A,OP,,,,\npool,P2,NORTH-LEG,OP,,,,\n",
                     "--names", "names.csv", told=("made NORTH-LEG, doubtful: NORTH-LEG is written too, so that both are one\n",))
        self.assertEqual(self.table(), "North Leg,NORTH-LEG\n")

    def test_two_writings_may_have_one_name(self) -> None:
        self.put("names.csv", "written,name\nNorth Leg,NL\nN. Leg,NL\n")
        self.imports("pool,P1,North Leg,OP,,,,\npool,P2,n. leg,OP,,,,\n", "pool,P1,NL,OP,,,,\npool,P2,NL,OP,,,,\n",
                     "--names", "names.csv")

    def test_what_is_no_table(self) -> None:
        tables: list[tuple[str | bytes, str]] = [
            ("North Leg,north leg\n", "names.csv:1: a row has what is written and its name"),
            ("written,name\nX\n", "names.csv:2: a row has what is written and its name"),
            ("X Y,A\nx y,B\n", "names.csv:2: 'x y' has the name A further up"),
            ("R1,R2\n", "names.csv:1: 'R1' is a name already, and can't be called R2"),
            (b"\xff,A\n", "names.csv is no table of names"),
        ]
        for table, told in tables:
            self.put("names.csv", table)
            self.refuses(TEXT, "--names", "names.csv", told=(told,), status=2)

    def test_nothing_is_written_where_something_is_wrong(self) -> None:
        self.refuses(TEXT + "pool,P2,B,OP,x,,,\n", "--names", "names.csv", told=("4: error: field 5",))
        self.refuses(TEXT, "--names", "names.csv", "--strict")
        self.assertFalse((self.folder / "names.csv").exists())
        self.refuses(TEXT, told=("1: error: field 2 ('North Leg') is no name",))

    def test_confirmations_by_names_of_the_table(self) -> None:
        text = "day,2026-03-08,UTC0,DEMO,,,,\nnominate,1772910905,SHIP,Contract 1,P,R1,D1,5\n"
        self.imports(text + "respond,1772910906,OPR,contract 1,P,R1,D1,receipt,5\n",
                     text.replace("Contract 1", "CONTRACT-1") + "respond,1772910906,OPR,1,origin,5,,\n",
                     "--names", "names.csv", "--gasday", self.fake())


class Books(Importing):
    def book(self, name: str, *members: str) -> str:
        with zipfile.ZipFile(self.folder / name, "w") as book:
            for member in members:
                book.writestr(member, "")
        return name

    def test_workbooks_are_refused_by_name(self) -> None:
        books = [(self.book("a.csv", "xl/workbook.xml"), "a.csv is an Excel workbook (xlsx), which is read only where openpyxl"),
                 (self.book("b.csv", "xl/workbook.bin"), "b.csv is a binary workbook (xlsb), which is not read: save each sheet"),
                 (self.book("c.csv", "mimetype", "content.xml"), "c.csv is a workbook (ods), which is not read"),
                 (self.book("d.csv", "text.csv"), "d.csv is a zip file, which is not read")]
        self.put("e.csv", b"\xd0\xcf\x11\xe0\xa1\xb1\x1a\xe1rest")
        self.put("openpyxl.py", "raise ImportError")  # which plays that there is none
        for name, told in [*books, ("e.csv", "e.csv is an old workbook (xls), or one with a password, which is not read")]:
            out, err, status = self.run_on("", name, path=str(self.folder))
            self.assertEqual((out, status), (b"", 2))
            self.assertIn(told, err)

    def of_book(self, *words: str) -> tuple[str, str, int]:
        """What comes of the workbook, by a Python that reads it."""
        python = book_python()
        assert python
        with tempfile.TemporaryDirectory() as folder:
            script = Path(folder, "book.py")
            script.write_text(BOOK)
            subprocess.run([python, script, self.folder / "book.xlsx"], check=True)
        out, err, status = self.run_on("", "book.xlsx", *words, python=python)
        return out.decode(), err, status

    @unittest.skipUnless(book_python(), NO_BOOKS)
    def test_sheets_are_read_where_openpyxl_is_installed(self) -> None:
        out, err, status = self.of_book("--sheet", "Pipeline", "--sheet", "Calls", "--each")
        self.assertEqual((out, status), (READ, 0), err)
        for told in ('book.xlsx[Pipeline]:1: the columns of segment rows are "Name", "From", "To", "Capacity"\n',
                     "book.xlsx[Pipeline]:3: empty row dropped\n", 'book.xlsx[Pipeline]:4: "Capacity": 60 000 made 60000\n',
                     "book.xlsx[Calls]:2: field 2: 2026-12-09 12:30 made 1796841000\n"):
            self.assertIn(told, err)
        self.assertEqual(self.of_book("--sheet", "Pipeline", "--strict")[2], 1)

    @unittest.skipUnless(book_python(), NO_BOOKS)
    def test_what_no_sheet_tells(self) -> None:
        out, err, status = self.of_book()
        self.assertEqual((out, status), ("", 1))
        for told in ("book.xlsx[Odd]:1: error: the formula in column 5 has no kept value",
                     "book.xlsx[Odd]:2: error: column 5 has the fault #REF!"):
            self.assertIn(told, err)
        out, err, status = self.of_book("--sheet", "Calls", "--sheet", "Mine")
        self.assertEqual((out, status), ("", 2))
        self.assertIn("book.xlsx has no sheet 'Mine': it has 'Pipeline', 'Calls', 'Notes', 'Odd'", err)
        nothing, err, status = self.run_on("", self.book("damaged.xlsx", "xl/workbook.xml"), python=book_python() or "")
        self.assertEqual((nothing, status), (b"", 2))
        self.assertIn("damaged.xlsx is an Excel workbook (xlsx), which openpyxl can't read: ", err)
        self.refuses("", "--sheet", "Mine", status=2, told=("--sheet goes with a workbook, and none is here",))


class Written(Importing):
    def test_a_file_is_whole_or_as_it_was(self) -> None:
        self.put("text.csv", "as it was\n")
        words = [sys.executable, str(Path(__file__).resolve().parents[1] / "gasday-import"), "--output", "text.csv"]
        day = "day,2026-03-08,UTC0,DEMO,,,,\n" + "post,1772910905,S1,100,,,,\n" * 2000
        done = subprocess.run(["sh", "-c", 'ulimit -f 1; exec "$@"', "sh", *words], input=day.encode(), cwd=self.folder,
                              capture_output=True, timeout=600)
        self.assertEqual((done.stderr.decode(), done.returncode),
                         ("gasday-import: text.csv can't be written: File too large\n", 2))
        self.assertEqual((self.folder / "text.csv").read_text(), "as it was\n")
        self.assertEqual(sorted(path.name for path in self.folder.iterdir()), ["text.csv"])

    def test_links_and_modes_stay(self) -> None:
        target = Path(self.put("text.csv", ""))
        target.chmod(0o640)
        (self.folder / "link.csv").symlink_to("text.csv")
        self.imports("pool,P1,A,OP,,,,\n", "", "--output", "link.csv")
        self.assertEqual((target.read_text(), target.stat().st_mode & 0o777), ("pool,P1,A,OP,,,,\n", 0o640))
        self.assertTrue((self.folder / "link.csv").is_symlink())
        self.imports("pool,P1,A,OP,,,,\n", "pool,P1,A,OP,,,,\n", "--output", "/dev/stdout")


if __name__ == "__main__":
    unittest.main()
