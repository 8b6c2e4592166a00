"""Tests of what gasday-import reports and refuses of workbooks: hidden sheets, rows and columns, and units in the formats of
numbers. The workbooks are made here by openpyxl."""

import subprocess
import tempfile
import unittest
from pathlib import Path

from import_helpers import Importing
from test_import_names import NO_BOOKS, book_python

HEAD = """
import openpyxl, sys
book = openpyxl.Workbook()
sheet = book.active
sheet.title = "Pipeline"
for at, (name, size) in enumerate((("S1", 500), ("S2", 600), ("S3", 700), ("S4", 800))):
    sheet.append(["segment", name, "ABCDE"[at], "ABCDE"[at + 1], size])
"""
SAVE = "\nbook.save(sys.argv[1])\n"
READ = "segment,S1,A,B,500,,,\nsegment,S2,B,C,600,,,\nsegment,S3,C,D,700,,,\nsegment,S4,D,E,800,,,\n"


@unittest.skipUnless(book_python(), NO_BOOKS)
class Hidden(Importing):
    def of_book(self, script: str, *words: str) -> tuple[str, str, int]:
        """The output, standard error and status for a workbook that a script makes."""
        python = book_python()
        assert python
        with tempfile.TemporaryDirectory() as folder:
            path = Path(folder, "book.py")
            path.write_text(HEAD + script + SAVE)
            subprocess.run([python, path, self.folder / "book.xlsx"], check=True)
        out, err, status = self.run_on("", "book.xlsx", *words, python=python)
        return out.decode(), err, status

    def is_reported(self, script: str, *told: str) -> None:
        out, err, status = self.of_book(script)
        self.assertEqual((out, status), (READ, 0), err)
        self.tells(err, *told)
        self.assertEqual(self.of_book(script, "--strict")[::2], ("", 1))

    def test_nothing_hidden(self) -> None:
        out, err, status = self.of_book("sheet.row_dimensions[2].height = 30\nsheet.column_dimensions['B'].width = 3")
        self.assertEqual((out, status), (READ, 0))
        self.assertNotIn("hidden", err)

    def test_hidden_rows(self) -> None:
        self.is_reported("sheet.row_dimensions[2].hidden = sheet.row_dimensions[3].hidden = True",
                         "1 hidden rows read, at book.xlsx[Pipeline]:2\n",
                         "book.xlsx[Pipeline]:2: the rows to 3 are hidden, and are read: delete what is not meant\n")
        self.is_reported("sheet.row_dimensions[4].hidden = sheet.row_dimensions[9].hidden = True",
                         "book.xlsx[Pipeline]:4: the row is hidden, and is read: delete what is not meant\n")

    def test_rows_that_a_filter_leaves_out(self) -> None:
        self.is_reported("sheet.auto_filter.ref = 'A1:E4'\nsheet.auto_filter.add_filter_column(1, ['S1', 'S2', 'S3'])\n"
                         "sheet.row_dimensions[4].hidden = True", "book.xlsx[Pipeline]:4: the row is hidden, and is read")

    def test_hidden_columns(self) -> None:
        self.is_reported("sheet.column_dimensions['E'].hidden = sheet.column_dimensions['K'].hidden = True",
                         "book.xlsx[Pipeline]:1: column 5 is hidden, and is read: delete what is not meant\n")
        self.is_reported("sheet.column_dimensions.group('C', 'D', hidden=True)",
                         "book.xlsx[Pipeline]:1: columns 3 to 4 are hidden, and are read")

    def test_hidden_sheets(self) -> None:
        for state in ("hidden", "veryHidden"):
            script = f"more = book.create_sheet('Old')\nmore.append(['pool', 'P1', 'A', 'OP'])\nmore.sheet_state = '{state}'"
            out, err, status = self.of_book(script)
            self.assertEqual((out, status), (READ + "pool,P1,A,OP,,,,\n", 0), err)
            self.tells(err, "book.xlsx[Old]:1: the sheet is hidden, and is read: --sheet names those to read\n")
            self.assertNotIn("hidden", self.of_book(script, "--sheet", "Pipeline")[1])

    def test_units_in_the_formats_of_numbers(self) -> None:
        for form in ('#,##0" MDth"', "0\\\\ \\\\G\\\\J", '0.0"Mcf/d"'):
            out, err, status = self.of_book(f"sheet['E2'].number_format = '{form}'")
            self.assertEqual((out, status), ("", 1), err)
            self.tells(err, "book.xlsx[Pipeline]:2: error: column 5 shows the unit ", " after its number: quantities are in Dth")
        for form in ('#,##0" Dth"', '0" MMBtu/d"', "0.00", '"No. "0'):
            self.assertEqual(self.of_book(f"sheet['E2'].number_format = '{form}'")[::2], (READ, 0))

    def test_a_fault_in_the_first_column(self) -> None:
        out, err, status = self.of_book("sheet['A2'] = '#REF!'")
        self.assertEqual((out, status), ("", 1), err)
        self.tells(err, "book.xlsx[Pipeline]:2: error: column 1 has the fault #REF!\n")


if __name__ == "__main__":
    unittest.main()
