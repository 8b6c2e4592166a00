"""Tests of gasday-import's headers and of what it tells. What is wanted is worked out by hand from docs/IMPORT.md."""

import csv
import io
import sys
import unittest

from import_helpers import TOP, Importing

sys.path.insert(0, str(TOP / "companion"))

from gasday_import.forms import INTERRUPTIBLE, KINDS, forms_of  # noqa: E402 (the path comes first)
from gasday_import.titles import names_of  # noqa: E402

AT_HEADER = "standard input:1: error: the header can't be followed"


def wide_sheet(text: str, is_reversed: bool) -> str:
    """A text as a sheet with a column for each field that any of its rows has, by their names, in another order."""
    sheet = []
    for kind, *fields in csv.reader(io.StringIO(text, newline="")):
        form = INTERRUPTIBLE if kind == "contract" and fields[2] == "interruptible" else KINDS[kind].titles
        sheet.append({"kind": kind, **{names_of(kind, title)[0]: cell for title, cell in zip(form, fields, strict=False)}})
    columns = sorted({name for row in sheet for name in row}, reverse=is_reversed)
    out = io.StringIO(newline="")
    writer = csv.DictWriter(out, columns, restval="", delimiter=";", lineterminator="\n")
    writer.writeheader()
    writer.writerows(sheet)
    return out.getvalue()


class Followed(Importing):
    def test_each_example_as_one_sheet_with_its_columns_in_another_order(self) -> None:
        for example in sorted(set((TOP / "examples").rglob("*.csv")) - set((TOP / "examples").rglob("scenarios.csv"))):
            for is_reversed in (False, True):
                with self.subTest(example.name, is_reversed=is_reversed):
                    self.imports(wide_sheet(example.read_text(), is_reversed), example.read_text())

    def test_from_and_to_the_other_way_round(self) -> None:
        self.imports("Kind,Name,To,From,Capacity\nsegment,S1,B,A,100\n", "segment,S1,A,B,100,,,\n",
                     told=('standard input:1: the columns of segment rows are "Name", "From", "To", "Capacity"\n',))

    def test_any_order_with_units_and_the_kind_anywhere(self) -> None:
        self.imports("Capacity (Dth/d);Operator;Name;Place;Kind;Type\n1 000;op;r1;a;POINT;Receipt\n",
                     "point,R1,receipt,A,OP,1000,,\n")

    def test_one_header_for_several_kinds(self) -> None:
        text = ("Kind,Name,Type,Place,Operator,Capacity,From,To,Shipper,Service,Origin/Band,Dest\n"
                "segment,S1,,,,100,A,B,,,,\npoint,R1,receipt,A,OP,200,,,,,,\npool,P1,,B,OP,,,,,,,\n"
                "contract,F,,,,70,,,SHIP,firm,R1,P1\ncontract,I,,,,80,,,SHIP,interruptible,3,\n")
        self.imports(text, "segment,S1,A,B,100,,,\npoint,R1,receipt,A,OP,200,,\npool,P1,B,OP,,,,\n"
                           "contract,F,SHIP,firm,70,R1,P1,\ncontract,I,SHIP,interruptible,80,3,,\n")

    def test_words_of_the_trade(self) -> None:
        self.imports("Event,Qty,Receipt Point,Delivery Point,Package ID,Contract Number,Shipper,Time\n"
                     "nominate,70,R1,D1,P,FIRM,SHIP,1772910900\n", "nominate,1772910900,SHIP,FIRM,P,R1,D1,70\n")

    def test_where_each_stands_in_its_place_nothing_moves(self) -> None:
        for header in ("Kind,Name,From,To,Capacity", "kind,name,,,", "Kind", "Was,Name,From,To,Q"):
            err = self.imports(header + "\nsegment,S1,A,B,100,,,\n", "segment,S1,A,B,100,,,\n")
            self.assertNotIn("the columns of", err)
        self.imports("Kind,Name,From,To,Cap\nsegment,S1,A,B,100,,,\n", "segment,S1,A,B,100,,,\n",
                     told=('standard input:1: "Cap" is taken for capacity in segment rows\n',))

    def test_a_header_that_begins_with_a_number_sign_is_not_followed(self) -> None:
        self.imports("# Kind,Name,To,From,Capacity\nsegment,S1,B,A,100,,,\n", "segment,S1,B,A,100,,,\n")

    def test_errors_call_fields_by_their_columns(self) -> None:
        self.refuses("Capacity,Kind,Name,From,To\nmany,segment,S 1,A,B\n", told=(
            "standard input:2: error: \"Capacity\" ('many') is no whole number",
            "standard input:2: error: \"Name\" ('S 1') is no name"))

    def test_each_file_has_its_own(self) -> None:
        first = self.put("one.csv", "Kind,Name,To,From,Capacity\nsegment,S1,B,A,100\n")
        second = self.put("two.csv", "segment,S2,B,C,100,,,\n")
        self.imports("", "segment,S1,A,B,100,,,\nsegment,S2,B,C,100,,,\n", first, second)


class NotFollowed(Importing):
    def test_columns_that_name_no_field(self) -> None:
        self.refuses("Art,Name,Nach,Von,Capacity\nsegment,S1,B,A,100\nsegment,S2,B,C,100\n",
                     told=(AT_HEADER + " for segment rows: no column is named from or to; ", "1 not repaired"))

    def test_columns_that_are_missing_or_named_twice(self) -> None:
        self.refuses("Kind,Name,From,Capacity\nsegment,S1,A,100\n",
                     told=(AT_HEADER + " for segment rows: no column is named to;",))
        self.refuses("Kind,Name,From,To,To,Capacity\nsegment,S1,A,B,,100\n",
                     told=(AT_HEADER + " for segment rows: columns 4 and 5 both name to;",))
        self.refuses("Name,From,To,Capacity\nS1,A,B,100\n", told=(AT_HEADER + ": no column is named kind",))

    def test_a_header_of_another_kind_of_row(self) -> None:
        self.refuses("Kind,Name,From,To,Capacity\nsegment,S1,A,B,100\npoint,R1,receipt,A,OP,200\n",
                     told=(AT_HEADER + " for point rows: no column is named type or place or operator;",))

    def test_what_stands_in_a_column_of_no_field(self) -> None:
        for header, label in (("To,From,Capacity,Remark", '"Remark"'), ("To,From,Capacity", "column 6")):
            self.refuses(f"Kind,Name,{header}\nsegment,S1,B,A,100,new\nsegment,S2,C,A,100,old\n",
                         told=(f"{AT_HEADER} for segment rows: line 2 has 'new' in {label} (column 6)", "1 not repaired"))


class Names(unittest.TestCase):
    def test_no_name_is_that_of_two_fields_of_a_row(self) -> None:
        for kind in KINDS:
            for form in forms_of(kind):
                names = [name for title in form for name in set(names_of(kind, title))]
                self.assertEqual(len(names), len(set(names)), (kind, form))


class Told(Importing):
    text = 'segment,s1,A,B,1 234 567,,,\nsegment,s2,A,C,"60,000"\nsegment,S3,A,D,5\n'

    def test_kinds_of_repair_first_and_doubtful_ones_one_by_one(self) -> None:
        err = self.imports(self.text, "segment,S1,A,B,1234567,,,\nsegment,S2,A,C,60000,,,\nsegment,S3,A,D,5,,,\n")
        self.assertEqual(err, """gasday-import: 6 repairs, 0 not repaired
        2 names made upper case, the first at standard input:1
        2 groups taken out of numbers, the first at standard input:1
        2 rows padded to 8 fields, the first at standard input:2
standard input:2: field 5: 60,000 made 60000, doubtful: ',' may be a decimal mark
""")

    def test_a_mark_that_another_number_shows_to_group_is_not_doubtful(self) -> None:
        err = self.imports('segment;S1;A;B;1.234.567;;;\nsegment;S2;A;C;60.000;;;\n',
                           "segment,S1,A,B,1234567,,,\nsegment,S2,A,C,60000,,,\n")
        self.assertNotIn("doubtful", err)
        self.imports("segment;S2;A;C;60.000;;;\n", "segment,S2,A,C,60000,,,\n",
                     told=("standard input:1: field 5: 60.000 made 60000, doubtful: '.' may be a decimal mark\n",))

    def test_each_repair_if_it_is_asked_for(self) -> None:
        err = self.imports(self.text, "segment,S1,A,B,1234567,,,\nsegment,S2,A,C,60000,,,\nsegment,S3,A,D,5,,,\n", "--each")
        lines = [line.partition(":")[2] for line in err.splitlines() if line.startswith("standard input")]
        self.assertEqual([line[0] for line in lines], list("112223"))

    def test_errors_come_in_the_order_of_lines(self) -> None:
        err = self.refuses("day,2026-01-15,X,DEMO\nfreeze,2026-01-15 09:00\nfreeze,soon\n")
        lines = [line for line in err.splitlines() if "error" in line]
        self.assertEqual([line.split(":")[1] for line in lines], ["2", "3"])


if __name__ == "__main__":
    unittest.main()
