"""Tests of gasday-import. What is wanted is worked out by hand from docs/IMPORT.md and docs/DEFINITIONS.md."""

import subprocess
import sys
import tempfile
import unittest
from pathlib import Path

TOP = Path(__file__).resolve().parents[2]
PROGRAM = TOP / "companion" / "gasday-import"

QUESTION = """segment,S1,A,B,100,,,
point,R1,receipt,A,OPR,1000,,
point,D1,delivery,B,OPD,1000,,
question,DEMO,1,1,,,,
line,R1,D1,1,0,80,,
line,R1,D1,4,0,50,,
"""


def run(data: str | bytes, *words: str) -> tuple[bytes, str, int]:
    """Output, standard error and exit status, with the bytes or the text of standard input."""
    given = data.encode() if isinstance(data, str) else data
    done = subprocess.run([sys.executable, str(PROGRAM), *words], input=given, capture_output=True, timeout=600)
    return done.stdout, done.stderr.decode(), done.returncode


class Importing(unittest.TestCase):
    def imports(self, data: str | bytes, want: str, *told: str) -> str:
        """The text is written, with status 0, and each of these is told."""
        out, err, status = run(data, "--each")
        self.assertEqual((out.decode(), status), (want, 0), err)
        for line in told:
            self.assertIn("standard input:" + line + "\n", err)
        return err

    def refuses(self, data: str | bytes, *told: str) -> str:
        """Nothing is written, with status 1, and each of these is told."""
        out, err, status = run(data, "--each")
        self.assertEqual((out, status), (b"", 1), err)
        for line in told:
            self.assertIn("standard input:" + line, err)
        return err


class Unchanged(Importing):
    def test_each_example_comes_out_byte_for_byte_and_nothing_is_told(self) -> None:
        for example in sorted(set((TOP / "examples").rglob("*.csv")) - set((TOP / "examples").rglob("scenarios.csv"))):
            for words in ((), ("--strict",)):
                with self.subTest(example.name, words=words):
                    self.assertEqual(run(example.read_bytes(), *words), (example.read_bytes(), "", 0))

    def test_what_gasday_reads_itself_is_no_repair(self) -> None:
        text = 'segment,S1,A,B,007,,,\n"point",R1,"receipt",A,OPR,1,,\nday,2026-01-15,"CST6CDT,M3.2.0,M11.1.0",,,,,'
        self.assertEqual(run(text, "--strict"), (text.encode(), "", 0))

    def test_no_text_comes_out_as_none(self) -> None:
        self.assertEqual(run("", "--strict"), (b"", "", 0))

    def test_line_ends_become_lf_and_are_no_repair(self) -> None:
        for end in ("\r\n", "\r"):
            out, err, status = run(QUESTION.replace("\n", end), "--strict")
            self.assertEqual((out.decode(), status), (QUESTION, 0))
            self.assertEqual(err, "standard input: line ends are CRLF or CR: written as LF, which is no repair\n")

    def test_points_between_segments_stay_where_they_can_be_built(self) -> None:
        text = "segment,S1,A,B,1,,,\npoint,R1,receipt,A,OP,1,,\nsegment,S2,B,C,1,,,\npool,P1,C,OP,,,,\n"
        self.assertEqual(run(text, "--strict"), (text.encode(), "", 0))


class Files(Importing):
    def test_semicolons_and_tabs(self) -> None:
        text = "segment;S1;A;B;100\nday;2026-01-15;CST6CDT,M3.2.0,M11.1.0;DEMO\n"
        want = 'segment,S1,A,B,100,,,\nday,2026-01-15,"CST6CDT,M3.2.0,M11.1.0",DEMO,,,,\n'
        self.imports(text, want, "1: fields separated by semicolons: written with commas",
                     "1: padded from 5 to 8 fields", "2: padded from 4 to 8 fields")
        self.imports(text.replace(";", "\t"), want, "1: fields separated by tabs: written with commas")

    def test_byte_order_mark(self) -> None:
        self.imports(b"\xef\xbb\xbf" + QUESTION.encode(), QUESTION, "1: byte order mark dropped")

    def test_latin_1(self) -> None:
        text = "segment,S1,A,B,100,,,\n# caf\u00e9\npoint,R1,receipt,A,OP,50\u00a0000,,\n".encode("latin-1")
        self.imports(text, "segment,S1,A,B,100,,,\npoint,R1,receipt,A,OP,50000,,\n",
                     "2: no UTF-8: the file is read as Latin-1", "3: field 6: 50\u00a0000 made 50000")

    def test_utf_16_is_a_fault_of_reading(self) -> None:
        out, err, status = run(QUESTION.encode("utf-16"))
        self.assertEqual((out, status), (b"", 2))
        self.assertIn("UTF-16", err)

    def test_files_in_turn_each_with_its_header(self) -> None:
        with tempfile.TemporaryDirectory() as folder:
            first, second = Path(folder) / "-a b.csv", Path(folder) / "second.csv"
            first.write_text("Kind,Name,From,To,Capacity,,,\nsegment,S1,A,B,100,,,")
            second.write_text("Kind;Name\npool;P1;A;OP\n")
            out, err, status = run("", "--each", "--", str(first), str(second))
        self.assertEqual((out, status), (b"segment,S1,A,B,100,,,\npool,P1,A,OP,,,,\n", 0))
        self.assertIn(f"{first}:1: header row dropped\n", err)
        self.assertIn(f"{second}:2: padded from 4 to 8 fields\n", err)

    def test_a_last_file_without_rows_leaves_the_end(self) -> None:
        with tempfile.TemporaryDirectory() as folder:
            first, second = Path(folder) / "first.csv", Path(folder) / "second.csv"
            first.write_text(QUESTION)
            second.write_text("")
            self.assertEqual(run("", "--strict", str(first), str(second)), (QUESTION.encode(), "", 0))

    def test_output_file(self) -> None:
        with tempfile.TemporaryDirectory() as folder:
            place = Path(folder) / "text.csv"
            self.assertEqual(run(QUESTION, "--output", str(place))[::2], (b"", 0))
            self.assertEqual(place.read_text(), QUESTION)
            self.assertEqual(run("segment,S1,A,B,many,,,\n", "--output", str(place))[2], 1)
            self.assertEqual(place.read_text(), QUESTION)

    def test_faults_of_usage_and_reading_have_status_2(self) -> None:
        for words in (("--nonsense",), ("no-such-file.csv",), ("--output", "/no-such-folder/text.csv")):
            with self.subTest(words):
                self.assertEqual(run(QUESTION, *words)[::2], (b"", 2))

    def test_strict_refuses_and_tells_the_same(self) -> None:
        text = "segment,s1,A,B,100,,,\n"
        self.assertEqual(run(text, "--strict"), (b"", run(text)[1].replace(
            "0 not repaired\n", "0 not repaired; nothing is written\n"), 1))


class Rows(Importing):
    def test_padding_and_trimming(self) -> None:
        self.imports("segment,S1,A,B,100\npool,P1,A,OP,,,,,,\n", "segment,S1,A,B,100,,,\npool,P1,A,OP,,,,\n",
                     "1: padded from 5 to 8 fields", "2: trimmed from 10 to 8 fields")

    def test_a_ninth_field_that_is_not_empty_is_an_error(self) -> None:
        self.refuses("segment,S1,A,B,100,,,\nnominate,0,SHIP,C,P,R1,D1,50,000\n",
                     "2: error: field 9 ('000') has to be empty")

    def test_a_field_behind_the_rows_last_is_an_error(self) -> None:
        self.refuses("segment,S1,A,B,50,000,,\n", "1: error: field 6 ('000') has to be empty")

    def test_what_is_no_row_is_dropped(self) -> None:
        text = "\nKind,Name,From,To,Capacity\n# the pipeline, so far\nsegment,S1,A,B,100,,,\n,,,,,,,\n #,,,\n"
        self.imports(text, "segment,S1,A,B,100,,,\n", "1: empty row dropped", "2: header row dropped",
                     "3: row that begins with # dropped", "5: empty row dropped", "6: row that begins with # dropped")

    def test_a_misspelt_kind_is_no_header(self) -> None:
        for kind in ("segmant", "Segments", "pol"):
            self.refuses(f"{kind},POOL,A,OP,,,,\n", f"1: error: field 1 ('{kind}') is no kind of row")
        self.refuses("pipe,S1,A,B,100,,,\n", "1: error: field 1 ('pipe') is no kind of row")

    def test_a_header_has_no_digit_in_front(self) -> None:
        self.refuses('day2026-01-15,"UTC0",DEMO,,,,,\n', "1: error: field 1 ('day2026-01-15') is no kind of row")

    def test_a_text_of_which_no_row_is_left(self) -> None:
        self.imports("Kind,Name\n", "", "1: header row dropped")

    def test_a_header_stands_first(self) -> None:
        self.refuses("segment,S1,A,B,100,,,\nKind,Name,,,,,,\n", "2: error: field 1 ('Kind') is no kind of row")

    def test_lines_are_counted_as_an_editor_does(self) -> None:
        self.refuses('# "note"\n"# one\ntwo\nthree",,\nsegment,S1,A,B,lots,,,\n',
                     "2: row that begins with # dropped", "5: error: field 5 ('lots') is no whole number")

    def test_a_quote_that_is_never_closed(self) -> None:
        self.refuses('segment,S1,A,B,100,,,\npool,"P1,A,OP,,,,\npool,p2,A,OP,,,,\n',
                     "2: error: the quotes can't be read", "3: field 2: p2 made P2")


class Fields(Importing):
    def test_names_words_and_kinds(self) -> None:
        self.imports("Segment, north-leg ,a,b,100,,,\nPOINT,r1,Receipt,a,op,5,,\nInside,PLACE,a,,,,,\n",
                     "segment,NORTH-LEG,A,B,100,,,\npoint,R1,receipt,A,OP,5,,\ninside,place,A,,,,,\n",
                     "1: kind Segment made segment", "1: blanks trimmed in field 2",
                     "1: field 2: north-leg made NORTH-LEG", "2: field 3: Receipt made receipt",
                     "3: field 2: PLACE made place")

    def test_what_no_name_comes_of(self) -> None:
        for name in ("north leg", "stra\u00dfe", "N_1", "ABCDEFGHIJKLMNOPQ"):
            self.refuses(f"pool,P1,{name},OP,,,,\n", f"1: error: field 3 ({name!r}) is no name")
        self.refuses("point,R1,inlet,A,OP,1,,\n", "1: error: field 3 ('inlet') is none of receipt, delivery")

    def test_both_forms_of_a_contract(self) -> None:
        self.imports("segment,S1,A,B,1,,,\ncontract,C1,ship,Firm,1 000,r1,d1,\n"
                     "contract,C2,ship,Interruptible,1 000,3,,\n",
                     "segment,S1,A,B,1,,,\ncontract,C1,SHIP,firm,1000,R1,D1,\n"
                     "contract,C2,SHIP,interruptible,1000,3,,\n")

    def test_empty_fields_are_left_to_gasday(self) -> None:
        self.assertEqual(run("segment,,A,B,,,,\n", "--strict"), (b"segment,,A,B,,,,\n", "", 0))


class Numbers(Importing):
    def takes(self, field: str, digits: str, other: str = "", separator: str = ",") -> None:
        """A capacity is taken as these digits, where the row before has another one."""
        rows = []
        for name, end, size in (("S1", "B", other), ("S2", "C", field)):
            quoted = f'"{size}"' if separator in size else size
            rows.append(separator.join(["segment", name, "A", end, quoted, "", "", ""]) + "\n")
        out, err, status = run("".join(rows))
        self.assertEqual((out.decode().split("\n")[1:2], status), ([f"segment,S2,A,C,{digits},,,"], 0), err)

    def is_refused(self, field: str, why: str, other: str = "1") -> None:
        rows = f'segment,S1,A,B,"{other}",,,\nsegment,S2,A,C,"{field}",,,\n'
        self.refuses(rows, f"2: error: field 5 ({field!r}) {why}")

    def test_what_can_only_group(self) -> None:
        for field in ("50 000", "50\u00a0000", "50\u202f000", "50'000", "50\u2019000"):
            self.takes(field, "50000", "1")
        for field in ("1,234,567", "1.234.567", "1 234 567", "1'234'567"):
            self.takes(field, "1234567", "1")

    def test_one_comma_between_commas_and_one_point_between_semicolons(self) -> None:
        self.takes("50,000", "50000", "1")
        self.takes("50.000", "50000", "1", ";")

    def test_one_mark_where_another_number_shows_what_it_is(self) -> None:
        self.takes("50.000", "50000", "1.234.567", "\t")
        self.takes("50,000", "50000", "1,234,567", "\t")
        self.takes("50,000", "50000", "1,234,567", ";")

    def test_what_is_ambiguous_is_refused(self) -> None:
        self.is_refused("50.000", "is ambiguous")
        self.refuses("segment\tS1\tA\tB\t50,000\n", "1: error: field 5 ('50,000') is ambiguous")
        self.refuses("segment;S1;A;B;50,000\n", "1: error: field 5 ('50,000') is ambiguous")
        self.refuses("segment;S1;A;B;0.5\nsegment;S2;A;C;50.000\n", "2: error: field 5 ('50.000') is ambiguous")
        self.is_refused("50,000", "is ambiguous", "12,5")
        self.is_refused("50,000", "is ambiguous", "1.234.567")

    def test_what_is_no_whole_number(self) -> None:
        for field in ("12.5", "50,00", "0,500", "50,0000", "1,234.567", "1.77E+09", "1 23", "lots", "+5"):
            self.is_refused(field, "is no whole number")
        self.is_refused("-5", "is below zero")
        self.is_refused("1,000,000,000,000,000,000", "has more than 18 digits")

    def test_words_of_a_price_may_be_below_zero(self) -> None:
        self.imports('segment,S1,A,B,1,,,\nprice,S1,4,"-1,000",-5,,,\n',
                     "segment,S1,A,B,1,,,\nprice,S1,4,-1000,-5,,,\n")


class Order(Importing):
    def test_a_question_is_put_in_order_of_stages(self) -> None:
        rows = QUESTION.splitlines(keepends=True)
        err = self.imports("".join([rows[4], *rows[:4], rows[5]]), QUESTION,
                           "1: line row moved behind line 5 of standard input")
        self.assertIn("gasday-import: 1 repairs, 0 not repaired\n", err)

    def test_segments_join_the_tree(self) -> None:
        self.imports("segment,S1,A,B,1,,,\nsegment,S3,C,D,1,,,\nsegment,S4,D,E,1,,,\nsegment,S2,B,C,1,,,\n",
                     "segment,S1,A,B,1,,,\nsegment,S2,B,C,1,,,\nsegment,S3,C,D,1,,,\nsegment,S4,D,E,1,,,\n",
                     "4: segment row moved behind line 1 of standard input")

    def test_points_come_behind_their_places(self) -> None:
        first, second = "segment,S1,A,B,1,,,\n", "segment,S2,B,C,1,,,\n"
        points = "point,D1,delivery,C,OP,1,,\npool,P1,C,OP,,,,\n"
        self.imports(first + points + second, first + second + points,
                     "4: segment row moved behind line 1 of standard input")

    def test_segments_that_join_no_tree(self) -> None:
        self.refuses("segment,S1,A,B,1,,,\nsegment,S2,X,Y,1,,,\nsegment,S3,B,A,1,,,\nsegment,S4,B,B,1,,,\n",
                     *(f"{line}: error: the segment joins the tree at no place, or closes" for line in (2, 3, 4)))

    def test_events_of_a_gas_day_stay_in_their_order(self) -> None:
        day = ("segment,S1,A,B,1,,,\ncontract,C,SHIP,interruptible,5,,,\nday,2026-01-15,UTC0,DEMO,,,,\n"
               "carry,C,P,R1,D1,1,,\n")
        events = ("freeze,1768500000,,,,,,\nnominate,1768500001,SHIP,C,P,R1,D1,1\nprice,S1,1,0,,,,\nsched,1,1,,,,,\n"
                  "publish,1768500009,1,,,,,\n"
                  "contract,LATE,SHIP,interruptible,5,,,\n")
        self.assertEqual(run(day + events, "--strict"), ((day + events).encode(), "", 0))
        rows = day.splitlines(keepends=True)
        self.imports("".join(rows[::-1]) + events, day + events)

    def test_blocks_of_an_office_are_sorted_each_by_itself(self) -> None:
        segment, pools = "segment,S1,A,B,1,,,\n", "pool,P1,A,OP,,,,\npool,P2,B,OP,,,,\n"
        contract = "contract,C,SHIP,interruptible,5,,,\n"
        days = [f"day,2026-01-15,UTC0,{book},,,,\n" for book in ("B1", "B2")]
        first, second = (segment + pools + contract + day for day in days)
        events = "session,1,SHIP,,,,,\ndesk,1768500000,,,,,,\n"
        self.imports(first + segment + contract + pools + days[1] + events, first + second + events,
                     "7: contract row moved behind line 9 of standard input")
        self.assertEqual(run(first + second, "--strict"), ((first + second).encode(), "", 0))


class Large(Importing):
    def test_1_100_000_rows(self) -> None:
        head = "segment,S1,A,B,100,,,\nday,2026-01-15,UTC0,DEMO,,,,\n"
        text = (head + "post,1768500000,S1,50,,,,\n" * 1099998).encode()
        self.assertEqual(run(text, "--strict"), (text, "", 0))


if __name__ == "__main__":
    unittest.main()
