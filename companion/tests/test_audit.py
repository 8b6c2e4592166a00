"""Tests of examples/audit with a program that only plays `gasday`. What is wanted is worked out from the script's head
and from examples/solve/README.md."""

import hashlib
import os
import shutil
import subprocess
import tempfile
import unittest
from pathlib import Path

TOP = Path(__file__).resolve().parents[2]
AUDIT = TOP / "examples" / "audit"

QUESTION = b"segment,S1,A,B,102,,,\nquestion,DEMO,1,1,,,,\nline,R1,D1,1,0,80,,\n"
TOLD_BEST = b"best,,,,,,,\ntotal,1,80,,,,,\n"
ROWS = b"sched,1,80,,,,,\nprice,S1,4,1,-5,,,\n"
TOLD_CUT = b"cut,20,,,,,,\n"
MEMBERS = b"inside,place,A,,,,,\ninside,point,R1,,,,,\n"

# Keeps what it was asked, and tells what it is given to tell.
FAKE = """#!/bin/sh
printf '%s ' "$@" > "$KEPT/words"
cat > "$KEPT/text"
cat "$KEPT/tells"
exit "$ENDS"
"""


class Auditing(unittest.TestCase):
    def setUp(self) -> None:
        self.folder = Path(tempfile.mkdtemp())
        self.addCleanup(shutil.rmtree, self.folder)
        self.fake = self.folder / "a program"
        self.fake.write_text(FAKE)
        self.fake.chmod(0o755)

    def audit(self, question: bytes, answer: bytes, tells: bytes = b"", ends: int = 0,
              names: tuple[str, str] = ("question.csv", "answer.csv")) -> tuple[str, str, int]:
        """Output, standard error and exit status of an audit of these two files, where the program tells so."""
        for name, data in zip(names, (question, answer), strict=True):
            (self.folder / name).write_bytes(data)
        (self.folder / "tells").write_bytes(tells)
        return self.call(*names, ends=ends)

    def call(self, *words: str, ends: int = 0, **environment: str) -> tuple[str, str, int]:
        told = {"GASDAY": str(self.fake), "KEPT": str(self.folder), "ENDS": str(ends), **environment}
        done = subprocess.run([AUDIT, *words], cwd=self.folder, capture_output=True, timeout=600, env={**os.environ, **told})
        return done.stdout.decode(), done.stderr.decode(), done.returncode

    def kept(self, name: str) -> bytes:
        return (self.folder / name).read_bytes()

    def sums(self, question: bytes, answer: bytes, names: tuple[str, str] = ("question.csv", "answer.csv")) -> str:
        pairs = zip((question, answer), names, strict=True)
        return "".join(f"{hashlib.sha256(data).hexdigest()}  {name}\n" for data, name in pairs)


class Passing(Auditing):
    def test_best(self) -> None:
        answer = TOLD_BEST + ROWS
        told = self.audit(QUESTION, answer, TOLD_BEST)
        want = "PASS: check best, with the same totals or excess\n" + self.sums(QUESTION, answer)
        self.assertEqual(told, (want, "", 0))
        self.assertEqual((self.kept("words"), self.kept("text")), (b"check best ", QUESTION + ROWS))

    def test_cut(self) -> None:
        answer = TOLD_CUT + MEMBERS
        told = self.audit(QUESTION, answer, TOLD_CUT)
        want = "PASS: check cut, with the same totals or excess\n" + self.sums(QUESTION, answer)
        self.assertEqual(told, (want, "", 0))
        self.assertEqual((self.kept("words"), self.kept("text")), (b"check cut ", QUESTION + MEMBERS))

    def test_a_line_break_is_put_between_where_there_is_none(self) -> None:
        self.assertEqual(self.audit(QUESTION[:-1], TOLD_BEST + ROWS, TOLD_BEST)[2], 0)
        self.assertEqual(self.kept("text"), QUESTION + ROWS)

    def test_an_answer_with_crlf_or_without_its_last_line_break(self) -> None:
        for answer in ((TOLD_BEST + ROWS).replace(b"\n", b"\r\n"), TOLD_BEST + ROWS[:-1]):
            self.assertEqual(self.audit(QUESTION, answer, TOLD_BEST)[2], 0)
            self.assertEqual(self.kept("text"), QUESTION + ROWS)

    def test_an_answer_without_rows_of_its_own(self) -> None:
        self.assertEqual(self.audit(QUESTION, b"best,,,,,,,\ntotal,1,0,,,,,\n", b"best,,,,,,,\ntotal,1,0,,,,,\n")[2], 0)
        self.assertEqual(self.kept("text"), QUESTION)

    def test_any_name_of_a_file(self) -> None:
        names = ("-a question's name.csv", "--answer $x\\n.csv")
        answer = TOLD_BEST + ROWS
        out, err, status = self.audit(QUESTION, answer, TOLD_BEST, names=names)
        self.assertEqual((out.split("\n", 1)[1], err, status), (self.sums(QUESTION, answer, names), "", 0))


class Failing(Auditing):
    def test_what_the_check_finds_broken(self) -> None:
        answer = TOLD_BEST + ROWS
        told = self.audit(QUESTION, answer, b"broken,Underfilled,1,,,,,\n", 1)
        want = "FAIL: check best tells broken,Underfilled,1,,,,,\n" + self.sums(QUESTION, answer)
        self.assertEqual(told, (want, "", 1))

    def test_other_totals_and_another_excess(self) -> None:
        for told, other, rows in ((TOLD_BEST, b"best,,,,,,,\ntotal,1,81,,,,,\n", ROWS),
                                  (TOLD_BEST, b"best,,,,,,,\n", ROWS), (TOLD_CUT, b"cut,21,,,,,,\n", MEMBERS)):
            out, _, status = self.audit(QUESTION, other + rows, told)
            self.assertEqual((out[:29], status), ("FAIL: the answer's totals or ", 1))
            self.assertIn(self.sums(QUESTION, other + rows), out)


class Faults(Auditing):
    def is_fault(self, answer: bytes, said: str, tells: bytes = TOLD_BEST, ends: int = 0) -> None:
        out, err, status = self.audit(QUESTION, answer, tells, ends)
        self.assertEqual((out, status), ("", 2))
        self.assertIn(said, err)

    def test_answers_that_are_none(self) -> None:
        self.is_fault(b"fault,3,BadField,5,,,,\n", "the answer is a fault: fault,3,BadField,5,,,,")
        for answer in (b"", b"allowed,,,,,,,\n", b"broken,NotCut,,,,,,\n", ROWS, b"\xff\x00\n", b"bester,,,,,,\n"):
            self.is_fault(answer, "neither best nor cut")

    def test_an_answer_can_not_add_to_its_question(self) -> None:
        for row in (b"line,R1,D1,4,0,50,,\n", b'"line",R1,D1,4,0,50,,\n', b"capacity,S1,500,,,,,\n",
                    b"inside,place,A,,,,,\n", b"\n", b"sched,1,80,,,,,x\n", b"sched,1,80,,,,,\rline,R1,D1,4,0,50,,\n"):
            self.is_fault(TOLD_BEST + row + ROWS, "row 3 of the answer is none that such an answer has")
            self.is_fault(TOLD_BEST + ROWS + row, "row 5 of the answer is none that such an answer has")
        self.is_fault(TOLD_CUT + MEMBERS + ROWS, "row 4 of the answer is none")
        self.is_fault(TOLD_BEST + ROWS + b"total,1,80,,,,,\n", "row 5 of the answer is none")

    def test_a_fault_that_the_program_tells(self) -> None:
        self.is_fault(TOLD_BEST + ROWS, "check best ends with status 2: fault,1,FieldCount,,,,,",
                      b"fault,1,FieldCount,,,,,\n", 2)
        self.is_fault(TOLD_BEST + ROWS, "check best ends with status 139: it told nothing", b"", 139)

    def test_files_and_programs_that_are_not_there(self) -> None:
        self.audit(QUESTION, TOLD_BEST + ROWS, TOLD_BEST)
        for words in ((), ("question.csv",), ("question.csv", "answer.csv", "more.csv"), ("question.csv", "none.csv"),
                      ("none.csv", "answer.csv")):
            self.assertEqual(self.call(*words)[::2], ("", 2))
        self.assertEqual(self.call("question.csv", "answer.csv", GASDAY="/no/such/program")[::2], ("", 2))


if __name__ == "__main__":
    unittest.main()
