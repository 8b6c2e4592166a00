"""What the tests share: texts, a small fake `gasday`, and runs of the command."""

import contextlib
import io
import os
import re
import shlex
import sys
import tempfile
import unittest
from pathlib import Path

TOP = Path(__file__).resolve().parents[2]
sys.path.insert(0, str(TOP / "companion"))

from gasday_report.command import main  # noqa: E402 (the path comes first)
from gasday_report.program import BUILT  # noqa: E402

# The program that GASDAY names in the environment, or the built one; and what is put before the tests that run it.
GASDAY = Path(os.environ.get("GASDAY", BUILT)).resolve()
needs_gasday = unittest.skipUnless(os.access(GASDAY, os.X_OK), "no program is built")

ANSWER_KINDS = ("sched", "price", "inside")
NO_SOLVE = 'if [ "$1" = solve ]; then exit 2; fi\n'
VERSION = 'if [ "$1" = --version ]; then echo "gasday 9.8"; exit 0; fi\n'  # of a fake program

# The question of docs/CERTIFICATES.md: S1 carries 100, line 1 of class 1 asks for 80 and line 2 of class 4 for 50.
TWO_LINES = """segment,S1,A,B,100,,,
point,R1,receipt,A,OPR,1000,,
point,D1,delivery,B,OPD,1000,,
question,DEMO,1,1,,,,
line,R1,D1,1,0,80,,
line,R1,D1,4,0,50,,
"""
TWO_LINES_ANSWER = "sched,1,80,,,,,\nsched,2,20,,,,,\nprice,S1,4,1,-4,,,\n"
# The totals stand in examples/README.md.
TWO_LINES_TOLD = "best,,,,,,,\ntotal,1,80,,,,,\ntotal,2,0,,,,,\ntotal,3,0,,,,,\ntotal,4,20,,,,,\n"

# The question and the cut of docs/CERTIFICATES.md: 100 must leave the set into pool P1, and at most 40 come back.
POOL_CUT = """segment,S1,A,B,1000,,,
point,R1,receipt,A,OPR,1000,,
point,D1,delivery,B,OPD,1000,,
pool,P1,B,OPP,,,,
question,DEMO,1,1,,,,
line,R1,P1,1,100,100,,
line,P1,D1,1,40,40,,
"""
POOL_CUT_ANSWER = "inside,place,A,,,,,\ninside,place,B,,,,,\ninside,point,R1,,,,,\ninside,point,D1,,,,,\n"

# Prices worked out by hand for examples/winter-day.csv. Line 6, of class 4, stands in tenth 8 of its ceiling (4751 and 4752
# of 6000), line 8, of class 5, too (6751 and 6752 of 9000). A dekatherm more over TRUNK-1 would be one more of both, since
# line 6 brings into MERGE-POOL what line 8 takes out: so TRUNK-1 costs both, and the pool what line 6's dekatherm is worth.
WINTER_PRICES = "price,TRUNK-1,4,1,-8,,,\nprice,TRUNK-1,5,1,-8,,,\nprice,MERGE-POOL,4,1,-8,,,\n"


def split(text: str) -> tuple[str, str]:
    """The rows of a text that are a question's, and those that are an answer's."""
    rows = [row for row in re.split("\r\n|\r|\n", text) if row]
    question = [row for row in rows if row.split(",")[0] not in ANSWER_KINDS]
    answer = [row for row in rows if row.split(",")[0] in ANSWER_KINDS]
    return "".join(row + "\n" for row in question), "".join(row + "\n" for row in answer)


def example(name: str) -> str:
    return (TOP / "examples" / name).read_text()


def winter_day() -> tuple[str, str]:
    question, schedule = split(example("winter-day.csv"))
    return question, schedule + WINTER_PRICES


class ReportTest(unittest.TestCase):
    """Runs the command on texts in a folder, with a fake program that prints what the test says."""

    def setUp(self) -> None:
        self.folder = tempfile.TemporaryDirectory()
        self.addCleanup(self.folder.cleanup)

    def path(self, name: str, text: str | bytes) -> str:
        path = Path(self.folder.name) / name
        path.write_bytes(text if isinstance(text, bytes) else text.encode())
        return str(path)

    def program(self, told: str | bytes, status: int = 0) -> str:
        """A program that prints this for all that it is asked but its version, and saves its words and its text next to itself.
        It solves nothing, so that all reasons are bounds."""
        here = shlex.quote(self.folder.name)
        self.path("told", told)
        path = self.path("gasday", f'#!/bin/sh\n{VERSION}{NO_SOLVE}echo "$@" >> {here}/words\ncat > {here}/text\n'
                         f"cat {here}/told\nexit {status}\n")
        os.chmod(path, 0o755)
        return path

    def kept(self, name: str) -> str:
        return (Path(self.folder.name) / name).read_text()

    def run_command(self, *words: str) -> tuple[str, str, object]:
        """Standard output, standard error and the exit status."""
        out, error = io.StringIO(), io.StringIO()
        with contextlib.redirect_stdout(out), contextlib.redirect_stderr(error):
            status: object
            try:
                status = main(words)
            except SystemExit as ended:
                status = ended.code
        return out.getvalue(), error.getvalue(), status

    def report(self, question: str | bytes, answer: str | bytes, told: str | bytes, *words: str,
               status: int = 0) -> tuple[str, str, object]:
        paths = self.path("question.csv", question), self.path("answer.csv", answer)
        return self.run_command(*paths, "--gasday", self.program(told, status), *words)
