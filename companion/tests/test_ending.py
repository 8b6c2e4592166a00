"""How the companion's programs end where their output can't be written, or a Ctrl-C comes: with 2 and one sentence."""

import contextlib
import os
import signal
import subprocess
import sys
import tempfile
import time
import unittest
from pathlib import Path

TOP = Path(__file__).resolve().parents[2]
COMPANION = TOP / "companion"
PROGRAMS = ("gasday-fleet", "gasday-import", "gasday-report", "certificate.py", "audit")
QUESTION = """segment,S1,A,B,100,,,
point,R1,receipt,A,OPR,1000,,
point,D1,delivery,B,OPD,1000,,
question,DEMO,1,1,,,,
line,R1,D1,4,0,100,,
"""
# 90 of 100, so that it is wrong: without the writing each program would end with 1, but for the importer.
ANSWER = "best,,,,,,,\ntotal,1,0,,,,,\ntotal,2,0,,,,,\ntotal,3,0,,,,,\ntotal,4,90,,,,,\nsched,1,90,,,,,\n"
BROKEN = "broken,Underfilled,1,,,,,\n"
FAKE = f"""#!/bin/sh
case "$1" in
--version) echo gasday 1 ;;
audit) printf 'unsound,DEMO,1,Underfilled,,,,\\naudited,0,,,,,,\\n'; exit 1 ;;
*) cat > /dev/null; printf '{BROKEN}'; exit 1 ;;
esac
"""


class Ending(unittest.TestCase):
    def setUp(self) -> None:
        folder = tempfile.TemporaryDirectory()
        self.addCleanup(folder.cleanup)
        self.folder = Path(folder.name)
        for name, text in (("question.csv", QUESTION), ("answer.csv", ANSWER), ("fake", FAKE)):
            (self.folder / name).write_text(text)
        (self.folder / "fake").chmod(0o755)

    def words(self, program: str, question: str = "question.csv") -> list[str]:
        """A program with its words; where nothing comes between, its output is at least a row."""
        fake = str(self.folder / "fake")
        return {
            "gasday-fleet": [sys.executable, str(COMPANION / program), "audit", question, "--serial", "--gasday", fake],
            "gasday-import": [sys.executable, str(COMPANION / program), question],
            "gasday-report": [sys.executable, str(COMPANION / program), question, "answer.csv", "--gasday", fake],
            "certificate.py": [sys.executable, str(COMPANION / program), question, "answer.csv"],
            "audit": [str(TOP / "examples" / program), question, "answer.csv"],
        }[program]

    def start(self, words: list[str], out: int) -> "subprocess.Popen[str]":
        return subprocess.Popen(words, cwd=self.folder, stdin=subprocess.DEVNULL, stdout=out, stderr=subprocess.PIPE, text=True,
                                env=self.environment(), start_new_session=True)

    def environment(self) -> dict[str, str]:
        """Standard output with its buffer, as people have it: what waits there has to be written too."""
        own = {name: value for name, value in os.environ.items() if name != "PYTHONUNBUFFERED"}
        return {**own, "GASDAY": str(self.folder / "fake"), "PYTHONDONTWRITEBYTECODE": "1"}

    def told_by(self, words: list[str], out: int) -> tuple[list[str], int]:
        """The lines of standard error, and the exit status, of a program that writes to such a file."""
        child = self.start(words, out)
        return child.communicate(timeout=600)[1].splitlines(), child.returncode

    def is_told(self, program: str, told: tuple[list[str], int], words: str) -> None:
        lines, status = told
        # The fleet tells its counts too.
        last = [line for line in lines if not (program == "gasday-fleet" and "unsound" in line)]
        self.assertEqual((status, len(last)), (2, 1), lines)
        self.assertTrue(last[0].startswith(f"{program}: ") and last[0].endswith(words), last)

    def test_a_wrong_answer_that_is_written_is_1(self) -> None:
        for program in PROGRAMS:
            self.assertEqual(self.told_by(self.words(program), subprocess.DEVNULL)[1], int(program != "gasday-import"), program)

    @unittest.skipUnless(os.path.exists("/dev/full"), "there is no /dev/full")
    def test_a_full_disk(self) -> None:
        for program in PROGRAMS:
            with self.subTest(program), open("/dev/full", "wb") as full:
                words = "can't be written" + (": No space left on device" if program != "audit" else "")
                self.is_told(program, self.told_by(self.words(program), full.fileno()), words)

    @unittest.skipUnless(os.path.exists("/dev/full"), "there is no /dev/full")
    def test_help_on_a_full_disk(self) -> None:
        for program in PROGRAMS[:3]:
            with self.subTest(program), open("/dev/full", "wb") as full:
                told = self.told_by([*self.words(program)[:2], "--help"], full.fileno())
                self.is_told(program, told, "can't be written: No space left on device")

    @unittest.skipUnless(os.path.exists("/dev/full"), "there is no /dev/full")
    def test_nothing_can_be_told(self) -> None:
        for program in PROGRAMS:
            with self.subTest(program), open("/dev/full", "wb") as full:
                ended = subprocess.run(self.words(program), cwd=self.folder, stdin=subprocess.DEVNULL, stdout=full, stderr=full,
                                       env=self.environment(), timeout=600).returncode
                self.assertEqual(ended, 2)

    def test_a_reader_that_has_gone(self) -> None:
        for program in PROGRAMS:
            with self.subTest(program):
                reading, writing = os.pipe()
                os.close(reading)
                told = self.told_by(self.words(program), writing)
                os.close(writing)
                self.is_told(program, told, "can't be written" + (": Broken pipe" if program != "audit" else ""))

    def test_standard_output_is_closed(self) -> None:
        for program in PROGRAMS:
            with self.subTest(program):
                words = ["sh", "-c", 'exec "$@" >&-', "sh", *self.words(program)]
                lines, status = self.told_by(words, subprocess.DEVNULL)
                self.assertEqual((status, bool(lines)), (2, True), lines)

    def test_ctrl_c(self) -> None:
        """It comes while the program waits for a text out of a pipe by name."""
        for program in PROGRAMS:
            with self.subTest(program):
                pipe = self.folder / f"{program}.pipe"
                os.mkfifo(pipe)
                words = self.words(program, pipe.name)
                if program == "gasday-fleet":
                    words[2:4] = ["study", pipe.name, "answer.csv"]
                child = self.start(words, subprocess.DEVNULL)
                writing = opened(pipe)
                os.killpg(child.pid, signal.SIGINT)
                told = child.communicate(timeout=600)[1].splitlines(), child.returncode
                os.close(writing)
                self.is_told(program, told, "stopped before the end")


def opened(pipe: Path) -> int:
    """The end of a pipe by name that is written, once somebody reads it."""
    end = time.monotonic() + 60
    while time.monotonic() < end:
        with contextlib.suppress(OSError):
            return os.open(pipe, os.O_WRONLY | os.O_NONBLOCK)
        time.sleep(0.02)
    raise AssertionError("nobody reads")


if __name__ == "__main__":
    unittest.main()
