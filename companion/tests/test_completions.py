"""Tests of the completions of gasday itself: what bash offers for the words of the command line as `gasday --help` has them, and
that the other shells read theirs. tests/make_tables.py makes them of the program's command line."""

import re
import shutil
import subprocess
import tempfile
import unittest
from pathlib import Path

from helpers import GASDAY, TOP, needs_gasday

COMPLETIONS = TOP / "completions" / "gasday.bash"
SCRIPT = 'source "$1"; shift; COMP_WORDS=("$@"); COMP_CWORD=$(($# - 1)); _gasday; printf "%s\\n" "${COMPREPLY[@]}"'
FILES = ["a book.db", "other.db", "text.csv"]


class Completing(unittest.TestCase):
    def offers(self, *words: str) -> list[str]:
        """What is offered for the last word, in a folder with FILES."""
        with tempfile.TemporaryDirectory() as folder:
            for name in FILES:
                Path(folder, name).touch()
            done = subprocess.run(["bash", "-c", SCRIPT, "bash", COMPLETIONS, "gasday", *words], cwd=folder,
                                  capture_output=True, text=True, timeout=600)
        self.assertEqual((done.stderr, done.returncode), ("", 0))
        return sorted(filter(None, done.stdout.split("\n")))

    def test_commands(self) -> None:
        commands = self.offers("help", "")
        self.assertEqual(self.offers(""), sorted(["--help", "--version", "help", *commands]))
        self.assertLessEqual({"audit", "check", "day", "office", "solve"}, set(commands))
        for command in commands:
            self.assertLessEqual({"--help", *FILES}, set(self.offers(command, "")), command)
        self.assertEqual(self.offers("c"), ["calendar", "carry", "check"])
        self.assertEqual(self.offers("-"), ["--help", "--version"])
        self.assertEqual(self.offers("x"), [])
        self.assertEqual(self.offers("help", "solve", ""), [])

    @needs_gasday
    def test_what_the_program_tells(self) -> None:
        def told(*words: str) -> str:
            return subprocess.run([GASDAY, *words, "-h"], capture_output=True, text=True, timeout=600).stdout

        listed = told().partition("\nCommands:\n")[2].partition("\n\n")[0]
        commands = re.findall(r"^  ([a-z]+) ", listed, re.M)
        self.assertEqual(self.offers(""), sorted(["--help", "--version", *commands]))
        for command in commands:
            options = told(command).partition("\nOptions:\n")[2].partition("\n\n")[0]
            wanted = sorted(re.findall(r"^ +(?:-\w, )?(--[a-z]+)", options, re.M)) if command != "help" else []
            self.assertEqual(self.offers(command, "--"), wanted, command)

    def test_checks(self) -> None:
        self.assertEqual(self.offers("check", ""), sorted(["--help", "allowed", "best", "cut", *FILES]))
        self.assertEqual(self.offers("check", "b"), ["best"])
        self.assertEqual(self.offers("check", "best", ""), ["--help", *FILES])

    def test_commands_that_take_texts(self) -> None:
        for command, options in (("solve", ["--help"]), ("calendar", ["--help"]), ("office", ["--help", "--strict"])):
            self.assertEqual(self.offers(command, ""), [*options, *FILES])
            self.assertEqual(self.offers(command, "text.csv", "o"), ["other.db"])

    def test_the_file_of_a_day(self) -> None:
        self.assertEqual(self.offers("day", ""), ["--archive", "--book", "--help", "--strict", "--wait", *FILES])
        self.assertEqual(self.offers("day", "--a"), ["--archive"])
        self.assertEqual(self.offers("day", "--b"), ["--book"])
        self.assertEqual(self.offers("day", "--archive", ""), FILES)
        self.assertEqual(self.offers("day", "--book", "o"), ["other.db"])
        self.assertEqual(self.offers("day", "--archive", "a"), ["a book.db"])
        self.assertEqual(self.offers("day", "--archive", "other.db", "t"), ["text.csv"])
        self.assertEqual(self.offers("day", "--book", "other.db", "--wait", ""), [])

    def test_the_file_of_an_audit(self) -> None:
        self.assertEqual(self.offers("audit", ""), ["--all", "--help", "--wait", *FILES])
        self.assertEqual(self.offers("audit", "--"), ["--all", "--help", "--wait"])
        self.assertEqual(self.offers("audit", "o"), ["other.db"])
        self.assertEqual(self.offers("audit", "--all", "o"), ["other.db"])
        self.assertEqual(self.offers("audit", "--all", "--wait", ""), [])
        self.assertEqual(self.offers("audit", "--wait", "60", "o"), ["other.db"])

    def test_the_file_of_text_carry_and_migrate(self) -> None:
        for command in ("text", "carry", "migrate"):
            self.assertEqual(self.offers(command, ""), ["--help", "--wait", *FILES])
            self.assertEqual(self.offers(command, "o"), ["other.db"])
            self.assertEqual(self.offers(command, "--"), ["--help", "--wait"])
            self.assertEqual(self.offers(command, "other.db", ""), [])
            self.assertEqual(self.offers(command, "--wait", ""), [])
            self.assertEqual(self.offers(command, "--wait", "60", "o"), ["other.db"])

    def test_the_file_and_the_cycle_of_a_question(self) -> None:
        self.assertEqual(self.offers("question", ""), ["--help", "--wait", *FILES])
        self.assertEqual(self.offers("question", "o"), ["other.db"])
        self.assertEqual(self.offers("question", "other.db", ""), ["--help", "1", "2", "3", "4", "5"])
        self.assertEqual(self.offers("question", "other.db", "2"), ["2"])
        self.assertEqual(self.offers("question", "--wait", "60", "other.db", ""), ["1", "2", "3", "4", "5"])
        self.assertEqual(self.offers("question", "other.db", "2", ""), [])

    def test_files_behind_a_redirection(self) -> None:
        self.assertEqual(self.offers("solve", "<", "t"), ["text.csv"])
        self.assertEqual(self.offers("day", "--archive", "other.db", "<", ""), FILES)
        self.assertEqual(self.offers("<", "t"), ["text.csv"])

    def test_no_word_of_another_command(self) -> None:
        self.assertEqual(self.offers("nonsense", ""), [])
        self.assertEqual(self.offers("--help", ""), [])

    def test_it_is_registered_for_gasday(self) -> None:
        done = subprocess.run(["bash", "-c", 'source "$1"; complete -p gasday', "bash", COMPLETIONS],
                              capture_output=True, text=True, timeout=600)
        self.assertEqual(done.stdout, "complete -F _gasday gasday\n")

    def test_other_shells_read_theirs(self) -> None:
        for shell, name in (("zsh", "_gasday"), ("fish", "gasday.fish")):
            if shutil.which(shell):
                words = [shell, "-n", str(COMPLETIONS.with_name(name))]
                done = subprocess.run(words, capture_output=True, text=True, timeout=600)
                self.assertEqual((done.stderr, done.returncode), ("", 0), shell)


if __name__ == "__main__":
    unittest.main()
