"""Tests of the manual pages and completions of the tools beside the program: tests/tool_pages.py makes them, and what is wanted
here is read of each tool's --help in another way."""

import os
import re
import shutil
import subprocess
import sys
import tempfile
import unittest
from functools import lru_cache
from pathlib import Path

from helpers import TOP

COMPANION, COMPLETIONS, MAN = TOP / "companion", TOP / "completions", TOP / "man"
SCRIPTS = {path.name: path for path in COMPANION.glob("gasday-*")}
SCRIPTS |= {"gasday-certificate": COMPANION / "certificate.py", "gasday-audit": TOP / "examples" / "audit"}
# The commands of a tool stand alone in lines of its help, four blanks from the left.
COMMAND, OPTION = re.compile(r"^ {4}([a-z]+) ", re.M), re.compile(r"^ +(?:-\w, )?(--[a-z-]+)", re.M)
OFFER = 'source "$1"; shift; COMP_WORDS=("$@"); COMP_CWORD=$(($# - 1)); "_${1//-/_}"; printf "%s\\n" "${COMPREPLY[@]}"'


def told(name: str, *words: str) -> str:
    """What a tool tells with --help."""
    run = ["bash"] if name == "gasday-audit" else [sys.executable]
    done = subprocess.run([*run, SCRIPTS[name], *words, "--help"], capture_output=True, text=True, timeout=600,
                          env={**os.environ, "COLUMNS": "100", "NO_COLOR": "1", "PYTHONDONTWRITEBYTECODE": "1"})
    return done.stdout


@lru_cache
def helps(name: str, *words: str) -> dict[tuple[str, ...], set[str]]:
    """The options that a tool and each of its commands tell of, by the words that lead there."""
    text = told(name, *words)
    found = {words: set(OPTION.findall(text)) | {"--help"}}
    for command in COMMAND.findall(text):
        found |= helps(name, *words, command)
    return found


class Pages(unittest.TestCase):
    def test_each_is_as_it_would_be_made(self) -> None:
        words = [sys.executable, str(TOP / "tests" / "tool_pages.py"), "check"]
        told = subprocess.run(words, capture_output=True, text=True, timeout=600).stdout
        self.assertEqual(told.splitlines()[-1], f"{4 * len(SCRIPTS)} passed, 0 failed", told)

    def test_the_options_of_a_page(self) -> None:
        for name in SCRIPTS:
            items = "\n".join(line for line in (MAN / f"{name}.1").read_text().splitlines() if line.startswith(".IP"))
            items = items.replace("\\-", "-").replace("\\fB", "").replace("\\fR", "")
            self.assertEqual(set(re.findall(r"--[a-z-]+", items)), set.union(*helps(name).values()), name)

    @unittest.skipUnless(shutil.which("groff"), "groff is not installed")
    def test_a_page_is_set_without_a_warning(self) -> None:
        for name in SCRIPTS:
            done = subprocess.run(["groff", "-man", "-ww", "-z", MAN / f"{name}.1"], capture_output=True, text=True, timeout=600)
            self.assertEqual((done.stderr, done.returncode), ("", 0), name)


class Completing(unittest.TestCase):
    def offers(self, *words: str) -> list[str]:
        """What bash offers for the last word, in a folder with a file and a folder."""
        with tempfile.TemporaryDirectory() as folder:
            Path(folder, "a text.csv").touch()
            Path(folder, "a folder").mkdir()
            script = COMPLETIONS / f"{words[0]}.bash"
            done = subprocess.run(["bash", "-c", OFFER, "bash", script, *words], cwd=folder, capture_output=True, text=True,
                                  timeout=600)
        self.assertEqual((done.stderr, done.returncode), ("", 0))
        return sorted(filter(None, done.stdout.split("\n")))

    def test_options(self) -> None:
        for name in SCRIPTS:
            for words, options in helps(name).items():
                self.assertEqual(self.offers(name, *words, "--"), sorted(options), (name, words))

    def test_values_and_arguments(self) -> None:
        self.assertEqual(self.offers("gasday-report", "--format", ""), ["csv", "html", "json", "text"])
        self.assertEqual(self.offers("gasday-report", "--local", ""), [])
        self.assertEqual(self.offers("gasday-import", "--output", ""), ["a folder", "a text.csv"])
        self.assertEqual(self.offers("gasday-fleet", ""), ["--help", "--version", "audit", "days", "study"])
        self.assertEqual(self.offers("gasday-fleet", "days", "a"), ["a folder"])
        self.assertEqual(self.offers("gasday-fleet", "audit", "a"), ["a folder", "a text.csv"])
        self.assertEqual(self.offers("gasday-audit", "<", ""), ["a folder", "a text.csv"])

    def test_other_shells_read_them(self) -> None:
        for shell, pattern in (("zsh", "_{}"), ("fish", "{}.fish")):
            if not shutil.which(shell):
                continue
            for name in SCRIPTS:
                words = [shell, "-n", str(COMPLETIONS / pattern.format(name))]
                done = subprocess.run(words, capture_output=True, text=True, timeout=600)
                self.assertEqual((done.stderr, done.returncode), ("", 0), (shell, name))


if __name__ == "__main__":
    unittest.main()
