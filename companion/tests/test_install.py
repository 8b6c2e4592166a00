"""The project as it is installed: what pyproject.toml lists, and that the commands run from any folder."""

import importlib
import importlib.util
import os
import shutil
import subprocess
import sys
import tomllib
import unittest
from pathlib import Path

from helpers import TOP, TWO_LINES, TWO_LINES_ANSWER, TWO_LINES_TOLD, ReportTest

COMPANION = TOP / "companion"
COMMANDS = ("gasday-desk", "gasday-fleet", "gasday-import", "gasday-report")
HAS_BUILD = all(map(importlib.util.find_spec, ("pip", "setuptools", "wheel")))


def run(*words: str | Path, folder: str, path: str = "") -> tuple[bytes, bytes, int]:
    """Output, standard error and exit status of a Python program that is run in a folder."""
    environment = {**os.environ, "PYTHONPATH": path, "PYTHONDONTWRITEBYTECODE": "1"}
    done = subprocess.run([sys.executable, *words], cwd=folder, env=environment, stdin=subprocess.DEVNULL,
                          capture_output=True, timeout=600)
    return done.stdout, done.stderr, done.returncode


class Listed(unittest.TestCase):
    project = tomllib.loads((COMPANION / "pyproject.toml").read_text())

    def test_packages_with_their_data(self) -> None:
        told = self.project["tool"]["setuptools"]
        packages = {path.parent for path in COMPANION.glob("*/__init__.py")}
        self.assertEqual(set(told["packages"]), {package.name for package in packages})
        data = {package.name: {path.name for path in package.iterdir() if path.is_file() and path.suffix != ".py"}
                for package in packages}
        listed = {package: set(told["package-data"].get(package, ())) for package in told["packages"]}
        self.assertEqual(listed, data)

    def test_commands(self) -> None:
        scripts = self.project["project"]["scripts"]
        self.assertEqual(sorted(scripts), sorted(COMMANDS))
        for entry in scripts.values():
            module, name = entry.split(":")
            self.assertTrue(callable(getattr(importlib.import_module(module), name)), entry)


class Running(ReportTest):
    def page(self, *command: str | Path, path: str = "") -> bytes:
        """The page of an answer that passes, by a command that is run in another folder."""
        question, answer = self.path("question.csv", TWO_LINES), self.path("answer.csv", TWO_LINES_ANSWER)
        words = (*command, question, answer, "--gasday", self.program(TWO_LINES_TOLD), "--format", "html")
        out, error, status = run(*words, folder=self.folder.name, path=path)
        self.assertEqual((error, status), (b"", 0))
        return out

    def test_by_a_link(self) -> None:
        for name in COMMANDS:
            link = Path(self.folder.name) / name
            link.symlink_to(COMPANION / name)
            self.assertEqual(run(link, "--help", folder=self.folder.name)[1:], (b"", 0))

    @unittest.skipUnless(HAS_BUILD, "pip, setuptools or wheel is not installed")
    def test_by_pip(self) -> None:
        copy, place = (Path(self.folder.name) / name for name in ("companion", "place"))
        shutil.copytree(COMPANION, copy)
        words = ("--quiet", "--no-deps", "--no-build-isolation", "--no-index", "--target", place, copy)
        self.assertEqual(run("-m", "pip", "install", *words, folder=self.folder.name)[2], 0)
        self.assertEqual(self.page(place / "bin" / "gasday-report", path=str(place)), self.page(COMPANION / "gasday-report"))
        text = self.path("text.csv", TWO_LINES)
        told = run(place / "bin" / "gasday-import", "--strict", text, folder=self.folder.name, path=str(place))
        self.assertEqual(told, (TWO_LINES.encode(), b"", 0))
        told = run(place / "bin" / "gasday-fleet", "audit", "--serial", "--untimed", text, "--gasday", self.program("gasday\n"),
                   folder=self.folder.name, path=str(place))
        self.assertEqual(told[2], 2)
        self.assertIn(b"text.csv,,failed,", told[0])


if __name__ == "__main__":
    unittest.main()
