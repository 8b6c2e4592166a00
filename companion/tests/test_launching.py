"""Which program a tool runs where nothing names one: the one of the release that it came with, before any on the PATH."""

import os
import shutil
import subprocess
import sys
import unittest
from pathlib import Path

from helpers import NO_SOLVE, TOP, TWO_LINES, TWO_LINES_ANSWER, TWO_LINES_TOLD, ReportTest


class Launching(ReportTest):
    def setUp(self) -> None:
        super().setUp()
        self.top = Path(self.folder.name)

    def put_program(self, folder: Path) -> None:
        """A program that passes each answer, and notes in which folder it is. It solves nothing."""
        folder.mkdir(parents=True, exist_ok=True)
        path = folder / "gasday"
        path.write_text(f"#!/bin/sh\n[ \"$1\" != --version ] || {{ echo 'gasday 1.0.0 (of a test)'; exit; }}\n{NO_SOLVE}"
                        f"echo '{folder.name}' >> '{self.top}/ran'\ncat > /dev/null\nprintf '{TWO_LINES_TOLD}'\n")
        path.chmod(0o755)

    def put_tools(self, companion: Path, audit: Path) -> None:
        shutil.copytree(TOP / "companion", companion, ignore=shutil.ignore_patterns("tests", "__pycache__"))
        audit.parent.mkdir(parents=True, exist_ok=True)
        shutil.copy(TOP / "examples" / "audit", audit)

    def ran(self, *tools: Path) -> list[str]:
        """The folders of the programs that these tools run, from another folder, with one on the PATH."""
        self.put_program(self.top / "path")
        question, answer = self.path("question.csv", TWO_LINES), self.path("answer.csv", TWO_LINES_TOLD + TWO_LINES_ANSWER)
        environment = {"PATH": f"{self.top}/path:/usr/bin:/bin", "PYTHONDONTWRITEBYTECODE": "1"}
        for tool in tools:
            words = ["bash" if "audit" in tool.name else sys.executable, str(tool), question, answer]
            done = subprocess.run(words, cwd=self.top / "path", env=environment, capture_output=True, timeout=600)
            self.assertEqual((done.stderr, done.returncode), (b"", 0))
        told = (self.top / "ran").read_text().splitlines()
        os.remove(self.top / "ran")
        return told

    def test_unpacked(self) -> None:
        release = self.top / "release"
        self.put_tools(release / "companion", release / "examples" / "audit")
        self.put_program(release)
        ran = self.ran(release / "companion" / "gasday-report", release / "examples" / "audit")
        self.assertEqual(ran, ["release", "release"])

    def test_installed(self) -> None:
        prefix = self.top / "a prefix"
        self.put_tools(prefix / "share" / "gasday", prefix / "bin" / "gasday-audit")
        (prefix / "bin" / "gasday-report").symlink_to("../share/gasday/gasday-report")
        self.assertEqual(self.ran(prefix / "bin" / "gasday-report", prefix / "bin" / "gasday-audit"), ["path", "path"])
        self.put_program(prefix / "bin")
        self.assertEqual(self.ran(prefix / "bin" / "gasday-report", prefix / "bin" / "gasday-audit"), ["bin", "bin"])

    def put_script(self, repository: Path, takes: str) -> None:
        """A script that does this where it is asked to take the release's program, and notes each other call of it."""
        path = repository / "gasday"
        path.write_text(f"#!/bin/sh\ncd '{repository}'\n[ \"$*\" = --take ] || echo 'the script' >> '{self.top}/ran'\n{takes}\n")
        path.chmod(0o755)

    def test_in_a_repository_the_script_never_builds(self) -> None:
        repository = self.top / "repository"
        self.put_tools(repository / "companion", repository / "examples" / "audit")
        self.put_script(repository, "exit 1")
        (repository / "crates").mkdir()
        self.assertEqual(self.ran(repository / "companion" / "gasday-report"), ["path"])

    def test_in_a_repository_the_release_is_taken_where_nothing_is_built(self) -> None:
        repository = self.top / "repository"
        self.put_tools(repository / "companion", repository / "examples" / "audit")
        self.put_program(self.top / "of the release")
        self.put_script(repository, f"mkdir -p crates/gasday/out && cp '{self.top}/of the release/gasday' crates/gasday/out/")
        (repository / "crates").mkdir()
        report = repository / "companion" / "gasday-report"
        self.assertEqual(self.ran(report), ["of the release"])
        # What is built is left as it is.
        self.put_program(repository / "crates" / "gasday" / "out")
        self.assertEqual(self.ran(report), ["out"])


class Version(unittest.TestCase):
    def test_each_tool_prints_its_version(self) -> None:
        for tool in ("gasday-report", "gasday-import", "gasday-fleet"):
            words = [sys.executable, str(TOP / "companion" / tool), "--version"]
            done = subprocess.run(words, capture_output=True, text=True, timeout=600)
            printed = f"{tool} 1.0 (companion of gasday; not proved)\n"
            self.assertEqual((done.stdout, done.stderr, done.returncode), (printed, "", 0))


if __name__ == "__main__":
    unittest.main()
