"""Runs import_properties.py and reason_properties.py by a Python that has Hypothesis: this one, or Debian's own."""

import os
import shutil
import subprocess
import sys
import tempfile
import unittest
from functools import lru_cache
from pathlib import Path

HERE = Path(__file__).resolve().parent
NO_HYPOTHESIS = "no Python here has Hypothesis: apt-get install python3-hypothesis"


@lru_cache
def python_of_properties() -> str | None:
    for python in (sys.executable, "/usr/bin/python3"):
        words = [python, "-c", "import hypothesis"]
        if shutil.which(python) and subprocess.run(words, capture_output=True, timeout=600).returncode == 0:
            return python
    return None


@unittest.skipUnless(python_of_properties(), NO_HYPOTHESIS)
class Properties(unittest.TestCase):
    def test_import(self) -> None:
        self.run_module("import_properties")

    def test_reasons(self) -> None:
        self.run_module("reason_properties")

    def run_module(self, name: str) -> None:
        with tempfile.TemporaryDirectory() as folder:
            environment = {**os.environ, "PYTHONPATH": str(HERE), "PYTHONDONTWRITEBYTECODE": "1"}
            done = subprocess.run([python_of_properties() or "", "-m", "unittest", name], cwd=folder,
                                  env=environment, capture_output=True, text=True, timeout=1200)
        self.assertEqual(done.returncode, 0, done.stderr)
        self.assertRegex(done.stderr, r"Ran [1-9][0-9]* tests?")


if __name__ == "__main__":
    unittest.main()
