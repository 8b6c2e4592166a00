"""What the tests of gasday-import share: runs of the command in a folder, and a program that plays `gasday day`."""

import os
import subprocess
import sys
import tempfile
import unittest
from pathlib import Path

TOP = Path(__file__).resolve().parents[2]
PROGRAM = TOP / "companion" / "gasday-import"

# Accepts what is nominated but for contracts that begin with BAD, and numbers lines in the order of first acceptance. A row
# `skip` at moment 1772910907 is a fault of its text.
FAKE = """#!{python} -IS
import os, sys
lines, events = {{}}, 0
with open(os.path.join(os.path.dirname(os.path.abspath(__file__)), "log"), "a") as log:
    log.write("run\\n")
rows = [row.split(",") for row in sys.stdin.read().splitlines()]
for at, row in enumerate(rows, 1):
    if row[:2] == ["skip", "1772910907"]:
        print(f"fault,{{at}},Order,,,,,")
        sys.exit(2)
for kind, *fields in rows:
    if kind == "nominate" and fields[2].startswith("BAD"):
        print("refused,nominate,2,UnknownContract,,,,")
    elif kind == "nominate":
        events += 1
        print(f"accepted,{{events}},1,{{lines.setdefault(tuple(fields[2:6]), len(lines) + 1)}},,,,")
    elif kind == "respond" and int(fields[2]) > len(lines):
        print("refused,respond,3,UnknownLine,,,,")
    elif kind in ("respond", "freeze", "skip"):
        events += 1
        print(f"done,{{events}},,,,,,")
"""


class Importing(unittest.TestCase):
    """Runs the command in a folder of its own."""

    def setUp(self) -> None:
        folder = tempfile.TemporaryDirectory()
        self.addCleanup(folder.cleanup)
        self.folder = Path(folder.name)

    def run_on(self, data: str | bytes, *words: str, python: str = sys.executable, path: str = "") -> tuple[bytes, str, int]:
        """Output, standard error and exit status, with the bytes or the text of standard input."""
        given = data.encode() if isinstance(data, str) else data
        environment = {**os.environ, "PYTHONPATH": path, "PYTHONDONTWRITEBYTECODE": "1"}
        done = subprocess.run([python, str(PROGRAM), *words], input=given, capture_output=True, timeout=600, cwd=self.folder,
                              env=environment)
        error = done.stderr.decode()
        self.assertNotIn("Traceback", error)
        return done.stdout, error, done.returncode

    def imports(self, data: str | bytes, want: str, *words: str, told: tuple[str, ...] = ()) -> str:
        """The text is written, with status 0, and each of these is told."""
        out, err, status = self.run_on(data, *words)
        self.assertEqual((out.decode(), status), (want, 0), err)
        self.tells(err, *told)
        return err

    def refuses(self, data: str | bytes, *words: str, told: tuple[str, ...] = (), status: int = 1) -> str:
        """Nothing is written, and each of these is told."""
        out, err, ended = self.run_on(data, *words)
        self.assertEqual((out, ended), (b"", status), err)
        self.tells(err, *told)
        return err

    def tells(self, err: str, *told: str) -> None:
        for words in told:
            self.assertIn(words, err)

    def put(self, name: str, text: str | bytes) -> str:
        path = self.folder / name
        path.write_bytes(text if isinstance(text, bytes) else text.encode())
        return str(path)

    def fake(self) -> str:
        path = self.put("gasday-of-test", FAKE.format(python=sys.executable))
        os.chmod(path, 0o755)
        return path

    def runs(self) -> int:
        """How often the fake program was run."""
        log = self.folder / "log"
        return len(log.read_text().splitlines()) if log.exists() else 0
