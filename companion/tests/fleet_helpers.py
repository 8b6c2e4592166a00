"""What the tests of gasday-fleet share: a fake `gasday`, runs of the command, and where Dask is."""

import csv
import io
import os
import shutil
import subprocess
import sys
import tempfile
import time
import unittest
from collections.abc import Callable
from functools import lru_cache
from pathlib import Path

from helpers import TOP

COMMAND = TOP / "companion" / "gasday-fleet"
NAME = "gasday-of-test"  # which is neither built nor on anybody's PATH
QUESTION = """segment,S1,A,B,100,,,
point,R1,receipt,A,OPR,1000,,
point,D1,delivery,B,OPD,1000,,
pool,P1,B,OPP,,,,
question,DEMO,1,1,,,,
line,R1,D1,1,20,80,,
line,R1,D1,4,0,50,,
"""

# Plays `gasday` on questions whose lines all go over S1, on archives that say what is to be told of them, and on gas days
# whose settles are published. What is asked of it is noted beside it.
FAKE = """#!{python} -IS
# {version}
import os, signal, sqlite3, sys, time
HERE, words = os.path.dirname(os.path.abspath(__file__)), sys.argv[1:]

def note(*told):
    with open(os.path.join(HERE, "log"), "a") as log:
        log.write(" ".join(told) + "\\n")

def tell(*rows, status=0):
    print(*(row + "," * (7 - row.count(",")) for row in rows), sep="\\n")
    sys.exit(status)

def audit(path):
    kind, *rest = open(path).read().split()
    note("audit", kind, *rest)
    if kind == "once" and not os.path.exists(os.path.join(HERE, rest[0])):
        open(os.path.join(HERE, rest[0]), "w").close()
        kind = "die"
    if kind == "die":
        os.kill(os.getpid(), signal.SIGKILL)
    if kind == "kill-worker":
        with open(f"/proc/{{os.getppid()}}/cmdline") as parent:
            if "spawn_main" in parent.read():
                os.kill(os.getppid(), signal.SIGKILL)
    if kind in ("slow", "hang"):
        time.sleep(float(rest[0]))
    if kind == "odd":
        tell("something else", status=3)
    if kind == "environment":
        note(*sorted(os.environ))
    sound = ["sound,DEMO,1,1,2,1,70," + "0" * 64, "unchecked,DEMO,1,Bumped"]
    if kind == "unsound":
        others = ["unsound,DEMO,4,Bumped", "unsound,DEMO,5,Damaged"] if rest else []
        tell(*sound, "unsound,DEMO,3,Underfilled", *others, "audited,1", status=1)
    if kind == "broken":
        tell("fault,0,Store", status=2)
    tell(*sound, "audited,5")

def day(text, path):
    rows = [row.split(",") for row in text.splitlines()]
    if any(row[0] == "nonsense" for row in rows):
        tell("fault,1,UnknownKind,1", status=2)
    cycles = [at for at, row in enumerate([row for row in rows if row[0] == "settle"], 1)]
    if path:
        archive = sqlite3.connect(path)
        archive.execute("create table posting2 (book, cycle, round, body, rule)")
        book = next(row[3] for row in rows if row[0] == "day")
        kept = [(book, at, at, b"head\\nbody %d" % at) for at in cycles]
        archive.executemany("insert into posting2 values (?, ?, ?, ?, 2)", kept)
        archive.commit()
    tell(*(f"published,{{at}},{{at}},{{at}}" for at in cycles))

def answer(text):
    room, lines = 0, []
    for at, row in enumerate((row.split(",") for row in text.splitlines()), 1):
        if row[0] == "segment":
            room = int(row[4])
        if row[0] == "capacity":
            room = int(row[2])
        if row[0] == "line":
            lines.append([int(field) for field in row[3:6]])
            if lines[-1][1] > lines[-1][2]:
                tell(f"fault,{{at}},FloorAboveCeiling", status=2)
    least = sum(floor for _, floor, _ in lines)
    if room == 6666:
        os.kill(os.getpid(), signal.SIGKILL)
    if least > room:
        return [f"cut,{{least - room}}"], ["inside,place,A", "inside,point,R1"], room
    given, left = [floor for _, floor, _ in lines], room - least
    for at in sorted(range(len(lines)), key=lambda at: lines[at][0]):
        more = min(left, lines[at][2] - given[at])
        given[at], left = given[at] + more, left - more
    totals = [sum(q for q, line in zip(given, lines) if line[0] == c) for c in range(1, max(4, *(line[0] for line in lines)) + 1)]
    own = [f"sched,{{at}},{{quantity}}" for at, quantity in enumerate(given, 1)]
    if not left:
        own.append(f"price,S1,{{max(line[0] for line in lines)}},1,-5")
    return ["best", *(f"total,{{c}},{{total}}" for c, total in enumerate(totals, 1))], own, room

def padded(rows):
    return [row + "," * (7 - row.count(",")) for row in rows]

if words[0] == "--version":
    print("gasday {version}")
elif words[0] == "audit":
    if words[1] != "--all":
        tell("usage", status=2)
    audit(words[2])
elif words[0] == "day":
    day(sys.stdin.read(), words[2] if len(words) > 1 else None)
else:
    text = sys.stdin.read()
    asked = "".join(row + "\\n" for row in text.splitlines() if row.split(",")[0] not in ("sched", "price", "inside"))
    head, own, room = answer(asked)
    note(*words, str(room))
    if words[0] == "solve":
        tell(*head, *own, status=head[0].startswith("cut"))
    if room == 13 or text != asked + "".join(row + "\\n" for row in padded(own)):
        tell("broken,Shape", status=1)
    tell(*head)
"""


def has_dask(python: str) -> bool:
    words = [python, "-c", "import distributed"]
    return bool(shutil.which(python)) and subprocess.run(words, capture_output=True, timeout=600).returncode == 0


@lru_cache
def dask_python() -> str | None:
    """A Python that has Dask: this one, or Debian's own."""
    return next((python for python in (sys.executable, "/usr/bin/python3") if has_dask(python)), None)


NO_DASK = "no Python here has Dask: apt-get install python3-distributed"


def wait_until(holds: Callable[[], object], seconds: float = 60) -> None:
    end = time.monotonic() + seconds
    while not holds():
        if time.monotonic() > end:
            raise AssertionError("what was waited for has not come")
        time.sleep(0.02)


class FleetTest(unittest.TestCase):
    """Runs the command in a folder, with a fake program in a folder of its own."""

    def setUp(self) -> None:
        folder = tempfile.TemporaryDirectory()
        self.addCleanup(folder.cleanup)
        self.folder = Path(folder.name)
        self.program = self.fake("bin")

    def fake(self, folder: str, version: str = "1.0 of a test") -> Path:
        path = self.folder / folder / NAME
        path.parent.mkdir()
        path.write_text(FAKE.format(python=sys.executable, version=version))
        path.chmod(0o755)
        return path

    def put(self, name: str, text: str | bytes) -> str:
        path = self.folder / name
        path.parent.mkdir(parents=True, exist_ok=True)
        path.write_bytes(text if isinstance(text, bytes) else text.encode())
        return name

    def archives(self, *contents: str) -> list[str]:
        return [self.put(f"{at:03}.db", content) for at, content in enumerate(contents)]

    def words(self, *words: str, python: str | None = None) -> list[str]:
        return [python or sys.executable, str(COMMAND), *words, "--gasday", str(self.program)]

    def fleet(self, *words: str, python: str | None = None) -> tuple[str, str, int]:
        """Output, standard error and exit status of a run."""
        done = subprocess.run(self.words(*words, python=python), cwd=self.folder, capture_output=True, timeout=600,
                              stdin=subprocess.DEVNULL, env={**os.environ, "PYTHONDONTWRITEBYTECODE": "1"})
        error = done.stderr.decode()
        self.assertNotIn("Traceback", error)
        return done.stdout.decode("utf-8", "surrogateescape"), error, done.returncode

    def serial(self, *words: str) -> tuple[str, str, int]:
        return self.fleet(*words, "--serial")

    def read(self, name: str) -> bytes:
        return (self.folder / name).read_bytes()

    def log(self, folder: str = "bin") -> list[str]:
        path = self.folder / folder / "log"
        return path.read_text().splitlines() if path.exists() else []


def rows_of(table: str | bytes) -> list[dict[str, str]]:
    text = table if isinstance(table, str) else table.decode()
    return list(csv.DictReader(io.StringIO(text, newline="")))


def cells_of(table: str | bytes, name: str) -> list[str]:
    return [row[name] for row in rows_of(table)]
