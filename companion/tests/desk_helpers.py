"""What the tests of gasday-desk share: a program that plays `gasday` on a book, a desk in a folder, and who is on it."""

import importlib.util
import logging
import os
import shutil
import subprocess
import sys
import tempfile
import unittest
from functools import lru_cache
from pathlib import Path

from helpers import GASDAY, TOP

from gasday_desk.clock import Clock
from gasday_desk.command import make_folder
from gasday_desk.people import scrypted
from gasday_desk.settings import User, write_users

COMPANION = TOP / "companion"
NO_FLASK = "Flask is not installed"
HAS_FLASK = importlib.util.find_spec("flask") is not None
needs_waitress = unittest.skipUnless(importlib.util.find_spec("waitress"),
                                     "this Python has no waitress (apt-get install python3-waitress)")
BOOK = "TEST-20260308"

# The worked day of two cycles: the capacities are so that a firm line can bump an interruptible one.
PIPELINE = """segment,S1,A,B,100,,,
point,R1,receipt,A,OPR,1000,,
point,D1,delivery,B,OPD,1000,,
"""
CONTRACTS = """contract,FIRM,SHIP,firm,100,R1,D1,
contract,INT,TRADE,interruptible,100,,,
"""
DAY = 'day,2026-03-08,"CST6CDT,M3.2.0,M11.1.0",TEST-20260308,,,,\n'
# From document 04 of the papers: the calendar of that day.
CALENDAR = """cycle,1,1772910000,1772910900,1772911800,1772922600,1772924400,1772978400
cycle,2,1772928000,1772928900,1772929800,1772937000,1772938800,1772978400
cycle,3,1772982000,1772982900,1772983800,1772991000,1772992800,1772996400
cycle,4,1772998200,1772999100,1773000000,1773007200,1773009000,1773010800
cycle,5,1773014400,1773015300,1773016200,1773023400,1773025200,1773025200
hours,24,0,0,5,9,13,
"""
SETTINGS = """listen = "127.0.0.1:0"
[[pipeline]]
name = "test"
book = "TEST"
zone = "CST6CDT,M3.2.0,M11.1.0"
"""
PASSWORD = "correct horse"
# Of each role one user, and another one of another party where a role has parties of its own.
USERS = (("sue", "SHIP", "shipper"), ("tim", "TRADE", "shipper"), ("ora", "OPR", "operator"), ("odo", "OPD", "operator"),
         ("sam", "PIPE", "scheduler"), ("aud", "PIPE", "auditor"))

# Plays `gasday` on a book, without any rule but these: an unknown contract is refused, all else is taken, a freeze bounds each
# line by what was nominated last, and a settle gives each its ceiling. One process has a file at a time.
FAKE = """#!{python} -IS
import fcntl, os, sys
CALENDAR = '''{calendar}'''
CALLS = ("nominate", "respond", "post", "freeze", "settle", "publish", "skip", "waive", "declare")

def padded(*fields):
    row = [str(field) for field in fields]
    return ",".join(row + [""] * (8 - len(row)))

class Day:
    def __init__(self, opening):
        self.contracts = [line.split(",")[1] for line in opening if line.startswith("contract,")]
        self.events, self.calls, self.cycle, self.round, self.lines = 0, 0, 1, 0, []

    def call(self, row):
        kind = row[0]
        if kind == "nominate" and row[3] not in self.contracts:
            self.calls += 1
            return [padded("refused", "nominate", 2, "UnknownContract")], [row]
        if not row[-1].isdigit() and kind == "nominate":
            return None
        self.calls, self.events = self.calls + 1, self.events + 1
        if kind == "nominate":
            key = row[3:7]
            if key not in [line[0] for line in self.lines]:
                self.lines.append([key, 0])
            at = [line[0] for line in self.lines].index(key)
            self.lines[at][1] = row[7]
            return [padded("accepted", self.events, self.cycle, at + 1)], [row]
        if kind == "freeze":
            self.round += 1
            bounds = [padded("bound", at, 1, 0, line[1]) for at, line in enumerate(self.lines, 1)]
            return [padded("frozen", self.events, self.cycle, self.round, len(self.lines)), *bounds], [row]
        if kind in ("settle", "publish"):
            scheds = [padded("sched", at, line[1]) for at, line in enumerate(self.lines, 1)]
            told = [padded("published", self.events, self.cycle, self.round), padded("total", 1, 0), *scheds]
            self.cycle += 1
            return told, [*(line.split(",") for line in scheds), padded("publish", row[1], self.round).split(",")]
        return [padded("done", self.events)], [row]

def parts(text):
    lines = text.splitlines()
    at = next((at for at, line in enumerate(lines) if line.split(",")[0] in CALLS + ("sched", "price", "inside")), len(lines))
    return lines[:at], lines[at:]

def told_of(text):
    opening, rows = parts(text)
    day, told = Day(opening), []
    for row in rows:
        if row.split(",")[0] in CALLS:
            told += day.call(row.split(","))[0]
    return day, told

def held(path):
    file = open(path, "a+")
    try:
        fcntl.flock(file, fcntl.LOCK_EX | fcntl.LOCK_NB)
    except OSError:
        print(padded("fault", 0, "Busy"))
        sys.exit(2)
    file.seek(0)
    return file

def serve(path):
    file = held(path)
    text = file.read()
    if not text:
        file.write(sys.stdin.read())
        file.flush()
        print(padded("opened", "TEST", 0, 0))
        return
    day, _ = told_of(text)
    os.write(1, (padded("opened", "TEST", day.calls, day.events) + "\\n").encode())
    rest, number = b"", 0
    while part := os.read(0, 65536):
        *lines, rest = (rest + part).split(b"\\n")
        out = []
        for line in lines:
            if not line:
                out.append("")
                continue
            number += 1
            made = day.call(line.decode().split(",")) if line.split(b",")[0].decode() in CALLS else None
            if made is None:
                out.append(padded("fault", number, "BadField", 8))
                continue
            told, kept = made
            for row in kept:
                file.write(",".join(row) + "\\n")
            out += told
        file.flush()
        os.write(1, "".join(row + "\\n" for row in out).encode())

words = sys.argv[1:]
if words[0] == "calendar":
    print(CALENDAR, end="")
elif words[:2] == ["day", "--book"]:
    serve(words[2])
elif words[0] == "day":
    print("\\n".join(told_of(sys.stdin.read())[1]))
elif words[0] == "text":
    print(held(words[1]).read(), end="")
"""


class HandClock(Clock):
    """A clock that is put forward by hand; its ticks go with it, unless it is set."""

    def __init__(self, moment: int) -> None:
        self.moment, self.passed = float(moment), 0.0

    def now(self) -> float:
        return self.moment

    def ticks(self) -> float:
        return self.passed

    def pass_to(self, moment: int) -> None:
        self.passed += moment - self.moment
        self.moment = float(moment)


class DeskTest(unittest.TestCase):
    """A desk in a folder, with a program that plays gasday, or with the built one."""

    real = False

    def setUp(self) -> None:
        logging.disable(logging.CRITICAL)
        self.addCleanup(logging.disable, logging.NOTSET)
        folder = tempfile.TemporaryDirectory()
        self.addCleanup(folder.cleanup)
        self.folder = Path(folder.name)
        self.program = str(GASDAY) if self.real else self.fake()
        self.clock = HandClock(1772910000)

    def fake(self) -> str:
        path = self.folder / "gasday"
        path.write_text(FAKE.format(python=sys.executable, calendar=CALENDAR))
        path.chmod(0o755)
        return str(path)

    def make_desk(self) -> Path:
        """The folder of a desk with users, a pipeline and one open day."""
        path = self.folder / "desk"
        make_folder(path, SETTINGS)
        (path / "pipelines" / "test").mkdir()
        (path / "pipelines" / "test" / "pipeline.csv").write_text(PIPELINE)
        (path / "pipelines" / "test" / "contracts.csv").write_text(CONTRACTS)
        write_users(path / "users.toml", {name: User(name, party, role, hashed()) for name, party, role in USERS})
        self.make_book(path / "books" / f"{BOOK}.book")
        return path

    def make_book(self, file: Path) -> None:
        text = PIPELINE + CONTRACTS + DAY
        subprocess.run([self.program, "day", "--book", file], input=text.encode(), check=True, capture_output=True)


@lru_cache(maxsize=1)
def hashed() -> str:
    """The password's hash, made cheaply."""
    return "scrypt:1024:8:1$salt$" + scrypted(PASSWORD, "salt", 1024)


@lru_cache(maxsize=1)
def serving_python() -> str | None:
    """A Python with Flask and waitress: this one, else Debian's own."""
    for python in (sys.executable, shutil.which("python3", path="/usr/bin")):
        if python and not subprocess.run([python, "-c", "import flask, waitress"], capture_output=True).returncode:
            return python
    return None


NO_SERVER = "no Python has Flask and waitress (apt-get install python3-flask python3-waitress)"
