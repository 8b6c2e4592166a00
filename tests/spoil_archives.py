#!/usr/bin/env python3
"""spoil_archives.py PROGRAM

Spoils archives, and runs PROGRAM, the built `gasday`, on them: cut off behind each 512th byte, with a byte of a kept body or of
the file changed, with another schema, read-only, in a folder that can't be written, on a disk that is full when the log is to be
copied into the file, and two processes on one file at once.

Each answer has to be one that fits: what `audit` counts as sound is what `check best` passes of the kept bodies, worked out
here with Python's own sqlite3; else one row tells that it is no archive, of an old version, or which row is damaged or unsound,
with the status that goes with it, and the file is as before. What `audit --all` tells has to fit that row. The last line is 'N passed, M failed', and the exit status is 0
only where none failed.
"""

import os
import re
import resource
import sqlite3
import subprocess
import sys
import tempfile
from concurrent.futures import ThreadPoolExecutor
from hashlib import sha256
from pathlib import Path

DAY = b"""\
segment,S1,A,B,100,,,
point,R1,receipt,A,OPR,1000,,
point,D1,delivery,B,OPD,1000,,
contract,FIRM,SHIP,firm,100,R1,D1,
contract,INT,SHIP,interruptible,100,,,
day,2026-03-08,"CST6CDT,M3.2.0,M11.1.0",DEMO,,,,
carry,FIRM,P,R1,D1,80,,
nominate,1772910900,SHIP,FIRM,P,R1,D1,80
nominate,1772910900,SHIP,INT,P,R1,D1,70
freeze,1772922600,,,,,,
settle,1772922600,,,,,,
freeze,1772937000,,,,,,
settle,1772937000,,,,,,
"""

STORE = (b"fault,0,Store,,,,,\n", 2)
OTHER_VERSION = (b"refused,migrate,1,OtherVersion,,,,\n", 1)
OLD_VERSION = (b"fault,0,OldVersion,,,,,\n", 2)
KEPT = b"refused,keep,1,Kept,,,,\n"
UNSOUND = re.compile(rb"unsound,[A-Z0-9-]+,[1-5],[A-Za-z]+,,,,\n")
AUDITED = re.compile(rb"audited,[0-9]+,,,,,,\n")

SCHEMAS = [
    "CREATE TABLE more (x INTEGER)",
    "CREATE INDEX by_round ON posting2 (round)",
    "CREATE VIEW all_postings AS SELECT * FROM posting2",
    "ALTER TABLE posting2 ADD COLUMN more INTEGER",
    "ALTER TABLE posting2 RENAME TO posting3",
    "DROP TABLE posting2",
    "DROP TABLE posting",
    "DROP TABLE archive",
]

# What leaves the first tables and their version, so that `day --archive` makes the last one again.
COMPLETED = "DROP TABLE posting2"

# Whole postings that a row may be given in place of its own, and what is then told.
ROWS = [
    ("UPDATE posting2 SET rule = 1 WHERE cycle = 2", None),
    ("UPDATE posting2 SET round = 9 WHERE cycle = 2", b"unsound,DEMO,2,Damaged,,,,\n"),
    ("UPDATE posting2 SET cycle = 3 WHERE cycle = 2", b"unsound,DEMO,3,Damaged,,,,\n"),
    ("UPDATE posting2 SET book = 'OTHER' WHERE cycle = 2", b"unsound,OTHER,2,Damaged,,,,\n"),
    ("UPDATE posting2 SET body = x'' WHERE cycle = 1", b"unsound,DEMO,1,Damaged,,,,\n"),
]


class Archives:
    """The program, a folder of its own, and how many trials passed and failed."""

    def __init__(self, program, folder):
        self.program, self.folder = program, folder
        self.passed = self.failed = 0

    def run(self, *words, text=b"", prefix=()):
        done = subprocess.run([*prefix, self.program, *map(str, words)], input=text, capture_output=True, timeout=600)
        return done.stdout, done.returncode

    def run_with_files_up_to(self, size, *words, text):
        """A run in which no file can be longer, which is told on standard error too. (Python passes on that it ignores the signal.)"""
        limit = lambda: resource.setrlimit(resource.RLIMIT_FSIZE, (size, size))
        done = subprocess.run([self.program, *map(str, words)], input=text, capture_output=True, timeout=600, preexec_fn=limit, restore_signals=False)
        return done.stdout, done.returncode, done.stderr

    def note(self, name, is_right):
        self.passed, self.failed = self.passed + bool(is_right), self.failed + (not is_right)
        if not is_right:
            print(f"FAIL {name}")

    def changed(self, whole, name, statements):
        """A copy of an archive after these statements, by Python's sqlite3."""
        path = self.folder / name
        path.write_bytes(whole)
        archive = sqlite3.connect(path)
        for statement, values in statements:
            archive.execute(statement, values)
        archive.commit()
        archive.close()
        return path

    def is_sound(self, body, cycle):
        """Whether a body is a posting of its cycle that `check best` passes."""
        rows = body.split(b"\n")
        asked = [row for row in rows if not row.startswith(b"bumped,")]
        heads = [row for row in rows if row.startswith(b"question,DEMO,%d,%d," % (cycle, cycle))]
        return len(heads) == 1 and self.run("check", "best", text=b"\n".join(asked))[1] == 0


def is_answer(got):
    """One row that `audit` may tell, with its status."""
    rows, status = got
    return got in (STORE, OLD_VERSION) or (status == 1 and UNSOUND.fullmatch(rows)) or (status == 0 and AUDITED.fullmatch(rows))


def fits(got, each):
    """Whether what `audit --all` tells fits what `audit` does: the same fault, or a row of each posting, of which the sound ones are
    counted. `audit` tells the first unsound one of these, where bumped lines are not looked at, or counts them all."""
    (row, status), (rows, each_status) = got, each
    if status == 2 or not rows:
        return each == got
    *told, last = rows.splitlines(keepends=True)
    sound = [it for it in told if it.startswith(b"sound,")]
    bumped = [it for it in told if re.fullmatch(rb"unsound,[A-Z0-9-]+,[1-5],Bumped,,,,\n", it)]
    unsound = [it for it in told if UNSOUND.fullmatch(it) and it not in bumped]
    unchecked = [it for it in told if re.fullmatch(rb"unchecked,[A-Z0-9-]+,[1-5],Bumped,,,,\n", it)]
    if len(sound) + len(bumped) + len(unsound) + len(unchecked) != len(told) or last != b"audited,%d,,,,,,\n" % len(sound):
        return False
    if each_status != (1 if bumped or unsound else 0):
        return False
    return unsound[:1] == [row] if status else not unsound and row == b"audited,%d,,,,,,\n" % (len(sound) + len(bumped))


def cut_off(archives, whole):
    """The file is shorter: it is no archive, or is told unsound, and nothing is written to it."""
    for length in range(0, len(whole), 512):
        path = archives.folder / f"cut-{length}.db"
        path.write_bytes(whole[:length])
        got, each = archives.run("audit", path), archives.run("audit", "--all", path)
        archives.note(f"audit of {length} bytes: {got}", is_answer(got) and got[1] != 0 and path.read_bytes() == whole[:length])
        archives.note(f"audit --all of {length} bytes: {each}", fits(got, each))
        got = archives.run("migrate", path)
        archives.note(f"migrate of {length} bytes: {got}", got[1] != 0 and path.read_bytes() == whole[:length])


def spoiled(archives, whole):
    """One byte of the file is another one: whatever is told is one row, and the program ends in order."""
    def trial(at):
        path = archives.folder / f"spoiled-{at}.db"
        path.write_bytes(whole[:at] + bytes([whole[at] ^ 1]) + whole[at + 1 :])
        got, each = archives.run("audit", path), archives.run("audit", "--all", path)
        path.unlink()
        return at, got, each
    with ThreadPoolExecutor(os.cpu_count() or 2) as pool:
        for at, got, each in pool.map(trial, range(0, len(whole), 7)):
            archives.note(f"audit with byte {at} changed: {got}", is_answer(got))
            archives.note(f"audit --all with byte {at} changed: {each}", fits(got, each))


def other_bodies(archives, whole):
    """Each byte of the last body is another one: `audit` counts it exactly where `check best` passes it."""
    path = archives.folder / "whole.db"
    path.write_bytes(whole)
    reader = sqlite3.connect(path)
    (first,), (body,) = reader.execute("SELECT body FROM posting2 ORDER BY cycle").fetchall()
    reader.close()

    def trial(at):
        other = body[:at] + bytes([body[at] ^ 1]) + body[at + 1 :]
        name = f"body-{at}.db"
        path = archives.changed(whole, name, [("UPDATE posting2 SET body = ? WHERE cycle = 2", (other,))])
        before = path.read_bytes()
        got, each = archives.run("audit", path), archives.run("audit", "--all", path)
        is_bumped = b"\nbumped," in other[: at + 1]
        want = got[1] in (0, 1) if is_bumped else got[1] == (0 if archives.is_sound(other, 2) else 1)
        is_right = want and is_answer(got) and got not in (STORE, OLD_VERSION) and path.read_bytes() == before
        sums = [sha256(it).hexdigest().encode() + b"\n" for it in (first, other)]
        has_sums = all(it.endswith(sums[int(it.split(b",")[2]) - 1]) for it in each[0].splitlines(keepends=True) if it.startswith(b"sound,"))
        return at, got, is_right, each, fits(got, each) and has_sums
    with ThreadPoolExecutor(os.cpu_count() or 2) as pool:
        for at, got, is_right, each, has_each in pool.map(trial, range(len(body))):
            archives.note(f"audit with byte {at} of a body changed: {got}", is_right)
            archives.note(f"audit --all with byte {at} of a body changed: {each}", has_each)


def other_tables(archives, whole, rows):
    """Another schema is no archive, and other rows are told. Who migrates is told first that the version isn't 1, where it can be
    read. Where no more than the last table is lacking, a day completes the archive."""
    for at, statement in enumerate(SCHEMAS):
        path = archives.changed(whole, f"schema-{at}.db", [(statement, ())])
        before = path.read_bytes()
        for words, text in ((("audit",), b""), (("migrate",), b""), (("day", "--archive"), DAY)):
            got = archives.run(*words, path, text=text)
            if statement == COMPLETED and text:
                again = archives.run("audit", path)
                archives.note(f"a day after {statement}: {got}, then {again}", got == (rows, 0) and again == (b"audited,2,,,,,,\n", 0))
                continue
            want = OTHER_VERSION if words == ("migrate",) and statement != "DROP TABLE archive" else STORE
            archives.note(f"{' '.join(words)} after {statement}: {got}", got == want and path.read_bytes() == before)
    for at, (statement, row) in enumerate(ROWS):
        path = archives.changed(whole, f"rows-{at}.db", [(statement, ())])
        got, each = archives.run("audit", path), archives.run("audit", "--all", path)
        want = (b"audited,2,,,,,,\n", 0) if row is None else (row, 1)
        archives.note(f"audit after {statement}: {got}", got == want)
        archives.note(f"audit --all after {statement}: {each}", fits(got, each))


def not_writable(archives, whole):
    """A file or a folder that can't be written, for who isn't root: what is only read is told as of one that can be."""
    # (root without these rights may write no more than others)
    rights = "-dac_override,-dac_read_search"
    prefix = ("setpriv", f"--bounding-set={rights}", f"--inh-caps={rights}") if os.geteuid() == 0 else ()
    folder = archives.folder / "closed"
    folder.mkdir()
    path = folder / "kept.db"
    path.write_bytes(whole)
    path.chmod(0o444)
    book, kept_book = archives.folder / "0308.book", folder / "0308.book"
    archives.run("day", "--book", book, text=DAY)
    kept_book.write_bytes(book.read_bytes())
    kept_book.chmod(0o444)
    folder.chmod(0o555)
    sound = archives.run("audit", path, prefix=prefix)
    archives.note(f"audit of a read-only file: {sound}", sound == (b"audited,2,,,,,,\n", 0))
    for words, cycle in (("audit", ()), ("text", ()), ("question", ("2",)), ("carry", ())):
        want, got = archives.run(words, book, *cycle), archives.run(words, kept_book, *cycle, prefix=prefix)
        archives.note(f"{words} of a read-only book: {got}", got == want and got[1] == 0)
    archives.note("nothing is written beside them", sorted(os.listdir(folder)) == [kept_book.name, path.name])
    for words, text in ((("migrate",), b""), (("day", "--archive"), DAY)):
        got = archives.run(*words, path, text=text, prefix=prefix)
        archives.note(f"{' '.join(words)} of a read-only file: {got}", got == STORE and path.read_bytes() == whole)
    got = archives.run("day", "--archive", folder / "new.db", text=DAY, prefix=prefix)
    archives.note(f"day in a closed folder: {got}", got == STORE and not (folder / "new.db").exists())
    folder.chmod(0o755)


def not_copied(archives, whole, rows):
    """A disk has no room for what the log has to leave in the file: that is told, and what was kept stays in the log."""
    path = archives.folder / "full.db"
    path.write_bytes(whole)
    filled = sqlite3.connect(path)
    kept = filled.execute("SELECT book, cycle, round, body, rule FROM posting2").fetchall()
    for number in range(900):
        name = "DAY-%03d" % number
        others = [(name, cycle, round_, body.replace(b",DEMO,", b",%s," % name.encode()), rule) for _, cycle, round_, body, rule in kept]
        filled.executemany("INSERT INTO posting2 (book, cycle, round, body, rule) VALUES (?, ?, ?, ?, ?)", others)
    filled.commit()
    filled.close()
    # (the log takes some 300 kB at once, and what is kept last goes to the end of the file)
    size = path.stat().st_size - 65536
    told, status, why = archives.run_with_files_up_to(size, "day", "--archive", path, text=DAY.replace(b",DEMO,", b",LAST,"))
    archives.note(f"a log that can't be copied into a file of {size} bytes: {status}, {why}",
                  status == 2 and told == rows and b"can't copy the log into its file" in why)
    got = archives.run("audit", path)
    archives.note(f"audit of file and log: {got}", got == (b"audited,1804,,,,,,\n", 0))


def at_once(archives, rows):
    """Two processes on one new file: each keeps, finds kept, or is told that it can't open; and nothing is damaged."""
    for trial in range(20):
        path = archives.folder / f"shared-{trial}.db"
        with ThreadPoolExecutor(2) as pool:
            both = list(pool.map(lambda _: archives.run("day", "--archive", path, text=DAY), range(2)))
        kept = [got[len(rows) :] if got.startswith(rows) else got for got, _ in both]
        fits = all(told in (b"", KEPT, 2 * KEPT, STORE[0]) for told in kept)
        again = archives.run("day", "--archive", path, text=DAY)
        whole = archives.run("audit", path)
        archives.note(f"two at once: {kept}, then {again}, then {whole}",
                      fits and again[0].startswith(rows) and again[1] in (0, 1) and whole == (b"audited,2,,,,,,\n", 0))


def main():
    if len(sys.argv) != 2:
        print(__doc__.strip())
        return 2
    with tempfile.TemporaryDirectory() as name:
        folder = Path(name)
        archives = Archives(os.path.abspath(sys.argv[1]), folder)
        rows, status = archives.run("day", "--archive", folder / "first.db", text=DAY)
        archives.note("a day is kept", status == 0)
        whole = (folder / "first.db").read_bytes()
        archives.note("what is kept is sound", archives.run("audit", folder / "first.db") == (b"audited,2,,,,,,\n", 0))
        (folder / "copy.db").write_bytes(whole)
        archives.note("the file has all of it, without its log", archives.run("audit", folder / "copy.db") == (b"audited,2,,,,,,\n", 0))
        cut_off(archives, whole)
        spoiled(archives, whole)
        other_bodies(archives, whole)
        other_tables(archives, whole, rows)
        not_writable(archives, whole)
        not_copied(archives, whole, rows)
        at_once(archives, rows)
    print(f"{archives.passed} passed, {archives.failed} failed")
    return 0 if archives.passed and not archives.failed else 1


if __name__ == "__main__":
    sys.exit(main())
