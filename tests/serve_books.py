#!/usr/bin/env python3
"""serve_books.py PROGRAM [KILLS]

Serves gas days on books that files keep with PROGRAM, the built `gasday` (`day --book`), and looks at what is told and what is
kept: each day of the acceptance cases, each call awaited before the next is sent, is told as `day` tells it, whatever faulty
rows come between; a day in two writes, cut at each byte; runs that are killed at KILLS random moments (200 without a number),
after which all that was told has to be kept; files that are cut off, changed in a byte or in a row, of another kind, held by
another process, on a disk that is full, with as many rows as a text may have, or in a folder that can't be written; readers and
writers that end early.

What a file has to say is worked out by `day` over the text that it keeps, and by Python's own sqlite3. The last line is
'N passed, M failed', and the exit status is 0 only where none failed.
"""

import fcntl
import os
import random
import re
import resource
import sqlite3
import subprocess
import sys
import tempfile
import termios
import time
from concurrent.futures import ThreadPoolExecutor
from pathlib import Path

HERE = Path(__file__).resolve().parent
LIMIT = 600
OF_CALLS = {b"sched", b"price", b"inside", b"nominate", b"respond", b"post", b"freeze", b"settle", b"publish", b"declare", b"waive", b"skip"}
STORE = (b"fault,0,Store,,,,,\n", 2)
BUSY = (b"fault,0,Busy,,,,,\n", 2)
DIFFERS = re.compile(rb"differs,[0-9]+,[0-9]+,,,,,\n")
OPENED = re.compile(rb"opened,([A-Z0-9-]+),([0-9]+),([0-9]+),,,,\n")
REPLAYED = re.compile(rb"replayed,[A-Z0-9-]+,[0-9]+,[0-9]+,[0-9]+,,,\n")


class Run:
    """A run of `day --book` that is driven through two pipes."""

    def __init__(self, program, path, **how):
        self.process = subprocess.Popen([program, "day", "--book", str(path)], stdin=subprocess.PIPE, stdout=subprocess.PIPE, stderr=subprocess.PIPE, bufsize=0, **how)
        self.reader = self.process.stdout
        self.rest = b""

    def send(self, text):
        self.process.stdin.write(text)

    def is_read(self):
        """Waits until all that was sent is read."""
        left = bytearray(4)
        for _ in range(20000):
            fcntl.ioctl(self.process.stdin.fileno(), termios.FIONREAD, left)
            if not int.from_bytes(left, sys.byteorder):
                return True
            time.sleep(0.0005)
        return False

    def row(self):
        """The next row, or what is left of it where the run has ended."""
        while b"\n" not in self.rest:
            part = self.reader.read(65536)
            if not part:
                row, self.rest = self.rest, b""
                return row
            self.rest += part
        row, _, self.rest = self.rest.partition(b"\n")
        return row + b"\n"

    def call(self, *rows):
        """What these rows are told, up to the empty line behind them."""
        self.send(b"".join(rows) + b"\n")
        told = []
        while (row := self.row()) not in (b"\n", b""):
            told.append(row)
        return b"".join(told)

    def end(self):
        """All that is told until the end of the input, and the exit status."""
        try:
            self.process.stdin.close()
        except BrokenPipeError:
            pass
        rest, self.rest = self.rest, b""
        while part := self.reader.read(65536):
            rest += part
        self.reader.close()
        self.process.stderr.close()
        return rest, self.process.wait(LIMIT)


class Books:
    """The program, a folder of its own, and how many trials passed and failed."""

    def __init__(self, program, folder):
        self.program, self.folder = program, folder
        self.passed = self.failed = 0

    def run(self, *words, text=b"", **how):
        done = subprocess.run([self.program, *map(str, words)], input=text, capture_output=True, timeout=LIMIT, **how)
        return done.stdout, done.returncode

    def note(self, name, is_right):
        self.passed, self.failed = self.passed + bool(is_right), self.failed + (not is_right)
        if not is_right:
            print(f"FAIL {name}", flush=True)

    def replays(self, path):
        """Whether the file replays, and `day` answers the text that it keeps as the file says."""
        rows, status = self.run("audit", path)
        text = self.run("text", path)
        told = b"".join(it[0] for it in pieces_of(path, "told"))
        return status == 0 and REPLAYED.fullmatch(rows) and text[1] == 0 and self.run("day", text=text[0]) == (told, 0)


def pieces_of(path, columns="rows, told"):
    file = sqlite3.connect(f"file:{path}?mode=ro", uri=True)
    try:
        return file.execute(f"SELECT {columns} FROM piece ORDER BY number").fetchall()
    finally:
        file.close()


def cases():
    """The texts of the cases of `day`, by name, with what is told of each and the status."""
    found = {}
    for path in sorted((HERE / "cases" / "day").glob("*.case")):
        parts = re.split(rb"(?m)^-- ([a-z ]+) --\n", path.read_bytes())
        case = dict(zip(parts[1::2], parts[2::2]))
        if case.get(b"args", b"").split() == [b"day"] and b"stdin" in case and b"stdout" in case:
            found[path.stem] = case[b"stdin"].removesuffix(b"\n") + b"\n", case[b"stdout"], int(case[b"status"])
    return found


def opening_of(text):
    """The lines before the first one of calls, and the lines from there."""
    lines = text.splitlines(keepends=True)
    at = next((at for at, line in enumerate(lines) if line.split(b",", 1)[0] in OF_CALLS), len(lines))
    return b"".join(lines[:at]), lines[at:]


def calls_in(lines):
    """The lines of each call with its group, in order; those behind the last call come last."""
    group = []
    for line in lines:
        group.append(line)
        if line.split(b",", 1)[0] not in (b"sched", b"price", b"inside"):
            yield group
            group = []
    if group:
        yield group


def is_plain(lines):
    """Whether the lines can be live rows as they are: no quotation mark, no carriage return, and none empty."""
    return not any(b'"' in line or b"\r" in line or line == b"\n" for line in lines)


def awaited(books, name, text, answer):
    """A day whose calls are awaited one by one is told as `day` tells it, and its file replays; so does a file of its text."""
    opening, lines = opening_of(text)
    path = books.folder / f"{name}.book"
    first = books.run("day", "--book", path, text=opening)
    run = Run(books.program, path)
    began, told = run.row(), b"".join(run.call(*call) for call in calls_in(lines))
    rest, status = run.end()
    books.note(f"{name}: {first}, {status}", first[1] == 0 and began == first[0] and rest == b"" and status == 0 and told == answer)
    books.note(f"{name}: its file", books.replays(path))
    again, other = books.run("text", path)[0], books.folder / f"{name}-again.book"
    got, status = books.run("day", "--book", other, text=again)
    parts = [b"".join(part) for part in zip(*pieces_of(path))]
    books.note(f"{name}: a file of its text", status == 0 and got == began + answer and [b"".join(part) for part in zip(*pieces_of(other))] == parts)
    for it in (path, other):
        it.unlink()


def faulty(books, name, text, answer):
    """A faulty text goes on behind its fault, which is told; what else is told is what `day` answers to the rows that are kept."""
    opening, lines = opening_of(text)
    path = books.folder / f"{name}.book"
    fault = answer.splitlines(keepends=True)[0]
    got, status = books.run("day", "--book", path, text=opening + b"".join(lines))
    rows = got.splitlines(keepends=True)
    if not OPENED.fullmatch(rows[0]):
        # (an opening ends before the first call, so that what is missing is missed there, and a calendar is refused before its faults)
        is_told = status == 1 and got.startswith(b"refused,calendar,") or status == 2 and got.split(b",")[2] == fault.split(b",")[2]
        books.note(f"{name}: {got}, {status}", is_told)
        return
    faults = [row for row in rows if row.startswith(b"fault,")]
    # (rows of a group that no call takes are dropped with the run)
    is_told = fault in faults or fault.split(b",")[2] in (b"Order", b"Missing")
    told = b"".join(row for row in rows[1:] if row not in faults)
    books.note(f"{name}: {faults}, {status}", is_told and status == (1 if faults else 0) and books.run("day", text=books.run("text", path)[0])[0] == told and books.replays(path))
    path.unlink()


def in_two(books, text, answer):
    """A day that comes in two reads, cut at each byte: what is told is the same, and what stands behind the last line feed is no row."""
    def trial(at):
        path = books.folder / f"two-{at}.book"
        run = Run(books.program, path)
        run.send(text[:at])
        is_read = run.is_read()
        run.send(text[at:])
        told, status = run.end()
        began, _, rest = told.partition(b"\n")
        is_right = is_read and status == 0 and OPENED.fullmatch(began + b"\n") and rest == answer and books.replays(path)
        path.unlink()
        early = books.run("day", "--book", path, text=text[:at])
        whole = text[:at].rfind(b"\n") + 1 == at
        is_front = early[1] == 0 if whole and at > len(opening_of(text)[0]) else early[1] in (0, 2)
        path.unlink(missing_ok=True)
        return at, is_right, is_front
    with ThreadPoolExecutor(os.cpu_count() or 2) as pool:
        for at, is_right, is_front in pool.map(trial, range(1, len(text))):
            books.note(f"in two at byte {at}", is_right)
            books.note(f"ended at byte {at}", is_front)


def killed(books, opening, kills, size):
    """Runs that are killed: what was told is kept, and the run goes on behind it."""
    chance = random.Random(2016 + size)
    call = b"nominate,1772910900,SHIP,INT,P%d,R1,D1,1\n"
    for trial in range(kills):
        path = books.folder / f"killed-{size}-{trial}.book"
        books.run("day", "--book", path, text=opening)
        run = Run(books.program, path)
        run.row()
        deadline, sent, told = time.monotonic() + chance.uniform(0.001, 0.15), 0, 0
        while time.monotonic() < deadline:
            block = [call % (sent + at) for at in range(size)]
            sent += size
            if trial % 2:
                told += run.call(*block).count(b"\n")
            else:
                run.send(b"".join(block))
                os.set_blocking(run.reader.fileno(), False)
                run.rest += run.reader.read() or b""
                os.set_blocking(run.reader.fileno(), True)
        run.process.kill()
        rest, _ = run.end()
        told += rest.count(b"\n")
        again = Run(books.program, path)
        began = OPENED.fullmatch(again.row())
        reply = again.call(b"post,1772910950,S1,60,,,,\n")
        _, status = again.end()
        kept = int(began[2]) if began else -1
        books.note(f"killed {trial} of {size}: told {told}, kept {kept}, sent {sent}", began and told <= kept <= sent and kept % size == 0 or trial % 2 == 0 and told <= kept <= sent)
        books.note(f"killed {trial} of {size}, and gone on: {reply}", reply.startswith(b"done,") and status == 0 and books.replays(path))
        for it in books.folder.glob(f"{path.name}*"):
            it.unlink()


def spoiled(books, whole, text):
    """The file is shorter, or one of its bytes is another one: it is told that it is no book, or differs, and nothing is written."""
    def trial(name, data):
        path = books.folder / f"{name}.book"
        path.write_bytes(data)
        got = books.run("audit", path)
        printed = books.run("text", path)
        # (another opening may be a book to the same calls, as one with another name)
        is_book = got[1] == 0 and (printed == (text, 0) or books.replays(path))
        is_right = got == STORE or got[1] == 1 and DIFFERS.fullmatch(got[0]) or is_book
        same = path.read_bytes() == data
        for it in books.folder.glob(f"{path.name}*"):
            it.unlink()
        return name, got, is_right and same
    cuts = [(f"cut-{length}", whole[:length]) for length in range(512, len(whole), 512)]
    others = [(f"byte-{at}", whole[:at] + bytes([whole[at] ^ 1]) + whole[at + 1 :]) for at in range(0, len(whole), 7)]
    with ThreadPoolExecutor(os.cpu_count() or 2) as pool:
        for name, got, is_right in pool.map(lambda it: trial(*it), cuts + others):
            books.note(f"{name}: {got}", is_right)


STATEMENTS = [
    ("UPDATE piece SET told = replace(told, 'accepted', 'refused') WHERE number = 2", 2),
    ("UPDATE piece SET told = told || x'0a' WHERE number = 3", 3),
    ("UPDATE piece SET told = x'' WHERE number = 2", 2),
    ("UPDATE piece SET told = x'0a' WHERE number = 1", 1),
    ("UPDATE piece SET rows = replace(rows, ',70', ',170') WHERE number = 2", 2),
    ("UPDATE piece SET rows = rows || 'freeze,1' WHERE number = 3", 3),
    ("UPDATE piece SET rows = replace(rows, 'R1', 'R2') WHERE number = 1", 2),
    ("UPDATE piece SET rows = x'' WHERE number = 1", 1),
    ("DELETE FROM piece WHERE number = 1", None),
    ("DELETE FROM piece WHERE number = 2", None),
    ("UPDATE piece SET number = 99 WHERE number = 3", None),
    ("UPDATE piece SET told = 7 WHERE number = 2", None),
    ("ALTER TABLE piece ADD COLUMN more BLOB", None),
    ("CREATE TABLE more (x INTEGER)", None),
    ("DROP TABLE piece", None),
]


def changed(books, whole):
    """A row or the schema is another one."""
    for at, (statement, piece) in enumerate(STATEMENTS):
        path = books.folder / f"changed-{at}.book"
        path.write_bytes(whole)
        file = sqlite3.connect(path)
        file.execute(statement.replace("replace(told,", "replace(cast(told as text),").replace("replace(rows,", "replace(cast(rows as text),"))
        # (a text in the place of bytes is another fault)
        for column in ("told", "rows"):
            if "TABLE" not in statement and "= 7" not in statement:
                file.execute(f"UPDATE piece SET {column} = cast({column} as blob)")
        file.commit()
        file.close()
        before = path.read_bytes()
        for words in (("audit", path), ("day", "--book", path)):
            rows, status = books.run(*words)
            is_told = rows.startswith(b"differs,%d," % piece) and status == 1 if piece else (rows, status) == STORE or DIFFERS.fullmatch(rows) and status == 1
            if statement == "DROP TABLE piece":
                is_told = (rows, status) == STORE if words[0] == "audit" else status != 0
            books.note(f"{words[0]} after {statement}: {rows}, {status}", is_told and (path.read_bytes() == before or statement == "DROP TABLE piece"))


def other_files(books, text):
    """Files of other kinds, none, empty, or in a folder that can't be written."""
    archive = books.folder / "postings.db"
    books.run("day", "--archive", archive, text=text)
    other = books.folder / "text.book"
    other.write_bytes(text)
    for path in (archive, other):
        before = path.read_bytes()
        for words in (("day", "--book", path), ("text", path)):
            got = books.run(*words, text=text)
            books.note(f"{words[0]} on {path.name}: {got}", got == STORE and path.read_bytes() == before)
    for words in (("audit",), ("audit", "--all"), ("migrate",), ("day", "--archive")):
        got = books.run(*words, other, text=text)
        books.note(f"{' '.join(words)} on a text: {got}", got == STORE and other.read_bytes() == text)
    books.note("nothing is written beside a text", not [it for it in os.listdir(books.folder) if it.startswith(other.name + "-")])
    for words in (("audit", books.folder / "none.book"), ("text", books.folder / "none.book")):
        got = books.run(*words)
        books.note(f"{words[0]} of no file: {got}", got == STORE and not (books.folder / "none.book").exists())
    # (root without these rights may write no more than others)
    rights = "-dac_override,-dac_read_search"
    prefix = ("setpriv", f"--bounding-set={rights}", f"--inh-caps={rights}") if os.geteuid() == 0 else ()
    closed = books.folder / "closed"
    closed.mkdir()
    closed.chmod(0o555)
    done = subprocess.run([*prefix, books.program, "day", "--book", str(closed / "new.book")], input=text, capture_output=True, timeout=LIMIT)
    books.note(f"a closed folder: {done.stdout}", (done.stdout, done.returncode) == STORE and not (closed / "new.book").exists())
    closed.chmod(0o755)


def held(books, opening):
    """Another process has the file: that is told at once, and the first one goes on."""
    path = books.folder / "held.book"
    run = Run(books.program, path)
    run.send(opening + b"post,1772910950,S1,60,,,,\n\n")
    run.row(), run.row(), run.row()
    for words, want in ((("day", "--book", path), BUSY), (("text", path), BUSY), (("audit", path), STORE)):
        got = books.run(*words, text=opening)
        books.note(f"{words[0]} of a file that is held: {got}", got == want)
    reply = run.call(b"post,1772910951,S1,70,,,,\n")
    rest, status = run.end()
    books.note(f"the first goes on: {reply}", reply.startswith(b"done,") and status == 0 and books.replays(path))


def full(books, opening):
    """A disk has no more room: what was told is kept."""
    call = b"nominate,1772910900,SHIP,INT,P%d,R1,D1,1\n"
    for size in (4096, 12288, 16384, 24576, 65536, 131072, 262144):
        path = books.folder / f"full-{size}.book"
        limit = lambda size=size: resource.setrlimit(resource.RLIMIT_FSIZE, (size, size))
        text = opening + b"".join(call % at for at in range(20000))
        done = subprocess.run([books.program, "day", "--book", str(path)], input=text, capture_output=True, timeout=LIMIT, preexec_fn=limit, restore_signals=False)
        rows = done.stdout.splitlines(keepends=True)
        told = sum(row.startswith(b"accepted,") for row in rows)
        again, status = books.run("day", "--book", path, text=opening if not told else b"")
        began = OPENED.match(again)
        books.note(f"a disk of {size}: {rows[-1:]}, {done.returncode}, {again[:60]}, {status}",
                   done.returncode == 2 and rows[-1:] == [STORE[0]] and began and int(began[2]) >= told and books.replays(path))


def filled(books, opening):
    """A file keeps as many rows as a text may have, and takes no more: not in this run, and not in the next."""
    path, rows = books.folder / "filled.book", 1_100_000
    post = b"post,1772910950,S1,60,,,,\n"
    told, status = books.run("day", "--book", path, text=opening + post * (rows + 1 - opening.count(b"\n")))
    last = told.splitlines(keepends=True)[-1]
    books.note(f"one row more than a text may have: {last}, {status}", status == 1 and last == b"fault,%d,TooLong,,,,,\n" % (rows + 1))
    again, status = books.run("day", "--book", path, text=post)
    books.note(f"one row more in the next run: {again}, {status}", status == 1 and again.splitlines()[1:] == [b"fault,1,TooLong,,,,,"])
    kept = books.run("text", path)[0].count(b"\n")
    books.note(f"{kept} rows are kept", kept == rows and books.replays(path))


def ended(books, opening):
    """Who reads has gone, and who writes ends within a line."""
    call = b"nominate,1772910900,SHIP,INT,P%d,R1,D1,1\n"
    path = books.folder / "gone.book"
    books.run("day", "--book", path, text=opening)
    run = Run(books.program, path)
    run.row()
    run.reader.close()
    run.send(call % 1)
    run.process.stdin.close()
    status = run.process.wait(LIMIT)
    run.process.stderr.close()
    books.note(f"nobody reads: {status}", status == 2 and books.replays(path) and len(pieces_of(path)) == 2)
    got = books.run("day", "--book", path, text=call % 2 + b"nominate,1772910900,SHIP,INT,P3,R1,D1,50")
    books.note(f"an end within a line: {got}", got[1] == 2 and got[0].endswith(b"fault,0,ReadFailed,,,,,\n") and len(pieces_of(path)) == 3)


def main():
    if len(sys.argv) not in (2, 3):
        print(__doc__.strip())
        return 2
    kills = int(sys.argv[2]) if len(sys.argv) == 3 else 200
    with tempfile.TemporaryDirectory() as name:
        folder = Path(name)
        books = Books(os.path.abspath(sys.argv[1]), folder)
        whole = {}
        for name, (text, answer, status) in cases().items():
            if not is_plain(opening_of(text)[1]):
                continue
            if status == 0:
                whole[name] = text, answer
                awaited(books, name, text, answer)
            elif status == 2:
                faulty(books, name, text, answer)
        text = (HERE.parent / "examples" / "gas-day" / "two-cycles.csv").read_bytes()
        opening, answer = opening_of(text)[0], books.run("day", text=text)[0]
        in_two(books, text, answer)
        path = books.folder / "whole.book"
        run = Run(books.program, path)
        run.send(opening)
        for call in calls_in(opening_of(text)[1]):
            run.send(b"".join(call))
            run.is_read()
            time.sleep(0.05)
        run.end()
        data, kept = path.read_bytes(), books.run("text", path)[0]
        spoiled(books, data, kept)
        changed(books, data)
        other_files(books, text)
        held(books, opening)
        full(books, opening)
        filled(books, opening)
        ended(books, opening)
        killed(books, opening, kills // 2, 1)
        killed(books, opening, kills - kills // 2, 100)
    print(f"{books.passed} passed, {books.failed} failed")
    return 0 if books.passed and not books.failed else 1


if __name__ == "__main__":
    sys.exit(main())
