#!/usr/bin/env python3
"""refuse_memory.py PROGRAM [TRIAL]

Refuses each allocation of PROGRAM, the built `gasday`, in turn, over a text for each command: it has to print its whole
answer, or rows at the front of it and perhaps `fault,0,OutOfMemory` (or, for an office, `fault,0,NoThread`), with status 2.
A command that takes a text and has none here is tried over that of its first acceptance case that is run by its name alone
with status 0; a command that isn't tried at all is told, and counts as failed.
Of the commands on a book's file, whose allocations are thousands, it is each seventh of a live day, and each 23rd of the others.

TRIAL is the built `gd_trials`, which makes each call of a book once more where it found no memory. Whichever
allocation is refused, it has to tell at the refused call what the book and its board told before it, and else what it
tells with ample memory. It does the same with the calls of an office, and makes a round of the desks once more where a slot
has no desk. Such a round has to leave the other slot as with ample memory, and that slot as it was or frozen; where no desk
is handed back, each slot as it was or as with ample memory.

The commands with an archive are run once more on the file that they left, with ample memory. What was kept or carried over
has to be there whole, and what was told as refused not at all. So are those on a book's file; and a live day's file has to be
replayed with all that was told, or to keep no book where nothing was.

A library that is loaded before the C library refuses the allocation: refuse_memory.c, which takes a C compiler, as `cc`. Without
a compiler all of this is skipped, and without TRIAL its two trials. The last line is 'N passed, M failed', and ', K skipped' where
some are; the exit status is 0 only where none failed.
"""

import os
import shutil
import sqlite3
import subprocess
import sys
import tempfile
from concurrent.futures import ThreadPoolExecutor
from pathlib import Path

sys.dont_write_bytecode = True

from command_line import commands

CASES = Path(__file__).resolve().with_name("cases")
# The library that refuses.
REFUSING = Path(__file__).resolve().with_name("refuse_memory.c")

FAULTS = (b"OutOfMemory", b"NoThread", b"NoDesks")
# The file of a trial, in its words.
FILE = "FILE"
NO_MEMORY = b"fault,0,OutOfMemory,,,,,\n"
NO_THREAD = b"fault,0,NoThread,,,,,\n"
NO_STORE = b"fault,0,Store,,,,,\n"
KEPT = b"refused,keep,1,Kept,,,,\n"
OTHER_VERSION = b"refused,migrate,1,OtherVersion,,,,\n"

PIPELINE = """\
segment,S1,A,B,90,,,
point,R1,receipt,A,OP,1000,,
point,D1,delivery,B,OP,1000,,
pool,P1,B,OP,,,,
question,DEMO,1,1,,,,
line,R1,D1,4,0,100,,
line,R1,D1,4,0,50,,
"""

SCHEDULE = "sched,1,60,,,,,\nsched,2,30,,,,,\n"

PRICE = "price,S1,4,1,-6,,,\n"

# What solve answers before the schedule.
HEAD = "best,,,,,,,\ntotal,1,0,,,,,\ntotal,2,0,,,,,\ntotal,3,0,,,,,\ntotal,4,90,,,,,\n"

DAY = """\
segment,S1,A,B,100,,,
point,R1,receipt,A,OPR,1000,,
point,D1,delivery,B,OPD,1000,,
contract,FIRM,SHIP,firm,100,R1,D1,
contract,INT,SHIP,interruptible,100,,,
day,2026-03-08,"CST6CDT,M3.2.0,M11.1.0",DEMO,,,,
carry,FIRM,P,R1,D1,20,,
nominate,1772910900,SHIP,INT,P,R1,D1,70
respond,1772910902,OPR,1,origin,70,,
respond,1772910903,OPD,1,dest,70,,
post,1772910904,S1,60,,,,
freeze,1772922600,,,,,,
sched,1,60,,,,,
price,S1,4,1,-8,,,
publish,1772922600,1,,,,,
sched,1,60,,,,,
price,S1,4,1,-9,,,
publish,1772922600,1,,,,,
settle,1772922600,,,,,,
freeze,1772937000,,,,,,
inside,place,A,,,,,
declare,1772937000,2,,,,,
"""

OFFICE = """\
segment,S1,A,B,100,,,
point,R1,receipt,A,OPR,1000,,
point,D1,delivery,B,OPD,1000,,
contract,FIRM,SHIP,firm,100,R1,D1,
contract,INT,SHIP,interruptible,100,,,
day,2026-03-08,"CST6CDT,M3.2.0,M11.1.0",NORTH,,,,
carry,FIRM,P,R1,D1,80,,
segment,S2,A,B,100,,,
point,R2,receipt,A,OPR,1000,,
point,D2,delivery,B,OPD,1000,,
contract,INT,SHIP,interruptible,100,,,
day,2026-03-08,"CST6CDT,M3.2.0,M11.1.0",SOUTH,,,,
session,1,SHIP,,,,,
nominate,1772910900,SHIP,FIRM,P,R1,D1,80
nominate,1772910900,SHIP,NONE,P,R1,D1,80
session,2,SHIP,,,,,
nominate,1772910900,SHIP,INT,P,R2,D2,60
desk,1772922600,,,,,,
session,1,CONTROL,,,,,
post,1772922600,S1,60,,,,
desk,1772937000,,,,,,
"""

# Two cycles are published.
KEPT_DAY = """\
segment,S1,A,B,100,,,
point,R1,receipt,A,OPR,1000,,
point,D1,delivery,B,OPD,1000,,
contract,FIRM,SHIP,firm,100,R1,D1,
day,2026-03-08,"CST6CDT,M3.2.0,M11.1.0",DEMO,,,,
carry,FIRM,P,R1,D1,80,,
nominate,1772910900,SHIP,FIRM,P,R1,D1,80
freeze,1772922600,,,,,,
settle,1772922600,,,,,,
freeze,1772937000,,,,,,
settle,1772937000,,,,,,
"""

# What version 1 of an archive kept.
OLD_BODY = b"""\
segment,S1,A,B,100,,,
point,R1,receipt,A,OPR,1000,,
point,D1,delivery,B,OPD,1000,,
question,DEMO,1,1,,,,
line,R1,D1,4,0,70,,
sched,1,70,,,,,
"""

TEXTS = {
    "check allowed": PIPELINE + SCHEDULE,
    "check best": PIPELINE + SCHEDULE + PRICE,
    "check cut": PIPELINE + "inside,place,A,,,,,\n",
    "solve": PIPELINE,
    "calendar": 'day,2026-03-08,"CST6CDT,M3.2.0,M11.1.0",,,,,\n',
    "day": DAY,
    "day --strict": DAY,
    "question - 1": DAY,
    "question - 2": DAY,
    "carry -": DAY,
    "office": OFFICE,
    "office --strict": OFFICE,
}


def text_of_case(command):
    """The standard input of the first of a command's acceptance cases that is run by its name alone with status 0, or nothing."""
    begin, good = f"-- args --\n{command}\n-- stdin --\n", "\n-- status --\n0\n"
    for case in sorted((CASES / command).glob("*.case")):
        _, _, behind = case.read_text(errors="replace").partition(begin)
        if good in behind:
            return behind.partition("\n-- ")[0] + "\n"
    return None


def texts():
    """A text for each way to call a command that takes one."""
    named = {words.split()[0] for words in TEXTS}
    others = {it.name: text_of_case(it.name) for it in commands() if it.takes_texts() and it.name not in named}
    return {**TEXTS, **{name: text for name, text in others.items() if text is not None}}


class Trial:
    """A command over a text, with a library that refuses an allocation."""

    def __init__(self, library, folder, words, text):
        self.library, self.folder, self.words, self.text = library, folder, words, text.encode()

    def run(self, refused):
        """Standard output and exit status where this allocation is refused, none for 0, and how many there were."""
        counted = self.folder / f"count-{refused}"
        environment = {**os.environ, "LD_PRELOAD": str(self.library), "REFUSED": str(refused), "COUNTED": str(counted)}
        done = subprocess.run(self.words, input=self.text, capture_output=True, env=environment, timeout=600)
        count = int(counted.read_text()) if counted.exists() else 0
        return done.stdout, done.returncode, count

    # Each of so many allocations is refused, where all would take too long.
    step = 1

    def faults(self, is_right):
        """The numbers of the allocations without which it goes wrong, and how many were refused."""
        want, status, count = self.run(0)
        refused = range(1, count + 1, self.step)
        with ThreadPoolExecutor(os.cpu_count() or 2) as pool:
            runs = list(pool.map(self.run, refused))
        wrong = [n for n, (got, ended, _) in zip(refused, runs) if not is_right(want, status, got, ended)]
        return wrong, len(refused)


def is_front(want, status, got, ended):
    """The whole answer, or whole rows at its front and perhaps the row that tells what was wanting."""
    if (got, ended) == (want, status):
        return True
    lack = next((row for row in (NO_MEMORY, NO_THREAD) if got.endswith(row)), b"")
    front = got[: len(got) - len(lack)]
    return ended == 2 and want.startswith(front) and (not front or front.endswith(b"\n"))


def goes_on(want, status, got, ended):
    """The whole answer, with one row more at most, of a call that found no memory and left book and board as they were."""
    former, rows, refused = [b"0"] * 5, [], 0
    for row in got.splitlines(keepends=True):
        call, *told = row.split()
        if call == b"OutOfMemory":
            refused += 1
            if told != former:
                return False
        else:
            rows.append(row)
        former = told
    return refused <= 1 and (b"".join(rows), ended) == (want, status)


def told_in(text):
    """The rows of an office's trial: the word; of each slot its events, the frozen cycle and its postings; and the sessions."""
    rows = [row.split() for row in text.splitlines()]
    return [(word, [tuple(map(int, told[at : at + 3])) for at in (0, 3)], told[6:]) for word, *told in rows]


def may_leave(word, former, slots, done, cycle):
    """Whether a round of the desks that lacks one may leave the slots so: all as they were or all done where none is handed
    back, and else one slot as it was or frozen, and the other one done."""
    if word == b"NoDesks":
        return slots in (former, done)
    lacking = [at for at in (0, 1) if slots[at] != done[at]]
    frozen = [(events + 1, cycle, postings) for events, _, postings in former]
    return len(lacking) == 1 and slots[lacking[0]] in (former[lacking[0]], frozen[lacking[0]])


def office_goes_on(want, status, got, ended):
    """The whole answer, with one row more at most, of a call that found no memory and left all as it was, or of a round that
    lacked a desk. A slot that declared in such a round freezes and declares once more in the next one, by two events more."""
    wanted, former, more, cycle, faults = told_in(want), ([(), ()], []), [0, 0], 1, 0
    for word, slots, sessions in told_in(got):
        if not wanted:
            return False
        call, done, numbers = wanted[0]
        if word not in FAULTS:
            done = [(events + again, *rest) for again, (events, *rest) in zip(more, done)]
            if (word, slots, sessions) != (call, done, numbers):
                return False
            wanted, cycle = wanted[1:], cycle + (call == b"desk")
        elif call == b"desk":
            faults += 1
            if sessions != former[1] or not may_leave(word, former[0], slots, done, cycle):
                return False
            more = [2 * (now == end and end[2] == old[2]) for now, end, old in zip(slots, done, former[0])]
        else:
            faults += 1
            if (word, slots, sessions) != (b"OutOfMemory", *former):
                return False
        former = slots, sessions
    return faults <= 1 and not wanted and ended == status


class FileTrial(Trial):
    """A command on an archive or a book's file, which each run gets as it was at first."""

    def __init__(self, library, folder, words, text, first):
        super().__init__(library, folder, words, text)
        self.first = first

    def run(self, refused):
        """As a trial's run, and what is found then of the file that is left."""
        file = self.folder / f"{self.words[1]}-{refused}.db"
        if self.first is not None:
            file.write_bytes(self.first)
        words = [str(file) if it == FILE else it for it in self.words]
        told, status, count = Trial(self.library, self.folder, words, self.text.decode()).run(refused)
        found = self.found(words, file)
        for left in self.folder.glob(f"{file.name}*"):
            left.unlink()
        return (told, found), status, count

    def found(self, words, _):
        """Standard output and exit status of the same command on what is left."""
        again = subprocess.run(words, input=self.text, capture_output=True, timeout=600)
        return again.stdout, again.returncode


class BookTrial(FileTrial):
    """A command that reads a book's file. Most of its allocations are the pages of the file."""

    step = 23


class LiveTrial(FileTrial):
    """A live day, of whose file it is asked what replies its calls have, and whether it is a book."""

    step = 7

    def found(self, words, file):
        """What `day` tells of the text that the file keeps, and what an audit of it tells, with its exit status."""
        text = subprocess.run([words[0], "text", file], capture_output=True, timeout=600).stdout
        told = subprocess.run([words[0], "day"], input=text, capture_output=True, timeout=600).stdout if text[:5] != b"fault" else b""
        audit = subprocess.run([words[0], "audit", file], capture_output=True, timeout=600)
        return told, (audit.stdout, audit.returncode)


def lives_or_not(want, status, got, ended):
    """All is told and kept. Or want of memory or a fault of the store is told behind rows at the front, which are kept, in a file
    that is a book; or nothing is told, and the file keeps none."""
    (rows, (kept, book)), (told, (left, audit)) = want, got
    if (told, ended) == (rows, status):
        return (left, audit) == (kept, book)
    fault = next((row for row in (NO_MEMORY, NO_STORE) if told.endswith(row)), b"")
    front = told[: len(told) - len(fault)]
    if ended != 2 or not rows.startswith(front) or (front and not front.endswith(b"\n")):
        return False
    if not audit[0].startswith(b"replayed"):
        return not front and not left.startswith(b"accepted")
    opened, _, new = rows.partition(b"\n")
    former = kept[: len(kept) - len(new)]
    return left.startswith(former + front[len(opened) + 1 :]) and kept.startswith(left)


def keeps_or_not(want, status, got, ended):
    """All is told and kept. Or the archive's fault is told alone or behind all calls, or want of memory behind rows at the
    front, and then not all was kept: the same calls keep the rest."""
    (rows, _), (told, (again, last)) = want, got
    kept = again[len(rows) :]
    if not again.startswith(rows) or kept.replace(KEPT, b"") or last != (1 if kept else 0):
        return False
    whole = len(kept) == 2 * len(KEPT)
    if (told, ended) == (rows, status):
        return whole
    if told.endswith(NO_STORE):
        return ended == 2 and not whole and told[: -len(NO_STORE)] in (b"", rows)
    return is_front(rows, status, told, ended)


def compares_or_not(want, status, got, ended):
    """The answer, with status 1 where there was no memory to compare a posting with the one that is kept. Or the archive's fault
    behind rows at the front, or want of memory. Then the answer, since nothing that is kept changes."""
    (told, again) = got
    if again != want[1]:
        return False
    if told == want[0]:
        return ended in (status, 1)
    if told.endswith(NO_STORE):
        front = told[: -len(NO_STORE)]
        return ended == 2 and (not front or front.replace(KEPT, b"") == want[0].replace(KEPT, b""))
    return is_front(want[0], status, told, ended)


def audits_or_not(want, status, got, ended):
    """The answer, or a fault, and then the answer."""
    (told, again) = got
    faults = (b"", NO_MEMORY, NO_STORE)
    return again == want[1] and ((told, ended) == (want[0], status) or (told in faults and ended == 2))


def reads_or_not(want, status, got, ended):
    """The answer, or a front of it with a fault, and then the answer."""
    (told, again) = got
    fault = next((row for row in (NO_MEMORY, NO_STORE) if told.endswith(row)), b"")
    is_part = ended == 2 and want[0].startswith(told[: len(told) - len(fault)])
    return again == want[1] and ((told, ended) == (want[0], status) or is_part)


def migrates_or_not(want, status, got, ended):
    """The answer, and then that the archive is not of version 1. Or the archive's fault, and then the answer. Where there was
    no memory to tell the answer, either."""
    (told, again) = got
    done, undone = (OTHER_VERSION, 1), (want[0], status)
    if (told, ended) == undone:
        return again == done
    if told == NO_STORE:
        return ended == 2 and again == undone
    return told in (b"", NO_MEMORY) and ended == 2 and again in (done, undone)


def old_archive(folder):
    """The bytes of an archive of version 1."""
    path = folder / "old.db"
    with sqlite3.connect(path) as archive:
        archive.execute("CREATE TABLE archive (one INTEGER PRIMARY KEY CHECK (one = 1), version INTEGER NOT NULL)")
        archive.execute("CREATE TABLE posting (book TEXT NOT NULL, cycle INTEGER NOT NULL, round INTEGER NOT NULL, "
                        "body BLOB NOT NULL, PRIMARY KEY (book, cycle))")
        archive.execute("INSERT INTO archive VALUES (1, 1)")
        archive.execute("INSERT INTO posting VALUES ('DEMO', 1, 1, ?)", (OLD_BODY,))
    archive.close()
    return path.read_bytes()


def kept_archive(program, folder):
    """The bytes of an archive of two cycles."""
    path = folder / "kept.db"
    subprocess.run([program, "day", "--archive", path], input=KEPT_DAY.encode(), capture_output=True, check=True)
    return path.read_bytes()


def archive_trials(program, library, folder):
    """The commands with an archive, and what each may leave."""
    kept, old = kept_archive(program, folder), old_archive(folder)
    yield "day --archive", FileTrial(library, folder, [program, "day", "--archive", FILE], KEPT_DAY, None), keeps_or_not
    again = [program, "day", "--strict", "--archive", FILE]
    yield "day --strict --archive", FileTrial(library, folder, again, KEPT_DAY, kept), compares_or_not
    yield "audit", FileTrial(library, folder, [program, "audit", FILE], "", kept), audits_or_not
    yield "audit --all", FileTrial(library, folder, [program, "audit", "--all", FILE], "", kept), reads_or_not
    yield "migrate", FileTrial(library, folder, [program, "migrate", FILE], "", old), migrates_or_not


def kept_book(program, folder, text):
    """The bytes of the file of a book whose calls these are."""
    path = folder / "kept.book"
    subprocess.run([program, "day", "--book", path], input=text.encode(), capture_output=True, check=True)
    kept = path.read_bytes()
    path.unlink()
    return kept


def book_trials(program, library, folder):
    """The commands on a book's file, and what each may leave."""
    rows = DAY.splitlines(keepends=True)
    calls = next(at for at, row in enumerate(rows) if row.startswith("freeze"))
    begun, whole = kept_book(program, folder, "".join(rows[:calls])), kept_book(program, folder, DAY)
    yield "day --book, a new file", LiveTrial(library, folder, [program, "day", "--book", FILE], DAY, None), lives_or_not
    yield "day --book, opened again", LiveTrial(library, folder, [program, "day", "--book", FILE], "".join(rows[calls:]), begun), lives_or_not
    for words in (["text", FILE], ["audit", FILE], ["question", FILE, "1"], ["question", FILE, "2"], ["carry", FILE]):
        yield f"{words[0]} of a book", BookTrial(library, folder, [program, *words], "", whole), reads_or_not


def named_trial(program, library, folder):
    """A text in two files that are named, with a schedule that is told as broken."""
    net, offered = folder / "net.csv", folder / "offered.csv"
    net.write_text(PIPELINE)
    offered.write_text(SCHEDULE.replace("60", "61"))
    return Trial(library, folder, [program, "check", "allowed", net, offered], "")


def answer_trial(program, library, folder):
    """A question in a file, and the answer to it on standard input."""
    question = folder / "question.csv"
    question.write_text(PIPELINE)
    return Trial(library, folder, [program, "check", question, "-"], HEAD + SCHEDULE + PRICE)


def trials_of(program, library, folder):
    """All trials of the program, by what they are of, with what may come of each."""
    yield from ((words, Trial(library, folder, [program, *words.split()], text), is_front) for words, text in texts().items())
    yield "a broken text in two files", named_trial(program, library, folder), is_front
    yield "an answer to a question", answer_trial(program, library, folder), is_front
    yield from archive_trials(program, library, folder)
    yield from book_trials(program, library, folder)


def main():
    if len(sys.argv) not in (2, 3):
        print(__doc__.strip())
        return 2
    program, *built = map(os.path.abspath, sys.argv[1:])
    if not shutil.which("cc"):
        print("skipped: there is no C compiler, cc\n0 passed, 0 failed, 1 skipped")
        return 0
    passed = failed = 0
    with tempfile.TemporaryDirectory() as name:
        folder = Path(name)
        library = folder / "refusing.so"
        subprocess.run(["cc", "-shared", "-fPIC", "-O1", REFUSING, "-o", library, "-ldl"], check=True)
        trials = list(trials_of(program, library, folder))
        tried = {trial.words[1] for _, trial, _ in trials}
        untried = [it.name for it in commands() if it.name not in tried]
        print("".join(f"FAIL no allocation of the command {name} is refused\n" for name in untried), end="")
        failed += len(untried)
        for trial in built:
            trials.append(("a book's day", Trial(library, folder, [trial, "day"], ""), goes_on))
            trials.append(("an office's calls", Trial(library, folder, [trial, "office"], ""), office_goes_on))
        for name, trial, is_right in trials:
            wrong, count = trial.faults(is_right)
            print(f"{name}: {count} allocations refused in turn", flush=True)
            if wrong:
                print(f"FAIL {name}: at {', '.join(map(str, wrong[:20]))}")
            passed, failed = passed + count - len(wrong), failed + len(wrong)
    if not built:
        print("skipped: a book's day and an office's calls, for which the program gd_trials isn't built of these sources")
    print(f"{passed} passed, {failed} failed" + ("" if built else ", 2 skipped"))
    return 0 if passed and not failed else 1


if __name__ == "__main__":
    sys.exit(main())
