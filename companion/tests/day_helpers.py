"""A gas day of two cycles with a fake `gasday` that tells it: what it told, and the postings that it keeps."""

import os
import sqlite3
from contextlib import closing
from pathlib import Path

from helpers import VERSION, ReportTest, example
from test_day import CALENDAR, EVENTS, REPLIES

PIPELINE = "".join(EVENTS.splitlines(keepends=True)[:3])
TIMELY = f"{PIPELINE}question,DEMO,1,1,,,,\nline,R1,D1,4,0,70,,\nsched,1,70,,,,,\n"
# Line 2 of class 1 has its 50 of S1's 100, and line 1 of class 4 the 50 that are left of its 70: its 50th and its 51st
# dekatherm lie in the eighth tenth, which ends at 56. So S1 costs a dekatherm of class 4 in tenth 8.
EVENING = (f"{PIPELINE}question,DEMO,2,2,,,,\nline,R1,D1,4,0,70,,\nline,R1,D1,1,0,50,,\nsched,1,50,,,,,\nsched,2,50,,,,,\n"
           "price,S1,4,1,-8,,,\nbumped,1,20,,,,,\n")
# Where an office has nothing but the day's text and what was told of it: by call and by words.
SCRIPT = f"""#!/bin/sh
{VERSION}cat > /dev/null
cd "$(dirname "$0")"
case "$1 $2" in
  "day --archive") cp postings.db "$3"; cat day-told;;
  "check best") echo best,,,,,,,;;
  "text "*) cat text-told; exit "$(cat text-status)";;
  *) cat "$1-told";;
esac
"""


class DayTest(ReportTest):
    """Runs the command on a day of two cycles, one published schedule each."""

    def archive(self, name: str, *bodies: str) -> str:
        """An archive of version 2 with these bodies as the postings of DEMO's cycles."""
        path = self.path(name, b"")
        with closing(sqlite3.connect(path)) as archive:
            archive.execute("create table posting2 (book text, cycle integer, round integer, body blob, rule integer)")
            archive.executemany("insert into posting2 values ('DEMO', ?, ?, ?, 2)",
                                [(at, at, body.encode()) for at, body in enumerate(bodies, 1)])
            archive.commit()
        return path

    def gasday(self, told: str = REPLIES, bodies: tuple[str, ...] = (TIMELY, EVENING)) -> str:
        for name, text in (("day-told", told), ("calendar-told", CALENDAR), ("text-told", EVENTS), ("text-status", "0"),
                           ("audit-told", "replayed,DEMO,10,10,2,,,\n")):
            self.path(name, text)
        self.archive("postings.db", *bodies)
        path = self.path("gasday", SCRIPT)
        os.chmod(path, 0o755)
        return path

    def day(self, *words: str, program: str = "", replies: str = REPLIES) -> tuple[str, str, object]:
        paths = self.path("events.csv", EVENTS), self.path("replies.csv", replies)
        return self.run_command("--events", paths[0], "--replies", paths[1], "--gasday", program or self.gasday(), *words)

    def files(self, name: str) -> dict[str, str]:
        folder = Path(self.folder.name) / name
        return {str(path.relative_to(folder)): path.read_text() for path in sorted(folder.rglob("*")) if path.is_file()}


FIVE_CYCLES = example("gas-day/five-cycles.csv")
