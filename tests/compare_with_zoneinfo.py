#!/usr/bin/env python3
"""compare_with_zoneinfo.py COMMAND

Runs 'COMMAND calendar' for every gas day from 2016-04-02 to 2099-12-31 in the zone
CST6CDT,M3.2.0,M11.1.0, and compares each row with the moments that Python's zoneinfo gives the same
times of the clock in America/Chicago, which has followed this rule since 2007:

    tests/compare_with_zoneinfo.py crates/gasday/out/gasday

The times of the clock are written here once more, from NAESB WGQ 1.3.2. A day that differs is
printed with both answers. The last line is 'N passed, M failed', counted in gas days, and the exit
status is 0 only where none failed. It takes a minute or two.
"""
import os
import subprocess
import sys
from concurrent.futures import ThreadPoolExecutor
from datetime import date, datetime, time, timedelta
from zoneinfo import ZoneInfo

CHICAGO = ZoneInfo("America/Chicago")
FIRST, LAST = date(2016, 4, 2), date(2099, 12, 31)
# Of each cycle: the day of its first five times, from the gas day, and its six times of the clock,
# of which the last is on the gas day.
CYCLES = [
    (-1, "13:00 13:15 13:30 16:30 17:00 09:00"),
    (-1, "18:00 18:15 18:30 20:30 21:00 09:00"),
    (0, "10:00 10:15 10:30 12:30 13:00 14:00"),
    (0, "14:30 14:45 15:00 17:00 17:30 18:00"),
    (0, "19:00 19:15 19:30 21:30 22:00 22:00"),
]


def moment(day, clock):
    """Seconds since 1970 at which the clock shows this time."""
    return int(datetime.combine(day, time.fromisoformat(clock), CHICAGO).timestamp())


def wanted(day):
    """The rows that are wanted for a gas day."""
    rows = []
    for number, (before, clocks) in enumerate(CYCLES, 1):
        *marks, effective = clocks.split()
        moments = [moment(day + timedelta(before), mark) for mark in marks] + [moment(day, effective)]
        rows.append(",".join(map(str, ["cycle", number] + moments)))
    hours, rest = divmod(moment(day + timedelta(1), "09:00") - moment(day, "09:00"), 3600)
    assert rest == 0
    rows.append("hours,%d,0,0,5,9,13," % hours)
    return "".join(row + "\n" for row in rows)


def told(command, day):
    """What the program prints for a gas day."""
    text = 'day,%s,"CST6CDT,M3.2.0,M11.1.0",,,,,\n' % day
    return subprocess.run([command, "calendar"], input=text, capture_output=True, text=True).stdout


def differs(command, day):
    want, got = wanted(day), told(command, day)
    if want != got:
        print("FAIL %s\nwanted\n%sgot\n%s" % (day, want, got), flush=True)
    return want != got


def main():
    if len(sys.argv) != 2:
        print(__doc__.strip())
        return 2
    command = os.path.abspath(sys.argv[1])
    days = [FIRST + timedelta(n) for n in range((LAST - FIRST).days + 1)]
    with ThreadPoolExecutor(os.cpu_count() or 2) as pool:
        failed = sum(pool.map(lambda day: differs(command, day), days))
    print("%d passed, %d failed" % (len(days) - failed, failed))
    return 1 if failed else 0


if __name__ == "__main__":
    sys.exit(main())
