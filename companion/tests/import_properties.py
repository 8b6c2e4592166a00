"""Properties of gasday-import, over many texts made by Hypothesis; test_properties.py runs these. Midnight of the gas
day is what `date` gives for it, and serial dates count days from 1899-12-30."""

import importlib
import sys
import unittest
from collections.abc import Callable
from datetime import date, datetime, timedelta
from typing import Any

from import_helpers import TOP

sys.path.insert(0, str(TOP / "companion"))

from gasday_import.command import imported  # noqa: E402 (the path comes first)
from gasday_import.log import Log  # noqa: E402
from gasday_import.reading import Source  # noqa: E402

# Without types, so that these are found correct where it isn't installed too.
hypothesis: Any = importlib.import_module("hypothesis")
st: Any = importlib.import_module("hypothesis.strategies")

DAY = "day,2026-12-09,UTC0,DEMO,,,,\n"
MIDNIGHT, SECONDS = 1796774400, 86_400
KINDS = ("freeze", "settle", "skip")


def holds(check: Callable[..., None], *strategies: Any) -> None:
    """A check holds of whatever these strategies give."""
    hypothesis.settings(deadline=None, database=None, max_examples=200)(hypothesis.given(*strategies)(check))()


def text_of(*files: str, is_by_time: bool = False) -> tuple[str, Log]:
    """The text of these files, and what is reported of them."""
    log = Log()
    sources = [Source(f"{at}.csv", file.encode()) for at, file in enumerate(files)]
    return imported(sources, None, None, is_by_time, log).decode(), log


def event(moment: int) -> str:
    return f"freeze,{moment},,,,,,\n"


def is_shuffle(rows: list[str], files: list[list[str]]) -> bool:
    """Whether rows are those of the files, each file's in its order."""
    states = {tuple(0 for _ in files)}
    for row in rows:
        states = {(*state[:at], state[at] + 1, *state[at + 1:]) for state in states for at, file in enumerate(files)
                  if state[at] < len(file) and file[state[at]] == row}
    return tuple(map(len, files)) in states


class Properties(unittest.TestCase):
    def test_a_moment_is_taken_within_three_days_alone(self) -> None:
        def check(moment: int) -> None:
            text, log = text_of(DAY + event(moment))
            is_near = MIDNIGHT - 3 * SECONDS <= moment < MIDNIGHT + 4 * SECONDS
            self.assertEqual((text, log.errors), (DAY + event(moment), int(not is_near)))

        holds(check, st.one_of(st.integers(0, 10**18 - 1), st.integers(MIDNIGHT - 5 * SECONDS, MIDNIGHT + 5 * SECONDS)))

    def test_a_date_that_is_no_moment_is_taken_nowhere(self) -> None:
        def check(day: date, minutes: int) -> None:
            clock = f"{minutes // 60:02}{minutes % 60:02}"
            for moment, like in (((day - date(1899, 12, 30)).days, f"looks like the serial date of a spreadsheet, {day}, "),
                                 (int(f"{day:%Y%m%d}"), f"looks like {day} without marks"),
                                 (int(f"{day:%Y%m%d}{clock}"), f"looks like {day} {clock[:2]}:{clock[2:]} without marks")):
                for head in ("", DAY):
                    log = text_of(head + event(moment))[1]
                    self.assertEqual(log.errors, 1)
                    self.assertIn(like, "".join(log.lines(True)))

        holds(check, st.dates(date(1990, 1, 1), date(2099, 12, 31)), st.integers(0, 1439))

    def test_a_local_time_is_its_moment(self) -> None:
        def check(minutes: int) -> None:
            clock = datetime(2026, 12, 9) + timedelta(minutes=minutes)
            self.assertEqual(text_of(f"{DAY}freeze,{clock:%Y-%m-%d %H:%M},,,,,,\n")[0], DAY + event(MIDNIGHT + 60 * minutes))

        holds(check, st.integers(-3 * 1440, 4 * 1440 - 1))

    def test_a_quantity_with_its_unit_is_the_number(self) -> None:
        def check(number: int, unit: str, has_groups: bool, has_blank: bool) -> None:
            field = (f"{number:,}" if has_groups else str(number)) + " " * has_blank + unit
            text, log = text_of(f'segment,S1,A,B,"{field}",,,\n')
            self.assertEqual((text, log.errors), (f"segment,S1,A,B,{number},,,\n", 0))

        units = st.sampled_from(["Dth", "dth/d", "MMBtu", "MMBTU/D", "Dth/day", "dekatherms"])
        holds(check, st.integers(0, 10**15), units, st.booleans(), st.booleans())

    def test_a_quantity_in_another_unit_is_taken_nowhere(self) -> None:
        def check(number: int, unit: str) -> None:
            head, row = "Kind,Name,From,To,Capacity", f"segment,S1,A,B,{number}"
            for text in (f"{row} {unit},,,\n", f"{head} ({unit})\n{row}\n", f"{head} [{unit}]\n{row}\n"):
                log = text_of(text)[1]
                self.assertEqual(log.errors, 1)
                self.assertIn(f"is in {unit}: quantities are in Dth or MMBtu", "".join(log.lines(True)))

        holds(check, st.integers(0, 10**9), st.sampled_from(
            ["MDth", "mdth/d", "MMDth", "GJ", "TJ/d", "Mcf", "MMcf/d", "Bcf", "scf", "therms", "Btu", "MBtu", "kWh", "m3",
             "Dth/h"]))

    def test_what_is_written_once_is_written_so_again(self) -> None:
        def check(sizes: list[tuple[int, bool]]) -> None:
            text = "".join(f'pool,p{at},A,OP,,,,\npost,1,S1,"{size:,}{" Dth" * has_unit}",,,,\n'
                           for at, (size, has_unit) in enumerate(sizes))
            once, log = text_of(text)
            self.assertEqual(log.errors, 0)
            again, log = text_of(once)
            self.assertEqual((again, log.repairs.total(), log.errors), (once, 0, 0))

        holds(check, st.lists(st.tuples(st.integers(0, 10**9), st.booleans()), max_size=5))

    def test_merged_files(self) -> None:
        """All calls are there, those of a file in their order; and where each file is in the order of time, all are."""
        def check(files: list[list[tuple[str, int]]]) -> None:
            rows = [[f"{kind},{MIDNIGHT + at},,,,,," for kind, at in file] for file in files]
            text, log = text_of(DAY, *("".join(f"{row}\n" for row in file) for file in rows), is_by_time=True)
            head, *calls = text.splitlines()
            self.assertEqual((head + "\n", log.errors), (DAY, 0))
            self.assertTrue(is_shuffle(calls, rows))
            moments = [int(call.split(",")[1]) for call in calls]
            if all(file == sorted(file, key=lambda call: call[1]) for file in files):
                self.assertEqual(moments, sorted(moments))

        call = st.tuples(st.sampled_from(KINDS), st.integers(0, 9))
        holds(check, st.lists(st.lists(call, max_size=6), max_size=4))


if __name__ == "__main__":
    unittest.main()
