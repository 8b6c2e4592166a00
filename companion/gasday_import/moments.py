"""Moments that lie far from their gas day: what each looks like."""

from collections.abc import Callable, Iterator, Sequence
from dataclasses import dataclass
from datetime import UTC, date, datetime, time, timedelta, tzinfo

from .forms import KINDS
from .log import Log
from .rows import Row
from .times import NoMoment, zone_of

DAYS = 3  # that a call may come before or after the date of its gas day
REMEDY = "write the time as 2026-12-09 12:30"
SERIALS = range(20_000, 80_000)  # the serial dates of 1954 to 2119
FIRST_SERIAL = date(1899, 12, 30)
# Dates and times without marks, by how many digits they have.
FORMS = {8: ("%Y%m%d", "%Y-%m-%d"), 10: ("%Y%m%d%H", "%Y-%m-%d %H:00"), 12: ("%Y%m%d%H%M", "%Y-%m-%d %H:%M"),
         14: ("%Y%m%d%H%M%S", "%Y-%m-%d %H:%M:%S")}
YEARS = range(1990, 2100)
LEAST, MOST = 100_000_000, 4_200_000_000  # seconds of 1973, and the last moment that `gasday` takes
TIMED = frozenset(kind for kind, what in KINDS.items() if what.titles[:1] == ("MOMENT",))


def clock(moment: int, zone: tzinfo) -> str:
    """What the clock of a zone shows, with seconds where they are not 0."""
    return datetime.fromtimestamp(moment, zone).isoformat(" ")[:19].removesuffix(":00")


@dataclass(frozen=True)
class Window:
    """The moments from three days before the date of a gas day to three days after it, by the clock of its zone."""

    date: str
    zone: tzinfo
    low: int
    high: int  # the first one that is too late

    def shown(self, moment: int) -> str:
        """What the clock of the zone shows at a moment."""
        return clock(moment, self.zone)

    def days_away(self, moment: int) -> int:
        return (datetime.fromtimestamp(moment, self.zone).date() - date.fromisoformat(self.date)).days


def window_of(text: str, rule: str) -> Window | None:
    """The window of a gas day; none where its date can't be read, of which `gasday` speaks."""
    try:
        zone: tzinfo = zone_of(rule)
    except NoMoment:
        zone = UTC
    try:
        day = date.fromisoformat(text)
        low, high = (datetime.combine(day + timedelta(days=away), time(), zone).timestamp() for away in (-DAYS, DAYS + 1))
    except (ValueError, OverflowError):
        return None
    return Window(text, zone, int(low), int(high))


def without_marks(digits: str) -> str:
    """The date or time that digits are if their marks are put in; nothing where they are none."""
    form, shown = FORMS.get(len(digits), ("", ""))
    try:
        read = datetime.strptime(digits, form) if form else None
    except ValueError:
        return ""
    return read.strftime(shown) if read and read.year in YEARS else ""


def likeness(moment: int) -> str:
    """What a number looks like that is no likely moment; nothing where it looks like none of these."""
    if moment in SERIALS:
        return f"the serial date of a spreadsheet, {FIRST_SERIAL + timedelta(days=moment)}"
    if marked := without_marks(str(moment)):
        return f"{marked} without marks"
    for unit, size in (("milliseconds", 10**3), ("microseconds", 10**6), ("nanoseconds", 10**9)):
        if LEAST <= moment // size <= MOST:
            return f"{unit} since 1970"
    return ""


def why_wrong(moment: int, window: Window | None) -> str:
    """Why a moment can't belong to a gas day, or is none where no gas day is known."""
    like = likeness(moment)
    if like:
        return f"looks like {like}, and not like the seconds since 1970: {REMEDY}"
    if moment > MOST or not window:
        return f"is no moment, which is a count of seconds since 1970: {REMEDY}"
    away = window.days_away(moment)
    where = f"{abs(away)} days {'after' if away > 0 else 'before'} the gas day {window.date}"
    return f"is {window.shown(moment)} by the clock of the zone, {where}: more than {DAYS} are a mistake"


def clock_of(rows: Sequence[Row]) -> Callable[[int], str]:
    """How a moment is shown: by the clock of the one gas day, or else by that of UTC."""
    windows = [window_of(*row.cells()[1:3]) for row in rows if row.kind == "day"]
    if len(windows) == 1 and windows[0]:
        return windows[0].shown
    return lambda moment: clock(moment, UTC) + "Z"


def moment_in(row: Row) -> int | None:
    """The moment of a row of an event; none where it has none that can be read."""
    text = row.fields[1] if row.fields else row.text.split(",", 2)[1]
    return int(text) if text.isascii() and text.isdigit() else None


def windows_by_row(rows: Sequence[Row]) -> Iterator[tuple[Row, Sequence[Window]]]:
    """Each row that has a moment, with the windows in one of which it has to lie: that of the one day, or of its session's
    slot, or of a row outside all sessions those of all slots."""
    windows = [window_of(*row.cells()[1:3]) for row in rows if row.kind == "day"]
    every = [window for window in windows if window]
    now = every
    for row in rows:
        if row.kind == "session":
            slot = row.cells()[1]
            own = windows[int(slot) - 1 : int(slot)] if slot.isdigit() and slot != "0" else []
            now = [window for window in own if window]
        elif row.kind == "desk":
            now = every
        if row.kind in TIMED:
            yield row, now


def is_near(moment: int, windows: Sequence[Window]) -> bool:
    for window in windows:
        if window.low <= moment < window.high:
            return True
    return False


def refuse_far(rows: Sequence[Row], log: Log) -> None:
    """Refuses moments more than three days from their gas day, and without a day row those that look like something else."""
    for row, windows in windows_by_row(rows):
        moment = moment_in(row)
        if moment is None or is_near(moment, windows):
            continue
        if windows or not LEAST <= moment <= MOST and likeness(moment):
            window = windows[0] if windows else None
            log.error(row.place, f"{row.label(2)} ({str(moment)!r}) {why_wrong(moment, window)}")
