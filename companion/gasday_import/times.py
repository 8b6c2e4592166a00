"""Local times, which become moments by the zone of their gas day."""

import functools
import io
import re
import struct
from collections.abc import Sequence
from dataclasses import dataclass
from datetime import UTC, datetime, timedelta, timezone
from zoneinfo import ZoneInfo

from .log import Log
from .rows import Row

LOCAL = re.compile(r"(\d{4}-\d\d-\d\d)(?: +|T)(\d{1,2}):(\d\d)(?::(\d\d))? *([AaPp]\.?[Mm]\.?)?"
                   r" *(Z|[+-]\d\d(?::?\d\d)?|[A-Za-z]{3,})?")
OFFSET = re.compile(r"([+-])(\d\d):?(\d\d)?")


class NoMoment(Exception):
    """A local time has no moment, or more than one."""


@dataclass(frozen=True)
class LocalTime:
    """What a clock shows, with what is written behind it: an offset, the name of a zone's time, or nothing."""

    clock: datetime
    mark: str


def read(text: str) -> LocalTime:
    """A text of the form LOCAL."""
    match = LOCAL.fullmatch(text)
    assert match, text
    day, hour, minute, second, half, mark = match.groups()
    number = int(hour)
    if half:
        if not 1 <= number <= 12:
            raise NoMoment("has no such hour")
        number = number % 12 + (12 if half[0] in "Pp" else 0)
    try:
        date = datetime.fromisoformat(day)
        return LocalTime(date.replace(hour=number, minute=int(minute), second=int(second or 0)), mark or "")
    except ValueError:
        raise NoMoment("is no time of the clock") from None


@functools.cache
def zone_of(rule: str) -> ZoneInfo:
    """The zone of a POSIX rule, as the rule of a zone file that has nothing else."""
    part = b"TZif2" + bytes(15) + struct.pack(">6l", 0, 0, 0, 0, 1, 4) + struct.pack(">lbb", 0, 0, 0) + b"UTC\0"
    try:
        return ZoneInfo.from_file(io.BytesIO(part + part + b"\n" + rule.encode("ascii") + b"\n"), rule)
    except (ValueError, UnicodeError):
        raise NoMoment(f"has no moment, since the day's zone {rule!r} is no POSIX rule") from None


def offset_of(moment: int, zone: ZoneInfo) -> str:
    return datetime.fromtimestamp(moment, zone).isoformat()[19:]


def moments_of(clock: datetime, zone: ZoneInfo) -> list[int]:
    """The moments at which the zone's clock shows this."""
    asked = (int(clock.replace(tzinfo=zone, fold=fold).timestamp()) for fold in (0, 1))
    return sorted({moment for moment in asked if datetime.fromtimestamp(moment, zone).replace(tzinfo=None) == clock})


def of_offset(local: LocalTime) -> int | None:
    """The moment of a time that has its offset."""
    if local.mark.upper() in ("Z", "UTC", "GMT"):
        return int(local.clock.replace(tzinfo=UTC).timestamp())
    match = OFFSET.fullmatch(local.mark)
    if not match:
        return None
    sign, hours, minutes = match.groups()
    ahead = timedelta(hours=int(hours), minutes=int(minutes or 0))
    if ahead >= timedelta(days=1):
        raise NoMoment("has an offset of a day or more")
    return int(local.clock.replace(tzinfo=timezone(-ahead if sign == "-" else ahead)).timestamp())


def moment_of(text: str, rule: str) -> int:
    """The one moment of a local time; without a rule there is one only where it has an offset."""
    local = read(text)
    moment = of_offset(local)
    if moment is not None:
        return moment
    if not rule:
        raise NoMoment("is a local time, and no one day row tells its zone: write its offset behind it, as in 12:30-06:00")
    zone = zone_of(rule)
    moments = moments_of(local.clock, zone)
    named = [moment for moment in moments if datetime.fromtimestamp(moment, zone).tzname() == local.mark.upper()] \
        if local.mark else moments
    if not moments:
        raise NoMoment("is shown by no clock of the zone: it is in the hour that spring leaves out")
    if not named:
        shown = datetime.fromtimestamp(moments[0], zone).tzname()
        raise NoMoment(f"is not {local.mark} in the zone, but {shown}")
    if len(named) > 1:
        ways = " or ".join(offset_of(moment, zone) for moment in named)
        raise NoMoment(f"comes twice, in the hour that autumn repeats: write the offset behind it, {ways}")
    return named[0]


def rules_of(rows: Sequence[Row], timed: set[int]) -> dict[int, str]:
    """The zone's rule of each of these rows, by its place among all: that of the one day, or else of its session's slot."""
    rules = [row.cells()[2] for row in rows if row.kind == "day"]
    if len(set(rules)) < 2:
        return dict.fromkeys(timed, rules[0] if rules else "")
    found, slot = {}, ""
    for at, row in enumerate(rows):
        if row.kind in ("session", "desk"):
            slot = row.cells()[1] if row.kind == "session" else ""
        if at in timed:
            found[at] = rules[int(slot) - 1] if slot.isdigit() and 1 <= int(slot) <= len(rules) else ""
    return found


def make_moments(rows: Sequence[Row], log: Log) -> None:
    """Writes moments in place of local times."""
    timed = {at for at, row in enumerate(rows) if row.is_local}
    for at, rule in rules_of(rows, timed).items():
        row = rows[at]
        try:
            moment = moment_of(row.fields[1], rule)
            if moment < 0:
                raise NoMoment("lies before 1970")
        except NoMoment as why:
            log.error(row.place, f"{row.label(2)} ({row.fields[1]!r}) {why}")
            continue
        log.repair(row.place, "local times made moments", f"{row.label(2)}: {row.fields[1]} made {moment}")
        row.fields = (row.fields[0], str(moment), *row.fields[2:])
