"""Moments, which are seconds since 1970-01-01T00:00:00Z, by the clock of a zone."""

from datetime import UTC, datetime, tzinfo
from zoneinfo import ZoneInfo

from .texts import Fault


class Clock:
    """A zone of Python's zoneinfo by its name, or UTC."""

    def __init__(self, name: str | None = None) -> None:
        self.name = name or "UTC"
        self.zone = zone_of(name) if name else UTC

    def show(self, moment: int) -> str:
        local = datetime.fromtimestamp(moment, self.zone)
        return f"{local:%Y-%m-%d %H:%M:%S} {local.tzname()}"


def zone_of(name: str) -> tzinfo:
    try:
        return ZoneInfo(name)
    except (KeyError, ValueError, OSError):
        raise Fault(f"--local: there is no zone {name} (a name such as America/Chicago is wanted)") from None
