"""What is due of a gas day: the alarms that freeze and settle, and reminders in words."""

from .journal import Maker
from .keeper import Asked
from .moments import span
from .settings import Settings
from .view import CYCLES, DayView


def look_at(view: DayView, now: float, settings: Settings, maker: Maker) -> Asked | None:
    """The call that is due now, if the settings say that it is made. A cycle that was found impossible is left to people."""
    if view.is_settled or view.declared:
        return None
    token = f"alarm-{view.cycle}-{len(view.rounds)}"
    if view.frozen:
        return Asked("settle", (), maker, token + "-settle") if settings.settles else None
    if settings.freezes and now >= view.opening.times[view.cycle].confirmed:
        return Asked("freeze", (), maker, token + "-freeze")
    return None


def reminders(view: DayView, now: float, settings: Settings) -> list[str]:
    """What a scheduler is reminded of."""
    if view.is_settled:
        return ["All five cycles are settled."]
    name, times, state = CYCLES[view.cycle], view.opening.times[view.cycle], view.state
    if state == "impossible":
        return [f"{name} has no schedule: waive, or post other capacities, and freeze it again, or skip it."]
    if state == "frozen":
        return [f"{name} is frozen and waits for its schedule, which is {overdue(times.schedules, now)}."]
    left = times.confirmed - now
    if left <= 0:
        how = "The alarm freezes it." if settings.freezes else "Freeze it."
        return [f"The confirmation time of {name} came {span(left)} ago. {how}"]
    if left <= 60 * settings.remind_minutes:
        return [f"The confirmation time of {name} comes in {span(left)}."]
    return []


def overdue(moment: int, now: float) -> str:
    return f"due in {span(moment - now)}" if now <= moment else f"overdue by {span(moment - now)}"
