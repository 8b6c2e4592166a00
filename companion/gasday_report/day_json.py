"""The cycles of a gas day as fields: numbers, names and words of a fixed list, and no sentences."""

from collections.abc import Sequence
from typing import Any

from certificate import CLASSES

from .causes import AnswerCause, ElementCause, EndAnswer, PoolCause
from .day import Day
from .deciding import Cause, Decision, Limits, OwnShare, decision_in
from .reasons import Payment, Reason
from .rounds import CycleFacts, RoundFacts, RoundLine
from .sharing import Sharing

Names = dict[str, Any]


def moment_of(seconds: int | None, day: Day) -> Names | None:
    return None if seconds is None else {"moment": seconds, "local": day.clock.show(seconds)}


def end_answer_of(answer: EndAnswer) -> Names:
    return {"end": answer.end, "operator": answer.operator or None, "confirmed": answer.quantity}


def sharing_of(sharing: Sharing) -> Names:
    """An element that is full, with what each class and each line has of it."""
    return {
        "element": sharing.element, "kind": sharing.kind, "capacity": sharing.capacity, "usual_capacity": sharing.usual,
        "load": sharing.load,
        "classes": [{"class": share.class_number, "lines": share.lines, "floor": share.floor, "scheduled": share.scheduled}
                    for share in sharing.classes],
        "lines": [{"line": share.line, "class": share.class_number, "floor": share.floor, "scheduled": share.scheduled}
                  for share in sharing.lines],
    }


def cause_of(cause: Cause) -> Names:
    """Why there is less; who shares an element is under `sharing`, by its name."""
    names: Names = {"kind": cause.kind.replace(" ", "_"), "before": cause.before, "after": cause.after}
    if isinstance(cause, AnswerCause):
        names["answers"] = list(map(end_answer_of, cause.answers))
    elif isinstance(cause, ElementCause):
        sharing = cause.sharing
        names.update(element=sharing.element, capacity=sharing.capacity, load=sharing.load,
                     first_class=cause.first_class or None)
    elif isinstance(cause, PoolCause):
        names.update(pool=cause.pool, load=cause.load, way="out" if cause.leaving else "in", through=list(cause.through),
                     full=[sharing.element for sharing in cause.full], more_full=cause.more_full, open_lines=cause.open_lines,
                     filled_lines=cause.filled_lines)
    return names


def causes_of(causes: Sequence[Cause]) -> list[Names]:
    """What is full or in balance, and what was answered; what decides has a name of its own."""
    return [cause_of(cause) for cause in causes if not isinstance(cause, Decision)]


def share_of(share: OwnShare) -> Names:
    return {"element": share.element, "own": share.own, "others": share.others, "other_lines": share.other_lines,
            "percent": round(share.percent, 2)}


def limits_of(limits: Limits) -> Names:
    return {"elements": list(limits.elements), "capacity": limits.capacity, "returning_lines": limits.returning_lines,
            "returning": limits.returning, "floor_lines": limits.floor_lines, "floors": limits.floors}


def decided_of(causes: Sequence[Cause]) -> Names | None:
    """What decides that a line gets no more."""
    decision = decision_in(causes)
    if decision is None:
        return None
    return {
        "by": decision.kind.replace(" ", "_"), "class": decision.first_class or None, "exact": decision.is_exact,
        "through_pools": decision.through_pools, "takes_more": decision.takes_more,
        "share": decision.share and share_of(decision.share), "limits": decision.limits and limits_of(decision.limits),
    }


def payment_of(payment: Payment) -> Names:
    return {"element": payment.element, "classes": payment.amount[:CLASSES], "spread": payment.amount[CLASSES:]}


def arithmetic_of(reason: Reason | None) -> Names | None:
    """What the next dekatherm would pay, and what it is worth."""
    return reason and {
        "pays": list(map(payment_of, reason.paid)), "gets_back": list(map(payment_of, reason.back)), "more": reason.more,
        "class": reason.class_number, "tenth": reason.tenth, "worth": "less" if reason.is_less else "equal",
    }


def round_line_of(line: RoundLine) -> Names:
    at = line.line
    return {
        "line": at.number, "shipper": at.shipper, "contract": at.contract, "package": at.package, "origin": at.origin,
        "destination": at.destination, "class": line.class_number, "nominated": line.nominated, "confirmed": line.confirmed,
        "confirmed_by": line.confirmed_by, "answers": list(map(end_answer_of, line.answers)), "former": line.former,
        "waived": line.waived, "floor": line.floor, "scheduled": line.scheduled, "bumped": line.bumped,
        "causes": causes_of(line.causes), "decided": decided_of(line.causes), "arithmetic": arithmetic_of(line.reason),
        "cut_way": line.cut_way or None, "cut_quantity": line.cut_quantity, "freed_by_waiver": line.freed,
    }


def round_of(made: RoundFacts, day: Day, answer: Names | None) -> Names:
    at = made.round
    return {
        "round": at.number, "outcome": at.outcome, "frozen": moment_of(at.frozen_at, day), "ended": moment_of(at.ended_at, day),
        "posting_sha256": made.posting.digest() if made.posting else None, "notes": made.notes, "answer": answer,
        "lines": list(map(round_line_of, made.lines)),
    }


def cycle_of(cycle: CycleFacts, day: Day, times: Names, answers: Sequence[Names | None]) -> Names:
    return {
        "cycle": cycle.cycle.number, "times": times, "skipped": moment_of(cycle.cycle.skipped_at, day),
        "rounds": [round_of(made, day, answer) for made, answer in zip(cycle.rounds, answers, strict=True)],
    }
