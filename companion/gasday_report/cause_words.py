"""Why a line has less than was nominated, in words of the trade; and the arithmetic of it."""

from collections.abc import Callable, Iterable, Iterator, Sequence

from .causes import ELAPSED, SILENCE, AnswerCause, ElementCause, EndAnswer, PoolCause
from .deciding import HIGHER_CLASS, Cause, Decision, Limits, OwnShare
from .reasons import Reason
from .sharing import MOST_SHARERS, ClassShare, Sharing
from .words import counted, grouped, listed

# What a line is called where others may read of it; empty where they may not.
Label = Callable[[int], str]


def line_number(number: int) -> str:
    return f"line {number}"


def unnamed(_: int) -> str:
    return ""


def end_words(answer: EndAnswer) -> str:
    return f"{answer.operator} at the {answer.end}" if answer.operator else f"the {answer.end}'s operator"


def answer_words(answers: Sequence[EndAnswer]) -> str:
    """What operators confirmed, and who was silent."""
    silent = [end_words(answer) for answer in answers if answer.quantity is None]
    given = [f"{end_words(answer)} confirmed {grouped(answer.quantity)}" for answer in answers if answer.quantity is not None]
    return listed(given + ([f"{listed(silent)} {'was' if len(silent) == 1 else 'were'} silent"] if silent else []))


def kept_words(cycle: int) -> str:
    return "what was carried over from the day before" if cycle == 1 else "what was scheduled before"


def answer_cause_words(cause: AnswerCause, cycle: int) -> str:
    """That less than was nominated came through the confirmation, or that a silent end kept something else."""
    answers = answer_words(cause.answers)
    step = f"{'reduced' if cause.after < cause.before else 'raised'} from {grouped(cause.before)} to {grouped(cause.after)}"
    if cause.kind == ELAPSED:
        return f"{step}, which has flowed already; {answers}"
    if cause.kind != SILENCE:
        return f"{step} by confirmation: {answers}"
    return f"{step} by silence: {answers}, so {kept_words(cycle)} applies, {grouped(cause.after)}"


def percents(share: OwnShare) -> tuple[str, str]:
    """A line's share in percent, and that of the others."""
    percent = round(share.percent)
    if 0 < share.percent < 1 or 99 < share.percent < 100:
        return ("under 1 %", "over 99 %") if share.percent < 1 else ("over 99 %", "under 1 %")
    return f"{percent} %", f"{100 - percent} %"


def share_words(share: OwnShare, own_class: int) -> str:
    own, others = percents(share)
    return (f": this line has {own} of class {own_class} at {share.element}, and {counted(share.other_lines, 'other line')}"
            f" {'has' if share.other_lines == 1 else 'have'} {others}")


def limit_words(limits: Limits) -> str:
    """What takes up all that the cut's elements can carry, or where no more can come from."""
    parts = []
    if limits.floors:
        lines = "another line takes" if limits.floor_lines == 1 else f"{limits.floor_lines:,} other lines take"
        parts.append(f"the floor{'s' * (limits.floor_lines > 1)} of {lines} {grouped(limits.floors)}")
    if limits.returning:
        verb = "is" if limits.returning_lines == 1 else "are"
        parts.append(f"{counted(limits.returning_lines, 'line')} that would make room {verb} at the confirmed"
                     f" {grouped(limits.returning)}")
    if len(limits.elements) > 1:
        parts.append(f"{counted(len(limits.elements), 'element')} together carry at most {grouped(limits.capacity)}")
    return f"no schedule gives this line more{': ' if parts else ''}{listed(parts)}"


def decision_words(decision: Decision, own_class: int) -> str:
    """The class whose gas goes first, exactly or as a bound, or that no schedule gives the line more."""
    if decision.limits:
        return limit_words(decision.limits)
    first = f"gas of class {decision.first_class}{'' if decision.is_exact else ' or higher'}"
    balance = ", through pool balance" if decision.through_pools else ""
    if decision.kind == HIGHER_CLASS:
        return f"{first} goes before gas of class {own_class}{balance}"
    shared = f"shared within class {own_class}{balance}" if decision.is_exact else f"other {first} goes first"
    taken = ", which would lose more than this line gains" if decision.takes_more else ""
    return f"{shared}{taken}{share_words(decision.share, own_class) if decision.share else ''}"


def sharer_words(share: ClassShare, label: Label) -> str:
    """The lines of a class with what each has, those with most first."""
    named = [f"{label(line.line)} {grouped(line.scheduled)}" for line in share.greatest if label(line.line)]
    more = [f"{counted(share.lines - len(named), 'other line')}"] if named and share.lines > len(named) else []
    return f" ({listed(named + more)})" if named else ""


def class_words(sharing: Sharing, label: Label) -> str:
    """How much each class has of an element, and how much of that is floors."""
    parts = []
    for share in sharing.classes:
        amount = "all" if share.floor == share.scheduled else grouped(share.floor)
        floor = f" with {amount} of it in floors" if share.floor else ""
        parts.append(f"class {share.class_number} has {grouped(share.scheduled)}{floor}{sharer_words(share, label)}")
    return listed(parts)


def full_words(sharing: Sharing) -> str:
    if sharing.capacity == 0:
        return f"{sharing.element} is closed, with a capacity of 0"
    usual = f" (usually {grouped(sharing.usual)})" if sharing.usual != sharing.capacity else ""
    return f"{sharing.element} is full, {grouped(sharing.load)} of {grouped(sharing.capacity)}{usual}"


def sharing_words(sharing: Sharing, label: Label) -> str:
    """An element that is full with all that share it."""
    shared = class_words(sharing, label)
    return f"{full_words(sharing)}{': ' + shared if shared else ''}"


def pool_words(cause: PoolCause, full: Callable[[Sharing], str]) -> str:
    rule = "as much must leave as enters" if cause.leaving else "as much must enter as leaves"
    ways, side = ("leave it", "out of") if cause.leaving else ("be brought into it", "into")
    through = f" (by way of {listed(cause.through[:MOST_SHARERS])})" if cause.through else ""
    head = f"by balance at pool {cause.pool}: {rule} ({grouped(cause.load)})"
    if cause.full:
        more = [f"{counted(cause.more_full, 'more element')}"] if cause.more_full else []
        return f"{head}, and more could {ways}{through} only past what is full: {'; '.join([*map(full, cause.full), *more])}"
    of = listed([cause.pool, *cause.through[:MOST_SHARERS]])
    if not cause.filled_lines:
        return f"{head}, and no line leads {side} {of}"
    verb = "is" if cause.filled_lines == 1 else "are"
    return (f"{head}, and {counted(cause.filled_lines, 'line')} {side} {of} {verb} at the confirmed quantity, so no more can"
            f" {ways}{through}")


def cause_words(cause: Cause, cycle: int, own_class: int, label: Label | None) -> str:
    """One cause; with who shares what is full where there is a label for lines."""
    def full(sharing: Sharing) -> str:
        return sharing_words(sharing, label) if label else full_words(sharing)
    if isinstance(cause, AnswerCause):
        return answer_cause_words(cause, cycle)
    if isinstance(cause, Decision):
        return decision_words(cause, own_class)
    if isinstance(cause, ElementCause):
        return full(cause.sharing)
    if isinstance(cause, PoolCause):
        return pool_words(cause, full)
    return "the reason is unknown: neither the day's text nor the replies show it"


def words_of(causes: Iterable[Cause], cycle: int, own_class: int, label: Label | None = None) -> list[str]:
    """A sentence for each step down: what decides comes first, and then what is full or in balance. Who shares that is in it
    where there is a label for lines; else they are listed once, by `sharing_words`."""
    sentences: list[str] = []
    for cause in causes:
        words = cause_words(cause, cycle, own_class, label)
        if isinstance(cause, ElementCause | PoolCause) and sentences:
            sentences[-1] += f"; {words}"
        else:
            sentences.append(words)
    return sentences


def arithmetic_words(reason: Reason) -> Iterator[str]:
    """What the next dekatherm would displace, element by element, and what it is worth."""
    yield from reason.words
    if reason.more:
        yield f"{counted(reason.more, 'more element')} of its route with a price"
    yield reason.rest
