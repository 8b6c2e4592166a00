"""A gas day cycle by cycle, as plain text and as the words that the page shows too."""

from collections.abc import Iterator, Sequence

from .cause_words import Label, arithmetic_words, sharing_words, words_of
from .causes import CONFIRMATION, ELAPSED, NOMINATION, SILENCE, EndAnswer
from .course import DECLARED, FROZEN, PUBLISHED
from .day import TIMES, Day
from .facts import Facts
from .moments import Clock
from .rounds import CycleFacts, RoundFacts, RoundLine
from .words import CYCLES, counted, exact_words, grouped, listed

WAIVER_NOTE = ("What waiving a line would free is what its floor falls by, as gasday tells where it is waived and the cycle"
               " frozen again. It says nothing about who should waive; and where this set is no cut any more, another one may"
               " be.")


def label_of(line: RoundLine) -> str:
    return f"line {line.line.number} {line.line.shipper} {line.line.contract}"


def labels_of(lines: Sequence[RoundLine]) -> Label:
    """What the lines of a round are called in reasons."""
    return lambda number: label_of(lines[number - 1])


def line_words(line: RoundLine) -> str:
    at = line.line
    return (f"Line {at.number}: {at.shipper}, contract {at.contract}, package {at.package}, {at.origin} to {at.destination},"
            f" class {line.class_number}")


def answer_part(answer: EndAnswer) -> str:
    told = "silent" if answer.quantity is None else grouped(answer.quantity)
    return f"{answer.operator or 'nobody'} {told} at the {answer.end}"


def by_words(line: RoundLine, cycle: int) -> str:
    """By whom a line was confirmed, in a few words."""
    kept = f"{'carried over' if cycle == 1 else 'scheduled before'}: {grouped(line.former)}"
    return {NOMINATION: "all of it", CONFIRMATION: "by an operator", SILENCE: f"by silence, {kept}",
            ELAPSED: "what has flowed already"}.get(line.confirmed_by, "by whom can't be told")


def confirmed_words(line: RoundLine, cycle: int) -> str:
    """The same with what both ends answered."""
    return f"{by_words(line, cycle)}; {', '.join(map(answer_part, line.answers))}"


def freed_words(line: RoundLine, excess: int) -> str:
    """What waiving a line of a cut would free."""
    if line.freed is None:
        return ""
    enough = ": enough that this set is no cut" if line.freed >= excess else ""
    return f"waiving it would free {grouped(line.freed)}, where {grouped(excess)} are too many{enough}"


def reasons_of(line: RoundLine, cycle: int) -> list[str]:
    return words_of(line.causes, cycle, line.class_number)


def outcome_words(cycle: CycleFacts) -> str:
    """What came of a cycle, in a few words."""
    if cycle.cycle.skipped_at is not None:
        return "skipped: the former schedule stays in effect"
    if not cycle.rounds:
        return "not frozen yet"
    last = cycle.rounds[-1].round
    return {PUBLISHED: f"published, round {last.number}", DECLARED: f"no schedule, round {last.number}: a cut was declared",
            FROZEN: f"frozen, round {last.number}, and nothing published yet"}[last.outcome]


def round_heading(made: RoundFacts, clock: Clock) -> str:
    at = made.round
    ended = f", {at.outcome} {clock.show(at.ended_at)}" if at.ended_at is not None else ""
    return f"Round {at.number}: frozen {clock.show(at.frozen_at)}{ended}"


def constraint_words(facts: Facts) -> Iterator[str]:
    """The elements that a reason names, each with what its classes have."""
    for sharing in facts.sharings:
        shares = [f"class {share.class_number} {grouped(share.scheduled)} in {counted(share.lines, 'line')}"
                  for share in sharing.classes]
        usual = f", usually {grouped(sharing.usual)}" if sharing.usual != sharing.capacity else ""
        yield f"{sharing.kind} {sharing.element}: {grouped(sharing.load)} of {grouped(sharing.capacity)}{usual}; {listed(shares)}"


def cut_words(facts: Facts) -> str:
    assert facts.sums
    leave, back, flow, excess = map(grouped, facts.sums)
    return (f"There is no schedule: {leave} must leave the cut's set, {back} can come back and {flow} can flow out,"
            f" so {excess} too many: the excess")


def round_line_rows(line: RoundLine, made: RoundFacts, arithmetic: bool) -> Iterator[str]:
    cycle = made.round.cycle
    scheduled = "" if line.scheduled is None else f", scheduled {grouped(line.scheduled)}"
    bumped = f", bumped by {grouped(line.bumped)}" if line.bumped else ""
    waived = " (waived)" if line.waived else ""
    yield line_words(line)
    yield (f"    nominated {grouped(line.nominated)}, confirmed {grouped(line.confirmed)} ({confirmed_words(line, cycle)}),"
           f" floor {grouped(line.floor)}{waived}{scheduled}{bumped}")
    yield from (f"    why: {words}" for words in reasons_of(line, cycle))
    if arithmetic and line.reason:
        yield from (f"    arithmetic: {words}" for words in arithmetic_words(line.reason))
    if made.facts and made.facts.sums and line.cut_quantity:
        way = "leaves the cut's set with its floor" if line.cut_way == "out" else "can come back with its confirmed quantity"
        freed = freed_words(line, made.facts.sums.excess)
        yield f"    {way}, {grouped(line.cut_quantity)}{'; ' + freed if freed else ''}"


def round_rows(made: RoundFacts, clock: Clock, arithmetic: bool) -> Iterator[str]:
    yield round_heading(made, clock)
    if made.posting:
        yield f"  posting: SHA-256 {made.posting.digest()}"
    yield from (f"  {note}" for note in made.notes)
    if made.facts and made.facts.is_cut:
        yield f"  {cut_words(made.facts)}"
    for line in made.lines:
        yield from (f"  {row}" for row in round_line_rows(line, made, arithmetic))
    if made.facts and made.facts.short_lines:
        yield f"  {exact_words(made.facts.short_lines, made.facts.exact_reasons)}"
        label = labels_of(made.lines)
        yield from (f"  {sharing_words(sharing, label)}" for sharing in made.facts.sharings)


def cycle_rows(day: Day, arithmetic: bool) -> Iterator[str]:
    for cycle in day.cycles:
        yield ""
        yield f"Cycle {cycle.cycle.number}, {CYCLES[cycle.cycle.number]}: {outcome_words(cycle)}"
        for made in cycle.rounds:
            yield from round_rows(made, day.clock, arithmetic)
    if any(made.facts and made.facts.is_cut for cycle in day.cycles for made in cycle.rounds):
        yield ""
        yield WAIVER_NOTE


def times_rows(day: Day) -> Iterator[str]:
    yield f"Gas day {day.date}, book {day.book}, by the clock of {day.clock.name}"
    for cycle, times in day.times:
        shown = zip(TIMES, map(day.clock.show, times), strict=False)
        yield f"  {CYCLES[cycle]}: " + ", ".join(f"{name} {time}" for name, time in shown)
