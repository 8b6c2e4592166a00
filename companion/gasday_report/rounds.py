"""The rounds of a gas day: the question of each, the check of what was published or declared, and what is said of its lines.

The question is put together of the day's text and of what was told of the freeze. Where a schedule was published the program
keeps a posting of it in an archive, whose question has to be the same."""

from collections.abc import Iterable, Sequence
from dataclasses import dataclass, field

from certificate import Question, Unreadable

from .archives import Posting
from .causes import UNTOLD, EndAnswer
from .confirming import answer_causes, answers_of, confirmed_by
from .course import DECLARED, FROZEN, PUBLISHED, Cycle, DayLine, Round
from .deciding import Cause
from .facts import Facts, LineFact, facts_of
from .program import Program
from .reasons import Reason
from .texts import QUESTION_KINDS, Fault, Input, Row, number_of, of_kinds, rows_in, written
from .verdicts import Verdict, own_verdict, program_verdicts

PIPELINE_KINDS = ("segment", "point", "pool")
# Of so many declared rounds the program is asked what a waiver would free; each is a run of the day.
MOST_ASKED = 20


@dataclass(frozen=True)
class RoundLine:
    """A line in a round: what was asked, answered, told and scheduled, and why."""

    line: DayLine
    class_number: int
    nominated: int
    confirmed: int
    confirmed_by: str
    answers: tuple[EndAnswer, ...]
    former: int
    waived: bool
    floor: int
    scheduled: int | None = None  # none where nothing was published
    bumped: int | None = None
    causes: tuple[Cause, ...] = ()
    reason: Reason | None = None
    cut_way: str = ""  # of a cut: out, in or nothing
    cut_quantity: int | None = None
    freed: int | None = None  # of a cut: how much less its floor is once it is waived, as the program tells


@dataclass
class RoundFacts:
    """A round with what was checked of it."""

    round: Round
    question: list[Row]  # as the day's text and the freeze tell it
    lines: list[RoundLine] = field(default_factory=list)
    facts: Facts | None = None  # none where there is nothing to check yet
    posting: Posting | None = None
    notes: list[str] = field(default_factory=list)


@dataclass
class CycleFacts:
    cycle: Cycle
    rounds: list[RoundFacts]


def row_of(*fields: object) -> Row:
    return [*map(str, fields), *[""] * (8 - len(fields))]


def question_rows(rows: Sequence[Row], book: str, at: Round, lines: Sequence[DayLine]) -> list[Row]:
    """The question of a round: the pipeline, the capacities that were posted, and the lines as the freeze told them."""
    bounds = zip(lines, at.bounds, strict=False)
    return [*of_kinds(rows, PIPELINE_KINDS), row_of("question", book, at.cycle, at.number),
            *(row_of("capacity", name, quantity) for name, quantity in at.capacities.items()),
            *(row_of("line", line.origin, line.destination, bound.class_number, bound.floor, bound.ceiling)
              for line, bound in bounds)]


def same_question(one: Question, other: Question) -> bool:
    """Whether two questions have the same elements in places of the same names, with equal capacities, and equal lines."""
    def form(question: Question) -> object:
        names = list(question.places)
        elements = {name: (kind, tuple(names[at] for at in ends), capacity)
                    for name, kind, ends, capacity in question.elements.values()}
        return elements, question.lines
    return form(one) == form(other)


def head_of(rows: Iterable[Row], name: str) -> tuple[str, int, int] | None:
    """Book, cycle and round, where a text tells them."""
    heads = of_kinds(rows, ("question",))
    return (heads[0][1], number_of(heads[0][2], name), number_of(heads[0][3], name)) if heads else None


def read_question(rows: Iterable[Row], name: str) -> Question:
    try:
        return Question(written(rows).decode())
    except Unreadable as error:
        raise Fault(f"{name}: no question: {error}") from None


def unknown_cause(ceiling: int, scheduled: int | None) -> tuple[Cause, ...]:
    """That a line has less than its ceiling where there are no prices to say why."""
    return (Cause(UNTOLD, ceiling, scheduled),) if scheduled is not None and scheduled < ceiling else ()


def mismatch_of(posting: Posting, ours: Sequence[Row], book: str, at: Round) -> str:
    """In what a posting isn't the round that was told; nothing where it is."""
    name = f"the posting of cycle {at.cycle}"
    rows = rows_in(posting.body, name)
    head = head_of(rows, name)
    if head != (book, at.cycle, at.number) or posting.round != at.number:
        told = ", ".join(map(str, head or ("none",)))
        return f"{name} has the head {told}, and round {at.number} of cycle {at.cycle} of {book} was told"
    if not same_question(read_question(of_kinds(rows, QUESTION_KINDS), name), read_question(ours, "the day's text")):
        return f"{name} answers another question than that of the day's text and of what was told at its freeze"
    scheduled = [number_of(row[2], name) for row in of_kinds(rows, ("sched",))]
    bumped = {number_of(row[1], name): number_of(row[2], name) for row in of_kinds(rows, ("bumped",))}
    if scheduled != at.scheduled or bumped != at.bumped:
        return f"{name} has another schedule, or other bumped lines, than was told"
    return ""


class Rounds:
    """Checks the rounds of a gas day, and says of each line what is known."""

    def __init__(self, program: Program, rows: Sequence[Row], book: str, lines: Sequence[DayLine],
                 postings: Sequence[Posting]) -> None:
        self.program, self.rows, self.book, self.lines = program, rows, book, lines
        self.postings = {posting.cycle: posting for posting in postings}
        self.operators = {row[1]: row[4 if row[0] == "point" else 3] for row in of_kinds(rows, ("point", "pool"))}
        self.verdicts: list[tuple[int, Verdict]] = []
        self.asked = 0

    def cycle(self, cycle: Cycle) -> CycleFacts:
        return CycleFacts(cycle, [self.round(at) for at in cycle.rounds])

    def round(self, at: Round) -> RoundFacts:
        made = RoundFacts(at, question_rows(self.rows, self.book, at, self.lines))
        if at.outcome == PUBLISHED:
            self.check_published(made)
        elif at.outcome == DECLARED:
            answer = Input("answer", f"what was declared in round {at.number}", written(at.inside))
            made.facts = self.check(at, written(made.question), answer)
        freed = self.freed(made) if made.facts and made.facts.is_cut else {}
        facts: list[LineFact | None] = [None] * len(at.bounds)
        if made.facts:
            facts = [*made.facts.lines]
        made.lines = [self.line(at, number, fact, freed.get(number)) for number, fact in enumerate(facts, 1)]
        return made

    def check_published(self, made: RoundFacts) -> None:
        """Checks the posting of a round, and that it is what was told."""
        at = made.round
        made.posting = self.postings.get(at.cycle)
        if made.posting is None:
            made.notes.append("The program kept no posting of this round, so it has no prices, and why a line has less than its"
                              " confirmed quantity can't be told.")
            return
        if wrong := mismatch_of(made.posting, made.question, self.book, at):
            self.verdicts.append((at.number, Verdict("the posting of each round", False, wrong)))
            return
        self.verdicts.append((at.number, Verdict("the posting of each round", True, "it has the question of the day's text and"
                                                 " of what was told, and the schedule that was told")))
        rows = rows_in(made.posting.body, f"the posting of cycle {at.cycle}")
        answer = [row for row in rows if row[0] not in QUESTION_KINDS]
        made.facts = self.check(at, written(of_kinds(rows, QUESTION_KINDS)),
                                Input("answer", f"the posting of round {at.number}", written(answer)))

    def check(self, at: Round, question: bytes, answer: Input) -> Facts | None:
        """The facts of a round whose answer passes."""
        asked_input = Input("question", f"the question of round {at.number}", question)
        verdicts = program_verdicts(self.program.path, asked_input, answer)
        own, asked, given = own_verdict(asked_input, answer)
        verdicts.append(own)
        self.verdicts += [(at.number, verdict) for verdict in verdicts]
        passed = all(verdict.passed for verdict in verdicts)
        return facts_of(asked_input, answer, asked, given, self.program) if passed else None

    def freed(self, made: RoundFacts) -> dict[int, int]:
        """By line how much less its floor is once it is waived: the program is asked to waive all whose floors are in the cut,
        and to freeze again."""
        lines = [line.number for line in made.facts.lines if line.cut_way == "out" and line.floor] if made.facts else []
        self.asked += 1
        if not lines or self.asked > MOST_ASKED:
            if lines:
                made.notes.append(f"What a waiver would free is asked for the first {MOST_ASKED} declared rounds alone.")
            return {}
        at = made.round
        more = [*(row_of("waive", at.ended_at, line) for line in lines), row_of("freeze", at.ended_at)]
        told = rows_in(self.program.call(["day"], written([*self.rows[:at.last_row], *more]))[0], "gasday day")
        heads = [k for k, row in enumerate(told) if row[0] == FROZEN]
        floors = [number_of(row[3], "gasday day") for row in told[heads[-1] + 1:]] if heads else []
        if len(heads) != at.number + 1 or len(floors) < max(lines):
            made.notes.append("What a waiver would free can't be told: the program refused to waive or to freeze again.")
            return {}
        return {line: at.bounds[line - 1].floor - floors[line - 1] for line in lines}

    def line(self, at: Round, number: int, fact: LineFact | None, freed: int | None) -> RoundLine:
        line, bound = self.lines[number - 1], at.bounds[number - 1]
        nominated, former = at.nominated[number - 1], at.former[number - 1]
        ends = (("origin", self.operators.get(line.origin, "")), ("destination", self.operators.get(line.destination, "")))
        answers = answers_of(at, number, ends)
        by = confirmed_by(at.cycle, nominated, former, bound, answers)
        is_published = at.outcome == PUBLISHED
        scheduled = at.scheduled[number - 1] if is_published else None
        below_ceiling = fact.causes if fact else unknown_cause(bound.ceiling, scheduled)
        return RoundLine(
            line, bound.class_number, nominated, bound.ceiling, by, answers, former, number in at.waived, bound.floor,
            scheduled=scheduled, bumped=at.bumped.get(number, 0) if is_published else None,
            causes=(*answer_causes(by, nominated, bound.ceiling, answers), *below_ceiling),
            reason=fact.reason if fact else None, cut_way=fact.cut_way if fact else "",
            cut_quantity=fact.cut_quantity if fact else None, freed=freed)

    def all_verdicts(self) -> list[Verdict]:
        """One verdict of each check: of all rounds that pass it, or of the first that doesn't."""
        made: dict[str, list[tuple[int, Verdict]]] = {}
        for number, verdict in self.verdicts:
            made.setdefault(verdict.by, []).append((number, verdict))
        return [verdict_of_rounds(by, rounds) for by, rounds in made.items()]


def verdict_of_rounds(by: str, rounds: Sequence[tuple[int, Verdict]]) -> Verdict:
    failed = [(number, verdict) for number, verdict in rounds if not verdict.passed]
    if failed:
        return Verdict(by, False, f"round {failed[0][0]}: {failed[0][1].words}")
    numbers = ", ".join(str(number) for number, _ in rounds)
    words = {verdict.words for _, verdict in rounds}
    told = words.pop() if len(words) == 1 else "each answer passed"
    return Verdict(by, True, f"round{'s' * (len(rounds) > 1)} {numbers}: {told}")
