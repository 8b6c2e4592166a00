"""Whether question, answer and gas day belong together."""

from collections.abc import Sequence

from certificate import Answer, Question

from .archives import Posting
from .course import DECLARED, PUBLISHED
from .day import Day
from .rounds import RoundFacts, head_of, read_question, same_question
from .texts import QUESTION_KINDS, Input, of_kinds, question_text, rows_in
from .verdicts import Verdict
from .words import CYCLES, counted, listed

TOGETHER = "question and answer belong together"
OF_THE_DAY = "question, answer and gas day belong together"


def head_words(head: tuple[str, int, int] | None) -> str:
    if head is None:
        return "none"
    book, cycle, number = head
    return f"book {book}, cycle {cycle} ({CYCLES.get(cycle, 'unknown')}), round {number}"


def answer_verdict(question: Input, answer: Input, asked: Question) -> list[Verdict]:
    """Of an answer that has a head of its own, as the body of a posting: whether it is to this question."""
    rows = answer.rows()
    head = head_of(rows, "answer")
    if head is None:
        return []
    own = head_of(question.rows(), "question")
    if head != own:
        return [Verdict(TOGETHER, False, f"the answer's head is {head_words(head)}; the question's is {head_words(own)}")]
    if not of_kinds(rows, ("segment",)):
        return [Verdict(TOGETHER, True, f"both are of {head_words(head)}")]
    if not same_question(read_question(of_kinds(rows, QUESTION_KINDS), "answer"), asked):
        return [Verdict(TOGETHER, False, "they have the same head, and other elements, capacities or lines")]
    return [Verdict(TOGETHER, True, f"both are of {head_words(head)}, with the same elements, capacities and lines")]


def round_of(day: Day, number: int) -> RoundFacts | None:
    rounds = [one for cycle in day.cycles for one in cycle.rounds if one.round.number == number]
    return rounds[0] if rounds else None


def day_head_verdict(question: Input, asked: Question, given: Answer, day: Day) -> Verdict:
    """Whether a question is that of a round of the day, and the answer what was told of it."""
    head = head_of(question.rows(), "question")
    found = round_of(day, head[2]) if head else None
    if head is None or found is None or head[:2] != (day.book, found.round.cycle):
        heads = [head_words((day.book, one.round.cycle, one.round.number)) for cycle in day.cycles for one in cycle.rounds]
        return Verdict(OF_THE_DAY, False, f"the question's head is {head_words(head)}; the gas day was frozen as"
                       f" {listed(heads) or 'none'}")
    if not same_question(read_question(found.question, "the day's text"), asked):
        return Verdict(OF_THE_DAY, False, f"the question of round {head[2]} of the gas day has other elements, capacities or"
                       " lines")
    at = found.round
    if at.outcome == PUBLISHED and (given.is_cut or given.quantities != at.scheduled):
        return Verdict(OF_THE_DAY, False, f"of round {head[2]} the gas day published another schedule")
    if at.outcome == DECLARED and not given.is_cut:
        return Verdict(OF_THE_DAY, False, f"of round {head[2]} the gas day declared a cut")
    return Verdict(OF_THE_DAY, True, f"the question is that of {head_words(head)}, and the answer {at.outcome} there")


def archive_verdict(held: Sequence[Posting], told: Sequence[Posting]) -> Verdict:
    """Whether an archive has postings of the cycles that the gas day publishes, and of no others of its book. What is in them
    is checked round by round."""
    by = "the archive's postings"
    kept, published = ({posting.cycle: posting for posting in postings} for postings in (held, told))
    for cycle in sorted({*kept, *published}):
        name = f"cycle {cycle} ({CYCLES.get(cycle, 'unknown')})"
        if cycle not in kept:
            return Verdict(by, False, f"the archive has no posting of {name}, which the gas day publishes")
        if cycle not in published:
            return Verdict(by, False, f"the archive has a posting of {name}, which the gas day doesn't publish")
    other = [str(cycle) for cycle, posting in kept.items() if posting.body != published[cycle].body]
    same = f"those of cycles {listed(other)} in other bytes than the program's" if other else "byte for byte as the program's"
    return Verdict(by, True, f"the archive has the {counted(len(kept), 'posting')} that the gas day publishes, {same}")


def posting_verdict(posting: Posting) -> Verdict:
    """Whether the body of a posting is of the book, cycle and round that the archive keeps it under."""
    by, wanted = "the archive's posting", (posting.book, posting.cycle, posting.round)
    head = head_of(rows_in(posting.body, "the posting"), "the posting")
    if head != wanted:
        return Verdict(by, False, f"it is kept as {head_words(wanted)}, and its head is {head_words(head)}")
    return Verdict(by, True, f"it is kept as {head_words(wanted)}, and has that head")


def posting_parts(posting: Posting) -> tuple[Input, Input]:
    """The question and the answer that a posting holds."""
    name = f"the posting of {posting.book}, cycle {posting.cycle}"
    rows_in(posting.body, name)
    body = Input("answer", name, posting.body)
    return Input("question", name, question_text(body)), body
