"""The verdicts that stand before each report: that of `gasday check ..`, and that of certificate.py."""

from collections.abc import Iterable, Sequence
from typing import NamedTuple

from certificate import Answer, Question, Unreadable, Wrong, verdict_of

from .program import call
from .program import program_at as program_at
from .texts import ANSWER_KINDS, Fault, Input, Row, of_kinds, question_text, rows_in, written

BROKEN = {
    "Shape": "there is not one quantity for each line",
    "BelowFloor": "line {} has less than its floor",
    "AboveCeiling": "line {} has more than its ceiling",
    "OverCapacity": "{} carries more than its capacity",
    "Unbalanced": "what enters pool {} is not what leaves it",
    "PriceTooLarge": "a word of the price of {} is larger than the program's limit",
    "PriceOnSlack": "{} has a price that its load doesn't allow",
    "Underfilled": "line {} is below its ceiling, and its next dekatherm is worth more than it pays",
    "Overfilled": "line {} is above its floor, and its last dekatherm is worth less than it pays",
    "NotCut": "no more must leave the set than can, so it is no cut",
}


class Verdict(NamedTuple):
    by: str
    passed: bool
    words: str


def is_cut(rows: Iterable[Row]) -> bool:
    return bool(of_kinds(rows, ("inside", "cut")))


def told_in_words(rows: Sequence[Row]) -> str:
    """What a check told, in words."""
    kind, name, item = rows[0][:3]
    if kind == "broken":
        return f"broken, {name}: {BROKEN.get(name, 'the rule of this name is broken at {}').format(item)}"
    if kind == "cut":
        return f"a cut of excess {name}: no schedule is allowed"
    if kind == "best":
        return "the schedule is allowed and best"
    return "told: " + ",".join(rows[0]).rstrip(",")


def claim_verdict(answer: Input, told: Sequence[Row]) -> list[Verdict]:
    """A FAIL where an answer claims what the check doesn't tell; an answer may claim nothing."""
    for row in of_kinds(answer.rows(), ("best", "total", "cut")):
        if row not in told:
            fields = 2 if row[0] == "total" else 1
            same = [",".join(other).rstrip(",") for other in told if other[:fields] == row[:fields]]
            words = f"the answer says {','.join(row).rstrip(',')} where the check tells {same[0] if same else 'no such row'}"
            return [Verdict("the answer's own claim", False, words)]
    return []


def program_verdicts(program: str, question: Input, answer: Input) -> list[Verdict]:
    """What `gasday check ..` says of the question with the answer's own rows behind it; after a PASS also whether the
    answer claims as much."""
    rows = answer.rows()
    word = "cut" if is_cut(rows) else "best"
    text = question_text(question) + written(of_kinds(rows, ANSWER_KINDS))
    out, status = call(program, ["check", word], text)
    told = rows_in(out, f"gasday check {word}")
    by = f"gasday check {word}"
    if told and told[0][0] == "fault":
        raise Fault(f"{by}: the text has a fault: {','.join(told[0]).rstrip(',')}")
    if status not in (0, 1) or not told or (status == 0) != (told[0][0] == word):
        raise Fault(f"{by}: not an answer of gasday, with exit status {status}")
    return [Verdict(by, status == 0, told_in_words(told)), *(claim_verdict(answer, told) if status == 0 else [])]


def own_verdict(question: Input, answer: Input) -> tuple[Verdict, Question, Answer]:
    """What certificate.py says; with the question and the answer that it read."""
    by = "certificate.py"
    try:
        asked = Question(question_text(question).decode("utf-8-sig"))
        given = Answer(answer.data.decode("utf-8-sig"), asked)
    except Unreadable as error:
        raise Fault(f"{by}: {error}") from None
    given.is_cut = is_cut(answer.rows())
    try:
        return Verdict(by, True, verdict_of(asked, given)), asked, given
    except Wrong as wrong:
        return Verdict(by, False, wrong.words), asked, given
