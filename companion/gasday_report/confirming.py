"""By whom a line was confirmed. The program tells how much; here only the quantity that this is gets its name, and where
none fits that is said."""

from collections.abc import Sequence

from .causes import CONFIRMATION, ELAPSED, NOMINATION, SILENCE, UNTOLD, AnswerCause, EndAnswer
from .course import Bound, Round
from .deciding import Cause


def confirmed_by(cycle: int, nominated: int, former: int, bound: Bound, answers: Sequence[EndAnswer]) -> str:
    """Which of the known quantities the confirmed one is."""
    given = [answer.quantity for answer in answers if answer.quantity is not None]
    is_silent = len(given) < len(answers)
    if is_silent and cycle > 1:
        return SILENCE if bound.ceiling == former else UNTOLD
    least = min([nominated, *given, *[former] * is_silent])
    if bound.ceiling == least:
        return NOMINATION if least == nominated else CONFIRMATION if least in given else SILENCE
    return ELAPSED if not is_silent and bound.ceiling == bound.floor and bound.ceiling > least else UNTOLD


def answer_causes(by: str, nominated: int, ceiling: int, answers: Sequence[EndAnswer]) -> list[Cause]:
    """Why the confirmed quantity isn't the nominated one."""
    if ceiling == nominated:
        return []
    if by == UNTOLD:
        return [Cause(UNTOLD, nominated, ceiling)]
    decided = {SILENCE: [answer for answer in answers if answer.quantity is None],
               CONFIRMATION: [answer for answer in answers if answer.quantity == ceiling]}.get(by, answers)
    return [AnswerCause(by, nominated, ceiling, tuple(decided))]


def answers_of(at: Round, line: int, ends: Sequence[tuple[str, str]]) -> tuple[EndAnswer, ...]:
    """What was answered at both ends of a line, each with its operator."""
    found = []
    for end, operator in ends:
        response = at.responses.get((line, end))
        found.append(EndAnswer(end, operator, response.quantity if response else None))
    return tuple(found)
