"""A question as a worker solves it: what `gasday solve` answers counts only where `gasday check` passes it."""

from collections.abc import Mapping, Sequence
from dataclasses import dataclass

from certificate import CLASSES, NOTHING, crossing_of

from .base import Scenario, Solved
from .program import Answer, Died, Program, Told, failure, no_answer, sha256_of

# The first rows of an answer, which the check has to tell as well; the rows behind them are the answer's own.
HEADS = ("best", "total", "cut")
# The check of each answer, with the status of `solve`.
CHECKS = {"best": 0, "cut": 1}


class Refused(Exception):
    """The program finds a fault in the question's text."""


class Unsound(Exception):
    """The check doesn't pass the answer, or doesn't tell the same of it."""


@dataclass(frozen=True)
class Checked:
    """An answer that has passed its check."""

    head: list[list[str]]
    own: list[list[str]]

    @property
    def is_cut(self) -> bool:
        return self.head[0][0] == "cut"

    def totals(self) -> list[int]:
        return [int(row[2]) for row in self.head[1:]]

    def quantities(self) -> list[int]:
        return [int(row[2]) for row in self.own if row[0] == "sched"]

    def priced(self) -> list[str]:
        """The elements whose price is above zero: so is the first of its words that isn't 0, class by class, then the spread."""
        prices: dict[str, list[int]] = {}
        for _, name, level, word, spread, *_ in (row for row in self.own if row[0] == "price"):
            price = prices.setdefault(name, list(NOTHING))
            price[int(level) - 1], price[CLASSES + int(level) - 1] = int(word), int(spread or 0)
        return [name for name, price in prices.items() if tuple(price) > NOTHING]

    def members(self) -> set[tuple[str, str]]:
        return {(row[1], row[2]) for row in self.own if row[0] == "inside"}


def parted(told: Told) -> Checked:
    rows = told.rows()
    heads = next((at for at, row in enumerate(rows) if row[0] not in HEADS), len(rows))
    return Checked(rows[:heads], rows[heads:])


def checked(program: Program, text: bytes) -> Checked:
    """Solves a question, and checks the answer by its own rows behind the question's."""
    told = program.call(["solve"], text)
    if told.is_a("fault", 2):
        raise Refused(told.first())
    kind = told.first().split(",")[0]
    if CHECKS.get(kind) != told.status:
        raise no_answer(told, "solve")
    answer = parted(told)
    own = "".join(",".join(row) + "\n" for row in answer.own).encode()
    said = program.call(["check", kind], text + own)
    if said.status not in (0, 1):
        raise no_answer(said, f"check {kind}")
    if said.status or said.rows() != answer.head:
        raise Unsound(f"gasday solve answers {told.first()}, and gasday check {kind} tells {said.first()}")
    return answer


def solve_question(program: Program, text: bytes) -> Checked | str:
    """An answer to a question that has passed its check, or why there is none."""
    try:
        return checked(program, text)
    except (Refused, Unsound) as error:
        return str(error)


def counted_losses(quantities: Sequence[int], base: Sequence[int]) -> str:
    """What each line loses against the base, below zero where it gains; those that have as much as there are left out."""
    lost = enumerate((b - q for b, q in zip(base, quantities, strict=True)), 1)
    return " ".join(f"{number}:{loss}" for number, loss in lost if loss)


def schedule_answer(solved: Solved, scenario: Scenario, answer: Checked) -> Answer:
    quantities, totals = answer.quantities(), answer.totals()
    capacities, ceilings = solved.capacities(scenario), solved.ceilings(scenario)
    loads = solved.asked.loads(quantities)
    full = [name for name, capacity in capacities.items() if loads[name] == capacity]
    asked = solved.asked_by_class(scenario)
    lines = enumerate(zip(solved.asked.lines, quantities, strict=True), 1)
    short = sum(quantity < ceilings.get(number, line.ceiling) for number, (line, quantity) in lines)
    priced = set(answer.priced())
    return {
        "verdict": "best", **{f"total_{c}": str(total) for c, total in enumerate(totals, 1)},
        **{f"loss_{c}": str(base - total) for c, (base, total) in enumerate(zip(solved.totals, totals, strict=True), 1)},
        **{f"cut_{c}": str(asked.get(c, 0) - total) for c, total in enumerate(totals, 1)},
        "short": str(short), "losses": counted_losses(quantities, solved.quantities), "full": " ".join(full),
        "binds": " ".join(name for name in capacities if name in priced),
    }


def cut_answer(solved: Solved, answer: Checked) -> Answer:
    members = answer.members()
    return {
        "verdict": "impossible", "told": ",".join(answer.head[0]).rstrip(","), "excess": answer.head[0][1],
        "binds": " ".join(name for name, _ in crossing_of(solved.asked, members).can_flow),
        "inside": " ".join(f"{row[1]}:{row[2]}" for row in answer.own),
    }


def scenario_answer(program: Program, solved: Solved, scenario: Scenario) -> Answer:
    text = solved.base.text_of(scenario)
    sums: Mapping[str, str] = {"sha256": sha256_of(text)}
    try:
        answer = checked(program, text)
    except Refused as error:
        return {**sums, **failure(str(error))}
    except Unsound as error:
        return {**sums, "verdict": "unsound", "told": str(error)}
    try:
        facts = cut_answer(solved, answer) if answer.is_cut else schedule_answer(solved, scenario, answer)
    except (LookupError, ValueError) as error:
        raise Died(f"gasday solve's answer can't be read: {error}") from None
    return {**sums, **facts}


def solve_scenarios(solved: Solved, program: Program, scenarios: Sequence[Scenario]) -> list[Answer]:
    return [scenario_answer(program, solved, scenario) for scenario in scenarios]
