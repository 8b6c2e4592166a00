"""The job of `study`: a row for each scenario, compared with the base."""

from collections.abc import Mapping, Sequence

from certificate import CLASSES
from gasday_report.texts import Fault, Input

from .base import Base, Solved, solved
from .job import MADE, Call, Job, Shared, Words
from .program import Program, sha256_of
from .running import Runner
from .scenarios import Scenarios, read_scenarios
from .solving import Checked, solve_question, solve_scenarios

CLASS_NUMBERS = range(1, CLASSES + 1)
# Behind the labels of the scenarios.
MEASURES = ("verdict", "told", "sha256", "base_sha256", "excess", *(f"total_{c}" for c in CLASS_NUMBERS),
            *(f"loss_{c}" for c in CLASS_NUMBERS), *(f"cut_{c}" for c in CLASS_NUMBERS), "short", "losses", "full", "binds",
            "inside", *MADE)


class Impossible(Exception):
    """The base has no schedule that scenarios could be compared with."""


class Plan:
    """BASE and SCENARIOS as they were read, and found without a fault of form."""

    def __init__(self, base: Input, scenarios: Input) -> None:
        self.inputs = [base, scenarios]
        self.base = Base(base.data, base.path)
        self.scenarios: Scenarios = read_scenarios(scenarios.data, scenarios.path, self.base, ("scenario", *MEASURES))

    def text_of(self, name: str) -> bytes:
        for scenario in self.scenarios.scenarios:
            if scenario.name == name:
                return self.base.text_of(scenario)
        raise Fault(f"{self.inputs[1].path}: there is no scenario '{name}'")


class Study(Job):
    words = Words("scenario", "best", ("impossible", "unsound"))

    def __init__(self, plan: Plan, program: Program, runner: Runner, batch: int) -> None:
        self.plan, self.program, self.batch = plan, program, batch
        self.scenarios = plan.scenarios.scenarios
        self.columns = ("scenario", *plan.scenarios.labels, *MEASURES)
        base = plan.inputs[0]
        self.base_sha256 = base.digest()
        answer: Checked | str = runner.once(solve_question, program, plan.base.text_of())
        if isinstance(answer, str):
            raise Fault(f"{base.path}: {answer}")
        if answer.is_cut:
            raise Impossible(f"{base.path} has no schedule that scenarios could be compared with: {','.join(answer.head[0][:2])}")
        arguments = (base.data, base.path, answer.quantities(), answer.totals(), answer.priced())
        self.solved: Solved = solved(*arguments)
        self.shared = Shared(Call(solved, arguments))

    def __len__(self) -> int:
        return len(self.scenarios)

    def key(self, item: int) -> Mapping[str, str]:
        return {"scenario": self.scenarios[item].name}

    def row(self, item: int, answer: Mapping[str, str]) -> list[str]:
        labels = zip(self.plan.scenarios.labels, self.scenarios[item].labels, strict=True)
        return super().row(item, {**dict(labels), "base_sha256": self.base_sha256, **answer})

    def call(self, items: Sequence[int]) -> Call:
        return Call(solve_scenarios, (self.shared, self.program, [self.scenarios[item] for item in items]))

    def is_as_it_was(self, item: int, row: Mapping[str, str]) -> bool:
        scenario = self.scenarios[item]
        labels = tuple(row[label] for label in self.plan.scenarios.labels)
        text = self.plan.base.text_of(scenario)
        return (row["sha256"], row["base_sha256"], labels) == (sha256_of(text), self.base_sha256, scenario.labels)
