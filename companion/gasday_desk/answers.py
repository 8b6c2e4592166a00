"""Questions and answers of a day's rounds, and what the report and the two checks say of them.

A round's question is made of what was told: the pipeline of the opening, the capacities that were posted, and the class, floor
and ceiling that the freeze told of each line. Its schedule was told when it was published, its prices stand in the file's text.
`gasday check` and `certificate.py` then check the one against the other. The pictures and reasons are those of `gasday_report`,
and this is the one module that asks for them.
"""

from dataclasses import dataclass
from pathlib import Path

from certificate import Question, Unreadable
from gasday_report.cause_words import unnamed
from gasday_report.cause_words import words_of as words_of_causes
from gasday_report.day import day_of, day_verdict, run_day
from gasday_report.facts import Facts, facts_of
from gasday_report.html_format import page_of
from gasday_report.moments import Clock
from gasday_report.picture import picture_of
from gasday_report.program import program_of
from gasday_report.report import Report
from gasday_report.texts import Fault, Input
from gasday_report.verdicts import Verdict, own_verdict, program_verdicts

from .program import Failed, Program, parts_of, written
from .rows import Row, groups_of, lines_of, of_kind, row_of
from .view import DayView, Round


@dataclass(frozen=True)
class Shown:
    """What is shown of a round: the report, with its verdicts before all else."""

    question: bytes
    answer: bytes
    report: Report

    @property
    def verdicts(self) -> list[Verdict]:
        return self.report.verdicts

    @property
    def facts(self) -> Facts | None:
        return self.report.facts

    def why(self, number: int, cycle: int) -> str:
        """Why a line has less than its ceiling, in words that name no other line; nothing where the checks don't pass."""
        if self.facts is None:
            return ""
        fact = self.facts.lines[number - 1]
        return "; ".join(words_of_causes(fact.causes, cycle, fact.class_number, unnamed))

    def picture(self) -> str:
        """The pipeline as SVG; nothing where the checks don't pass."""
        return picture_of(self.facts)[0] if self.facts else ""

    def page(self) -> str:
        return page_of(self.report)


def question_of(view: DayView, one: Round) -> bytes:
    """The question of a round, as a text."""
    opening = view.opening
    rows: list[Row] = [row_of("question", opening.book, one.cycle, one.number)]
    rows += [row_of("capacity", name, capacity) for name, capacity in one.posted.items()]
    for number, (class_number, floor, ceiling) in enumerate(one.bounds, 1):
        key = view.lines[number - 1].key
        rows.append(row_of("line", key.origin, key.destination, class_number, floor, ceiling))
    return written(opening.pipeline) + lines_of(rows)


def answer_of(view: DayView, one: Round, text: bytes) -> bytes:
    """What a round came to: its schedule with the prices that the text has, or the members of its cut."""
    told = view.calls[one.closed_by - 1].told
    if one.outcome == "declared":
        return lines_of(of_kind(told, "inside"))
    group = groups_of(parts_of(text)[1])[one.closed_by - 1]
    return lines_of([*of_kind(told, "sched"), *of_kind(group, "price"), *of_kind(told, "bumped")])


def shown_of(program: Program, question: bytes, answer: bytes, name: str) -> Shown:
    report = Report()
    asked, given = Input("question", f"{name}-question.csv", question), Input("answer", f"{name}-answer.csv", answer)
    report.inputs += [asked, given]
    try:
        report.program = program_of(program.path)
        verdicts = program_verdicts(program.path, asked, given)
        own, read, held = own_verdict(asked, given)
        report.verdicts += [*verdicts, own]
        if report.passed():
            report.facts = facts_of(asked, given, read, held)
    except Fault as fault:
        report.verdicts.append(Verdict("gasday check", False, str(fault)))
    return Shown(question, answer, report)


@dataclass(frozen=True)
class Freed:
    """What a waiver of a line frees of a cut."""

    line: int
    floor: int
    waived: int  # its floor then, as the program tells it

    @property
    def frees(self) -> int:
        return self.floor - self.waived


@dataclass(frozen=True)
class CutShown:
    """A declared cut: the checks' report of it, and what each waiver frees, greatest first."""

    shown: Shown
    freed: list[Freed]

    @property
    def excess(self) -> int:
        facts = self.shown.facts
        return facts.sums.excess if facts and facts.sums else 0


def waived_floors(program: Program, moment: int, text: bytes, numbers: list[int]) -> dict[int, int]:
    """The floor that the program gives each of these lines where it is waived: by a run of the day's text with the waivers
    and a freeze behind it, which nobody keeps."""
    trial = [row_of("waive", moment, number) for number in numbers] + [row_of("freeze", moment)]
    told = program.ask("day", text=text + lines_of(trial)).rows()
    last = max((at for at, row in enumerate(told) if row[0] == "frozen"), default=len(told))
    return {int(row[1]): int(row[3]) for row in told[last:] if row[0] == "bound"}


def cut_of(program: Program, view: DayView, one: Round, text: bytes) -> CutShown:
    """The cut of a round that was declared impossible, and the lines that lead out of its set whose waivers free something."""
    name = f"{view.opening.book}-{one.cycle}"
    shown = shown_of(program, question_of(view, one), answer_of(view, one, text), name)
    leaving = [line for line in shown.facts.lines if line.cut_way == "out" and line.floor] if shown.facts else []
    floors = waived_floors(program, view.calls[-1].moment, text, [line.number for line in leaving])
    freed = [Freed(line.number, line.floor, floors.get(line.number, line.floor)) for line in leaving]
    return CutShown(shown, sorted((one for one in freed if one.frees > 0), key=lambda one: (-one.frees, one.line)))


def contracted(view: DayView) -> dict[str, int]:
    """What firm contracts would bring to each element, each in full, as certificate.py adds it up."""
    firm = [one for one in view.opening.contracts.values() if one.service == "firm"]
    rows = [row_of("question", view.opening.book, 1, 1)]
    rows += [row_of("line", one.origin, one.destination, 1, 0, one.quantity) for one in firm]
    try:
        asked = Question((written(view.opening.pipeline) + lines_of(rows)).decode())
    except Unreadable as error:
        raise Failed(f"what firm contracts would bring can't be added up: {error}") from None
    return asked.loads([one.quantity for one in firm])


def day_page(program: Program, text: bytes, told: bytes, zone: str) -> str:
    """The report of a whole day as one page: its calls, and what each was told."""
    events, replies = Input("events", "the day's text", text), Input("replies", "told", told)
    asked = program_of(program.path)
    run = run_day(asked, events)
    report = Report(program=asked, verdicts=[day_verdict(run, replies)], inputs=[events, replies])
    if report.passed():
        day, verdicts = day_of(asked, events, run, Clock(zone))
        report.verdicts += verdicts
        report.day = day if report.passed() else None
    return page_of(report)


def save(shown: Shown, folder: Path, name: str) -> None:
    """A round's question, answer and page as files."""
    (folder / f"{name}-question.csv").write_bytes(shown.question)
    (folder / f"{name}-answer.csv").write_bytes(shown.answer)
    (folder / f"{name}.html").write_text(shown.page(), encoding="utf-8")
