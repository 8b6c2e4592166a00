"""The command: what is run and where, what is told of it, and the exit status."""

import argparse
import io
import signal
import sys
from collections import Counter
from collections.abc import Callable, Iterator, Sequence
from contextlib import contextmanager
from types import FrameType
from typing import TextIO

from gasday_import.writing import whole
from gasday_report.ending import ends_in_order
from gasday_report.texts import Fault, read_input
from gasday_report.words import counted

from .html_format import print_html
from .job import Job, Tasks
from .jobs import Audit, Days, seen_among
from .json_format import print_json
from .options import options_of
from .places import place_of
from .program import FAILED, Died
from .progress import Progress
from .running import Runner, Stopped
from .study import Impossible, Plan, Study
from .summary import Summary, scenario_fact
from .table import Table, check_output

MOST_NAMED = 20


def tell(words: str) -> None:
    """Tells of something, in place of the line that says how far a run is."""
    clear = "\r\x1b[K" if sys.stderr.isatty() else ""
    sys.stderr.write(clear + "".join(f"gasday-fleet: {line}\n" for line in words.splitlines()))
    sys.stderr.flush()


def fill(job: Job, table: Table, runner: Runner) -> str:
    """Runs what the table lacks. Why the run stopped before its end, or nothing."""
    tasks = Tasks(job, table.todo())
    progress = Progress(len(job), len(table.places))
    try:
        for answered in runner.run(tasks):
            for item, answer in answered:
                table.add(item, answer)
                progress.count(answer["verdict"] == FAILED)
            progress.show()
    except KeyboardInterrupt:
        return "stopped"
    except Stopped as stop:
        return str(stop)
    finally:
        progress.end()
    return ""


def told_of(job: Job, table: Table, stopped: str) -> int:
    """Tells what came of a run, and its exit status."""
    verdicts: Counter[str] = Counter()
    named: list[tuple[str, str]] = []
    for item, row in table.rows():
        verdicts[row["verdict"]] += 1
        if row["verdict"] != job.words.good:
            named.append((row["verdict"], f"{job.name(item)}: {row['verdict']}: {row['told']}"))
    named.sort(key=lambda one: one[0] != FAILED)
    for _, words in named[:MOST_NAMED]:
        tell(words)
    if len(named) > MOST_NAMED:
        tell(f"and {len(named) - MOST_NAMED} more, which the table tells")
    left = len(job) - len(table.places)
    counts = [f"{verdicts[word]} {word}" for word in (job.words.good, *job.words.bad, FAILED) if verdicts[word]]
    tell(f"{counted(len(job), job.words.item)}: {', '.join([*counts, *[f'{left} not run'] * (left > 0)])}")
    if stopped:
        tell(f"{stopped}; --resume goes on with what stands in the table")
    return 2 if stopped or left or verdicts[FAILED] else 1 if any(verdicts[word] for word in job.words.bad) else 0


def written_to(path: str, write: Callable[[Summary, TextIO], None], summary: Summary) -> None:
    """A file that is complete or as it was before; what is no regular file is written in place."""
    with whole(path) as file:
        out = io.TextIOWrapper(file, encoding="utf-8", errors="backslashreplace", write_through=True)
        write(summary, out)
        out.flush()
        out.detach()


def run(job: Job, options: argparse.Namespace, runner: Runner, finish: Callable[[Table], None] | None = None) -> int:
    table = Table(job, options.output, options.resume)
    try:
        stopped = fill(job, table, runner)
        table.end()
        if finish and not stopped:
            finish(table)
        return told_of(job, table, stopped)
    finally:
        table.close()


def run_files(options: argparse.Namespace) -> int:
    paths = options.files if options.command == "audit" else options.folders
    with place_of(options, () if options.send else seen_among(paths), tell) as (runner, program):
        job: Job
        if options.command == "audit":
            job = Audit(program, paths, options.send)
        else:
            job = days = Days(program, paths, options.archive, options.send)
            for folder in days.untold():
                tell(f"{folder} has no folder told, so that its postings alone are compared")
        job.is_timed = not options.untimed
        return run(job, options, runner)


def finish_study(job: Study, options: argparse.Namespace, table: Table) -> None:
    """Makes what is asked for of the whole table."""
    asked = [(path, write) for path, write in ((options.json, print_json), (options.html, print_html)) if path]
    if asked:
        summary = Summary(job.program, job.plan.inputs, job.plan.scenarios.labels, job.solved, lambda: (
            scenario_fact(job.scenarios[item], row) for item, row in table.rows()))
        for path, write in asked:
            written_to(path, write, summary)


def run_study(options: argparse.Namespace) -> int:
    plan = Plan(read_input("base", options.base), read_input("scenarios", options.scenarios))
    if options.question is not None:
        sys.stdout.buffer.write(plan.text_of(options.question))
        return 0
    with place_of(options, (), tell) as (runner, program):
        job = Study(plan, program, runner, options.batch)

        return run(job, options, runner, lambda table: finish_study(job, options, table))


@contextmanager
def ended_in_order() -> Iterator[None]:
    """What a batch system sends ends a run as a Ctrl-C does."""
    def interrupt(_number: int, _frame: FrameType | None) -> None:
        raise KeyboardInterrupt

    before = signal.signal(signal.SIGTERM, interrupt)
    try:
        yield
    finally:
        signal.signal(signal.SIGTERM, before)


@ends_in_order("gasday-fleet")
def main(words: Sequence[str] | None = None) -> int:
    options = options_of(words)
    try:
        with ended_in_order():
            check_output(options.output, options.resume)
            return run_study(options) if options.command == "study" else run_files(options)
    except Impossible as impossible:
        tell(str(impossible))
        return 1
    except (Fault, Died, Stopped) as fault:
        tell(str(fault))
    except OSError:
        raise
    except Exception as error:  # which nobody has foreseen
        tell(f"{type(error).__name__}: {error}")
    return 2
