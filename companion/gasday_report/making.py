"""Reads what is to be shown, has it checked, and puts the report together."""

import argparse

from certificate import Answer, Question

from .archives import Posting, postings_of
from .belonging import answer_verdict, archive_verdict, day_head_verdict, posting_parts, posting_verdict
from .day import DayRun, day_of, day_row, day_verdict, run_day
from .facts import facts_of
from .moments import Clock
from .program import Program, program_of
from .report import Report
from .texts import ANSWER_KINDS, HEAD_KINDS, Fault, Input, of_kinds, read_input, rows_in
from .verdicts import Verdict, own_verdict, program_verdicts

# What a program tells of a book's file that it can't read, beside what every fault is told by.
BOOK_FAULTS = {"Busy": "another process has it open; the report can be made once that one has ended",
               "Store": "it can't be read, or is no file of a book"}


def posting_inputs(report: Report, arguments: argparse.Namespace) -> tuple[Input, Input]:
    """The question and the answer that a posting of an archive holds."""
    archive, (book, cycle) = read_input("archive", arguments.archive), arguments.posting
    found = [posting for posting in postings_of(archive, book) if str(posting.cycle) == cycle]
    if not found:
        raise Fault(f"archive: {arguments.archive} has no posting of the book {book} and cycle {cycle}")
    report.verdicts.append(posting_verdict(found[0]))
    question, answer = posting_parts(found[0])
    report.inputs += [archive, Input("posting", answer.path, answer.data)]
    return question, answer


def answer_inputs(report: Report, arguments: argparse.Namespace) -> tuple[Input, Input]:
    if arguments.posting is not None:
        return posting_inputs(report, arguments)
    question, answer = read_input("question", arguments.question), read_input("answer", arguments.answer)
    report.inputs += [question, answer]
    dropped = len(of_kinds(question.rows(), ANSWER_KINDS + HEAD_KINDS))
    if dropped:
        report.notes.append(f"Rows of the question's file that belong to an answer were left out: {dropped}.")
    return question, answer


def add_answer(report: Report, arguments: argparse.Namespace) -> tuple[Input, Question, Answer]:
    question, answer = answer_inputs(report, arguments)
    for row in of_kinds(answer.rows(), ("fault", "broken", "refused")):
        raise Fault(f"answer: it holds no schedule and no cut, but tells {','.join(row).rstrip(',')}")
    if of_kinds(answer.rows(), ("bumped",)):
        report.notes.append("What the answer says of bumped lines is shown as it stands: neither check looks at it.")
    verdicts = program_verdicts(report.program.path, question, answer) if report.program else []
    own, asked, given = own_verdict(question, answer)
    together = [] if arguments.posting else answer_verdict(question, answer, asked)
    report.verdicts += [*verdicts, own, *together]
    if report.passed():
        report.facts = facts_of(question, answer, asked, given, report.program)
    return question, asked, given


def book_text(report: Report, program: Program, path: str) -> Input:
    """The text of the day that a book's file keeps; the program also says whether the file holds what it told."""
    book = read_input("book", path)
    out, status = program.call(["text", path])
    rows = rows_in(out, "gasday text")
    if status != 0 or of_kinds(rows[:1], ("fault",)):
        cause = rows[0][2] if rows else "no answer"
        raise Fault(f"book: `gasday text {path}` tells {cause}: {BOOK_FAULTS.get(cause, 'its text cannot be had')}")
    told = rows_in(program.call(["audit", path])[0], "gasday audit")
    words = ",".join(told[0]).rstrip(",") if told else "nothing"
    passed = bool(told) and told[0][0] == "replayed"
    report.verdicts.append(Verdict("gasday audit", passed, f"all calls of the book's file, made again, give what it says was"
                                   f" told: {words}" if passed else f"the book's file is not what was told: {words}"))
    text = Input("events", f"gasday text {path}", out)
    report.inputs += [book, text]
    return text


def add_archive(report: Report, run: DayRun, events: Input, path: str) -> list[Posting]:
    """The archive's postings of the day's book, in place of those that the program has kept just now."""
    archive = read_input("archive", path)
    report.inputs.append(archive)
    held = postings_of(archive, day_row(events)[3])
    report.verdicts.append(archive_verdict(held, run.postings))
    return held


def add_day(report: Report, arguments: argparse.Namespace, program: Program) -> None:
    if arguments.book is not None:
        events = book_text(report, program, arguments.book)
    else:
        events = read_input("events", arguments.events)
        report.inputs.append(events)
    run = run_day(program, events)
    if arguments.replies is not None:
        replies = read_input("replies", arguments.replies)
        report.inputs.append(replies)
        report.verdicts.append(day_verdict(run, replies))
    if arguments.archive is not None:
        run = DayRun(run.told, add_archive(report, run, events, arguments.archive))
    if report.passed():
        report.day, verdicts = day_of(program, events, run, Clock(arguments.local))
        report.verdicts += verdicts


def report_of(arguments: argparse.Namespace) -> Report:
    Clock(arguments.local)
    report = Report(None if arguments.certificate_alone else program_of(arguments.gasday))
    has_answer = arguments.question is not None or arguments.posting is not None
    checked = add_answer(report, arguments) if has_answer else None
    if report.program and (arguments.events is not None or arguments.book is not None):
        add_day(report, arguments, report.program)
    if checked and report.day:
        report.verdicts.append(day_head_verdict(*checked, report.day))
    if not report.passed():
        report.facts = report.day = None
    return report
