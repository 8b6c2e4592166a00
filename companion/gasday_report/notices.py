"""Notices of a gas day: for each cycle a file to each shipper and each operator, with their own lines alone, and a public page
of what is full. No notice names another shipper: it shows what each class has of an element, and not whose lines."""

import csv
import io
import os
from collections.abc import Iterable, Iterator, Mapping, Sequence

from .cause_words import sharing_words, unnamed
from .causes import sharings_in
from .course import DECLARED, FROZEN, PUBLISHED
from .csv_format import ROUND_COLUMNS, ROUND_LINE_COLUMNS, blank, round_line_row
from .day import Day
from .day_text import cut_words, round_heading, round_line_rows
from .notice_page import constraints_page
from .report import Report
from .rounds import CycleFacts, RoundFacts, RoundLine
from .texts import Fault
from .words import CYCLES, counted, grouped

SKIPPED = "skipped: what was scheduled before stays in effect"
Files = dict[str, bytes]


def ended_rounds(cycle: CycleFacts) -> Iterator[tuple[str, str, RoundFacts]]:
    """The rounds of which notices are written, each with its folder and what came of it."""
    number = cycle.cycle.number
    for made in cycle.rounds:
        at = made.round
        words = {PUBLISHED: "published", DECLARED: "no schedule is possible"}.get(at.outcome, FROZEN)
        if at.outcome != FROZEN:
            yield f"cycle-{number}-round-{at.number}", words, made
    if cycle.cycle.skipped_at is not None and cycle.rounds:
        yield f"cycle-{number}-skipped", SKIPPED, cycle.rounds[-1]


def own_lines(made: RoundFacts) -> dict[tuple[str, str], list[RoundLine]]:
    """The lines of each shipper and of each operator."""
    found: dict[tuple[str, str], list[RoundLine]] = {}
    for line in made.lines:
        found.setdefault(("shipper", line.line.shipper), []).append(line)
        for operator in dict.fromkeys(answer.operator for answer in line.answers if answer.operator):
            found.setdefault(("operator", operator), []).append(line)
    return found


def text_notice(report: Report, day: Day, made: RoundFacts, words: str, party: tuple[str, str],
                lines: Sequence[RoundLine]) -> Iterator[str]:
    role, name = party
    cycle = made.round.cycle
    yield f"Notice to {name}, {role}"
    yield f"Book {day.book}, gas day {day.date}, cycle {cycle} ({CYCLES[cycle]}): {words}"
    yield f"{round_heading(made, day.clock)}"
    if made.posting:
        yield f"Posting: SHA-256 {made.posting.digest()}"
    yield report.published_by()
    yield "Quantities are dekatherms for one gas day. This notice is not proved; the check of gasday is."
    if made.facts and made.facts.is_cut:
        yield cut_words(made.facts)
    for line in lines:
        yield ""
        yield from round_line_rows(line, made, False)
        if words == SKIPPED:
            yield f"    stays scheduled: {grouped(line.former)}"
    yield from full_rows(lines)


def full_rows(lines: Iterable[RoundLine]) -> Iterator[str]:
    """Once for each element that the reasons of these lines name: what each class has of it, and of no other line by name."""
    named = {sharing.element: sharing for line in lines for cause in line.causes for sharing in sharings_in(cause)}
    if named:
        yield ""
        yield "What is full, by class"
        yield from (f"    {sharing_words(sharing, unnamed)}" for sharing in named.values())


def csv_notice(made: RoundFacts, lines: Iterable[RoundLine]) -> str:
    out = io.StringIO(newline="")
    writer = csv.writer(out, lineterminator="\n")
    writer.writerow(ROUND_LINE_COLUMNS)
    at = made.round
    head = [at.cycle, at.number, at.outcome][:len(ROUND_COLUMNS)]
    writer.writerows([*head, *map(blank, round_line_row(line, made))] for line in lines)
    return out.getvalue()


def files_of(report: Report, day: Day) -> Files:
    """All files, by their paths within the folder."""
    files: Files = {}
    for cycle in day.cycles:
        for folder, words, made in ended_rounds(cycle):
            for party, lines in own_lines(made).items():
                path = f"{folder}/{party[0]}-{party[1]}"
                rows = text_notice(report, day, made, words, party, lines)
                files[f"{path}.txt"] = "".join(row + "\n" for row in rows).encode()
                files[f"{path}.csv"] = csv_notice(made, lines).encode()
            files[f"{folder}/constraints.html"] = constraints_page(report, day, made, words).encode()
    return files


def check_names(files: Iterable[str]) -> None:
    """A name that the program takes can stand in a path; another one is none of its."""
    for path in files:
        if path.count("/") != 1 or os.path.basename(path).startswith(".") or "\0" in path:
            raise Fault(f"notices: a file can't be named {path}")


def new_files(folder: str, files: Mapping[str, bytes]) -> list[str]:
    """Those that aren't there yet; one that is there with something else is never replaced."""
    new = []
    for path, data in files.items():
        try:
            with open(os.path.join(folder, path), "rb") as file:
                if file.read() != data:
                    raise Fault(f"notices: {os.path.join(folder, path)} is there already and holds something else; nothing was"
                                " written. Name another folder, or move that file away")
        except FileNotFoundError:
            new.append(path)
    return new


def write_files(folder: str, files: Mapping[str, bytes]) -> int:
    """How many files were written: each is whole or not there."""
    new = new_files(folder, files)
    for path in new:
        whole = os.path.join(folder, path)
        os.makedirs(os.path.dirname(whole), exist_ok=True)
        try:
            with open(whole + ".part", "wb") as file:
                file.write(files[path])
            os.replace(whole + ".part", whole)
        except OSError:
            if os.path.exists(whole + ".part"):
                os.unlink(whole + ".part")
            raise
    return len(new)


def write_notices(report: Report, day: Day, folder: str) -> None:
    files = files_of(report, day)
    check_names(files)
    try:
        written = write_files(folder, files)
    except OSError as error:
        raise Fault(f"notices: {error.filename or folder} can't be written: {error.strerror}") from None
    there = len(files) - written
    more = f", and {there:,} stood there already as they are" if there else ""
    report.notes.append(f"Notices: {counted(written, 'file')} written to {folder}{more}.")
