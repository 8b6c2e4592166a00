"""The command: what is read and written, and the exit status."""

import argparse
import gc
import sys
from collections.abc import Iterable, Iterator, Sequence
from pathlib import Path

from gasday_report.ending import ends_in_order
from gasday_report.texts import Fault
from gasday_version import add_version

from .confirmations import find_lines
from .doubts import report_cases, report_earlier, report_twice
from .fields import marks_of
from .log import Log
from .mending import Left, mend
from .merging import merge_by_time
from .moments import refuse_far
from .naming import Names, give_names, names_in
from .ordering import put_in_order
from .reading import Sheet, Source, sheet_of
from .rows import Row, written
from .times import make_moments
from .workbook import sources_in
from .writing import whole

DESCRIPTION = """\
Makes a text that `gasday` reads out of a spreadsheet's CSV exports: of each FILE in turn, or of standard input.
docs/IMPORT.md says what is repaired, and how. Standard error counts the repairs of each kind. Doubtful repairs and errors
follow, each with its file and line. Where there is an error, or with --strict a repair or a doubt, nothing is written.

Nothing of this is proved, and it has no rule of the tariff: it reports what it can't decide.

Exit status: 0 the text is written, 1 something could not be repaired or --strict found repairs, 2 usage, reading or
writing."""


def rows_in(sheets: Iterable[Sheet], left: Left, log: Log) -> Iterator[Row]:
    """The rows of all sheets, each repaired by itself."""
    for sheet in sheets:
        marks = marks_of(sheet)
        for row in sheet.rows:
            if row.fields:
                mend(row, marks, left, log)
        yield from sheet.rows


def imported(sources: Sequence[Source], names: Names | None, program: str | None, is_by_time: bool, log: Log) -> bytes:
    """The bytes of the text that the sources are."""
    log.sources = [source.name for source in sources]
    sheets = [sheet_of(source, log) for source in sources]
    left = Left(are_names_left=names is not None)
    rows = list(rows_in(sheets, left, log))
    report_cases(rows, left, names.writings if names else set(), log)
    if names:
        give_names(names, left.names, rows, log)
    rows = put_in_order(rows, log)
    make_moments(rows, log)
    for row in [*(row for row, _ in left.names), *left.times]:
        row.text = written(list(row.fields))
    refuse_far(rows, log)
    if is_by_time:
        rows = merge_by_time(rows, log)
    report_twice(rows, log)
    report_earlier(rows, log)
    find_lines(rows, left.lines, program, log)
    is_ended = next((sheet.is_ended for sheet in reversed(sheets) if sheet.rows), False)
    end = "\n" if rows and (log.repairs or is_ended) else ""
    return ("\n".join(row.text for row in rows) + end).encode("utf-8")


def read(name: str) -> Source:
    """What stands in a file, or with - in standard input."""
    if name != "-":
        return Source(name, Path(name).read_bytes())
    with open(0, "rb") as file:
        return Source("standard input", file.read())


def write(path: str, data: bytes) -> None:
    """Writes a file that is complete or as it was before."""
    with whole(path) as file:
        file.write(data)


def options_of(words: Sequence[str] | None) -> argparse.Namespace:
    parser = argparse.ArgumentParser(prog="gasday-import", description=DESCRIPTION,
                                     formatter_class=argparse.RawDescriptionHelpFormatter)
    add_version(parser)
    parser.add_argument("--strict", action="store_true", help="refuse in place of repairing, and where there is a doubt")
    parser.add_argument("--each", action="store_true", help="print each repair with its line")
    parser.add_argument("--by-time", action="store_true",
                        help="merge the calls of all files by their moments, each file's own in its order")
    parser.add_argument("--names", metavar="FILE", help="a table of names for what is none; new ones are added to it")
    parser.add_argument("--sheet", metavar="NAME", action="append", default=[],
                        help="only this sheet of workbooks; may be given several times")
    parser.add_argument("--gasday", metavar="PROGRAM", help="asked for the lines of confirmations by names; else the built one,"
                                                            " else the one on the PATH")
    parser.add_argument("--output", metavar="FILE", help="write to FILE in place of standard output")
    parser.add_argument("files", nargs="*", metavar="FILE", default=["-"],
                        help="a CSV export, or a workbook; - is standard input")
    return parser.parse_args(words)


def run(options: argparse.Namespace) -> int:
    log = Log(options.each)
    names = names_in(options.names) if options.names else None
    try:
        sources = [source for name in options.files for source in sources_in(read(name), options.sheet, log)]
        if options.sheet and not any(source.is_sheet for source in sources):
            raise Fault("--sheet goes with a workbook, and none is here")
        data = imported(sources, names, options.gasday, options.by_time, log)
    except Fault:
        sys.stderr.write("".join(log.lines(is_refused=True)))
        raise
    refused = log.errors > 0 or (options.strict and bool(log.repairs))
    if names and names.new:
        words = "and are added when all else is right" if refused else "and are added: look at them there"
        log.note(names.path, f"{len(names.new)} names are new, {words}")
    sys.stderr.write("".join(log.lines(refused)))
    if refused:
        return 1
    if names and names.new:
        write(names.path, names.whole())
    if options.output:
        write(options.output, data)
    else:
        with open(1, "wb") as file:  # sys.stdout may be without a buffer, and write a part alone
            file.write(data)
    return 0


@ends_in_order("gasday-import")
def main(words: Sequence[str] | None = None) -> int:
    """Does what the words of the command line ask for."""
    options = options_of(words)
    gc.disable()  # of a million rows none holds itself
    try:
        return run(options)
    except (Fault, UnicodeError) as error:
        sys.stderr.write(f"gasday-import: {error}\n")
        return 2
