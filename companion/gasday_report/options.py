"""The words of the command line."""

import argparse
from collections.abc import Sequence

from gasday_version import add_version

DESCRIPTION = """Checks an answer of gasday with `gasday check ..` and with certificate.py, and shows after a PASS what it
says of each line and each element; of a gas day cycle by cycle, with why a line has less than was nominated. The exit status
is 0 after a PASS, 1 after a FAIL, and 2 after a fault of usage or of reading. docs/REPORT.md says more."""

ANSWER_TABLES = ("lines", "elements", "sharing")
DAY_TABLES = ("calls", "cycle-lines", "cycle-elements", "cycle-sharing")


def parser_of() -> argparse.ArgumentParser:
    parser = argparse.ArgumentParser(prog="gasday-report", description=DESCRIPTION)
    add_version(parser)
    parser.add_argument("question", nargs="?", metavar="QUESTION", help="a text for `gasday solve`")
    parser.add_argument("answer", nargs="?", metavar="ANSWER", help="what `gasday solve` printed, or a posting's body")
    parser.add_argument("--events", metavar="TEXT", help="a text for `gasday day`")
    parser.add_argument("--replies", metavar="TEXT", help="what `gasday day` printed for it")
    parser.add_argument("--book", metavar="FILE", help="the file of a book, made by `gasday day --book`, in place of both")
    parser.add_argument("--archive", metavar="FILE", help="an archive with the postings of the gas day; or with --posting")
    parser.add_argument("--posting", nargs=2, metavar=("BOOK", "CYCLE"), help="one posting of the archive, without its day")
    parser.add_argument("--notices", metavar="FOLDER",
                        help="writes for each cycle a notice to each shipper and each operator, and a public page")
    parser.add_argument("--gasday", metavar="PROGRAM", help="else the built one, else the one on the PATH")
    parser.add_argument("--certificate-alone", action="store_true",
                        help="checks an answer with certificate.py alone, and says so; no program is asked")
    parser.add_argument("--format", choices=("text", "json", "csv", "html"), default="text", help="else text")
    parser.add_argument("--arithmetic", action="store_true", help="text: shows prices and tenths too")
    parser.add_argument("--table", choices=(*ANSWER_TABLES, *DAY_TABLES),
                        help="of csv; else lines, or calls of a day alone")
    parser.add_argument("--local", metavar="ZONE", help="shows moments by this zone's clock, else UTC")
    return parser


def usage_fault(given: argparse.Namespace) -> str:
    """What is wrong with the words, or nothing."""
    has_day = given.events is not None or given.book is not None
    has_answer = given.question is not None or given.posting is not None
    faults = (
        ((given.question is None) != (given.answer is None), "QUESTION and ANSWER go together"),
        (given.replies is not None and given.events is None, "--events and --replies go together"),
        (given.events is not None and given.replies is None and given.archive is None,
         "--events goes with --replies, or with --archive"),
        (given.book is not None and given.events is not None, "--book stands in place of --events and --replies"),
        (given.posting is not None and (given.archive is None or given.question is not None or has_day),
         "--posting goes with --archive alone"),
        (given.archive is not None and not has_day and given.posting is None,
         "--archive goes with --events, with --book or with --posting"),
        (not has_answer and not has_day,
         "there is nothing to show: QUESTION and ANSWER, --events and --replies, --book, or --archive"),
        (given.table and given.format != "csv", "--table goes with --format csv"),
        (given.arithmetic and given.format != "text", "--arithmetic goes with --format text; the others have it"),
        (given.certificate_alone and (has_day or given.gasday is not None),
         "--certificate-alone goes with QUESTION and ANSWER or with --posting, and asks no program"),
        (given.notices is not None and (not has_day or given.format != "text"),
         "--notices goes with a gas day, and has no --format"),
    )
    return next((words for is_wrong, words in faults if is_wrong), "")


def arguments_of(words: Sequence[str] | None) -> argparse.Namespace:
    parser = parser_of()
    given = parser.parse_args(words)
    if fault := usage_fault(given):
        parser.error(fault)
    has_answer = given.question is not None or given.posting is not None
    given.table = given.table or ("lines" if has_answer else "calls")
    if given.table in DAY_TABLES and given.events is None and given.book is None or \
            given.table in ANSWER_TABLES and not has_answer:
        parser.error(f"there is no table of {given.table} of these texts")
    return given
