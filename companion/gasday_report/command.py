"""The command: what is checked, what is shown, and the exit status."""

import argparse
import io
import sys
from collections.abc import Sequence
from typing import TextIO

from . import csv_format, html_format, json_format, making, notices, text_format
from .ending import ends_in_order
from .options import arguments_of
from .report import Report
from .texts import Fault


def report_of(arguments: argparse.Namespace) -> Report:
    report = making.report_of(arguments)
    if arguments.notices is not None and report.day:
        notices.write_notices(report, report.day, arguments.notices)
    return report


def print_report(report: Report, arguments: argparse.Namespace, out: TextIO) -> None:
    if arguments.format == "csv":
        if report.passed():
            csv_format.print_csv(report, arguments.table, out)
        # A table has no place for verdicts.
        sys.stderr.writelines(row + "\n" for row in text_format.verdict_rows(report))
    elif arguments.notices is not None:
        out.writelines(row + "\n" for row in text_format.checks_of(report))
    elif arguments.format == "text":
        text_format.print_text(report, out, arguments.arithmetic)
    else:
        {"json": json_format.print_json, "html": html_format.print_html}[arguments.format](report, out)


@ends_in_order("gasday-report")
def main(words: Sequence[str] | None = None) -> int:
    arguments = arguments_of(words)
    try:
        report = report_of(arguments)
    except Fault as fault:
        print(f"gasday-report: {fault}", file=sys.stderr)
        return 2
    out = io.StringIO()
    print_report(report, arguments, out)
    sys.stdout.write(out.getvalue())
    return 0 if report.passed() else 1
