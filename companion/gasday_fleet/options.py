"""The words of the command line."""

import argparse
import os
from collections.abc import Callable, Sequence

from gasday_version import add_version

DESCRIPTION = """\
Hands many archives, gas days or questions to many processors, and makes one table of the answers: by Dask's distributed
scheduler on this machine, by a running cluster of it with --scheduler, or one after the other with --serial, which needs
no Dask. docs/FLEET.md says more.

Nothing of this is proved. Each answer that it counts has passed `gasday audit` (audit), was told once more by `gasday day`
(days) or has passed `gasday check` (study), which are.

Exit status: 0 all is sound, 1 something is unsound, other than it was told, or impossible, 2 something could not be run,
or a fault of usage, of reading or of writing."""

NOT_PROVED = """Nothing of this is proved; each answer that it counts has passed what is: `gasday audit`, `gasday day` or
`gasday check`. `gasday-fleet --help` tells more, and the exit status."""
AUDIT = "Audits archives, by `gasday audit --all`. The table has file, postings, verdict, what was told, seconds and SHA-256."
DAYS = """Runs the gas days of folders once more, by `gasday day`, and compares what it tells with what was told: of each text
FOLDER/texts/DAY.csv with FOLDER/told/DAY.csv. With --archive it tells postings that are missing, surplus or other ones, and books
of which no text is there; told/ may then be left out."""
STUDY = """Solves a question once more for each scenario, passes each answer through `gasday check best` or `gasday check cut`,
and compares it with the base. SCENARIOS has a row of names, scenario,element,capacity or scenario,line,floor,ceiling, whose
groups may stand several times; further columns are labels."""


def number_from(least: int) -> Callable[[str], int]:
    def read(word: str) -> int:
        if not (word.isascii() and word.isdigit() and int(word) >= least):
            raise argparse.ArgumentTypeError(f"'{word}' is no number from {least} on")
        return int(word)
    return read


def add_common(parser: argparse.ArgumentParser) -> None:
    output = parser.add_argument_group("output")
    output.add_argument("--output", metavar="FILE", help="write the table to FILE while it is made, else print it at the end")
    output.add_argument("--resume", action="store_true", help="don't run again what stands in FILE and is still the same")
    where = parser.add_argument_group("where it is run")
    place = where.add_mutually_exclusive_group()
    place.add_argument("--scheduler", metavar="ADDRESS", help="a running Dask cluster, as tcp://10.0.0.1:8786")
    place.add_argument("--serial", action="store_true", help="one after the other, each once, without Dask")
    place.add_argument("--workers", metavar="N", type=number_from(1), help="workers on this machine, else one for each core")
    where.add_argument("--gasday", metavar="PROGRAM", help="else the built one, or on a cluster the one on the PATH")
    where.add_argument("--retries", metavar="N", type=number_from(0), default=2, help="tries more for a task that dies, else 2")
    where.add_argument("--timeout", metavar="SECONDS", type=number_from(1), default=600, help="for one run of gasday, else 600")


def add_files(parser: argparse.ArgumentParser) -> None:
    parser.add_argument("--send", action="store_true", help="send the files to workers that don't see them")
    parser.add_argument("--untimed", action="store_true", help="leave the column seconds empty, so that tables can be compared")
    add_common(parser)


def parser_of() -> argparse.ArgumentParser:
    parser = argparse.ArgumentParser(prog="gasday-fleet", description=DESCRIPTION,
                                     formatter_class=argparse.RawDescriptionHelpFormatter)
    add_version(parser)
    commands = parser.add_subparsers(dest="command", required=True, metavar="COMMAND")
    audit = commands.add_parser("audit", help="audit archives", description=AUDIT, epilog=NOT_PROVED)
    audit.add_argument("files", nargs="+", metavar="FILE", help="an archive")
    add_files(audit)
    days = commands.add_parser("days", help="run gas days once more", description=DAYS, epilog=NOT_PROVED)
    days.add_argument("folders", nargs="+", metavar="FOLDER", help="with texts/, told/ and archive.db")
    days.add_argument("--archive", action="store_true", help="compare the postings kept in FOLDER/archive.db too")
    add_files(days)
    study = commands.add_parser("study", help="solve a question in many scenarios", description=STUDY, epilog=NOT_PROVED)
    study.add_argument("base", metavar="BASE", help="a text for `gasday solve`")
    study.add_argument("scenarios", metavar="SCENARIOS", help="a table of scenarios")
    study.add_argument("--question", metavar="SCENARIO", help="print the question of this scenario, and run nothing")
    study.add_argument("--json", metavar="FILE", help="write the study as JSON when all is run")
    study.add_argument("--html", metavar="FILE", help="write the study as a page when all is run")
    study.add_argument("--batch", metavar="N", type=number_from(1), default=16, help="scenarios of a task, else 16")
    add_common(study)
    return parser


def options_of(words: Sequence[str] | None) -> argparse.Namespace:
    parser = parser_of()
    options = parser.parse_args(words)
    if options.resume and not options.output:
        parser.error("--resume goes with --output")
    if options.gasday and os.sep in options.gasday:
        options.gasday = os.path.abspath(options.gasday)
    return options
