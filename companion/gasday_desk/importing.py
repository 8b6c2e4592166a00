"""Runs the importer on one uploaded file, in a process of its own with little time and memory.

    python -m gasday_desk.importing KIND FILE NAMES OUT

KIND is that of the rows of a file that names no kinds. NAMES is a table of names for the importer, and OUT gets the rows.
"""

import csv
import io
import os
import resource
import sys
from pathlib import Path

from gasday_import.command import main
from gasday_import.reading import SEPARATORS
from gasday_import.titles import KIND_NAMES, NAMES, names_in

CPU_SECONDS, MEMORY_BYTES, FILE_BYTES = 10, 300_000_000, 32_000_000
# What the desk fills in itself, so that a file needs no column for it.
OWN = ("moment", "party")
OTHER_PARTIES = {"nominate": "shipper", "respond": "operator"}


def limit() -> None:
    """From here on this process has so much of each, and comes after the others."""
    resource.setrlimit(resource.RLIMIT_CPU, (CPU_SECONDS, CPU_SECONDS))
    resource.setrlimit(resource.RLIMIT_AS, (MEMORY_BYTES, MEMORY_BYTES))
    resource.setrlimit(resource.RLIMIT_FSIZE, (FILE_BYTES, FILE_BYTES))
    os.nice(10)


def lacking(kind: str, titles: list[str]) -> list[tuple[str, str]]:
    """The columns that a header lacks and that need not be there, each with what its fields are; none without a header."""
    names = {name for title in titles for name in names_in(title)}
    wanted = {"nominate": {"contract", "package"}, "respond": {"line", "contract"}}[kind]
    if not names & {name for title in wanted for name in NAMES[title.upper()]}:
        return []
    found = [] if names & {*KIND_NAMES} or titles[0].lstrip().startswith("#") else [("kind", kind)]
    found += [] if names & {*NAMES["MOMENT"]} else [("moment", "")]
    return found + ([] if names & {"party", OTHER_PARTIES[kind]} else [("party", "")])


def with_columns(kind: str, data: bytes) -> bytes:
    """The file with a column for all that the desk fills in; as it is, where its first row is no header or is not to be read."""
    try:
        text = data.decode("utf-8-sig")
        first = next((line for line in text.splitlines() if line.strip()), "")
        separator = max(SEPARATORS, key=first.count)
        rows = list(csv.reader(io.StringIO(text, newline=""), delimiter=separator, strict=True))
    except (UnicodeDecodeError, csv.Error):
        return data
    head = next((at for at, row in enumerate(rows) if row), 0)
    more = lacking(kind, rows[head]) if rows and rows[head] else []
    if not more:
        return data
    out = io.StringIO(newline="")
    writer = csv.writer(out, delimiter=separator, lineterminator="\n")
    for at, row in enumerate(rows):  # an empty row stays, so that errors name the lines of the file
        writer.writerow([*(title if at == head else field for title, field in more), *row] if any(map(str.strip, row)) else [])
    return out.getvalue().encode()


def run(kind: str, file: str, names: str, out: str) -> int:
    limit()
    source = Path(file)
    try:
        source.write_bytes(with_columns(kind, source.read_bytes()))
    except MemoryError:
        print("reading the file takes too much memory", file=sys.stderr)
        return 2
    return main(["--names", names, "--output", out, file])


if __name__ == "__main__":
    sys.exit(run(*sys.argv[1:]))
