"""Workbooks: what they are by their first bytes, and the sheets of one that `openpyxl` reads, where it is installed."""

import csv
import io
import zipfile
from collections.abc import Iterator, Sequence
from datetime import date, datetime, timedelta
from typing import Any

from gasday_report.texts import Fault

from .forms import FIELDS
from .hidden import Hidden, hidden_in, runs_of
from .log import Log, Place
from .reading import Source
from .units import OURS, shown_unit

ZIP, OLD = b"PK\x03\x04", b"\xd0\xcf\x11\xe0\xa1\xb1\x1a\xe1"
SAVE = "save each sheet as CSV (UTF-8)"
INSTALL = "or install openpyxl: `apt-get install python3-openpyxl` does so for Debian's own Python, /usr/bin/python3"
# Whole numbers up to here are exact in a workbook.
EXACT = 10**15


def kind_of(data: bytes) -> str:
    """What a file is that is no text; nothing where it may be one."""
    if data.startswith(OLD):
        return "an old workbook (xls), or one with a password"
    if not data.startswith(ZIP):
        return ""
    try:
        names = zipfile.ZipFile(io.BytesIO(data)).namelist()
    except zipfile.BadZipFile:
        return "a damaged zip file, or workbook"
    if "xl/workbook.xml" in names:
        return "an Excel workbook (xlsx)"
    if "xl/workbook.bin" in names:
        return "a binary workbook (xlsb)"
    return "a workbook (ods)" if "content.xml" in names else "a zip file"


def sources_in(source: Source, only: Sequence[str], log: Log) -> list[Source]:
    """The sheets of a workbook as sources, or a source that is a text by itself."""
    kind = kind_of(source.data)
    if not kind:
        return [source]
    if "xlsx" not in kind:
        raise Fault(f"{source.name} is {kind}, which is not read: {SAVE}")
    try:
        import openpyxl
    except ImportError:
        raise Fault(f"{source.name} is {kind}, which is read only where openpyxl is installed: {SAVE}, {INSTALL}") from None
    try:
        values, formulas = ({sheet.title: sheet for sheet in openpyxl.load_workbook(
            io.BytesIO(source.data), read_only=True, data_only=is_value).worksheets} for is_value in (True, False))
        missing = [name for name in only if name not in values]
        if missing:
            raise Fault(f"{source.name} has no sheet {missing[0]!r}: it has {', '.join(map(repr, values))}")
        names = [name for name in values if not only or name in only]
        hidden = hidden_in(source.data, names)
        return [sheet_source(f"{source.name}[{name}]", values[name], formulas[name], hidden.get(name, Hidden()), log)
                for name in names]
    except Fault:
        raise
    except Exception as error:  # whatever a damaged workbook makes of its reader
        raise Fault(f"{source.name} is {kind}, which openpyxl can't read: {error}; {SAVE}") from None


def sheet_source(name: str, values: Any, formulas: Any, hidden: Hidden, log: Log) -> Source:
    """A sheet as a text with commas, a line for each of its rows, whatever size the workbook says that it has."""
    values.reset_dimensions()
    formulas.reset_dimensions()
    out = io.StringIO(newline="")
    writer = csv.writer(out, lineterminator="\n")
    filled, columns = [], set()  # the rows that have something, and the hidden columns
    for line, cells in enumerate(rows_of(name, values, formulas, log), 1):
        while cells and not cells[-1]:
            cells.pop()
        if cells:
            filled.append(line)
        columns |= {at for at, cell in enumerate(cells, 1) if cell and hidden.has_column(at)} if hidden.columns else set()
        writer.writerow(cells + [""] * (FIELDS - len(cells)))
        if line == 1:
            log.repair(Place(name, 1), "sheets of a workbook read", "a sheet of a workbook: written with commas")
    report_hidden(name, hidden.is_all and bool(filled), [line for line in filled if line in hidden.rows], sorted(columns), log)
    return Source(name, out.getvalue().encode(), is_sheet=True)


def report_hidden(name: str, is_all: bool, rows: list[int], columns: list[int], log: Log) -> None:
    """Reports what is hidden and has something, since it is read as all else is."""
    if is_all:
        log.repair(Place(name, 1), "hidden sheets read", "the sheet is hidden, and is read: --sheet names those to read",
                   is_doubtful=True)
    for first, last in runs_of(rows):
        words = "row is hidden, and is read" if first == last else f"rows to {last} are hidden, and are read"
        log.repair(Place(name, first), "hidden rows read", f"the {words}: delete what is not meant", is_doubtful=True)
    for first, last in runs_of(columns):
        words = f"column {first} is hidden, and is" if first == last else f"columns {first} to {last} are hidden, and are"
        log.repair(Place(name, 1), "hidden columns read", f"{words} read: delete what is not meant", is_doubtful=True)


def rows_of(name: str, values: Any, formulas: Any, log: Log) -> Iterator[list[str]]:
    for line, (cells, asked) in enumerate(zip(values.iter_rows(), formulas.iter_rows(), strict=True), 1):
        for at, (cell, formula) in enumerate(zip(cells, asked, strict=True), 1):
            if formula.data_type == "f" and cell.value is None:
                log.error(Place(name, line), f"the formula in column {at} has no kept value: save the workbook once more")
            unit = shown_unit(str(cell.number_format or "")) if isinstance(cell.value, (int, float)) else ""
            if unit:
                log.error(Place(name, line), f"column {at} shows the unit {unit} after its number: {OURS}")
        yield [text_of(cell.value, str(cell.number_format or "")) for cell in cells]


def text_of(value: object, form: str) -> str:
    """A cell as a text has it. Numbers come as they are kept, whatever the sheet shows."""
    if value is None:
        return ""
    if isinstance(value, float) and value.is_integer() and abs(value) < EXACT:
        return str(int(value))
    if isinstance(value, datetime):
        clock = (value + timedelta(microseconds=500_000)).replace(microsecond=0)
        if clock.time() == datetime.min.time() and "h" not in form.lower():
            return clock.date().isoformat()
        return clock.isoformat(" ") if clock.second else clock.isoformat(" ", "minutes")
    if isinstance(value, date):
        return value.isoformat()
    return " ".join(value.splitlines()) if isinstance(value, str) else str(value)
