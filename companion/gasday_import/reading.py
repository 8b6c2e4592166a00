"""The rows of a file: its letters, what separates its fields, and what is no row."""

import csv
import difflib
import io
import re
from dataclasses import dataclass

from .forms import KINDS
from .headers import Header, Taken, is_header, names_a_field
from .log import Log, Place
from .rows import Row

# What is no row, with how several are called.
EMPTY, HEADER = ("empty row", "empty rows"), ("header row", "header rows")
NOTE = ("row that begins with #", "rows that begin with #")
# What a spreadsheet shows in place of a value that it can't work out.
FAULT = re.compile(r"#(?:[A-Z0-9/_\u00c0-\u00dc]{2,16}[!?]|N/A|NV|N/D|GETTING_DATA)")
MARKUP = re.compile(r"\s*<[!?/A-Za-z]")
SEPARATORS = {",": "commas", ";": "semicolons", "\t": "tabs"}
KIND_FIRST = re.compile(rf'\s*"?\s*(?:{"|".join(KINDS)}) *"? *([,;\t])', re.IGNORECASE)


@dataclass(frozen=True)
class Source:
    """What was read under a name."""

    name: str
    data: bytes
    is_sheet: bool = False  # of a workbook, whose cells are written with commas


@dataclass(slots=True)
class Record:
    """Fields as they stand in a source, none where they can't be read, and how many lines they take."""

    fields: tuple[str, ...]
    lines: int


@dataclass
class Sheet:
    """The rows of a source."""

    rows: list[Row]
    separator: str
    is_ended: bool  # whether its last line has an end


def decoded(source: Source, log: Log) -> str:
    """The text of a source, without a byte order mark."""
    data = source.data
    if data.startswith((b"\xff\xfe", b"\xfe\xff")):
        raise UnicodeError(f"{source.name} is UTF-16; export it as UTF-8")
    if data.startswith(b"\xef\xbb\xbf"):
        data = data[3:]
        log.repair(Place(source.name, 1), "byte order marks dropped", "byte order mark dropped")
    try:
        return data.decode("utf-8")
    except UnicodeDecodeError as error:
        before = data[: error.start].decode("utf-8")
        line = len(re.findall("\r\n|\r|\n", before)) + 1
        log.repair(Place(source.name, line), "files read as Latin-1", "no UTF-8: the file is read as Latin-1", is_doubtful=True)
        return data.decode("latin-1")


def separator_of(name: str, lines: list[str], log: Log) -> str:
    """What separates fields: what stands behind the first kind of a row, or else what the first line has most of."""
    found = next((match for match in map(KIND_FIRST.match, lines) if match), None)
    first = next((line for line in lines if line.strip()), "")
    separator = found.group(1) if found else max(SEPARATORS, key=first.count)
    if separator != ",":
        word = SEPARATORS[separator]
        log.repair(Place(name, 1), f"files with {word}", f"fields separated by {word}: written with commas")
    return separator


def is_title(fields: tuple[str, ...]) -> bool:
    """Whether a file's first row would be a header, if it names a field: its first field has no digit and isn't like a kind,
    and no other begins with a digit; or else a field says that the kinds of rows are below it."""
    if is_header(fields):
        return True
    if re.search("[0-9]", fields[0]) or any(field.strip()[:1].isdigit() for field in fields):
        return False
    return not difflib.get_close_matches(fields[0].strip().lower(), KINDS, 1, 0.75)


def fault_in(fields: tuple[str, ...]) -> str:
    """What is wrong with the first field in which a spreadsheet shows a fault; nothing where none does."""
    faults = ((at, field.strip()) for at, field in enumerate(fields, 1) if "#" in field)
    return next((f"column {at} has the fault {text}" for at, text in faults if FAULT.fullmatch(text)), "")


def why_no_row(fields: tuple[str, ...], is_first: bool) -> str:
    """Why a record can be no row and may not be dropped, whatever its kind is; nothing where it may be one of these."""
    if not fault_in(fields[:1]) and dropped(fields, False):
        return ""
    fault = fault_in(fields)
    if fault or not is_first or not is_title(fields) or names_a_field(fields):
        return fault
    return (f"{fields[0].strip()[:40]!r} begins no row, and no field that is known is named here, so that this is no header"
            " either: begin it with # if it is a remark")


def dropped(fields: tuple[str, ...], is_first: bool) -> tuple[str, str] | None:
    """What a record is that is no row, and is dropped; none where it is one."""
    if not any(field.strip() for field in fields):
        return EMPTY
    if fields[0].lstrip().startswith("#"):
        return NOTE
    return HEADER if is_first and is_title(fields) else None


class Reader:
    """Goes through the lines of a source; what is no row is dropped, and a row of no kind told."""

    def __init__(self, source: Source, text: str, log: Log) -> None:
        self.name, self.log = source.name, log
        self.lines = list(io.StringIO(text, newline=""))
        if "\r" in text:
            log.note(self.name, "line ends are CRLF or CR: written as LF, which is no repair")
        self.separator = "," if source.is_sheet else separator_of(self.name, self.lines, log)
        self.header: Header | None = None
        self.is_first = True

    def record_at(self, at: int) -> Record:
        """The record that begins at a line."""
        if '"' not in self.lines[at]:
            return Record(tuple(self.lines[at].rstrip("\r\n").split(self.separator)), 1)
        lines = (self.lines[k] for k in range(at, len(self.lines)))
        reader = csv.reader(lines, delimiter=self.separator, strict=True)
        try:
            return Record(tuple(next(reader)), reader.line_num)
        except csv.Error as error:
            self.log.error(Place(self.name, at + 1), f"the quotes can't be read ({error})")
            return Record((), 1)

    def row_of(self, record: Record, at: int) -> Row | None:
        """The row that a record at a line is, if it is one."""
        place = Place(self.name, at + 1)
        if not record.fields:
            return None
        why = why_no_row(record.fields, self.is_first)
        if why:
            self.log.error(place, why)
            return None
        what = dropped(record.fields, self.is_first)
        if what:
            self.log.repair(place, f"{what[1]} dropped", f"{what[0]} dropped")
            if what == HEADER:
                self.header, self.is_first = Header(place, record.fields, self.log), False
            return None
        header = self.header
        kind_at = header.kind_at if header else 0
        word = record.fields[kind_at] if kind_at < len(record.fields) else ""
        kind = word.strip().lower()
        if kind not in KINDS:
            label = header.label(kind_at) if header and kind_at else "field 1"
            self.log.error(place, f"{label} ({word!r}) is no kind of row")
            return None
        self.is_first = False
        taken = header.taken(kind, record.fields, at + 1) if header else Taken(record.fields)
        if not taken:
            return None
        raw = "".join(self.lines[at : at + record.lines]).rstrip("\r\n")
        is_own = self.separator == "," and taken.fields == record.fields
        return Row(self.name, at + 1, kind, raw if is_own else "", taken.fields, taken.labels)

    def is_markup(self) -> bool:
        """Whether the file is a page of HTML or another text with marks, which is told once."""
        first = next((at for at, line in enumerate(self.lines) if line.strip()), None)
        if first is None or not MARKUP.match(self.lines[first]):
            return False
        begin = self.lines[first].strip()[:20]
        self.log.error(Place(self.name, first + 1),
                       f"the file begins with {begin!r}, as HTML or XML does, and is no table: save it as CSV")
        return True

    def rows(self) -> list[Row]:
        """All rows. A line with commas where nothing is to be repaired is a row as it stands, and its fields need no look."""
        rows: list[Row] = []
        lines, at, may_be_clean = self.lines, 0, self.separator == ","
        if self.is_markup():
            return rows
        while at < len(lines):
            line = lines[at]
            kind = line.split(",", 1)[0]
            known = KINDS.get(kind) if may_be_clean else None
            if known and known.clean.fullmatch(line) and (self.header is None or self.header.is_plain(kind)):
                at, self.is_first = at + 1, False
                rows.append(Row(self.name, at, kind, line.rstrip("\r\n")))
                continue
            record = self.record_at(at)
            row = self.row_of(record, at)
            if row:
                rows.append(row)
            at += record.lines
        return rows


def sheet_of(source: Source, log: Log) -> Sheet:
    """The rows of a source, still as they stand there."""
    text = decoded(source, log)
    reader = Reader(source, text, log)
    return Sheet(reader.rows(), "" if source.is_sheet else reader.separator, text.endswith(("\n", "\r")))
