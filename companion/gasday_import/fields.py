"""What a field should be by its title, and what can be repaired to be so."""

import functools
import re
from dataclasses import dataclass

from .forms import CALLED, KINDS, NUMBERS, TEXTS, is_name, is_number
from .moments import REMEDY
from .reading import Sheet
from .rows import Row
from .times import LOCAL
from .units import OURS, QUANTITIES, is_taken, parted

NAME = re.compile(r"[A-Z0-9-]{1,16}")
DIGITS, NO_DIGIT, MARK = re.compile("[0-9]{1,18}"), re.compile("[^0-9]"), re.compile("[.,]")
LONG = re.compile("[0-9]{4,18}")
GROUPED = re.compile(r"([1-9][0-9]{0,2})((?:([ \u00a0\u2009\u202f'\u2019.,])[0-9]{3})(?:\3[0-9]{3})*)")
# The mark that groups where no number tells, by what separates fields.
GROUPING = {",": ",", ";": "."}
NO_TIME = "is no whole number, and no local time such as 2026-12-09 12:30"
FRACTION = re.compile(r"([0-9]{5})[.,][0-9]+")
UPPER = "names made upper case"
NO_NAME = "is no name: 1 to 16 of A to Z, 0 to 9 and - (--names FILE gives it one)"


@dataclass(frozen=True, slots=True)
class Mended:
    """A field as it should be, and the kind of its repair; or else none, and why it can't be."""

    field: str | None
    why: str = ""
    doubt: str = ""  # why people have to look at it
    is_left: bool = False  # until all rows are read


@dataclass(frozen=True, slots=True)
class Marks:
    """Which of comma and point groups thousands where a number has it once, whether a number of the file shows that it does,
    and whether the numbers of the file agree: none of four or more digits has no mark at all."""

    groups: frozenset[str] = frozenset()
    are_shown: bool = False
    agree: bool = True


def marks_of(sheet: Sheet) -> Marks:
    """Which of comma and point groups thousands where a number has it once: the one that another number of the file has
    twice, or else a comma between commas and a point between semicolons; none that is a decimal mark in the file."""
    groups: set[str] = set()
    decimal: set[str] = set()
    marked = [row for row in sheet.rows if any("." in field or "," in field for field in row.fields)]
    for title, field in (pair for row in marked for pair in zip(row.titles(), row.fields[1:], strict=False)):
        if is_number(title):
            size = parted(field.strip())[0]
            found, match = MARK.findall(size), GROUPED.fullmatch(size.lstrip("-"))
            if match and len(found) > 1:
                groups.add(found[0])
            elif found and not match:
                decimal.add(found[-1])
    are_shown = bool(groups)
    groups = groups or set(GROUPING.get(sheet.separator, ""))
    agree = are_shown or not any(map(has_long_number, sheet.rows if marked else ()))
    return Marks(frozenset(groups - decimal if len(groups) == 1 else ()), are_shown, agree)


def has_long_number(row: Row) -> bool:
    """Whether a row has a quantity of four or more digits and no mark."""
    cells = row.fields or row.text.split(",")
    titles = row.titles() if row.fields else KINDS[row.kind].titles
    return any(title in QUANTITIES and LONG.fullmatch(cell) for title, cell in zip(titles, cells[1:], strict=False))


def number_in(field: str, marks: Marks) -> Mended:
    """The digits of a number with or without groups."""
    sign, size = ("-", field[1:]) if field.startswith("-") else ("", field)
    match = GROUPED.fullmatch(size)
    if DIGITS.fullmatch(size):
        return Mended(field)
    if not match:
        return Mended(None, "is no whole number")
    mark = match.group(3)
    is_single = mark in ".," and match.group(2).count(mark) == 1
    if is_single and mark not in marks.groups:
        return Mended(None, f"is ambiguous: {mark!r} may group thousands or be a decimal mark")
    digits = NO_DIGIT.sub("", size)
    if not DIGITS.fullmatch(digits):
        return Mended(None, "has more than 18 digits")
    doubt = f"{mark!r} may be a decimal mark" if is_single and not marks.are_shown else ""
    return Mended(sign + digits, "groups taken out of numbers", doubt)


def quantity_in(field: str, marks: Marks) -> Mended:
    """The digits of a quantity, which may have its unit after it."""
    number, unit = parted(field)
    if not unit:
        return number_in(field, marks)
    if not is_taken(unit):
        return Mended(None, f"is in {unit}: {OURS}")
    mended = number_in(number, marks)
    return mended if mended.field is None else Mended(mended.field, "units taken off numbers", mended.doubt)


def moment_in(field: str, marks: Marks) -> Mended:
    """The digits of a moment; a local time is left until the zone is known."""
    if LOCAL.fullmatch(field):
        return Mended(field, is_left=True)
    mended = number_in(field, marks)
    is_serial = mended.field is None and FRACTION.fullmatch(field)
    if is_serial:
        return Mended(None, f"looks like the serial date of a spreadsheet: {REMEDY}")
    return Mended(None, NO_TIME) if mended.why == "is no whole number" else mended


def word_in(title: str, field: str) -> Mended:
    """One of the words that a field takes, however it is written or called."""
    word, words = field.lower(), title.split("|")
    called = CALLED.get(title, {}).get(word)
    if called:
        return Mended(called, "words called otherwise")
    return Mended(word, "words made lower case") if word in words else Mended(None, f"is none of {', '.join(words)}")


@functools.lru_cache(maxsize=2**16)
def mended_field(title: str, field: str, marks: Marks) -> Mended:
    """A field as its title wants it. An empty one is left to `gasday`."""
    if field == "" or title in TEXTS:
        return Mended(field)
    if is_number(title):
        if title in NUMBERS and field[0] == "-":
            return Mended(None, "is below zero")
        return (moment_in if title == "MOMENT" else quantity_in if title in QUANTITIES else number_in)(field, marks)
    if not is_name(title):
        return word_in(title, field)
    name = field.upper() if field.isascii() else field
    return Mended(name, UPPER) if NAME.fullmatch(name) else Mended(None, NO_NAME)
