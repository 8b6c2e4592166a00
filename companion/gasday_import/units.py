"""Units of quantities: in a header, after a number, and in the number format of a workbook's cell. A text has dekatherms."""

import re

QUANTITIES = {"CAPACITY", "QUANTITY", "FLOOR", "CEILING"}
OURS = "quantities are in Dth or MMBtu, which are the same"
RATE = r"(?:\s*(?:/|\bper\b)\s*(?:d|day|h|hr|hour|mo|month))?"
TAKEN = re.compile(r"(?:dth|dekatherms?|mmbtu)(?:\s*(?:/|\bper\b)\s*(?:d|day))?", re.IGNORECASE)
# What a word is known to be a unit by, where no brackets say so.
KNOWN = (r"(?:[kmbgt]{0,3}(?:dth|dekatherms?|therms?|btu|s?cfd?)|[kmgt](?:j|wh)|[kmgt]?cal|(?:10\^?3|e3)?[kn]?m(?:3|\u00b3))"
         + RATE)
IN_BRACKETS = re.compile(r"\((.*?)\)|\[(.*?)\]")
AT_END = re.compile(rf"(?:^|(?<=[\s_,;:-]))(?:in\s+)?({KNOWN})\s*$", re.IGNORECASE)
AFTER_NUMBER = re.compile(rf"(.*[0-9])\s*({KNOWN}|dt(?:/d)?)", re.IGNORECASE)
# The letters of a number format that are shown as they are: in quotation marks, or each after a backslash.
SHOWN = re.compile(r'"([^"]*)"|\\(.)')


def is_taken(unit: str) -> bool:
    """Whether a quantity in this unit is one in dekatherms."""
    return bool(TAKEN.fullmatch(unit.strip()))


def units_in(title: str) -> list[str]:
    """The units that a column's title names: all in its brackets, and a known one at its end."""
    bracketed = [(round_one or square).strip() for round_one, square in IN_BRACKETS.findall(title)]
    at_end = AT_END.search(IN_BRACKETS.sub(" ", title).strip())
    return [*bracketed, *([at_end.group(1)] if at_end else [])]


def without_unit(title: str) -> str:
    """A title without the unit at its end; one that is a unit alone is that of dekatherms, whatever it is."""
    bare = IN_BRACKETS.sub(" ", title).strip()
    return AT_END.sub("", bare).strip() or ("dth" if AT_END.search(bare) else bare)


def parted(field: str) -> tuple[str, str]:
    """A number and the unit after it, if there is a known one."""
    match = AFTER_NUMBER.fullmatch(field)
    return (match.group(1), match.group(2)) if match else (field, "")


def shown_unit(form: str) -> str:
    """The unit that a number format shows after a number and that no text has; nothing where it shows none."""
    shown = "".join(quoted or escaped for quoted, escaped in SHOWN.findall(form.split(";")[0])).strip()
    return shown if re.fullmatch(KNOWN, shown, re.IGNORECASE) and not is_taken(shown) else ""
