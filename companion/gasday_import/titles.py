"""What a header may call the fields of a row."""

import functools
import re

from .forms import KINDS, forms_of
from .units import without_unit

KIND_NAMES = ("kind", "kind of row", "row", "row kind", "row type", "record", "record type")
AMOUNT = ("capacity", "quantity", "qty", "q", "dth", "dekatherms", "mmbtu")

# What a field may be called beside its own name in small letters, which comes first here. Others are called by that alone.
NAMES = {
    "FROM": ("from", "from place"),
    "TO": ("to", "to place"),
    "CAPACITY": AMOUNT,
    "QUANTITY": ("quantity", *AMOUNT),
    "receipt|delivery": ("type", "point type", "direction", "receipt or delivery", "receipt delivery"),
    "firm|interruptible": ("service", "service type", "type", "firm or interruptible", "firm interruptible"),
    "ORIGIN": ("origin", "receipt", "receipt point", "receipt location", "from"),
    "DEST": ("dest", "destination", "delivery", "delivery point", "delivery location", "to"),
    "BAND": ("band", "rate band"),
    "DATE": ("date", "gas day", "day"),
    "ZONE": ("zone", "time zone"),
    "ELEMENT": ("element", "name", "location"),
    "CONTRACT": ("contract", "contract number"),
    "PACKAGE": ("package", "package id"),
    "LINE": ("line", "line number"),
    "LEVEL": ("level", "class"),
    "place|point|pool": ("member", "type"),
    "MOMENT": ("moment", "time", "date and time", "date time", "timestamp"),
    "origin|dest": ("end", "side", "origin or dest", "origin dest", "receipt or delivery", "receipt delivery"),
}
# What else a field may be called in a row of one kind.
MORE = {
    ("segment", "NAME"): ("segment",),
    ("point", "NAME"): ("point",),
    ("pool", "NAME"): ("pool",),
    ("contract", "NAME"): ("contract", "contract number"),
    ("nominate", "PARTY"): ("shipper",),
    ("nominate", "QUANTITY"): ("nominated quantity",),
    ("respond", "PARTY"): ("operator",),
    ("respond", "QUANTITY"): ("confirmed quantity",),
}
# What a row may lack.
OPTIONAL = {"BAND", "SPREAD", "BOOK"}

BETWEEN = re.compile(r"[\W_]+")
SEVERAL = re.compile(r"[/|]|\bor\b", re.IGNORECASE)


def plain(title: str) -> str:
    """A title in small letters, without its unit: `Capacity (Dth/d)` is capacity."""
    return BETWEEN.sub(" ", without_unit(title)).strip().lower()


def names_in(title: str) -> tuple[str, ...]:
    """What a title says: itself, and each part of one such as `Origin / Band`."""
    parts = [part for part in map(plain, SEVERAL.split(without_unit(title))) if part]
    whole = plain(title)
    return (whole, *parts) if len(parts) > 1 else (whole,) if whole else ()


@functools.cache
def names_of(kind: str, title: str) -> tuple[str, ...]:
    """What a field of a kind of row may be called."""
    return NAMES.get(title, (plain(title.replace("|", " or ")),)) + MORE.get((kind, title), ())


@functools.cache
def all_names() -> frozenset[str]:
    """What any field of any row may be called."""
    return frozenset(name for kind in KINDS for form in forms_of(kind) for title in form for name in names_of(kind, title))


def rank(kind: str, title: str, column: tuple[str, ...]) -> int | None:
    """How well a column's names fit a field, from 0; none where they don't."""
    names = names_of(kind, title)
    return min((names.index(name) for name in column if name in names), default=None)
