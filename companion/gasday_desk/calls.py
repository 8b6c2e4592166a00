"""Calls as forms, uploads and other programs ask for them: their fields, and who may make them."""

import re
from collections.abc import Mapping
from dataclasses import dataclass

from .forms import FIELDS as FIELDS
from .forms import OF_PARTIES as OF_PARTIES
from .journal import Maker
from .keeper import Asked
from .permissions import Viewer
from .rows import SAFE, Row, Unsafe, row_of
from .view import DayView

TOKEN = re.compile(r"[A-Za-z0-9_-]{8,64}")
GROUPS = {"publish": ("sched", "price"), "declare": ("inside",)}
WORDS = ("end",)  # fields that are words, and not names
QUANTITIES = ("quantity", "capacity")
# A number as the pages show it, with commas between its thousands.
GROUPED = re.compile(r"[1-9][0-9]{0,2}(,[0-9]{3})+")
MOST_ROWS = 60_000


WRONG_NUMBER = "is no whole number; write 1500 or 1,500 for one thousand five hundred"
WRONG_NAME = "is no name; a name has 1 to 16 of A to Z, 0 to 9 and '-'"


class Forbidden(Exception):
    """Who asks may not make this call."""


class Unclear(Exception):
    """What is asked for has a form that no call has."""


@dataclass(frozen=True)
class Wish:
    """A call that somebody wants to make."""

    kind: str
    fields: Mapping[str, str]
    group: str = ""  # rows that wait for it, as a text
    is_repeat: bool = False  # whether its user says that it is a new call, though one lost its form that asks for the same

    def field(self, name: str) -> str:
        """A field as it is sent. Letters of other alphabets stay as they are, so that none becomes one of A to Z."""
        text = self.fields.get(name, "").strip()
        if name in QUANTITIES and GROUPED.fullmatch(text):
            return text.replace(",", "")
        if name in WORDS or not text.isascii():
            return text
        return text.upper()

    def sent(self) -> tuple[str, ...]:
        """Its fields, each of a form that can be sent."""
        fields = tuple(self.field(name) for name in FIELDS[self.kind])
        for name, text in zip(FIELDS[self.kind], fields, strict=True):
            if not SAFE.fullmatch(text):
                written = self.fields.get(name, "").strip()[:40]
                raise Unclear(f"the {name} {written!r} {WRONG_NUMBER if name in QUANTITIES else WRONG_NAME}")
        return fields


def check_permission(wish: Wish, viewer: Viewer, view: DayView) -> None:
    if wish.kind not in FIELDS:
        raise Unclear(f"there is no call {wish.kind[:20]!r}")
    if not viewer.may_call(wish.kind):
        raise Forbidden(f"the role {viewer.role} may not {wish.kind}")
    if wish.kind == "nominate" and not viewer.may_nominate(view, wish.field("contract")):
        raise Forbidden("a shipper nominates under its own contracts alone")
    if wish.kind == "respond":
        line = wish.field("line")
        number = int(line) if line.isascii() and line.isdigit() and len(line) < 10 else 0
        if wish.field("end") not in ("origin", "dest"):
            raise Unclear("the end is origin or dest")
        if not viewer.may_respond(view, number, wish.field("end")):
            raise Forbidden("an operator confirms its own ends alone")


def group_of(wish: Wish) -> tuple[Row, ...]:
    """The rows that wait for a publish or a declare."""
    rows = [line.strip().split(",") for line in wish.group.split("\n") if line.strip()]
    if len(rows) > MOST_ROWS:
        raise Unclear(f"{len(rows)} rows are too many, {MOST_ROWS} is the most")
    for row in rows:
        if row[0] not in GROUPS.get(wish.kind, ()):
            raise Unclear(f"{wish.kind} takes no row {row[0][:20]!r}")
    try:
        return tuple(row_of(*row) for row in rows)
    except Unsafe as unsafe:
        raise Unclear(str(unsafe)) from None


def asked_of(wish: Wish, viewer: Viewer, view: DayView, token: str) -> Asked:
    """The call that somebody may make; else why not."""
    check_permission(wish, viewer, view)
    user = viewer.user
    assert user is not None
    fields = wish.sent()
    if wish.kind in OF_PARTIES:
        fields = (user.party, *fields)
    return Asked(wish.kind, fields, Maker(user.name, user.role, user.party), token, group_of(wish), wish.is_repeat)


def token_of(viewer: Viewer, token: str) -> str:
    """A form's token, which is that of its user alone."""
    if not TOKEN.fullmatch(token):
        raise Unclear("the form has no token, or none of 8 to 64 letters, digits, - and _; open it anew")
    assert viewer.user is not None
    return f"{viewer.user.name}:{token}"
