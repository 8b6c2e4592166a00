"""Who may see which page and make which call: one table, by role.

`own` is what belongs to the user's party: a shipper's own contracts and their lines, and the ends that an operator operates.
"""

from collections.abc import Mapping
from dataclasses import dataclass

from .settings import User
from .view import Call, DayView, Line

NONE, OWN, ALL = "none", "own", "all"
PUBLIC = "public"

Table = Mapping[str, Mapping[str, str]]


def allow(shipper: str, operator: str, scheduler: str, auditor: str, public: str = NONE) -> dict[str, str]:
    return {"shipper": shipper, "operator": operator, "scheduler": scheduler, "auditor": auditor, PUBLIC: public}


PAGES: Table = {
    "public": allow(ALL, ALL, ALL, ALL, ALL),
    "home": allow(ALL, ALL, ALL, ALL),
    "day": allow(ALL, ALL, ALL, ALL),
    "capacities": allow(ALL, ALL, ALL, ALL),
    "rounds": allow(ALL, ALL, ALL, ALL),
    "lines": allow(OWN, OWN, ALL, ALL),
    "contracts": allow(OWN, NONE, ALL, ALL),
    "confirmations": allow(OWN, OWN, ALL, ALL),
    "schedule": allow(OWN, OWN, ALL, ALL),
    "elements": allow(NONE, NONE, ALL, ALL),
    "report": allow(NONE, NONE, ALL, ALL),
    "impossible": allow(OWN, NONE, ALL, ALL),
    "calls": allow(OWN, OWN, ALL, ALL),
    "tomorrow": allow(OWN, NONE, ALL, ALL),
    "text": allow(NONE, NONE, ALL, ALL),
}

CALLS: Table = {
    "nominate": allow(OWN, NONE, NONE, NONE),
    "respond": allow(NONE, OWN, NONE, NONE),
    "post": allow(NONE, NONE, ALL, NONE),
    "freeze": allow(NONE, NONE, ALL, NONE),
    "settle": allow(NONE, NONE, ALL, NONE),
    "publish": allow(NONE, NONE, ALL, NONE),
    "declare": allow(NONE, NONE, ALL, NONE),
    "waive": allow(NONE, NONE, ALL, NONE),
    "skip": allow(NONE, NONE, ALL, NONE),
    # No calls of a book, but the scheduler's alone as well.
    "open": allow(NONE, NONE, ALL, NONE),
    "clock": allow(NONE, NONE, ALL, NONE),
}


@dataclass(frozen=True)
class Viewer:
    """Somebody who looks: a user, or whoever comes to the public page."""

    user: User | None

    @property
    def role(self) -> str:
        return self.user.role if self.user else PUBLIC

    @property
    def party(self) -> str:
        return self.user.party if self.user else ""

    def scope(self, table: Table, name: str) -> str:
        return table[name][self.role]

    def may_see(self, page: str) -> bool:
        return self.scope(PAGES, page) != NONE

    def may_call(self, kind: str) -> bool:
        return self.scope(CALLS, kind) != NONE

    def sees_all(self, page: str) -> bool:
        return self.scope(PAGES, page) == ALL

    def owns_end(self, view: DayView, end: str) -> bool:
        """Whether the user's party operates this end."""
        return self.role == "operator" and bool(self.party) and view.opening.operator_of(end) == self.party

    def owns_contract(self, view: DayView, contract: str) -> bool:
        return self.role == "shipper" and bool(self.party) and view.opening.shipper_of(contract) == self.party

    def owns_line(self, view: DayView, line: Line) -> bool:
        key = line.key
        return (self.owns_contract(view, key.contract) or self.owns_end(view, key.origin)
                or self.owns_end(view, key.destination))

    def sees_line(self, view: DayView, line: Line, page: str = "lines") -> bool:
        scope = self.scope(PAGES, page)
        return scope == ALL or (scope == OWN and self.owns_line(view, line))

    def sees_call(self, view: DayView, call: Call) -> bool:
        """All calls; or those of one's own contracts and ends, and those that are everybody's."""
        scope = self.scope(PAGES, "calls")
        if scope != OWN:
            return scope == ALL
        if call.kind == "nominate":
            line = view.line(call.line) if call.line else None
            return self.owns_contract(view, call.row[3]) or (line is not None and self.owns_line(view, line))
        if call.kind == "respond":
            return self.sees_response(view, call)
        if call.kind == "waive":
            line = view.line(call.line or 0)
            return line is not None and self.owns_line(view, line)
        return True

    def sees_response(self, view: DayView, call: Call) -> bool:
        """A shipper those of its lines, an operator its own, and those of nobody but its own party."""
        line = view.line(call.line or 0)
        if line is None:
            return call.row[2] == self.party
        end = line.key.origin if call.row[4] == "origin" else line.key.destination
        return self.owns_contract(view, line.key.contract) or self.owns_end(view, end)

    def may_nominate(self, view: DayView, contract: str) -> bool:
        """Under one's own contracts. Whether there are others isn't told."""
        return self.may_call("nominate") and self.owns_contract(view, contract)

    def may_respond(self, view: DayView, number: int, end: str) -> bool:
        """At one's own ends."""
        line = view.line(number)
        if line is None or not self.may_call("respond"):
            return False
        return self.owns_end(view, line.key.origin if end == "origin" else line.key.destination)
