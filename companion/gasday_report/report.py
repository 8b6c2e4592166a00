"""What is shown, whatever the format."""

from dataclasses import dataclass, field

from .day import Day
from .facts import Facts
from .program import Program
from .texts import Input
from .verdicts import Verdict

ALONE = "Checked by certificate.py alone: gasday, whose check is proved, was not asked."


@dataclass
class Report:
    """All that is shown; the facts and the day only after a PASS."""

    program: Program | None = None  # none where certificate.py alone was asked, or where it isn't known which program was
    verdicts: list[Verdict] = field(default_factory=list)
    inputs: list[Input] = field(default_factory=list)
    notes: list[str] = field(default_factory=list)
    facts: Facts | None = None
    day: Day | None = None

    def passed(self) -> bool:
        return bool(self.verdicts) and all(verdict.passed for verdict in self.verdicts)

    def is_alone(self) -> bool:
        """Whether certificate.py alone has checked."""
        return self.program is None and not any(verdict.by.startswith("gasday") for verdict in self.verdicts)

    def checked_by(self) -> str:
        """Which program checked, in words; nothing where that isn't known."""
        if self.program is None:
            return ALONE if self.is_alone() else ""
        return f"Checked by {self.program.path}, {self.program.version}, SHA-256 {self.program.sha256}"

    def published_by(self) -> str:
        """The same for people elsewhere, whom a path of this machine doesn't concern."""
        return f"Checked by {self.program.version}, SHA-256 {self.program.sha256}" if self.program else self.checked_by()
