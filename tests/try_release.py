#!/usr/bin/env python3
"""try_release.py PREFIX

Runs every tool of a release that is installed below PREFIX, from another folder and with nothing but Python and the system's own
commands on the PATH: the program on texts, a gas day and an archive, and each other tool on the text, the archive or the gas day
that it is for. Looks whether each has its manual page and its completions for bash, zsh and fish, and whether bash takes its own.

Exit status: 0 all run, 1 something doesn't run or isn't there, 2 usage.
"""

import os
import sqlite3
import subprocess
import sys
import tempfile
from collections.abc import Callable
from dataclasses import dataclass
from pathlib import Path

TEXT, QUESTION, DAY = "two-lines.csv", "study/base.csv", "gas-day/two-cycles.csv"
SCENARIO = "scenario,element,capacity\nless,TRUNK-1,79000\n"
# Where completions are below a prefix; of zsh where they are below any, and below Debian's /usr.
ZSH = ("share/zsh/site-functions", "share/zsh/vendor-completions")
COMPLETIONS = {"bash": "share/bash-completion/completions/{}", "fish": "share/fish/vendor_completions.d/{}.fish"}


class Refused(Exception):
    """There is no release of this."""


@dataclass(frozen=True)
class Place:
    """Where tools stand by their names, with the examples; where they are installed also the prefix, and zsh's folder."""

    tools: dict[str, Path]
    examples: Path
    prefix: Path | None = None
    zsh: str = ""


def unpacked(folder: Path) -> Place:
    """A release that is unpacked, and not installed."""
    tools = {path.name: path for path in (folder / "companion").glob("gasday-*")}
    others = {"gasday": folder / "gasday", "gasday-audit": folder / "examples/audit",
              "gasday-certificate": folder / "companion/certificate.py"}
    return Place({**tools, **others}, folder / "examples")


def installed(prefix: Path, zsh: str) -> Place:
    """A release that is installed below a prefix, with zsh's completions in a folder below it."""
    tools = {path.name: path for path in (prefix / "bin").glob("gasday*")}
    return Place(tools, prefix / "share/doc/gasday/examples", prefix, zsh)


@dataclass(frozen=True)
class Trial:
    """Tools that are run in a folder of one's own."""

    place: Place
    folder: Path
    path: Path

    def run(self, begins: bytes, name: str, *words: str | Path, text: bytes = b"") -> bytes:
        """What a tool prints; it has to end with 0, and what it prints has to begin so."""
        environment = {"PATH": f"{self.path}:/usr/bin:/bin", "LC_ALL": "C", "PYTHONDONTWRITEBYTECODE": "1"}
        done = subprocess.run([self.place.tools[name], *words], input=text, capture_output=True, env=environment, cwd=self.folder)
        if done.returncode != 0 or not done.stdout.startswith(begins):
            told = (done.stderr or done.stdout).decode("utf-8", "replace")[:1000].strip()
            raise Refused(f"{self.place.tools[name]} {' '.join(map(str, words))} doesn't run: it ends with status"
                          f" {done.returncode}, and tells: {told}")
        return done.stdout

    def example(self, name: str) -> Path:
        return self.place.examples / name

    def put(self, name: str, data: bytes) -> None:
        path = self.folder / name
        path.parent.mkdir(parents=True, exist_ok=True)
        path.write_bytes(data)


def try_program(trial: Trial) -> None:
    """Leaves an answer, and a folder with a gas day: its text, what is told of it, and its archive."""
    trial.run(b"gasday ", "gasday", "--version")
    trial.run(b"allowed,,,,,,,\n", "gasday", "check", "allowed", trial.example(TEXT))
    trial.put("answer.csv", trial.run(b"best,,,,,,,\n", "gasday", "solve", text=trial.example(QUESTION).read_bytes()))
    day = trial.example(DAY).read_bytes()
    (trial.folder / "kept").mkdir()
    told = trial.run(b"", "gasday", "day", "--archive", "kept/archive.db", text=day)
    trial.put("kept/texts/day.csv", day)
    trial.put("kept/told/day.csv", told)
    trial.run(b"audited,2,,,,,,\n", "gasday", "audit", "kept/archive.db")


def try_audit(trial: Trial) -> None:
    trial.run(b"PASS: check best, ", "gasday-audit", trial.example(QUESTION), "answer.csv")


def try_certificate(trial: Trial) -> None:
    trial.run(b"holds: ", "gasday-certificate", trial.example(QUESTION), "answer.csv")


def try_import(trial: Trial) -> None:
    for name in (TEXT, DAY):
        text = trial.example(name).read_bytes()
        if trial.run(text, "gasday-import", "--strict", trial.example(name)) != text:
            raise Refused(f"gasday-import changes {name}")


def try_report(trial: Trial) -> None:
    """Of an answer, of a posting that an archive keeps, and of a gas day."""
    archive = sqlite3.connect(trial.folder / "kept/archive.db")
    trial.put("posting.csv", archive.execute("select body from posting2 where cycle = 2").fetchone()[0])
    archive.close()
    question, day = str(trial.example(QUESTION)), ("--events", "kept/texts/day.csv", "--replies", "kept/told/day.csv")
    for words in ((question, "answer.csv"), ("posting.csv", "posting.csv"), day, (question, "answer.csv", "--format", "html")):
        if b"PASS" not in trial.run(b"", "gasday-report", *words):
            raise Refused(f"gasday-report {' '.join(words)} doesn't tell PASS")


def try_fleet(trial: Trial) -> None:
    trial.put("scenarios.csv", SCENARIO.encode())
    told = trial.run(b"file,postings,verdict,told,seconds,sha256,", "gasday-fleet", "audit", "kept/archive.db", "--serial")
    if b"\nkept/archive.db,2,sound," not in told:
        raise Refused("gasday-fleet audit doesn't find the archive sound")
    told = trial.run(b"folder,day,verdict,", "gasday-fleet", "days", "kept", "--archive", "--serial")
    if b"\nkept,day,same,,2," not in told:
        raise Refused("gasday-fleet days doesn't find the gas day the same")
    trial.run(b"scenario,verdict,told,", "gasday-fleet", "study", trial.example(QUESTION), "scenarios.csv", "--serial")


def try_desk(trial: Trial) -> None:
    trial.run(b"", "gasday-desk", "init", "office")
    words = ("user", "add", "office", "sam", "--party", "MYPIPE", "--role", "scheduler", "--unnamed", "--stdin")
    trial.run(b"", "gasday-desk", *words, text=b"a long password\n")


# The trial of each tool; that of the program comes first, since it leaves what the others take.
TRIALS: dict[str, Callable[[Trial], None]] = {
    "gasday": try_program, "gasday-audit": try_audit, "gasday-certificate": try_certificate, "gasday-import": try_import,
    "gasday-report": try_report, "gasday-fleet": try_fleet, "gasday-desk": try_desk,
}


def look_beside(place: Place, name: str) -> None:
    """Looks for a tool's page and completions."""
    if place.prefix is None:
        return
    page = place.prefix / "share/man/man1" / f"{name}.1"
    if not page.exists() and not page.with_name(f"{name}.1.gz").exists():
        raise Refused(f"{name} has no manual page")
    for shell, pattern in {**COMPLETIONS, "zsh": place.zsh + "/_{}"}.items():
        if not (place.prefix / pattern.format(name)).exists():
            raise Refused(f"{name} has no completions for {shell}")
    script, path = 'source "$1" && complete -p "$2"', place.prefix / COMPLETIONS["bash"].format(name)
    done = subprocess.run(["bash", "-c", script, "bash", path, name], capture_output=True)
    if done.returncode != 0 or not done.stdout.startswith(b"complete -F "):
        raise Refused(f"bash doesn't take the completions of {name}")


def try_tools(place: Place) -> None:
    """Runs all tools of a place."""
    without = sorted(set(place.tools) - set(TRIALS)) + sorted(set(TRIALS) - set(place.tools))
    if without:
        raise Refused(f"{without[0]} is not both there and with a trial in tests/try_release.py")
    with tempfile.TemporaryDirectory() as name:
        path, folder = Path(name, "path"), Path(name, "another folder")
        path.mkdir()
        folder.mkdir()
        (path / "python3").symlink_to(os.path.realpath(sys.executable))
        for tool, run in TRIALS.items():
            run(Trial(place, folder, path))
            look_beside(place, tool)


def main() -> int:
    if len(sys.argv) != 2 or not Path(sys.argv[1], "bin").is_dir():
        print((__doc__ or "").strip())
        return 2
    prefix = Path(sys.argv[1]).resolve()
    zsh = [name for name in ZSH if (prefix / name / "_gasday").exists()]
    try:
        try_tools(installed(prefix, *zsh[:1] or ZSH[:1]))
    except Refused as error:
        print(f"release: {error}", file=sys.stderr)
        return 1
    return 0


if __name__ == "__main__":
    sys.exit(main())
