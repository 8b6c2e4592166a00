#!/usr/bin/env python3
"""check_edits.py

Looks whether each edit can be applied to the sources as they are: the must-fail edits in crates/CRATE/must-fail, those in
tests/mutants/CRATE, and those in tests/wrong-bodies, whose tests have to be there too. `rt ci` passes over an edit that can't be
applied. The last line is 'N passed, M failed', and the exit status is 0 only where none failed.

An edit is a file with a line `file: PATH`, and then pairs of lines `old: TEXT` and `new: TEXT`. Each old text occurs exactly once
in that file.
"""

import re
import sys
from pathlib import Path

TOP = Path(__file__).resolve().parents[1]
CRATES = TOP / "crates"
LINE = re.compile(r"^(crate|fails|file|old|new):(?: (.*))?$", re.M)
NAME = re.compile(r"[\w.-]+\.edit", re.A)


class Fault(Exception):
    """An edit can't be applied."""


def field(text: str, name: str) -> str:
    """The text of a line `NAME: TEXT` of an edit."""
    return dict(LINE.findall(text)).get(name, "")


def edited(text: str, crate: Path) -> dict[Path, str]:
    """The files of a crate that an edit changes, as they are then."""
    texts: dict[Path, str] = {}
    before: dict[Path, str] = {}
    file, old = crate, ""
    for word, what in LINE.findall(text):
        if word == "file":
            file = crate / what
            if not re.match(r"(?:src|specs|proofs)/", what) or not file.is_file():
                raise Fault(f"it names no file of the crate: {what}")
            if file not in texts:
                texts[file] = before[file] = file.read_text(encoding="utf-8")
        elif word == "old":
            old = what
        elif word == "new":
            if not old or texts.get(file, "").count(old) != 1:
                raise Fault(f"the file doesn't have its old text exactly once: {old.strip()}")
            texts[file], old = texts[file].replace(old, what), ""
    if texts == before:
        raise Fault("it changes nothing")
    return texts


def has_test(tests: str, test: str) -> bool:
    """Whether a crate has a test of this name, as `module::test`."""
    module, _, name = test.rpartition("::")
    file = CRATES / tests / "src" / f"{module.replace('::', '/') or 'lib'}.rt"
    return file.is_file() and f"fn {name}(" in file.read_text(encoding="utf-8")


def fault(path: Path, crate: Path) -> str:
    """What is wrong with an edit, or nothing."""
    try:
        edited(path.read_text(encoding="utf-8"), crate)
    except (Fault, OSError, UnicodeError) as error:
        return str(error)
    return "" if NAME.fullmatch(path.name) else "its name is not of letters, digits, _, - and . with .edit at its end"


def main() -> int:
    if len(sys.argv) != 1:
        print((__doc__ or "").strip())
        return 2
    folders = [*sorted(CRATES.glob("*/must-fail")), *sorted((TOP / "tests" / "mutants").glob("*"))]
    crates = {path: CRATES / (folder.parent.name if folder.name == "must-fail" else folder.name)
              for folder in folders for path in sorted(folder.iterdir()) if path.suffix != ".md"}
    faults = {path: fault(path, crate) for path, crate in crates.items()}
    for path in sorted((TOP / "tests" / "wrong-bodies").glob("*.edit")):
        text = path.read_text(encoding="utf-8")
        tests, _, test = field(text, "fails").partition(" ")
        no_test = "" if has_test(tests, test) else f"there is no test {tests} {test}"
        faults[path] = fault(path, CRATES / field(text, "crate")) or no_test
    print("".join(f"FAIL {path.relative_to(TOP)}: {why}\n" for path, why in faults.items() if why), end="")
    failed = sum(bool(why) for why in faults.values())
    print(f"{len(faults) - failed} passed, {failed} failed")
    return 1 if failed or not faults else 0


if __name__ == "__main__":
    sys.exit(main())
