"""What the scripts share that make files of others: with `make` they write files, with `check` they tell what differs from them."""

import difflib
import sys
from collections.abc import Callable
from pathlib import Path

from command_line import TOP, Fault

# What is made: each file with its text.
Files = dict[Path, str]


def difference(path: Path, text: str) -> str:
    """What differs between a file and how it would be made, or nothing."""
    here = path.read_text(encoding="utf-8") if path.exists() else ""
    name = str(path.relative_to(TOP))
    lines = difflib.unified_diff(here.splitlines(), text.splitlines(), name, "as it would be made", n=1, lineterm="")
    return "" if here == text else "\n".join([f"FAIL {name}", *lines])


def differences(files: Files) -> list[str]:
    """For each file what differs, or nothing."""
    return [difference(path, text) for path, text in files.items()]


def check(results: list[str]) -> bool:
    """Whether nothing differs; prints what does, and how many don't."""
    failed = [it for it in results if it]
    print("".join(f"{it}\n" for it in failed), end="")
    print(f"{len(results) - len(failed)} passed, {len(failed)} failed")
    return not failed


def run(usage: str | None, made: Callable[[], Files], compare: Callable[[Files], list[str]] = differences) -> int:
    """Makes or checks what is made, as the command line says; the exit status."""
    if sys.argv[1:] not in (["make"], ["check"]):
        print((usage or "").strip())
        return 2
    try:
        files = made()
    except Fault as fault:
        print("".join(f"FAIL {line}\n" for line in str(fault).splitlines()) + "0 passed, 1 failed")
        return 1
    if sys.argv[1] == "check":
        return 0 if check(compare(files)) else 1
    for path, text in files.items():
        path.write_text(text, encoding="utf-8")
    return 0
