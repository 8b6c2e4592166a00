#!/usr/bin/env python3
"""make_all.py

Makes all that is made, after a change: tables, lists, completions and modules (make_tables.py), the manual (manual.py), the
pages and completions of the tools beside the program (tool_pages.py), and the numbers of docs/AUDIT.md (check_audited.py). It
needs nothing built, and prints the files that are others than before. The exit status is 0 only where all could be made;
tests/run only looks whether all is as it would be made.
"""

import hashlib
import subprocess
import sys
from pathlib import Path

TESTS = Path(__file__).resolve().parent
MAKERS = ("make_tables.py", "manual.py", "tool_pages.py", "check_audited.py")


def sums() -> dict[str, str]:
    """The sum of each file that git has, or would take."""
    words = ["git", "ls-files", "-z", "--cached", "--others", "--exclude-standard"]
    names = subprocess.run(words, cwd=TESTS.parent, capture_output=True, text=True, check=True).stdout.split("\0")
    files = {name: TESTS.parent / name for name in names if name}
    return {name: hashlib.sha256(path.read_bytes()).hexdigest() for name, path in files.items() if path.is_file()}


def main() -> int:
    if len(sys.argv) != 1:
        print((__doc__ or "").strip())
        return 2
    before = sums()
    failed = [name for name in MAKERS if subprocess.run([sys.executable, TESTS / name, "make"]).returncode != 0]
    print("".join(f"{name}\n" for name, what in sums().items() if before.get(name) != what), end="")
    print("".join(f"FAIL {name} make\n" for name in failed), end="")
    return 1 if failed else 0


if __name__ == "__main__":
    sys.dont_write_bytecode = True
    sys.exit(main())
