#!/usr/bin/env python3
"""prove.py FOLDER [CRATE ..]

Copies the crates that are named, or all, with those that they depend on and without must-fail edits, into FOLDER, which must be
empty or missing, and runs `rt ci` there: it proves and builds them. The libraries and programs are in FOLDER/crates/*/out
afterwards. What `rt ci` prints goes to standard output, progress to standard error, and its status is this program's.
"""

import re
import shutil
import subprocess
import sys
import time
from pathlib import Path

TOP = Path(__file__).resolve().parent.parent
ENDED = re.compile(r"rt: (\w+) (?:proved|is kept)\b")


def wanted(names: list[str]) -> dict[str, str]:
    """The lines of crates.txt for these crates and those that they depend on, or for all crates."""
    rows = [line for line in (TOP / "crates.txt").read_text().splitlines() if ":" in line and not line.startswith("#")]
    lines = {line.partition(":")[0].split()[0]: line for line in rows}
    left, found = names or list(lines), set()
    while left:
        name, *left = left
        if name not in lines:
            sys.exit(f"prove: crates.txt has no crate {name}")
        if name not in found:
            found.add(name)
            left += [below for below in lines[name].partition(":")[2].split() if below in lines]
    return {name: line for name, line in lines.items() if name in found}


def lay(folder: Path, crates: dict[str, str]) -> None:
    """Copies these crates into the folder, as a repository of their own."""
    (folder / "crates").mkdir(parents=True)
    # (rt ci looks for the top of a repository)
    (folder / ".git").mkdir()
    for name in crates:
        shutil.copytree(TOP / "crates" / name, folder / "crates" / name, ignore=shutil.ignore_patterns("out", "must-fail"))
    (folder / "crates.txt").write_text("".join(line + "\n" for line in crates.values()))
    shutil.copyfile(TOP / "HANDLES", folder / "HANDLES")


def proved(folder: Path, count: int) -> int:
    """Runs rt ci in the folder, and returns its status."""
    began, done = time.monotonic(), set()
    with subprocess.Popen(["rt", "ci"], cwd=folder, stdin=subprocess.DEVNULL, stdout=subprocess.PIPE, text=True) as gate:
        for line in gate.stdout or ():
            print(line, end="", flush=True)
            ended = ENDED.match(line)
            if ended and ended[1] not in done:
                done.add(ended[1])
                minutes = (time.monotonic() - began) / 60
                print(f"gasday: {len(done)} of {count} crates proved, {minutes:.0f} min", file=sys.stderr, flush=True)
    return gate.returncode


def main() -> int:
    if len(sys.argv) < 2 or sys.argv[1].startswith("-"):
        print((__doc__ or "").strip())
        return 2
    if not shutil.which("rt"):
        sys.exit("prove: the Rattle toolchain's command rt is not on the PATH")
    folder, crates = Path(sys.argv[1]).resolve(), wanted(sys.argv[2:])
    lay(folder, crates)
    return proved(folder, len(crates))


if __name__ == "__main__":
    sys.exit(main())
