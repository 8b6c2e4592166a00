#!/usr/bin/env python3
"""run.py [NAME ..]

Puts wrong bodies, of those beside this file that are named or of all, each into a copy of the crates by itself, and runs the
tests of one crate over it, unproved (`rt try --test`): the test that the file names must fail. They are bodies that meet their
contracts, such as a call that always wants memory, or whose wrong is what threads do together, so that no proof refuses them.
Run by hand, as it takes some minutes for each; `docs/TESTED.md` says what it told last.

A file NAME.edit is a must-fail edit with two lines more: `crate:` has the crate that it changes, and `fails:` the crate of
tests and the test. The last line is 'N passed, M failed', and the exit status is 0 only where none failed.
"""

import re
import shutil
import subprocess
import sys
import tempfile
from pathlib import Path

HERE = Path(__file__).resolve().parent
sys.dont_write_bytecode = True
sys.path.insert(0, str(HERE.parent))
from check_edits import TOP, Fault, edited, field

SECONDS = 1800


def lay(folder):
    """Lays a copy of all crates, as they are, without what was built and what must fail."""
    shutil.copytree(TOP / "crates", folder / "crates", ignore=shutil.ignore_patterns("out", "must-fail"))
    for name in ("crates.txt", "HANDLES"):
        shutil.copyfile(TOP / name, folder / name)
    # (rt looks for the top of a repository)
    (folder / ".git").mkdir()


def tried(path, folder):
    """Whether the test that a wrong body names fails over it, and what `rt` printed."""
    lay(folder)
    text = path.read_text()
    tests, test = field(text, "fails").split(" ")
    try:
        changed = edited(text, folder / "crates" / field(text, "crate"))
    except Fault as fault:
        return False, f"it can't be applied: {fault}"
    for file, now in changed.items():
        file.write_text(now)
    ran = subprocess.run(["rt", "try", "--test"], cwd=folder / "crates" / tests, stdin=subprocess.DEVNULL,
                         stdout=subprocess.PIPE, stderr=subprocess.STDOUT, text=True, timeout=SECONDS)
    failed = re.search(rf"^.*\b{test}\b.*$", ran.stdout, re.M)
    return ran.returncode != 0 and bool(failed), failed[0] if failed else ran.stdout[-300:]


def main():
    if sys.argv[1:2] in (["-h"], ["--help"]):
        print(__doc__.strip())
        return 2
    counts = [0, 0]
    for name in sys.argv[1:] or sorted(it.stem for it in HERE.glob("*.edit")):
        with tempfile.TemporaryDirectory(prefix="gasday-wrong-body-") as folder:
            is_caught, why = tried(HERE / f"{name}.edit", Path(folder))
        counts[not is_caught] += 1
        print(f"{name}: {'the test fails' if is_caught else 'FAILED'}: {why}", flush=True)
    print(f"{counts[0]} passed, {counts[1]} failed")
    return 1 if counts[1] or not counts[0] else 0


if __name__ == "__main__":
    sys.exit(main())
