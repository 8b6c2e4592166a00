#!/usr/bin/env python3
"""check_companion.py [NAME ..]

Runs the tests of the companion's programs, of examples/audit and of the completions (companion/tests/test_NAME.py), and `mypy
--strict` and `ruff check` over all the Python there; or only those that are named, such as `day` or `mypy`. The tests take the
program that GASDAY names in the environment, or the built one. What isn't installed or built is skipped, with a line for each
reason. The last line is 'N passed, M failed', and ', K skipped' where some are; the exit status is 0 only where none failed.
"""

import os
import shutil
import signal
import subprocess
import sys
import unittest
from collections import Counter
from pathlib import Path

COMPANION = Path(__file__).resolve().parents[1] / "companion"
TESTS = COMPANION / "tests"
THIS = str(Path(__file__).resolve())
SCRIPTS = ["gasday-desk", "gasday-fleet", "gasday-import", "gasday-report", THIS]
# Each reads companion/pyproject.toml, and leaves nothing behind.
CHECKS = {
    "mypy": ["mypy", "--strict", "--scripts-are-modules", f"--cache-dir={os.devnull}", ".", *SCRIPTS],
    "ruff": ["ruff", "check", "--no-cache", "--config", "pyproject.toml", ".", THIS],
}


def names() -> list[str]:
    """The names of all modules of tests, and of the checks."""
    return [path.stem.removeprefix("test_") for path in sorted(TESTS.glob("test_*.py"))] + list(CHECKS)


def tests(modules: list[str]) -> tuple[int, int, int]:
    """How many tests of these modules passed, failed and were skipped."""
    # (what is started in the background of a shell has Ctrl-C ignored, and so would have what the tests start)
    signal.signal(signal.SIGINT, signal.default_int_handler)
    sys.path.insert(0, str(TESTS))
    suite = unittest.defaultTestLoader.loadTestsFromNames([f"test_{name}" for name in modules])
    result = unittest.TextTestRunner(sys.stdout, verbosity=0).run(suite)
    failed = len(result.failures) + len(result.errors) + len(result.unexpectedSuccesses)
    for reason, count in Counter(why for _, why in result.skipped).items():
        print(f"skipped: {count} of {', '.join(modules)}: {reason}")
    return result.testsRun - failed - len(result.skipped), failed, len(result.skipped)


def check(name: str) -> tuple[int, int, int]:
    """Whether a check finds nothing, counted as one test."""
    if not shutil.which(name):
        print(f"skipped: {name} is not installed")
        return 0, 0, 1
    print(f"{name}: ", end="", flush=True)
    is_good = subprocess.run(CHECKS[name], cwd=COMPANION).returncode == 0
    return int(is_good), int(not is_good), 0


def main() -> int:
    sys.dont_write_bytecode = True
    wanted = sys.argv[1:] or names()
    if not set(wanted) <= set(names()):
        print((__doc__ or "").strip())
        return 2
    modules = [name for name in wanted if name not in CHECKS]
    counts = [tests(modules)] if modules else []
    counts += [check(name) for name in wanted if name in CHECKS]
    passed, failed, skipped = map(sum, zip(*counts, strict=True))
    print(f"{passed} passed, {failed} failed" + (f", {skipped} skipped" if skipped else ""))
    return 1 if failed else 0


if __name__ == "__main__":
    sys.exit(main())
