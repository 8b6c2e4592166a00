"""Tests of tests/make_release.py: which gate logs it takes, and what it installs and packs, with a program that only tells a
version; and a whole release where the program is built, or GASDAY names one in the environment."""

import hashlib
import importlib
import shutil
import subprocess
import sys
import tempfile
import unittest
from pathlib import Path
from typing import Any

from helpers import GASDAY, TOP, needs_gasday

sys.path.insert(0, str(TOP / "tests"))
make_release: Any = importlib.import_module("make_release")

FAKE, LOG = b"#!/bin/sh\necho 'gasday 1.0.0 (of a test)'\n", b"cases: 7 passed, 0 failed\n1234 passed, 0 failed\n"
TOOLS = {"gasday", "gasday-audit", "gasday-certificate", *(path.name for path in (TOP / "companion").glob("gasday-*"))}


def sum_of(path: Path) -> str:
    """(Bytes that differ would be compared and shown for hours.)"""
    return hashlib.sha256(path.read_bytes()).hexdigest()


class Release(unittest.TestCase):
    def setUp(self) -> None:
        folder = tempfile.TemporaryDirectory()
        self.addCleanup(folder.cleanup)
        self.folder = Path(folder.name)

    def install(self) -> Path:
        """The prefix into which a release is installed, by somebody whose files nobody else may read."""
        release = make_release.release_of(FAKE, LOG, True)
        archive, prefix = self.folder / "a.tar.gz", self.folder / "a prefix"
        archive.write_bytes(make_release.packed(release))
        subprocess.run(["tar", "-xzf", archive, "-C", self.folder], check=True)
        subprocess.run(["sh", "-c", 'umask 077 && exec "$@"', "sh", self.folder / release.name() / "install", prefix], check=True)
        return prefix

    def test_logs(self) -> None:
        for words in (b"", b"7 passed, 1 failed\n", b"7 passed, 10 failed\n", LOG + b"and more\n", b"0 passed, 0 failed\n",
                      b"books did not come to the end\n0 passed, 1 failed\n", b"manual: 7 passed, 0 failed\n",
                      b"7 passed, 1 failed, 2 skipped\n", b"0 passed, 0 failed, 2 skipped\n", b"7 passed, 0 failed, and more\n"):
            with self.assertRaises(make_release.Refused):
                make_release.release_of(FAKE, words, True)
        for words in (LOG, b"7 passed, 0 failed, 12 skipped\n"):
            make_release.release_of(FAKE, words, True)
        program, log = self.folder / "gasday", self.folder / "log"
        program.write_bytes(FAKE)
        log.write_bytes(b"7 passed, 1 failed\n")
        done = subprocess.run([sys.executable, TOP / "tests" / "make_release.py", "--dirty", program, log, self.folder / "made"],
                              capture_output=True, text=True, timeout=600)
        self.assertEqual((done.stdout, done.returncode, (self.folder / "made").exists()), ("", 1, False))
        self.assertIn("the gate's log doesn't end with 'N passed, 0 failed', but with: 7 passed, 1 failed\n", done.stderr)

    def test_what_is_installed(self) -> None:
        prefix = self.install()
        self.assertEqual({path.name for path in (prefix / "bin").iterdir()}, TOOLS)
        for pattern in ("share/man/man1/{}.1", "share/bash-completion/completions/{}", "share/zsh/site-functions/_{}",
                        "share/fish/vendor_completions.d/{}.fish"):
            found = {path.name for path in (prefix / pattern).parent.iterdir()}
            self.assertEqual(found, {Path(pattern).name.format(name) for name in TOOLS})
        for path in prefix.rglob("*"):
            for_all = 0o055 if path.is_dir() or path.parent.name == "bin" else 0o044
            self.assertEqual(path.stat().st_mode & for_all, for_all, path)
        for name in TOOLS - {"gasday"}:
            done = subprocess.run([prefix / "bin" / name, "--help"], cwd=self.folder, capture_output=True, timeout=600)
            self.assertEqual((done.stderr, done.returncode), (b"", 0))

    @unittest.skipUnless(shutil.which("dpkg-deb"), "dpkg-deb is not installed")
    def test_the_package_has_the_same_files_and_is_made_alike(self) -> None:
        prefix, release = self.install(), make_release.release_of(FAKE, LOG, True)
        self.assertTrue(make_release.packed(release) == (self.folder / "a.tar.gz").read_bytes())
        packages = []
        for name in ("one", "two"):
            (self.folder / name).mkdir()
            packages.append(make_release.packaged(release, self.folder / release.name(), self.folder / name))
        self.assertEqual(*map(sum_of, packages))
        told = subprocess.run(["dpkg-deb", "-c", packages[0]], capture_output=True, text=True, check=True, timeout=600).stdout
        files = [line for line in told.splitlines() if " ./usr/" in line and not line.endswith("/")]
        packed = {line.split(" ./usr/")[1].split(" -> ")[0] for line in files}
        wanted = {str(path.relative_to(prefix)) for path in prefix.rglob("*") if not path.is_dir()}
        wanted = {name.replace("zsh/site-functions", "zsh/vendor-completions") for name in wanted}
        self.assertEqual(packed, {f"{name}.gz" if name.startswith("share/man") else name for name in wanted})
        self.assertEqual({line.split()[1] for line in told.splitlines()}, {"root/root"})

    @needs_gasday
    def test_a_whole_release_is_tried(self) -> None:
        log, made = self.folder / "log", self.folder / "made"
        log.write_bytes(LOG)
        words = (TOP / "tests" / "make_release.py", "--dirty", GASDAY, log, made)
        done = subprocess.run([sys.executable, *words], capture_output=True, text=True, timeout=600)
        self.assertEqual((done.stderr, done.returncode), ("", 0))
        files = [path for path in sorted(made.iterdir()) if path.suffix != ".sha256"]
        sums = [f"{sum_of(path)}  {path.name}\n" for path in files]
        self.assertEqual([path.suffix for path in files], [".gz", *[".deb"] * bool(shutil.which("dpkg-deb"))])
        self.assertEqual([(made / f"{path.name}.sha256").read_text() for path in files], sums)
        self.assertEqual(done.stdout, "".join(sums))


if __name__ == "__main__":
    unittest.main()
