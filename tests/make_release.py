#!/usr/bin/env python3
"""make_release.py [--dirty] PROGRAM GATE_LOG FOLDER

Makes FOLDER/gasday-COMMIT.tar.gz of this tree, where `dpkg-deb` is installed a Debian package of the same files, and the SHA-256
of each beside it. PROGRAM is the built `gasday`, GATE_LOG what `.ci/run` printed at that commit: that both belong to it is for the
caller to see to. A log whose last line isn't 'N passed, 0 failed' is refused.

In the archive are the program, the manual pages, completions, examples, the companion folder, the documents, the gate's log and
a script `install PREFIX`. The same tree, program and log make the same bytes (by one release of Python, zlib, dpkg and xz): files
are sorted, and have one owner and the commit's time. What was made is unpacked, installed into a temporary prefix, and installed
from the package into a root of its own (by `dpkg` where this is run by root, else by `dpkg-deb`). At all three places every tool
is run from another folder, on a text, an archive and a gas day, without the toolchain (tests/try_release.py).

A tree with uncommitted changes is refused, unless --dirty is told.

Exit status: 0 made, 1 refused, or what was installed doesn't run, 2 usage, reading or writing.
"""

import argparse
import gzip
import hashlib
import io
import os
import re
import shutil
import subprocess
import sys
import tarfile
import tempfile
from dataclasses import dataclass
from pathlib import Path

from try_release import ZSH, Refused, installed, try_tools, unpacked

TOP = Path(__file__).resolve().parents[1]
FOLDERS = ("man", "completions", "examples", "companion", "docs")
GREEN = re.compile(rb"[1-9][0-9]* passed, 0 failed(, [0-9]+ skipped)?")
# Which package has what the program is linked to.
LIBRARIES = {b"libc.so.6": "libc6", b"libm.so.6": "libc6", b"libpthread.so.0": "libc6", b"libdl.so.2": "libc6",
             b"libgcc_s.so.1": "libgcc-s1"}
LIBRARY, GLIBC = re.compile(rb"\0(lib[\w+.-]+\.so(?:\.\d+)*)\0"), re.compile(rb"\bGLIBC_2\.(\d+)")

INSTALL = """#!/bin/sh
# install PREFIX
#
# Copies the program, the tools beside it, manual pages, completions and documents into PREFIX, for instance /usr/local.
set -eu
umask 022
[ $# -eq 1 ] && [ -n "$1" ] || { echo 'usage: install PREFIX' >&2; exit 2; }
here=$(cd "$(dirname "$0")" && pwd)
case $1 in
    /*) prefix=$1 ;;
    *) prefix=$PWD/$1 ;;
esac

# put MODE FOLDER NAME FILE: copies FILE to FOLDER/NAME below the prefix.
put() {
    mkdir -p "$prefix/$2"
    rm -f "$prefix/$2/$3"
    cp "$here/$4" "$prefix/$2/$3"
    chmod "$1" "$prefix/$2/$3"
}

put 755 bin gasday gasday
put 755 bin gasday-audit examples/audit
# The companion's commands find their modules beside themselves, so what stands in bin are links to them.
list=$(cd "$here/companion" && find . \\( -name tests -o -name __pycache__ \\) -prune -o -type f -name '[!.]*' -print)
for file in $list; do
    name=${file#./}
    case $name in
        pyproject.toml | README.md) continue ;;
        gasday-*) mode=755 command=$name ;;
        certificate.py) mode=755 command=gasday-certificate ;;
        *) mode=644 command= ;;
    esac
    put "$mode" "$(dirname "share/gasday/$name")" "${name##*/}" "companion/$name"
    [ -z "$command" ] || ln -sf "../share/gasday/$name" "$prefix/bin/$command"
done
for file in "$here"/man/*.1; do
    put 644 share/man/man1 "${file##*/}" "man/${file##*/}"
done
for file in "$here"/completions/*; do
    name=${file##*/}
    case $name in
        *.bash) put 644 share/bash-completion/completions "${name%.bash}" "completions/$name" ;;
        *.fish) put 644 share/fish/vendor_completions.d "$name" "completions/$name" ;;
        _*) put 644 share/zsh/site-functions "$name" "completions/$name" ;;
    esac
done
mkdir -p "$prefix/share/doc/gasday"
cp -R "$here/README.md" "$here/gate.log" "$here/docs" "$here/examples" "$prefix/share/doc/gasday"
# (they may have been unpacked for few)
chmod -R a+rX "$prefix/share/doc/gasday"
"""

CONTROL = """Package: gasday
Version: {version}
Architecture: {architecture}
Maintainer: {maintainer}
Installed-Size: {size}
Depends: {depends}, python3 (>= 3.11)
Suggests: graphviz, python3-distributed, python3-flask, python3-waitress
Section: science
Priority: optional
Description: scheduling office of one interstate gas pipeline
 gasday schedules the nominations of shippers on one gas pipeline by a stated
 tariff, with prices that prove a schedule best, or a cut that proves that none
 is allowed. It is proved to meet its contracts. The tools beside it, in Python,
 are tested and not proved.
"""

# What Python leaves beside the modules that it ran.
BEFORE_REMOVAL = """#!/bin/sh
set -e
find "${DPKG_ROOT:-}/usr/share/gasday" -name __pycache__ -type d -prune -exec rm -r {} +
"""


@dataclass(frozen=True)
class Release:
    """Of which commit it is, and the archive's members: names, whether each may be run, and bytes."""

    commit: str
    time: int
    maintainer: str
    is_dirty: bool
    program: bytes
    members: list[tuple[str, bool, bytes]]

    def name(self) -> str:
        return f"gasday-{self.commit}" + "-dirty" * self.is_dirty


def git(*words: str) -> str:
    """What git tells of the tree."""
    return subprocess.run(["git", "-C", TOP, *words], check=True, stdout=subprocess.PIPE, text=True).stdout


def files() -> list[str]:
    """The names of the files of a release in the tree, sorted: those that git has, or would take."""
    names = git("ls-files", "-z", "--cached", "--others", "--exclude-standard", "--", "README.md", *FOLDERS)
    return sorted(name for name in set(names.split("\0")) if name and (TOP / name).is_file())


def release_of(program: bytes, log: bytes, is_dirty: bool) -> Release:
    """The release of this tree."""
    last = log.rstrip().rpartition(b"\n")[2]
    if not GREEN.fullmatch(last):
        raise Refused("the gate's log doesn't end with 'N passed, 0 failed', but with: " + last.decode("utf-8", "replace"))
    changes = git("status", "--porcelain")
    if changes and not is_dirty:
        raise Refused("the tree has uncommitted changes:\n" + changes.rstrip("\n"))
    members = [(name, bool((TOP / name).stat().st_mode & 0o100), (TOP / name).read_bytes()) for name in files()]
    members += [("gasday", True, program), ("gate.log", False, log), ("install", True, INSTALL.encode())]
    commit, time, maintainer = git("log", "-1", "--format=%h %ct %an <%ae>", "--abbrev=12").rstrip("\n").split(" ", 2)
    return Release(commit, int(time), maintainer, bool(changes), program, sorted(members))


def packed(release: Release) -> bytes:
    """The bytes of the archive, whose members are in a folder of its name."""
    out = io.BytesIO()
    with tarfile.open(fileobj=out, mode="w", format=tarfile.USTAR_FORMAT) as tar:
        for name, runs, data in release.members:
            member = tarfile.TarInfo(f"{release.name()}/{name}")
            member.size, member.mtime, member.mode = len(data), release.time, 0o755 if runs else 0o644
            member.uname = member.gname = "root"
            tar.addfile(member, io.BytesIO(data))
    return gzip.compress(out.getvalue(), 9, mtime=release.time)


# The Debian package.


def told(*words: str | Path, **environment: str) -> str:
    """What a command prints."""
    return subprocess.run(words, check=True, stdout=subprocess.PIPE, text=True, env={**os.environ, **environment}).stdout.strip()


def depends(program: bytes) -> str:
    """The packages of what the program is linked to, the C library in a version that has all that it asks for."""
    names = set(LIBRARY.findall(program))
    if names - set(LIBRARIES):
        raise Refused(f"the program is linked to {names - set(LIBRARIES)}, and no Debian package of that is known here")
    versions = [int(version) for version in GLIBC.findall(program)]
    packages = {LIBRARIES[name] for name in names} | {"libc6"}
    return ", ".join(f"{one} (>= 2.{max(versions)})" if one == "libc6" and versions else one for one in sorted(packages))


def version_of(release: Release, program: Path) -> str:
    """The program's own version, with the commit's time and name."""
    number = re.match(r"gasday (\d[\d.]*)", told(program, "--version"))
    if not number:
        raise Refused("the program tells no version")
    time = told("date", "-u", "-d", f"@{release.time}", "+%Y%m%d%H%M%S")
    return f"{number[1]}+{time}.{release.commit}" + "+dirty" * release.is_dirty


def finish(root: Path, time: int) -> None:
    """Gives all files of a package the modes that they have to have, and one time."""
    for path in [root, *sorted(root.rglob("*"))]:
        if not path.is_symlink():
            path.chmod(0o755 if path.is_dir() or path.stat().st_mode & 0o100 else 0o644)
        os.utime(path, (time, time), follow_symlinks=False)


def fill(root: Path, release: Release, folder: Path) -> str:
    """Puts all that the package has below a root. The package's name."""
    told(folder / "install", root / "usr")
    (root / "usr" / ZSH[0]).rename(root / "usr" / ZSH[1])
    for page in (root / "usr/share/man/man1").iterdir():
        page.with_name(page.name + ".gz").write_bytes(gzip.compress(page.read_bytes(), 9, mtime=0))
        page.unlink()
    within = [path for path in sorted(root.rglob("*")) if path.is_file() and not path.is_symlink()]
    values = {"version": version_of(release, root / "usr/bin/gasday"), "architecture": told("dpkg", "--print-architecture"),
              "maintainer": release.maintainer, "depends": depends(release.program),
              "size": sum(path.stat().st_size + 1023 >> 10 for path in within)}
    about = root / "DEBIAN"
    about.mkdir()
    (about / "control").write_text(CONTROL.format(**values))
    sums = (f"{hashlib.md5(path.read_bytes()).hexdigest()}  {path.relative_to(root)}\n" for path in within)
    (about / "md5sums").write_text("".join(sums))
    (about / "prerm").write_text(BEFORE_REMOVAL)
    (about / "prerm").chmod(0o755)
    return f"gasday_{values['version']}_{values['architecture']}.deb"


def packaged(release: Release, folder: Path, scratch: Path) -> Path:
    """The Debian package of what is unpacked in a folder."""
    root = scratch / "package"
    root.mkdir()
    package = scratch / fill(root, release, folder)
    finish(root, release.time)
    words = ("dpkg-deb", "--root-owner-group", "-Zxz", "--threads-max=1", "--build")
    told(*words, root, package, SOURCE_DATE_EPOCH=str(release.time))
    return package


def dpkg(root: Path, *words: str | Path) -> None:
    """Runs dpkg on a root of its own, in which nothing else is installed, whatever this machine leaves out or logs."""
    done = subprocess.run(["dpkg", f"--root={root}", f"--log={root}/var/log/dpkg.log", "--path-include=/*", "--force-depends",
                           "--force-script-chrootless", *words], capture_output=True, text=True,
                          env={"PATH": "/usr/sbin:/usr/bin:/sbin:/bin", "LC_ALL": "C"})
    if done.returncode != 0:
        raise Refused(f"dpkg {words[0]} ends with status {done.returncode}: {done.stderr.strip()}")


def try_package(package: Path, scratch: Path) -> None:
    """Installs a package into a root of its own, runs what is there, and takes it away again."""
    root = scratch / "a root"
    if os.geteuid() != 0:
        told("dpkg-deb", "-x", package, root)
        try_tools(installed(root / "usr", ZSH[1]))
        return
    for name in ("lib/dpkg/info", "lib/dpkg/updates", "log"):
        (root / "var" / name).mkdir(parents=True)
    (root / "var/lib/dpkg/status").touch()
    dpkg(root, "--install", package)
    try_tools(installed(root / "usr", ZSH[1]))
    dpkg(root, "--purge", "gasday")
    left = [str(path.relative_to(root)) for path in sorted((root / "usr").rglob("*"))]
    if left:
        raise Refused(f"what was installed by the package and removed leaves {', '.join(left)}")


def try_archive(release: Release, archive: Path, scratch: Path) -> Path:
    """Unpacks and installs an archive, and runs what is there. The folder that it was unpacked to."""
    told("tar", "-xzf", archive, "-C", scratch)
    folder, prefix = scratch / release.name(), scratch / "a prefix"
    try_tools(unpacked(folder))
    told(folder / "install", prefix)
    try_tools(installed(prefix, ZSH[0]))
    return folder


def make(options: argparse.Namespace) -> None:
    """Makes the archive and the package, each with its SHA-256, once both are tried out."""
    release = release_of(options.program.read_bytes(), options.gate_log.read_bytes(), options.dirty)
    with tempfile.TemporaryDirectory() as name:
        scratch = Path(name)
        archive = scratch / f"{release.name()}.tar.gz"
        archive.write_bytes(packed(release))
        made = [archive]
        folder = try_archive(release, archive, scratch)
        if shutil.which("dpkg-deb"):
            made.append(packaged(release, folder, scratch))
            try_package(made[-1], scratch)
        else:
            print("release: no Debian package is made, since dpkg-deb is not installed here", file=sys.stderr)
        options.folder.mkdir(parents=True, exist_ok=True)
        for path in made:
            line = f"{hashlib.sha256(path.read_bytes()).hexdigest()}  {path.name}\n"
            shutil.copyfile(path, options.folder / path.name)
            (options.folder / f"{path.name}.sha256").write_text(line)
            print(line, end="")


def main() -> int:
    usage, about = (__doc__ or "").split("\n", 1)
    parser = argparse.ArgumentParser(usage=usage, description=about.strip(),
                                     formatter_class=argparse.RawDescriptionHelpFormatter)
    parser.add_argument("--dirty", action="store_true", help="take a tree with uncommitted changes")
    for name in ("program", "gate_log", "folder"):
        parser.add_argument(name, metavar=name.upper(), type=Path)
    try:
        make(parser.parse_args())
    except (Refused, subprocess.CalledProcessError) as error:
        print(f"release: {error}", file=sys.stderr)
        return 1
    except OSError as error:
        print(f"release: {error}", file=sys.stderr)
        return 2
    return 0


if __name__ == "__main__":
    sys.exit(main())
