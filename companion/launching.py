"""What the commands in this folder do first where they are run from here: they look for the program that came with them."""

import os
import subprocess

PROGRAM = "gasday"


def is_program(path: str) -> bool:
    return os.path.isfile(path) and os.access(path, os.X_OK)


def take_release(script: str) -> None:
    """Asks the script for the release's program, if it is there; that there is none is told by who looks for it."""
    if is_program(script):
        subprocess.run([script, "--take"], stdout=subprocess.DEVNULL, stderr=subprocess.DEVNULL, check=False)


def find_program() -> None:
    """Puts the folder of the program that came with these files first on the PATH: that of a release which is unpacked, or `bin`
    where all of it is installed. In the repository there is none: what is built there is found by its own place. Where nothing is
    built the script `gasday` beside this folder is asked to take the release's program, where that is of these sources, and never
    to prove and build it, which may take hours."""
    top = os.path.dirname(os.path.dirname(os.path.realpath(__file__)))
    if os.path.isdir(os.path.join(top, "crates")):
        if not is_program(os.path.join(top, "crates", PROGRAM, "out", PROGRAM)):
            take_release(os.path.join(top, PROGRAM))
        return
    is_installed = os.path.basename(top) == "share"
    folder = os.path.join(os.path.dirname(top), "bin") if is_installed else top
    if is_program(os.path.join(folder, PROGRAM)):
        os.environ["PATH"] = os.pathsep.join([folder, os.environ.get("PATH", os.defpath)])
