"""The version of the companion's tools, for pyproject.toml and for `--version` of each tool."""

import argparse

VERSION = "1.0"


def add_version(parser: argparse.ArgumentParser) -> None:
    """Gives a tool the option `--version`."""
    parser.add_argument("--version", action="version", version=f"{parser.prog} {VERSION} (companion of gasday; not proved)",
                        help="print the version")
