"""The parties that the files of a desk name, so that a user of none of them is refused."""

import csv
import difflib
import io
from collections.abc import Iterable, Iterator
from pathlib import Path

from .settings import Wrong, settings_of

# The column of a row in which a party's name is, by the kind of the row.
SHIPPERS, OPERATORS = {"contract": 2}, {"point": 4, "pool": 3}


def rows_in(folder: Path) -> Iterator[list[str]]:
    """All rows of the texts of the pipelines."""
    for path in sorted(folder.glob("pipelines/*/*.csv")):
        try:
            yield from csv.reader(io.StringIO(path.read_text(encoding="utf-8"), newline=""))
        except (OSError, UnicodeDecodeError, csv.Error) as error:
            raise Wrong(f"{path} can't be read: {error}") from None


def named_in(folder: Path, columns: dict[str, int]) -> set[str]:
    """The parties that rows of these kinds name."""
    rows = (row for row in rows_in(folder) if row and row[0] in columns and len(row) > columns[row[0]])
    return {row[columns[row[0]]] for row in rows}


def parties_of(folder: Path, role: str) -> set[str]:
    """The parties that a user of this role may have: shippers, operators, or for the office's own people all of them and the
    pipelines themselves."""
    if role in ("shipper", "operator"):
        return named_in(folder, SHIPPERS if role == "shipper" else OPERATORS)
    pipelines = settings_of(folder / "desk.toml").pipelines
    own = {name for one in pipelines for name in (one.book, one.name.upper())}
    return own | named_in(folder, SHIPPERS) | named_in(folder, OPERATORS)


def meant(name: str, names: Iterable[str]) -> str:
    """The name that is most like this one, as a question."""
    close = difflib.get_close_matches(name, sorted(names), 1, 0.6)
    return f"; did you mean {close[0]}?" if close else ""


def check_party(folder: Path, party: str, role: str) -> None:
    names = parties_of(folder, role)
    if party not in names:
        what = {"shipper": "no contract names the shipper", "operator": "no point or pool names the operator"}
        words = what.get(role, "no pipeline of desk.toml and no file names the party")
        hint = meant(party, names) or f"; add it to a file in {folder / 'pipelines'} first"
        raise Wrong(f"{words} {party}{hint} (--unnamed takes it nonetheless)")
