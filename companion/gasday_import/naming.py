"""The table of names: what spreadsheets write in place of a name, and the name that it has in a text."""

import csv
import io
import re
import unicodedata
from dataclasses import dataclass, field
from pathlib import Path

from gasday_report.texts import Fault

from .fields import NAME
from .log import Log, Place
from .mending import valid_names
from .rows import Row

TITLE = ["written", "name"]
LONGEST = 16
OTHER = re.compile("[^A-Z0-9]+")


def key_of(text: str) -> str:
    """What is written, less differences of blanks and of small and capital letters."""
    return " ".join(text.split()).casefold()


@dataclass
class Names:
    """A table as it is read, and what is new."""

    path: str
    data: bytes = b""
    names: dict[str, str] = field(default_factory=dict)
    new: list[tuple[str, str]] = field(default_factory=list)
    writings: set[str] = field(default_factory=set)  # as the table has them, less differences of blanks alone

    def add(self, text: str, taken: set[str]) -> str:
        """Gives a name that nothing else has."""
        name = free_name(text, taken | set(self.names.values()))
        self.names[key_of(text)] = name
        self.new.append((" ".join(text.split()), name))
        return name

    def whole(self) -> bytes:
        """The table with what is new behind what was read."""
        out = io.StringIO(newline="")
        rows = csv.writer(out, lineterminator="\n")
        if not self.data.strip():
            rows.writerow(TITLE)
        rows.writerows(self.new)
        between = b"" if not self.data or self.data.endswith((b"\n", b"\r")) else b"\n"
        return self.data + between + out.getvalue().encode()


def words_of(text: str) -> list[str]:
    """The words of a name that is like what is written: `North Leg` is NORTH and LEG."""
    letters = unicodedata.normalize("NFKD", text).encode("ascii", "ignore").decode().upper()
    return [word for word in OTHER.split(letters) if word] or ["NAME"]


def joined(words: list[str], room: int) -> str:
    """Words as a name that is no longer than there is room: of the longest word the last letter goes first, and numbers stay."""
    words = list(words)
    while len("-".join(words)) > room:
        short = [at for at, word in enumerate(words) if len(word) > 1 and not word.isdigit()]
        if not short:
            return "-".join(words)[:room].strip("-")
        at = max(short, key=lambda at: len(words[at]))
        words[at] = words[at][:-1]
    return "-".join(words)


def free_name(text: str, taken: set[str]) -> str:
    """A name that nothing else has: `North Leg` is NORTH-LEG, or NORTH-LEG-X2 where that is taken."""
    words = words_of(text)
    name, number = joined(words, LONGEST), 1
    while name in taken:
        number += 1
        end = f"-X{number}"
        name = joined(words, LONGEST - len(end)) + end
    return name


def names_in(path: str) -> Names:
    """The table in a file; an empty one where the file isn't there."""
    file = Path(path)
    names = Names(path, file.read_bytes() if file.exists() else b"")
    try:
        rows = csv.reader(io.StringIO(names.data.decode("utf-8-sig"), newline=""), strict=True)
        for row in rows:
            if any(row) and row != TITLE:
                add_row(names, Place(path, rows.line_num), row)
    except (UnicodeDecodeError, csv.Error) as error:
        raise Fault(f"{path} is no table of names: {error}") from None
    return names


def add_row(names: Names, place: Place, row: list[str]) -> None:
    if len(row) != 2 or not row[0].strip() or not NAME.fullmatch(row[1]):
        raise Fault(f"{place}: a row has what is written and its name, of A to Z, 0 to 9 and - alone, as in North Leg,NORTH-LEG")
    key = key_of(row[0])
    if NAME.fullmatch(key.upper()) and key.upper() != row[1]:
        raise Fault(f"{place}: {row[0]!r} is a name already, and can't be called {row[1]}")
    if names.names.setdefault(key, row[1]) != row[1]:
        raise Fault(f"{place}: {row[0]!r} has the name {names.names[key]} further up")
    names.writings.add(" ".join(row[0].split()))


def give_names(names: Names, left: list[tuple[Row, int]], rows: list[Row], log: Log) -> None:
    """Writes names in place of what is none, and tells of each once."""
    taken = valid_names(rows) if left else set()
    told: set[str] = set()
    for row, at in left:
        text = row.fields[at]
        key = key_of(text)
        is_new = key not in names.names
        name = names.add(text, taken) if is_new else names.names[key]
        row.fields = (*row.fields[:at], name, *row.fields[at + 1 :])
        doubt = doubt_of(text, name, is_new, taken, names.path)
        log.repair(row.place, "names taken from the table", f"{row.label(at + 1)}: {text} made {name}{doubt}",
                   bool(doubt) and key not in told)
        told.add(key)


def doubt_of(text: str, name: str, is_new: bool, taken: set[str], path: str) -> str:
    """Why people have to look at a name."""
    if not is_new:
        return f", doubtful: {name} is written too, so that both are one" if name in taken else ""
    words = words_of(text)
    short = joined(words, LONGEST)
    if name == "-".join(words):
        return ""
    return f", doubtful: {'it is shortened' if name == short else f'{short} is the name of something else'}; {path} keeps it"
