"""What a workbook (xlsx) hides: its sheets, and the rows and columns of each, as its own files say."""

import io
import posixpath
import zipfile
from collections.abc import Iterable
from dataclasses import dataclass, field
from xml.etree import ElementTree
from xml.parsers import expat

BOOK, LINKS = "xl/workbook.xml", "xl/_rels/workbook.xml.rels"
RELATION = "{http://schemas.openxmlformats.org/officeDocument/2006/relationships}id"


@dataclass
class Hidden:
    """What is hidden of a sheet: itself, and its rows and columns by their numbers from 1."""

    is_all: bool = False
    rows: set[int] = field(default_factory=set)
    columns: list[range] = field(default_factory=list)

    def has_column(self, number: int) -> bool:
        return any(number in columns for columns in self.columns)


def name_of(tag: str) -> str:
    """The name of an element without its namespace, of which there are two: the one of old files and the strict one."""
    return tag.rpartition("}")[2]


def is_set(value: str | None) -> bool:
    return value in ("1", "true")


def sheet_parts(book: zipfile.ZipFile) -> Iterable[tuple[str, str, str]]:
    """The name of each sheet, the file that has it, and whether it is `visible`, `hidden` or `veryHidden`."""
    links = {link.get("Id"): link.get("Target", "") for link in ElementTree.fromstring(book.read(LINKS))}
    for element in ElementTree.fromstring(book.read(BOOK)).iter():
        if name_of(element.tag) == "sheet":
            link = next((value for key, value in element.items() if key == RELATION or name_of(key) == "id"), None)
            target = posixpath.normpath(posixpath.join("xl", links.get(link, "")))
            yield element.get("name", ""), target.lstrip("/"), element.get("state", "visible")


def read_part(book: zipfile.ZipFile, part: str, hidden: Hidden) -> None:
    """Reads which rows and columns a sheet's file hides, without holding its cells."""
    number = 0

    def start(tag: str, attributes: dict[str, str]) -> None:
        nonlocal number
        name = tag.rpartition(":")[2]
        if name == "row":
            number = int(attributes.get("r", number + 1))
            if is_set(attributes.get("hidden")):
                hidden.rows.add(number)
        elif name == "col" and is_set(attributes.get("hidden")):
            hidden.columns.append(range(int(attributes["min"]), int(attributes["max"]) + 1))

    parser = expat.ParserCreate()
    parser.StartElementHandler = start
    with book.open(part) as file:
        parser.ParseFile(file)


def hidden_in(data: bytes, names: Iterable[str]) -> dict[str, Hidden]:
    """What is hidden of each of these sheets of a workbook."""
    wanted = set(names)
    found = {}
    with zipfile.ZipFile(io.BytesIO(data)) as book:
        for name, part, state in sheet_parts(book):
            if name in wanted:
                found[name] = Hidden(state != "visible")
                if part in book.namelist():
                    read_part(book, part, found[name])
    return found


def runs_of(numbers: Iterable[int]) -> list[tuple[int, int]]:
    """Rising numbers as runs of neighbours, each by its first and its last."""
    runs: list[tuple[int, int]] = []
    for number in numbers:
        if runs and runs[-1][1] == number - 1:
            runs[-1] = runs[-1][0], number
        else:
            runs.append((number, number))
    return runs
