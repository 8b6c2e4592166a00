"""What pages are made of: the document, sections, and tables that can be read without script."""

from collections.abc import Iterable
from html import escape
from importlib import resources

from .page_tables import Cell, Column, Sentences, Table
from .words import grouped

# So many rows are shown at a time where there is script, as page.js has it.
PAGE = 100
# Without script all are.
ALL_ROWS = ("<noscript><style>.data tr.off { display: table-row; }"
            " @media (max-width: 720px) { .data tr.off { display: block; } }</style></noscript>")
POLICY = "default-src 'none'; style-src 'unsafe-inline'; script-src 'unsafe-inline'; base-uri 'none'; form-action 'none'"


def part_of_page(name: str) -> str:
    """A file that stands beside this one and goes into the page."""
    return resources.files(__package__).joinpath(name).read_text(encoding="utf-8")


def section(title: str, *parts: str, anchor: str = "") -> str:
    place = f' id="{anchor}"' if anchor else ""
    return f"<section{place}><h2>{escape(title)}</h2>{''.join(parts)}</section>"


def notes_html(notes: Iterable[str]) -> str:
    return f'<ul class="notes">{"".join(f"<li>{escape(note)}</li>" for note in notes)}</ul>'


def list_html(words: Iterable[str]) -> str:
    return f"<ul>{''.join(f'<li>{escape(word)}</li>' for word in words)}</ul>"


def sentences_html(cell: Sentences) -> str:
    shown = list_html(cell.shown) if cell.shown else ""
    hidden = f"<details><summary>{escape(cell.summary)}</summary>{list_html(cell.hidden)}</details>" if cell.hidden else ""
    return shown + hidden


def cell_html(value: Cell) -> str:
    if isinstance(value, Sentences):
        return sentences_html(value)
    return "" if value is None else grouped(value) if isinstance(value, int) else escape(value)


def column_class(column: Column) -> str:
    return "number" if column["number"] else "name" if column["name"] else "words" if column["words"] else ""


def has_mark(row: list[Cell], column: int, equals: int | None) -> bool:
    value = row[column]
    return value == equals if equals is not None else bool(value)


def row_html(table: Table, row: list[Cell], is_off: bool) -> str:
    """A row with the classes of its marks, by which the script filters; and whether it is behind the first page."""
    marks = [(k, mark) for k, mark in enumerate(table["marks"]) if has_mark(row, mark["column"], mark.get("equals"))]
    kinds = " ".join([f"m{k} {mark['kind']}".strip() for k, mark in marks] + ["off"] * is_off)
    cells = []
    for at, (column, value) in enumerate(zip(table["columns"], row, strict=True)):
        marked = "".join(f" mark-{mark['kind']}" for _, mark in marks if mark["column"] == at and mark["kind"])
        names = (column_class(column) + marked).strip()
        cells.append(f'<td class="{names}">{cell_html(value)}</td>' if names else f"<td>{cell_html(value)}</td>")
    return f'<tr class="{kinds}">{"".join(cells)}</tr>' if kinds else f"<tr>{''.join(cells)}</tr>"


def style_string(words: str) -> str:
    """Words as a style sheet takes them, whatever letters are in them."""
    return "".join(letter if letter.isalnum() or letter == " " else f"\\{ord(letter):x} " for letter in words)


def card_style(table: Table) -> str:
    """On a phone each cell has its column's title before it."""
    rules = [f'#{table["id"]} td:nth-child({at})::before{{content:"{style_string(column["title"])}"}}'
             for at, column in enumerate(table["columns"], 1)]
    return f"<style>@media (max-width: 720px) {{ {' '.join(rules)} }}</style>"


def table_html(table: Table) -> str:
    """The whole table; where there is script it is filtered, sorted and shown in pages."""
    heads = []
    for column in table["columns"]:
        down = " data-down" if column["down"] else ""
        heads.append(f'<th scope="col" class="{column_class(column)}"{down}>{escape(column["title"])}</th>')
    marks = escape("|".join(mark["name"] for mark in table["marks"]))
    body = "".join(row_html(table, row, at >= PAGE) for at, row in enumerate(table["rows"]))
    return (f'{card_style(table)}<div class="table" id="{table["id"]}" data-choice="{table["choice"]}" data-marks="{marks}">'
            f'<div class="scroll"><table class="data"><thead><tr>{"".join(heads)}</tr></thead><tbody>{body}</tbody></table></div>'
            "</div>")


def document(title: str, under: str, body: str, style: str = "") -> str:
    """A page that asks for nothing from outside."""
    script = f'<script>\n{part_of_page("page.js")}</script>' if '<div class="table"' in body else ""
    return (f'<!DOCTYPE html>\n<html lang="en"><head><meta charset="utf-8"><title>{escape(title)}</title>'
            f'<meta http-equiv="Content-Security-Policy" content="{POLICY}">'
            '<meta name="viewport" content="width=device-width, initial-scale=1"><style>\n'
            f'{part_of_page("page.css")}{style}</style>{ALL_ROWS}</head><body><main><h1>{escape(title)}</h1>'
            f'<p class="under">{escape(under)}</p>{body}</main>{script}</body></html>\n')
