#!/usr/bin/env python3
"""make_tables.py make | check

What stands in documents, in the companion and in the completions of the program's help (crates/gasday_words/src/help.rt) and of its
command line (line.rt and order.rt beside that) is made of these:

- companion/gasday_report/refusals.py: what each refusal of a call says, without its remedy;
- companion/gasday_import/stages.py: the fields of each kind of row, with the words that messages tell of a field
  (crates/gd_messages/src/field.rt) and the stages of the definitions (crates/gd_text_part/specs/Kinds.antt);
- the tables of rows and of refusals in docs/DEFINITIONS.md;
- completions/gasday.bash, _gasday and gasday.fish;
- the table of commands in README.md.

Of the machine's tests (crates/gd_machine/specs/Machine.antt) are made the lists of refusals in the comments of the book's calls
(crates/gd_book/src/book.rt, "In this order"): what else a comment says stays.

A table stands between two comments that name it. `make` writes files and tables. `check` compares them with what `make` would
write, and prints what differs; the last line is 'N passed, M failed', where N counts what is as it would be made, and the exit
status is 0 only where all is.
"""

import sys
from pathlib import Path

sys.dont_write_bytecode = True

from command_line import TOP, Fault
from gasday_completions import in_bash, in_fish, in_zsh
from help_tables import commands_table, made_of, refusals_module, refusals_table
from machine_tables import BOOK, book_with_lists
from made_files import run
from row_tables import rows_table, stages_module

SCRIPT = Path(__file__).name


def between(path: Path, tables: dict[str, str]) -> str:
    """A document with each of these tables between its two comments."""
    whole = path.read_text(encoding="utf-8")
    for name, text in tables.items():
        first, last = f"<!-- {name}: tests/{SCRIPT} makes this table -->", f"<!-- end of {name} -->"
        before, _, behind = whole.partition(f"{first}\n")
        if whole.count(first) != 1 or behind.count(last) != 1:
            raise Fault(f"{path.relative_to(TOP)} has not once the lines {first} and {last}")
        whole = f"{before}{first}\n\n{text}\n\n{last}{behind.partition(last)[2]}"
    return whole


def made() -> dict[Path, str]:
    """Each file as it is made."""
    definitions, readme = TOP / "docs" / "DEFINITIONS.md", TOP / "README.md"
    companion, completions = TOP / "companion", TOP / "completions"
    line = made_of(SCRIPT, "the program's command line")
    return {
        completions / "gasday.bash": in_bash(line),
        completions / "_gasday": in_zsh(line),
        completions / "gasday.fish": in_fish(line),
        readme: between(readme, {"commands": commands_table()}),
        companion / "gasday_report" / "refusals.py": refusals_module(SCRIPT),
        companion / "gasday_import" / "stages.py": stages_module(SCRIPT),
        definitions: between(definitions, {"rows": rows_table(), "refusals": refusals_table()}),
        BOOK: book_with_lists(),
    }


if __name__ == "__main__":
    sys.exit(run(__doc__, made))
