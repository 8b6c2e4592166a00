#!/usr/bin/env python3
"""compare_tables.py

Holds what users are told of rows, faults, refusals, limits and commands against the program's own tables:

- the kinds of rows that the program reads, with their words and stages (`gd_text_part`: Kinds), are those of the help and of
  messages, and each kind of row that it prints (`gd_replies`: Lines) stands in DEFINITIONS and in a help;
- the fields that messages know of each kind are as many as its form in the help has (`crates/gd_messages/src/field.rt`);
- the refusals of each call stand in the help in the order of the machine's tests (`Machine.tests_of`), and are numbered in that
  order (`gd_machine`: Names.refusal_number);
- each refusal, each cause of a text's fault and each finding of a check that the program can print has a meaning in the help;
- the calls of a book (`gd_machine`: Names.call_name) and the rows that begin what they are told (the machine's replies) are those
  of the report, the desk, the importer and the trials of broken texts;
- a limit that has two constants is the same in both, and messages and the help tell it;
- each command that GUIDE calls, or that messages speak of by its words (`reading_of` in `crates/gasday_files/src/told.rt`), is one of the
  program, and each option of a command stands in what the manual says of it by itself.

What is made of the help and of the command line isn't compared here: tests/make_tables.py and tests/manual.py check it.

What differs is printed. The last line is 'N passed, M failed', and the exit status is 0 only where none failed.
"""

import ast
import re
import sys
from collections.abc import Iterator

sys.dont_write_bytecode = True

from command_line import TOP, commands, forms
from machine_tables import ROUTE, call_of, calls, tested_refusals
from manual import HELP, helps_in
from row_tables import row_forms, stage_of, stages

# Names that no row of a text or a call has, since what they tell is printed by a row of its own.
NEVER_PRINTED = {"OutOfMemory"}


def text_of(path: str) -> str:
    return (TOP / path).read_text(encoding="utf-8")


def printed_kinds() -> list[str]:
    """The first fields of all rows that are printed."""
    text = text_of("crates/gd_replies/specs/Lines.antt")
    return sorted(set(re.findall(r'^(?:\w+_fields|fields_of) .* =\s+codes "(\w+)"', text, re.M)))


def told_fields() -> dict[str, int]:
    """The last field that messages know of each kind."""
    text = text_of("crates/gd_messages/src/field.rt")
    found: dict[str, int] = {}
    for kinds, number in re.findall(r"\(((?:RowKind::\w+(?: \| )?)+), (\d)\)", text):
        for kind in re.findall(r"RowKind::(\w+)", kinds):
            found[kind.lower()] = max(found.get(kind.lower(), 2), int(number))
    contract = text.partition("fn contract_field")[2].partition("\n}")[0]
    found["contract"] = max(map(int, re.findall(r"^        (\d)", contract, re.M)))
    return found


def helped_refusals(text: str) -> dict[str, list[str]]:
    """The refusals of each call in the help of `day`, by their numbers."""
    part = text.partition("by their number N")[2].partition("\n  DayClosed")[0]
    found: dict[str, list[str]] = {}
    for call, row in re.findall(r"^  ([a-z]+) +(1 .*(?:\n {12}.*)*)", part, re.M):
        # A text's certificate that doesn't pass is told in the place of one for another question.
        found[call] = re.findall(r"\d (?:Certificate or )?(\w+)", " ".join(row.split()))
    return found


def numbers_of(function: str) -> dict[str, str]:
    """The clauses of a function of numbers of the machine, by the word of their last pattern; a variable stands for all others."""
    text = text_of("crates/gd_machine/specs/Names.antt")
    clauses = re.findall(rf"^{function} (.*) = (.+)$", text, re.M)
    return {re.sub(r".*\b(?:call|route|refusal)\.(\w+).*", r"\1", pattern): value for pattern, value in clauses}


def number_of(call: str, refusal: str) -> int | None:
    """The number with which the program tells a refusal of a call."""
    value = numbers_of("refusal_number").get("Route" if refusal in ROUTE else refusal, "")
    for function, word in (("route_number", refusal), ("unknown_line", call), ("too_many_events", call)):
        if value.startswith(function):
            clauses = numbers_of(function)
            value = clauses.get(word) or next(it for pattern, it in clauses.items() if pattern.islower())
    return int(value) if value.isdigit() else None


# The constants that are one limit, and what messages and the help tell of it: a file and a form with the number as it is written.
MESSAGES = "crates/gd_messages/src/"
LIMITS = [
    (("gd_text_part/src/blocks.rt", "MAX_BLOCKS"), ("gd_office/src/fault.rt", "MAX_SLOTS"),
     MESSAGES + "order.rt", "an office has at most {}\""),
    (("gd_text_part/src/blocks.rt", "MAX_SESSIONS_A_SLOT"), ("gd_office_part/src/kept.rt", "MAX_SESSIONS"),
     MESSAGES + "order.rt", "and {} of a slot"),
    (("gd_text_part/src/waiting.rt", "MAX_SESSIONS_A_PHASE"), None, MESSAGES + "order.rt", "at most {} between two desk rows"),
    (("gd_lines/src/lib.rt", "MAX_LINES"), ("gd_question/src/lib.rt", "MAX_LINES"),
     MESSAGES + "refusal.rt", "a question has at most {}\""),
    (("gd_system/src/lib.rt", "MAX_PLACES"), None, MESSAGES + "refusal.rt", "at most {} places"),
    (("gd_system/src/lib.rt", "MAX_POINTS"), None, MESSAGES + "refusal.rt", "at most {} points"),
    (("gd_system/src/lib.rt", "MAX_POOLS"), None, MESSAGES + "refusal.rt", "at most {} pools"),
    (("gd_contracts/src/lib.rt", "MAX_CONTRACTS"), None,
     MESSAGES + "refusal.rt", "this contract is one too many; a pipeline has at most {}\""),
    (("gd_text_part/src/input.rt", "MAX_BYTES"), None, MESSAGES + "fault.rt", "at most {} bytes"),
    (("gd_text_part/src/records.rt", "MAX_ROWS"), None, MESSAGES + "fault.rt", " {} rows"),
    (("gd_text_part/src/input.rt", "MAX_READS"), None, MESSAGES + "fault.rt", " {} reads"),
    (("gd_units/src/quantity.rt", "MAX"), None, MESSAGES + "field.rt", "const QUANTITY: Wanted = Wanted::Number(0, {_});"),
    (("gd_units/src/cycle.rt", "MAX"), None, MESSAGES + "field.rt", 'Field("the cycle", Wanted::Number(1, {_}))'),
]


def limit(place: tuple[str, str]) -> int:
    """The number of a constant, the first of its name in that file."""
    value = re.search(rf"const {place[1]}: \w+ = ([0-9_]+);", text_of(f"crates/{place[0]}"))
    return int(value[1]) if value else 0


def limits() -> Iterator[str | None]:
    for place, other, path, form in LIMITS:
        number = limit(place)
        told = form.replace("{_}", f"{number:_}").replace("{}", str(number))
        yield from differing(f"{place[1]} in {place[0]} and what {path} tells", (number > 0, text_of(path).count(told)), (True, 1))
        if other:
            yield from differing(f"{place[1]} in {place[0]} and {other[1]} in {other[0]}", number, limit(other))


def assigned(path: str, name: str) -> list[str]:
    """The words of a tuple, a set or a table's keys that a Python file gives this name."""
    for node in ast.parse(text_of(path)).body:
        targets = node.targets if isinstance(node, ast.Assign) else [node.target] if isinstance(node, ast.AnnAssign) else []
        if any(isinstance(it, ast.Name) and it.id == name for it in targets):
            value = getattr(node, "value", None)
            words = value.keys if isinstance(value, ast.Dict) else getattr(value, "elts", [])
            found = [it.value for it in words if isinstance(it, ast.Constant)]
            return sorted(it.decode() if isinstance(it, bytes) else it for it in found)
    return []


# Where the calls of a book are listed, and where the rows are that begin what a call is told, with what else stands there.
OTHER_CALLS = [("companion/gasday_report/day.py", "CALLS", ()), ("companion/gasday_desk/rows.py", "CALLS", ()),
               ("companion/gasday_desk/permissions.py", "CALLS", ("clock", "open")), ("tests/break_days.py", "CALLS", ()),
               ("tests/serve_books.py", "OF_CALLS", ("sched", "price", "inside"))]
OTHER_HEADS = [("companion/gasday_report/day.py", "HEADS", ()), ("companion/gasday_desk/rows.py", "HEADS", ()),
               ("companion/gasday_import/confirmations.py", "HEADS", ("fault",)),
               ("tests/break_days.py", "REPLIES", ("bound", "total", "sched", "bumped", "inside"))]


def calls_shown() -> dict[str, list[str]]:
    """The calls that each part of the report has something for."""
    course, day, timeline = (f"companion/gasday_report/{name}.py" for name in ("course", "day", "timeline"))
    asked = text_of(day).partition("def asked_words")[2].partition("\ndef ")[0]
    return {f"after_.. of {course}": sorted(set(re.findall(r"\bafter_(\w+)", text_of(course)))),
            f"asked_words of {day}": sorted(re.findall(r'"([a-z]+)"', asked)),
            f"LANES and LANE_OF of {timeline}": sorted([*assigned(timeline, "LANES"), *assigned(timeline, "LANE_OF")])}


def calls_and_heads() -> Iterator[str | None]:
    for path, name, others in OTHER_CALLS:
        words = sorted([*calls().values(), *others])
        yield from differing(f"the calls of a book and {name} of {path}", words, assigned(path, name))
    for what, shown in calls_shown().items():
        yield from differing(f"the calls of a book and {what}", sorted(calls().values()), shown)
    replies = text_of("crates/gd_machine/src/reply.rt").partition("pub enum Reply {")[2].partition("\n}")[0]
    heads = [word.lower() for word in re.findall(r"^    ([A-Z]\w+)", replies, re.M)] + ["refused"]
    for path, name, others in OTHER_HEADS:
        what = f"what begins an answer to a call and {name} of {path}"
        yield from differing(what, sorted([*heads, *others]), assigned(path, name))


def told_commands() -> Iterator[str | None]:
    guide, manual = text_of("docs/GUIDE.md"), text_of("man/gasday.1.in")
    for word in sorted(set(re.findall(r"\bgasday ([a-z]+)", guide))):
        is_there = any(command.name == word for command in commands())
        yield None if is_there else f"docs/GUIDE.md calls gasday {word}, which is no command"
    named = text_of("crates/gasday_files/src/told.rt").partition("fn reading_of")[2].partition("\n}")[0]
    ways = [f"{way.words} " for command in commands() for way in forms(command)]
    for words in re.findall(r'Some\(\("([a-z ]+)", ', named):
        is_there = any(way.startswith(f"{words} ") for way in ways)
        yield None if is_there else f"messages speak of gasday {words}, which is no command"
    for command in commands():
        # (a command without a heading there is told whole, as tests/manual.py makes it)
        for option in command.options() if f"\\fB{command.name}" in manual else []:
            told = re.search(rf"\\-\\-{option.name}\b", manual)
            yield None if told else f"man/gasday.1.in has no --{option.name} of {command.name}"


def printed(*places: str) -> set[str]:
    """The names that these types print."""
    found = set()
    for place in places:
        found |= set(re.findall(r'f\.write_str\("(?:0,)?([A-Z]\w+),?"\)', text_of(place)))
    return found - NEVER_PRINTED


def meanings(*texts: str) -> set[str]:
    """The names that have a meaning in these helps."""
    return {name for text in texts for name in re.findall(r"^  ([A-Z][a-z]\w+)  +\S", text, re.M)}


def differing(what: str, first: object, second: object) -> Iterator[str | None]:
    yield None if first == second else f"{what}: {first} and {second}"


def faults() -> Iterator[str | None]:
    helps = helps_in(HELP.read_text(encoding="utf-8"))
    program, check, day = helps["program"], helps["check"], helps["day"]
    rows, read, messages = row_forms(), stages(), text_of("crates/gd_messages/src/kind.rt")
    told = {row.kind: row.stage or stage_of(row) for row in rows}
    yield from differing("kinds in Kinds and in the help, with their stages", read, told)
    named = set(re.findall(r'\(RowKind::\w+, "(\w+)"\)', messages))
    yield from differing("words of kinds in Kinds and in messages", sorted(set(read) ^ named), ["bumped"])
    definitions = text_of("docs/DEFINITIONS.md")
    for kind in printed_kinds():
        is_told = any(re.search(rf"\b{kind}\b", text) for text in helps.values())
        yield from differing(f"rows {kind}: told in a help, and in DEFINITIONS", (is_told, f"`{kind}" in definitions), (True, True))
    fields = told_fields()
    for kind in sorted({row.kind for row in rows if row.is_taken}):
        wanted = max(len(row.fields) + 1 for row in rows if row.kind == kind)
        yield from differing(f"the fields of {kind} in the help and in messages", wanted, fields.get(kind, 2))
    tested, helped = tested_refusals(), helped_refusals(day)
    for event, names in tested.items():
        call = calls()[call_of(event)]
        yield from differing(f"the refusals of {call} in the machine and in the help", names, helped.get(call))
        numbers = [number_of(call_of(event), name) for name in names]
        yield from differing(f"the numbers of the refusals of {call}, {names}", numbers, [*range(1, len(names) + 1)])
    refusals = printed("crates/gd_machine/src/refusal.rt") | set(ROUTE)
    yield from differing("refusals without a meaning in the help", sorted(refusals - meanings(day)), [])
    causes = printed("crates/gd_text_part/src/fault.rt", "crates/gd_system/src/fault.rt", "crates/gd_question/src/fault.rt")
    yield from differing("causes without a meaning in the help", sorted(causes - meanings(program)), [])
    found = printed("crates/gd_schedule/src/fault.rt", "crates/gd_certificate/src/fault.rt")
    yield from differing("findings without a meaning in the help", sorted(found - meanings(check)), [])
    yield from calls_and_heads()
    yield from limits()
    yield from told_commands()


def main() -> int:
    if len(sys.argv) != 1:
        print((__doc__ or "").strip())
        return 2
    results = [*faults()]
    failed = [result for result in results if result]
    print("".join(f"FAIL {fault}\n" for fault in failed), end="")
    print(f"{len(results) - len(failed)} passed, {len(failed)} failed")
    return 0 if len(results) > len(failed) and not failed else 1


if __name__ == "__main__":
    sys.exit(main())
