#!/usr/bin/env python3
r"""manual.py make | check

The manual, man/gasday.1, is made from man/gasday.1.in, which has what only the manual says, from the long texts of the program's
help (crates/gasday_words/src/help.rt), and from its command line (tests/command_line.py). `make` writes it. `check` compares it,
section by section, with what `make` would write, and prints what differs; the last line is 'N passed, M failed', where N counts
the sections that are as they would be made, and the exit status is 0 only where all are.

In man/gasday.1.in these comment lines are places, where something of a help stands in the manual. They name a command, or
`program` for the help of the program itself, and then the words at the beginning, or `FIRST .. LAST` at both ends:

    .\" HELP day: DayClosed .. BoardTaken     titles, paragraphs, and rows or names with their texts, from one to another
    .\" ROW day: accepted                     the form of a row that begins so, as a heading
    .\" WORDS audit: Take the file .. copy    these words, as a sentence
    .\" REFUSED                               refusals by their numbers, call by call, where the helps have them as rows
    .\" SYNOPSIS                              each way to call a command, as the command line has them (tests/command_line.py)
    .\" COMMANDS                              of each command that the source has no heading for: what it does
    .\" OTHERS                                and its whole help

These are notes on how words of the help look, each of which has to fit somewhere:

    .\" BOLD: with [delivery] one             what stands in brackets is bold; behind them may stand a section, as (1)
    .\" PARAGRAPH: A name is                  a paragraph begins at the sentence that begins so

Of the lists of a help nothing may be left out: each row or name has to stand in the manual with its text or, where it has no
text, a row of its kind. A help's paragraphs may stand in the manual in other words. Other comments are for who reads the source.
"""

import difflib
import re
import sys
from collections.abc import Iterator
from dataclasses import dataclass, field
from typing import Literal

sys.dont_write_bytecode = True

from command_line import TOP, Command, Fault, commands, forms, unescaped
from made_files import Files, run

HELP = TOP / "crates" / "gasday_words" / "src" / "help.rt"
SOURCE = TOP / "man" / "gasday.1.in"
PAGE = TOP / "man" / "gasday.1"

MADE = r'.\" Made by tests/manual.py from gasday.1.in and the help of the program: change these, and not this file.'

CONSTANT = re.compile(r'const LONG(?:_OF_(\w+))?: &str =\s*"((?:[^"\\]|\\.)*)";', re.S)
# An item's row or name, and the text that may stand behind it after two spaces or more.
ITEM = re.compile(r"  (\S.*?)(?: {2,}(.*))?$")
PLACE = re.compile(r'\.\\" (?P<verb>[A-Z]{2,})(?: (?P<help>\w+))?(?:: (?P<first>.+?)(?: \.\. (?P<last>.+))?)?$')
PLACES = ("HELP", "ROW", "WORDS", "REFUSED", "SYNOPSIS", "COMMANDS", "OTHERS")
NOTES = ("BOLD", "PARAGRAPH")
FORM = re.compile(r"\b[a-z]+(?:,[A-Z]+)+\b")
REFUSED = re.compile(r"\brefused,([a-z]+),(\d+),([A-Z]\w+)")
SENTENCE = re.compile(r"(?<=\.) (?=[A-Z])")
EXAMPLE = "Example: "
# What is written as it stands on a command line, word by word, and what is filled in.
CALLED = re.compile(r"((?:--)?[a-z][a-z-]*(?: (?:--)?[a-z][a-z-]*)*)|([A-Z]+)")
# How commands begin that stand in a help as examples.
COMMANDS = ("gasday ", "TZ=")


@dataclass(frozen=True)
class Part:
    """A title or a paragraph of a help, or an item of its lists with its text."""

    kind: Literal["title", "paragraph", "item"]
    lead: str
    text: str = ""

    def begins(self, words: str) -> bool:
        """Whether it begins with these words, of which the last may not go on."""
        return re.match(rf"{re.escape(words)}(?!\w)", self.lead) is not None

    def whole(self) -> str:
        return f"{self.lead} {self.text}".rstrip()


# The helps.


def helps_in(source: str) -> dict[str, str]:
    """The long help of the program and of each command."""
    return {(name or "program").lower(): unescaped(literal) for name, literal in CONSTANT.findall(source)}


def parts_of_block(lines: list[str]) -> Iterator[Part]:
    """The parts of lines between empty ones. The first is a title where a colon ends it."""
    if lines[0].endswith(":") and not lines[0].startswith(" "):
        yield Part("title", lines[0].removesuffix(":"))
        lines = lines[1:]
    part: Part | None = None
    for line in lines:
        item = ITEM.match(line) if not line.startswith("   ") else None
        if item or part is None or line.startswith(" ") != (part.kind == "item"):
            if part:
                yield part
            part = Part("item", item[1], item[2] or "") if item else Part("paragraph", line.strip())
        elif part.kind == "item":
            part = Part("item", part.lead, f"{part.text} {line.strip()}".strip())
        else:
            part = Part("paragraph", f"{part.lead} {line}")
    if part:
        yield part


def parts_of(text: str) -> list[Part]:
    """The parts of a help."""
    return [part for block in re.split(r"\n{2,}", text) for part in parts_of_block(block.split("\n"))]


def listed(text: str) -> list[Part]:
    """The items of a help, without commands that are examples."""
    return [part for part in parts_of(text) if part.kind == "item" and not part.lead.startswith(COMMANDS)]


# How words look in the manual.


def literal(words: str) -> str:
    """Words that a reader may copy."""
    for plain, written in (("\\", r"\e"), ("-", r"\-"), ("'", r"\(aq"), ("^", r"\(ha"), ("~", r"\(ti")):
        words = words.replace(plain, written)
    return words


def prose(words: str) -> str:
    """Words of a sentence: a hyphen is one only between small letters."""
    words = re.sub(r"(?<![a-z])-|-(?![a-z])", r"\\-", words.replace("\\", r"\e"))
    return words.replace("^", r"\(ha").replace("~", r"\(ti")


def bold(words: str) -> str:
    return rf"\fB{words}\fR"


def form(row: str) -> str:
    """The form of a row: what is filled in is italic, and all else bold."""
    pieces = re.split(r"\b([A-Z][A-Z0-9]*)(?=,|$)", row)
    return "".join(rf"\fI{it}\fR" if k % 2 else bold(literal(it)) for k, it in enumerate(pieces) if it)


def called(words: str) -> str:
    """A way to call a command: what is filled in is italic, and what is written so bold."""
    return CALLED.sub(lambda it: bold(literal(it[1])) if it[1] else rf"\fI{it[2]}\fR", words)


def quoted(words: str) -> str:
    """Words as one argument of a macro."""
    return f'"{words}"' if " " in words else words


@dataclass
class Notes:
    """How words of the help look: notes of the source, those that fitted somewhere, and the kinds of rows."""

    kinds: str
    bolds: list[str] = field(default_factory=list)
    paragraphs: list[str] = field(default_factory=list)
    fitted: set[str] = field(default_factory=set)

    def noted(self, sentence: str) -> str:
        """A sentence with what the notes want bold."""
        for note in self.bolds:
            words = prose(re.sub(r"\[(.*?)\](?:\(\d\))?", r"\1", note))
            if words in sentence:
                self.fitted.add(note)
                sentence = sentence.replace(words, re.sub(r"\[(.*?)\]", lambda it: bold(it[1]), prose(note)))
        return sentence

    def styled(self, sentence: str) -> str:
        """A sentence as a line of the manual: an example, forms, kinds before the word row and what is noted are bold."""
        if sentence.startswith(EXAMPLE):
            return EXAMPLE + bold(literal(sentence.removeprefix(EXAMPLE)))
        line = FORM.sub(lambda it: form(it[0]), self.noted(prose(sentence)))
        one = rf"(?:{self.kinds})"
        kinds = re.compile(rf"\b{one}(?:, {one})*(?: (?:and|or) {one})?(?= rows?\b)")
        line = kinds.sub(lambda it: re.sub(one, r"\\fB\g<0>\\fR", it[0]), line)
        return rf"\&{line}" if line.startswith((".", "'")) else line

    def lines(self, text: str) -> Iterator[str]:
        """A text, each sentence in a line."""
        for sentence in SENTENCE.split(text) if text else []:
            for note in self.paragraphs:
                if sentence.startswith(note):
                    self.fitted.add(note)
                    yield ".PP"
            yield self.styled(sentence)

    def idle(self) -> list[str]:
        return [note for note in self.bolds + self.paragraphs if note not in self.fitted]


def kinds_in(helps: dict[str, str]) -> str:
    """The kinds of rows that the helps have, as alternatives; those first that begin with others."""
    leads = (part.lead for text in helps.values() for part in listed(text))
    return "|".join(sorted({lead.partition(",")[0] for lead in leads if "," in lead and " " not in lead}, reverse=True))


# The places.


class Manual:
    """The manual as it is made, line by line, and what of the helps stands in it."""

    def __init__(self, helps: dict[str, str], notes: Notes, others: list[Command]) -> None:
        self.helps, self.notes, self.others = helps, notes, others
        self.made: list[str] = [MADE]
        self.taken: set[str] = set()

    def text_of(self, name: str) -> str:
        if name not in self.helps:
            raise Fault(f"{HELP.name} has no long help of {name}")
        return self.helps[name]

    def parts(self, name: str, first: str, last: str) -> None:
        """The parts from the one that begins with the first words to the one that begins with the last."""
        parts = parts_of(self.text_of(name))
        starts = [k for k, part in enumerate(parts) if part.begins(first)]
        if len(starts) != 1:
            raise Fault(f"the help of {name} has {len(starts)} parts that begin with: {first}")
        stop = next((k for k, part in enumerate(parts) if k >= starts[0] and part.begins(last)), -1)
        if stop < 0:
            raise Fault(f"the help of {name} has no part behind {first} that begins with: {last}")
        for part in parts[starts[0] : stop + 1]:
            self.part(part)

    def part(self, part: Part) -> None:
        self.taken.add(part.whole())
        if part.kind == "title":
            self.made.append(f".SS {quoted(prose(part.lead))}")
        elif part.kind == "item":
            self.made += [f".IP {quoted(form(part.lead))}", *self.notes.lines(part.text)]
        else:
            if not self.made[-1].startswith((".SH", ".SS", ".PP")):
                self.made.append(".PP")
            self.made += self.notes.lines(part.lead)

    def row(self, name: str, begin: str) -> None:
        """A heading with the one form of a row that begins so."""
        text = self.text_of(name)
        found = {it[0] for it in re.finditer(rf"(?<![\w,]){re.escape(begin)}(?:,\w+)+", text)}
        if len(found) != 1:
            raise Fault(f"the help of {name} has {len(found)} forms of a row that begin with: {begin}")
        self.taken |= found
        self.made.append(f".IP {form(found.pop())}")

    def words(self, name: str, first: str, last: str) -> None:
        """The words from the first to the last, as a sentence."""
        text = " ".join(self.text_of(name).split())
        start, stop = text.find(first), text.find(last, text.find(first))
        if text.count(first) != 1 or stop < 0:
            raise Fault(f"the help of {name} has not once the words: {first} .. {last}")
        words = text[start : stop + len(last)]
        self.taken.add(words)
        self.made += self.notes.lines(words[0].upper() + words[1:] + ("" if words[-1] in ".:" else "."))

    def refused(self) -> None:
        """The refusals by number of each call that has them as rows."""
        calls: dict[str, list[str]] = {}
        for text in self.helps.values():
            for row in REFUSED.finditer(text):
                calls.setdefault(row[1], []).append(f"{row[2]} {row[3]}")
                self.taken.add(row[0])
        for call, refusals in calls.items():
            self.made += [f".IP {bold(call)}", ", ".join(refusals)]

    def described(self) -> None:
        """What each command does that the source has no heading for."""
        for command in self.others:
            for way in forms(command):
                self.made += [f".IP {quoted(called(way.words.removesuffix(' [TEXT]...')))}", *self.notes.lines(f"{way.about}.")]

    def whole_helps(self) -> None:
        """The helps of these commands, without the examples at their end."""
        for command in self.others:
            self.made.append(f".SS {command.name.capitalize()}")
            text = re.split(r"\n{2,}Examples?:\n", self.text_of(command.name))[0]
            for part in parts_of(text):
                self.part(part)

    def place(self, place: re.Match[str]) -> None:
        """What stands at a place."""
        name, first = place["help"] or "", place["first"] or ""
        match place["verb"]:
            case "HELP":
                self.parts(name, first, place["last"] or first)
            case "ROW":
                self.row(name, first)
            case "WORDS":
                self.words(name, first, place["last"] or first)
            case "SYNOPSIS":
                self.made += [called(f"gasday {way.words}") for command in commands() for way in forms(command)]
            case "COMMANDS":
                self.described()
            case "OTHERS":
                self.whole_helps()
            case _:
                self.refused()

    def missing(self) -> Iterator[str]:
        """The items of the helps that stand nowhere in the manual."""
        kinds = {it.partition(",")[0] for it in self.taken}
        for name, text in self.helps.items():
            for item in listed(text):
                stands = item.lead in self.taken or item.whole() in self.taken
                if not stands and (item.text or item.lead.partition(",")[0] not in kinds):
                    yield f"{name}: {item.whole()}"


def lines_of(source: str) -> Iterator[str | re.Match[str]]:
    """The lines of the manual's source, places and notes among them, without other comments."""
    for line in source.splitlines():
        place = PLACE.match(line)
        if place and place["verb"] in PLACES + NOTES:
            yield place
        elif re.match(r'\.\\" [A-Z]{2,}\b', line):
            raise Fault(f"{SOURCE.name}: no place, no note and no comment: {line}")
        elif not line.startswith('.\\"'):
            yield line


def made_of(source: str, help_source: str) -> str:
    """The manual that is made of its source and the source of the help."""
    helps, lines = helps_in(help_source), list(lines_of(source))
    noted = [(it["verb"], it["first"]) for it in lines if not isinstance(it, str) and it["verb"] in NOTES]
    bolds, paragraphs = ([words for verb, words in noted if verb == kind] for kind in NOTES)
    others = [it for it in commands() if not re.search(rf'^\.IP "?\\fB{it.name}\b', source, re.M)]
    manual = Manual(helps, Notes(kinds_in(helps), bolds, paragraphs), others)
    for line in lines:
        if isinstance(line, str):
            manual.made.append(line)
        elif line["verb"] in PLACES:
            manual.place(line)
    faults = [f"{SOURCE.name} has no place for what a help has, {it}" for it in manual.missing()]
    faults += [f"{SOURCE.name}: no words of the help fit the note: {it}" for it in manual.notes.idle()]
    if faults:
        raise Fault("\n".join(faults))
    return "\n".join(manual.made) + "\n"


# The comparison.


def sections(page: str) -> dict[str, list[str]]:
    """The sections of a page and their parts, in order, by heading; what stands before the first is its head."""
    found: dict[str, list[str]] = {}
    name, above = "head", ""
    for line in page.splitlines():
        if line.startswith((".SH ", ".SS ")):
            heading = line[4:].strip('"')
            above = heading if line.startswith(".SH ") else above
            name = heading if heading == above else f"{above}: {heading}"
        found.setdefault(name, []).append(line)
    return found


def differences(made: str, page: str) -> list[str]:
    """For each section of either what differs, or nothing."""
    wanted, found = sections(made), sections(page)
    results = []
    for name in [*wanted, *(name for name in found if name not in wanted)]:
        here, there = found.get(name, []), wanted.get(name, [])
        lines = difflib.unified_diff(here, there, "man/gasday.1", "as it would be made", n=2, lineterm="")
        results.append("\n".join([f"FAIL {name}", *lines]) if here != there else "")
    if not any(results) and made != page:
        results.append("FAIL the sections stand in another order, or the end of a line differs")
    return results


def page_differences(files: Files) -> list[str]:
    """How the page differs from how it would be made."""
    return differences(files[PAGE], PAGE.read_text(encoding="utf-8") if PAGE.exists() else "")


def made() -> Files:
    """The page as it is made."""
    return {PAGE: made_of(SOURCE.read_text(encoding="utf-8"), HELP.read_text(encoding="utf-8"))}


if __name__ == "__main__":
    sys.exit(run(__doc__, made, page_differences))
