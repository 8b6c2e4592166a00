#!/usr/bin/env python3
"""check_audited.py [make | --list | --read [PATH | COMMAND..]]

Finds the files of definitions that the statements of eight paths reach (below: PATHS), and compares them with `docs/AUDIT.md`:
each file that is reached stands there exactly once, with the paths that reach it, in the section of the first of them; each
that stands there is reached; the counts of lines are right, and so are the types of the program and the modules of the kit
that the definitions name. With `--list` it prints the files that all paths reach, with their lines; with the name of a path
behind it (`Best`, `Headline`, `Checks`, `Days`, `Archives`, `Offices`, `Books`, `Rounds`) those of that path, and with commands
(such as `CheckBest CheckCut`) those that are reached by these commands of `gasday_part` alone. With `--read` and the same words
it prints
what has to be read of these files, in the document's order: each definition that is reached, with the comments before it, and
neither what the file imports nor what else it defines.

What counts as reached:

- The roots are the words of the `requires` and `ensures` clauses, not the other `ghost use` lines of the file.
- From there it goes definition by definition, not file by file: a definition reaches the names that stand in it, and the
  header of the `module` around it. A name that a pattern or a λ binds anew still counts as the imported one, so that
  the list may be too long. Of a file that is reached by one definition all lines are counted; beside that sum stands how many
  lines `--read` prints of it, without empty ones.
- A type of the program (`specs.declared`, or a type of the signature) reaches what its fields are seen as: types in turn,
  or, where one has a `Model`, the definitions of its `Value` and its `view`. Of a trait of the program it is its ghosts.
- With commands, the clauses for other commands and other forms of a text are left out, and nothing else is.

With `make` it writes into the document what it counts: of each file that stands there its lines and, where it stays in its section,
its paths; and the sums. What stands there by hand are files, types and modules by name.

It also holds `docs/DEFINITIONS.md` against the files: each that a heading names behind its crate is there, and each name behind
that of a file (`Schedule.IsAllowed`) is defined in a file of this name.

What differs is printed. The last line is 'N passed, M failed', and the exit status is 0 only where none failed.
"""

import re
import sys
from collections import defaultdict
from functools import cache
from pathlib import Path

HOME = Path(__file__).resolve().parent.parent
CRATES = HOME / "crates"
DOCUMENT = HOME / "docs" / "AUDIT.md"
DEFINITIONS = HOME / "docs" / "DEFINITIONS.md"
ANSWER, WRITE = ("gasday_part", "answer_of"), ("gasday_part", "write_answer")
CHECK_ANSWER = ("gasday_part", "check_answer")
ARCHIVES = tuple(("gasday_archive", name) for name in ("answer_to", "audit_archive", "audit_postings"))
ANSWER_OFFICE = ("gasday_office", "answer_office")
LAWS_OF_BOOKS = ("book_is_day", "kept_book_is_day", "served_book_is_day")
BOOKS = tuple(("gasday_live", name) for name in ("serve_book", "audit_book", "print_book", *LAWS_OF_BOOKS))
# Each path by its letter: its name, its statements, and the commands that it is for.
PATHS = {
    "a": ("Best", (("gd_rules", "prices_show_best"), ("gd_rules", "cut_forbids")), ()),
    "b": ("Headline", (("gd_machine", "every_day_holds"),), ()),
    "c": ("Checks", (ANSWER, WRITE, CHECK_ANSWER), ("CheckBest", "CheckCut")),
    "d": ("Days", (ANSWER, WRITE), ("Day",)),
    "e": ("Archives", (*ARCHIVES, WRITE), ()),
    "f": ("Offices", (ANSWER_OFFICE, WRITE), ()),
    "g": ("Books", BOOKS, ()),
    "h": ("Rounds", (("gasday_part", "ask_text"), ("gasday_live", "ask_book")), ()),
}

USE = re.compile(r"^\s*(?:ghost )?use (Rattle\.[\w.]+?)(?:\.\{([^}]*)\}| as (\w+));?$")
SIGNATURE = re.compile(r"^( *)(?:(?:abbrev|unfoldable)(?: pub)?|(?:pub )?record|(?:pub )?data) (?!\{)(\S+)")
MODULE = re.compile(r"^( *)module ")
CONSTRUCTOR = re.compile(r"^\s+(\S+) :")
WORD = re.compile(r"[^\s(){};,]+")
TYPE = re.compile(r"^(?:pub(?:\(crate\))? )?(?:struct|enum|trait|type) (\w+)", re.M)
IMPORT = re.compile(r"^use ([\w:]+?)(?:::\{([^}]*)\}|::(\w+));", re.M)
GHOSTS = ("Value", "view")
FORM = re.compile(r"^form_of (command\.\w+) = (form\.\w+)$", re.M)
CHOICE = re.compile(r"\b(?:command|form)\.\w+")


@cache
def forms():
    """The form of text that each command reads: with the names of these commands `--list` and `--read` may be called."""
    return dict(FORM.findall((CRATES / "gasday_part/specs/Answers.antt").read_text()))


def words_of(text):
    """The words of a text without comments; of `a.b` also `a`, and with `do` also the step that it stands for."""
    found = {word.rstrip(".") for word in WORD.findall(re.sub(r"(?m)(^|\s)--.*$", "", text))}
    return found | {word.split(".")[0] for word in found} | ({">>="} if "do" in found else set())


class Imports:
    """The names that `use` lines bring in, each with its path and its name there."""

    def __init__(self, lines):
        self.names, self.modules = {}, {}
        for line in lines:
            match = USE.match(line)
            if match and match[3]:
                self.modules[match[3]] = match[1]
            for item in (match[2].split(",") if match and match[2] else []):
                there, _, here = item.strip().partition(" as ")
                if there:
                    self.names[here or there] = (match[1], there)

    def used_by(self, words):
        """Path and name of each import that the words use."""
        for here, target in self.names.items():
            if all(part in words for part in here.split("◌") if part):
                yield target
        for word in words:
            first, _, rest = word.partition(".")
            if first in self.modules and rest:
                yield self.modules[first], rest.split(".")[0]


class SpecFile:
    """A file of definitions: the text of each, and what it imports."""

    def __init__(self, path):
        self.path = path
        lines = path.read_text().split("\n")
        self.imports = Imports(lines)
        self.blocks, self.owner = {}, {}
        self.split([line for line in lines if not USE.match(line)])

    def split(self, lines):
        headers, name = [], None
        for line in lines:
            depth = len(line) - len(line.lstrip())
            if line.strip():
                headers = [header for header in headers if header[0] < depth]
            signature = SIGNATURE.match(line)
            if MODULE.match(line):
                headers.append((depth, line))
                name = None
            elif signature:
                name = signature[2]
                self.blocks[name] = [header for _, header in headers]
                self.owner[name] = name
            elif name and re.match(r"\s", line) and CONSTRUCTOR.match(line):
                self.owner.setdefault(CONSTRUCTOR.match(line)[1], name)
            if name:
                self.blocks[name].append(line)

    def local(self, words):
        """The definitions of this file that the words use."""
        for name, owner in self.owner.items():
            if all(part in words for part in name.split("◌") if part):
                yield owner

    def paragraphs(self):
        """What stands between empty lines, but for what is imported: its lines, and the definitions that begin in it."""
        for text in re.split(r"\n\s*\n", self.path.read_text().rstrip("\n")):
            lines = [line for line in text.split("\n") if not USE.match(line)]
            yield lines, {match[2] for line in lines if (match := SIGNATURE.match(line))}

    def to_be_read(self, names):
        """The paragraphs that have to be read of a file of which these definitions are reached: with what it says of itself."""
        goes_on = True
        for lines, begun in self.paragraphs():
            if begun:
                goes_on = bool(begun & names)
            if lines and (goes_on or any(map(MODULE.match, lines))):
                yield lines


@cache
def spec_file(path):
    return SpecFile(path)


class Sources:
    """The types and traits that the crates declare."""

    def __init__(self):
        self.texts, self.places = {}, {}
        for path in sorted(CRATES.glob("*/src/**/*.rt")):
            crate = path.relative_to(CRATES).parts[0]
            self.texts[path] = path.read_text()
            for name in TYPE.findall(self.texts[path]):
                self.places.setdefault((crate, name), path)

    def resolve(self, path, name):
        """The crate of the type that a name means in a source file, or None where the program declares none."""
        crate = path.relative_to(CRATES).parts[0]
        if self.places.get((crate, name)) == path:
            return crate, name
        for place, several, one in IMPORT.findall(self.texts[path]):
            for item in (several or one).split(","):
                there, _, here = item.strip().partition(" as ")
                if (here or there.split("::")[-1]) == name:
                    head = place.split("::")[0]
                    found = (crate if head == "crate" else head, there.split("::")[-1])
                    return found if found in self.places else None
        return None

    def item(self, path, head):
        """The lines from the one that matches up to a closing brace in the first column, or that line where it ends there."""
        lines = self.texts[path].split("\n")
        for number, line in enumerate(lines):
            if re.match(head, line):
                if line.endswith((";", "}")):
                    return [line]
                return lines[number : next(k for k in range(number, len(lines)) if lines[k] in ("}", ");")) + 1]
        return []


def ghost(lines, name):
    """What stands in the braces of a ghost item."""
    text = "\n".join(lines)
    match = re.search(rf"^\s*ghost {name}(?: =|:) \{{(.*?)\}};", text, re.M | re.S)
    return match[1] if match else ""


class Reached:
    """What is reached: definitions by file, types of the program and modules of the kit by crate."""

    def __init__(self, commands=()):
        chosen = {f"command.{name}" for name in commands}
        self.commands, self.sources = chosen | {forms()[command] for command in chosen}, Sources()
        self.files, self.kit, self.types = defaultdict(set), defaultdict(set), defaultdict(set)
        self.missing = set()

    def root(self, crate, function):
        """The clauses of a public function, and the types and traits of its signature."""
        head = rf"pub fn {function}[<(]"
        path = next(p for p, text in self.sources.texts.items()
                    if p.is_relative_to(CRATES / crate) and re.search(rf"^{head}", text, re.M))
        lines = self.sources.texts[path].split("\n")
        start = next(k for k, line in enumerate(lines) if re.match(head, line))
        signature = lines[start : next(k for k in range(start, len(lines)) if lines[k] in ("{", "{}"))]
        clause = next(k for k, line in enumerate(signature) if re.match(r"\s+(requires|ensures) ", line))
        self.imported(Imports(lines), words_of("\n".join(signature[clause:])), (crate, function))
        for name in set(re.findall(r"\b[A-Z]\w+", "\n".join(signature[:clause]))):
            self.program_type(self.sources.resolve(path, name))

    def imported(self, imports, words, why):
        for path, name in imports.used_by(words):
            self.path(path, name, why)

    def path(self, path, name, why):
        """A name under an imported path: of a type of the program, of a file of definitions, or of the kit."""
        crate, *rest = path.split(".")[1:]
        if not (CRATES / crate).exists():
            self.kit[crate].add(".".join(rest[rest[0] == "specs" :]).removesuffix(".TheVariants"))
        elif rest[1] == "declared":
            self.declared(crate, rest[2:], name)
        else:
            self.defined(crate, rest[1:], name, why)

    def declared(self, crate, rest, name):
        kind = [part for part in rest if part[0].isupper() and not part.startswith("The")]
        if rest[-1] == "TheConstants":
            self.types[crate].add(name)
        else:
            self.program_type((crate, kind[-1] if kind else name))

    def defined(self, crate, rest, name, why):
        """A definition of a file; the path may go on with the type whose constructors it names."""
        for length in range(len(rest), 0, -1):
            path = CRATES / crate / "specs" / ("/".join(rest[:length]) + ".antt")
            if path.exists():
                self.definition(path, rest[length] if length < len(rest) else name, why)
                return
        self.missing.add(f"{crate}: {'.'.join(rest)}")

    def definition(self, path, name, why):
        file = spec_file(path)
        name = file.owner.get(name)
        if name is None:
            self.missing.add(f"{path.relative_to(HOME)}: {name} of {why}")
        elif name not in self.files[path]:
            self.files[path].add(name)
            words = words_of("\n".join(filter(self.counts, file.blocks[name])))
            self.imported(file.imports, words, (path, name))
            for other in file.local(words):
                self.definition(path, other, (path, name))

    def counts(self, line):
        """Whether a line is of one of the commands asked for, or of the form of its text."""
        chosen = CHOICE.findall(line.split(" = ")[0]) if self.commands and " = " in line else []
        return not chosen or bool(self.commands & set(chosen))

    def program_type(self, found):
        """A type or trait of the program, and what it is seen as."""
        if found is None or found[1] in self.types[found[0]]:
            return
        crate, name = found
        path = self.sources.places.get(found)
        if path is None:
            self.missing.add(f"{crate}: type {name}")
            return
        self.types[crate].add(name)
        model = next((lines for p in self.sources.texts if p.is_relative_to(CRATES / crate)
                      if (lines := self.sources.item(p, rf"impl(<.*>)? Model for {name}\b"))), [])
        lines = self.sources.item(path, rf"(?:pub(?:\(crate\))? )?(?:struct|enum|trait|type) {name}\b")
        if model or re.match(r"(?:pub )?trait ", lines[0]):
            ghosts = re.findall(r"^\s*ghost (\w+)(?: =|:) ", "\n".join(lines), re.M) if not model else GHOSTS
            seen = "\n".join(ghost(model or lines, item) for item in ghosts)
            self.imported(Imports(self.sources.texts[path].split("\n") + (model or lines)), words_of(seen), found)
        else:
            fields = re.sub(r"//.*", "", "\n".join(lines))
            for field in set(re.findall(r"\b[A-Z]\w+", fields)):
                self.program_type(self.sources.resolve(path, field))


class Document:
    """What `docs/AUDIT.md` says: files with their lines and paths, by section, types, modules of the kit, and totals."""

    SECTION = re.compile(r"^## \((\w)\) ")
    FILE = re.compile(r"^- `(\w+)/(\w+\.antt)` \((\d+), ([a-h]+)\): \S")
    NAMES = re.compile(r"`(\w+)`: ((?:`[\w.]+`(?:, )?)+)")
    SUM = r"(\d+) files, ([\d,]+) lines, ([\d,]+) to be read\b"
    TOTAL = re.compile(rf"\*\*(?:Stop here \((\w)\)|(All)): {SUM}")
    # (of the table at the document's head)
    ROW = re.compile(rf"^\| \((\w)\) \|.*\| {SUM} \|$")

    def __init__(self, text):
        self.files, self.totals, self.heads, section = [], {}, {}, ""
        for line in text.split("\n"):
            if match := self.SECTION.match(line):
                section = match[1]
            if match := self.FILE.match(line):
                self.files.append((f"{match[1]}/specs/{match[2]}", int(match[3]), match[4], section))
            for letter, whole, *counts in self.TOTAL.findall(line):
                self.totals[letter or whole] = self.numbers(counts)
            if match := self.ROW.match(line):
                self.heads[match[1]] = self.numbers(match.groups()[1:])
        self.types, self.kit = self.names(text, "Types of the program"), self.names(text, "Modules of the kit")

    @staticmethod
    def numbers(counts):
        """Counts whose digits are grouped."""
        return tuple(int(count.replace(",", "")) for count in counts)

    def names(self, text, section):
        """The names by crate in a section, sorted."""
        body = re.split(r"\n## ", text.partition(f"\n## {section}\n")[2])[0]
        return {crate: sorted(re.findall(r"`([\w.]+)`", names)) for crate, names in self.NAMES.findall(body)}


def reach(roots, commands=()):
    """What the statements of these functions reach; with commands, what they reach for these."""
    reached = Reached(commands)
    for crate, function in roots:
        reached.root(crate, function)
    return reached


def whole():
    """What the statements of all paths reach."""
    return reach(dict.fromkeys(root for _, roots, _ in PATHS.values() for root in roots))


def sums_of(reached):
    """How many files are reached, how many lines they have, and how many of these have to be read."""
    lines = lines_of(reached)
    return len(lines), sum(lines.values()), read_lines(reached)


def letters_of(name, by_path):
    """The letters of the paths that reach a file."""
    return "".join(letter for letter, its in by_path.items() if name in its)


def lines_of(reached):
    """The files that are reached, with their lines."""
    return {str(path.relative_to(CRATES)): path.read_text().count("\n") for path in sorted(reached.files)}


def read_lines(reached):
    """How many lines have to be read of the files that are reached."""
    return sum(len(lines) for path, names in reached.files.items() for lines in spec_file(path).to_be_read(names))


def print_to_be_read(document, reached):
    """Prints what has to be read, in the document's order."""
    names = {str(path.relative_to(CRATES)): path for path in sorted(reached.files)}
    order = [row[0] for row in document.files if row[0] in names]
    for name in [*order, *sorted(set(names) - set(order))]:
        path = names[name]
        print(f"---- crates/{name}\n")
        for lines in spec_file(path).to_be_read(reached.files[path]):
            print("\n".join(lines) + "\n")


def file_faults(document, all_lines, by_path):
    """What differs in the files, file by file."""
    for name, lines in all_lines.items():
        letters = letters_of(name, by_path)
        found, want = [row for row in document.files if row[0] == name], (name, lines, letters, letters[:1])
        yield f"{name}: {want[1:]}, but the document has {found or 'nothing'}" if found != [want] else None
    for name in sorted({row[0] for row in document.files} - set(all_lines)):
        yield f"{name} stands there and is not reached"


def sum_faults(document, all_reached, reached_by_path):
    """What differs in the totals."""
    for name, reached in [*reached_by_path.items(), ("All", all_reached)]:
        want = sums_of(reached)
        yield f"{name}: {want}, but the document has {document.totals.get(name)}" if document.totals.get(name) != want else None
        if name in PATHS:
            head = document.heads.get(name)
            yield f"{name}: {want}, but the document's table has {head}" if head != want else None


def name_faults(kind, stand, reached):
    """What differs in names by crate."""
    for crate in sorted(set(stand) | set(reached)):
        want, found = sorted(reached.get(crate, ())), stand.get(crate, [])
        yield f"{kind} of {crate}: {', '.join(want)}; but the document has {', '.join(found)}" if want != found else None


def heading_faults(text):
    """The files that a heading of the definitions' document names behind their crate, and that aren't there."""
    for heading in re.findall(r"^## .*\((`\w+`.*)\)$", text, re.M):
        for crate, names in re.findall(r"`(\w+)`:([^;`]*)", heading):
            for name in re.findall(r"\w+", names):
                place = CRATES / crate / "specs" / f"{name}.antt"
                yield None if place.exists() else f"DEFINITIONS names {name} of {crate}, which isn't there"


def citation_faults(text):
    """The names that the definitions' document cites with their file, and that aren't defined in a file of this name."""
    for file, name in sorted(set(re.findall(r"`([A-Z]\w+)\.([\w◌]+)`", text))):
        places = CRATES.glob(f"*/specs/{file}.antt")
        is_there = any(name in spec_file(place).owner for place in places)
        yield None if is_there else f"DEFINITIONS cites {file}.{name}, which isn't there"


def listed(words):
    """What is reached by what these words name, or None where they name nothing."""
    named = {name: (roots, commands) for name, roots, commands in PATHS.values()}
    if not words:
        return whole()
    if len(words) == 1 and words[0] in named:
        return reach(*named[words[0]])
    return reach((ANSWER, WRITE), words) if {f"command.{word}" for word in words} <= set(forms()) else None


class Recount:
    """The document with what is counted anew."""

    def __init__(self, text, all_reached, reached_by_path):
        self.text = text
        self.lines, self.by_path = lines_of(all_reached), {letter: lines_of(its) for letter, its in reached_by_path.items()}
        self.sums = {name: sums_of(its) for name, its in [*reached_by_path.items(), ("All", all_reached)]}

    def made(self):
        """The whole document."""
        section, made = "", []
        for line in self.text.split("\n"):
            if match := Document.SECTION.match(line):
                section = match[1]
            made.append(self.line(line, section))
        return "\n".join(made)

    def line(self, line, section):
        if match := Document.FILE.match(line):
            name = f"{match[1]}/specs/{match[2]}"
            letters = letters_of(name, self.by_path)
            if name not in self.lines:
                return line
            kept = letters if letters.startswith(section) else match[4]
            return line.replace(f"({match[3]}, {match[4]})", f"({self.lines[name]}, {kept})", 1)
        if match := Document.ROW.match(line):
            return line.removesuffix(line[match.start(2):]) + f"{self.sum(match[1])} |"
        return Document.TOTAL.sub(self.total, line)

    def total(self, match):
        return match[0][:match.start(3) - match.start()] + self.sum(match[1] or match[2])

    def sum(self, name):
        files, lines, read = self.sums[name]
        return f"{files} files, {lines:,} lines, {read:,} to be read"


def main():
    reached = listed(sys.argv[2:]) if sys.argv[1:2] in (["--list"], ["--read"]) else None
    document = Document(DOCUMENT.read_text())
    if reached and sys.argv[1] == "--read":
        print_to_be_read(document, reached)
        return 0
    if reached:
        lines = lines_of(reached)
        print("".join(f"{count:5} crates/{name}\n" for name, count in lines.items()), end="")
        print(f"{sum(lines.values()):5} in {len(lines)} files")
        return 0
    if sys.argv[1:] not in ([], ["make"]):
        print(__doc__.strip())
        return 2
    reached = whole()
    reached_by_path = {letter: reach(roots, commands) for letter, (_, roots, commands) in PATHS.items()}
    if sys.argv[1:]:
        DOCUMENT.write_text(Recount(DOCUMENT.read_text(), reached, reached_by_path).made())
        return 0
    return checked(document, reached, reached_by_path)


def checked(document, reached, reached_by_path):
    """Prints what differs, and how much doesn't; the exit status."""
    all_lines = lines_of(reached)
    by_path = {letter: lines_of(its) for letter, its in reached_by_path.items()}
    results = [f"{name}: no such definition" for name in sorted(reached.missing)]
    results += file_faults(document, all_lines, by_path)
    results += sum_faults(document, reached, reached_by_path)
    results += name_faults("types", document.types, reached.types)
    results += name_faults("modules", document.kit, reached.kit)
    definitions = DEFINITIONS.read_text()
    results += [*heading_faults(definitions), *citation_faults(definitions)]
    faults = [result for result in results if result]
    print("".join(f"FAIL {fault}\n" for fault in faults), end="")
    print(f"{len(results) - len(faults)} passed, {len(faults)} failed")
    return 0 if len(results) > len(faults) and not faults else 1


if __name__ == "__main__":
    sys.exit(main())
