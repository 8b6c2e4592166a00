#!/usr/bin/env python3
r"""tool_pages.py make | check

The manual pages and the completions of the tools beside the program, which are the commands in companion/, with
companion/certificate.py as `gasday-certificate` and examples/audit as `gasday-audit`: man/TOOL.1, and completions/TOOL.bash,
_TOOL and TOOL.fish. They are made of what each tool tells with --help, and a page's examples of those in its document. `make`
writes them. `check` compares them with what `make` would write, and prints what differs, and what is there of a tool that isn't.
The last line is 'N passed, M failed', where N counts the files that are as they would be made, and the exit status is 0 only
where all are.

A help is read as argparse writes it, and else as a line of usage with paragraphs behind it. man/gasday.1 and the completions of
`gasday` itself are none of these: tests/manual.py makes that page.
"""

import os
import re
import subprocess
import sys
from collections.abc import Collection, Iterator
from dataclasses import dataclass, field
from pathlib import Path

sys.dont_write_bytecode = True

import made_files
from command_line import TOP, Fault
from manual import bold, literal, prose, quoted

MAN, COMPLETIONS, COMPANION = TOP / "man", TOP / "completions", TOP / "companion"

ABOUT = re.compile(r'^"""(.+?); (docs/\w+\.md) says more\."""$', re.M)
GROUP = re.compile(r"(\S.*):$")
ITEM = re.compile(r"  (\S.*?)(?: {2,}(\S.*))?$")
SUBCOMMAND = re.compile(r"    (\S+) {2,}(\S.*)$")
SENTENCE = re.compile(r"(?<=[.:]) (?=[A-Z]|docs/)")
STATUSES = re.compile(r"(?:Exit status:|The exit status is) ")
STATUS = re.compile(r"(?:^|[,;] (?:and )?)([0-9]) ")
BLOCK = re.compile(r"^```\n(.*?)^```$", re.M | re.S)
# How documents write the tools and the program where they are called from the top of the repository.
CALLED = {"./gasday ": "gasday ", "companion/gasday-": "gasday-", "examples/audit ": "gasday-audit ",
          "companion/certificate.py ": "gasday-certificate "}
# What stands for an argument that is neither a file nor one of some words.
FREE = ("N", "SECONDS", "ADDRESS", "HOST", "PORT", "ZONE", "SCENARIO", "NAME", "TOKEN", "DATE", "DAY", "BOOK", "CYCLE", "USER",
        "PARTY", "ROLE")
FOLDERS = ("FOLDER", "DIRECTORY")
MADE = "Made by tests/tool_pages.py of what {} --help tells: change that, and not this file."
NOT_PROVED = "This tool is tested, and not proved: what is proved is \\fBgasday\\fR(1)."


@dataclass(frozen=True)
class Item:
    """An argument or an option as a help has it, with its text."""

    words: str
    text: str

    def names(self) -> list[str]:
        """The names of an option; of an argument none."""
        return [part.split()[0] for part in self.words.split(", ") if part.startswith("-")]

    def value(self) -> str:
        """What stands for the value, or nothing where an option takes none."""
        parts = self.words.split(", ")[-1].split(maxsplit=1)
        return parts[-1].strip("[]").split()[0] if len(parts) > 1 or not self.names() else ""


@dataclass
class Help:
    """What a tool, or a command of it, tells with --help."""

    usage: str
    before: list[str] = field(default_factory=list)  # paragraphs before the arguments, and behind the options
    behind: list[str] = field(default_factory=list)
    groups: dict[str, list[Item]] = field(default_factory=dict)
    commands: dict[str, str] = field(default_factory=dict)

    def options(self) -> list[Item]:
        return [item for items in self.groups.values() for item in items if item.names()]

    def arguments(self) -> list[Item]:
        return [item for items in self.groups.values() for item in items if not item.names()]


@dataclass(frozen=True)
class Tool:
    name: str
    script: Path
    about: str
    document: str

    def words(self) -> list[str]:
        """How it is run here."""
        is_shell = self.script.read_bytes().startswith(b"#!/usr/bin/env bash")
        return ["bash" if is_shell else sys.executable, str(self.script)]


def launcher(path: Path) -> Tool:
    about = ABOUT.search(path.read_text())
    if not about:
        raise Fault(f"{path.name} doesn't begin with what it does and '; docs/NAME.md says more.'")
    return Tool(path.name, path, about[1][0].lower() + about[1][1:], about[2])


def tools() -> list[Tool]:
    others = [Tool("gasday-audit", TOP / "examples" / "audit", "checks an answer of `gasday solve` against its question",
                   "docs/GUIDE.md"),
              Tool("gasday-certificate", COMPANION / "certificate.py", "checks the prices or the cut of an answer by itself",
                   "docs/CERTIFICATES.md")]
    found = [launcher(path) for path in COMPANION.glob("gasday-*") if path.is_file()]
    return sorted(found + others, key=lambda tool: tool.name)


# What a help says.


def told(tool: Tool, *words: str) -> str:
    """What a tool tells with --help, in lines as long as they come."""
    plain = {"COLUMNS": "10000", "LC_ALL": "C.UTF-8", "NO_COLOR": "1", "PYTHONDONTWRITEBYTECODE": "1"}
    done = subprocess.run([*tool.words(), *words, "--help"], capture_output=True, text=True, timeout=600,
                          env={**os.environ, **plain}, stdin=subprocess.DEVNULL)
    if done.returncode != 0 or done.stderr:
        raise Fault(f"{' '.join([tool.name, *words])} --help ends with status {done.returncode}: {done.stderr.strip()}")
    return done.stdout


def items_of(lines: list[str], commands: dict[str, str]) -> list[Item]:
    """The arguments or options of a group; commands go where they are asked for."""
    items: list[Item] = []
    for line in lines:
        item = ITEM.match(line) if not line.startswith("   ") else None
        command = SUBCOMMAND.match(line) if not line.startswith("     ") else None
        if item:
            items.append(Item(item[1], item[2] or ""))
        elif command:
            commands[command[1]] = command[2]
        else:
            items[-1] = Item(items[-1].words, f"{items[-1].text} {line.strip()}".strip())
    return items


def help_of(text: str, name: str) -> Help:
    """The parts of a help."""
    blocks = [block.split("\n") for block in re.split(r"\n{2,}", text.strip("\n"))]
    usage = blocks[0][0].removeprefix("usage: ").split()
    # (a script tells its file's name)
    begin = usage[:len(name.split())] if " ".join(usage).startswith(name) else usage[:1]
    found = Help(" ".join([name, *usage[len(begin):]]))
    for block in blocks[1:]:
        group = GROUP.match(block[0])
        if group and len(block) > 1 and all(line.startswith("  ") for line in block[1:]):
            found.groups[group[1]] = items_of(block[1:], found.commands)
        else:
            (found.behind if found.groups else found.before).append(" ".join(line.strip() for line in block))
    if not found.groups:
        found.groups = {"positional arguments": [Item(word, "") for word in usage[len(begin):]],
                        "options": [Item("--help", "show this help and exit")]}
    return found


# The manual page.


def marked(text: str) -> str:
    """A text whose pieces in backquotes are bold."""
    pieces = text.split("`")
    return "".join(bold(literal(it)) if k % 2 else prose(it) for k, it in enumerate(pieces) if it)


def lines_of(text: str) -> Iterator[str]:
    """A text, each sentence in a line."""
    for one in SENTENCE.split(text) if text else []:
        line = marked(one)
        yield rf"\&{line}" if line.startswith((".", "'")) else line


def sentence(text: str) -> str:
    """A text of a list as a sentence."""
    return text[:1].upper() + text[1:] + ("" if text.endswith(".") or not text else ".")


def form(words: str) -> str:
    """Words of usage: what is filled in is italic, and what is written so bold."""
    pieces = re.split(r"((?<![\w-])--?[a-z][a-z-]*|\b[A-Z][A-Z0-9]*\b|\b[a-z][a-z-]*\b)", words)
    styled = (rf"\fI{it}\fR" if it.isupper() else bold(literal(it)) if k % 2 else literal(it) for k, it in enumerate(pieces))
    return "".join(it for it in styled if it)


def synopsis(usage: str, name: str) -> Iterator[str]:
    """A line of usage, which may be broken behind each of its parts."""
    yield bold(literal(name))
    for part in re.findall(r"\[[^\]]*\](?:\])?|\S+(?: \[[^\]]* \.\.\.\])?", usage[len(name):]):
        yield rf"\&{form(part)}" if part.startswith(".") else form(part)


def paragraphs(texts: list[str]) -> Iterator[str]:
    for k, text in enumerate(texts):
        if k:
            yield ".PP"
        yield from lines_of(text)


def parted(texts: list[str]) -> tuple[list[str], str]:
    """The paragraphs of a help without what they say of the exit status, and that."""
    status, rest = "", []
    for text in texts:
        sentences = SENTENCE.split(text)
        at = next((k for k in range(len(sentences)) if STATUSES.match(" ".join(sentences[k:]))), None)
        if at is not None:
            # (what is told behind a colon is parted from it)
            end = at + (2 if sentences[at].endswith(":") else 1)
            status = STATUSES.sub("", " ".join(sentences[at:end]), count=1)
            sentences = sentences[:at] + sentences[end:]
        rest += [" ".join(sentences)] if sentences else []
    return rest, status


def statuses(text: str) -> Iterator[str]:
    """What each exit status says."""
    pieces = STATUS.split(text)
    if len(pieces) < 5 or pieces[0]:
        yield from lines_of(text)
        return
    for number, words in zip(pieces[1::2], pieces[2::2], strict=True):
        yield f".IP {number}"
        yield from lines_of(sentence(words.rstrip(" .,;")))


def groups(found: Help, level: str, but: Collection[str] = ()) -> Iterator[str]:
    """Arguments and options, group by group, but for groups of these titles."""
    for title, items in found.groups.items():
        shown = [item for item in items if (item.text or item.names()) and title not in but]
        if shown:
            words = "arguments" if title == "positional arguments" else title
            yield f".{level} {quoted(words.upper() if level == 'SH' else words)}"
        for item in shown:
            yield f".IP {quoted(form(item.words))}"
            yield from lines_of(sentence(item.text))


def helps_of(tool: Tool, *words: str) -> dict[tuple[str, ...], Help]:
    """What a tool tells, and what each command of it does, by the words that lead there."""
    found = help_of(told(tool, *words), " ".join([tool.name, *words]))
    helps = {words: found}
    for command in found.commands:
        helps |= helps_of(tool, *words, command)
    return helps


def listed(found: Help) -> Iterator[str]:
    """What each command does."""
    for command, text in found.commands.items():
        yield f".IP {bold(literal(command))}"
        yield from lines_of(sentence(text))


def commands_of(tool: Tool, helps: dict[tuple[str, ...], Help]) -> Iterator[str]:
    """The commands of a tool: what they do, the groups of options that all of them have, and each with its own."""
    theirs = {words: its for words, its in helps.items() if words}
    first = next(iter(theirs.values()))
    shared = [title for title in first.groups if title not in helps[()].groups and len(theirs) > 1
              and all(its.groups.get(title) == first.groups[title] for its in theirs.values())]
    yield ".SH COMMANDS"
    yield from listed(helps[()])
    for title in shared:
        yield f'.SH "OPTIONS OF ALL COMMANDS: {title.upper()}"'
        yield from list(groups(Help("", groups={title: first.groups[title]}), "SH"))[1:]
    for words, its in theirs.items():
        yield f'.SH "COMMAND {" ".join(words).upper()}"'
        yield from synopsis(its.usage, " ".join([tool.name, *words]))
        yield from [".PP", *paragraphs(its.before)] if its.before else []
        yield from groups(its, "SS", shared)
        yield from [".SS commands", *listed(its)] if its.commands else []


def examples(tool: Tool) -> list[str]:
    """The commands of the first block in the tool's document that calls it."""
    for block in BLOCK.findall((TOP / tool.document).read_text()):
        lines = block.splitlines()
        lines = [line.removeprefix("$ ") for line in lines if line.startswith("$ ") or not block.startswith("$ ")]
        for written, called in CALLED.items():
            lines = [line.replace(written, called) for line in lines]
        if any(re.search(rf"(^|\| ){tool.name} ", line) for line in lines):
            return [line for line in lines if line]
    return []


def page(tool: Tool) -> str:
    """The manual page of a tool."""
    helps, others = helps_of(tool), [other.name for other in tools() if other != tool]
    found = helps[()]
    texts, status = parted(found.before + found.behind)
    lines = [rf'.\" {MADE.format(tool.name)}', f'.TH {literal(tool.name.upper())} 1 "" gasday "User Commands"', ".nh", ".ad l"]
    lines += [".SH NAME", rf"{literal(tool.name)} \- {prose(tool.about.replace('`', ''))}"]
    lines += [".SH SYNOPSIS", *synopsis(found.usage, tool.name)]
    lines += [".SH DESCRIPTION", *paragraphs(texts), ".PP", NOT_PROVED]
    lines += groups(found, "SH")
    lines += commands_of(tool, helps) if found.commands else []
    if status:
        lines += ['.SH "EXIT STATUS"', *statuses(status)]
    shown = examples(tool)
    if shown:
        lines += [".SH EXAMPLES", ".nf", ".RS", *(rf"\&{literal(line)}" for line in shown), ".RE", ".fi"]
    lines += ['.SH "SEE ALSO"', f"The documents beside the program: README.md and {tool.document}.", ".PP"]
    lines += [", ".join(rf"\fB{literal(name)}\fR(1)" for name in ["gasday", *others])]
    return "\n".join(lines) + "\n"


# The completions.


def choices(value: str) -> str:
    """The words that a value may be, as the help has them in braces."""
    return " ".join(value[1:-1].split(",")) if value.startswith("{") else ""


def is_file(value: str) -> bool:
    return bool(value) and not choices(value) and value not in FREE


@dataclass(frozen=True)
class Offer:
    """What is offered behind a tool, or behind a command of it."""

    found: Help

    def options(self) -> list[Item]:
        return self.found.options()

    def words(self) -> str:
        """The commands, and the longest name of each option; that of the help last."""
        names = [max(option.names(), key=len) for option in self.options()]
        names.sort(key=lambda name: name == "--help")
        return " ".join([*self.found.commands, *names])

    def files(self) -> str:
        """How bash calls what the arguments are: files, folders, or neither."""
        values = [item.value() for item in self.found.arguments() if not self.found.commands]
        kinds = ["-d" if value in FOLDERS else "-f" for value in values if is_file(value)]
        return kinds[0] if kinds else ""


def offers(tool: Tool) -> dict[tuple[str, ...], Offer]:
    """What is offered behind the tool and each of its commands, by the words that lead there: two at the most."""
    offered = {words: Offer(its) for words, its in helps_of(tool).items()}
    if any(len(words) > 2 for words in offered):
        raise Fault(f"{tool.name} has commands of commands of commands")
    return offered


def bash_place(words: tuple[str, ...], offer: Offer) -> str:
    """Where on the command line something is offered: the number of the word at the cursor, and the first two."""
    number = str(len(words) + 1) if offer.found.commands else "*"
    return ":".join([number, *words, *["*"] * (2 - len(words))])


def in_bash(tool: Tool) -> str:
    """The completions for bash."""
    offered, function = offers(tool), "_" + tool.name.replace("-", "_")
    values = {name: option.value() for offer in offered.values() for option in offer.options() for name in option.names()}
    lines = [f"# Completions of {tool.name} for bash: source this file, or put it into share/bash-completion/completions as",
             f"# `{tool.name}`. {MADE.format(tool.name)}", "", f"{function}() {{",
             "    local word=${COMP_WORDS[COMP_CWORD]} before=${COMP_WORDS[COMP_CWORD - 1]} offered='' files=''",
             "    COMPREPLY=()"]
    if len(offered) > 1:
        lines += ["    case $COMP_CWORD:${COMP_WORDS[1]}:${COMP_WORDS[2]} in"]
        for words, offer in offered.items():
            files = f" files={offer.files()}" if offer.files() else ""
            lines.append(f"        {bash_place(words, offer)}) offered='{offer.words()}'{files} ;;")
        lines += ["    esac"]
    else:
        lines.append(f"    offered='{offered[()].words()}' files={offered[()].files()}")
    lines += ["    case $before in"]
    for files, names in (("-f", [name for name, value in values.items() if is_file(value) and value not in FOLDERS]),
                         ("-d", [name for name, value in values.items() if value in FOLDERS]),
                         ("", [name for name, value in values.items() if value in FREE])):
        if names or files == "-f":
            alternatives = " | ".join([*names, *([r"*[\<\>]*"] if files == "-f" else [])])
            lines.append(f"        {alternatives}) offered='' files={files} ;;")
    lines += [f"        {name}) offered='{choices(value)}' files= ;;" for name, value in values.items() if choices(value)]
    lines += ["    esac", "    mapfile -t COMPREPLY < <(compgen -W \"$offered\" -- \"$word\")",
              "    if [ -n \"$files\" ]; then", "        compopt -o filenames 2> /dev/null",
              "        mapfile -t -O \"${#COMPREPLY[@]}\" COMPREPLY < <(compgen \"$files\" -- \"$word\")", "    fi", "}", "",
              f"complete -F {function} {tool.name}"]
    return "\n".join(lines) + "\n"


def zsh_word(text: str) -> str:
    """A text in single quotes."""
    return "'" + text.replace("'", "'\\''") + "'"


def zsh_text(text: str) -> str:
    """A text in a description."""
    return re.sub(r"([\[\]:\\])", r"\\\1", text.replace("`", ""))


def zsh_value(value: str) -> str:
    """What zsh offers for a value."""
    label = "value" if choices(value) else value.lower()
    action = f"({choices(value)})" if choices(value) else "_files -/" if value in FOLDERS else "_files" if is_file(value) else ""
    return f":{label}:{action}"


def zsh_words(offer: Offer) -> Iterator[str]:
    """The specifications of options and arguments."""
    for option in offer.options():
        names = option.names()
        value = zsh_value(option.value()) if option.value() else ""
        if "--help" in names:
            yield zsh_word(f"(- *)--help[{zsh_text(option.text)}]")
        else:
            yield from (zsh_word(f"{name}[{zsh_text(option.text)}]{value}") for name in names)
    if not offer.found.commands:
        for place, item in enumerate(offer.found.arguments(), 1):
            many = f"{item.value()} ..." in offer.found.usage
            yield zsh_word(f"{'*' if many else place}{zsh_value(item.value())}")


def zsh_behind(offered: dict[tuple[str, ...], Offer], words: tuple[str, ...], indent: str) -> Iterator[str]:
    """What is offered behind these words, and behind the commands that follow them."""
    offer, joint, state = offered[words], f" \\\n{indent}    ", f"behind{len(words)}"
    if not offer.found.commands:
        yield indent + joint.join(["_arguments", *zsh_words(offer)])
        return
    commands = " ".join(f'{name}\\:"{zsh_text(text)}"' for name, text in offer.found.commands.items())
    yield indent + joint.join(["_arguments -C", *zsh_words(offer), zsh_word(f"1:command:(({commands}))"), f"'*:: :->{state}'"])
    yield f"{indent}[[ $state == {state} ]] || return"
    yield f"{indent}case $words[1] in"
    for name in offer.found.commands:
        yield f"{indent}    {name})"
        yield from zsh_behind(offered, (*words, name), indent + "        ")
        yield f"{indent}        ;;"
    yield f"{indent}esac"


def in_zsh(tool: Tool) -> str:
    """The completions for zsh."""
    function = "_" + tool.name.replace("-", "_")
    lines = [f"#compdef {tool.name}",
             f"# Completions of {tool.name} for zsh: put this file into a folder of $fpath. {MADE.format(tool.name)}", "",
             f"{function}() {{", "    local context state state_descr line", "    typeset -A opt_args",
             *zsh_behind(offers(tool), (), "    ")]
    return "\n".join([*lines, "}", "", f'{function} "$@"']) + "\n"


def fish_text(text: str) -> str:
    return "'" + text.replace("`", "").replace("\\", "\\\\").replace("'", "\\'") + "'"


def fish_value(value: str) -> str:
    """What fish offers for a value."""
    if not value:
        return ""
    if choices(value):
        return f" -x -a '{choices(value)}'"
    if value in FOLDERS:
        return " -x -a '(__fish_complete_directories)'"
    return " -r -F" if is_file(value) else " -x"


def fish_place(words: tuple[str, ...], offer: Offer) -> str:
    """Where on the command line something is offered: behind these words, and before the commands that follow them."""
    if not words:
        return " -n __fish_use_subcommand" if offer.found.commands else ""
    seen = [f"__fish_seen_subcommand_from {word}" for word in words]
    seen += [f"not __fish_seen_subcommand_from {' '.join(offer.found.commands)}"] if offer.found.commands else []
    return f" -n '{'; and '.join(seen)}'"


def in_fish(tool: Tool) -> str:
    """The completions for fish."""
    offered, begin = offers(tool), f"complete -c {tool.name}"
    lines = [f"# Completions of {tool.name} for fish: put this file into a folder of $fish_complete_path.",
             f"# {MADE.format(tool.name)}", ""]
    if len(offered) > 1 or offered[()].files() != "-f":
        lines.append(f"{begin} -f")
    for words, offer in offered.items():
        place = fish_place(words, offer)
        lines += [f"{begin}{place} -a {command} -d {fish_text(text)}" for command, text in offer.found.commands.items()]
        if offer.files() == "-d":
            lines.append(f"{begin}{place} -a '(__fish_complete_directories)'")
        elif offer.files() and words:
            lines.append(f"{begin}{place} -F")
        for option in offer.options():
            names = "".join(f" -l {it[2:]}" if it.startswith("--") else f" -s {it[1:]}" for it in option.names())
            lines.append(f"{begin}{place}{names}{fish_value(option.value())} -d {fish_text(option.text)}")
    return "\n".join(lines) + "\n"


# All files, and the comparison.


def made() -> dict[Path, str]:
    """Each file as it is made."""
    files = {}
    for tool in tools():
        files[MAN / f"{tool.name}.1"] = page(tool)
        files[COMPLETIONS / f"{tool.name}.bash"] = in_bash(tool)
        files[COMPLETIONS / f"_{tool.name}"] = in_zsh(tool)
        files[COMPLETIONS / f"{tool.name}.fish"] = in_fish(tool)
    return files


def differences(files: dict[Path, str]) -> list[str]:
    """For each file what differs, or nothing, and each that is of no tool."""
    there = [*MAN.glob("gasday-*"), *COMPLETIONS.glob("gasday-*"), *COMPLETIONS.glob("_gasday-*")]
    others = [f"FAIL {path.relative_to(TOP)} is of no tool that is there" for path in there if path not in files]
    return made_files.differences(files) + others


if __name__ == "__main__":
    sys.exit(made_files.run(__doc__, made, differences))
