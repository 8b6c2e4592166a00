"""The command line of the program: its commands with their options and arguments, as crates/gasday_words has them.

They are read of the source of what clap is told (`src/line.rt`); the words that an argument may be, and which options exclude each
other, of what makes an order of them (`src/order.rt`).
"""

import re
from collections.abc import Iterator
from dataclasses import dataclass
from functools import cache
from pathlib import Path

TOP = Path(__file__).resolve().parent.parent
ESCAPE = re.compile(r"\\(?:\n\s*|.)")
ESCAPES = {'\\"': '"', "\\'": "'", "\\\\": "\\", "\\n": "\n"}
WORDS = TOP / "crates" / "gasday_words" / "src"
CONSTANT = re.compile(r'^const (\w+): &str =\s*"((?:[^"\\]|\\.)*)";', re.M | re.S)
FUNCTION = re.compile(r"^(?:pub\(crate\) )?fn (\w+)", re.M)
COMMAND = re.compile(r'(?<!_)command\(\s*alloc,\s*"(\w+)",\s*(\w+)')
ADDED = re.compile(r"\bwith_command\(\w+, (\w+)\(alloc\)\)")
ARGUMENT = re.compile(r"\.arg\((\w+)\(([^()]*)\)\)")
MADE = re.compile(r"\b(option|flag)\(([^()]*)\)")
# A form of a command that its own text quotes, as 'check QUESTION ANSWER'.
QUOTED = re.compile(r"'(\w+(?: \w+)+)'")
SPAN = re.compile(r"(\d) to (\d) (\w+) (\d) to \d")


class Fault(Exception):
    """What is to be made can't be made of these sources."""


def unescaped(literal: str) -> str:
    """What a string literal of a source of the program stands for."""

    def meant(match: re.Match[str]) -> str:
        if match[0][1] == "\n":
            return ""
        if match[0] not in ESCAPES:
            raise Fault(f"the escape {match[0]} of a text is unknown")
        return ESCAPES[match[0]]

    return ESCAPE.sub(meant, literal)


@dataclass(frozen=True)
class Argument:
    """An option, or a word that stands without one."""

    name: str
    value: str  # what stands for the value, or nothing where an option takes none
    about: str
    is_option: bool
    is_needed: bool = False
    is_many: bool = False
    words: tuple[tuple[str, str], ...] = ()  # the words that it may be, each with what it means


@dataclass(frozen=True)
class Command:
    name: str
    about: str
    arguments: tuple[Argument, ...]
    exclusions: tuple[tuple[str, ...], ...]  # names of options that don't stand together

    def options(self) -> list[Argument]:
        return [it for it in self.arguments if it.is_option]

    def places(self) -> list[Argument]:
        """The arguments that stand without an option."""
        return [it for it in self.arguments if not it.is_option]

    def takes_texts(self) -> bool:
        return any(it.is_many for it in self.arguments)

    def excluded_by(self, name: str) -> list[str]:
        """The options that don't stand beside this one."""
        return [other.name for other in self.options() if other.name != name
                and any({name, other.name} <= set(together) for together in self.exclusions)]

    def quoted(self) -> list[str]:
        """The forms that its own text tells, behind its name."""
        return [form.removeprefix(f"{self.name} ") for form in QUOTED.findall(self.about)]

    def takes_file_for_word(self) -> bool:
        """Whether the name of a file may stand where it has words of its own."""
        return any(form.isupper() for form in self.quoted())

    def short(self) -> str:
        """What it does, without its forms."""
        return self.about.partition(": '")[0]


def bodies(name: str) -> dict[str, str]:
    """The functions of a source file."""
    pieces = FUNCTION.split((WORDS / name).read_text())
    return dict(zip(pieces[1::2], pieces[2::2], strict=True))


@cache
def constants() -> dict[str, str]:
    return {name: unescaped(text) for name, text in CONSTANT.findall((WORDS / "line.rt").read_text())}


def text_of(given: str) -> str:
    """A text that is given as a constant, in one line."""
    if given not in constants():
        raise Fault(f"line.rt has no text {given}")
    return " ".join(constants()[given].split())


def given_words(given: str) -> list[str]:
    return [it.strip().strip('"') for it in given.split(",")]


def option_of(maker: str, given: str) -> Argument:
    """The option of `option(alloc, NAME, VALUE, TEXT)` or `flag(alloc, NAME, TEXT)`."""
    _, name, *value, about = given_words(given)
    return Argument(name, value[0] if maker == "option" else "", text_of(about), True)


def argument_of(lines: dict[str, str], maker: str, given: str) -> Argument:
    """The argument that `maker(alloc, ..)` makes."""
    if maker in ("option", "flag"):
        return option_of(maker, given)
    body = lines.get(maker, "")
    name, value = re.search(r'Arg::new\(alloc, "(\w+)"\)', body), re.search(r'\.value_name\("(\w+)"\)', body)
    if not name or not value:
        inner = MADE.search(body)
        if not inner:
            raise Fault(f"line.rt: what the argument {maker} is can't be read")
        return option_of(inner[1], inner[2])
    about = re.search(r"\.help\((\w+)\)", body)
    text = about[1] if about and about[1].isupper() else given_words(given)[-1]
    return Argument(name[1], value[1], text_of(text), False, ".required(true)" in body, ".num_args(..)" in body)


def meanings(about: str, words: list[str]) -> Iterator[tuple[str, str]]:
    """Each word with what a text says of it: `WORD: ..;`, or `NUMBER NAME` and `NUMBER to NUMBER NAME NUMBER to NUMBER`."""
    spans = {str(number): f"{name} {number - int(low) + int(first)}" for low, high, name, first in SPAN.findall(about)
             for number in range(int(low), int(high) + 1)}
    for word in words:
        told = re.search(rf"(?:^|; ){word}: ([^;]+)", about) or re.search(rf"[:,] {word} ([A-Z]\w*)", about)
        yield word, told[1] if told else spans.get(word, "")


def with_words(command: str, argument: Argument, orders: dict[str, str]) -> Argument:
    """An argument with the words that `ARGUMENT_named` or `COMMAND_named` tells apart."""
    if not argument.is_needed:
        return argument
    body = orders.get(f"{argument.name}_named", orders.get(f"{command}_named", ""))
    words = re.findall(r'^ +(?:Some\()?"(\w+)"\)? =>', body, re.M)
    return Argument(argument.name, argument.value, argument.about, argument.is_option, argument.is_needed, argument.is_many,
                    tuple(meanings(argument.about, words)))


def exclusions_of(command: str, orders: dict[str, str]) -> Iterator[tuple[str, ...]]:
    """Which options name no order together: a row of the table of their order's function says so."""
    maker = re.search(rf'"{command}" => (\w+)\(', orders["order_from"])
    body = orders.get(maker[1], "") if maker else ""
    head = re.search(r"match \((\w+(?:, \w+)+)\)", body)
    for row in re.findall(r"^ +\((.+)\) => None,$", body, re.M) if head else []:
        given = zip(head[1].split(", ") if head else [], row.split(", "), strict=True)
        yield tuple(name.removeprefix("is_") for name, it in given if it.startswith("Some(") or it == "true")


def body_of(lines: dict[str, str], name: str) -> str:
    """What a function tells of a command, with what the function has told on which it goes on."""
    body = lines[name]
    former = re.search(r"(\w+)\(alloc\)\?\.arg", body)
    return (body_of(lines, former[1]) if former else "") + body


@cache
def commands() -> tuple[Command, ...]:
    """The commands in the order of the program's help."""
    lines, orders, found = bodies("line.rt"), bodies("order.rt"), []
    for maker in ADDED.findall((WORDS / "line.rt").read_text()):
        body = body_of(lines, maker)
        command = COMMAND.search(body)
        if not command:
            raise Fault(f"line.rt: what the command {maker} is can't be read")
        arguments = [argument_of(lines, *it) for it in ARGUMENT.findall(body)]
        if len(arguments) != body.count(".arg("):
            raise Fault(f"line.rt: what the command {maker} takes can't be read")
        found.append(Command(command[1], text_of(command[2]),
                             tuple(with_words(command[1], it, orders) for it in arguments),
                             tuple(exclusions_of(command[1], orders))))
    if not found:
        raise Fault("line.rt: no command can be read")
    return tuple(found)


def shared() -> set[str]:
    """The options with a value that several commands take: the manual tells them for all of these at once."""
    names = [option.name for command in commands() for option in command.options() if option.value]
    return {name for name in names if names.count(name) > 1}


@dataclass(frozen=True)
class Form:
    """One way to call a command: its words, those in capitals being filled in, and what it does so."""

    words: str
    about: str


def option_words(option: Argument) -> str:
    return f"--{option.name}" + (f" {option.value}" if option.value else "")


def ends(command: Command) -> str:
    """The arguments behind words of a command's own."""
    words = []
    for it in command.places():
        word = f"[{it.value}]..." if it.is_many else it.value if it.is_needed else f"[{it.value}]"
        words += [] if it.words and command.takes_texts() else [word]
    return " ".join(words)


def forms(command: Command) -> Iterator[Form]:
    """The ways to call a command: with each word that it tells apart, with the options that go together, and with those that
    exclude the others."""
    if command.quoted():
        meant = {word: about for place in command.places() for word, about in place.words}
        for form in command.quoted():
            told = re.search(rf"(?:^|; or )([^;]*): [^;]*'{command.name} {form}'", command.about)
            is_word = form in meant
            yield Form(f"{command.name} {form}{' ' + ends(command) if is_word else ''}",
                       f"whether {meant[form]}" if is_word else told[1] if told else "")
        return
    options = [it for it in command.options() if it.name not in shared()]
    alone = [it for it in options if options[1:] and len(command.excluded_by(it.name)) == len(options) - 1]
    together = sorted((it for it in options if it not in alone), key=lambda it: bool(it.value))
    words = " ".join([command.name, *(f"[{option_words(it)}]" for it in together), ends(command)])
    about = [command.about, *(f"{option_words(it)}: {it.about}" for it in together)]
    yield Form(words, "; ".join(about))
    for it in alone:
        yield Form(f"{command.name} {option_words(it)} {ends(command)}", it.about)
