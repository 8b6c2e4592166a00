"""What documents and the companion have of the program's help: the refusals of calls with what they mean, and the commands."""

import re
from collections.abc import Iterator

from command_line import Fault, commands, forms
from manual import HELP, SENTENCE, helps_in, parts_of

WIDTH = 130  # of a line in the companion
CALLS = "by their number N"
NAME = re.compile(r"[A-Z][a-z]\w+$")
OPTION = re.compile(r"(?<=; )(--[a-z]+(?: [A-Z]+)?)(?=:)")
# How a help says that a row's fields tell more of a refusal, and what stands for these in the report.
DETAILS = ((re.compile(r", which DETAIL tells$"), ", which is {}"), (re.compile(r"; DETAIL .*$"), " ({})"))


def made_of(script: str, source: str) -> str:
    """What a made file says of itself."""
    return f"Made by tests/{script} of {source}: change that, and not this file."


def helps() -> dict[str, str]:
    return helps_in(HELP.read_text(encoding="utf-8"))


def refusal_items() -> Iterator[tuple[str, str]]:
    """The items of the list of refusals in the help of `day`: calls with their refusals, and then names with what they mean."""
    blocks = [block for block in re.split(r"\n{2,}", helps()["day"]) if CALLS in block.partition("\n")[0]]
    if len(blocks) != 1:
        raise Fault(f"the help of day has {len(blocks)} lists of refusals {CALLS}")
    for part in parts_of(blocks[0]):
        if part.kind == "item":
            yield part.lead, part.text


def refusals_of_calls() -> dict[str, str]:
    """The refusals of each call, with their numbers."""
    found = {lead: text for lead, text in refusal_items() if lead.islower()}
    if not found:
        raise Fault("the help of day lists no refusals of calls")
    return found


def said(text: str) -> str:
    """What a meaning says before its remedy, as it goes on behind a colon; `{}` stands for the fields of the row."""
    words = SENTENCE.split(text)[0].removesuffix(".")
    for pattern, place in DETAILS:
        words = pattern.sub(place, words)
    if "DETAIL" in words:
        raise Fault(f"the help says of DETAIL in words that nothing is made of: {words}")
    return words[0].lower() + words[1:]


def refusal_meanings() -> dict[str, str]:
    """What each refusal of a call says."""
    return {lead: said(text) for lead, text in refusal_items() if NAME.match(lead)}


def entry(name: str, words: str) -> str:
    """A name with its words in a table of Python."""
    line = f'    "{name}": "{words}",'
    return line if len(line) <= WIDTH else f'    "{name}":\n        "{words}",'


def refusals_module(script: str) -> str:
    """The report's module of what refusals say."""
    rows = [entry(name, words) for name, words in refusal_meanings().items()]
    source = made_of(script, "the program's help of `day`")
    return "\n".join([f"# {source}", '"""What each refusal of a call says."""', "", "REFUSALS = {", *rows, "}"]) + "\n"


def refusals_table() -> str:
    """The refusals of each call, as a table of a document."""
    rows = [f"| `{call}` | {text} |" for call, text in refusals_of_calls().items()]
    return "\n".join(["| Call | Its refusals, each with the number N of its row |", "|---|---|", *rows])


def commands_table() -> str:
    """The ways to call each command, with what it does so."""
    ways = [way for command in commands() for way in forms(command)]
    rows = [f"| `{way.words.replace('...', '..')}` | {marked(way.about)} |" for way in ways]
    return "\n".join(["| Command | What it does |", "|---|---|", *rows])


def marked(about: str) -> str:
    """What a command does, its options marked as such."""
    return OPTION.sub(r"`\1`", about[0].lower() + about[1:])
