"""The completions of `gasday` itself for bash, zsh and fish, made of its command line."""

from collections.abc import Callable, Iterator

from command_line import Argument, Command, commands
from tool_pages import fish_text, zsh_text, zsh_word

PRINT_HELP, PRINT_VERSION = "print help", "print the version"
HELP_COMMAND = ("help", "Print help of a command")
# What stands for the name of a file.
FILES = ("FILE", "TEXT")


def names() -> str:
    """The commands that have a help."""
    return " ".join(command.name for command in commands())


def words_of(argument: Argument | None) -> str:
    """The words that an argument may be."""
    return " ".join(word for word, _ in argument.words) if argument else ""


def offered(command: Command) -> str:
    """The options of a command, that of its help last."""
    return " ".join([*(f"--{option.name}" for option in command.options()), "--help"])


def first_words(command: Command) -> Argument | None:
    """The argument that has words of its own and stands first."""
    return command.places()[0] if command.places() and command.places()[0].words else None


def is_plain(command: Command) -> bool:
    """Whether its file stands at its one place: first, or behind the one option that it may have, which takes a value."""
    return not command.takes_texts() and len(command.options()) == 1 and bool(command.options()[0].value)


# For bash.

BASH = r"""# Completions of gasday for bash: source this file, or put it into share/bash-completion/completions as `gasday`.
# {made}

# Offers those of the words that the word at the cursor begins.
_gasday_words() {{
    local word=${{COMP_WORDS[COMP_CWORD]}}
    mapfile -t COMPREPLY < <(compgen -W "$1" -- "$word")
}}

# Offers files, beside what is offered already.
_gasday_files() {{
    local word=${{COMP_WORDS[COMP_CWORD]}} files
    compopt -o filenames 2> /dev/null
    mapfile -t files < <(compgen -f -- "$word")
    COMPREPLY+=("${{files[@]}}")
}}

_gasday() {{
    local before=${{COMP_WORDS[COMP_CWORD - 1]}}
    COMPREPLY=()
    case $before in
        *[\<\>]*) _gasday_files; return ;;
    esac
    if [ "$COMP_CWORD" -eq 1 ]; then
        _gasday_words '{names} help --help --version'
        return
    fi
    case ${{COMP_WORDS[1]}}:$COMP_CWORD in
        help:2) _gasday_words '{names}' ;;
        help:*) ;;
{cases}
    esac
}}

complete -F _gasday gasday
"""


def in_case(pattern: str, *lines: str) -> Iterator[str]:
    yield f"        {pattern})"
    yield from (f"            {line}" for line in lines)
    yield "            ;;"


def at_any_place(command: Command) -> Iterator[str]:
    """A command whose options and files stand in any order; words of its own come first."""
    words = first_words(command)
    if words:
        files = ["_gasday_files"] if command.takes_file_for_word() else []
        yield from in_case(f"{command.name}:2", f"_gasday_words '{words_of(words)} --help'", *files)
    free = [f"--{it.name}" for it in command.options() if it.value and it.value not in FILES]
    filed = [f"--{it.name}" for it in command.options() if it.value in FILES]
    lines = [f'[ "$before" = {name} ] && return' for name in free]
    tests = " || ".join(f"$before = {name}" for name in filed)
    lines.append(f"[[ {tests} ]] || _gasday_words '{offered(command)}'" if filed else f"_gasday_words '{offered(command)}'")
    yield from in_case(f"{command.name}:*", *lines, "_gasday_files")


def at_its_place(command: Command) -> Iterator[str]:
    """A command with one option that takes a value, which may stand before its file; what stands behind that may have words."""
    places, option = command.places(), f"--{command.options()[0].name}"
    behind, ahead = (f'[ "${{COMP_WORDS[2]}}" = {option} ] {then}' for then in ("&&", "||"))
    yield from in_case(f"{command.name}:2", f"_gasday_words '{offered(command)}'", "_gasday_files")
    words = words_of(places[1] if len(places) > 1 else None)
    if words:
        yield f"        {command.name}:3) {ahead} _gasday_words '{words} --help' ;;"
    yield f"        {command.name}:4) {behind} _gasday_files ;;"
    if words:
        yield f"        {command.name}:5) {behind} _gasday_words '{words}' ;;"


def in_bash(made: str) -> str:
    cases = [line for it in commands() for line in (at_its_place(it) if is_plain(it) else at_any_place(it))]
    return BASH.format(made=made, names=names(), cases="\n".join(cases))


# For zsh.


def zsh_list(function: str, label: str, words: list[tuple[str, str]]) -> list[str]:
    """A function that offers words, each with what it means."""
    lines = [f"{function}() {{", "    local -a words=("]
    lines += [f"        {zsh_word(f'{word}:' + zsh_text(about))}" for word, about in words]
    return [*lines, "    )", f"    _describe {label} words", "}", ""]


def zsh_lists(command: Command) -> Iterator[str]:
    """The functions that offer the words of a command's own."""
    for argument in command.places():
        if argument.words:
            yield from zsh_list(f"_gasday_{argument.name}", argument.name, list(argument.words))
    words = first_words(command)
    if words and command.takes_file_for_word():
        yield from [f"_gasday_{words.name}_or_file() {{",
                    f"    _alternative 'words:{words.name}:_gasday_{words.name}' 'files:file:_files'", "}", ""]


def zsh_option(command: Command, option: Argument) -> str:
    apart = command.excluded_by(option.name)
    excluded = f"({' '.join(f'--{name}' for name in apart)})" if apart else ""
    action = "_files" if option.value in FILES else " "
    value = f":{option.value.lower()}:{action}" if option.value else ""
    return zsh_word(f"{excluded}--{option.name}[{zsh_text(option.about)}]{value}")


def zsh_places(command: Command) -> Iterator[str]:
    """What is offered at the places of a command."""
    for place, argument in enumerate(command.places(), 1):
        action = "_files" if argument.value in FILES else " "
        if argument.words:
            action = f"_gasday_{argument.name}" + ("_or_file" if place == 1 and command.takes_file_for_word() else "")
        yield f"'{'*' if argument.is_many else place}:{argument.value.lower()}:{action}'"


def zsh_case(command: Command) -> str:
    words = ["_arguments", "$help", *(zsh_option(command, it) for it in command.options()), *zsh_places(command)]
    return f"        {command.name})\n            " + " \\\n                ".join(words) + "\n            ;;"


def in_zsh(made: str) -> str:
    about = [(it.name, it.short()) for it in commands()]
    lines = ["#compdef gasday", "# Completions of gasday for zsh: put this file into a folder of $fpath.", f"# {made}", ""]
    lines += zsh_list("_gasday_commands", "command", [*about, HELP_COMMAND])
    lines += [line for command in commands() for line in zsh_lists(command)]
    lines += ["_gasday() {", f"    local help='(- *)--help[{PRINT_HELP}]' version='(- *)--version[{PRINT_VERSION}]'",
              "    local context state state_descr line", "    typeset -A opt_args",
              "    _arguments -C $help $version '1:command:_gasday_commands' '*:: :->rest'", "    [[ $state == rest ]] || return",
              "    case $words[1] in", *(zsh_case(command) for command in commands()),
              "        help) _arguments '1:command:_gasday_commands' ;;", "    esac", "}", "", '_gasday "$@"']
    return "\n".join(lines) + "\n"


# For fish.

FISH = """# Completions of gasday for fish: put this file into a folder of $fish_complete_path.
# {made}

# Whether the command is this one, and no word stands behind it yet.
function __gasday_behind
    set -l words (commandline -opc)
    test (count $words) -eq 2; and contains -- $words[2] $argv
end

# Whether the command is this one, and so many words stand up to here, with the program's name.
function __gasday_at
    set -l words (commandline -opc)
    test (count $words) -eq $argv[2]; and test $words[2] = $argv[1]
end

complete -c gasday -f
{lines}
"""


def fish_line(place: str, *offer: str) -> str:
    return " ".join(["complete -c gasday", f"-n '{place}'", *offer])


def fish_words(command: Command) -> Iterator[str]:
    """The words of a command's own: at its first place, or behind its file."""
    for place, argument in enumerate(command.places()):
        where = f"__gasday_at {command.name} {place + 2}"
        for word, about in argument.words:
            yield fish_line(where, f"-a {word} -d {fish_text(about)}")


def fish_options() -> Iterator[str]:
    """The options, each with the commands that take it."""
    taken: dict[Argument, list[str]] = {}
    for command in commands():
        for option in command.options():
            taken.setdefault(option, []).append(command.name)
    for option, its in taken.items():
        value = ["-r -F"] if option.value in FILES else ["-x"] if option.value else []
        place = f"__fish_seen_subcommand_from {' '.join(its)}"
        yield fish_line(place, f"-l {option.name}", *value, f"-d {fish_text(option.about)}")


def named(wanted: Callable[[Command], bool]) -> str:
    return " ".join(command.name for command in commands() if wanted(command))


def in_fish(made: str) -> str:
    use = "__fish_use_subcommand"
    lines = [fish_line(use, f"-a {it.name} -d {fish_text(it.short())}") for it in commands()]
    lines += [fish_line(use, f"-a {HELP_COMMAND[0]} -d {fish_text(HELP_COMMAND[1])}")]
    lines += [fish_line("__gasday_behind help", f"-a '{names()}'")]
    lines += [line for command in commands() for line in fish_words(command)]
    lines += fish_options()
    lines += [fish_line(f"__gasday_behind {named(lambda it: not it.takes_texts())}", "-F")]
    lines += [fish_line(f"__fish_seen_subcommand_from {named(Command.takes_texts)}", "-F")]
    lines += [fish_line(use, f"-l help -d {fish_text(PRINT_HELP.capitalize())}"),
              fish_line(use, f"-l version -d {fish_text(PRINT_VERSION.capitalize())}"),
              fish_line(f"__gasday_behind {names()}", f"-l help -d {fish_text(PRINT_HELP.capitalize())}")]
    return FISH.format(made=made, lines="\n".join(lines))
