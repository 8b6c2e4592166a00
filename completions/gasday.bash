# Completions of gasday for bash: source this file, or put it into share/bash-completion/completions as `gasday`.
# Made by tests/make_tables.py of the program's command line: change that, and not this file.

# Offers those of the words that the word at the cursor begins.
_gasday_words() {
    local word=${COMP_WORDS[COMP_CWORD]}
    mapfile -t COMPREPLY < <(compgen -W "$1" -- "$word")
}

# Offers files, beside what is offered already.
_gasday_files() {
    local word=${COMP_WORDS[COMP_CWORD]} files
    compopt -o filenames 2> /dev/null
    mapfile -t files < <(compgen -f -- "$word")
    COMPREPLY+=("${files[@]}")
}

_gasday() {
    local before=${COMP_WORDS[COMP_CWORD - 1]}
    COMPREPLY=()
    case $before in
        *[\<\>]*) _gasday_files; return ;;
    esac
    if [ "$COMP_CWORD" -eq 1 ]; then
        _gasday_words 'check solve calendar day office audit text question carry migrate help --help --version'
        return
    fi
    case ${COMP_WORDS[1]}:$COMP_CWORD in
        help:2) _gasday_words 'check solve calendar day office audit text question carry migrate' ;;
        help:*) ;;
        check:2)
            _gasday_words 'allowed best cut --help'
            _gasday_files
            ;;
        check:*)
            _gasday_words '--help'
            _gasday_files
            ;;
        solve:*)
            _gasday_words '--help'
            _gasday_files
            ;;
        calendar:*)
            _gasday_words '--help'
            _gasday_files
            ;;
        day:*)
            [ "$before" = --wait ] && return
            [[ $before = --archive || $before = --book ]] || _gasday_words '--archive --book --strict --wait --help'
            _gasday_files
            ;;
        office:*)
            _gasday_words '--strict --help'
            _gasday_files
            ;;
        audit:*)
            [ "$before" = --wait ] && return
            _gasday_words '--all --wait --help'
            _gasday_files
            ;;
        text:2)
            _gasday_words '--wait --help'
            _gasday_files
            ;;
        text:4) [ "${COMP_WORDS[2]}" = --wait ] && _gasday_files ;;
        question:2)
            _gasday_words '--wait --help'
            _gasday_files
            ;;
        question:3) [ "${COMP_WORDS[2]}" = --wait ] || _gasday_words '1 2 3 4 5 --help' ;;
        question:4) [ "${COMP_WORDS[2]}" = --wait ] && _gasday_files ;;
        question:5) [ "${COMP_WORDS[2]}" = --wait ] && _gasday_words '1 2 3 4 5' ;;
        carry:2)
            _gasday_words '--wait --help'
            _gasday_files
            ;;
        carry:4) [ "${COMP_WORDS[2]}" = --wait ] && _gasday_files ;;
        migrate:2)
            _gasday_words '--wait --help'
            _gasday_files
            ;;
        migrate:4) [ "${COMP_WORDS[2]}" = --wait ] && _gasday_files ;;
    esac
}

complete -F _gasday gasday
