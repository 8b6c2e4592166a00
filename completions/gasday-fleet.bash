# Completions of gasday-fleet for bash: source this file, or put it into share/bash-completion/completions as
# `gasday-fleet`. Made by tests/tool_pages.py of what gasday-fleet --help tells: change that, and not this file.

_gasday_fleet() {
    local word=${COMP_WORDS[COMP_CWORD]} before=${COMP_WORDS[COMP_CWORD - 1]} offered='' files=''
    COMPREPLY=()
    case $COMP_CWORD:${COMP_WORDS[1]}:${COMP_WORDS[2]} in
        1:*:*) offered='audit days study --version --help' ;;
        *:audit:*) offered='--send --untimed --output --resume --scheduler --serial --workers --gasday --retries --timeout --help' files=-f ;;
        *:days:*) offered='--archive --send --untimed --output --resume --scheduler --serial --workers --gasday --retries --timeout --help' files=-d ;;
        *:study:*) offered='--question --json --html --batch --output --resume --scheduler --serial --workers --gasday --retries --timeout --help' files=-f ;;
    esac
    case $before in
        --output | --gasday | --json | --html | *[\<\>]*) offered='' files=-f ;;
        --scheduler | --workers | --retries | --timeout | --question | --batch) offered='' files= ;;
    esac
    mapfile -t COMPREPLY < <(compgen -W "$offered" -- "$word")
    if [ -n "$files" ]; then
        compopt -o filenames 2> /dev/null
        mapfile -t -O "${#COMPREPLY[@]}" COMPREPLY < <(compgen "$files" -- "$word")
    fi
}

complete -F _gasday_fleet gasday-fleet
