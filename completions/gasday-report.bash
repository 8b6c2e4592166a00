# Completions of gasday-report for bash: source this file, or put it into share/bash-completion/completions as
# `gasday-report`. Made by tests/tool_pages.py of what gasday-report --help tells: change that, and not this file.

_gasday_report() {
    local word=${COMP_WORDS[COMP_CWORD]} before=${COMP_WORDS[COMP_CWORD - 1]} offered='' files=''
    COMPREPLY=()
    offered='--version --events --replies --book --archive --posting --notices --gasday --certificate-alone --format --arithmetic --table --local --help' files=-f
    case $before in
        --events | --replies | --book | --archive | --gasday | *[\<\>]*) offered='' files=-f ;;
        --notices) offered='' files=-d ;;
        --posting | --local) offered='' files= ;;
        --format) offered='text json csv html' files= ;;
        --table) offered='lines elements sharing calls cycle-lines cycle-elements cycle-sharing' files= ;;
    esac
    mapfile -t COMPREPLY < <(compgen -W "$offered" -- "$word")
    if [ -n "$files" ]; then
        compopt -o filenames 2> /dev/null
        mapfile -t -O "${#COMPREPLY[@]}" COMPREPLY < <(compgen "$files" -- "$word")
    fi
}

complete -F _gasday_report gasday-report
