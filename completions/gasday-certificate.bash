# Completions of gasday-certificate for bash: source this file, or put it into share/bash-completion/completions as
# `gasday-certificate`. Made by tests/tool_pages.py of what gasday-certificate --help tells: change that, and not this file.

_gasday_certificate() {
    local word=${COMP_WORDS[COMP_CWORD]} before=${COMP_WORDS[COMP_CWORD - 1]} offered='' files=''
    COMPREPLY=()
    offered='--help' files=-f
    case $before in
        *[\<\>]*) offered='' files=-f ;;
    esac
    mapfile -t COMPREPLY < <(compgen -W "$offered" -- "$word")
    if [ -n "$files" ]; then
        compopt -o filenames 2> /dev/null
        mapfile -t -O "${#COMPREPLY[@]}" COMPREPLY < <(compgen "$files" -- "$word")
    fi
}

complete -F _gasday_certificate gasday-certificate
