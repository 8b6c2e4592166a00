# Completions of gasday-import for bash: source this file, or put it into share/bash-completion/completions as
# `gasday-import`. Made by tests/tool_pages.py of what gasday-import --help tells: change that, and not this file.

_gasday_import() {
    local word=${COMP_WORDS[COMP_CWORD]} before=${COMP_WORDS[COMP_CWORD - 1]} offered='' files=''
    COMPREPLY=()
    offered='--version --strict --each --by-time --names --sheet --gasday --output --help' files=-f
    case $before in
        --names | --gasday | --output | *[\<\>]*) offered='' files=-f ;;
        --sheet) offered='' files= ;;
    esac
    mapfile -t COMPREPLY < <(compgen -W "$offered" -- "$word")
    if [ -n "$files" ]; then
        compopt -o filenames 2> /dev/null
        mapfile -t -O "${#COMPREPLY[@]}" COMPREPLY < <(compgen "$files" -- "$word")
    fi
}

complete -F _gasday_import gasday-import
