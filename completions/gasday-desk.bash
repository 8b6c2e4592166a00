# Completions of gasday-desk for bash: source this file, or put it into share/bash-completion/completions as
# `gasday-desk`. Made by tests/tool_pages.py of what gasday-desk --help tells: change that, and not this file.

_gasday_desk() {
    local word=${COMP_WORDS[COMP_CWORD]} before=${COMP_WORDS[COMP_CWORD - 1]} offered='' files=''
    COMPREPLY=()
    case $COMP_CWORD:${COMP_WORDS[1]}:${COMP_WORDS[2]} in
        1:*:*) offered='init run demo user rebuild export --version --help' ;;
        *:init:*) offered='--help' files=-d ;;
        *:run:*) offered='--gasday --help' files=-d ;;
        *:demo:*) offered='--gasday --listen --help' files=-d ;;
        2:user:*) offered='add token remove --help' ;;
        *:user:add) offered='--party --role --stdin --unnamed --help' files=-d ;;
        *:user:token) offered='--help' files=-d ;;
        *:user:remove) offered='--help' files=-d ;;
        *:rebuild:*) offered='--gasday --help' files=-d ;;
        *:export:*) offered='--gasday --output --help' files=-d ;;
    esac
    case $before in
        --gasday | --output | *[\<\>]*) offered='' files=-f ;;
        --listen | --party) offered='' files= ;;
        --role) offered='shipper operator scheduler auditor' files= ;;
    esac
    mapfile -t COMPREPLY < <(compgen -W "$offered" -- "$word")
    if [ -n "$files" ]; then
        compopt -o filenames 2> /dev/null
        mapfile -t -O "${#COMPREPLY[@]}" COMPREPLY < <(compgen "$files" -- "$word")
    fi
}

complete -F _gasday_desk gasday-desk
