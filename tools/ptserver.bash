# Completes the words, options and files of ptserver in bash:
#
#     source tools/ptserver.bash

_ptserver() {
    local word=${COMP_WORDS[COMP_CWORD]} before=${COMP_WORDS[COMP_CWORD - 1]}
    local command=${COMP_WORDS[1]}
    if [ "$COMP_CWORD" -eq 1 ]; then
        mapfile -t COMPREPLY < <(compgen -W "script explain check serve --help --version" -- "$word")
    elif [ "$before" = --clock ]; then
        mapfile -t COMPREPLY < <(compgen -W "lines system" -- "$word")
    elif [ "$before" = --socket ] || [ "$before" = --trace ] || [ "$before" = "<" ]; then
        mapfile -t COMPREPLY < <(compgen -f -- "$word")
    elif [ "$command" = check ]; then
        mapfile -t COMPREPLY < <(compgen -W "--late --help" -- "$word"; compgen -f -- "$word")
    elif [ "$command" = serve ]; then
        mapfile -t COMPREPLY < <(compgen -W "--socket --clock --sessions --trace --help" -- "$word")
    else
        mapfile -t COMPREPLY < <(compgen -W "--help" -- "$word")
    fi
}

complete -o default -F _ptserver ptserver
