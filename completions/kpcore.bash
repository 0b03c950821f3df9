# Completion of kpcore for bash

_kpcore() {
    local cur=${COMP_WORDS[COMP_CWORD]}
    COMPREPLY=()
    compopt -o default 2>/dev/null
    [[ $cur == -* ]] && COMPREPLY=($(compgen -W '--names --wires --named --comments --help --version' -- "$cur"))
}
complete -F _kpcore kpcore
