# Completion of kprun for bash

_kprun() {
    local cur=${COMP_WORDS[COMP_CWORD]} prev=${COMP_WORDS[COMP_CWORD-1]}
    COMPREPLY=()
    compopt -o default 2>/dev/null
    if [[ $COMP_CWORD == 1 ]]; then
        COMPREPLY=($(compgen -W 'run --help --version' -- "$cur"))
    elif [[ $prev == --until ]]; then
        COMPREPLY=($(compgen -W 'halt retired=' -- "$cur"))
    elif [[ $cur == -* ]]; then
        COMPREPLY=($(compgen -W '--until --limit --only --quiet --expect --help --version' -- "$cur"))
    fi
}
complete -F _kprun kprun
