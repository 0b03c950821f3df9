# Completion of kpview for bash

_kpview() {
    local cur=${COMP_WORDS[COMP_CWORD]} word count=0 i is_target=
    COMPREPLY=()
    # The arguments before this word, without redirections and their files
    for ((i = 1; i < COMP_CWORD; i++)); do
        word=${COMP_WORDS[i]}
        if [[ $word == *[\<\>]* ]]; then
            is_target=1
        elif [[ $is_target ]]; then
            is_target=
        else
            ((count += 1))
        fi
    done
    if [[ $count -ge 2 && ${COMP_WORDS[1]} == diagram && $cur == -* ]]; then
        COMPREPLY=($(compgen -W '--label --listing' -- "$cur"))
        return
    fi
    if [[ $is_target || $cur == [\<\>]* || $count -ge 2 || ( $count -eq 1 && ${COMP_WORDS[1]} == same ) ]]; then
        compopt -o default 2>/dev/null
        return
    fi
    compopt +o default 2>/dev/null
    case $count in
        0) COMPREPLY=($(compgen -W 'diagram svg page paths stalls depth same explain help --help --version' -- "$cur")) ;;
        1)
            case ${COMP_WORDS[1]} in
                paths) COMPREPLY=($(compgen -f -W '--svg' -- "$cur")) ;;
                depth) COMPREPLY=($(compgen -f -W '--files' -- "$cur")) ;;
                explain) COMPREPLY=($(compgen -f -W '--werror --help read watch asm debug' -- "$cur")) ;;
                diagram) COMPREPLY=($(compgen -W '10 20 50 100 1000 100..120' -- "$cur")) ;;
                *) COMPREPLY=($(compgen -W '10 20 50 100 1000' -- "$cur")) ;;
            esac
            ;;
    esac
}
complete -F _kpview kpview
