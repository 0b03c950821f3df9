# Completion of kp for bash

_kp() {
    local cur=${COMP_WORDS[COMP_CWORD]} word command= count=0 i is_target=
    COMPREPLY=()
    # The arguments before this word, without redirections and their files
    for ((i = 1; i < COMP_CWORD; i++)); do
        word=${COMP_WORDS[i]}
        if [[ $word == *[\<\>]* ]]; then
            is_target=1
        elif [[ $is_target ]]; then
            is_target=
        else
            [[ $command ]] || command=$word
            ((count += 1))
        fi
    done
    # Files are for redirections alone: kp reads standard input.
    if [[ $is_target || $cur == [\<\>]* ]]; then
        compopt -o default 2>/dev/null
        return
    fi
    compopt +o default 2>/dev/null
    case $command:$count in
        :0) COMPREPLY=($(compgen -W 'check seq sim pipe vcd timing debug read watch equiv asm gen --help --version' -- "$cur")) ;;
        seq:1 | sim:1 | vcd:1 | timing:1 | watch:1 | gen:2) COMPREPLY=($(compgen -W '10 100 1000 10000 100000' -- "$cur")) ;;
        gen:1) COMPREPLY=($(compgen -W '0 1 2 3 4 5 6 7 8 9' -- "$cur")) ;;
    esac
}
complete -F _kp kp
