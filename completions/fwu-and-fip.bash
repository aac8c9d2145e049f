# Completion for fwu and fip in bash: source this file.

_offer() {
    COMPREPLY=($(compgen -W "$1" -- "$cur"))
}

_fwu() {
    local cur=${COMP_WORDS[COMP_CWORD]} before=${COMP_WORDS[COMP_CWORD - 1]} at=2
    [ "${COMP_WORDS[2]}" = --allow ] && at=4
    if [ "$COMP_CWORD" -eq 1 ] || [ "$before" = --allow ]; then
        COMPREPLY=($(compgen -f -- "$cur"))
    elif [ "$COMP_CWORD" -eq "$at" ]; then
        _offer "run boot show format soak serve $([ "$at" -eq 2 ] && echo --allow)"
    else
        case ${COMP_WORDS[$at]} in
            run | boot) _offer --gpt ;;
            format) [ "$before" = --banks ] && _offer "2 3 4" || { _offer --banks; COMPREPLY+=($(compgen -f -- "$cur")); } ;;
        esac
    fi
}

_fip() {
    local cur=${COMP_WORDS[COMP_CWORD]} names="tb-fw soc-fw tos-fw nt-fw manifest dir"
    if [ "$COMP_CWORD" -eq 1 ]; then
        _offer "info create update remove unpack manifest capsule package"
        return
    fi
    case ${COMP_WORDS[1]} in
        create | update) _offer "--align ${names// /= }=" ;;
        remove) _offer "--align $names" ;;
        unpack) _offer "$names" ;;
        package) _offer --align ;;
    esac
    COMPREPLY+=($(compgen -f -- "$cur"))
}

complete -o filenames -F _fwu fwu
complete -o filenames -F _fip fip
