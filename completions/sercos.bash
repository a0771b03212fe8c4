# SPDX-License-Identifier: Apache-2.0
# Completion of sercos and sercos_rings for bash: the commands, and the numbers of gen and replay.
_sercos() {
    local current=${COMP_WORDS[COMP_CWORD]} before=${COMP_WORDS[COMP_CWORD - 1]} word words=()
    # Only files follow a redirection.
    if [[ $before == *[\<\>]* || $current == *[\<\>]* ]]; then
        compopt -o default 2> /dev/null
        COMPREPLY=()
        return
    fi
    for word in "${COMP_WORDS[@]:1:COMP_CWORD-1}"; do
        [[ $word == -- ]] || words+=("$word")
    done
    if [[ ${COMP_WORDS[0]##*/} == sercos_rings ]]; then
        COMPREPLY=()
        ((${#words[@]})) || COMPREPLY=($(compgen -W "run" -- "$current"))
        return
    fi
    case "${words[*]}" in
        "") COMPREPLY=($(compgen -W "show plan margin run check backup restore gen replay" -- "$current")) ;;
        gen) COMPREPLY=($(compgen -W "$(echo {1..64})" -- "$current")) ;;
        replay) COMPREPLY=($(compgen -W "$(echo {0..254})" -- "$current")) ;;
        *) COMPREPLY=() ;;
    esac
}
complete -F _sercos sercos sercos_rings
