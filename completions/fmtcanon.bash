# Completion of fmtcanon for bash.

# The values of --model, which may stand in a word of its own or after `=`.
_fmtcanon_models() {
    local values='lp64 ilp32 llp64'
    [[ $1 == same || $1 == fits ]] && values+=' both all'
    mapfile -t COMPREPLY < <(compgen -P "$3" -W "$values" -- "$2")
}

_fmtcanon() {
    local word=${COMP_WORDS[COMP_CWORD]} before=${COMP_WORDS[COMP_CWORD - 1]} command=${COMP_WORDS[1]} at
    COMPREPLY=()
    if ((COMP_CWORD == 1)); then
        mapfile -t COMPREPLY < <(compgen -W 'types canon show format bounds same fits stream -h --help -V --version' -- "$word")
        return
    fi
    case $command in
        types | canon | show | format | bounds | same | fits | stream) ;;
        *) return ;;
    esac
    # What stands after -- is a format or an argument, and nothing of it is known.
    for ((at = 2; at < COMP_CWORD; at++)); do
        [[ ${COMP_WORDS[at]} == -- ]] && return
    done
    # Bash takes `=` for a word of its own, unless COMP_WORDBREAKS is changed.
    if [[ $before == --model && $word == = ]]; then
        _fmtcanon_models "$command" ''
    elif [[ $before == = && ${COMP_WORDS[COMP_CWORD - 2]} == --model || $before == --model ]]; then
        _fmtcanon_models "$command" "$word"
    elif [[ $word == --model=* ]]; then
        _fmtcanon_models "$command" "${word#*=}" --model=
    elif [[ $word == -* ]]; then
        local more=' --literal -z --null'
        [[ $command == types || $command == canon || $command == same ]] && more=' --literal -z --null --whole'
        [[ $command == fits ]] && more=' --literal -z --null --fewer'
        [[ $command == format ]] && more=' --literal'
        [[ $command == stream ]] && more=''
        mapfile -t COMPREPLY < <(compgen -W "--model$more -h --help" -- "$word")
    elif [[ $command == format ]] && ((COMP_CWORD > 2)); then
        mapfile -t COMPREPLY < <(compgen -W 'n: s:' -- "$word")
        # The value follows at once.
        compopt -o nospace 2> /dev/null
    fi
}

complete -F _fmtcanon fmtcanon
