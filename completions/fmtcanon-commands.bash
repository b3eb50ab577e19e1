# Completion of fmtcanon-check, fmtcanon-diff, fmtcanon-explain, fmtcanon-lsp, fmtcanon-po and fmtcanon-replace for bash.

# The values of an option of a command that has a list of them.
_fmtcanon_values() {
    case ${1##*/}$2 in
        fmtcanon-lsp*) ;;
        fmtcanon-explain--model) echo 'lp64 ilp32 llp64' ;;
        fmtcanon-explain--output) echo 'text json' ;;
        *--color) echo 'auto always never' ;;
        *--model) echo 'lp64 ilp32 llp64 both all' ;;
        *--output) echo 'text json sarif github' ;;
    esac
}

_fmtcanon_commands() {
    local word=${COMP_WORDS[COMP_CWORD]} before=${COMP_WORDS[COMP_CWORD - 1]} options='-h --help --version --model --output --color' at
    COMPREPLY=()
    case ${1##*/} in
        fmtcanon-check) options+=' -p --flag --function --exclude --type --rank --sign --composed --unread --wrong --git --cached --shard --baseline --update-baseline --no-cache --fail-on --attribute --fix --dry-run --diff -j --jobs' ;;
        fmtcanon-diff) options+=' -p --flag --function --git --cached --exclude --not-printf --verbose --fail-on -j --jobs' ;;
        fmtcanon-explain) options+=' --literal --kind --at' ;;
        fmtcanon-lsp) options='-h --help --version --stdio' ;;
        fmtcanon-po) options+=' --c-format --strict -j --jobs' ;;
        fmtcanon-replace)
            options+=' -p --flag --function --exclude --posix-locale --pairs --list --list-functions'
            options+=' --fail-on --attribute --fix --dry-run --diff -j --jobs'
            ;;
    esac
    # What comes after -- is a file.
    for ((at = 1; at < COMP_CWORD; at++)); do
        [[ ${COMP_WORDS[at]} == -- ]] && return
    done
    # Bash takes `=` for a word of its own, unless COMP_WORDBREAKS is changed.
    [[ $before == = ]] && before=${COMP_WORDS[COMP_CWORD - 2]}
    [[ $word == = ]] && word=''
    case $before in
        --model | --output | --color)
            mapfile -t COMPREPLY < <(compgen -W "$(_fmtcanon_values "$1" "$before")" -- "$word")
            return
            ;;
    esac
    case $word in
        --model=* | --output=* | --color=*)
            mapfile -t COMPREPLY < <(compgen -P "${word%%=*}=" -W "$(_fmtcanon_values "$1" "${word%%=*}")" -- "${word#*=}")
            ;;
        -*) mapfile -t COMPREPLY < <(compgen -W "$options" -- "$word") ;;
    esac
}

complete -o default -F _fmtcanon_commands fmtcanon-check fmtcanon-diff fmtcanon-explain fmtcanon-lsp fmtcanon-po fmtcanon-replace
