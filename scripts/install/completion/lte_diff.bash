# bash completion for lte_diff
# Made by scripts/gate.sh made --write: change its sources, not this file.
_lte_diff() {
    local current=${COMP_WORDS[COMP_CWORD]} choices=''
    COMPREPLY=()
    case ${COMP_WORDS[COMP_CWORD - 1]} in
        --square) compopt +o default 2> /dev/null; return ;;
        --csv-places) return ;;
        --picture) return ;;
        *) if [[ $current == -* ]]; then choices='-h --help --version --square --csv-places --picture --csv --json'; else return; fi ;;
    esac
    mapfile -t COMPREPLY < <(compgen -W "$choices" -- "$current")
}
complete -o nosort -o default -F _lte_diff lte_diff
