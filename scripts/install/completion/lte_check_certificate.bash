# bash completion for lte_check_certificate
# Made by scripts/gate.sh made --write: change its sources, not this file.
_lte_check_certificate() {
    local current=${COMP_WORDS[COMP_CWORD]} choices=''
    COMPREPLY=()
    case ${COMP_WORDS[COMP_CWORD - 1]} in

        *) if [[ $current == -* ]]; then choices='-h --help --version'; else return; fi ;;
    esac
    mapfile -t COMPREPLY < <(compgen -W "$choices" -- "$current")
}
complete -o nosort -o default -F _lte_check_certificate lte_check_certificate
