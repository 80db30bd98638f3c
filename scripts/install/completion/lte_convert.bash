# bash completion for lte_convert
# Made by scripts/gate.sh made --write: change its sources, not this file.
_lte_convert() {
    local current=${COMP_WORDS[COMP_CWORD]} choices=''
    COMPREPLY=()
    case ${COMP_WORDS[COMP_CWORD - 1]} in
        --to) choices='1.92 3.84 7.68 15.36 30.72' ;;
        *) if [[ $current == -* ]]; then choices='-h --help --version --to'; else return; fi ;;
    esac
    mapfile -t COMPREPLY < <(compgen -W "$choices" -- "$current")
}
complete -o nosort -o default -F _lte_convert lte_convert
