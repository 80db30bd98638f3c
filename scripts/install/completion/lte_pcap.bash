# bash completion for lte_pcap
# Made by scripts/gate.sh made --write: change its sources, not this file.
_lte_pcap() {
    local current=${COMP_WORDS[COMP_CWORD]} choices=''
    COMPREPLY=()
    case ${COMP_WORDS[COMP_CWORD - 1]} in
        -o) return ;;
        --earfcn) compopt +o default 2> /dev/null; return ;;
        *) if [[ $current == -* ]]; then choices='-h --help --version -o --earfcn'; else return; fi ;;
    esac
    mapfile -t COMPREPLY < <(compgen -W "$choices" -- "$current")
}
complete -o nosort -o default -F _lte_pcap lte_pcap
