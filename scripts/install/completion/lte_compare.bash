# bash completion for lte_compare
# Made by scripts/gate.sh made --write: change its sources, not this file.
_lte_compare() {
    local current=${COMP_WORDS[COMP_CWORD]} choices=''
    COMPREPLY=()
    case ${COMP_WORDS[COMP_CWORD - 1]} in
        --form | --format) choices='u8 s8 s16 f32 sigmf' ;;
        --rate) compopt +o default 2> /dev/null; return ;;
        --shift) compopt +o default 2> /dev/null; return ;;
        --carrier) compopt +o default 2> /dev/null; return ;;
        --at) compopt +o default 2> /dev/null; return ;;
        --channel) compopt +o default 2> /dev/null; return ;;
        --as) choices='srsran cell-scanner openlte matlab pcap csv ours' ;;
        --columns) compopt +o default 2> /dev/null; return ;;
        --fields) compopt +o default 2> /dev/null; return ;;
        --tolerance) compopt +o default 2> /dev/null; return ;;
        --every) compopt +o default 2> /dev/null; return ;;
        --offset) compopt +o default 2> /dev/null; return ;;
        --gain) compopt +o default 2> /dev/null; return ;;
        --jobs) compopt +o default 2> /dev/null; return ;;
        --earfcn) compopt +o default 2> /dev/null; return ;;
        --bundle) return ;;
        --verify) return ;;
        --html) return ;;
        *) if [[ $current == -* ]]; then choices='-h --help --version --form --format --rate --shift --carrier --at --exchanged --channel --as --columns --fields --tolerance --every --offset --gain --jobs --scan --deep --earfcn --bundle --verify --html --csv --json'; else return; fi ;;
    esac
    mapfile -t COMPREPLY < <(compgen -W "$choices" -- "$current")
}
complete -o nosort -o default -F _lte_compare lte_compare
