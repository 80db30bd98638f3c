# bash completion for lte_picture
# Made by scripts/gate.sh made --write: change its sources, not this file.
_lte_picture() {
    local current=${COMP_WORDS[COMP_CWORD]} choices=''
    COMPREPLY=()
    case ${COMP_WORDS[COMP_CWORD - 1]} in
        --form | --format) choices='u8 s8 s16 f32 sigmf' ;;
        --rate) compopt +o default 2> /dev/null; return ;;
        --shift) compopt +o default 2> /dev/null; return ;;
        --carrier) compopt +o default 2> /dev/null; return ;;
        --at) compopt +o default 2> /dev/null; return ;;
        --channel) compopt +o default 2> /dev/null; return ;;
        -o) return ;;
        --offset) compopt +o default 2> /dev/null; return ;;
        --cells) compopt +o default 2> /dev/null; return ;;
        --title) compopt +o default 2> /dev/null; return ;;
        *) if [[ $current == -* ]]; then choices='-h --help --version --form --format --rate --shift --carrier --at --exchanged --channel -o --tune --offset --cells --time --title'; else return; fi ;;
    esac
    mapfile -t COMPREPLY < <(compgen -W "$choices" -- "$current")
}
complete -o nosort -o default -F _lte_picture lte_picture
