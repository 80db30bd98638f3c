# bash completion for lte_tune
# Made by scripts/gate.sh made --write: change its sources, not this file.
_lte_tune_forms='tell --json --format cu8 --rate R
tell --json --format cu8
tell --json --rate R
tell --json
tell --format cu8 --rate R
tell --format cu8
tell --rate R
tell
apply M --format cu8 --rate R
apply M --format cu8
apply M --rate R
apply M
apply --format cu8 --rate R
apply --format cu8
apply --rate R
apply
help
--help
-h
version
--version
-V'
_lte_tune() {
    local word next form given=() skips='' current=${COMP_WORDS[COMP_CWORD]}
    COMPREPLY=()
    for word in "${COMP_WORDS[@]:1:COMP_CWORD - 1}"; do     # files that are read or written are no words of a form
        case $word in
            [\<\>]*) skips=yes ;;
            *) if [ "$skips" ]; then skips=''; else given+=("$word"); fi ;;
        esac
    done
    if [ "$skips" ] || [[ $current == [\<\>]* ]]; then
        compopt -o filenames 2> /dev/null
        mapfile -t COMPREPLY < <(compgen -f -- "${current##[<>]}")
        return
    fi
    while read -ra form; do
        for word in "${!given[@]}"; do
            case ${form[word]-} in
                PCI) [[ ${given[word]} =~ ^([0-9]|[1-9][0-9]|[1-4][0-9][0-9]|50[0-3])$ ]] || continue 2 ;;
                N) [[ ${given[word]} =~ ^(0|[1-9][0-9]*)$ ]] || continue 2 ;;
                M) [[ ${given[word]} =~ ^(0|-?[1-9][0-9]*)$ ]] || continue 2 ;;
                R) [[ ${given[word]} =~ ^(1\.92|3\.84|7\.68|15\.36|30\.72)$ ]] || continue 2 ;;
                "${given[word]}") ;;
                *) continue 2 ;;
            esac
        done
        next=${form[${#given[@]}]-}
        case $next in
            '' | PCI|N|M) continue ;;
            R) next='1.92 3.84 7.68 15.36 30.72' ;;
        esac
        for next in $next; do
            if [[ $next == "$current"* && " ${COMPREPLY[*]} " != *" $next "* ]]; then COMPREPLY+=("$next"); fi
        done
    done <<< "$_lte_tune_forms"
}
complete -o nosort -F _lte_tune lte_tune
