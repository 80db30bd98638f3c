# bash completion for lte_cli
# Made by scripts/gate.sh made --write: change its sources, not this file.
_lte_cli_forms='hits --json --format cu8 --rate R
hits --json --format cu8
hits --json --rate R
hits --json
hits --format cu8 --rate R
hits --format cu8
hits --rate R
hits
ids --json --format cu8 --rate R
ids --json --format cu8
ids --json --rate R
ids --json
ids --format cu8 --rate R
ids --format cu8
ids --rate R
ids
ids --deep all --json --format cu8 --rate R
ids --deep all --json --format cu8
ids --deep all --json --rate R
ids --deep all --json
ids --deep all --format cu8 --rate R
ids --deep all --format cu8
ids --deep all --rate R
ids --deep all
ids --deep --json --format cu8 --rate R
ids --deep --json --format cu8
ids --deep --json --rate R
ids --deep --json
ids --deep --format cu8 --rate R
ids --deep --format cu8
ids --deep --rate R
ids --deep
search --ports 2 --json --format cu8 --rate R
search --ports 2 --json --format cu8
search --ports 2 --json --rate R
search --ports 2 --json
search --ports 2 --format cu8 --rate R
search --ports 2 --format cu8
search --ports 2 --rate R
search --ports 2
search --ports 4 --json --format cu8 --rate R
search --ports 4 --json --format cu8
search --ports 4 --json --rate R
search --ports 4 --json
search --ports 4 --format cu8 --rate R
search --ports 4 --format cu8
search --ports 4 --rate R
search --ports 4
search --prefix long --json --format cu8 --rate R
search --prefix long --json --format cu8
search --prefix long --json --rate R
search --prefix long --json
search --prefix long --format cu8 --rate R
search --prefix long --format cu8
search --prefix long --rate R
search --prefix long
search --all --json --format cu8 --rate R
search --all --json --format cu8
search --all --json --rate R
search --all --json
search --all --format cu8 --rate R
search --all --format cu8
search --all --rate R
search --all
search --cancel --json --format cu8 --rate R
search --cancel --json --format cu8
search --cancel --json --rate R
search --cancel --json
search --cancel --format cu8 --rate R
search --cancel --format cu8
search --cancel --rate R
search --cancel
search --json --format cu8 --rate R
search --json --format cu8
search --json --rate R
search --json
search --format cu8 --rate R
search --format cu8
search --rate R
search
evidence --ports 2 --json --format cu8 --rate R
evidence --ports 2 --json --format cu8
evidence --ports 2 --json --rate R
evidence --ports 2 --json
evidence --ports 2 --format cu8 --rate R
evidence --ports 2 --format cu8
evidence --ports 2 --rate R
evidence --ports 2
evidence --ports 4 --json --format cu8 --rate R
evidence --ports 4 --json --format cu8
evidence --ports 4 --json --rate R
evidence --ports 4 --json
evidence --ports 4 --format cu8 --rate R
evidence --ports 4 --format cu8
evidence --ports 4 --rate R
evidence --ports 4
evidence --prefix long --json --format cu8 --rate R
evidence --prefix long --json --format cu8
evidence --prefix long --json --rate R
evidence --prefix long --json
evidence --prefix long --format cu8 --rate R
evidence --prefix long --format cu8
evidence --prefix long --rate R
evidence --prefix long
evidence --all --json --format cu8 --rate R
evidence --all --json --format cu8
evidence --all --json --rate R
evidence --all --json
evidence --all --format cu8 --rate R
evidence --all --format cu8
evidence --all --rate R
evidence --all
evidence --json --format cu8 --rate R
evidence --json --format cu8
evidence --json --rate R
evidence --json
evidence --format cu8 --rate R
evidence --format cu8
evidence --rate R
evidence
why PCI --ports 2 --json --format cu8 --rate R
why PCI --ports 2 --json --format cu8
why PCI --ports 2 --json --rate R
why PCI --ports 2 --json
why PCI --ports 2 --format cu8 --rate R
why PCI --ports 2 --format cu8
why PCI --ports 2 --rate R
why PCI --ports 2
why PCI --ports 4 --json --format cu8 --rate R
why PCI --ports 4 --json --format cu8
why PCI --ports 4 --json --rate R
why PCI --ports 4 --json
why PCI --ports 4 --format cu8 --rate R
why PCI --ports 4 --format cu8
why PCI --ports 4 --rate R
why PCI --ports 4
why PCI --prefix long --json --format cu8 --rate R
why PCI --prefix long --json --format cu8
why PCI --prefix long --json --rate R
why PCI --prefix long --json
why PCI --prefix long --format cu8 --rate R
why PCI --prefix long --format cu8
why PCI --prefix long --rate R
why PCI --prefix long
why PCI --json --format cu8 --rate R
why PCI --json --format cu8
why PCI --json --rate R
why PCI --json
why PCI --format cu8 --rate R
why PCI --format cu8
why PCI --rate R
why PCI
certify --ports 2 --format cu8 --rate R
certify --ports 2 --format cu8
certify --ports 2 --rate R
certify --ports 2
certify --ports 4 --format cu8 --rate R
certify --ports 4 --format cu8
certify --ports 4 --rate R
certify --ports 4
certify --prefix long --format cu8 --rate R
certify --prefix long --format cu8
certify --prefix long --rate R
certify --prefix long
certify --format cu8 --rate R
certify --format cu8
certify --rate R
certify
check
transmit --ports 2 --load N
transmit --ports 2
transmit --ports 4 --load N
transmit --ports 4
transmit --prefix long --load N
transmit --prefix long
transmit --load N
transmit
make N --ports 2
make N --ports 4
make N --prefix long
make N
help
--help
-h
version
--version
-V'
_lte_cli() {
    local word next form given=() skips='' current=${COMP_WORDS[COMP_CWORD]}
    COMPREPLY=()
    for word in "${COMP_WORDS[@]:1:COMP_CWORD - 1}"; do     # files that are read or written are no words of a form
        case $word in
            [\<\>]*) skips=yes ;;
            *) if [ "$skips" ]; then skips=''; else given+=("$word"); fi ;;
        esac
    done
    if [ "$skips" ] || [[ $current == [\<\>]* ]]; then
        compopt -o filenames 2> /dev/null
        mapfile -t COMPREPLY < <(compgen -f -- "${current##[<>]}")
        return
    fi
    while read -ra form; do
        for word in "${!given[@]}"; do
            case ${form[word]-} in
                PCI) [[ ${given[word]} =~ ^([0-9]|[1-9][0-9]|[1-4][0-9][0-9]|50[0-3])$ ]] || continue 2 ;;
                N) [[ ${given[word]} =~ ^(0|[1-9][0-9]*)$ ]] || continue 2 ;;
                M) [[ ${given[word]} =~ ^(0|-?[1-9][0-9]*)$ ]] || continue 2 ;;
                R) [[ ${given[word]} =~ ^(1\.92|3\.84|7\.68|15\.36|30\.72)$ ]] || continue 2 ;;
                "${given[word]}") ;;
                *) continue 2 ;;
            esac
        done
        next=${form[${#given[@]}]-}
        case $next in
            '' | PCI|N|M) continue ;;
            R) next='1.92 3.84 7.68 15.36 30.72' ;;
        esac
        for next in $next; do
            if [[ $next == "$current"* && " ${COMPREPLY[*]} " != *" $next "* ]]; then COMPREPLY+=("$next"); fi
        done
    done <<< "$_lte_cli_forms"
}
complete -o nosort -F _lte_cli lte_cli
