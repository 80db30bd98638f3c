# bash completion for lte_survey
# Made by scripts/gate.sh made --write: change its sources, not this file.
_lte_survey() {
    local current=${COMP_WORDS[COMP_CWORD]} choices=''
    COMPREPLY=()
    case ${COMP_WORDS[COMP_CWORD - 1]} in
        --form | --format) choices='u8 s8 s16 f32 sigmf' ;;
        --rate) compopt +o default 2> /dev/null; return ;;
        --shift) compopt +o default 2> /dev/null; return ;;
        --carrier) compopt +o default 2> /dev/null; return ;;
        --at) compopt +o default 2> /dev/null; return ;;
        --channel) compopt +o default 2> /dev/null; return ;;
        --every) compopt +o default 2> /dev/null; return ;;
        --offset) compopt +o default 2> /dev/null; return ;;
        --gain) compopt +o default 2> /dev/null; return ;;
        --jobs) compopt +o default 2> /dev/null; return ;;
        --earfcn) compopt +o default 2> /dev/null; return ;;
        --until) compopt +o default 2> /dev/null; return ;;
        --resume) return ;;
        --part) compopt +o default 2> /dev/null; return ;;
        --join) return ;;
        --dask) compopt +o default 2> /dev/null; return ;;
        --carriers) compopt +o default 2> /dev/null; return ;;
        --track) return ;;
        --gpsd) return ;;
        --start) compopt +o default 2> /dev/null; return ;;
        --geojson) return ;;
        --pcap) return ;;
        --html) return ;;
        --csv-windows) return ;;
        --kml) return ;;
        --plan) return ;;
        --network) compopt +o default 2> /dev/null; return ;;
        --clashes) compopt +o default 2> /dev/null; return ;;
        --coverage) compopt +o default 2> /dev/null; return ;;
        --grid) compopt +o default 2> /dev/null; return ;;
        --pollution) compopt +o default 2> /dev/null; return ;;
        *) if [[ $current == -* ]]; then choices='-h --help --version --form --format --rate --shift --carrier --at --exchanged --channel --every --offset --gain --jobs --scan --deep --earfcn --until --resume --so-far --part --join --dask --carriers --follow --wait --track --gpsd --start --geojson --pcap --html --csv-windows --kml --plan --network --clashes --coverage --servers --grid --pollution --neighbours --classes --csv --json'; else return; fi ;;
    esac
    mapfile -t COMPREPLY < <(compgen -W "$choices" -- "$current")
}
complete -o nosort -o default -F _lte_survey lte_survey
