#!/usr/bin/env bash
# many.sh FILE..
#
# Surveys many files side by side, one for each processor of each machine, and prints one table for other programs: the
# columns of `lte_survey --csv`, of which the first is the file's name, in the order of the files. SURVEY has further
# arguments of lte_survey (SURVEY='--form u8 --rate 2.4e6'). The status is the number of files that were refused; their
# causes stand on standard error. MACHINES lists the machines as GNU parallel's --sshlogin takes them, with `:` for this
# one (MACHINES=:,radio1,8/radio2); programs, scripts and files are carried there by ssh and rsync, and taken away
# again: name the files from the folder that you are in. LTE_CLI and LTE_TUNE name the programs, else they are those
# built here, or those in PATH.
# Debian: python3-numpy, python3-scipy, with MACHINES parallel and rsync.
set -eu
top=$(cd "$(dirname "$0")/../.." && pwd)
python=$top/python
program() { # program NAME: the path of a program that is built here, or that is in PATH
    local built=$top/crates/$1/out/$1
    if [ -x "$built" ]; then echo "$built"; else command -v "$1" || echo "$built"; fi
}
cli=$(realpath -m "${LTE_CLI:-$(program lte_cli)}")
tune=$(realpath -m "${LTE_TUNE:-$(program lte_tune)}")
for program in "$cli" "$tune"; do
    [ -x "$program" ] || { echo "many.sh: no program at $program" >&2; exit 1; }
done
one_head() { # the line of names once
    awk 'NR == 1 { head = $0; print } $0 != head'
}

survey() { # survey FILE NUMBER: the table of a file, kept by its number in the order of the files
    # shellcheck disable=SC2086 # SURVEY has several words
    /usr/bin/python3 -m lte_tools.survey "$1" --csv --jobs 1 ${SURVEY:-} > "$room/$2.csv" 2> "$room/$2.err" ||
        touch "$room/$2.refused"
}

if [ -z "${MACHINES:-}" ]; then
    export LTE_CLI=$cli LTE_TUNE=$tune
    export PYTHONPATH=$python
    room=$(mktemp -d)
    trap 'rm -rf "$room"' EXIT
    number=0
    for file; do
        [ "$number" -lt "$(nproc)" ] || wait -n || true
        number=$((number + 1))
        survey "$file" "$(printf %09d "$number")" &
    done
    wait
    cat "$room"/*.err >&2
    cat "$room"/*.csv | one_head
    refused=$(find "$room" -name '*.refused' | wc -l)
    exit $((refused > 101 ? 101 : refused))
fi
command -v parallel > /dev/null || { echo "many.sh: no parallel, for MACHINES (Debian: parallel)" >&2; exit 1; }
copy=.many.$$                                    # carried to each machine, beside the files
mkdir "$copy"
trap 'rm -rf "$copy"' EXIT
cp "$cli" "$copy/lte_cli"
cp "$tune" "$copy/lte_tune"
mkdir "$copy/lte_tools"
cp "$python"/lte_tools/*.* "$copy/lte_tools"
mapfile -t carried < <(printf -- '--basefile\n%s\n' "$copy"/lte_{cli,tune} "$copy"/lte_tools/*)
names="LTE_CLI=$copy/lte_cli LTE_TUNE=$copy/lte_tune PYTHONPATH=$copy"
parallel --will-cite --keep-order --sshlogin "$MACHINES" "${carried[@]}" --transferfile {} --cleanup \
    "$names /usr/bin/python3 -m lte_tools.survey {} --csv --jobs 1 ${SURVEY:-}" ::: "$@" | one_head
exit "${PIPESTATUS[0]}"
