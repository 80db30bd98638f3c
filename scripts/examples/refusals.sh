#!/usr/bin/env bash
# refusals.sh
#
# Runs lte_cli and lte_tune on what they refuse, an input for each of the codes 2, 3, 4, 5, 6, 7, 9 and 10, and compares
# the code, the line on standard error, and that nothing is on standard output (docs/FORMATS.md, "Exit codes"). LTE_CLI
# and LTE_TUNE name the programs; crates/lte_cli/out/lte_cli and crates/lte_tune/out/lte_tune where they are not set.
# Prints a line for what is not so, and a count; the status is 0 where all is.
set -u
crates=$(cd "$(dirname "$0")/../../crates" && pwd)
receiver=${LTE_CLI:-$crates/lte_cli/out/lte_cli}
tuner=${LTE_TUNE:-$crates/lte_tune/out/lte_tune}
room=$(mktemp -d)
trap 'rm -rf "$room"' EXIT
tried=0 wrong=0

refuses() { # refuses CODE LINE PROGRAM WORD..: of standard input
    "${@:3}" > "$room/out" 2> "$room/error"
    local code=$?
    tried=$((tried + 1))
    if [ "$code" != "$1" ] || [ "$(cat "$room/error")" != "$2" ] || [ -s "$room/out" ]; then
        echo "${*:3}: code $code for $1, line '$(cat "$room/error")' for '$2', $(stat -c %s "$room/out") bytes"
        wrong=$((wrong + 1))
    fi
}

usage='usage: no command has these arguments; a file is read from standard input (< FILE),'
usage+=' and options have one order (see the command help); --rate takes 1.92, 3.84, 7.68, 15.36 or 30.72'
refuses 2 "lte_cli: $usage" "$receiver" seek < /dev/null
refuses 2 "lte_tune: $usage" "$tuner" apply 2048 < /dev/null
refuses 3 'lte_cli: ragged: the input ends within a sample; check the format, or cut the last bytes' "$receiver" search < <(printf '\1\0\2\0\3')
refuses 4 'lte_cli: too short: the recording has less than 30 ms (57,600 samples without --rate); record more' "$receiver" search < <(printf '\0\0\0\0')
refuses 5 'lte_cli: too long: the input exceeds its limit; cut it, a recording to 1 s (1,920,000 samples without --rate)' "$receiver" search < /dev/zero
refuses 6 'lte_cli: read fault: standard input could not be read; check the file or the pipe' "$receiver" search < /
refuses 9 'lte_cli: bad cell: form; see the descriptions in FORMATS' "$receiver" transmit < <(echo '{}')
refuses 10 'lte_cli: bad certificate at byte 0; the input is damaged, or no file of certificates' "$receiver" check < <(printf '\0')
"$receiver" make 7 2> "$room/error" > /dev/full
code=$?
tried=$((tried + 1))
if [ "$code" != 7 ] || [ "$(cat "$room/error")" != 'lte_cli: write fault: standard output could not be written, and what it has is incomplete' ]; then
    echo "make 7 > /dev/full: code $code for 7, line '$(cat "$room/error")' for 'lte_cli: write fault: standard output could not be written, and what it has is incomplete'"
    wrong=$((wrong + 1))
fi
echo "$tried refusals, $wrong are others"
exit $((wrong > 0))
