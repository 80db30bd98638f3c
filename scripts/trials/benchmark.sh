#!/usr/bin/env bash
# benchmark.sh [RUNS [OTHER [OTHER_TUNER]]]
#
# Times of each form of words of both programs on a fixed set of recordings, as two Markdown tables: processor time (user
# and system) of whole runs, the median of RUNS of them (5), the least in brackets, and the peak memory. OTHER is another
# program that takes the words of lte_cli, OTHER_TUNER one that takes those of lte_tune; their runs stand beside, by
# turns. The recordings are made in a temporary folder: by `transmit` and `apply`, by
# scripts/trials/benchmark/many_hits.c (with a C compiler, CC or cc; left out without one) and by Python 3. Each program
# checks certificates that it wrote itself. A case whose first run takes more than 10 seconds is not repeated: its time
# has a *.
#
# The programs are crates/lte_cli/out/lte_cli and crates/lte_tune/out/lte_tune; LTE_CLI and LTE_TUNE name others.
set -eu
cd "$(dirname "$0")/../.."
program=$(realpath -m "${LTE_CLI:-crates/lte_cli/out/lte_cli}")
tuner=$(realpath -m "${LTE_TUNE:-crates/lte_tune/out/lte_tune}")
runs=${1:-5}
programs=("$program" ${2:+"$(realpath -m "$2")"})
tuners=("$tuner" ${3:+"$(realpath -m "$3")"})
for one in "${programs[@]}" "${tuners[@]}"; do
    [ -x "$one" ] || { echo "benchmark.sh: no program at $one; rt run in its crate builds it" >&2; exit 1; }
done
scripts=$PWD/scripts
room=$(mktemp -d)
trap 'rm -rf "$room"' EXIT
cd "$room"

describe() { # describe IDENTITY OFFSET SAMPLES: a description of such a cell
    sed -e "s/\"identity\": 0/\"identity\": $1/; s/\"offset\": 0/\"offset\": $2/; s/57600/$3/; s/\[1, 0\]/[14, 0]/" \
        "$scripts/examples/plain_cell.json"
}

noise() { # noise SAMPLES: components of 16 random bits
    python3 -c 'import random, sys; sys.stdout.buffer.write(random.Random(1).randbytes(4 * int(sys.argv[1])))' "$1"
}

again() { # again COUNT FILE: the file so many times
    for ((i = 0; i < $1; i++)); do cat "$2"; done
}

for samples in 57600 1920000; do
    head -c $((4 * samples)) /dev/zero > zeros.$samples
    noise $samples > noise.$samples
    describe 271 5000 $samples > cell.$samples.json
    sed 's/"gain": \[14, 0\]/&, "gain2": [0, 14]/' cell.$samples.json > ports2.$samples.json
    sed 's/"gain": \[14, 0\]/"gain": [7, 0], "gain2": [0, 7], "gain3": [0, -7], "gain4": [-7, 0]/' \
        cell.$samples.json > ports4.$samples.json
    "$program" transmit < cell.$samples.json > cell.$samples
    describe 102 12345 $samples | "$program" transmit > further
    PYTHONPATH=$scripts/../python python3 -m lte_tools.add_recordings cell.$samples further > two.$samples
    "$tuner" apply 128 < cell.$samples > turned.$samples
done
python3 -c 'import sys; sys.stdout.buffer.write(bytes(b ^ 128 for b in sys.stdin.buffer.read()[1::2]))' \
    < cell.1920000 > bytes.1920000
{ cat noise.1920000; printf x; } > long

recordings=(zeros.57600 noise.57600 cell.57600 two.57600 noise.1920000 cell.1920000 two.1920000)
if ${CC:-cc} -O2 -ffp-contract=off -o many_hits "$scripts/trials/benchmark/many_hits.c" -lm; then
    ./many_hits 256 4000 44 57600 noise 30000 > many.57600 2> /dev/null
    ./many_hits 256 4000 44 192000 noise 30000 > many.192000 2> /dev/null
    recordings+=(many.57600 many.192000)
else
    echo 'benchmark.sh: no C compiler: without the recordings of many hits' >&2
fi

for number in "${!programs[@]}"; do
    "${programs[number]}" certify < cell.57600 > "certificate.$number"
    bytes=$(stat -c %s "certificate.$number")
    again 100 "certificate.$number" > "hundred.$number"
    again $((67108864 / bytes)) "certificate.$number" > "full.$number"
done

{ # one case a line: words with + between them, file (with {} for the program's number), exit code, what the file is
    echo 'hits long 5 one byte more than a second: only read'
    for command in hits ids search why+271 certify; do
        for recording in "${recordings[@]}"; do
            case $recording in
                cell.*) what='one cell' ;;
                two.*) what='two cells' ;;
                many.57600) what='many hits' ;;
                many.*) what='many hits, then noise' ;;
                *) what=${recording%.*} ;;
            esac
            echo "$command $recording 0 $what, ${recording#*.} samples"
        done
    done
    for samples in 57600 1920000; do
        for form in ids+--deep{,+all} search+{--ports+2,--ports+4,--prefix+long,--cancel,--all} \
            evidence{,+--ports+2,+--ports+4,+--prefix+long,+--all} {why+271,certify}+{--ports+2,--ports+4,--prefix+long}; do
            echo "$form cell.$samples 0 one cell, $samples samples"
        done
    done
    for form in {hits,ids,ids+--deep,search,evidence}+--json {search,evidence}+{--ports+2,--ports+4,--prefix+long}+--json \
        search+{--cancel,--all}+--json evidence+--all+--json why+271+--json; do
        echo "$form cell.57600 0 one cell, 57600 samples"
    done
    for form in search certify evidence; do
        echo "$form+--format+cu8 bytes.1920000 0 one cell in 8-bit numbers, 1920000 samples"
    done
    echo 'check certificate.{} 0 one certificate'
    echo 'check hundred.{} 0 100 certificates'
    echo 'check full.{} 0 as many certificates as are read'
    for samples in 57600 1920000; do
        for form in transmit{,+--prefix+long}{,+--load+7}; do
            echo "$form cell.$samples.json 0 $samples samples"
        done
        for ports in 2 4; do
            for form in transmit+--ports+$ports{,+--load+7}; do
                echo "$form ports$ports.$samples.json 0 $samples samples"
            done
        done
    done
    for form in make+89{,+--ports+2,+--ports+4,+--prefix+long} help version; do
        echo "$form /dev/null 0 none"
    done
} > cases

{
    for recording in noise.57600 noise.1920000 {cell,turned}.{57600,1920000}; do
        case $recording in
            noise.*) what=noise ;;
            cell.*) what='one cell' ;;
            *) what='one cell, 15 kHz off' ;;
        esac
        for form in tell{,+--json} apply{,+-128}; do
            echo "$form $recording 0 $what, ${recording#*.} samples"
        done
    done
    for form in help version; do
        echo "$form /dev/null 0 none"
    done
} > tuner_cases

python3 "$scripts/trials/benchmark/measure.py" "$runs" "${programs[@]}" < cases
echo
python3 "$scripts/trials/benchmark/measure.py" "$runs" "${tuners[@]}" < tuner_cases
