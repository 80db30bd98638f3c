#!/usr/bin/env bash
# windows.sh PROGRAM FILE [SAMPLES [STEP]]
#
# Searches a ci16_le file of any length at 1.92 million samples per second, window by window: SAMPLES samples (5 frames
# where it is left out) from every STEP samples on (2.5 frames). Before each line `cell` stands the sample of the file
# at which its window begins, so the frame of the line begins at the sum of the two.
set -eu
program=$1 file=$2 samples=${3:-96000} step=${4:-48000}
last=$(($(stat -Lc %s "$file") / 4 - samples))
for ((start = 0; start <= last; start += step)); do
    dd if="$file" bs=64k iflag=skip_bytes,count_bytes skip=$((4 * start)) count=$((4 * samples)) status=none |
        "$program" search | sed -n "s/^cell /$start cell /p"
done
