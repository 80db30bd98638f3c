#!/usr/bin/env bash
# from_sigmf.sh META [CARRIER] > RECORDING
#
# Makes a recording of a SigMF recording: META is its .sigmf-meta file, beside which the .sigmf-data file stands.
# CARRIER is the cell's frequency in hertz (796.7e6 too), where it is not the centre that the file was recorded at. Of
# several captures the first alone is read. Debian: jq, and what to_ci16.py wants.
set -eu
here=$(cd "$(dirname "$0")" && pwd)
meta=${1:?META is wanting}
data=${meta%.sigmf-meta}.sigmf-data
refuse() {
    echo "from_sigmf.sh: $meta: $1" >&2
    exit 1
}
if [ ! -r "$meta" ] || [ ! -r "$data" ]; then refuse "no such file, or none .sigmf-data beside it"; fi
read -r type rate shift channels < <(jq -r --arg carrier "${2:-}" \
    '(.captures[0]."core:frequency" // 0) as $centre | .global
     | [."core:datatype", (."core:sample_rate" | tonumber),
        (if $carrier == "" then 0 else ($carrier | tonumber) - $centre end), (."core:num_channels" // 1)]
     | map(tostring) | join(" ")' "$meta" 2> /dev/null) || refuse "no datatype and rate in it, or CARRIER is no number"
[ "$channels" = 1 ] || refuse "$channels channels: lte_survey --channel reads one"
case $type in
    cu8) kind=u8 ;;
    ci8) kind=s8 ;;
    ci16_le) kind=s16 ;;
    cf32_le) kind=f32 ;;
    *) refuse "datatype $type" ;;
esac
if [ "$kind $rate $shift" = "s16 1920000 0" ]; then
    head -c 7680000 "$data"                     # it is a recording already
else
    PYTHONPATH=$here/../../python /usr/bin/python3 -m lte_tools.to_ci16 "$kind" "$rate" "$shift" < "$data"
fi
