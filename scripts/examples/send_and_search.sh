#!/usr/bin/env bash
# send_and_search.sh [DESCRIPTION]
#
# Sends a described cell, plain_cell.json beside this file where none is named, and searches for it:
# lte_cli transmit < DESCRIPTION | lte_cli search. The program is crates/lte_cli/out/lte_cli, which is built first where
# it is missing (and so proved); LTE_CLI names another.
set -eu
here=$(cd "$(dirname "$0")" && pwd)
crate=$here/../../crates/lte_cli
description=${1:-$here/plain_cell.json}
program=${LTE_CLI:-$crate/out/lte_cli}
[ -x "$program" ] || (cd "$crate" && rt run -- hits < ../capture_example/stdin > /dev/null)
"$program" transmit < "$description" | "$program" search
