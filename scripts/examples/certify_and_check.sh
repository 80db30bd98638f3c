#!/usr/bin/env bash
# certify_and_check.sh [RECORDING]
#
# Certifies each master block of a recording's list, of the shipped recording where none is named, and checks the
# certificates in a second process: lte_cli certify < RECORDING | lte_cli check. The program is
# crates/lte_cli/out/lte_cli, which is built first where it is missing (and so proved); LTE_CLI names another.
set -eu
here=$(cd "$(dirname "$0")" && pwd)
crate=$here/../../crates/lte_cli
recording=${1:-$crate/../capture_example/stdin}
program=${LTE_CLI:-$crate/out/lte_cli}
[ -x "$program" ] || (cd "$crate" && rt run -- hits < ../capture_example/stdin > /dev/null)
"$program" certify < "$recording" | "$program" check
