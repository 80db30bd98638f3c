#!/usr/bin/env bash
# fuzz.sh SECONDS [PROGRAM [OTHER]]
#
# Gives random and spoiled recordings, descriptions, certificates and words to every command of PROGRAM for so long
# (crates/lte_cli/out/lte_cli where it is left out; the commands are those of lte_tune where it has that name), and
# reports what docs/FORMATS.md does not allow: an end by a signal, an exit code beside 0 and 2 to 10, output after a
# code other than 0 and 7, another text on standard error than that code's, and a code that the length of a recording
# does not have; and each run of more than 20 seconds of processor time. With OTHER, the same program by another
# compiler, each difference of code, output or text too. The inputs of findings are kept in a temporary folder.
#
# SEED=NUMBER gives the inputs of an earlier run, whose seed was printed. Takes Python 3.9 or later. The status is 0
# where nothing was found.
set -eu
here=$(cd "$(dirname "$0")" && pwd)
if [ $# -lt 1 ] || [ $# -gt 3 ]; then echo 'usage: fuzz.sh SECONDS [PROGRAM [OTHER]]' >&2; exit 2; fi
program=${2:-$here/../../crates/lte_cli/out/lte_cli}
[ -x "$program" ] || { echo "fuzz.sh: no program at $program; rt run in crates/lte_cli builds it" >&2; exit 2; }
exec python3 "$here/fuzz.py" "$1" "$program" ${3:+"$3"}
