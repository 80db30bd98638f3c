#!/usr/bin/env bash
# gate.sh NAME [WORD..]
#
# Runs the check or command NAME of python/lte_gate, as `gate.sh edits` or `gate.sh mutants cell_tx`. Without words it
# lists them.
top=$(cd "$(dirname "$0")/.." && pwd) || exit 1
python=/usr/bin/python3                 # Debian's, which has Debian's packages
[ -x "$python" ] || python=python3
if [ $# = 0 ]; then
    PYTHONPATH=$top/python exec "$python" -m lte_gate
fi
PYTHONPATH=$top/python exec "$python" -m "lte_gate.$1" "${@:2}"
