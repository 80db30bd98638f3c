#!/usr/bin/env bash
# check.sh [--sources|--programs]
#
# Checks of the Python, the scripts and the pages. With --sources only those that need neither Rattle nor a built
# program: they take a minute once the reference implementations have run (rows), which takes two minutes of processor
# time. With --programs only those that run the built programs. Without a word both.
#   pyflakes3, black (120 columns) and mypy on the Python, shellcheck on the scripts;
#   edits: each mutant can be applied;
#   comments: comments are readable by themselves and follow the rules of English that a script can ask;
#   english: docstrings, help texts and refusals of Python have no more marked texts than each folder's budget;
#   layers: each entry of crates.txt is used, and large crates have a reason;
#   form_list: scripts/forms.txt has an example of each command form, and the tests of faults are made from it;
#   documents: what the pages name exists, numbers and lists of cells are right, and no page is too long;
#   crates_picture: the picture and list of the crates are those of the tree;
#   rows: what the reference implementations print is in the tests and pages that have it from them. A reference
#     implementation runs again only if it, or its input, has changed since its last run on this machine: its output is
#     kept in ~/.cache/lte_gate. It is not kept in the repository, where a committed checksum would not show that
#     anybody ran it;
#   made: manual pages and completion are those made from the forms of help and the tools' parsers, mandoc accepts them,
#     and completion offers each form's words; docs/OUTPUTS.md is the page made from the schema;
#   pytest: python/tests, over all three packages, in two processes: tests/gate, and the others.
# black, mypy and pytest run next to the other checks, and what they print follows; CHECK_JOBS=1 runs one after another.
# Run by hand: copies counts near copies; stands lists commits that do not stand as a whole (scripts/gate.sh lists all).
# If lte_cli is built (crates/lte_cli/out/lte_cli, or LTE_CLI), the tests of the programs, the examples and each completed
# form are run too. A check whose package is missing is left out, with a line that says so, here and at the end; nothing
# is installed. The status is 1 if a check fails.
set -u
cd "$(dirname "$0")/.." || exit 1
python=/usr/bin/python3                 # Debian's, which has Debian's packages
[ -x "$python" ] || python=python3
export PYTHONPATH=$PWD/python PYTHONDONTWRITEBYTECODE=1
case "${1-}" in
    '') parts='sources programs' ;;
    --sources) parts=sources ;;
    --programs) parts=programs ;;
    *) echo 'check.sh: usage: check.sh [--sources|--programs]' >&2; exit 2 ;;
esac
failed=()
left=()
jobs=${CHECK_JOBS:-$(nproc)}
aside=()                                # names of commands that run next to the others
room=$(mktemp -d)
trap 'rm -rf "$room"' EXIT

leave_out() { # leave_out WHAT WHY
    echo "left out: $1: $2"
    left+=("$1")
}

start() { # start NAME COMMAND WORD..: runs a command next to the others; its output and status are kept
    aside+=("$1")
    { "${@:2}"; echo $? > "$room/$1.status"; } > "$room/$1" 2>&1 &
    if [ "$jobs" -lt 2 ]; then wait; fi
}

finish() { # waits for these commands, and prints what they wrote
    local name
    wait
    for name in "${aside[@]}"; do
        cat "$room/$name"
        if [ "$(cat "$room/$name.status")" != 0 ]; then
            echo "check.sh: failed: $name"
            failed+=("$name")
        fi
    done
}

check() { # check PACKAGE COMMAND WORD..: runs a command of a package of Debian
    if ! command -v "$2" > /dev/null; then
        leave_out "$2" "not installed (Debian: $1)"
    elif ! "${@:2}"; then
        echo "check.sh: failed: $2${3:+ $3}"
        failed+=("$2${3:+ $3}")
    fi
}

gate() { # gate MODULE WORD..: runs a check of python/lte_gate
    if ! "$python" -m "lte_gate.$1" "${@:2}"; then
        echo "check.sh: failed: $1"
        failed+=("$1")
    fi
}

tests() { # tests MARKERS WORD..: these tests of python/tests
    (cd python && "$python" -m pytest -m "$1" "${@:2}")
}

holds() { # holds PART: whether this part was asked for
    [[ " $parts " == *" $1 "* ]]
}

has() { # has MODULE..: whether this Python has these modules
    local module
    for module; do "$python" -c "import $module" 2> /dev/null || return 1; done
}

says() { # says TEXT WORD..: an example writes this line
    if ! "${@:2}" | grep -q "^$1\$"; then
        echo "check.sh: failed: ${*:2}"
        failed+=("${*:2}")
    fi
}

check_sources() {
    mapfile -t sources < <(find scripts python -name '*.py' | sort)
    mapfile -t shells < <(find scripts -name '*.sh' | sort)
    check pyflakes3 pyflakes3 "${sources[@]}"
    check shellcheck shellcheck "${shells[@]}" .ci/run
    check shellcheck shellcheck -s bash scripts/install/completion/*.bash
    if [[ $(black --version 2> /dev/null) == *' 23.'* ]]; then
        start black black --check --quiet --diff --line-length 120 scripts python
    else
        leave_out black 'it formats by its version (Debian 12: black 23)'
    fi
    if ! has numpy; then
        leave_out mypy 'no numpy (Debian: python3-numpy)'
    elif command -v mypy > /dev/null; then
        start mypy mypy --config-file python/pyproject.toml \
            --cache-dir "${XDG_CACHE_HOME:-$HOME/.cache}/lte_gate/mypy" python/lte_tools
    else
        leave_out mypy 'not installed (Debian: mypy)'
    fi
    if has pytest numpy scipy matplotlib; then
        start pytest-gate tests 'not slow and not program' tests/gate
        start pytest-tools tests 'not slow and not program' tests --ignore tests/gate
    else
        leave_out 'python/tests' 'no pytest, numpy, scipy or matplotlib (Debian: python3-pytest and so on)'
    fi
    gate edits
    gate comments
    gate english
    gate layers
    gate form_list
    gate documents
    gate crates_picture docs/ARCHITECTURE.md
    gate rows
    if has numpy scipy matplotlib; then
        gate made
    else
        leave_out 'made' 'no numpy, scipy or matplotlib (Debian: python3-numpy, python3-scipy, python3-matplotlib)'
    fi
    check mandoc mandoc -Tlint scripts/install/man/*.1
}

check_programs() {
    if [ ! -x "$program" ]; then
        leave_out 'examples, and tests of the programs' 'lte_cli is not built'
        return
    fi
    if has pytest numpy scipy matplotlib; then
        start pytest-programs tests 'not slow and program' tests
    else
        leave_out 'tests of the programs' 'no pytest, numpy, scipy or matplotlib (Debian: python3-pytest and so on)'
    fi
    says 'cell 0 at 0 .*' bash scripts/examples/send_and_search.sh
    says '0 yes' bash scripts/examples/certify_and_check.sh
    says '9 refusals, 0 are others' bash scripts/examples/refusals.sh
}

program=$(realpath -m "${LTE_CLI:-crates/lte_cli/out/lte_cli}")
export LTE_CLI=$program LTE_TUNE=${LTE_TUNE:-${program//lte_cli/lte_tune}}
if holds sources; then check_sources; fi
if holds programs; then check_programs; fi
check bash bash scripts/install/test_completion.sh
finish
if [ ${#left[@]} != 0 ]; then
    echo "check.sh: LEFT OUT ${#left[@]}: $(printf '%s; ' "${left[@]}")"
fi
if [ ${#failed[@]} != 0 ]; then
    echo "check.sh: FAILED ${#failed[@]}: $(printf '%s; ' "${failed[@]}")"
    exit 1
fi
