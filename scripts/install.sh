#!/usr/bin/env bash
# install.sh [PREFIX] [--jobs N] [--room DIR] [--deb FOLDER | --uninstall]
#
# Builds lte_cli and lte_tune and installs them in PREFIX (~/.local) with their tools, manual pages and completion, or
# writes a Debian package of them; `install.sh --help` and python/lte_gate/install.py say more.
python=$(command -v python3) || { echo 'install.sh: missing: python3' >&2; exit 1; }
"$python" -c 'import tomllib' 2> /dev/null || { echo 'install.sh: missing: Python 3.11 or newer' >&2; exit 1; }
top=$(cd "$(dirname "$0")/.." && pwd) || exit 1
PYTHONPATH=$top/python${PYTHONPATH:+:$PYTHONPATH} exec "$python" -m lte_gate.install "$@"
