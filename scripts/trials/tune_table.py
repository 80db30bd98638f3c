#!/usr/bin/python3
"""tune_table.py LTE_CLI LTE_TUNE [CELLS]

Moves recordings of CELLS random cells (20) by random frequency offsets up to 60 kHz, searches each as it is and after
`LTE_TUNE apply`, and prints a table: of how many the list holds the cell without an offset, with it, and after the
turn; and how many lines `cell` are then of no cell that was sent. Each number is an observation: nothing here is
proved. The numbers are drawn with fixed seeds, so a second run prints the same table. Recordings are those of
impair.py.

Debian: python3-numpy, python3-scipy.
"""
import shutil
import subprocess
import sys

import numpy as np

import packages

packages.add()
import impair
from lte_tools import radio

WIDEST = 60_000
NOISES = (20, 10, 5, 3, 0)


def applied(program, x):
    """Returns the output of the tuning program for a recording."""
    done = subprocess.run([program, "apply"], input=radio.to_bytes(x), stdout=subprocess.PIPE, check=True)
    return radio.from_bytes(done.stdout)


def row(search, tune, full, decibels, count):
    """Found without an offset, with it and after the turn, and lines of no cell that was sent."""
    found, others = [0, 0, 0], 0
    for seed in range(count):
        draw = np.random.default_rng(seed)
        sent = impair.Sent(search, draw, full)
        still = impair.noise(decibels)(sent.samples, draw)
        moved = radio.shifted(still, draw.uniform(-WIDEST, WIDEST))
        for i, x in enumerate((still, moved, applied(tune, moved))):
            lines = radio.cells(search, x)
            held = any(sent.is_line(words) for words in lines)
            found[i] += held
            others += len(lines) - held if i == 2 else 0
    return found, others


def main(search, tune, count="20"):
    for one in (search, tune):
        if shutil.which(one) is None:
            sys.exit(f"tune_table.py: no program at {one}; rt run in its crate builds it")
    print("| carrier | Es/N0 | cells | without an offset | with it | after the turn | other lines |")
    print("|---|---|---|---|---|---|---|")
    for full in (True, False):
        for decibels in NOISES:
            found, others = row(search, tune, full, decibels, int(count))
            name = "loaded" if full else "empty"
            print(f"| {name} | {decibels} dB | {count} | {found[0]} | {found[1]} | {found[2]} | {others} |", flush=True)


if __name__ == "__main__":
    if not 3 <= len(sys.argv) <= 4:
        sys.exit(__doc__)
    main(*sys.argv[1:])
