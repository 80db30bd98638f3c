#!/usr/bin/python3
"""python3 -m lte_reference.wide_search RATE [--ports 2 | --ports 4 | --prefix long] < RECORDING

The list of a recording of RATE 1.92, 3.84, 7.68, 15.36 or 30.72 million samples per second: cells are found by
`search.py` in the recording at 1.92 million, and SIB1 that it does not read there is read from all subcarriers, if the
rate has them. Prints what `search.py` prints. Slow: seconds for each hit.
Debian: python3-numpy. Recordings: wide_sender.py.
"""
import sys
from typing import NamedTuple

from .search import LONG_PREFIX, ONE_PORT, RULES, cell_line, listed, recording, silent, system
from .wide_frames import read_frames
from .wide_places import WIDTHS, Cell
from .wide_slots import narrowed

RATES = ("1.92", "3.84", "7.68", "15.36", "30.72")
KEPT = 326_400  # samples at 1.92 million per second from which a list is made


class Line(NamedTuple):
    """An entry of the list, where SIB1 was read, and its lines or why there are none. SIB1 is read in the recording at
    1.92 million samples per second (`narrow`), or in one wide `frame` or several wide `frames`, or nowhere (`none`).
    `block` is the bits of its block, or None."""

    entry: tuple
    source: str
    text: str
    block: str | list | None = None


def cell_of(entry):
    """Returns the cell that an entry's master block describes."""
    _, identity, _, ports, block = entry
    return Cell(identity, ports, WIDTHS[block >> 21], bool(block >> 20 & 1), block >> 18 & 3)


def line_of(wide, rate, narrow, entry, rule):
    """Returns the line of an entry."""
    block, text = system(narrow, entry, silent, rule)
    cell = cell_of(entry)
    if block is not None:
        return Line(entry, "narrow", text, block)
    if rule == LONG_PREFIX or cell.subcarriers >= 128 << rate:
        return Line(entry, "none", text)
    start, _, sfn, _, _ = entry
    return Line(entry, *read_frames(wide, rate, cell, start, sfn))


def lines_of(samples, rate, rule=ONE_PORT):
    """Returns the lines of a list's entries."""
    wide = samples[: KEPT << rate]
    narrow = narrowed(wide, rate)
    return [line_of(wide, rate, narrow, entry, rule) for entry in listed(narrow, rule)]


def text_of(found):
    """Returns the text of a list as lines."""
    return "\n".join([f"cells {len(found)}"] + [f"{cell_line(one.entry)}\n{one.text}" for one in found]).split("\n")


def list_lines(samples, rate, rule=ONE_PORT):
    """Returns the lines of a list's text."""
    return text_of(lines_of(samples, rate, rule))


if __name__ == "__main__":
    if sys.argv[1:2] == [] or sys.argv[1] not in RATES or tuple(sys.argv[2:]) not in RULES:
        sys.exit(__doc__)
    print("\n".join(list_lines(recording(), RATES.index(sys.argv[1]), RULES[tuple(sys.argv[2:])])))
