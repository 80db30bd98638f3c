#!/usr/bin/env python3
"""python3 -m lte_tools.add_recordings FIRST SECOND [LATER] > SUM

Adds two recordings of any lengths, component by component.

SECOND begins LATER samples after FIRST (0), or before it if LATER is negative; where one has no samples, the other stays
as it is. A sum that does not fit 16 bits is an error.

    python3 -m lte_tools.add_recordings a.ci16 b.ci16 5000 > both.ci16
"""
from __future__ import annotations

import argparse
import array
import pathlib
import sys

from . import foreign, machine
from .arguments import Parser

MOST_BYTES = 1_000_000_000  # of a recording


def components(name: pathlib.Path) -> array.array[int]:
    """Returns the components of a recording."""
    data = foreign.read(name, MOST_BYTES)
    if len(data) % 4:
        raise machine.Refused(f"{name}: {len(data)} bytes, cut within a sample of 4")
    numbers = array.array("h", data)
    if sys.byteorder == "big":
        numbers.byteswap()
    return numbers


def placed(numbers: array.array[int], before: int, count: int) -> array.array[int]:
    """Returns the components with this number of zeros before them, and zeros after them up to a count."""
    return array.array("h", bytes(2 * before)) + numbers + array.array("h", bytes(2 * (count - before - len(numbers))))


def parser() -> argparse.ArgumentParser:
    """Returns the parser of the arguments."""
    parser = Parser(__doc__, brief=True)
    parser.add_argument("first", metavar="FIRST", type=pathlib.Path)
    parser.add_argument("second", metavar="SECOND", type=pathlib.Path)
    parser.add_argument("later", metavar="LATER", nargs="?", type=int, default=0, help="samples")
    return parser


def command() -> None:
    args = parser().parse_args()
    first, second, later = components(args.first), components(args.second), 2 * args.later
    before = max(0, -later), max(0, later)
    count = max(before[0] + len(first), before[1] + len(second))
    try:
        total = array.array("h", map(int.__add__, placed(first, before[0], count), placed(second, before[1], count)))
    except OverflowError:
        raise machine.Refused("16 bits do not hold the sum") from None
    if sys.byteorder == "big":
        total.byteswap()
    sys.stdout.buffer.write(total.tobytes())


def main() -> None:
    machine.run(command)


if __name__ == "__main__":
    main()
