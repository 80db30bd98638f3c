#!/usr/bin/python3
"""python3 -m lte_reference.four_ports [-i] N [FIRST [COUNT]]

A second maker of recordings by number with four antenna ports (docs/FORMATS.md): the transmitter of cell.py
with four ports, and the recipe of make.py with four gains. It writes the recording to standard output. With -i
it prints the gains, the bound, sums over all samples, and COUNT samples from sample FIRST on.

    python3 -m lte_reference.four_ports -i 7

Debian: python3-numpy.
"""
import sys

from .cell import sent
from .make import command, recipe, with_errors


def gains(n):
    """Returns gains of similar magnitude, each near its own quarter of a cycle."""
    return (4, n % 7 - 3), (n % 5 - 2, 4), (-3, n % 4 - 2), (n % 3 - 1, -4)


def bound(n):
    squares = [a * a + b * b for a, b in gains(n)]
    eps = 0
    while 64 * (eps + 1) ** 2 <= sum(squares) and (eps + 1) ** 2 <= 4 * squares[0]:
        eps += 1
    return eps


def recording(n, **keys):
    """Recording number n; for trials with other values of keys."""
    its = dict(zip(("gain", "gain2", "gain3", "gain4"), gains(n)))
    return with_errors(sent({**recipe(n), **its, **keys}, "four"), n, bound(n))


def heading_of(n):
    return " ".join(["gains", *map(str, gains(n)), "bound", str(bound(n))])


if __name__ == "__main__":
    command(sys.argv[1:], recording, heading_of)
