#!/usr/bin/python3
"""python3 -m lte_reference.two_ports [-i] N [FIRST [COUNT]]

A second maker of recordings by number with two antenna ports (docs/FORMATS.md): the transmitter of cell.py
with two ports, and the recipe of make.py with two gains. It writes the recording to standard output. With -i it
prints the gains, the bound, sums over all samples, and COUNT samples from sample FIRST on.

    python3 -m lte_reference.two_ports -i 7

Debian: python3-numpy.
"""
import sys

from .cell import sent
from .make import command, recipe, with_errors


def gains(n):
    return (1 + n % 9, n % 10), (n % 11, -(n % 8))


def bound(n):
    first, second = (a * a + b * b for a, b in gains(n))
    eps = 0
    while 4 * (eps + 1) ** 2 <= first + second and (eps + 1) ** 2 <= 4 * first:
        eps += 1
    return eps


def recording(n, **keys):
    """Recording number n; for trials with other values of keys."""
    first, second = gains(n)
    cell = {**recipe(n), "gain": first, "gain2": second, **keys}
    return with_errors(sent(cell, "two"), n, bound(n))


def heading_of(n):
    first, second = gains(n)
    return f"gains {first} {second} bound {bound(n)}"


if __name__ == "__main__":
    command(sys.argv[1:], recording, heading_of)
