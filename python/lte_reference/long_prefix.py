#!/usr/bin/python3
"""python3 -m lte_reference.long_prefix [-i | --spoiled SIZE] N [FIRST [COUNT]]

A second maker of recordings by number with the extended cyclic prefix (docs/FORMATS.md): the transmitter of
cell.py with this prefix, and the recipe of make.py. It writes the recording to standard output. With -i
it prints the gain, the bound, sums over all samples, and COUNT samples from sample FIRST on. With --spoiled there is
noise of at most SIZE in slot 1 of each frame that begins in the recording.

    python3 -m lte_reference.long_prefix -i 7
    python3 -m lte_reference.long_prefix --spoiled 900 1 | python3 -m lte_reference.search --prefix long why

Debian: python3-numpy.
"""
import sys

import numpy as np

from .cell import sent
from .make import bound, command, recipe, with_errors


def recording(n, **keys):
    """Recording number n; for trials with other values of keys."""
    cell = {**recipe(n), **keys}
    return with_errors(sent(cell, "long"), n, bound(cell))


def spoiled(n, most):
    """The recording with noise in slot 1 of each frame, by a generator of 32 bits."""
    samples, state = recording(n), 1
    for frame in range(-recipe(n)["offset"] % 19_200, len(samples), 19_200):
        for i in range(frame + 960, min(frame + 1920, len(samples))):
            for part in (0, 1):
                state = (state * 1_664_525 + 1_013_904_223) % 2**32
                samples[i, part] += (state >> 16) % (2 * most + 1) - most
    return np.clip(samples, -32_768, 32_767)


def heading_of(n):
    real, imag = recipe(n)["gain"]
    return f"gain {real} {imag} bound {bound(recipe(n))}"


def main():
    if sys.argv[1] == "--spoiled":
        sys.stdout.buffer.write(spoiled(int(sys.argv[3]), int(sys.argv[2])).astype("<i2").tobytes())
        return
    command(sys.argv[1:], recording, heading_of)


if __name__ == "__main__":
    main()
