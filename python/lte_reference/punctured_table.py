#!/usr/bin/python3
"""A second program for which plans `transmit` accepts, from which the table of the tests of `cell_tx` comes.

For one text of SystemInformationBlockType1, of 113 bits, and each control format indicator, count of resource blocks
and column of the table of sizes, a line with one letter for each modulation and coding scheme, from 0 on:

    l   the text is longer than the transport block
    p   punctured: not every coded bit is sent, and the block cannot be resolved by those that are
    w   accepted, each coded bit is sent
    r   accepted, not each coded bit is sent, and the block can be resolved by those that are, from each of the four
        redundancy versions on

A block that is too short for the text is none that could be resolved; where not each of its coded bits is sent either,
the letter is p, which comes before l. Sizes and interleavers are those of search.py, the text that of
cell.py, what can be resolved that of erasure.py; nothing is shared with the repository's code.

    python3 -m lte_reference.punctured_table

It takes half a minute. Debian: python3-numpy, which search.py asks for.
"""
import json
import pathlib

from .erasure import crc24a, resolves
from .cell import text
from .search import INTERLEAVER, SIZES

DESCRIPTION = json.loads((pathlib.Path(__file__).resolve().parents[2] / "scripts/examples/plain_cell.json").read_text())
BITS = {2: 204, 3: 180}


def letter(size, count):
    """Returns the letter of a block of this size of which this number of bits is sent."""
    k, bits = size + 24, text(DESCRIPTION["sib1"])
    whole = 3 * (k + 4) <= count
    if len(bits) > size:
        return "l" if whole else "p"
    if whole:
        return "w"
    word = bits + [0] * (size - len(bits))
    word += crc24a(word)
    return "r" if all(resolves(word, (k, *INTERLEAVER[k]), rv, count) for rv in range(4)) else "p"


def main():
    for cfi, per_block in BITS.items():
        for column, sizes in enumerate(SIZES, 2):
            for blocks in range(1, 7):
                print(cfi, blocks, column, "".join(letter(size, blocks * per_block) for size in sizes), flush=True)


if __name__ == "__main__":
    main()
