#!/usr/bin/env python3
"""A second transmitter of slot 1 of the four frames of a period, of which each keeps only some places of the broadcast
channel, from which rows of tests come (`crates/slot_tests`, `crates/list_tests`). Nothing is shared with the
repository's code; sequence, check and code are those of `subframe.py`. TS 36.211 sections 6.6
and 6.10, TS 36.212 section 5.3.1.

    python3 -m lte_reference.frames

A row is a symbol of 72 subcarriers, as in `subframe.py`. Of the second four frames it is tried
which of them tell a block together: by the first of the words that agree with all coded bits that were kept.
"""
from .subframe import bits_of, crc16, gold, show, tail_biting

IDENTITY = 0
MASKS = {1: 0x0000, 2: 0xFFFF, 4: 0x5555}
# width n6, PHICH normal and one, upper bits 0, spare bits 0
PLAIN = bits_of(0, 3) + [0] + bits_of(2, 2) + bits_of(0, 8) + bits_of(0, 10)
# width n6, PHICH extended and two, upper bits 181, spare bits 1000
OTHER = bits_of(0, 3) + [1] + bits_of(3, 2) + bits_of(181, 8) + bits_of(1000, 10)


def word_of(block, ports):
    return block + [a ^ b for a, b in zip(crc16(block), bits_of(MASKS[ports], 16))]


def places():
    """Of symbols 0 to 3 of slot 1 all places but those of the reference signals of four antenna ports."""
    return [(l, k) for l in range(4) for k in range(72) if l > 1 or k % 3 != IDENTITY % 3]


def references(grid):
    for l in (0, 4):
        c = gold(2**10 * (7 * 2 + l + 1) * (2 * IDENTITY + 1) + 2 * IDENTITY + 1, 240)
        for m in range(12):
            k = 6 * m + ((0 if l == 0 else 3) + IDENTITY) % 6
            grid[l, k] = 2 * c[2 * (m + 104)] + c[2 * (m + 104) + 1]


def rows(word, phase, kept):
    """Symbols 0 to 4 of the frame of this phase, with the places i for which `kept` tells so."""
    coded = tail_biting(word, 1920)
    sent = [a ^ b for a, b in zip(coded, gold(IDENTITY, 1920))][480 * phase : 480 * phase + 480]
    grid = {}
    references(grid)
    for i, place in enumerate(places()):
        if kept(i):
            grid[place] = 2 * sent[2 * i] + sent[2 * i + 1]
    return ["".join(str(grid.get((l, k), ".")) for k in range(72)) for l in range(5)]


def first_word(known):
    """Returns the first word of 40 bits that agrees with these coded bits, by position; None if none does."""
    units = [tail_biting([int(i == k) for i in range(40)], 120) for k in range(40)]
    # equations on the bits of the word, the last bits first, so that free bits are early ones
    pivots = {}
    for place, bit in known:
        row = [units[k][place % 120] for k in range(40)] + [bit]
        for k in range(39, -1, -1):
            if row[k] and k in pivots:
                row = [a ^ b for a, b in zip(row, pivots[k])]
            elif row[k]:
                pivots[k] = row
                break
        else:
            if row[40]:
                return None
    word = []
    for k in range(40):
        word.append((pivots[k][40] + sum(a * b for a, b in zip(pivots[k], word))) % 2 if k in pivots else 0)
    return word


def tells(word):
    return any(word == word_of(word[:24], ports) for ports in MASKS) and word[:3] not in ([1, 1, 0], [1, 1, 1])


def tried(word, kept):
    """Which of these four frames and a silent fifth tell a block together, by count, first frame and phase; open where
    no word agrees with all sums."""
    coded = tail_biting(word, 1920)
    sequence = gold(IDENTITY, 1920)
    found = []
    for count in range(1, 5):
        for first in range(6 - count):
            for phase in range(5 - count):
                known = []
                for m in range(count):
                    for i in range(240) if first + m < 4 else ():
                        if kept(first + m, i):
                            for n in (2 * i, 2 * i + 1):
                                sent = coded[480 * (first + m) + n] ^ sequence[480 * (first + m) + n]
                                known.append((n, sent ^ sequence[480 * (phase + m) + n]))
                if not known:
                    continue
                sums = {}
                for n, bit in known:
                    sums[n % 120] = sums.get(n % 120, 0) + (1 - 2 * bit)
                least = first_word([(n, int(v < 0)) for n, v in sums.items() if v])
                found.append(((count, first, phase), "open" if least is None else tells(least)))
    return found


def main():
    show("ONE_PORT", rows(word_of(PLAIN, 1), 0, lambda i: True))
    for m in range(4):
        show("QUARTER_%d" % m, rows(word_of(PLAIN, 1), m, lambda i: i % 4 == m))
    for m in range(4):
        show("SPARSE_%d" % m, rows(word_of(OTHER, 2), m, lambda i: i % 10 == m))
    for case, outcome in tried(word_of(OTHER, 2), lambda m, i: i % 10 == m):
        print(case, outcome)


if __name__ == "__main__":
    main()
