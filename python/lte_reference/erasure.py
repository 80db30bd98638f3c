#!/usr/bin/env python3
"""A second program for punctured blocks of the turbo code, from which the table of the tests of `erasure` comes.

A bit is found where the bits that are sent or known determine it, by elimination of their linear equations; the code
under test keeps sets of states instead. The encoder and the reading are those of TS 36.212 sections 5.1.3.2 and
5.1.4.1, the check that of section 5.1.1; nothing is shared with the repository's code.

    python3 -m lte_reference.erasure
"""

# fmt: off
ROWS = {
    32: (56, 19, 42), 176: (200, 13, 50), 376: (400, 151, 40), 392: (416, 25, 52), 584: (608, 37, 76),
    632: (656, 185, 82), 776: (800, 17, 80), 840: (864, 17, 48), 904: (928, 15, 58), 968: (992, 65, 124),
    1000: (1024, 31, 64),
}
# fmt: on

# a size, a kind of block, and the count of bits sent
CASES = [
    (size, kind, sent - less)
    for size, sent in [(32, 75), (176, 299), (392, 630), (584, 924), (632, 994), (776, 1217)]
    for kind in (1, 2, 3)
    for less in (0, 1)
]
CASES += [
    (size, 0, sent - less)
    for size, sent in [(32, 98), (176, 348), (392, 744), (584, 1088), (632, 1165)]
    for less in (0, 1)
]
CASES += [(776, 0, 1224)] + [(size, kind, 1224) for size in (840, 904, 968, 1000) for kind in (0, 1)]
CASES += [(1000, 1, 204)] + [(376, kind, sent) for kind in (0, 1) for sent in (0, 1212)]

COLUMNS = [int(f"{c:05b}"[::-1], 2) for c in range(32)]


def crc24a(bits):
    register = 0
    for b in bits:
        top = (register >> 23) ^ b
        register = (register << 1) & 0xFFFFFF
        if top:
            register ^= 0x864CFB
    return [register >> (23 - i) & 1 for i in range(24)]


def block(size, kind):
    bits = [int(kind > 0 and (i * i * 7 + i * kind + i // 8 + kind) % 5 < 2) for i in range(size)]
    return bits + crc24a(bits)


def reading(k, rv):
    """Returns the positions (stream, index) of the coded bits, once round the circular buffer."""
    n = k + 4
    rows = -(-n // 32)
    nulls = 32 * rows - n
    cells = [32 * (m % rows) + COLUMNS[m // rows] for m in range(32 * rows)]
    buffer = [(0, c) for c in cells]
    for c in cells:
        buffer += [(1, c), (2, (c + 1) % (32 * rows))]
    start = rows * (2 * (-(-len(buffer) // (8 * rows))) * rv + 2)
    return [(t, c - nulls) for t, c in buffer[start:] + buffer[:start] if c >= nulls]


def equations(k):
    """For each parity bit and the six tail bits x z x z x z, the bits of the word that sum to it, as a mask."""
    a = [0, 0, 0]
    parity, tail = [], []
    for i in range(k):
        a.append((1 << i) ^ a[-2] ^ a[-3])
        parity.append(a[-1] ^ a[-2] ^ a[-4])
    for _ in range(3):
        tail += [a[-2] ^ a[-3], a[-1] ^ a[-3]]
        a.append(0)
    return parity, tail


def found(k, rows, known):
    """Which bits the others determine: `rows` are the equations that are sent, `known` a mask of bits."""
    unknown = (1 << k) - 1 & ~known
    pivots, rest = {}, 0
    for row in rows:
        while row & unknown:
            low = row & unknown & -(row & unknown)
            if low not in pivots:
                pivots[low] = row
                break
            row ^= pivots[low]
        else:
            rest |= row
    done = 0
    for low in sorted(pivots, reverse=True):
        row = pivots[low]
        others = row & unknown & ~low
        while others:
            bit = others & -others
            if bit in pivots:
                row ^= pivots[bit]
            others &= ~bit
        pivots[low] = row
        if row & unknown == low:
            done |= low
    return done | rest


def resolves(word, row, rv, sent):
    k, f1, f2 = row
    order = [(f1 * i + f2 * i * i) % k for i in range(k)]
    places = set((reading(k, rv) * (sent // (3 * (k + 4)) + 1))[:sent])
    parity, tail = equations(k)

    def rows(stream, p):
        spots = [(0, p), (1, p), (2, p), (0, p + 1), (1, p + 1), (2, p + 1)]
        return [e for i, e in enumerate(parity) if (stream, i) in places] + [
            e for s, e in zip(spots, tail) if s in places
        ]

    first_rows, second_rows = rows(1, k), rows(2, k + 2)
    own = sum(1 << i for i in range(k) if (0, i) in places)
    bits = sum(b << i for i, b in enumerate(word))
    second = 0
    for _ in range(8):
        first = found(k, first_rows, own | second)
        known = own | first
        turned = found(k, second_rows, sum(1 << i for i, j in enumerate(order) if known >> j & 1))
        second = sum(1 << j for i, j in enumerate(order) if turned >> i & 1)
        settled = own | first | second
        if settled == (1 << k) - 1:
            return True
        left = [bits >> i & settled >> i & 1 for i in range(k)]
        if crc24a(left[:-24]) == left[-24:]:
            return False
    return False


def main():
    for size, kind, sent in CASES:
        print(size, kind, sent, all(resolves(block(size, kind), ROWS[size], rv, sent) for rv in range(4)), flush=True)


if __name__ == "__main__":
    main()
