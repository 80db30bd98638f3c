#!/usr/bin/python3
"""python3 -m lte_reference.evidence [--ports 2 | --ports 4 | --prefix long] < RECORDING

A second program for `lte_cli evidence`, written from rule 13 of docs/DEFINITION.md and what it says of it for the lists
by other rules: it prints what that prints. Hits, identities, values, least words and the lists are those of
search.py, which shares nothing with the repository's code. Slow: seconds for each hit. Debian: python3-numpy.
"""
import sys

from .search import (
    FRAME,
    ONE_PORT,
    PORTS,
    RULES,
    TAPS,
    added,
    broadcast_values,
    coded_reading,
    crc,
    hits,
    identity,
    least,
    listed,
    pilots_of,
    pseudo_random,
    recording,
    seen,
    silent,
    system,
    times_conjugate,
    wave,
)


def measures(r, t, n2):
    """Returns C, E and P at a position."""
    samples = [(int(a), int(b)) for a, b in r[t : t + 128]]
    signal = [(int(a), int(b)) for a, b in zip(*wave(n2))]
    products = [times_conjugate(x, p) for x, p in zip(samples, signal)]
    c = sum(a for a, b in products) ** 2 + sum(b for a, b in products) ** 2
    return (c, *(sum(a * a + b * b for a, b in values) for values in (samples, signal)))


def thousandths(r, t, n2):
    """1000 C / (E P), rounded down."""
    c, e, p = measures(r, t, n2)
    return 1000 * c // (e * p)


def sums(r, entry, frames, j, phase, rule):
    """Returns the 120 values of this number of frames from frame j; the first has this phase."""
    start, cell, *_ = entry
    values = [value for i in range(frames) for value in broadcast_values(r, cell, start, j + i, rule)]
    first, sequence = rule.size * phase, pseudo_random(cell, 1920)
    plain = [-value if bit else value for value, bit in zip(values, sequence[first:])]
    return added(plain, coded_reading(40), first)


def read(r, entry, rule):
    """Returns the number of added frames, the first one, its phase, cost and total, for the entry."""
    start, cell, sfn, ports, block = entry[:5]
    for frames in range(1, rule.most + 1):
        for j in range(min(8, (len(r) - start) // FRAME) - frames + 1):
            for phase in range(5 - frames):
                values = sums(r, entry, frames, j, phase, rule)
                total, (cost, word) = sum(abs(value) for row in values for value in row), least(values)
                decoded = PORTS.get(crc(word >> 16, 24) ^ word & 0xFFFF), word >> 16
                if (
                    decoded == (ports, block)
                    and 0 < total >= 4 * cost
                    and (4 * (block >> 10 & 255) + phase - j) % 1024 == sfn
                ):
                    return frames, j, phase, cost, total
    raise ValueError(entry)


def coded(word, count):
    """The three coded bits at each index of a word (TS 36.212 section 5.1.3.1)."""
    bits = [word >> count - 1 - i & 1 for i in range(count)]
    return [[sum(bits[k - t] for t in taps) % 2 for taps in TAPS] for k in range(count)]


def room(values, word):
    """The sum of the 15 smallest values in the direction of the word's coded bits."""
    rows = zip(values, coded(word, len(values)))
    return sum(sorted(-value if bit else value for row, bits in rows for value, bit in zip(row, bits))[:15])


def pilots(r, entry, j, rule):
    """Returns each antenna port's 24 or 12 received reference elements of slot 1, and the pilots, by subcarrier."""
    start, cell, *_ = entry
    symbols = [
        [(int(a), int(b)) for a, b in seen(r, start + FRAME * j + 960 + rule.first + rule.step * l)]
        for l in range(rule.later + 1)
    ]
    return [pilots_of(symbols, cell, 1, port, rule) for port in range(rule.ports)]


def by_symbol(its):
    """The pilots of a port symbol by symbol: 24 stand in two symbols by turns, 12 in one."""
    symbols = len(its) // 12
    return [its[first::symbols] for first in range(symbols)]


def bends(its):
    """How far three pilots are from a line, squared, for each three that follow one another."""
    return sum(sum((a - 2 * b + c) ** 2 for a, b, c in zip(*three)) for three in zip(its, its[1:], its[2:]))


def line(r, detections, entry, rule):
    start, cell, sfn, *_ = entry
    t = min(t for t, place in detections if place == (cell, start))
    frames, j, phase, cost, total = read(r, entry, rule)
    values = sums(r, entry, frames, j, phase, rule)
    ports = pilots(r, entry, j, rule)
    power = sum(24 // len(there) * (a * a + b * b) for there, _ in ports for a, b in there)
    noise = sum(bends(symbol) for _, its in ports for symbol in by_symbol(its)) // (6 * 16_200)
    return (
        f"{cell} {start} {sfn} t {t} peak {thousandths(r, t, cell % 3)} cost {cost} total {total} "
        f"frames {frames} frame {j} phase {phase} power {power} noise {noise} "
        f"room {room(values, least(values)[1])}"
    )


def lines(r, rule=ONE_PORT):
    detections = [(t, identity(r, t, n2, rule)) for t, n2 in hits(r) if t >= rule.step]
    cells = listed(r, rule)
    return [f"evidence {len(cells)}"] + [line(r, detections, entry, rule) for entry in cells]


def hexadecimal(bits):
    """Returns bits byte by byte, padded with zeros to a complete byte."""
    return bytes(int(bits[i : i + 8].ljust(8, "0"), 2) for i in range(0, len(bits), 8)).hex()


def shown(r, entry, j, rule=ONE_PORT):
    """What slot 1 of frame j of a cell shows, the pilots of each antenna port and the pairs of values; and its blocks."""
    start, cell, _, _, block = entry
    bits, _ = system(r, entry, silent, rule)
    values = broadcast_values(r, cell, start, j, rule)
    return {
        "mib": hexadecimal(format(block, "024b")),
        "sib1_block": bits and hexadecimal(bits),
        "channel": [[list(pilot) for pilot in its] for _, its in pilots(r, entry, j, rule)],
        "values": [list(pair) for pair in zip(values[0::2], values[1::2])],
    }


def main(rule):
    print("\n".join(lines(recording(), rule)))


if __name__ == "__main__":
    if tuple(sys.argv[1:]) not in RULES:
        sys.exit(__doc__)
    main(RULES[tuple(sys.argv[1:])])
