#!/usr/bin/python3
"""python3 -m lte_reference.search [--ports 2 | --ports 4 | --prefix long] [why] < RECORDING

A second program for the lists, written from docs/DEFINITION.md and the standard (rule 11 also with definitions that it
names in view), which shares nothing with the repository's code. It prints what `lte_cli search` prints, with the words
of another rule what `lte_cli search` prints with them. With `why` it says on standard error what it finds on the way:
each hit, the identity that it tells, and of the frames that are read together at each phase the cost, the total and the
antenna ports whose check passes (0: none); then, of each cell and each frame of even number that is tried, how far rule
11 comes in it, and why it stops. Slow: seconds for each hit.
Debian: python3-numpy. Recordings: cell.py.
"""
import functools
import sys
from typing import NamedTuple

import numpy as np

# fmt: off
QUARTER = (16384, 16364, 16305, 16207, 16069, 15893, 15679, 15426, 15137, 14811, 14449, 14053, 13623, 13160, 12665,
           12140, 11585, 11003, 10394, 9760, 9102, 8423, 7723, 7005, 6270, 5520, 4756, 3981, 3196, 2404, 1606, 804, 0)
Z_REAL = (127, 126, 124, 121, 117, 112, 105, 97, 89, 79, 69, 58, 46, 34, 22, 9, -3, -16, -28, -40, -52, -64, -74, -84,
          -93, -101, -108, -114, -119, -123, -126, -127)
Z_IMAG = (0, 13, 25, 37, 49, 61, 72, 82, 91, 99, 107, 113, 118, 122, 125, 127, 127, 126, 124, 120, 116, 110, 103, 95,
          86, 77, 66, 55, 43, 31, 19, 6)
ROOTS = (25, 29, 34)
TAPS = ((0, 2, 3, 5, 6), (0, 1, 2, 3, 6), (0, 1, 2, 4, 6))
COLUMNS = (1, 17, 9, 25, 5, 21, 13, 29, 3, 19, 11, 27, 7, 23, 15, 31,
           0, 16, 8, 24, 4, 20, 12, 28, 2, 18, 10, 26, 6, 22, 14, 30)
FRAME, CYCLE, LOW = 19_200, 19_660_800, -10 ** 9
PORTS = {0: 1, 0xffff: 2, 0x5555: 4}
WIDTHS = ('n6', 'n15', 'n25', 'n50', 'n75', 'n100')
# sizes of blocks by MCS, for the low bit 0 and 1 of the power control command
SIZES = ((32, 56, 72, 104, 120, 144, 176, 224, 256, 296, 328, 376, 440, 488, 552, 600, 632, 696, 776, 840, 904, 1000),
         (56, 88, 144, 176, 208, 224, 256, 328, 392, 456, 504, 584, 680, 744, 840, 904, 968))
# f1 and f2 by K (TS 36.212 table 5.1.3-3)
INTERLEAVER = {
    56: (19, 42), 64: (7, 16), 80: (11, 20), 96: (11, 24), 112: (41, 84), 128: (15, 32), 144: (17, 108), 160: (21, 120),
    168: (101, 84), 200: (13, 50), 232: (85, 58), 248: (33, 62), 280: (103, 210), 304: (37, 76), 320: (21, 120),
    352: (21, 44), 360: (133, 90), 400: (151, 40),
    416: (25, 52), 464: (247, 58), 480: (89, 180), 512: (31, 64), 528: (17, 66), 576: (65, 96), 608: (37, 76),
    624: (41, 234), 656: (185, 82), 704: (155, 44), 720: (79, 120), 768: (217, 48), 800: (17, 80), 864: (17, 48),
    928: (15, 58), 992: (65, 124), 1024: (31, 64)}
# fmt: on


# ---- rules


class Rule(NamedTuple):
    """How a cell sends: antenna ports, length of a prefix, symbols of a slot, and which master blocks are taken."""

    ports: int = 1
    first: int = 10  # where the useful part of a slot's first symbol begins
    step: int = 137  # from one useful part to the next
    symbols: int = 7
    later: int = 4  # the second symbol with reference signals
    n_cp: int = 1
    beside: tuple = (0, 1)  # the broadcast channel's symbols of slot 1 that leave out reference places
    size: int = 480  # values of a frame's broadcast channel
    most: int = 4  # frames of which these are added for one master block
    taken: tuple = (1, 2, 4)
    unread: str = ""  # why system information is not read, where it is not


ONE_PORT = Rule()
TWO_PORTS = Rule(ports=2, taken=(2,))
LONG_PREFIX = Rule(
    first=32, step=160, symbols=6, later=3, n_cp=0, beside=(0, 1, 3), size=432, most=1, unread="long-prefix"
)
FOUR_PORTS = Rule(ports=4, taken=(4,), unread="ports 4")
RULES = {
    (): ONE_PORT,
    ("--ports", "2"): TWO_PORTS,
    ("--prefix", "long"): LONG_PREFIX,
    ("--ports", "4"): FOUR_PORTS,
}


# ---- tables and rounding


def cosine(m):
    m = m % 128 if m % 128 <= 64 else 128 - m % 128
    return QUARTER[m] if m <= 32 else -QUARTER[64 - m]


def z(m):
    m %= 63
    return (Z_REAL[m], Z_IMAG[m]) if m <= 31 else (Z_REAL[63 - m], -Z_IMAG[63 - m])


FREQUENCY = np.array([k - 36 if k < 36 else k - 35 for k in range(72)])
TURNS = np.outer(FREQUENCY, np.arange(128)) % 128
W_REAL = np.array([cosine(m) for m in range(128)])[TURNS]
W_IMAG = np.array([cosine(m - 32) for m in range(128)])[TURNS]


def rounded(x, bits):
    return x + (1 << bits - 1) >> bits


def seen(r, start):
    """The 72 values of the symbol whose useful part begins there, as pairs."""
    re, im = r[start : start + 128].T
    return np.stack(
        [rounded((re * W_REAL + im * W_IMAG).sum(1), 12), rounded((im * W_REAL - re * W_IMAG).sum(1), 12)], 1
    )


# ---- hits


def primary(n2):
    """TS 36.211 section 6.11.1.1."""
    return np.array([z(-ROOTS[n2] * (n * (n + 1) if n <= 30 else (n + 1) * (n + 2)) // 2) for n in range(62)])


def wave(n2):
    """The useful part of the symbol that holds it."""
    (re, im), w, v = primary(n2).T[:, :, None], W_REAL[5:67], W_IMAG[5:67]
    return rounded((re * w - im * v).sum(0), 17), rounded((re * v + im * w).sum(0), 17)


FIRST = 128  # the place from which on metrics are compared


def metrics(r):
    """Returns E from that position, and by N2 the pair of P and C."""
    windows = np.lib.stride_tricks.sliding_window_view(r[FIRST : 19_346 + 127], 128, axis=0)
    re, im = windows[:, 0], windows[:, 1]
    energy = [int(e) for e in (re * re + im * im).sum(1)]
    waves = [wave(n2) for n2 in range(3)]
    peaks = [[int(a) ** 2 + int(b) ** 2 for a, b in zip(re @ p + im @ q, im @ p - re @ q)] for p, q in waves]
    return energy, [(int((p * p + q * q).sum()), peak) for (p, q), peak in zip(waves, peaks)]


def hits(r):
    """Returns pairs of position and N2."""
    return hits_in(r[: 19_346 + 127].tobytes())


@functools.lru_cache(1)
def hits_in(front):
    """Returns the PSS detections of the samples that decide them."""
    found = []
    energy, by_n2 = metrics(np.frombuffer(front, np.int64).reshape(-1, 2))
    for n2, (power, peak) in enumerate(by_n2):

        def rules_out(other, i):
            left, right = peak[other] * energy[i], peak[i] * energy[other]
            return energy[other] > 0 and (left > right or left == right and other < i)

        for i in range(137 - FIRST, 19_337 - FIRST):
            near = (u for u in range(i - 9, i + 10) if u != i)
            if energy[i] and 4 * peak[i] >= energy[i] * power and not any(rules_out(u, i) for u in near):
                found.append((FIRST + i, n2))
    return sorted(found)


# ---- identity


def signs(*taps):
    x = [0, 0, 0, 0, 1]
    for i in range(26):
        x.append(sum(x[i + t] for t in taps) % 2)
    return [1 - 2 * bit for bit in x]


S, C, Z = signs(2, 0), signs(3, 0), signs(4, 2, 1, 0)


def secondary(n1, n2, half):
    """TS 36.211 section 6.11.2.1; half is 0 or 5."""
    q = (n1 + (n1 // 30) * (n1 // 30 + 1) // 2) // 30
    m = n1 + q * (q + 1) // 2
    even, odd = m % 31, (m % 31 + m // 31 + 1) % 31
    if half == 5:
        even, odd = odd, even
    return [
        value
        for n in range(31)
        for value in (
            S[(n + even) % 31] * C[(n + n2) % 31],
            S[(n + odd) % 31] * C[(n + n2 + 3) % 31] * Z[(n + even % 8) % 31],
        )
    ]


def ranked(r, t, n2, rule=ONE_PORT):
    """All groups and halves with the scores that a hit gives them, the best first: score, half, group."""
    (a, b), (p, q) = seen(r, t)[5:67].T, primary(n2).T
    channel = a * p + b * q, b * p - a * q
    c, e = seen(r, t - rule.step)[5:67].T
    agreement = [int(x) for x in c * channel[0] + e * channel[1]]
    scores = [
        (sum(s * x for s, x in zip(secondary(n1, n2, half), agreement)), half, n1)
        for half in (0, 5)
        for n1 in range(168)
    ]
    return sorted(scores, key=lambda row: (-row[0], row[1], row[2]))


def identity(r, t, n2, rule=ONE_PORT):
    """Returns the identity of a PSS detection, and the start of its frames."""
    _, half, n1 = ranked(r, t, n2, rule)[0]
    return 3 * n1 + n2, (t - (10_432 if half else 832)) % FRAME


# ---- soft values


@functools.lru_cache(1_000)
def pseudo_random(c_init, count):
    """TS 36.211 section 7.2."""
    x1, x2 = [1] + [0] * 30, [c_init >> i & 1 for i in range(31)]
    for i in range(count + 1600):
        x1.append(x1[i + 3] ^ x1[i])
        x2.append(x2[i + 3] ^ x2[i + 2] ^ x2[i + 1] ^ x2[i])
    return [x1[i + 1600] ^ x2[i + 1600] for i in range(count)]


def reference(cell, slot, symbol, n_cp=1):
    """The twelve values (TS 36.211 section 6.10.1)."""
    bits = pseudo_random(2**10 * (7 * (slot + 1) + symbol + 1) * (2 * cell + 1) + 2 * cell + n_cp, 232)
    return [(90 - 180 * bits[2 * (m + 104)], 90 - 180 * bits[2 * (m + 104) + 1]) for m in range(12)]


def times_conjugate(a, b):
    return a[0] * b[0] + a[1] * b[1], a[1] * b[0] - a[0] * b[1]


def reference_places(cell, slot, port, rule=ONE_PORT):
    """Symbol and subcarrier of a port's reference signals, by subcarrier (TS 36.211 section 6.10.1.2)."""
    if port < 2:
        return [(0 if k % 6 == (cell + 3 * port) % 6 else rule.later, k) for k in range(cell % 3, 72, 3)]
    return [(1, k) for k in range((3 * (port - 2) + 3 * (slot % 2) + cell) % 6, 72, 6)]


def pilots_of(symbols, cell, slot, port, rule=ONE_PORT):
    """Returns the received values of these resource elements, and the pilots."""
    places = reference_places(cell, slot, port, rule)
    sent = {l: reference(cell, slot, l, rule.n_cp) for l, _ in places}
    there = [symbols[l][k] for l, k in places]
    return there, [times_conjugate(x, sent[l][k // 6]) for x, (l, k) in zip(there, places)]


def channel(pilots, first, k):
    """The line through the pilots, which begin there, at a subcarrier: as many times as they are subcarriers apart."""
    step = 72 // len(pilots)
    pilots = pilots[:1] + pilots + pilots[-1:]
    i, r = divmod(k - first + step, step)
    return tuple((step - r) * x + r * y for x, y in zip(pilots[i], pilots[i + 1]))


class Row(NamedTuple):
    """A symbol of a slot as it was seen, the channel of each antenna port by subcarrier, and the energy of the pilots.
    The channels are three times what the pilots say, with four ports six times."""

    seen: list
    channels: list
    energy: int


def slot_values(r, frame, cell, slot, rule=ONE_PORT):
    """The symbols of a slot, with the channels by its own reference signals."""
    symbols = [
        [(int(a), int(b)) for a, b in seen(r, frame + 960 * slot + rule.first + rule.step * l)]
        for l in range(rule.symbols)
    ]
    channels, energy = [], 0
    for port in range(rule.ports):
        there, pilots = pilots_of(symbols, cell, slot, port, rule)
        _, first = reference_places(cell, slot, port, rule)[0]
        times = scale_of(rule) * len(pilots) // 72  # 2 for the first two ports of four, else 1
        channels.append([tuple(times * x for x in channel(pilots, first, k)) for k in range(72)])
        energy += 24 // len(pilots) * sum(x * x for place in there for x in place)
    return [Row(symbol, channels, energy) for symbol in symbols]


def scale_of(rule):
    """How many times the channel the estimates are."""
    return 6 if rule.ports == 4 else 3


def soft(part, energy):
    size = min(6 * abs(part) // energy, 127) if energy else 0
    return size if part > 0 else -size


def pair_parts(h, g, a, b):
    """What stands for the two points that two ports send at two places (TS 36.211 section 6.3.4.3 read backward)."""
    first, second = times_conjugate(a, h), times_conjugate(b, h)
    third, fourth = times_conjugate(g, b), times_conjugate(g, a)
    return [first[0] + third[0], first[1] + third[1], second[0] - fourth[0], second[1] - fourth[1]]


def values_at(symbols, places, scrambling=None):
    """Returns the values of resource elements (pairs of symbol and subcarrier), by the bits before scrambling."""
    values, count = [], len(symbols[0].channels) // 2
    if count == 0:
        for l, k in places:
            row = symbols[l]
            values += [soft(part, row.energy) for part in times_conjugate(row.seen[k], row.channels[0][k])]
    else:
        for i, ((l, k), (m, j)) in enumerate(zip(places[0::2], places[1::2])):
            row = symbols[l]
            h, g = (its[k] for its in row.channels[i % count :: count])  # of four: 0 and 2, then 1 and 3
            values += [soft(part, row.energy) for part in pair_parts(h, g, row.seen[k], symbols[m].seen[j])]
    return values if scrambling is None else [-value if bit else value for value, bit in zip(values, scrambling)]


# ---- the least word

CODED = np.array(
    [[[sum(b if t == 0 else x >> 6 - t & 1 for t in taps) % 2 for taps in TAPS] for b in (0, 1)] for x in range(64)]
)


def block_order(count):
    """Returns the order in which this number of items leaves the interleaver (TS 36.212 section 5.1.4.2.1)."""
    rows = (count + 31) // 32
    cells = [32 * (row - rows) + column + count for column in COLUMNS for row in range(rows)]
    return [item for item in cells if item >= 0]


def coded_reading(count):
    """Returns the positions and streams of the coded bits of a word of this length (TS 36.212 section 5.1.4.2)."""
    return [(place, stream) for stream in range(3) for place in block_order(count)]


def added(values, reading, first=0):
    """Returns the sums of the values of each coded bit, by position and stream, read circularly from this bit."""
    sums = [[0] * 3 for _ in range(len(reading) // 3)]
    for i, value in enumerate(values):
        place, stream = reading[(first + i) % len(reading)]
        sums[place][stream] += value
    return sums


def least(sums):
    """The least cost, and its first word as a number: by start and state, keys of a cost and of a word's front."""
    count = len(sums)
    keys = np.where(np.eye(64, dtype=bool), 0, 1 << 62)
    for i, row in enumerate(np.array(sums)):
        step = (abs(row) * ((row > 0) == CODED)).sum(2) << count
        ways = [keys + step[:, b] + (b << count - 1 - i) for b in (0, 1)]
        keys = np.hstack([np.minimum(way[:, 0::2], way[:, 1::2]) for way in ways])
    return divmod(int(keys.diagonal().min()), 1 << count)


def crc(number, count, polynomial=0x11021):
    """Returns the remainder of this length; CRC16 unless another is given (TS 36.212 section 5.1.1)."""
    width = polynomial.bit_length() - 1
    number <<= width
    for i in reversed(range(count)):
        number ^= (number >> i + width & 1) * polynomial << i
    return number


# ---- system information: the control region; a group is a pair of first subcarrier and symbol (36.211 section 6.2.4)

GROUPS = [[(k, symbol) for k in range(0, 72, 4 if symbol else 6)] for symbol in range(4)]
BLOCKS = {
    6 * (count - 1) + first if count <= 4 else 6 * (7 - count) + 5 - first: (first, count)
    for count in range(1, 7)
    for first in range(7 - count)
}


class Refused(Exception):
    """The reason why no fields are read."""


def elements(cell, groups):
    """Returns the resource elements that carry bits, four of each group."""
    return [(l, j) for k, l in groups for j in range(k, k + (4 if l else 6)) if l or j % 3 != cell % 3]


def indicator_groups(cell):
    """TS 36.211 section 6.7.4."""
    return [((6 * (cell % 12) + 18 * i) % 72, 0) for i in range(4)]


def indicator_values(symbols, cell):
    """Returns the 32 values of the control format indicator in subframe 5."""
    scrambling = pseudo_random(6 * (2 * cell + 1) * 512 + cell, 32)
    return values_at(symbols, elements(cell, indicator_groups(cell)), scrambling)


def indicator(symbols, cell):
    values = indicator_values(symbols, cell)
    return min(
        range(1, 4), key=lambda cfi: sum(abs(v) for i, v in enumerate(values) if v and (v < 0) == (i % 3 == cfi - 1))
    )


def control_groups(cell, cfi, extended, resource):
    """Those that PCFICH and PHICH leave, in the order of the PDCCH (TS 36.211 sections 6.8.5 and 6.9.3)."""
    left = [[g for g in groups if g not in indicator_groups(cell)] for groups in GROUPS]
    taken = [
        its[(cell * len(its) // len(left[0]) + m + i * len(its) // 3) % len(its)]
        for m in range(2 if resource == 3 else 1)
        for i, its in enumerate(left[:3] if extended else left[:1] * 3)
    ]
    return sorted(g for groups in left[: cfi + 1] for g in groups if g not in taken)


def candidate_values(symbols, cell, groups):
    """Returns the 288 values of the first four control channel elements in subframe 5."""
    count = len(groups)
    if count // 9 < 4:
        raise Refused(f"no-search-space {count // 9}")
    order = block_order(count)
    by_quadruplet = {order[(i + cell) % count]: group for i, group in enumerate(groups)}
    places = elements(cell, [by_quadruplet[i] for i in range(36)])
    return values_at(symbols, places, pseudo_random(5 * 512 + cell, 288))


def control_word(symbols, cell, groups):
    """The 21 bits of the candidate as a number."""
    _, word = least(added(candidate_values(symbols, cell, groups), coded_reading(37)))
    if crc(word >> 16, 21) ^ 0xFFFF != word & 0xFFFF:
        raise Refused("no-control")
    return word >> 16


def grant(word):
    """First block, count of blocks, size and redundancy version (TS 36.212 section 5.3.3.1.3)."""
    riv, mcs, rv, sizes = word >> 14 & 31, word >> 9 & 31, word >> 3 & 3, SIZES[word >> 1 & 1]
    for applies, reason in (
        (not word >> 20, "not-1a"),
        (word >> 19 & 1, "distributed"),
        (riv > 20, f"bad-riv {riv}"),
        (mcs > 26, f"reserved-mcs {mcs}"),
        (mcs >= len(sizes), "block-too-large"),
    ):
        if applies:
            raise Refused(reason)
    return (*BLOCKS[riv], sizes[mcs], rv)


# ---- system information: the shared channel


def shared_places(cell, cfi, first, count, rule=ONE_PORT):
    """TS 36.211 section 6.3.5, without symbols 5 and 6."""
    reference_places = {
        (l, k)
        for port in range(rule.ports)
        for l, v in ((4, 3), (7, 0), (11, 3))
        for k in range((v + 3 * port + cell) % 6, 72, 6)
    }
    return [
        (l, k)
        for l in range(cfi + 1, 14)
        if l not in (5, 6)
        for k in range(12 * first, 12 * (first + count))
        if (l, k) not in reference_places
    ]


def block_values(symbols, cell, cfi, first, count, rule=ONE_PORT):
    """Returns the values of these resource blocks of subframe 5."""
    places = shared_places(cell, cfi, first, count, rule)
    return values_at(symbols, places, pseudo_random(65_535 * 2**14 + 5 * 512 + cell, 2 * len(places)))


def turbo_reading(k, rv):
    """Returns positions and streams of coded bits from a redundancy version's start (TS 36.212 section 5.1.4.1)."""
    rows = (k + 35) // 32
    size, order = 32 * rows, [32 * row + column for column in COLUMNS[16:] + COLUMNS[:16] for row in range(rows)]
    buffer = [(i, 0) for i in order] + [pair for i in order for pair in ((i, 1), ((i + 1) % size, 2))]
    start, nulls = rows * (24 * rv + 2), size - k - 4
    return [(i - nulls, stream) for i, stream in buffer[start:] + buffer[:start] if i >= nulls]


# state, bit, parity bit and next state; of the three bits of a state the newest has weight 4
BRANCHES = [
    (x, bit, (bit ^ x >> 1 ^ x >> 2) & 1, ((bit ^ x >> 1 ^ x) & 1) << 2 | x >> 1) for x in range(8) for bit in (0, 1)
]


def extrinsics(own, parity, tail, prior):
    """By the greatest scores of paths to each state and from it on; the tail is three more places, to state 0."""
    known, parity = [a + b for a, b in zip(own, prior)] + tail[::2], list(parity) + tail[1::2]
    scores = [
        [(x, bit, y, (0 if bit else a) + (0 if z else b)) for x, bit, z, y in BRANCHES] for a, b in zip(known, parity)
    ]
    rest = [[0] + [LOW] * 7]
    for step in reversed(scores):
        rest.append([LOW] * 8)
        for x, _, y, score in step:
            rest[-1][x] = max(rest[-1][x], score + rest[-2][y])
    reached, found = [0] + [LOW] * 7, []
    for i, value in enumerate(known[: len(own)]):
        best, now = [LOW] * 2, [LOW] * 8
        for x, bit, y, score in scores[i]:
            now[y] = max(now[y], reached[x] + score)
            best[bit] = max(best[bit], reached[x] + score + rest[-2 - i][y])
        found.append(max(-2047, min(2047, best[0] - best[1] - value)))
        reached = now
    return found


def decoded(sums, size):
    """The block as a number, and the count of iterations."""
    k, tail = size + 24, [value for row in sums[size + 24 :] for value in row]
    own, first_parity, second_parity = zip(*sums[:k])
    f1, f2 = INTERLEAVER[k]
    order = [(f1 * i + f2 * i * i) % k for i in range(k)]
    prior = [0] * k
    for n in range(8):
        first = extrinsics(own, first_parity, tail[:6], prior)
        given = [v - int(v / 4) for v in first]
        found = extrinsics([own[i] for i in order], second_parity, tail[6:], [given[i] for i in order])
        second = [value for _, value in sorted(zip(order, found))]
        word = int("".join("01"[sum(values) < 0] for values in zip(own, first, second)), 2)
        if crc(word, k, 0x1864CFB) == 0:
            return word >> 24, n + 1
        prior = [v - int(v / 4) for v in second]
    raise Refused("not-decoded")


# ---- system information: the text (TS 36.331 section 6.2.2)


def fields_of(bits):
    place = 0

    def take(count, last=None, first=0):
        """The next field, a number from first to last."""
        nonlocal place
        field = bits[place : place + count]
        if len(field) < count or not first <= int(field, 2) <= (2**count - 1 if last is None else last):
            raise Refused(f"bad-fields {place}")
        place += count
        return int(field, 2)

    return take


def network_line(take, is_first):
    mcc = [take(4, 9) for _ in range(3)] if take(1, first=int(is_first)) else "-"
    mnc = [take(4, 9) for _ in range(2 + take(1))]
    return f"plmn {''.join(map(str, mcc))} {''.join(map(str, mnc))} {('reserved', 'free')[take(1)]}"


def schedule_line(take):
    period = 8 << take(3, 6)
    codes = [take(1, 0) + take(6) + 16 if take(1) else take(4) for _ in range(take(5))]
    return f"si rf{period} {','.join(map(str, codes)) or '-'}"


def fields_lines(block, size):
    take = fields_of(format(block, f"0{size}b"))
    if take(2) != 1:
        raise Refused("not-sib1")
    has_p_max, has_tdd, extension, has_group = take(1), take(1), take(1), take(1)
    networks = [network_line(take, i == 0) for i in range(take(3, 5) + 1)]
    text = f"sib1 tac {take(16)} cell {take(28)} {('barred', 'open')[take(1)]} {('allowed', 'forbidden')[take(1)]}"
    text += f" csg {take(1)} {take(27) if has_group else '-'}"
    has_offset = take(1)
    text += f" rx {take(6, 48) - 70} offset {take(3) + 1 if has_offset else '-'}"
    text += f" pmax {take(6) - 30 if has_p_max else '-'} band {take(6) + 1}"
    schedule = [schedule_line(take) for _ in range(take(5) + 1)]
    tdd = f"{take(3, 6)}/{take(4, 8)}" if has_tdd else "-"
    text += f" window ms{(1, 2, 5, 10, 15, 20, 40)[take(3, 6)]} tag {take(5)} tdd {tdd} extension {extension}"
    return "\n".join([text] + networks + schedule)


def subframe_values(r, frame, cell, rule):
    """Returns the symbols of subframe 5 with their channels."""
    return slot_values(r, frame, cell, 10, rule) + slot_values(r, frame, cell, 11, rule)


def attempt(r, frame, cell, extended, resource, trace, rule):
    """Returns the result of one frame's subframe 5: the bits of the block, and its lines."""
    symbols = subframe_values(r, frame, cell, rule)
    cfi = indicator(symbols, cell)
    trace(f"indicator {cfi}")
    word = control_word(symbols, cell, control_groups(cell, cfi, extended, resource))
    trace(f"control {word:021b}")
    first, count, size, rv = grant(word)
    trace(f"blocks {first} to {first + count - 1} size {size} rv {rv}")
    values = block_values(symbols, cell, cfi, first, count, rule)
    block, iterations = decoded(added(values, turbo_reading(size + 24, rv)), size)
    trace(f"iterations {iterations}")
    return format(block, f"0{size}b"), fields_lines(block, size)


def system(r, entry, say, rule=ONE_PORT):
    """Returns the bits of the system information block, and its lines; otherwise nothing, and the reason."""
    start, cell, sfn, ports, block = entry
    if rule.unread:
        return None, f"sib1 none {rule.unread}"
    if ports != rule.ports or block >> 21:
        return None, "sib1 none " + (f"ports {ports}" if ports != rule.ports else f"bandwidth {WIDTHS[block >> 21]}")
    say(f"cell {cell} at {start}")
    reasons = []
    for j in range(sfn % 2, min(16, (len(r) - start) // FRAME), 2):
        steps = [f"  frame {j}"]
        try:
            answer = attempt(r, start + FRAME * j, cell, block >> 20 & 1, block >> 18 & 3, steps.append, rule)
            say(", ".join(steps + ["read"]))
            return answer
        except Refused as reason:
            reasons.append(f"sib1 none {reason}")
            say(", ".join(steps + [str(reason)]))
    return None, reasons[0]


# ---- the list


def broadcast_values(r, cell, start, j, rule):
    """The values of frame j of a start, before descrambling."""
    symbols = slot_values(r, start + FRAME * j, cell, 1, rule)
    return values_at(
        symbols, [(l, k) for l in range(4) for k in range(72) if l not in rule.beside or k % 3 != cell % 3]
    )


def masters(frames, sequence, phases, say, rule):
    """What frames of one period tell together: phase of the first, ports and the 24 bits of each master block."""
    values = [value for frame in frames for value in frame]
    for phase in phases:
        first = rule.size * phase
        plain = [-value if bit else value for value, bit in zip(values, sequence[first:])]
        sums = added(plain, coded_reading(40), first)
        total = sum(abs(v) for row in sums for v in row)
        cost, word = least(sums)
        ports = PORTS.get(crc(word >> 16, 24) ^ word & 0xFFFF, 0)
        say(f"    phase {phase} cost {cost} of {total} ports {ports}")
        if total > 0 and 4 * cost <= total and ports in rule.taken and word >> 37 <= 5:
            yield phase, ports, word >> 16


def entries(r, t, n2, say, rule=ONE_PORT):
    """Start, identity, frame number, ports and block of each entry of a hit."""
    cell, start = identity(r, t, n2, rule)
    say(f"hit {t} {n2}: identity {cell} at {start}")
    sequence = pseudo_random(cell, 1920)
    frames = [broadcast_values(r, cell, start, j, rule) for j in range(min(8, (len(r) - start) // FRAME))]
    for count in range(1, rule.most + 1):
        for j in range(len(frames) - count + 1):
            say(f"  frames {j} to {j + count - 1}")
            found = list(masters(frames[j : j + count], sequence, range(5 - count), say, rule))
            for phase, ports, block in found:
                yield start, cell, (4 * (block >> 10 & 255) + phase - j) % 1024, ports, block
            if found:
                return


def is_same_cell(a, b):
    gap = (a[0] - b[0] - FRAME * (a[2] - b[2])) % CYCLE
    return a[1] == b[1] and min(gap, CYCLE - gap) <= 9


def cell_line(entry):
    start, cell, sfn, ports, block = entry
    duration = ("normal", "extended")[block >> 20 & 1]
    resource = ("oneSixth", "half", "one", "two")[block >> 18 & 3]
    master = f"ports {ports} {WIDTHS[block >> 21]} phich {duration} {resource} br {block >> 5 & 31} spare {block & 31}"
    return f"cell {cell} at {start} sfn {sfn} {master}"


def silent(text):
    """Nothing is said on the way."""


def listed(r, rule=ONE_PORT, say=silent):
    """The entries of the list, in its order."""
    kept = []
    for t, n2 in hits(r):
        for entry in entries(r, t, n2, say, rule) if t >= rule.step else ():
            if not any(is_same_cell(other, entry) for other in kept):
                kept.append(entry)
    return sorted(kept)


def list_lines(r, found, rule=ONE_PORT, say=silent):
    """The lines of these entries."""
    cells = [f"{cell_line(entry)}\n{system(r, entry, say, rule)[1]}" for entry in found]
    return "\n".join([f"cells {len(found)}"] + cells).split("\n")


def recording():
    """The samples of standard input."""
    return np.frombuffer(sys.stdin.buffer.read(), "<i2").astype(np.int64).reshape(-1, 2)


def main(rule, why):
    r = recording()
    say = (lambda text: print(text, file=sys.stderr)) if why else silent
    print("\n".join(list_lines(r, listed(r, rule, say), rule, say)))


if __name__ == "__main__":
    words = sys.argv[1:]
    explained = words[-1:] == ["why"]
    named = tuple(words[: len(words) - explained])
    if named not in RULES:
        sys.exit(__doc__)
    main(RULES[named], explained)
