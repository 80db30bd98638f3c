"""Halving of a recording, OFDM demodulation at a rate of 1.92 * 2^r million samples per second, channels by smoothed
reference signals, and soft values with 1, 2 or 4 antenna ports (own; TS 36.211 sections 6.3.4.3, 6.10.1 and 6.12).

Everything is in whole numbers. Sums go through float64 products that stay below 2^53, or through Python's numbers, so
they are exact. Complex numbers are pairs of arrays. From `search.py`: rounding, the pseudo-random sequence, and the
equations of pairs of ports.
"""
import functools

import numpy as np

from .search import pair_parts, pseudo_random, rounded, times_conjugate
from .wide_places import reference_init, reference_symbols

TAPS = (-21, 0, 97, 0, -311, 0, 1257, 2052, 1257, 0, -311, 0, 97, 0, -21)  # of 4,096
PERIOD, HEIGHT = 2048, 18  # of the table of roots of unity: 2^18 cos(2 pi m / 2048)
WEIGHTS = (1, 2, 1)  # of a pilot with its neighbours


# ---- halving


def halved(samples):
    """Returns a recording, pairs of whole numbers, at half its rate, clamped to 16 bits."""
    padded = np.pad(np.asarray(samples, np.int64), ((7, 7), (0, 0)))
    count = len(samples) // 2
    total = sum(tap * padded[t : t + 2 * count : 2] for t, tap in enumerate(TAPS))
    return np.clip(rounded(total, 12), -32_768, 32_767)


def narrowed(samples, rate):
    """Returns a recording of 1.92 * 2^rate million samples per second at 1.92 million."""
    for _ in range(rate):
        samples = halved(samples)
    return samples


# ---- demodulation


@functools.lru_cache(1)
def cosines():
    """Returns the table over its period; symmetric about each quarter, so a quarter turn is exact."""
    quarter = np.rint(2**HEIGHT * np.cos(2 * np.pi * np.arange(PERIOD // 4) / PERIOD)).astype(np.int64)
    half = np.concatenate([quarter, [0], -quarter[:0:-1]])
    return np.concatenate([half, [-(2**HEIGHT)], half[:0:-1]])


def root(rate, m):
    """Returns the table's root of unity m of 128 * 2^rate."""
    at = np.asarray(m) % (128 << rate) * (16 >> rate)
    return cosines()[at], cosines()[(at - PERIOD // 4) % PERIOD]


def frequencies(blocks):
    """Returns the frequency of each subcarrier in units of 15 kHz: 0 is not used."""
    k = np.arange(12 * blocks)
    return np.where(k < 6 * blocks, k - 6 * blocks, k - 6 * blocks + 1)


@functools.lru_cache(8)
def quarter_roots(rate, blocks, remainder):
    """Returns the subcarriers whose frequency has this remainder by 4, and their roots over a quarter of a symbol."""
    found = np.flatnonzero(frequencies(blocks) % 4 == remainder)
    re, im = root(rate, np.outer(np.arange(32 << rate), frequencies(blocks)[found]))
    return found, re.astype(float), im.astype(float)


def plain_sum(rate, symbol, frequency):
    """Returns the sum of a symbol's 128 * 2^rate samples times the conjugate roots: the definition, term by term."""
    re, im = root(rate, frequency * np.arange(len(symbol)))
    a, b = symbol.T
    return int((a * re + b * im).sum()), int((b * re - a * im).sum())


def seen(rate, symbols, blocks):
    """Returns the received values of symbols, an array of symbol, sample and component, as component, symbol and
    subcarrier. Equals `plain_sum`, rounded: samples a quarter symbol apart meet roots that differ by a power of j."""
    found = np.zeros((2, len(symbols), 12 * blocks), np.int64)
    quarters = np.asarray(symbols, float).reshape(len(symbols), 4, -1, 2)
    (x0, x1, x2, x3), (y0, y1, y2, y3) = np.moveaxis(quarters, (3, 1), (0, 1))
    folded = (
        (x0 + x1 + x2 + x3, y0 + y1 + y2 + y3),
        (x0 + y1 - x2 - y3, y0 - x1 - y2 + x3),
        (x0 - x1 + x2 - x3, y0 - y1 + y2 - y3),
        (x0 - y1 - x2 + y3, y0 + x1 - y2 - x3),
    )
    for remainder, (x, y) in enumerate(folded):
        at, re, im = quarter_roots(rate, blocks, remainder)
        found[0, :, at] = (x @ re + y @ im).T
        found[1, :, at] = (y @ re - x @ im).T
    return rounded(found, HEIGHT - 2 + rate)


def symbol_start(rate, frame, slot, symbol):
    """Returns the first sample of a useful part, for a frame's start at 1.92 million samples per second."""
    return (frame + 960 * slot + 10 + 137 * symbol) << rate


def subframe_symbols(recording, rate, frame):
    """Returns the useful parts of the 14 symbols of subframe 5, with silence outside the recording."""
    size, symbols = 128 << rate, []
    for l in range(14):
        start = symbol_start(rate, frame, 10 + l // 7, l % 7)
        part = recording[max(start, 0) : max(start + size, 0)]
        front = min(max(-start, 0), size)
        symbols.append(np.pad(part, ((front, size - front - len(part)), (0, 0))))
    return np.array(symbols)


# ---- channels


def reference(cell, slot, symbol):
    """Returns the sent reference values of a symbol, the middle of the sequence for 110 blocks, times 90 sqrt 2."""
    bits = np.array(
        pseudo_random(reference_init(cell, slot, symbol), 440)[2 * (110 - cell.blocks) : 2 * (110 + cell.blocks)]
    )
    return 90 - 180 * bits[0::2], 90 - 180 * bits[1::2]


def smoothed(values):
    """Returns the weighted sums of each value and its neighbours; past an end the last value is repeated."""
    padded = np.concatenate([values[:1], values, values[-1:]])
    return sum(weight * padded[i : i + len(values)] for i, weight in enumerate(WEIGHTS))


def line(values, distance, first, count):
    """Returns `distance` times the line through values at `first`, `first` + `distance` and so on; level outside."""
    padded = np.concatenate([values[:1], values, values[-1:], values[-1:]])
    i, r = np.divmod(np.arange(count) - first + distance, distance)
    return (distance - r) * padded[i] + r * padded[i + 1]


class Slot:
    """A received slot: its values by component, symbol and subcarrier; each port's channel; the pilots' energy."""

    def __init__(self, cell, number, values):
        self.cell, self.number, self.values = cell, number, values.astype(object)
        self.channels, self.energy = [], 0
        for port in range(cell.ports):
            first, pilots, energy = self.pilots(port)
            distance = 3 if port < 2 else 6
            scale = (6 if cell.ports == 4 else 3) // distance
            parts = (scale * line(smoothed(part), distance, first, cell.subcarriers) for part in pilots)
            self.channels.append(np.array(list(parts)))
            self.energy += distance // 3 * energy

    def pilots(self, port):
        """Returns a port's first pilot subcarrier, its pilots by subcarrier, and the energy received there."""
        found = []
        for symbol, first in reference_symbols(self.cell, self.number, port):
            at = self.values[:, symbol, first::6]
            pilots = np.array(times_conjugate(at, reference(self.cell, self.number, symbol)))
            found.append((first, pilots, (at * at).sum()))
        found.sort(key=lambda part: part[0])
        merged = np.stack([pilots for _, pilots, _ in found], 2).reshape(2, -1)
        return found[0][0], merged, sum(energy for _, _, energy in found)


def slots_of(recording, rate, cell, frame):
    """Returns both slots of subframe 5 in the frame that begins at this sample at 1.92 million per second."""
    values = seen(rate, subframe_symbols(recording, rate, frame), cell.blocks)
    return [Slot(cell, 10 + half, values[:, 7 * half : 7 * half + 7]) for half in (0, 1)]


# ---- soft values


def soft(cell, part, energy):
    """Returns blocks * part / (4 * energy), rounded toward zero and clamped to -127 to 127; 0 without energy."""
    if energy == 0:
        return 0 * part
    size = np.minimum(cell.blocks * abs(part) // (sum(WEIGHTS) * energy), 127)
    return np.where(part > 0, size, -size)


def single_values(slots, elements):
    """Returns the values of elements with one port, two each."""
    found = np.zeros(2 * len(elements), np.int64)
    l, k = np.array(elements).T
    for half, slot in enumerate(slots):
        at = np.flatnonzero(l // 7 == half)
        parts = times_conjugate(slot.values[:, l[at] % 7, k[at]], slot.channels[0][:, k[at]])
        for i, part in enumerate(parts):
            found[2 * at + i] = soft(slot.cell, part, slot.energy)
    return found


def paired_values(slots, elements):
    """Returns the values of elements with transmit diversity: with four ports pairs alternate between ports 0, 2 and
    ports 1, 3. The channel is that at the first element of a pair."""
    found = np.zeros(2 * len(elements), np.int64)
    ports = slots[0].cell.ports
    l, k = np.array(elements).T
    pairs = np.arange(len(elements) // 2)
    for half, slot in enumerate(slots):
        for first in range(ports // 2):
            i = pairs[(l[2 * pairs] // 7 == half) & (pairs % (ports // 2) == first)]
            lower, upper = slot.channels[first], slot.channels[first + ports // 2]
            one, two = (slot.values[:, l[2 * i + j] % 7, k[2 * i + j]] for j in (0, 1))
            for j, part in enumerate(pair_parts(lower[:, k[2 * i]], upper[:, k[2 * i]], one, two)):
                found[4 * i + j] = soft(slot.cell, part, slot.energy)
    return found


def values_at(slots, elements, c_init, first=0):
    """Returns the values of elements by the bits before scrambling, whose sequence goes on from bit `first`."""
    found = (single_values if slots[0].cell.ports == 1 else paired_values)(slots, elements)
    scrambling = np.array(pseudo_random(c_init, first + len(found))[first:])
    return np.where(scrambling == 1, -found, found)
