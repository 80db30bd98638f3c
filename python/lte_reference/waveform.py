"""Reception near a cell's waveform, as crates/waveform/specs/Waveform.antt defines it, in whole numbers: the energy of
the difference between a recording and what the antenna ports transmit before rounding, each port's signal times its
gain, in each symbol that the receiver reads. A cell is a description as in cell.py. Gains are whole numbers in units of
2^-14, real part first. Debian: python3-numpy.
"""
from typing import Iterator, NamedTuple, Sequence

import numpy as np

from .cell import CARRIERS
from .search import FRAME, W_IMAG, W_REAL

SLOT_QUOTA = {1: 2_555, 2: 992, 4: 350}  # of a decoded slot's symbol, by ports, relative to the sum of squared gains
SIGNAL_QUOTA = 5_300  # of a synchronisation signal's symbol, relative to the square of port 0's gain
ELEMENT = 32_400  # the energy of a reference element of gain 1 in 128 samples
NEAR, LAST = 9, 19_336  # samples; the last sample at which a PSS detection may be


class Symbol(NamedTuple):
    """A symbol that a receiver reads, and the sample at which its useful part begins."""

    frame: int
    slot: int
    number: int
    start: int


def is_decoded(rule, cell, symbol):
    """Returns whether the symbol belongs to a slot that the receiver decodes."""
    first = int(cell["offset"] > 0)
    even = first + (cell["sfn"] + first) % 2
    has_system = not rule.unread and (symbol.frame, symbol.slot // 2) == (even, 5)
    return (symbol.frame, symbol.slot) == (first, 1) or has_system


def is_signal(rule, symbol):
    """Returns whether the symbol carries a primary signal near the search range, or the secondary signal before a
    primary one in the later half of it."""
    last = symbol.number - rule.symbols if symbol.slot in (0, 10) else 0
    is_primary = last == -1 and rule.step <= symbol.start + NEAR and symbol.start <= LAST + NEAR
    return is_primary or last == -2 and LAST - FRAME // 2 < symbol.start + rule.step <= LAST


def read_symbols(rule, cell) -> Iterator[Symbol]:
    """Yields the symbols of the first three frames that the receiver reads."""
    for frame in range(3):
        for slot in range(20):
            for number in range(rule.symbols):
                start = FRAME * frame + 960 * slot + rule.first + rule.step * number - cell["offset"]
                symbol = Symbol(frame, slot, number, start)
                if start >= 0 and (is_decoded(rule, cell, symbol) or is_signal(rule, symbol)):
                    yield symbol


def unrounded(elements):
    """Returns 2^17 times the 128 samples of a symbol before rounding, from its 72 elements, real part first."""
    re, im = elements.T
    return np.stack([re @ W_REAL - im @ W_IMAG, re @ W_IMAG + im @ W_REAL], 1)


def waveform(ports, gains):
    """Returns the sum of the ports' unrounded samples, each times its gain, in units of 2^-31."""
    return sum(np.stack([a * x - b * y, a * y + b * x], 1) for (x, y), (a, b) in zip((port.T for port in ports), gains))


def error_energy(samples, wave) -> int:
    """Returns the energy of the difference between 128 samples and a waveform, in units of 2^-62."""
    return sum(int(x) ** 2 for x in ((np.asarray(samples, np.int64) << 31) - wave).flat)


class Sent:
    """The samples of a described cell's antenna ports, symbol by symbol."""

    def __init__(self, cell, carrier):
        self.cell, self.carrier, self.frames = cell, CARRIERS[carrier], {}

    def ports(self, symbol):
        """Returns the unrounded samples of a symbol at each port."""
        if symbol.frame not in self.frames:
            sfn = (self.cell["sfn"] + symbol.frame) % 1024
            ports = range(self.carrier.PORTS)
            self.frames[symbol.frame] = [self.carrier(self.cell, sfn, port).elements() for port in ports]
        row = self.carrier.SYMBOLS * symbol.slot + symbol.number
        return [unrounded(grid[row]) for grid in self.frames[symbol.frame]]


class Excess(NamedTuple):
    """The maximum error energy of a symbol as a fraction of the premise's limit."""

    slots: float
    signals: float
    is_near: bool  # by whole numbers


def are_paired(squares: Sequence[int]) -> bool:
    """Returns whether, with four ports, the ports 0 and 2 have at least three eighths of the power, and the ports 1 and 3
    too; `squares` are the ports' squared magnitudes."""
    return len(squares) <= 2 or all(3 * sum(squares) <= 8 * sum(squares[first::2]) for first in (0, 1))


def excess(r, cell, carrier, rule, gains: Sequence[tuple[int, int]]):
    """Returns how near a recording is to the waveform of a cell with these gains."""
    sent, squares = Sent(cell, carrier), [a * a + b * b for a, b in gains]
    worst, is_near = [0.0, 0.0], squares[0] >= 2**28 and are_paired(squares)
    for symbol in read_symbols(rule, cell):
        energy = error_energy(r[symbol.start : symbol.start + 128], waveform(sent.ports(symbol), gains))
        limits = []
        if is_decoded(rule, cell, symbol):
            limits.append((0, (SLOT_QUOTA[rule.ports] * sum(squares)) << 34))
        if is_signal(rule, symbol):
            limits.append((1, (SIGNAL_QUOTA * squares[0]) << 34))
        for part, limit in limits:
            worst[part] = max(worst[part], energy / limit)
            is_near &= energy <= limit
    return Excess(*worst, is_near)


def fitted_gains(r, cell, carrier, rule):
    """Returns the gains, one for each port, with the minimum error energy in the decoded slots together."""
    sent, waves, samples = Sent(cell, carrier), [], []
    for symbol in read_symbols(rule, cell):
        if is_decoded(rule, cell, symbol):
            waves.append(np.array([port @ (1, 1j) for port in sent.ports(symbol)]).T / 2**17)
            samples.append(r[symbol.start : symbol.start + 128] @ (1, 1j))
    found = np.linalg.lstsq(np.concatenate(waves), np.concatenate(samples), rcond=None)[0] * 2**14
    return [(round(gain.real), round(gain.imag)) for gain in found]


def decibels(quota, ports=1):
    """Returns Es/N0 of a reference element in white noise whose energy in a symbol is so many times the sum of the
    squares of equal gains."""
    return 10 * np.log10(128 * ELEMENT / (quota * ports))
