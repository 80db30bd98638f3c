"""Recordings of a cell as a radio gives them, for heard_share.py: frames by TS 36.211 with traffic, a channel from each
antenna port, a frequency offset, noise, and a 12-bit converter.

A cell is a description as in python/lte_reference/cell.py, also with `width`, the code of its bandwidth. The middle 72
subcarriers are those of cell.py, but pairs of ports have the factor 1/sqrt 2 of TS 36.211 section 6.3.4.3, and open
resource elements carry traffic. A wider cell has traffic around these subcarriers and no SIB1; it is made at twice the
sampling rate and filtered. Debian: python3-numpy, python3-scipy.
"""
from typing import NamedTuple

import numpy as np
from scipy import signal

import packages

packages.add()
from lte_reference.cell import CARRIERS
from lte_tools import radio

WIDTHS = (6, 15, 25, 50, 75, 100)  # resource blocks
WIDEST = 252  # subcarriers that are made of a wide cell
ELEMENT = 2 * 90**2  # energy of a reference element
FRAMES = 4
# ns and dB of each path (TS 36.104 annex B.2)
PROFILES = {
    "flat": ((0,), (0,)),
    "EPA": ((0, 30, 70, 90, 110, 190, 410), (0, -1, -2, -3, -8, -17.2, -20.8)),
    "EVA": ((0, 30, 150, 310, 370, 710, 1090, 1730, 2510), (0, -1.5, -1.4, -3.6, -0.6, -9.1, -7, -12, -16.9)),
    "ETU": ((0, 50, 120, 200, 230, 500, 1600, 2300, 5000), (-1, -1, -1, 0, 0, 0, -3, -5, -7)),
}
TONES = 24  # of a fading path


class Air(NamedTuple):
    """The conditions of a recording."""

    decibels: float  # Es/N0 of a reference element, the mean of ports, time and subcarriers
    profile: str
    doppler: float  # hertz
    hertz: float  # frequency offset
    load: float  # share of the resource blocks that have traffic
    bits: int  # 16, or 8: cu8
    fraction: float  # of a sample by which frames begin later
    room: float  # dB from the rms of a component up to full scale
    cutoff: float  # hertz of the filter before a wide cell is decimated


class OnAir:
    """A frame of an antenna port with amplitudes that are not whole numbers; before a frame class of cell.py."""

    def __init__(self, cell, sfn, port=0):
        super().__init__(cell, sfn, port)
        self.grid = self.grid.astype(float)
        # by symbol and six subcarriers in turn: the reference elements of this port, and of all
        self.own, self.every = self.grid.any(2)[:, :6], self.taken[:, :6].copy()

    def pair(self, number, x, y):
        """Returns the port's symbols of a pair."""
        return [np.array(point) / np.sqrt(2) for point in super().pair(number, x, y)]

    def elements(self, load, draw):
        """Returns the symbols of the frame with traffic, with as many elements each as the cell has subcarriers."""
        self.synchronisation()
        self.broadcast()
        if self.HAS_CONTROL and not self.cell.get("width"):
            taken = [self.indicator(subframe) for subframe in range(10)]
            if self.sfn % 2 == 0:
                self.system_information(taken[5])
        count = min(12 * WIDTHS[self.cell.get("width", 0)], WIDEST)
        is_open = np.ones((len(self.grid), count), bool)
        places = np.zeros((len(self.grid), count), complex)
        middle = slice(count // 2 - 36, count // 2 + 36)
        if count > 72:
            own, every = (np.tile(its, (1, count // 6)) for its in (self.own, self.every))
            places[own] = 90 * draw.choice([1, -1], (own.sum(), 2)) @ (1, 1j)
            is_open[every] = False
        is_open[:, middle], places[:, middle] = self.open_places(), self.grid @ (1, 1j)
        places[is_open] = self.traffic_elements(places.shape, load, draw)[is_open]
        return places

    def traffic_elements(self, shape, load, draw):
        """Returns elements of QPSK, 16QAM or 64QAM in resource blocks, and of QPSK in control regions."""
        rows, region = 2 * self.SYMBOLS, self.cell["cfi"] + (not self.cell.get("width"))
        cut = (12 * WIDTHS[self.cell.get("width", 0)] - shape[1]) // 2  # subcarriers that are left out on each side
        found = np.zeros(shape, complex)
        for first in range(0, len(found), rows):
            halves = (slice(first, first + region), (2,)), (slice(first + region, first + rows), (2, 4, 8))
            for left in range(-(cut % 12), shape[1], 12):
                here = slice(max(0, left), left + 12)
                for part, sides in halves:
                    if draw.random() < load:
                        side, size = draw.choice(sides), found[part, here].shape
                        levels = 2 * draw.integers(0, side, (2, *size)) - side + 1
                        step = 90 / np.sqrt((side**2 - 1) / 3 * self.PORTS)
                        found[part, here] = step * (levels[0] + 1j * levels[1])
        return found


ON_AIR = {name: type(f"OnAir{frame.__name__}", (OnAir, frame), {}) for name, frame in CARRIERS.items()}


def modulated(elements, prefixes, times):
    """Returns the samples of symbols, at `times` 1.92 million samples per second."""
    half = elements.shape[1] // 2
    bins = np.zeros((len(elements), 128 * times), complex)
    bins[:, 1 : half + 1], bins[:, -half:] = elements[:, half:], elements[:, :half]
    waves = np.fft.ifft(bins) * 128 * times
    counts = [times * prefixes[i % len(prefixes)] for i in range(len(waves))]
    return np.concatenate([part for wave, count in zip(waves, counts) for part in (wave[-count:], wave)])


def sent(name, cell, load, draw, times):
    """Returns the samples of each antenna port, from the start of the frame in which the recording begins."""
    frame, numbers = ON_AIR[name], [(cell["sfn"] + j) % 1024 for j in range(FRAMES)]

    def samples(port):
        grids = [frame(cell, sfn, port).elements(load, draw) for sfn in numbers]
        return np.concatenate([modulated(grid, frame.PREFIXES, times) for grid in grids])

    return [samples(port) for port in range(frame.PORTS)]


# ---- the channel


def gains(count, rate, doppler, draw):
    """Returns the gain of a fading path by sample (Jakes), with the mean power 1."""
    sizes = (draw.standard_normal(TONES) + 1j * draw.standard_normal(TONES)) / np.sqrt(2 * TONES)
    turns = 2 * np.pi * doppler * np.cos(2 * np.pi * draw.random(TONES))
    knots = np.arange(0, count + 64, 64)
    at_knots = np.exp(1j * np.outer(knots / rate, turns)) @ sizes
    return np.interp(np.arange(count), knots, at_knots.real) + 1j * np.interp(np.arange(count), knots, at_knots.imag)


def through(samples, air, rate, draw, port):
    """Returns the samples after an antenna port's channel, and the channel's mean power gain in the middle band."""
    count, (delays, decibels) = len(samples), PROFILES[air.profile]
    powers = 10 ** (np.array(decibels) / 10)
    spectrum, hertz = np.fft.fft(samples), np.fft.fftfreq(count, 1 / rate)
    middle, instants = np.arange(-36, 37) * 15_000, slice(0, count, count // 32)
    heard, response = np.zeros(count, complex), 0
    for delay, power in zip(delays, powers / powers.sum()):
        seconds = delay * 1e-9 + air.fraction / radio.RATE
        if air.profile == "flat":
            gain = np.full(count, np.exp(2j * np.pi * draw.random()) * 10 ** (draw.uniform(-3, 3) * (port > 0) / 20))
        else:
            gain = np.sqrt(power) * gains(count, rate, air.doppler, draw)
        heard += gain * np.fft.ifft(spectrum * np.exp(-2j * np.pi * hertz * seconds))
        response = response + np.outer(gain[instants], np.exp(-2j * np.pi * middle * seconds))
    return heard, np.mean(abs(response) ** 2)


# ---- the radio


def whole(x, least, most):
    """Returns the samples with components rounded, and kept from `least` to `most`."""
    return np.clip(np.round(x.real), least, most) + 1j * np.clip(np.round(x.imag), least, most)


def received(name, cell, air, draw):
    """Returns the bytes of a recording, ci16_le or cu8, and the same samples as pairs of whole numbers."""
    times = 2 if cell.get("width") else 1
    rate, ports = times * radio.RATE, sent(name, cell, air.load, draw, times)
    channels = [through(samples, air, rate, draw, port) for port, samples in enumerate(ports)]
    x = sum(samples for samples, _ in channels)
    if times > 1:
        x = np.convolve(x, signal.firwin(129, air.cutoff, fs=rate), "same")[::times]
    x = radio.shifted(x[cell["offset"] :][: cell["samples"]], air.hertz)
    noise = 128 * ELEMENT * np.mean([power for _, power in channels]) / 10 ** (air.decibels / 10)
    x = x + np.sqrt(noise / 2) * (draw.standard_normal(len(x)) + 1j * draw.standard_normal(len(x)))
    rms = np.sqrt(np.mean(abs(x) ** 2) / 2)
    x = whole(2048 * 10 ** (-air.room / 20) / rms * x, -2048, 2047)
    if air.bits == 16:
        x = whole(16 * draw.uniform(0.6, 1) * x, -32_768, 32_767)
        r = np.stack([x.real, x.imag], 1).astype(np.int64)
        return r.astype("<i2").tobytes(), r
    r = (np.stack([x.real, x.imag], 1) // 16 + 128).astype(np.int64)
    return r.astype(np.uint8).tobytes(), 2 * r - 255
