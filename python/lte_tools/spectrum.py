"""Spectra of a file: its noise floor, what is next to a narrow carrier, and the LTE carriers in it.

The noise floor is that of the quietest frequency within the middle four fifths of a file: at each 15 kHz the median over
time, which is the mean by ln 2 for noise, and the mean of five such neighbours.

Debian: python3-numpy.
"""
from __future__ import annotations

import math
from dataclasses import dataclass
from typing import Sequence

import numpy as np

from . import radio
from .bands import RASTER
from .radio import Real
from .recorded import SPACING, Recorded

MOST = 2_048  # symbols that are transformed
MIDDLE = 0.4  # of the rate: frequencies on either side among which the quietest is
SMOOTH = 5  # neighbouring frequencies that are one
GUARD = (560_000, 690_000)  # hertz from a centre at which neither a carrier of 6 resource blocks nor another one sends
WIDTHS = {1.08e6: "1.4", 2.7e6: "3", 4.5e6: "5", 9e6: "10", 13.5e6: "15", 18e6: "20"}  # hertz of a carrier, and MHz
NEARLY = 0.1  # of its width by which a carrier's edges may be off
ABOVE, LEVEL = 5, 10  # dB above the floor from which on a frequency is of a carrier, and by which those of one differ


def spectra(x: radio.Complex, rate: float) -> tuple[Real, Real]:
    """Returns the frequencies of samples in hertz, and the power in 15 kHz over time at each of them."""
    size = max(8, round(rate / SPACING))
    blocks = x[: len(x) // size * size].reshape(-1, size)
    blocks = blocks[:: max(1, -(-len(blocks) // MOST))]
    window = np.hanning(size + 2)[1:-1]
    found = np.fft.fft(blocks * window, axis=1)
    power = (found.real**2 + found.imag**2) / (size * np.sum(window**2))
    return np.fft.fftfreq(size, 1 / rate), power


def floor_of(x: radio.Complex, rate: float) -> float:
    """Returns the power of the noise floor in 15 kHz."""
    frequencies, power = spectra(x, rate)
    order = np.argsort(frequencies)
    order = order[np.abs(frequencies[order]) <= MIDDLE * rate]
    quiet = np.median(power[:, order], axis=0) / math.log(2)
    return float(np.convolve(quiet, np.ones(SMOOTH) / SMOOTH, "valid").min()) if len(quiet) >= SMOOTH else 0.0


def beside(x: radio.Complex, rate: float, centre: float) -> float:
    """Returns the power in 15 kHz outside a carrier of 6 resource blocks at `centre` hertz, on the side that has less; 0 if
    the rate leaves out a side."""
    frequencies, power = spectra(x, rate)
    mean, places = power.mean(0), frequencies - centre
    sides = [mean[(GUARD[0] <= sign * places) & (sign * places <= GUARD[1])] for sign in (-1, 1)]
    return float(min(side.mean() for side in sides)) if abs(centre) + GUARD[1] <= rate / 2 else 0.0


# ---- carriers


@dataclass(frozen=True)
class Carrier:
    """A carrier that a spectrum shows: hertz of its centre above the file's, and the MHz of its bandwidth."""

    shift: float
    bandwidth: str

    @property
    def text(self) -> str:
        return f"a carrier of {self.bandwidth} MHz at {self.shift / 1e6:+g} MHz: --shift {self.shift / 1e6:g}e6"


def carriers_of(seen: Recorded, beside_hertz: float, centre: float = 0) -> list[Carrier]:
    """Returns the carriers in a file, except those about `beside_hertz`; `centre` is the file's frequency, 0 if unknown."""
    power, frequencies = np.median(seen.power, axis=1), seen.frequencies
    level = 10 * np.log10(np.array([np.median(power[max(0, i - 2) : i + 3]) for i in range(len(power))]) + 1e-20)
    inside = np.abs(frequencies) < 0.48 * seen.rate
    floor = float(np.percentile(level[inside], 5))
    found = []
    for first, end in runs(inside & (level > floor + ABOVE)):
        own = level[first:end]
        kept = np.flatnonzero(own > np.median(own) - LEVEL)
        low, high = frequencies[first + kept[0]], frequencies[first + kept[-1]]
        width = float(high - low) + seen.step
        middle = RASTER * round((centre + (low + high) / 2) / RASTER) - centre
        named = [name for known, name in WIDTHS.items() if abs(width / known - 1) <= NEARLY]
        if named and abs(middle - beside_hertz) > RASTER / 2:
            found.append(Carrier(float(middle), named[0]))
    return found


def runs(values: Sequence[bool]) -> list[tuple[int, int]]:
    """Returns pairs of indices, from one up to another, between which values hold."""
    edges = np.flatnonzero(np.diff(np.concatenate([[0], np.asarray(values, int), [0]])))
    return list(zip(map(int, edges[::2]), map(int, edges[1::2])))
