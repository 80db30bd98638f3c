"""What a radio's file itself shows in some seconds: its spectrum over time, DC, full scale, stretches that stand still.

Nothing is taken off, moved or filtered; a tone of full scale has the power 1. Debian: python3-numpy.
"""
from __future__ import annotations

from dataclasses import dataclass
from typing import Any, NamedTuple

import numpy as np
import numpy.typing as npt

from .radio import Complex, Real
from .radio_file import RadioFile

SPACING = 15_000  # hertz from a subcarrier to the next
COLUMNS, ROWS = 225, 512  # of a spectrum over time, at most
STILL = 1e-3  # seconds of one value from which on a stretch counts
# what a component of full scale is at least, above 0, by the form of a file's numbers; below 0 it is -1
TOPS = {"u8": 1, "s8": 127 / 128, "s16": 32_767 / 32_768, "f32": 1}


@dataclass(frozen=True)
class Recorded:
    """Measurements of some seconds of a file."""

    rate: float
    seconds: float
    count: int  # samples that were looked at
    power: Real  # in 15 kHz: frequencies from the lowest on, each over time
    step: float  # hertz from a frequency to the next
    lowest: float  # hertz beside the file's centre
    mean: float  # power of a sample
    greatest: float  # size of a component
    dc: float  # power of the mean of all samples
    at_full: npt.NDArray[Any]  # over time, how many samples are at full scale
    still: list[tuple[float, float]]  # pairs of seconds between which all samples are one
    alike: float  # how alike two samples are that stand a symbol of LTE apart, as its prefixes make them

    @property
    def share_at_full(self) -> float:
        return float(self.at_full.sum() / self.count)

    @property
    def frequencies(self) -> Real:
        """Hertz from the file's centre, by the rows of `power`."""
        found: Real = self.lowest + self.step * np.arange(len(self.power))
        return found

    @property
    def is_still(self) -> bool:
        """Whether all samples are one."""
        return sum(end - start for start, end in self.still[:1]) > self.seconds - STILL

    @property
    def is_noise(self) -> bool:
        """Whether there is nothing but noise: as much at all frequencies and times, and no two samples alike."""
        middle = self.power[self.inner].mean(1)
        smooth = np.convolve(middle, np.ones(9) / 9, "valid") if len(middle) > 9 else middle
        over_time = self.power[self.inner].mean(0)
        is_even = is_level(smooth, 1.5) and is_level(over_time, 2)
        return bool(not self.still and is_even and self.alike < 5 / np.sqrt(self.count))

    @property
    def inner(self) -> npt.NDArray[np.bool_]:
        """The rows that a radio's own filter leaves, without those at 0 Hz."""
        frequencies = np.abs(self.frequencies)
        found: npt.NDArray[np.bool_] = (frequencies < 0.35 * self.rate) & (frequencies > 2.5 * self.step)
        return found


def is_level(values: Real, factor: float) -> bool:
    """Returns whether none is so many times the one in the middle, or less than its part of it."""
    middle = np.median(values)
    return bool(len(values) > 0 and middle / factor <= values.min() and values.max() <= middle * factor)


class Column(NamedTuple):
    """Measurements of one part of the time."""

    power: Real  # by frequency
    total: complex  # of all samples
    energy: float
    greatest: float
    at_full: int  # samples
    still: Complex  # by symbol's length, the sample that all of its samples are, or not a number
    product: complex  # of samples with those a symbol's length later
    pairs: int


def column_of(x: Complex, size: int, top: float) -> Column:
    """Returns that of samples of so many symbols' lengths."""
    blocks = x.reshape(-1, size)
    window = np.hanning(size + 2)[1:-1]
    power = np.abs(np.fft.fft(blocks * window, axis=1) / window.sum()) ** 2
    parts = np.stack([x.real, x.imag])
    return Column(
        power=np.fft.fftshift(power.mean(0)),
        total=x.sum(),
        energy=float(np.sum(np.abs(x) ** 2)),
        greatest=float(np.abs(parts).max()),
        at_full=int(((parts >= top) | (parts <= -1)).any(0).sum()),
        still=np.where((blocks == blocks[:, :1]).all(1), blocks[:, 0], np.nan),
        product=complex(np.vdot(blocks[:-1], blocks[1:])),
        pairs=x.size - size,
    )


def recorded(file: RadioFile, start: float, seconds: float) -> Recorded:
    """Returns that of a file from second `start` on."""
    first, count = round(start * file.rate), min(round(seconds * file.rate), file.count - round(start * file.rate))
    size = min(count, max(8, round(file.rate / SPACING)))
    blocks = count // size
    edges = np.linspace(0, blocks, min(COLUMNS, max(1, blocks // 2)) + 1).astype(int)
    columns = [
        column_of(file.samples(first + size * a, size * (b - a)), size, TOPS[file.form])
        for a, b in zip(edges, edges[1:])
    ]
    count = size * blocks
    dc = abs(sum(column.total for column in columns) / count) ** 2
    mean = sum(column.energy for column in columns) / count
    product: complex = sum(column.product for column in columns)
    pairs = sum(column.pairs for column in columns)
    step = file.rate / size
    power = grouped(np.stack([column.power for column in columns], 1))
    return Recorded(
        rate=file.rate,
        seconds=count / file.rate,
        count=count,
        power=power,
        step=step * rows_in_one(size),
        lowest=step * (rows_in_one(size) / 2 - 0.5 - size // 2),
        mean=mean,
        greatest=max(column.greatest for column in columns),
        dc=dc,
        at_full=np.array([column.at_full for column in columns]),
        still=stretches(np.concatenate([column.still for column in columns]), size / file.rate),
        alike=abs(product - pairs * dc) / (pairs * (mean - dc)) if pairs and mean > dc else 0,
    )


def rows_in_one(size: int) -> int:
    """Returns how many frequencies are drawn as one."""
    return -(-size // ROWS)


def grouped(power: Real) -> Real:
    """Returns the greatest of neighbouring frequencies where there are too many."""
    count = rows_in_one(len(power))
    whole = len(power) // count * count
    found: Real = power[:whole].reshape(-1, count, power.shape[1]).max(1)
    return found


def stretches(values: Complex, step: float) -> list[tuple[float, float]]:
    """Returns pairs of seconds between which one value stays, by the values of steps of so many seconds."""
    found: list[tuple[float, float]] = []
    begun = 0
    for i in range(1, len(values) + 1):
        if i == len(values) or values[i] != values[begun]:
            if values[begun] == values[begun] and (i - begun) * step >= STILL:
                found.append((begun * step, i * step))
            begun = i
    return found
