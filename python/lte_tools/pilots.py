"""What the pilots say of a cell that `lte_cli evidence --json` writes: level, noise, and how its frequency is off.

Pilots of antenna ports 0 and 1 are three subcarriers apart, by turns in the first symbol of a slot and in a later one:
548 samples later, with the extended prefix 480. The phase from one to the other gives the offset up to half of 1.92e6 by
these samples (1,752 and 2,000 Hz) either way. Those of ports 2 and 3 are in one symbol and say nothing of it.

The channel is what paths within 16 samples explain, about as long as the prefix lasts, and the noise what they do not,
once the phase is corrected: so neither an echo nor an offset is noise. They are 3 samples before a frame's start to 13
after it, or begin earlier where that leaves clearly less noise, since a frame's start is that of the strongest path.
Paths of which the list has a line of their own are known, and count too.

Debian: python3-numpy.
"""
from __future__ import annotations

import functools
from typing import NamedTuple, Sequence

import numpy as np
import numpy.typing as npt

from . import radio
from .answers import Evidence
from .rules import Rule

EARLIEST = (-3, -8, -13)  # samples before a frame's start at which paths begin
CLEARLY = 0.7  # of the noise that another start of the paths may leave
PATHS = np.arange(0, 16.01, 0.25)  # samples by which they are later than the earliest one
ABOUT = np.arange(-1.5, 1.51, 0.25)  # samples about a known path's delay at which it may be
REST = 1e-4  # of what such paths make of 24 pilots the waves may leave this part
SCALE = 16_200  # a pilot's squared magnitude by that of the received symbol


class Measured(NamedTuple):
    """Signal and noise of a reference element, and hertz that are left of the offset, with their error."""

    signal: float
    noise: float
    hertz: float
    error: float

    def level(self, full: float) -> float | None:
        """Returns the level in dBFS; `full` is full scale in the recording (docs/RECORDINGS.md)."""
        return radio.decibels(self.signal / (512 * full) ** 2)

    @property
    def ratio(self) -> float | None:
        """Signal to noise in dB."""
        return radio.decibels(self.signal / self.noise) if self.noise > 0 else None


def measured(evidence: Sequence[Evidence], rule: Rule, known: tuple[int, ...] = ()) -> Measured:
    """Returns what `evidence` of a rule's list says of a cell, once or of several of its frames; `known` are the delays
    of further paths in samples."""
    slots = slots_of(evidence)
    first, *others = (fit_of(slots, paths_from(slots.subcarrier, earliest, known)) for earliest in EARLIEST)
    best = min(others, key=lambda fit: fit.noise)
    fit = best if best.noise < CLEARLY * first.noise else first
    every = [pilots_of(one, port) for one in evidence for port in range(len(one.channel))]
    power = float(np.mean([np.mean(np.abs(pilots) ** 2) for pilots in every]))
    hertz = radio.RATE / rule.later / (2 * np.pi)
    error = min(np.sqrt(fit.noise / 2 / max(fit.knowledge, 1e-9)), np.pi)
    return Measured((power - fit.noise) / SCALE, fit.noise / SCALE, float(hertz * fit.turn), float(hertz * error))


class Slots(NamedTuple):
    """Slots of a cell, one for each evidence and each port whose pilots give a phase: the 24 pilots of each, which of them
    are in its first symbol, the subcarrier of the first, and from how many frames they are."""

    pilots: radio.Complex
    in_first: npt.NDArray[np.bool_]
    subcarrier: int
    frames: int


def slots_of(evidence: Sequence[Evidence]) -> Slots:
    """Returns the slots of a cell's evidence (TS 36.211 section 6.10.1.2)."""
    pilots, in_first, first = list[radio.Complex](), [], evidence[0].identity % 3
    for one in evidence:
        for port in range(min(2, len(one.channel))):
            pilots.append(pilots_of(one, port))
            in_first.append((first + 3 * np.arange(24) - one.identity - 3 * port) % 6 == 0)
    return Slots(np.array(pilots), np.array(in_first), first, len(evidence))


def pilots_of(one: Evidence, port: int) -> radio.Complex:
    found: radio.Complex = np.array(one.channel[port], float).view(complex)[:, 0]
    return found


class Fit(NamedTuple):
    """What paths from one on explain: the phase, the noise of a pilot, and how much one frame says of the phase; further
    ones say no more of it where the noise is another cell, which sends the same in the same slot of each frame."""

    turn: float
    noise: float
    knowledge: float


def fit_of(slots: Slots, paths: Paths) -> Fit:
    first, later = (paths.kept(slots.pilots * part) for part in (slots.in_first, ~slots.in_first))
    turn = float(np.angle(np.vdot(first, later)))
    pilots = np.where(slots.in_first, 1, np.exp(-1j * turn)) * slots.pilots  # all as in the first symbol
    signal = paths.kept(pilots)
    noise = float(np.mean(energy(pilots - signal))) / (24 - paths.size)
    return Fit(turn, noise, float(np.sum(knowledge(slots, signal, paths, noise))) / slots.frames)


def knowledge(slots: Slots, signal: radio.Complex, paths: Paths, noise: float) -> radio.Real:
    """Returns how much each slot says of the phase, by its signal: by this and the noise its error is."""
    power, half = energy(signal), signal * ~slots.in_first
    shares = energy(half - paths.kept(half)) / np.maximum(power, 1e-9)
    found: radio.Real = shares * np.maximum(power - paths.size * noise, 0)
    return found


def energy(pilots: radio.Complex) -> radio.Real:
    """Returns the energy of each slot's pilots."""
    found: radio.Real = np.sum(np.abs(pilots) ** 2, axis=1)
    return found


class Paths(NamedTuple):
    """What paths may make of 24 pilots: the projection on it, and how many numbers describe it."""

    projection: radio.Complex
    size: int

    def kept(self, pilots: radio.Complex) -> radio.Complex:
        """Returns what paths make of the pilots of each slot."""
        found: radio.Complex = pilots @ self.projection
        return found


@functools.cache
def paths_from(subcarrier: int, earliest: int, known: tuple[int, ...]) -> Paths:
    """Returns paths from the earliest one, and the known ones, at the 24 pilots from this subcarrier: any path's wave is a
    sum of few orthogonal waves."""
    delays = np.concatenate([earliest + PATHS, *(delay + ABOUT for delay in known)])
    k = subcarrier + 3 * np.arange(24)
    frequencies = np.where(k < 36, k - 36, k - 35) / 128
    waves, sizes, _ = np.linalg.svd(np.exp(-2j * np.pi * np.outer(frequencies, delays)))
    left = 1 - np.cumsum(sizes**2) / np.sum(sizes**2)
    size = int(np.argmax(left < REST)) + 1
    kept = waves[:, :size]
    return Paths((kept @ kept.conj().T).T, size)
