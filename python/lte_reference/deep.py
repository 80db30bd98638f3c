#!/usr/bin/python3
"""python3 -m lte_reference.deep [all] [--json] < RECORDING

A second program for `ids --deep`, a list that is accumulated over half-frames: identities of cells far below the
strongest one (docs/DEFINITION.md, "Accumulated half-frames"). Of `search.py` it shares the tables and the primary
signal alone. Every number is whole: sums of products run in doubles where they stay below 2^53, else in 64 bits or
more. It takes half a second for 17 frames, three seconds for a second. Debian: python3-numpy.

The rules, over K half-frames of 9,600 samples; C, E, P, p, s and seen are those of docs/DEFINITION.md, rules 1 to 3:

1. Positions t are 137 to 9,736, on a circle. K is the number of half-frames h in which each position has a useful part.
2. The ratio of N2 at t in h is floor(C / (floor(E * P / 2^24) + 1)) at t + 9,600h; A(t) is its sum over h.
3. A maximum has A(t) > 0, no greater A within 9 positions, and no equal A in the 9 before it. A candidate is a maximum
   that fewer than 64 maxima of this N2 precede, by greater A, or equal A and lower t.
4. z is the sum of r(t + n) * conj p(n) in h, e the energy of both symbols. The vote on n = 0 to 61 is
   trunc(re(seen(t - 137, n + 5) * conj z) / (floor(e / 4,096) + 1)). The 124 signs are those of the sums of the votes
   over h of even number, then over h of odd number.
5. The pair of N1 and a half-frame whose 124 signs, s of this half-frame and s of the next, match most often is taken:
   of several the one of subframe 0, then of the lowest N1. With 93 matches it is a detection.
6. A detection is listed unless one that precedes it as in 3 has the same identity at a distance of at most 137.
"""
import json
import sys
from typing import NamedTuple

import numpy as np

from .search import FRAME, W_IMAG, W_REAL, recording, rounded, secondary, wave

HALF_FRAME = 9_600
FIRST = 137  # the first position: the useful part of the secondary symbol just fits in front of it
KEPT = 326_400  # samples that decide the list, unless all do
REACH = 9  # a candidate has no greater accumulated correlation at this distance
CANDIDATES = 64  # of each primary signal
SIGNS = 93  # of 124 that agree with the secondary signals of a cell
ONE = 2**24  # the greatest ratio
ECHO = 137  # distance within which a detection that another of its identity precedes is not listed
WAVES = [wave(n2) for n2 in range(3)]
POWERS = [int((p * p + q * q).sum()) for p, q in WAVES]
# the parts of 128 samples, first real, then imaginary, to the real and imaginary parts of the sums with conj p(n)
SUMS = np.hstack([np.array([[p, -q], [q, p]]).transpose(0, 2, 1).reshape(256, 2) for p, q in WAVES]).astype(float)
# the same for the 62 subcarriers of the secondary signal
TRANSFORM = np.block([[W_REAL[5:67].T, -W_IMAG[5:67].T], [W_IMAG[5:67].T, W_REAL[5:67].T]]).astype(float)
# of each N2 the signs of two consecutive half-frames, by half-frame and N1, as rows: first those of subframe 0
PATTERNS = [
    np.array([secondary(n1, n2, half) + secondary(n1, n2, 5 - half) for half in (0, 5) for n1 in range(168)])
    for n2 in range(3)
]


class Entry(NamedTuple):
    """A cell of the list: its first PSS's position and N2, and the values found there."""

    t: int
    n2: int
    n1: int
    half: int
    signs: int
    ratio: int
    power: int

    @property
    def identity(self):
        return 3 * self.n1 + self.n2

    @property
    def start(self):
        return (self.t - (10_432 if self.half else 832)) % FRAME


def half_frames(count):
    """Returns how many half-frames of this number of samples are accumulated."""
    return (count - 9_864) // HALF_FRAME + 1


# ---- the accumulated correlation


def windows(r, at):
    """Returns the 128 samples from each of these positions: real parts, then imaginary parts."""
    return r[np.asarray(at)[:, None] + np.arange(128)].transpose(0, 2, 1).reshape(-1, 256)


def energies(parts):
    return np.rint((parts.astype(float) ** 2).sum(1)).astype(np.int64)


def ratios(r, h):
    """Returns for each N2 the ratios at the 9,600 positions of half-frame h, in parts of 2^24."""
    first = FIRST + HALF_FRAME * h
    views = np.lib.stride_tricks.sliding_window_view(r[first : first + HALF_FRAME + 127].astype(float), 128, axis=0)
    parts = views.reshape(HALF_FRAME, 256)
    sums, energy = np.rint(parts @ SUMS).astype(np.int64), energies(parts)
    squares = sums[:, 0::2] ** 2 + sums[:, 1::2] ** 2
    return np.array([squares[:, n2] // (energy * POWERS[n2] // ONE + 1) for n2 in range(3)])


def accumulated(r, halves):
    """Returns for each N2 the accumulated correlation at the 9,600 positions."""
    return sum(ratios(r, h) for h in range(halves))


def candidates(row):
    """Returns the indices of one N2's candidates among the 9,600 positions, in ascending order."""
    is_least = row > 0
    for d in range(1, REACH + 1):
        is_least &= (row > np.roll(row, d)) & (row >= np.roll(row, -d))
    found = np.flatnonzero(is_least)
    return np.sort(found[np.lexsort((found, -row[found]))[:CANDIDATES]])


# ---- the signs of the secondary signal


def products(r, t, n2, halves):
    """Returns re(B(n) * conj z) for each half-frame and n, and the energy of both symbols in each half-frame."""
    at = t + HALF_FRAME * np.arange(halves)
    here, before = windows(r, at), windows(r, at - 137)
    z = np.rint(here @ SUMS[:, 2 * n2 : 2 * n2 + 2]).astype(np.int64)
    seen = rounded(np.rint(before @ TRANSFORM).astype(np.int64), 12)
    return seen[:, :62] * z[:, :1] + seen[:, 62:] * z[:, 1:], energies(here) + energies(before)


def truncated(a, b):
    """Returns a / b, rounded toward 0."""
    return np.sign(a) * (abs(a) // b)


def signs_of(values, energy):
    """Returns 124 signs, 1, 0 or -1: of the sums over half-frames of even number, then over those of odd number."""
    votes = truncated(values, energy[:, None] // 4_096 + 1)
    return np.sign(np.concatenate([votes[0::2].sum(0), votes[1::2].sum(0)]))


def power(values, n2, n1, half):
    """Returns about the energy of the 24 pilots that a cell of this level has, as `evidence` gives it."""
    rows = np.array([secondary(n1, n2, (half, 5 - half)[h % 2]) for h in range(len(values))])
    total = sum((rows * values).ravel().tolist())
    return max(0, 24 * 8_128 * total) // (62 * len(values) * POWERS[n2])


def found_at(r, t, n2, halves, sum_of_ratios):
    """Returns the entry of a candidate, if it has one."""
    values, energy = products(r, t, n2, halves)
    agreeing = (PATTERNS[n2] == signs_of(values, energy)).sum(1)
    best = int(agreeing.argmax())
    if agreeing[best] < SIGNS:
        return None
    half, n1 = 5 * (best // 168), best % 168
    ratio = 1_000 * int(sum_of_ratios) // (ONE * halves)
    return Entry(t, n2, n1, half, int(agreeing[best]), ratio, power(values, n2, n1, half))


# ---- the list


def apart(t, u):
    """Returns the distance of two positions on the circle of 9,600."""
    return min((t - u) % HALF_FRAME, (u - t) % HALF_FRAME)


def listed(r, halves=None):
    """Returns the entries, in order of position and N2."""
    halves = half_frames(min(len(r), KEPT)) if halves is None else halves
    rows, found = accumulated(r, halves), []
    for n2 in range(3):
        for i in candidates(rows[n2]).tolist():
            entry = found_at(r, FIRST + i, n2, halves, rows[n2, i])
            found += [(-int(rows[n2, i]), entry)] if entry else []
    found.sort(key=lambda row: (row[0], row[1].t))
    kept = [
        entry
        for i, (_, entry) in enumerate(found)
        if not any(e.identity == entry.identity and apart(e.t, entry.t) <= ECHO for _, e in found[:i])
    ]
    return sorted(kept)


def line(entry):
    place = f"{entry.t} {entry.identity} {entry.half} {entry.start}"
    return f"{place} matches {entry.signs} ratio {entry.ratio} power {entry.power}"


def lines(r, span=KEPT):
    """Returns the lines of the list over the half-frames of the first samples."""
    halves = half_frames(min(len(r), span))
    found = listed(r, halves)
    return [f"deep {len(found)} of {halves}"] + [line(entry) for entry in found]


def cell(entry):
    return {
        "at": entry.start,
        "identity": entry.identity,
        "matches": entry.signs,
        "power": entry.power,
        "ratio": entry.ratio,
        "subframe": entry.half,
        "t": entry.t,
    }


def value(r, span=KEPT):
    """Returns the content of the JSON of the list over the half-frames of the first samples."""
    halves = half_frames(min(len(r), span))
    return {"cells": [cell(entry) for entry in listed(r, halves)], "half_frames": halves}


def main(words):
    if words not in ([], ["all"], ["--json"], ["all", "--json"]):
        sys.exit(__doc__)
    r = recording()
    span = len(r) if "all" in words else KEPT
    print(json.dumps(value(r, span), separators=(",", ":")) if "--json" in words else "\n".join(lines(r, span)))


if __name__ == "__main__":
    main(sys.argv[1:])
