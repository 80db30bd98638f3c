"""python3 -m lte_reference.deep_sign_rows

Prints what `deep.py` finds at candidates of recordings that tests make again (crates/accumulated_tests), as the tests
write it: the recording, the position, N2 and the number of half-frames, and then N1, the subframe, the matching signs
and the power of the detection, or four times 0 if there is none.

A recording has 57,600 samples, each the sum of noise, a constant in both components and a cell's two signals. The noise
is drawn: components from -level to level, in order re, im, sample. In half-frame h the secondary symbol begins at
t - 137 + 9,600h and the primary symbol at t + 9,600h, each 128 samples times the gain.
"""
from typing import NamedTuple

import numpy as np

from . import deep
from .search import W_IMAG, W_REAL, rounded, secondary
from .wide_rows import drawn

SAMPLES = 57_600


class Made(NamedTuple):
    """A recording: the noise's level and seed, the constant, and a cell's gain, N1, N2, first half-frame and position."""

    name: str
    level: int
    seed: int
    constant: int
    gain: int
    n1: int
    n2: int
    half: int
    t: int


RECORDINGS = (
    Made("silence", 0, 1, 0, 0, 0, 0, 0, 137),
    Made("constant", 0, 1, 12_345, 0, 0, 0, 0, 137),
    Made("noise", 300, 2, 0, 0, 0, 0, 0, 137),
    Made("last", 0, 3, 0, 1, 167, 2, 5, 9_736),
    Made("first", 0, 4, 0, -3, 0, 0, 0, 137),
    Made("clear", 300, 5, 0, 1, 42, 1, 5, 4_321),
    Made("faint", 420, 6, 0, 1, 99, 0, 0, 1_000),
    Made("faintest", 500, 7, 0, 1, 120, 2, 5, 5_555),
)
# of each recording the positions, N2 and numbers of half-frames that are asked for
CANDIDATES = {
    "silence": ((500, 0, 5),),
    "constant": ((500, 0, 5),),
    "noise": ((137, 0, 5), (9_736, 2, 5)),
    "last": ((9_736, 2, 5), (9_736, 2, 1), (9_736, 1, 5), (9_600, 2, 5)),
    "first": ((137, 0, 5), (137, 0, 2), (138, 0, 5)),
    "clear": ((4_321, 1, 5), (4_321, 1, 4), (4_321, 1, 1), (4_322, 1, 5), (4_185, 1, 5)),
    "faint": ((1_000, 0, 5), (1_000, 0, 4)),
    "faintest": ((5_555, 2, 5), (5_555, 2, 3)),
}


def secondary_wave(n1, n2, half):
    """Returns the useful part of the secondary symbol, as pairs."""
    values = 127 * np.array(secondary(n1, n2, half))[:, None]
    return np.stack([rounded((values * w[5:67]).sum(0), 17) for w in (W_REAL, W_IMAG)], 1)


def noise(level, seed, constant):
    draw = drawn(seed)
    return np.array([next(draw) % (2 * level + 1) - level for _ in range(2 * SAMPLES)]).reshape(SAMPLES, 2) + constant


def send(r, gain, n1, n2, half, t):
    """Adds the two signals of a cell in each of six half-frames."""
    for h in range(6):
        own = (half, 5 - half)[h % 2]
        for at, wave in ((t - 137, secondary_wave(n1, n2, own)), (t, np.stack(deep.WAVES[n2], 1))):
            room = max(0, min(128, SAMPLES - at - 9_600 * h))
            r[at + 9_600 * h :][:room] += gain * wave[:room]


def recording(made):
    r = noise(made.level, made.seed, made.constant)
    send(r, made.gain, made.n1, made.n2, made.half, made.t)
    return np.clip(r, -32_768, 32_767)


def main():
    for made in RECORDINGS:
        r = recording(made)
        for t, n2, halves in CANDIDATES[made.name]:
            entry = deep.found_at(r, t, n2, halves, 0)
            found = [entry.n1, entry.half, entry.signs, entry.power] if entry else [0, 0, 0, 0]
            print(f"found(&{made.name}, {t}, {n2}, {halves}) == {found}")


if __name__ == "__main__":
    main()
