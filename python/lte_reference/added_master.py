"""The reference implementation of the MIB from added frames (docs/DEFINITION.md): from the broadcast channel's soft values
in the frames at a position, 480 for each frame and port count. The codeword's change from period to period is found by
encoding two MIBs, not by the linearity that the definition uses. Shares the code of the standard with `search.py`.
Debian: python3-numpy.
"""
import functools
from typing import NamedTuple

import numpy as np

from . import search

MOST_FRAMES = 17
PERIODS = 5
SIGNS = 102
MASKS = {1: 0x0000, 2: 0xFFFF, 4: 0x5555}
READING = search.coded_reading(40)


class Master(NamedTuple):
    """A MIB: antenna ports, phase of frame 0, the 24 bits with the number of frame 0, and the matching signs."""

    ports: int
    phase: int
    block: int
    signs: int

    @property
    def upper(self):
        return self.block >> 10 & 255

    @property
    def frame_number(self):
        return 4 * self.upper + self.phase


def word_of(block, ports):
    """Returns the 40-bit word of a MIB, as a number."""
    return block << 16 | search.crc(block, 24) ^ MASKS[ports]


def coded(word):
    """Returns the coded bits of a 40-bit word, by position and stream (TS 36.212 section 5.1.3.1)."""
    bits = [word >> 39 - k & 1 for k in range(40)]
    return np.array([[sum(bits[k - t] for t in taps) % 2 for taps in search.TAPS] for k in range(40)])


@functools.cache
def changed(upper, d):
    """Returns the coded bits that differ between the MIBs of two periods, from any MIB with these numbers."""
    block = 0b010_0_01 << 18 | 0b1011001110
    before, after = (word_of(block | number % 256 << 10, 2) for number in (upper, upper + d))
    return coded(before) ^ coded(after)


def period_sums(identity, phase, frames):
    """Returns the 120 sums of each period: frame j has phase (phase + j) mod 4 of period (phase + j) div 4."""
    sequence = search.pseudo_random(identity, 1920)
    sums = np.zeros((PERIODS, 40, 3), np.int64)
    for j, frame in enumerate(frames):
        first = 480 * ((phase + j) % 4)
        plain = [-value if bit else value for value, bit in zip(frame, sequence[first:])]
        sums[(phase + j) // 4] += np.array(search.added(plain, READING, first))
    return sums


def matching_signs(sums, word):
    return int(((sums > 0) & (coded(word) == 0)).sum() + ((sums < 0) & (coded(word) == 1)).sum())


def added(sums, upper):
    """Returns the 120 sums over all periods, each counted back to the first period."""
    return sum(period * (1 - 2 * changed(upper, d)) for d, period in enumerate(sums))


def decoded(sums):
    """Returns the word of minimum cost and its matching signs."""
    _, word = search.least(sums)
    return word, matching_signs(sums, word)


def block_of(word, signs, ports, upper):
    """Returns the 24 bits of the MIB that a word is with these ports and this number, or None."""
    block = word >> 16
    is_valid = word == word_of(block, ports) and block >> 21 <= 5 and block >> 10 & 255 == upper
    return block if is_valid and signs >= SIGNS else None


def masters(identity, ports, frames):
    """Yields the MIBs with a port count, by phase and number. Equal sums are decoded once."""
    for phase in range(4):
        sums, words = period_sums(identity, phase, frames), {}
        for upper in range(256):
            total = added(sums, upper)
            key = total.tobytes()
            words[key] = words[key] if key in words else decoded(total)
            block = block_of(*words[key], ports, upper)
            if block is not None:
                yield Master(ports, phase, block, words[key][1])


def master(identity, frames):
    """Returns the MIB of a position, or None. `frames` has the frames, at most 17, by port count."""
    found = [one for ports in (1, 2, 4) for one in masters(identity, ports, frames[ports][:MOST_FRAMES])]
    return max(found, key=lambda one: one.signs, default=None)
