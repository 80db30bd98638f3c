"""A synchronous neighbour whose reference signals are at a cell's resource elements: it bends the cell's numbers.

Reference signals of two cells are at the same resource elements if their identities are equal modulo 6, or modulo 3 with
two antenna ports (TS 36.211 section 6.10.1.2). If their frames begin together, the neighbour is the same in each frame, and
so bends level, S/N and frequency offset, and is seldom listed. It is looked for in the pilots of half a frame: by the
sequences of each such identity, the pilots without the cell's own channel add up to a channel if the neighbour is there.

Debian: python3-numpy.
"""
from __future__ import annotations

import functools
from typing import NamedTuple

import numpy as np
import numpy.typing as npt

from . import radio
from .radio import Complex
from .rules import LONG_PREFIX, Rule

SLOTS = 10  # that are read, from a frame's start
SLOT = radio.FRAME // 20  # samples
LENGTH = SLOTS * SLOT  # samples that are read
USEFUL = 128  # samples of a symbol
PILOTS = 12  # of a symbol, in 6 resource blocks
SKIPPED = 1_600  # bits of the pseudo-random sequence (TS 36.211 section 7.2)
WIDEST, OWN = 110, 6  # resource blocks of the widest carrier, and of those that are read
LEAST = 0.4  # of the power that the cell leaves in its pilots that is the neighbour's, at least
SUBCARRIERS = np.r_[-36:0, 1:37]


class Port(NamedTuple):
    """An antenna port of a cell, 0 or 1."""

    identity: int
    port: int


def coincide(identity: int, other: int, ports: int) -> bool:
    """Returns whether reference signals of two cells, of which one has this number of antenna ports, share positions."""
    return identity != other and (identity - other) % (6 if ports == 1 else 3) == 0


def in_pilots(x: Complex, identity: int, rule: Rule) -> int | None:
    """Returns the identity of a neighbour in the pilots of a cell's first antenna port, or None; `x` are LENGTH samples of a
    recording from the start of a frame of the cell."""
    if len(x) < LENGTH:
        return None
    cell = Port(identity, 0)
    own = sequences((cell,), rule)[0]
    channel = straight(pilots_of(x, cell, rule) * own.conj())
    left = (channel - channel.mean(0)) * own
    others = candidates_of(cell)
    power = float(np.mean(np.abs(left) ** 2))
    if not power:
        return None
    means = np.mean(left * sequences(others, rule).conj(), axis=1)
    parts = np.mean(np.abs(means) ** 2, axis=1) / power
    best = int(np.argmax(parts))
    return others[best].identity if parts[best] >= LEAST else None


@functools.cache
def candidates_of(cell: Port) -> tuple[Port, ...]:
    """Returns the ports of other identities with reference signals at those of a port."""
    first = cell.identity + 3 * cell.port
    every = (Port(other, port) for other in range(cell.identity % 3, 504, 3) for port in range(2))
    return tuple(
        one for one in every if one.identity != cell.identity and (one.identity + 3 * one.port - first) % 6 == 0
    )


def pilots_of(x: Complex, cell: Port, rule: Rule) -> Complex:
    """Returns a port's resource elements with reference signals: by slot, those of its first symbol, then the later ones."""
    begin = (32 if rule is LONG_PREFIX else 10) + SLOT * np.arange(SLOTS)
    found = []
    for place, later in enumerate((0, rule.later)):
        blocks = x[(begin + later)[:, None] + np.arange(USEFUL)]
        grid = np.fft.fft(blocks, axis=1)[:, SUBCARRIERS % USEFUL]
        found.append(grid[:, (cell.identity + 3 * (cell.port + place)) % 6 :: 6])
    pilots: Complex = np.concatenate(found, axis=1)
    return pilots


def straight(channel: Complex) -> Complex:
    """Returns a channel by slot without the phase that it gains from slot to slot."""
    turn = np.angle(np.vdot(channel[:-1], channel[1:]))
    found: Complex = channel * np.exp(-1j * turn * np.arange(len(channel)))[:, None]
    return found


@functools.lru_cache(64)
def sequences(ports: tuple[Port, ...], rule: Rule) -> Complex:
    """Returns the reference signals of ports by port, slot and pilot, of magnitude 1 (TS 36.211 section 6.10.1.1); those of
    one symbol do not differ by port."""
    later, prefix = (3, 0) if rule is LONG_PREFIX else (4, 1)
    identities = np.array([port.identity for port in ports])[:, None, None]
    slots, symbols = np.arange(SLOTS)[None, :, None], np.array([0, later])[None, None, :]
    start = 2**10 * (7 * (slots + 1) + symbols + 1) * (2 * identities + 1) + 2 * identities + prefix
    bits = pseudo_random(start.ravel(), 2 * (WIDEST + OWN))[:, 2 * (WIDEST - OWN) :].astype(float)
    points = (1 - 2 * bits[:, 0::2] + 1j * (1 - 2 * bits[:, 1::2])) / np.sqrt(2)
    found: Complex = points.reshape(len(ports), SLOTS, 2 * PILOTS)
    return found


def pseudo_random(starts: npt.NDArray[np.int64], count: int) -> npt.NDArray[np.uint8]:
    """Returns the first bits of the sequences of these initial values (TS 36.211 section 7.2)."""
    one = np.zeros(SKIPPED + count + 31, np.uint8)
    one[0] = 1
    two = np.zeros((SKIPPED + count + 31, len(starts)), np.uint8)
    two[:31] = starts >> np.arange(31)[:, None] & 1
    for i in range(SKIPPED + count):
        one[i + 31] = one[i + 3] ^ one[i]
        two[i + 31] = two[i + 3] ^ two[i + 2] ^ two[i + 1] ^ two[i]
    found: npt.NDArray[np.uint8] = (one[SKIPPED : SKIPPED + count, None] ^ two[SKIPPED : SKIPPED + count]).T
    return found
