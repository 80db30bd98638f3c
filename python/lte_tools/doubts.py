"""What is doubtful of a cell that is no false detection, in a word each: its MIB, its bandwidth, or its numbers."""
from __future__ import annotations

import collections
from typing import Sequence

from . import radio
from .cells import SeenCell
from .neighbours import coincide
from .sightings import NEAR, Sighting, distance, is_narrow

ZEROS = "000000"  # the bits of a MIB in hexadecimal digits
MIB, TEST_MODEL, WIDER, PILOTS = "mib", "test-model", "wider-carrier", "pilots-of-"
OVER_NOISE, BELOW = (
    6,
    12,
)  # dB over the noise, and below the cell, from which on what is next to 6 blocks is a carrier's


def doubts_of(cell: SeenCell, cells: Sequence[SeenCell]) -> tuple[str, ...]:
    """Returns the words for a cell of a survey's cells."""
    words = [MIB] * cell.is_confirmed + [TEST_MODEL] * is_of_zeros(cell) + [WIDER] * is_wider(cell)
    return (*words, *(f"{PILOTS}{identity}" for identity in neighbours_of(cell, cells)))


def is_of_zeros(cell: SeenCell) -> bool:
    """Returns whether every MIB is of zeros, which test models send (TS 36.141), and no SIB1 was read."""
    return cell.line.sib1 is None and all(one.mib == ZEROS for one in cell.seen)


def is_wider(cell: SeenCell) -> bool:
    """Returns whether most windows have a carrier on both sides of a cell that states 6 resource blocks."""
    return is_narrow(cell.line) and 2 * sum(map(has_carrier_beside, cell.seen)) > len(cell.seen)


def has_carrier_beside(one: Sighting) -> bool:
    return is_carrier(one.beside, one.level, one.ratio)


def is_carrier(beside: float | None, level: float | None, ratio: float | None) -> bool:
    """Returns whether the power in 15 kHz next to a cell in dBFS is a carrier's, by the cell's level and signal to noise."""
    if beside is None or level is None:
        return False
    return beside >= level - BELOW and (ratio is None or beside >= level - ratio + OVER_NOISE)


def neighbours_of(cell: SeenCell, cells: Sequence[SeenCell]) -> list[int]:
    """Returns the identities of synchronous neighbours with reference signals at this cell's: those that a list has too, and
    the one that most windows have in the cell's pilots."""
    found = {other.line.identity for other in cells if is_at_pilots(cell, other) and not other.is_chance(cells)}
    ((identity, count),) = collections.Counter(one.neighbour for one in cell.seen).most_common(1)
    return sorted(found | ({identity} if identity is not None and 2 * count > len(cell.seen) else set()))


def is_at_pilots(cell: SeenCell, other: SeenCell) -> bool:
    """Returns whether frames of another cell begin with those of this one in a window, and their pilots coincide."""
    if not coincide(cell.line.identity, other.line.identity, max(cell.line.ports, other.line.ports)):
        return False
    by_window = {one.task.start: one.epoch for one in other.seen}
    pairs = [(one.epoch, by_window[one.task.start]) for one in cell.seen if one.task.start in by_window]
    return any(distance(*pair, radio.FRAME) <= NEAR for pair in pairs)
