"""The cells of a radio's file or stream over time: which sightings are of one cell, and what they say together.

Debian: python3-numpy.
"""
from __future__ import annotations

import collections
import dataclasses
from typing import TYPE_CHECKING, Sequence, TypeVar

import numpy as np

from . import radio
from .answers import NOT_LISTED, Cell
from .sightings import CYCLE, DEAR, NEAR, Sighting, distance, saying
from .survey_data import Echo

if TYPE_CHECKING:
    from .identities import DeepSighting

CLOCK = 100e-6  # by which a radio's clock may be off
SAME_PATH = 1.1  # microseconds by which a path's delay may change
FEW = 1_000  # a total of values that are nearly all 0


class SeenCell:
    """The sightings of one cell, and after how many frames its frame number begins again: 0 if it is always the same, None
    if it runs on."""

    def __init__(self, first: Sighting) -> None:
        self.seen = [first]
        self.repeats: int | None = None
        self.detected: list[DeepSighting] = []  # in windows that do not list it (identities.py)
        self.is_confirmed = False  # whether these alone make its identity certain

    def add(self, one: Sighting) -> None:
        self.seen.append(one)

    def replace(self, old: Sighting, new: Sighting) -> None:
        """Puts a sighting in the place of another."""
        self.seen = [new if one is old else one for one in self.seen]

    def take(self, other: SeenCell) -> None:
        """Adds the sightings of another line that is the same cell."""
        self.seen = sorted([*self.seen, *other.seen], key=lambda one: one.seconds)

    def correct(self, second: float, samples: float) -> None:
        """Counts samples that are missing in the file at a second."""
        self.seen = [one.later(samples) if one.seconds > second else one for one in self.seen]

    def is_same(self, new: Sighting) -> bool:
        """Returns whether a later sighting is of this cell, as far as a radio's clock, its offset and SIB1 allow."""
        return self.is_in_time_with(new) and not self.contradicts(new.line)

    def is_in_time_with(self, new: Sighting) -> bool:
        """Returns whether a later sighting has this cell's identity, frames and offset."""
        last = self.seen[-1]
        cycle = CYCLE if self.repeats is None else radio.FRAME * (self.repeats or 1)
        return last.line.identity == new.line.identity and apart(last, new, cycle) <= 1 and last.has_offset_of(new)

    def contradicts(self, line: Cell) -> bool:
        """Returns whether SIB1 of a line names another cell than this one's last SIB1."""
        return line.sib1 is not None and any(names_another(one.line, line) for one in self.last_with_sib1())

    def last_with_sib1(self) -> list[Sighting]:
        """Returns the last sighting with SIB1, if there is one."""
        return next(([one] for one in reversed(self.seen) if one.line.sib1), [])

    def give(self, new: Sighting) -> list[Sighting]:
        """Removes and returns the sightings after the last SIB1 that are nearer in time to one with another SIB1."""
        (last,) = self.last_with_sib1()
        kept, given = list[Sighting](), list[Sighting]()
        for one in self.seen:
            is_nearer = one.seconds > last.seconds and apart(one, new) < apart(last, one)
            (given if is_nearer else kept).append(one)
        self.seen = kept
        return given

    @property
    def windows(self) -> int:
        return len({one.task.start for one in self.seen})

    @property
    def strongest(self) -> Sighting:
        return max(self.seen, key=lambda one: one.strength)

    @property
    def line(self) -> Cell:
        """The line that says most; of those the most frequent one. Without SIB1 its reason is that at the cell's bandwidth,
        if that was asked."""
        most = max(saying(one.line) for one in self.seen)
        counts = collections.Counter(one.fixed for one in self.seen if saying(one.line) == most)
        line = max(counts, key=counts.__getitem__)
        return line if line.sib1 else dataclasses.replace(line, no_sib1=self.unread or line.no_sib1)

    @property
    def unread(self) -> str | None:
        """Why SIB1 was not read at the cell's bandwidth in the strongest of the windows that were asked, preferably one whose
        list there has the cell; or None."""
        asked = [(one, one.unread) for one in self.seen if one.unread is not None]
        return max(asked, key=lambda pair: (is_answer(*pair), pair[0].strength))[1] if asked else None

    @property
    def share(self) -> float:
        """The minimum cost by total."""
        return min(one.share for one in self.seen)

    @property
    def echoes(self) -> tuple[Echo, ...]:
        """Other paths by their delays: microseconds, decibels by the strongest path, and windows."""
        groups: list[list[tuple[float, float]]] = []
        last = None
        for delay, level in sorted(echo for one in self.seen for echo in one.echoes):
            if last is None or delay - last > SAME_PATH:
                groups.append([])
            groups[-1].append((delay, level))
            last = delay
        pairs = [tuple(zip(*group)) for group in groups]
        return tuple(
            Echo(less(float(np.median(delays))), less(float(np.median(levels))), len(delays))
            for delays, levels in pairs
        )

    @property
    def is_once(self) -> bool:
        """Whether one window has it, or all that have it are of a loop that repeats the same samples: the same frame number,
        or one that begins again, and the same cost of the same total."""
        first = self.seen[0]
        if self.windows == 1:
            return True
        if len(self.seen) < self.windows:
            return False  # a live survey has forgotten some
        is_in_loop = self.repeats is not None or len({one.line.sfn for one in self.seen}) == 1
        return is_in_loop and all(first.is_repeated_by(one) for one in self.seen)

    def is_chance(self, cells: Sequence[SeenCell]) -> bool:
        """Returns whether it is probably a false detection: no SIB1 was read, and it was seen once at a cost (in a loop with
        the same samples again), or at
        another's place; and no further windows detect its identity there."""
        if self.line.sib1 is not None or self.is_confirmed:
            return False
        if self.is_once and (self.share >= DEAR or self.strongest.total < FEW):
            return True
        return self.share >= DEAR and any(self.is_at(other) for other in cells)

    def is_at(self, other: SeenCell) -> bool:
        """Returns whether another cell of this identity has frames that begin there, and costs less."""
        return (
            other is not self
            and other.line.identity == self.line.identity
            and other.share < self.share
            and any(distance(a.epoch, b.epoch, radio.FRAME) <= NEAR for a in self.seen for b in other.seen)
        )


def is_answer(one: Sighting, unread: str) -> bool:
    """Returns whether a reason is that of a list at the cell's bandwidth which has the cell."""
    return unread != one.line.no_sib1 and not unread.startswith(NOT_LISTED)


def names_another(one: Cell, other: Cell) -> bool:
    """Returns whether SIB1 of two lines has another network or cell identity."""
    parts = [(line.sib1.networks[0], line.sib1.cell) for line in (one, other) if line.sib1]
    return len(set(parts)) > 1


def apart(one: Sighting, other: Sighting, cycle: int = CYCLE) -> float:
    """Returns the difference of two sightings' epochs, as a fraction of what a radio's clock allows."""
    allowed = NEAR + CLOCK * radio.RATE * abs(other.seconds - one.seconds)
    return distance(one.epoch, other.epoch, cycle) / allowed


C = TypeVar("C", bound=SeenCell)


def joined(found: Sequence[Sighting]) -> list[SeenCell]:
    """Returns the cells of all sightings, in the order of time, those in most windows first."""
    cells: list[SeenCell] = []
    for one in found:
        add_sighting(cells, one, SeenCell)
    return in_windows_order(cells)


def add_sighting(cells: list[C], one: Sighting, kind: type[C]) -> C:
    """Adds a sighting to the cell of its kind that was seen last, moves that to the end, and returns it."""
    cell = next((cell for cell in reversed(cells) if cell.is_same(one)), None)
    if cell is None:
        cell = begun(cells, one, kind)
    else:
        cells.remove(cell)
        cell.add(one)
    cells.append(cell)
    return cell


def begun(cells: Sequence[C], one: Sighting, kind: type[C]) -> C:
    """Returns a new cell, with the sightings before its first SIB1 that another cell of its identity was given."""
    given = [each for cell in cells if cell.is_in_time_with(one) for each in cell.give(one)]
    first, *later = [*sorted(given, key=lambda each: each.seconds), one]
    cell = kind(first)
    for each in later:
        cell.add(each)
    return cell


def in_windows_order(cells: Sequence[C]) -> list[C]:
    return sorted(cells, key=lambda cell: (-cell.windows, cell.seen[0].seconds))


def less(number: float, digits: int = 1) -> float:
    """Returns a number in `digits` digits, without the sign of a 0."""
    return round(float(number), digits) + 0.0


def less_or_none(number: float | None) -> float | None:
    return None if number is None else less(number)
