"""Cells of which the identity alone is known: `lte_cli ids --deep` detects them, far below the strongest cell too.

A detection has an identity and a place in a frame, and no frame number. So detections are of one cell if both are the
same, where the place drifts with the radio's clock, as that of the listed cells does. Detections of a listed cell belong
to it. The others are a cell if LEAST windows have them at one place. If a line that is probably a false detection is at that
place, its identity is certain and only its MIB may be false: both are one cell.

Debian: python3-numpy, python3-scipy. Needs lte_cli.
"""
from __future__ import annotations

import bisect
import dataclasses
from dataclasses import dataclass
from typing import Iterable, NamedTuple, Sequence, TypeVar

from . import programs, radio
from .answers import DetectedCell
from .cells import CLOCK, SeenCell
from .continuity import SLACK, Jump, drift_of
from .sightings import NEAR, Sighting, Task, Window, distance

C = TypeVar("C", bound=SeenCell)
LEAST = 2  # windows that make a cell: by coincidence a recording in 1,400 has a detection
ECHO = 137  # samples at most from a listed cell's frame to that of another of its paths, as `ids --deep` has it
LEFT = 2e-6  # by which the clock may still be off where the drift of a listed cell is known


@dataclass(frozen=True)
class DeepSighting:
    """A cell that is detected in a window, and its level in dBFS."""

    task: Task
    cell: DetectedCell
    level: float | None
    missing: float = 0  # samples of a recording that are missing before it in the file
    gain: float = 0  # dB of the radio's gain, which its level includes

    @property
    def seconds(self) -> float:
        """When its first whole frame begins."""
        return self.task.second_of(self.cell.at)

    @property
    def place(self) -> float:
        """Where its frames begin, in samples of a recording modulo a frame, with those that are missing."""
        return (self.seconds * radio.RATE + self.missing) % radio.FRAME

    @property
    def evened(self) -> float | None:
        """The level without the radio's gain, or None."""
        return None if self.level is None else self.level - self.gain

    def is_at(self, other: Sighting) -> bool:
        """Returns whether a sighting in the same window is at its place, or on another path."""
        return round(distance(other.epoch, self.place, radio.FRAME)) <= ECHO

    def bare(self) -> DeepSighting:
        """Returns the detection without the samples that its task may hold."""
        return dataclasses.replace(self, task=self.task.bare())


@dataclass
class SeenIdentity:
    """The detections of one cell that no list has, in the order of time."""

    seen: list[DeepSighting]

    @property
    def windows(self) -> int:
        return len({one.task.start for one in self.seen})

    @property
    def strongest(self) -> DeepSighting:
        return max(self.seen, key=lambda one: -1e9 if one.evened is None else one.evened)


def detected_in(task: Task, window: Window) -> tuple[DeepSighting, ...]:
    """Returns the cells that are detected over the half-frames of a window."""
    found = programs.deep_of(window.recording).cells
    return tuple(DeepSighting(task, one, radio.level(one.power, 0, window.full)) for one in found)


def unlisted(found: Sequence[DeepSighting], listed: Sequence[Sighting]) -> list[DeepSighting]:
    """Returns a window's detections of cells that the window does not list, on no path."""
    return [
        one
        for one in found
        if not any(one.cell.identity == other.line.identity and one.is_at(other) for other in listed)
    ]


# ---- windows


class Clock(NamedTuple):
    """By how many samples per second frames begin later, and by how many this may be wrong."""

    drift: float
    slack: float

    def agrees(self, one: float, other: float, seconds: float) -> bool:
        """Returns whether frames that begin at one place may begin at another so many seconds later."""
        slack = NEAR + self.slack * abs(seconds)
        return distance(one + self.drift * seconds, other, radio.FRAME) <= min(slack, SLACK)


def clock_of(cells: Sequence[SeenCell]) -> Clock:
    """Returns the clock by which the frames of listed cells drift."""
    drift = drift_of(cells)
    return Clock(0.0, CLOCK * radio.RATE) if drift is None else Clock(drift, LEFT * radio.RATE)


class ListedCell:
    """A listed cell, and its sightings in the order of time and by their windows."""

    def __init__(self, cell: SeenCell) -> None:
        self.cell, self.identity = cell, cell.line.identity
        self.seen = sorted(cell.seen, key=lambda one: one.seconds)
        self.seconds = [one.seconds for one in self.seen]
        self.by_start: dict[float, list[Sighting]] = {}
        for one in self.seen:
            self.by_start.setdefault(one.task.start, []).append(one)

    def is_listed_with(self, one: DeepSighting) -> bool:
        """Returns whether a detection's window lists the cell at this place, or another path of it."""
        return any(map(one.is_at, self.by_start.get(one.task.start, ())))

    def has(self, one: DeepSighting, clock: Clock) -> bool:
        """Returns whether a detection is of this cell, by its place in the nearest window that lists the cell."""
        later = bisect.bisect(self.seconds, one.seconds)
        near = self.seen[max(later - 1, 0) : later + 1]
        nearest = min(near, key=lambda other: abs(other.seconds - one.seconds))
        return clock.agrees(nearest.epoch, one.place, one.seconds - nearest.seconds)


def joined(found: Iterable[DeepSighting], cells: Sequence[SeenCell], jumps: Sequence[Jump]) -> list[SeenIdentity]:
    """Gives each listed cell its detections in windows that do not list it, and returns the cells that no list has, those
    in most windows first. `found` is in the order of time; at each jump samples are missing."""
    clock, lines = clock_of(cells), list[SeenIdentity]()
    listed: dict[int, list[ListedCell]] = {}
    for cell in (ListedCell(cell) for cell in cells if not cell.is_chance(cells)):
        listed.setdefault(cell.identity, []).append(cell)
    for one in found:
        one = dataclasses.replace(one, missing=sum(jump.samples for jump in jumps if one.seconds > jump.seconds))
        alike = listed.get(one.cell.identity, ())
        if any(cell.is_listed_with(one) for cell in alike):
            continue
        if own := next((cell for cell in alike if cell.has(one, clock)), None):
            own.cell.detected.append(one)
        else:
            add(lines, one, clock)
    kept = (line for line in lines if line.windows >= LEAST)
    return sorted(kept, key=lambda line: (-line.windows, line.seen[0].seconds))


def confirmed(lines: Sequence[SeenIdentity], cells: Sequence[C]) -> tuple[list[SeenIdentity], list[C]]:
    """Gives lines that are probably false detections the detections of their identity at their place. Returns the cells that
    no list has, and the others, each once."""
    unsure, clock = [cell for cell in cells if cell.is_chance(cells)], clock_of(cells)
    others, taken = list[SeenIdentity](), list[C]()
    for line in lines:
        same = [cell for cell in unsure if is_of(line, ListedCell(cell), clock)]
        if not same:
            others.append(line)
            continue
        first, *further = sorted(same, key=lambda cell: cell.share)
        for cell in further:
            first.take(cell)
        own = ListedCell(first)
        first.is_confirmed, first.detected = True, [one for one in line.seen if not own.is_listed_with(one)]
        taken += further
    return others, [cell for cell in cells if cell not in taken]


def is_of(line: SeenIdentity, cell: ListedCell, clock: Clock) -> bool:
    """Returns whether detections are of a listed cell's identity and, where they are nearest in time, at its place."""
    nearest = min(line.seen, key=lambda one: min(abs(one.seconds - second) for second in cell.seconds))
    return nearest.cell.identity == cell.identity and cell.has(nearest, clock)


def add(lines: list[SeenIdentity], one: DeepSighting, clock: Clock) -> None:
    """Adds a detection to the cell at its place, or as a cell of its own."""
    for line in lines:
        last = line.seen[-1]
        if last.cell.identity == one.cell.identity and clock.agrees(last.place, one.place, one.seconds - last.seconds):
            line.seen.append(one)
            return
    lines.append(SeenIdentity([one]))
