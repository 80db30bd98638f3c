"""One cell is one line: joins lines that lost samples, a restarted radio or a generator's loop take apart.

Where samples are missing in a file, frame 0 of all cells begins earlier by their number from there on. So lines of the
same cells that follow each other, and differ by one number of samples at one time, are the same cells after a gap. In a
generator's loop a cell keeps its position modulo a frame, and its frame number begins again.
"""
from __future__ import annotations

import math
from typing import NamedTuple, Sequence, TypeVar

import numpy as np

from . import radio
from .cells import CLOCK, SeenCell, in_windows_order
from .sightings import CYCLE, NEAR, Sighting, distance, is_of_one_cell
from .survey_data import Gap

FRAMES = CYCLE // radio.FRAME  # frame numbers
SLACK = radio.FRAME / 20  # samples by which positions modulo a frame may differ, at most
ALONE = 1.25  # sightings of a loop's cell in a window, at most, on average
NEXT = 1  # seconds between two lines of a cell without SIB1 that may be one cell, with no other cell to compare
DRIFTS = 60  # sightings of a cell that give the drift of the radio's clock, at most
STEADY = 5  # and at least

C = TypeVar("C", bound=SeenCell)


# ---- loops


def looped(cells: Sequence[C]) -> list[C]:
    """Returns the cells, with lines that are one cell of a generator's loop as one."""
    lines: list[list[C]] = []
    for cell in sorted(cells, key=lambda cell: cell.seen[0].seconds):
        first = cell.seen[0]
        line, last = latest(lines, cell)
        if last is not None and is_near(last, first) and last.has_offset_of(first):
            line.append(cell)
        else:
            lines.append([cell])
    return [cell for line in lines for cell in (in_a_loop(line) or line)]


def latest(lines: Sequence[list[C]], later: SeenCell) -> tuple[list[C], Sighting | None]:
    """Returns of the lines with a later line's identity and blocks the one that was seen last before it, and when; or
    None."""
    before: list[tuple[float, list[C], Sighting]] = [
        (one.seconds, line, one)
        for line in lines
        if is_of_one_cell(line[-1].line, later.line)
        for cell in line
        for one in cell.seen
        if one.seconds <= later.seen[0].seconds
    ]
    return max(before, key=lambda one: one[0])[1:] if before else ([], None)


def is_near(last: Sighting, first: Sighting) -> bool:
    """Returns whether two sightings have the same epoch modulo a frame, as far as a radio's clock allows."""
    slack = NEAR + CLOCK * radio.RATE * abs(first.seconds - last.seconds)
    return distance(last.epoch, first.epoch, radio.FRAME) <= min(slack, SLACK)


def in_a_loop(line: Sequence[C]) -> list[C] | None:
    """Returns the one cell that lines of a loop are, or None if they are not of a loop."""
    seen = sorted((one for cell in line for one in cell.seen), key=lambda one: one.seconds)
    period = period_of(seen)
    is_sure = len(line) > 2 or all(cell.line.sib1 for cell in line) or any(cell.repeats is not None for cell in line)
    is_alone = len(seen) <= ALONE * len({one.task.start for one in seen})
    if len(line) < 2 or period is None or not is_sure or not is_alone:
        return None
    first, *others = line
    for other in others:
        first.take(other)
    first.repeats = period
    return [first]


def period_of(seen: Sequence[Sighting]) -> int | None:
    """Returns after how many frames the frame number of sightings begins again: 0 if it is always the same, None if the
    sightings do not have one period."""
    numbers = numbered([one.line.sfn for one in seen])
    steps = [round(100 * (b.seconds - a.seconds)) for a, b in zip(seen, seen[1:])]
    begins = np.cumsum([0, *steps]) - numbers
    period = math.gcd(*(int(begin - begins[0]) for begin in begins))
    if max(numbers) == 0:
        return 0
    return period if max(numbers) < period < FRAMES else None


def numbered(sfn: Sequence[int]) -> list[int]:
    """Returns frame numbers counted from the one that follows the longest run of numbers that do not occur."""
    found = sorted(set(sfn))
    runs = [(b - a) % FRAMES or FRAMES for a, b in zip(found[-1:] + found, found)]
    first = found[runs.index(max(runs))]
    return [(one - first) % FRAMES for one in sfn]


# ---- gaps


class Jump(NamedTuple):
    """Samples of a recording that are missing between two seconds, modulo the cycle."""

    first: float
    last: float
    samples: float

    @property
    def seconds(self) -> float:
        return (self.first + self.last) / 2

    def is_like(self, other: Jump) -> bool:
        """Returns whether another jump may be the same one."""
        slack = NEAR + CLOCK * radio.RATE * max(self.last - self.first, other.last - other.first)
        is_together = self.first <= other.last and other.first <= self.last
        return is_together and distance(self.samples, other.samples) <= slack

    def gap(self, rate: float) -> Gap:
        """Returns the jump as the survey of a file with this rate has it."""
        return Gap(round(self.first, 4), round(self.last, 4), round(self.samples * rate / radio.RATE))


class Pair(NamedTuple):
    """The jump between a line and a later line that may be the same cell."""

    jump: Jump
    is_sure: bool  # whether both have the same SIB1, or follow each other at once


def pairs_of(cells: Sequence[SeenCell]) -> list[Pair]:
    """Returns the pairs of a line and the latest one that ended before it began, each of them no false detection."""
    drift, sure = drift_of(cells) or 0.0, [cell for cell in cells if not cell.is_chance(cells) and cell.repeats is None]
    ends = [(cell.line, cell.seen[-1]) for cell in sure]
    pairs = []
    for line, first in [(cell.line, cell.seen[0]) for cell in sure]:
        before = [end for end in ends if end[1].seconds < first.seconds and is_of_one_cell(end[0], line)]
        if not before:
            continue
        former, last = max(before, key=lambda end: end[1].seconds)
        if last.has_offset_of(first):
            apart = first.seconds - last.seconds
            samples = (last.epoch - first.epoch + drift * apart) % CYCLE
            is_sure = apart < NEXT or line.sib1 is not None and former.sib1 == line.sib1
            pairs.append(Pair(Jump(last.seconds, first.seconds, samples), is_sure))
    return pairs


def drift_of(cells: Sequence[SeenCell]) -> float | None:
    """Returns by how many samples per second the frames of the cell that was seen most begin later, if that is known."""
    every = [cell.seen for cell in cells if cell.repeats is None]
    seen = max(every, key=len)[-DRIFTS:] if every else []
    if len(seen) < STEADY:
        return None
    half = CYCLE / 2
    later = [(one.epoch - seen[0].epoch + half) % CYCLE - half for one in seen]
    return float(np.polyfit([one.seconds - seen[0].seconds for one in seen], later, 1)[0])


def jump_of(cells: Sequence[SeenCell]) -> Jump | None:
    """Returns a jump that all cells on both sides of it have, or None."""
    pairs = sorted(pairs_of(cells), key=lambda pair: pair.jump.last - pair.jump.first)
    for pair in pairs:
        jump = pair.jump
        alike = [other.jump for other in pairs if other.jump.is_like(jump)]
        if (pair.is_sure or len(alike) > 1) and not any(is_across(cell, jump) for cell in cells):
            first, last = max(one.first for one in alike), min(one.last for one in alike)
            return Jump(first, last, jump.samples) if first < last else jump
    return None


def is_across(cell: SeenCell, jump: Jump) -> bool:
    """Returns whether a cell goes on over a jump as if there were none."""
    before = [one for one in cell.seen if one.seconds <= jump.first]
    after = [one for one in cell.seen if one.seconds >= jump.last]
    if not before or not after or cell.repeats is not None:
        return False
    apart = after[0].seconds - before[-1].seconds
    return distance(jump.samples, 0) > NEAR + CLOCK * radio.RATE * apart


def rejoined(cells: Sequence[C], jump: Jump) -> list[C]:
    """Returns the cells after a jump was corrected, those as one that are."""
    found: list[C] = []
    for cell in cells:
        cell.correct(jump.seconds, jump.samples)
    for cell in sorted(cells, key=lambda cell: cell.seen[0].seconds):
        first = cell.seen[0]
        before = [one for one in found if one.seen[-1].seconds <= first.seconds and not one.contradicts(cell.line)]
        same = [one for one in before if one.is_same(first)]
        if same:
            max(same, key=lambda one: one.seen[-1].seconds).take(cell)
        else:
            found.append(cell)
    return found


def as_one(cells: Sequence[C]) -> tuple[list[C], list[Jump]]:
    """Returns the cells, each as one, those in most windows first, and the jumps in the order of time."""
    found, jumps = looped(cells), list[Jump]()
    while jump := jump_of(found):
        fewer = rejoined(found, jump)
        if len(fewer) == len(found):
            break
        found = fewer
        jumps.append(jump)
    return in_windows_order(found), sorted(jumps)
