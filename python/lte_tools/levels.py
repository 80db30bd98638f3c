"""Levels of a survey: total power and noise floor of each window, and the steps that the radio's gain makes in them.

Where the noise floor steps, and the cells step with it, the radio's gain has changed: levels are then those at the gain of
the first window. The noise floor of a file of whole numbers has their rounding errors, which do not step: a step is that of
the rest. A file within a carrier has no quiet frequency: its floor is traffic, which rises and falls with the cells, so
steps are searched for only if a reference element is well above the floor in some window.

Debian: python3-numpy.
"""
from __future__ import annotations

import bisect
import dataclasses
import math
from typing import NamedTuple, Sequence, TypeVar

import numpy as np

from . import radio, spectrum
from .cells import SeenCell
from .forms import FORMS
from .identities import DeepSighting, SeenIdentity, detected_in
from .options import Gain
from .radio_file import RadioFile, Spoiled
from .rates import SPACING
from .sightings import WINDOW, Sighting, Task, samples_of, settled, sightings_of, window_of
from .survey_data import Power, Step

STEP = 2  # dB: the minimum of a gain step
QUIET = 16  # dB from the floor to the strongest reference element of a file, at least, if the floor is noise
ALIKE = 1.2  # dB by which windows of one gain differ, at most
FEW = 5  # windows on either side of a step that give the noise
AGREED = 3  # dB by which a cell's step may differ from that of the noise
MIXED = 0.1  # of a window that is on either side of a step, at least
PARTS = np.linspace(MIXED, 1 - MIXED, 17)  # of a window at which its gain is looked at
MOST_ROUNDING = 0.75  # of a noise floor that rounding errors may be, at most
S = TypeVar("S", Sighting, DeepSighting)
CLOSE = 3  # seconds on either side of a step in which a cell is compared


# ---- one window


def power_of(task: Task, samples: radio.Complex) -> Power:
    """Returns the power of a window with these samples in dBFS."""
    x = samples - samples.mean()
    total, floor = float(np.mean(x.real**2 + x.imag**2)), spectrum.floor_of(x, task.file.rate)
    return Power(round(task.start, 6), rounded(total), rounded(floor))


class InWindow(NamedTuple):
    """The cells that are listed in a window, and its power, None where its samples are not numbers; and the cells that are
    detected in it, if that was asked."""

    listed: list[Sighting] | None
    power: Power | None
    detected: tuple[DeepSighting, ...] = ()


def looked_at(task: Task, is_deep: bool = False) -> InWindow:
    """Returns what is in a window, with the cells that `ids --deep` detects if that is asked."""
    try:
        samples = samples_of(task)
    except Spoiled:
        return InWindow(None, None)
    return cells_in(task, samples, is_deep)._replace(power=power_of(task, samples))


def cells_in(task: Task, samples: radio.Complex, is_deep: bool) -> InWindow:
    """Returns the cells in a window with these samples."""
    window, lines = settled(window_of(task, samples))
    detected = detected_in(task, window) if is_deep else ()
    return InWindow(sightings_of(task, samples, window, lines), None, detected)


def rounded(power: float) -> float | None:
    found = radio.decibels(power)
    return None if found is None else round(found, 1) + 0.0


# ---- steps of the gain


def rounding_of(file: RadioFile) -> float:
    """Returns the power in 15 kHz of the rounding errors in a file's samples."""
    return FORMS[file.form].rounding * SPACING / file.rate


def without_rounding(one: Power, rounding: float) -> Power:
    """Returns a power whose noise floor is without rounding errors of this power, as far as it is known to have them."""
    if not rounding:
        return one
    floor = 10 ** (noise_of(one) / 10)
    return dataclasses.replace(one, noise=10 * math.log10(max(floor - rounding, floor * (1 - MOST_ROUNDING))))


def steps_of(powers: Sequence[Power], cells: Sequence[SeenCell], rounding: float = 0.0) -> list[Step]:
    """Returns the steps of the radio's gain, by windows in the order of time and the cells in them; `rounding` is the power
    in 15 kHz of the rounding errors in the samples."""
    if not has_quiet_frequency(powers, cells):
        return []
    found: list[Step] = []
    known = [without_rounding(one, rounding) for one in powers if one.noise is not None and one.total is not None]
    first = 0
    for i in range(1, len(known)):
        before = known[max(first, i - FEW) : i]
        after = [one for one in known[i : i + FEW + 1]]
        if before and (step := step_between(before, after)) and is_agreed(step, cells):
            found.append(step)
            first = i + 1
    return found


def has_quiet_frequency(powers: Sequence[Power], cells: Sequence[SeenCell]) -> bool:
    """Returns whether a window has a listed cell that is at least QUIET dB above the noise floor: within a loaded carrier the
    floor is traffic, which is nearer."""
    floors = {one.seconds: one.noise for one in powers if one.noise is not None}
    seen = (one for cell in cells if not cell.is_chance(cells) for one in cell.seen)
    known = ((one.level, floors.get(round(one.task.start, 6))) for one in seen)
    return any(level is not None and floor is not None and level >= floor + QUIET for level, floor in known)


def step_between(before: Sequence[Power], after: Sequence[Power]) -> Step | None:
    """Returns the step from windows to those after them, or None."""
    old, here = median(before), noise_of(after[0])
    if abs(here - old) < ALIKE or len(after) < 2:
        return None
    further = [one for one in after[1:] if abs(noise_of(one) - noise_of(after[1])) < ALIKE]
    decibels = median(further) - old
    if abs(decibels) < STEP or decibels * (here - old) < 0 or len(further) < min(2, len(after) - 1):
        return None
    return Step(round(begin_of_step(before, after[0], further), 2), round(decibels, 1))


def begin_of_step(before: Sequence[Power], here: Power, after: Sequence[Power]) -> float:
    """Returns the second of a step: within a window whose total power is between that of those before and after, as far
    as its noise floor fits that, else at the begin of the first window after it. Of the two windows next to the step, the
    one is looked at first that leaves the other one nearer to the windows on its side."""
    old, new = (float(np.median([one.total or 0 for one in part])) for part in (before[:-1] or before, after))
    to_new, to_old = abs((here.total or 0) - new), abs((before[-1].total or 0) - old)
    for mixed in (before[-1], here) if to_new <= to_old else (here, before[-1]):
        part = part_between(old, mixed.total or 0, new)
        if MIXED < part < 1 - MIXED and fits_noise(part, mixed, before, after):
            return mixed.seconds + part * WINDOW
    return here.seconds


def fits_noise(part: float, mixed: Power, before: Sequence[Power], after: Sequence[Power]) -> bool:
    """Returns whether a window's noise floor, which is a median over time, may step after this part of the window; if
    only its total power is between, then a cell fades."""
    to_old, to_new = (abs(noise_of(mixed) - median(one)) for one in (before, after))
    if min(to_old, to_new) >= ALIKE:
        return True
    return part >= 0.5 if to_old < to_new else part <= 0.5


def noise_of(one: Power) -> float:
    return one.noise or 0.0


def part_between(old: float, mixed: float, new: float) -> float:
    """Returns which part of a window has its old power, by its power and those on either side, all in dB."""
    first, middle, last = (10 ** (one / 10) for one in (old, mixed, new))
    return (last - middle) / (last - first) if last != first else 0.0


def median(powers: Sequence[Power]) -> float:
    return float(np.median([noise_of(one) for one in powers]))


def is_agreed(step: Step, cells: Sequence[SeenCell]) -> bool:
    """Returns whether the cells that are no false detections step with the noise, and there is one."""
    changes = [change_at(step.seconds, cell) for cell in cells if not cell.is_chance(cells)]
    known = [change for change in changes if change is not None]
    return bool(known) and abs(float(np.median(known)) - step.decibels) <= AGREED


def change_at(second: float, cell: SeenCell) -> float | None:
    """Returns the dB by which a cell is stronger after a second than before it, or None."""
    before = [one.level for one in near(second - CLOSE, second, cell)][-FEW:]
    after = [one.level for one in near(second, second + CLOSE, cell)][:FEW]
    levels = [[level for level in part if level is not None] for part in (before, after)]
    return float(np.median(levels[1]) - np.median(levels[0])) if all(levels) else None


def near(first: float, last: float, cell: SeenCell) -> list[Sighting]:
    return [one for one in cell.seen if first <= one.seconds < last]


# ---- the gain over time


class Gains(NamedTuple):
    """The radio's gain in dB from seconds of a file on; before the first of them it is the first one's."""

    points: tuple[tuple[float, float], ...] = ((0.0, 0.0),)

    def at(self, second: float) -> float:
        place = bisect.bisect_right([point[0] for point in self.points], second) - 1
        return self.points[max(place, 0)][1]

    def within(self, start: float) -> tuple[float, bool]:
        """Returns the mean gain of a window that begins at a second, and whether it does not step within it."""
        found = [self.at(start + WINDOW * part) for part in PARTS]
        if min(found) == max(found):
            return found[0], True
        return 10 * math.log10(sum(10 ** (gain / 10) for gain in found) / len(found)), False

    def with_steps(self, steps: Sequence[Step]) -> Gains:
        """Returns a constant gain with steps."""
        sums = self.at(0) + np.cumsum([0.0, *(step.decibels for step in steps)])
        return Gains(tuple(zip([0.0, *(step.seconds for step in steps)], map(float, sums))))


def even(
    cells: Sequence[SeenCell],
    powers: Sequence[Power],
    gain: Gain,
    rounding: float = 0.0,
    identities: Sequence[SeenIdentity] = (),
) -> tuple[list[Power], list[Step]]:
    """Sets the gain of all sightings, by the steps that are found or as options name it; those of a window within which it
    steps have no level. Returns the powers of the windows at the first gain, and the steps; `rounding` is
    that of `steps_of`."""
    gains = gains_of(gain)
    steps = steps_of(powers, cells, rounding) if gain is None else []
    gains = gains.with_steps(steps) if steps else gains
    for cell in cells:
        cell.seen = [at_gains(one, gains) for one in cell.seen]
        cell.detected = [at_gains(one, gains) for one in cell.detected]
    for line in identities:
        line.seen = [at_gains(one, gains) for one in line.seen]
    return [at_gain(one, gains) for one in powers], steps


def at_gains(one: S, gains: Gains) -> S:
    """Returns a sighting with its gain, and without a level where the gain steps within its window."""
    gain, is_one = gains.within(one.task.start)
    return dataclasses.replace(one, gain=gain, level=one.level if is_one else None)


def at_gain(one: Power, gains: Gains) -> Power:
    """Returns a power at the first gain, without a noise floor where the gain steps within its window."""
    gain, is_one = gains.within(one.seconds)
    total, noise = (None if value is None else round(value - gain, 1) + 0.0 for value in (one.total, one.noise))
    return Power(one.seconds, total, noise if is_one else None, round(gain, 1) + 0.0)


def gains_of(gain: Gain) -> Gains:
    """Returns the gain that options name: none, one in dB, or pairs of a second and dB."""
    if gain is None:
        return Gains()
    return Gains(((0.0, float(gain)),) if isinstance(gain, (int, float)) else tuple(gain))
