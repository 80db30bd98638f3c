"""Gain steps of drives whose samples are made here: cells of 5 MHz with traffic at 7.68 million samples per second, written
as bytes at a lower rate. The powers are measured, and the levels of the cells are those that were sent."""
import dataclasses
import math

import numpy as np
import pytest
from scipy import signal

from lte_reference import cell as reference_cell
from lte_reference import wide_sender
from lte_tools import levels
from lte_tools.cells import joined
from lte_tools.radio_file import RadioFile
from lte_tools.sightings import Task
from tests.conftest import CELL, WIDE_RATE
from tests.test_one_line import EVERY, sighting

WINDOW = EVERY / 1_920_000
TIMES = np.arange(-16, 16, WINDOW)  # seconds from the one at which the car passes the site
SPEED, BESIDE = 14.0, 60.0  # metres per second, and metres from the road to the site
PIECE = 20_000  # samples of a window, of its power
FULL = 0.2  # root mean square of a full carrier at level 0
NOISE = 0.4  # of a number of a byte, in each component


@pytest.fixture(scope="module")
def waves():
    """Cells of 5 MHz that fill half of their blocks: two ports each, at WIDE_RATE."""
    draw, found = np.random.default_rng(8), []
    for identity in (150, 151, 37):
        plan = wide_sender.Plan(identity, 25, 2, reference_cell.text(CELL["sib1"]), start=3, length=8, load=0.5)
        found.append(np.array([1, 0.8j]) @ wide_sender.sent(plan, 100, 4, 2, draw))
    return found


def past_a_site():
    """The levels in dB of two sectors of a site that a car passes, and of a further one that does not change: the distance,
    and an antenna of 65 degrees that points up or down the road, 25 dB weaker at its back."""
    along = SPEED * TIMES
    loss = 37 * np.log10(np.hypot(along, BESIDE) / BESIDE)
    ahead = np.degrees(np.arctan2(along, BESIDE))
    lobes = [-np.minimum(12 * ((ahead - middle) / 65) ** 2, 25) for middle in (60, -60)]
    return [lobe - loss for lobe in lobes] + [np.full(len(TIMES), -22.0)]


def windows_of(waves, courses, rate, gain):
    """Returns the powers of windows and the cells in them, for levels of cells by window, and the radio's gain in dB."""
    draw = np.random.default_rng(3)
    found, seen = [], []
    file = RadioFile(None, "u8", rate, 10**9, 0, 0)
    waves = [signal.resample_poly(wave, *reduced(rate, WIDE_RATE)) for wave in waves]
    for i, ups in enumerate(zip(*courses)):
        first = draw.integers(0, len(waves[0]) - PIECE)
        x = FULL * sum(10 ** (up / 20) * wave[first : first + PIECE] for up, wave in zip(ups, waves))
        x = 10 ** (gain[i] / 20) * (x + NOISE / 127.5 * (draw.standard_normal((2, PIECE)).T @ (1, 1j)))
        x = (np.clip(np.round(127.5 * x.view(float) + 127.5), 0, 255) - 127.5).view(complex) / 127.5
        found.append(levels.power_of(Task(file, i * WINDOW, WINDOW), x))
        for identity, up in zip((150, 151, 37), ups):
            level = up + gain[i] + 20 * math.log10(FULL) + 10 * math.log10(15_000 / WIDE_RATE)
            seen.append(dataclasses.replace(sighting(identity, i, 1_000 * identity), level=level))
    return found, joined(seen), levels.rounding_of(file)


def reduced(up, down):
    common = math.gcd(up, down)
    return up // common, down // common


def heights(powers, cells):
    """By how many dB cells are above the noise floor of their windows."""
    noise = {one.seconds: one.noise for one in powers}
    return [one.level - noise[round(one.task.start, 6)] for cell in cells for one in cell.seen]


def test_car_that_passes_a_site_steps_no_gain(waves):
    """At 2.4 million samples per second the file lies within the carriers: its quietest frequency is their traffic, which
    rises and falls with the cells."""
    powers, cells, rounding = windows_of(waves, past_a_site(), 2_400_000, np.zeros(len(TIMES)))
    assert np.ptp([one.noise for one in powers]) > 8 and max(heights(powers, cells)) < 13
    sent = [[one.level for one in cell.seen] for cell in cells]
    even, steps = levels.even(cells, powers, None, rounding)
    assert steps == [] and [[one.evened for one in cell.seen] for cell in cells] == sent
    assert [one.gain for one in even] == [0] * len(TIMES)


def test_gain_step_of_a_drive_with_guard_bands(waves):
    """The same drive at a rate that holds the guard bands: a step of 5 dB at 9.3 s is found, and is the only one."""
    gain = np.where(np.arange(len(TIMES)) * WINDOW < 9.3, 0, 5)
    powers, cells, rounding = windows_of(waves, past_a_site(), WIDE_RATE, gain)
    assert max(heights(powers, cells)) > 23
    (step,) = levels.steps_of(powers, cells, rounding)
    assert step.decibels == pytest.approx(5, abs=0.5) and step.seconds == pytest.approx(9.3, abs=2 * WINDOW)
