"""Noise floors, gain steps and doubts, by samples and sightings that are made here."""
import dataclasses

import numpy as np
import pytest

import lte_reference.search
from lte_tools import columns, doubts, levels, live, neighbours, radio, rules, spectrum
from lte_tools.cells import SeenCell, joined
from lte_tools.forms import FORMS
from lte_tools.levels import Gains
from lte_tools.radio_file import RadioFile
from lte_tools.sightings import Task, samples_of
from lte_tools.survey_data import Power, Step
from tests.test_one_line import EVERY, sighting

RATE = 2_400_000
WINDOW = EVERY / radio.RATE


@pytest.fixture
def noise():
    """White noise of power 1."""
    draw = np.random.default_rng(6)
    return (draw.standard_normal(400_000) + 1j * draw.standard_normal(400_000)) / np.sqrt(2)


def carrier_in(noise, low, high, decibels):
    """Noise that is stronger between two frequencies."""
    hertz = np.fft.fftfreq(len(noise), 1 / RATE)
    return np.fft.ifft(np.fft.fft(noise) * np.where((low < hertz) & (hertz < high), 10 ** (decibels / 20), 1))


# ---- powers


@pytest.mark.parametrize("decibels", [0, 20, 40])
def test_noise_floor_is_that_of_a_quiet_frequency(noise, decibels):
    floor = spectrum.floor_of(carrier_in(noise, -540e3, 540e3, decibels), RATE)
    assert radio.decibels(floor * 160) == pytest.approx(0, abs=0.5)  # 2.4e6 is 160 times 15 kHz


def test_power_next_to_a_narrow_carrier(noise):
    narrow, wide = (carrier_in(noise, 1e5 - half, 1e5 + half, 20) for half in (540e3, 1.1e6))
    assert radio.decibels(spectrum.beside(narrow, RATE, 1e5) * 160) == pytest.approx(0, abs=0.5)
    assert radio.decibels(spectrum.beside(wide, RATE, 1e5) * 160) == pytest.approx(20, abs=0.5)
    assert spectrum.beside(wide, RATE, 600e3) == 0  # one side is not in the file


def test_power_of_a_window(tmp_path, noise):
    (tmp_path / "x.ci16").write_bytes(radio.to_bytes(3_276.8 * noise))
    file = RadioFile(tmp_path / "x.ci16", "s16", RATE, len(noise), 0, 0)
    task = Task(file, 0, 0.1)
    power = levels.power_of(task, samples_of(task))
    assert power.total == pytest.approx(-20, abs=0.1) and power.noise == pytest.approx(-42.0, abs=0.5)
    (tmp_path / "x.ci16").write_bytes(bytes(400_000))
    task = Task(file, 0, 0.01)
    assert levels.power_of(task, samples_of(task)) == Power(0, None, None)
    np.full(60_000, np.nan, "<f4").tofile(tmp_path / "x.ci16")
    spoiled = dataclasses.replace(file, form="f32")
    assert levels.looked_at(Task(spoiled, 0, 0.01)) == (None, None, ())
    assert live.look(Task(spoiled, 0, 0.01), live.Known(True)) == (None, None, ())


# ---- steps of the gain


def powers(values):
    """Windows with these noise floors, 30 dB below all samples."""
    return [Power(round(i * WINDOW, 6), value + 30, value) for i, value in enumerate(values)]


def cells(values, identities=(30, 92)):
    """Cells with these levels, window by window, the second 5 dB below the first."""
    return joined(
        [
            dataclasses.replace(sighting(identity, i, 4_000 * place), level=value - 5 * place)
            for i, value in enumerate(values)
            for place, identity in enumerate(identities)
        ]
    )


def test_gain_steps_where_noise_and_cells_step():
    gain = np.repeat([0, 6, -3], 6)
    (up, down) = levels.steps_of(powers(-70 + gain), cells(-40 + gain))
    assert up == Step(round(6 * WINDOW, 2), 6) and down == Step(round(12 * WINDOW, 2), -9)


def test_gain_step_within_a_window():
    values = powers([-70.0] * 4 + [-66.0] + [-64.0] * 4)
    total = 10 * np.log10(0.25 * 10**-4 + 0.75 * 10**-3.4)  # a quarter of the window is before the step
    values[4] = dataclasses.replace(values[4], total=total)
    (step,) = levels.steps_of(values, cells([-40.0] * 4 + [-36.0] + [-34.0] * 4))
    assert step.decibels == 6 and step.seconds == pytest.approx(4.25 * WINDOW, abs=0.01)


def test_gain_step_in_the_first_quarter_of_a_window():
    """The window before the step is 0.7 dB weaker than those before it, as if an eighth of it were after the step."""
    values = powers([-55.4] * 5 + [-61.2] + [-62.7] * 5)
    totals = [-15.8] * 4 + [-16.3, -20.3] + [-24.0] * 5  # the sixth window: a quarter before the step, as measured
    values = [dataclasses.replace(one, total=total) for one, total in zip(values, totals)]
    (step,) = levels.steps_of(values, cells([-37.0] * 5 + [-44.5] * 6))
    assert step.seconds == pytest.approx(5.24 * WINDOW, abs=0.01)


def test_gain_step_while_a_cell_fades():
    """The step is between two windows; in the second one a cell is weaker, so that its total power is between."""
    values = powers([-70.0] * 5 + [-62.0] * 5)
    values[5] = dataclasses.replace(values[5], total=-37.0)
    (step,) = levels.steps_of(values, cells([-40.0] * 5 + [-32.0] * 5))
    assert step == Step(round(5 * WINDOW, 2), 8)


def test_gain_step_in_a_file_of_bytes(tmp_path, noise):
    """The noise is half a step of the numbers in each component: a quarter of the noise floor is their rounding, which the
    gain does not change."""
    gain, middle = np.repeat([0, 8], 6), FORMS["u8"].middle
    x = carrier_in(noise, -540e3, 540e3, 20) * np.sqrt(2)
    parts = [0.5 * 10 ** (one / 20) * x[i * 20_000 :][:60_000].view(float) for i, one in enumerate(gain)]
    (tmp_path / "x.cu8").write_bytes(np.clip(np.round(np.concatenate(parts) + middle), 0, 255).astype("u1").tobytes())
    file = RadioFile(tmp_path / "x.cu8", "u8", RATE, 12 * 60_000, 0, 0)
    tasks = [Task(file, 0.025 * i, 0.025) for i in range(12)]
    values = [levels.power_of(task, samples_of(task)).noise for task in tasks]
    assert np.ptp(values[:6]) < 1 and np.ptp(values[6:]) < 1
    (step,) = levels.steps_of(powers(values), cells(-40.0 + gain), levels.rounding_of(file))
    assert step.decibels == pytest.approx(8, abs=0.3) and step.seconds == pytest.approx(6 * WINDOW, abs=0.1)
    (step,) = levels.steps_of(powers(values), cells(-40.0 + gain))
    assert step.decibels == pytest.approx(7, abs=0.3)
    assert levels.rounding_of(dataclasses.replace(file, form="f32")) == 0


@pytest.mark.parametrize(
    "noise_steps, cells_step",
    [((0, 6), (0, 0)), ((0, 0), (0, 6)), ((0, 1), (0, 1)), ((0, 6), (0, -6))],
    ids=["a jammer", "cells come nearer", "too little", "another way"],
)
def test_other_changes_are_no_gain_steps(noise_steps, cells_step):
    assert levels.steps_of(powers(-70.0 + np.repeat(noise_steps, 6)), cells(-40.0 + np.repeat(cells_step, 6))) == []


def test_short_burst_is_no_gain_step():
    values = [-70.0] * 5 + [-60.0] + [-70.0] * 5
    assert levels.steps_of(powers(values), cells([value + 30 for value in values])) == []


def test_levels_are_those_at_the_first_gain():
    gain = np.repeat([0.0, 6.0], 6)
    found = cells(-40 + gain)
    even, (step,) = levels.even(found, powers(-70 + gain), None)
    assert {one.evened for one in found[0].seen} == {-40} and {one.gain for one in found[0].seen} == {0, 6}
    assert {one.noise for one in even} == {-70} and step.decibels == 6


@pytest.mark.parametrize("stated", [-20, ((0.0, -20.0),), ((0.0, -20.0), (1e3, -20.0))])
def test_stated_gain_ends_the_search_for_steps(stated):
    gain = np.repeat([0.0, 6.0], 6)
    found = cells(-40 + gain)
    even, steps = levels.even(found, powers(-70 + gain), stated)
    assert steps == [] and [one.evened for one in found[0].seen] == list(-20 + gain)
    assert [one.noise for one in even] == list(-50 + gain)


def test_steps_need_a_cell_well_above_the_floor():
    gain = np.repeat([0.0, 6.0], 6)
    assert levels.steps_of(powers(-70 + gain), cells(-54.5 + gain)) == []
    assert len(levels.steps_of(powers(-70 + gain), cells(-54 + gain))) == 1
    unsure = joined([dataclasses.replace(one, cost=900) for one in [sighting(9, 0, 0, has_sib1=False)]])
    assert levels.steps_of(powers(-70 + gain), [*cells(-60 + gain), *unsure]) == []


def test_gain_by_time_replaces_steps():
    gain = np.repeat([0.0, 6.0], 6)
    found = cells(-40 + gain)
    even, steps = levels.even(found, powers(-70 + gain), ((0, -20), (6.5 * WINDOW, -14)))
    assert steps == [] and found[0].seen[6].level is None and even[6].noise is None
    assert [one.evened for one in found[0].seen[:6]] == [-20] * 6 and found[0].seen[7].evened == -20


def test_gain_over_time():
    gains = Gains().with_steps([Step(1, 6), Step(2, -9)])
    assert [gains.at(second) for second in (0, 0.9, 1, 1.9, 2, 99)] == [0, 0, 6, 6, -3, -3]
    assert gains.within(0.5) == (0, True) and gains.within(0.95)[1] is False
    assert 0 < gains.within(0.95)[0] < 6


# ---- doubts


def test_zeros_in_every_window_are_a_test_model():
    zeros = [dataclasses.replace(sighting(1, i, 0, has_sib1=False), mib="000000") for i in range(3)]
    (cell,) = joined(zeros)
    assert doubts.doubts_of(cell, [cell]) == ("test-model",)
    cell.add(sighting(1, 3, 0, has_sib1=False))
    assert doubts.doubts_of(cell, [cell]) == ()
    (cell,) = joined([dataclasses.replace(sighting(1, i, 0), mib="000000") for i in range(3)])
    assert doubts.doubts_of(cell, [cell]) == ()  # SIB1 was read


@pytest.mark.parametrize(
    "beside, ratio, is_wider",
    [(-45, 30, True), (-53, 30, False), (-45, 8, False), (None, 30, False), (-45, None, True)],
)
def test_energy_on_both_sides_of_six_blocks(beside, ratio, is_wider):
    found = [
        dataclasses.replace(sighting(1, i, 0, has_sib1=False), beside=beside, ratio=ratio, level=-40.0)
        for i in range(3)
    ]
    (cell,) = joined(found)
    assert doubts.doubts_of(cell, [cell]) == ("wider-carrier",) * is_wider


def test_listed_neighbours_with_the_same_pilots():
    found = [
        sighting(identity, i, begin) for i in range(3) for identity, begin in ((30, 0), (36, 5), (33, 3), (42, 900))
    ]
    every = {cell.line.identity: cell for cell in joined(found)}
    marks = {identity: doubts.doubts_of(cell, list(every.values())) for identity, cell in every.items()}
    assert marks == {30: ("pilots-of-36",), 36: ("pilots-of-30",), 33: (), 42: ()}
    assert neighbours.coincide(30, 33, 2) and not neighbours.coincide(30, 33, 1) and not neighbours.coincide(30, 30, 1)


def test_neighbour_that_most_windows_have_in_the_pilots():
    found = [dataclasses.replace(sighting(30, i, 0), neighbour=[36, 36, None, 42][i]) for i in range(3)]
    assert doubts.doubts_of(SeenCell(found[0]), []) == ("pilots-of-36",)
    (cell,) = joined(found)
    assert doubts.doubts_of(cell, [cell]) == ("pilots-of-36",)
    cell.add(dataclasses.replace(sighting(30, 3, 0), neighbour=42))
    assert doubts.doubts_of(cell, [cell]) == ()


def test_reference_signals_are_those_of_the_standard():
    for identity, rule, prefix, later in ((271, rules.ONE_PORT, 1, 4), (36, rules.LONG_PREFIX, 0, 3)):
        found = neighbours.sequences((neighbours.Port(identity, 0),), rule)[0]
        for slot in (0, 1, 7):
            symbols = [lte_reference.search.reference(identity, slot, symbol, prefix) for symbol in (0, later)]
            sent = np.array([complex(*value) for symbol in symbols for value in symbol]) / np.hypot(90, 90)
            assert np.allclose(found[slot], sent)


def test_words_of_doubts():
    assert columns.word_meaning("", "? test model, pilots of 36").startswith("the MIB has zeros alone")
    assert "pilots" in columns.word_meaning("", "? test model, pilots of 36")
    assert columns.word_meaning("", "?").startswith("chance") and columns.word_meaning("", "") == ""
