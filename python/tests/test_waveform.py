"""The premise on the waveform before rounding (python/lte_reference/waveform.py): which recordings meet it."""
import numpy as np
import pytest

from lte_reference import cell as transmitter
from lte_reference import waveform
from lte_reference.search import RULES

CELL = {"identity": 301, "sfn": 1022, "offset": 7000, "samples": 57_600, "duration": "normal", "resource": "one"}
CELL |= {"spare": 5, "load": 7}
GAINS = {"one": [(5, -3)], "two": [(4, 3), (-2, 6)], "long": [(5, -3)], "four": [(4, 1), (3, -3), (-4, 2), (1, 4)]}
WORDS = {"one": (), "two": ("--ports", "2"), "long": ("--prefix", "long"), "four": ("--ports", "4")}


def described(carrier):
    """Returns a cell with whole gains, and the same gains in units of 2^-14."""
    keys = dict(zip(("gain", "gain2", "gain3", "gain4"), GAINS[carrier]))
    return {**CELL, **keys}, [(a << 14, b << 14) for a, b in GAINS[carrier]]


def noise(seed, power):
    """Returns white noise of this mean power for a recording."""
    return np.random.default_rng(seed).normal(0, (power / 2) ** 0.5, (CELL["samples"], 2))


@pytest.mark.parametrize("carrier", WORDS)
def test_sent_samples_are_near(carrier):
    cell, gains = described(carrier)
    r, rule = transmitter.sent(cell, carrier), RULES[WORDS[carrier]]
    found = waveform.excess(r, cell, carrier, rule, gains)
    assert found.is_near and found.slots <= 64 * rule.ports / waveform.SLOT_QUOTA[rule.ports]
    others = gains[1:] + gains[:1] if gains[1:] else [(b, a) for a, b in gains]
    assert not waveform.excess(r, cell, carrier, rule, others).is_near
    assert not waveform.excess(np.roll(r, 1, 0), cell, carrier, rule, gains).is_near


@pytest.mark.parametrize("carrier", WORDS)
def test_noise_at_the_quota(carrier):
    """White noise 3 dB below the quota is near, and 1 dB above it is not."""
    cell, gains = described(carrier)
    sent, rule = transmitter.sent(cell, carrier), RULES[WORDS[carrier]]
    total = sum(a * a + b * b for a, b in GAINS[carrier])
    most = waveform.SLOT_QUOTA[rule.ports] * total / 128
    quiet, loud = (np.round(sent + noise(1, most * factor)).astype(int) for factor in (0.5, 1.26))
    assert waveform.excess(quiet, cell, carrier, rule, gains).is_near
    assert not waveform.excess(loud, cell, carrier, rule, gains).is_near
    found = waveform.fitted_gains(quiet, cell, carrier, rule)
    assert np.abs(np.subtract(found, gains)).max() < 0.02 * max(map(max, np.abs(gains)))


def test_a_weak_pair_of_ports_is_not_near():
    """With four ports, a pair with less than three eighths of the power is excluded, however small the errors are."""
    gains = [(4, 1), (3, -1), (-4, 2), (1, 3)]
    cell = CELL | dict(zip(("gain", "gain2", "gain3", "gain4"), gains))
    parts = [(a << 14, b << 14) for a, b in gains]
    found = waveform.excess(transmitter.sent(cell, "four"), cell, "four", RULES[WORDS["four"]], parts)
    assert max(found.slots, found.signals) < 1 and not found.is_near
    assert waveform.are_paired([1, 5, 2, 0]) and not waveform.are_paired([1, 6, 2, 0]) and waveform.are_paired([1, 0])


def test_elements_relate_to_samples():
    """A symbol's samples are its waveform, rounded."""
    cell, _ = described("one")
    frame = transmitter.CARRIERS["one"]({**cell, "gain": (1, 0)}, 3)
    wave = waveform.unrounded(frame.elements()[0])
    assert (transmitter.rounded(wave, 17) == frame.samples()[10:138]).all()


def test_decibels():
    found = [round(float(waveform.decibels(quota, ports)), 1) for ports, quota in waveform.SLOT_QUOTA.items()]
    assert found == [32.1, 33.2, 34.7] and round(float(waveform.decibels(waveform.SIGNAL_QUOTA)), 1) == 28.9
