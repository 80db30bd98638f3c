"""What a picture says of a file as recorded: DC, a tone, full scale, stretches of one value, noise; and names of hits."""
import dataclasses

import numpy as np
import pytest

from tests.conftest import written
from lte_tools import answers, picture_view, programs, radio, radio_file, recorded
from lte_tools.rules import RULES

SECONDS = 0.05
CASES = (("u8", 2_400_000), ("s8", 4_000_000), ("s16", 1_920_000), ("f32", 2_048_000), ("s16", 30_720_000))


def decibels(power):
    return 10 * np.log10(power)


def noise(count, rms, draw):
    return rms * (draw.standard_normal(count) + 1j * draw.standard_normal(count)) / np.sqrt(2)


def looked_at(path, x, form, rate):
    path.write_bytes(written(x, form))
    file = radio_file.RadioFile(path, form, rate, len(x), 0, 0)
    return recorded.recorded(file, 0, file.seconds)


@pytest.mark.parametrize("form, rate", CASES)
def test_file_as_recorded(tmp_path, form, rate):
    """A tone, DC, noise, a stretch of one value, and some samples at full scale."""
    draw, path, count = np.random.default_rng(1), tmp_path / "file", round(SECONDS * rate)
    step = rate / round(rate / recorded.SPACING)
    tone = 20 * step
    x = radio.shifted(np.full(count, 0.1 + 0j), tone, rate) + noise(count, 0.02, draw) + 0.05
    seen = looked_at(path, x, form, rate)
    assert decibels(seen.dc) == pytest.approx(decibels(0.05**2), abs=0.3)
    power = seen.power.mean(1)
    power[np.abs(seen.frequencies) < 5 * step] = 0
    assert seen.frequencies[power.argmax()] == pytest.approx(tone, abs=seen.step / 2)
    assert decibels(power.max()) == pytest.approx(-20, abs=0.3)
    assert (seen.is_noise, seen.still, seen.share_at_full) == (False, [], 0)
    full = draw.choice(count // 2, 37, replace=False)
    x[full[:20]], x[full[20:]] = 2, -2j
    x[count // 2 : count * 3 // 4] = x[count // 2]
    spoiled = looked_at(path, x, form, rate)
    assert spoiled.share_at_full * spoiled.count == pytest.approx(37, abs=0.5)
    assert len(spoiled.still) == 1 and not spoiled.is_still
    assert spoiled.still[0] == pytest.approx((SECONDS / 2, SECONDS * 3 / 4), abs=2 / recorded.SPACING)


@pytest.mark.parametrize("form, rate", CASES)
def test_noise_alone_and_one_value_alone(tmp_path, form, rate):
    draw, count = np.random.default_rng(2), round(SECONDS * rate)
    seen = looked_at(tmp_path / "file", noise(count, 0.1, draw) + 0.02, form, rate)
    assert (seen.is_noise, seen.is_still) == (True, False)
    seen = looked_at(tmp_path / "file", np.full(count, 0.03 + 0.01j), form, rate)
    assert (seen.is_noise, seen.is_still) == (False, True)


def test_signal_with_a_prefix_is_no_noise(tmp_path):
    draw = np.random.default_rng(3)
    symbols = np.fft.ifft(np.exp(2j * np.pi * draw.random((1_400, 128))), axis=1)
    with_prefix = np.concatenate([symbols[:, -9:], symbols], 1).ravel() * 0.1 * np.sqrt(128)
    assert not looked_at(tmp_path / "file", with_prefix, "s16", radio.RATE).is_noise


def hit(t, identity, at):
    scored = answers.Scored(0, 0, 0)
    return answers.Identity(at, 1, identity, identity % 3, 1, 1, answers.Secondary(scored, scored), 0, t)


def view_of(seen=None, hits=(), lines=(), supports=(), carrier=0, offset=None):
    every = {rule.name: programs.Answers(()) for rule in RULES}
    every["long-prefix"] = programs.Answers(tuple(supports))
    return picture_view.View(
        name="",
        facts="",
        seen=seen,
        centre=0,
        carrier=carrier,
        offset=0,
        is_as_it_is=False,
        samples=None,
        full=32_768,
        hits=programs.Answers(tuple(hits)),
        tuning=answers.Tuning((), offset),
        lines=programs.Answers(tuple(lines)),
        supports=every,
    )


def test_names_of_hits():
    """Hits of a listed cell with the extended prefix, which the rule of the normal one reads wrong, and others."""
    line = answers.Cell(4_000, "n6", 0, "normal", 200, 1, "one", 5, 0, no_sib1="long-prefix", rule="long-prefix")
    support = answers.Evidence(4_000, (), 0, 0, 1, 200, "000000", 1, 250, 0, 1, 0, 5, None, 137, 1, ())
    hits = [
        hit(4_000 + 832, 488, 4_000),
        hit(4_000 + 10_432 + 2, 257, 4_002),
        hit(7_000, 370, 6_168),
        hit(7_000 + 9_600, 370, 6_168),
        hit(9_000, 412, 8_168),
    ]
    view = view_of(hits=hits, lines=[line], supports=[support])
    assert list(map(view.name_of, hits)) == ["PCI 200", "PCI 200", "PCI 370?", "PCI 370?", ""]


@pytest.mark.parametrize("carrier, is_beyond", [(0, False), (650_000, False), (-670_000, True), (2_400_000, True)])
def test_summary_of_a_cell_beside_the_file(tmp_path, carrier, is_beyond):
    seen = looked_at(tmp_path / "file", noise(120_000, 0.1, np.random.default_rng(4)), "s16", 2_400_000)
    summary = view_of(seen=seen, carrier=carrier).summary()
    assert any("not all in the file" in line for line in summary) == is_beyond


@pytest.mark.parametrize(
    "offset, hits, text",
    [
        (None, (), "Noise only"),
        (answers.Offset(1, 2, 183), (hit(1_000, 5, 0),), "frequency offset hides"),
        (answers.Offset(0, 2, 0), (hit(1_000, 5, 0),), "Signal, but no master block"),
    ],
)
def test_why_no_cell_is_listed(tmp_path, offset, hits, text):
    seen = looked_at(tmp_path / "file", noise(120_000, 0.1, np.random.default_rng(4)), "s16", 2_400_000)
    assert text in "\n".join(view_of(seen=seen, hits=hits, offset=offset).summary())


def test_why_nothing_was_received(tmp_path):
    seen = looked_at(tmp_path / "file", np.full(120_000, 0.1 + 0j), "s16", 2_400_000)
    assert "nothing was received" in "\n".join(view_of(seen=seen).summary())
    other = dataclasses.replace(seen, still=[(0.0, 0.01), (0.02, 0.03), (0.03, 0.04), (0.041, 0.045)])
    assert "and 1 more constant stretches" in view_of(seen=other).summary()
