"""Surveys of synthetic recordings by the proved programs: lost samples, loops, gain steps, doubts, filters and echoes.

Each recording is of cells that `lte_cli transmit` sends, a second at most, with white noise.
"""
import json

import numpy as np
import pytest
from scipy import signal

import lte_tools
from lte_tools import picture_view, radio, radio_file, survey_table
from lte_tools.options import PictureOptions
from tests.conftest import EXAMPLES, FULL

pytestmark = pytest.mark.program
GAIN = 10
ELEMENT = 127 * 16 / 128  # the magnitude of a reference element's wave where the gain is 1
LOUD = 20  # in the units of 16 bits
PLAIN = json.loads((EXAMPLES / "usual_cell.json").read_text())


def cell(identity, seconds=1.0, start=0, sfn=0, level=0.0, load=None):
    """A cell whose first frame begins `start` samples before the recording, at a level in dB; `load` is that of transmit."""
    more = {"identity": identity, "sfn": sfn, "offset": start, "samples": round(seconds * radio.RATE)}
    sib1 = {**PLAIN["sib1"], "cell": 256 * identity}
    sent = lte_tools.transmit({**PLAIN, **more, "gain": [GAIN, 0], "sib1": sib1}, load=load).samples
    return sent / GAIN * 10 ** (level / 20)


def with_noise(x, ratio=25, seed=1):
    """Adds white noise, so that a reference element of level 0 has this ratio in dB."""
    draw = np.random.default_rng(seed)
    size = ELEMENT * np.sqrt(64) / 10 ** (ratio / 20)
    return x + size * (draw.standard_normal(len(x)) + 1j * draw.standard_normal(len(x)))


@pytest.fixture
def survey(tmp_path):
    """Writes samples as a file of 16 bits, and returns its survey."""

    def run(x, loud=LOUD, **keys):
        path = tmp_path / "x.ci16"
        path.write_bytes(radio.to_bytes(loud * x))
        return lte_tools.survey(path, **{"offset": 0, "jobs": 4, **keys})

    return run


def lines_of(found):
    """Identity and windows of the lines that are no false detections."""
    return sorted((line.identity, line.windows) for line in found.cells if not line.chance)


# ---- one cell is one line


def test_lost_samples(tmp_path):
    x = with_noise(cell(30) + cell(92, start=3_000, sfn=300, level=-4))
    x = radio.shifted(signal.resample_poly(x, 5, 4), -7_000, 2.4e6)
    x = np.concatenate([x[:1_300_000], x[1_312_345:]])
    middle, full, kind = FULL["u8"]
    parts = np.stack([x.real, x.imag], 1) / 4 + middle
    (tmp_path / "x.cu8").write_bytes(np.clip(np.round(parts), 0, 255).astype(kind).tobytes())
    found = lte_tools.survey(tmp_path / "x.cu8", rate=2.4e6, offset=-7_000, jobs=4)
    assert lines_of(found) == [(30, 6), (92, 6)]
    (gap,) = found.gaps
    assert abs(gap.samples - 12_345) <= 3 and gap.first < 1_300_000 / 2.4e6 < gap.last
    assert any("samples are missing between" in note for note in survey_table.table_of(found))


def test_radio_that_begins_anew(survey):
    x = with_noise(cell(30) + cell(92, start=3_000, sfn=300, level=-4))
    found = survey(np.concatenate([x[:900_123], x[:1_200_777], x]))
    assert [identity for identity, _ in lines_of(found)] == [30, 92] and len(found.gaps) == 2
    assert all("or the radio was restarted" in survey_table.gap_text(gap, found.rate) for gap in found.gaps)


@pytest.mark.parametrize("frames, repeats, text", [(1, 0, "the same in every"), (16, 0.16, "again every 160 ms")])
def test_loop(survey, frames, repeats, text):
    x = cell(123)[: frames * radio.FRAME]
    found = survey(with_noise(np.tile(x, 100 // frames + 1)[: radio.RATE]))
    assert lines_of(found) == [(123, 6)] and found.cells[0].repeats == pytest.approx(repeats)
    assert any(text in line for line in survey_table.table_of(found))


# ---- cells far below the strongest one


def test_cell_of_which_the_identity_alone_is_detected(survey):
    x = with_noise(cell(30, 0.5, load=1) + cell(92, 0.5, start=3_000, sfn=300, level=-12, load=2), 30)
    found = survey(x, deep=True)
    assert lines_of(found) == [(30, 3)]
    (line,) = found.identities
    assert (line.identity, line.windows) == (92, 3) and line.below == pytest.approx(12, abs=1)
    assert lines_of(survey(x)) == [(30, 3)] and survey(x).identities is None


# ---- doubts


def test_model_and_wider_carrier(survey, tmp_path):
    x = np.tile(model(), 25)
    found = survey(with_noise(x))
    assert [line.doubts for line in found.cells if not line.chance] == [("test-model",)]
    draw = np.random.default_rng(4)
    noise = draw.standard_normal(len(x)) + 1j * draw.standard_normal(len(x))
    beside = signal.oaconvolve(noise, signal.firwin(257, 545e3, fs=radio.RATE, pass_zero=False), "same")
    found = survey(with_noise(x + ELEMENT * 8 * beside))
    assert [line.doubts for line in found.cells if not line.chance] == [("test-model", "wider-carrier")]
    assert "? test model, wider carrier" in survey_table.table_of(found)[2]
    view = view_of(tmp_path / "x.ci16")
    assert [view.doubts(line) for line in view.cells] == [["test-model", "wider-carrier"]]


def model():
    """Four frames with a MIB of zeros, and nothing in place of the control information for SIB1."""
    plain = {**PLAIN, "identity": 1, "sfn": 0, "offset": 0, "samples": 4 * radio.FRAME, "gain": [GAIN, 0]}
    x = lte_tools.transmit({**plain, "duration": "normal", "resource": "oneSixth", "spare": 0}).samples / GAIN
    for frame in range(4):
        x[frame * radio.FRAME + 9_600 :][:549] = 0
    return x


def test_synchronous_neighbour_with_the_same_pilots(survey):
    found = survey(with_noise(cell(30, start=500, sfn=100) + cell(36, start=500, sfn=100, level=-6), 30))
    assert [(line.identity, line.doubts) for line in found.cells] == [(30, ("pilots-of-36",))]
    assert abs(found.cells[0].offset) > 50  # which is what the mark is for
    found = survey(with_noise(cell(30, start=500, sfn=100) + cell(33, start=500, sfn=100, level=-6), 30))
    assert found.cells[0].identity == 30 and found.cells[0].doubts == ()
    found = survey(with_noise(cell(30, start=500, sfn=100) + cell(36, start=5_000, sfn=9, level=-6), 30))
    assert [line.doubts for line in found.cells if not line.chance] == [()] * len(lines_of(found))


# ---- levels


def known_levels(line):
    return [one.level for one in line.seen if one.level is not None]


def test_gain_steps(survey):
    x = with_noise(cell(30) + cell(92, start=3_000, sfn=300, level=-4), 22)
    x = np.concatenate([x, x[:1_900_000]])
    seconds = np.arange(len(x)) / radio.RATE
    x = x * 10 ** (np.select([seconds < 0.7, seconds < 1.3], [0, 6], -3) / 20)
    found = survey(x)
    assert [step.decibels for step in found.steps] == pytest.approx([6, -9], abs=0.4)
    assert [step.seconds for step in found.steps] == pytest.approx([0.7, 1.3], abs=0.06)
    strongest = max((line for line in found.cells if not line.chance), key=lambda line: line.level)
    assert strongest.identity == 30 and np.ptp(known_levels(strongest)) < 0.7
    assert len(known_levels(strongest)) == len(strongest.seen) - 2  # but for the windows within which it steps
    assert {round(one.gain) for one in strongest.seen if one.level is not None} == {0, 6, -3}
    assert np.ptp([one.noise for one in found.powers if one.noise is not None]) < 1
    assert np.ptp([one.total for one in found.powers]) < 1
    assert any("the radio's gain steps by +6" in line for line in survey_table.table_of(found))
    by_list = survey(x, gain=((0, -20), (0.7, -14), (1.3, -23)))
    levels = known_levels(next(line for line in by_list.cells if line.identity == 30))
    assert by_list.steps == () and by_list.unit == "dBm" and np.ptp(levels) < 1
    assert np.median(levels) == pytest.approx(strongest.level + 20, abs=0.7)


def test_fade_of_a_cell_is_no_gain_step(survey):
    x, y = cell(30), cell(92, start=3_000, sfn=300, level=-3)
    x[radio.RATE // 2 :] /= 2
    assert survey(with_noise(x + y)).steps == ()


def test_signal_to_noise_is_a_median_and_a_range(survey):
    x = cell(30)
    found = survey(np.concatenate([with_noise(x[: radio.RATE // 2], 30), with_noise(x[radio.RATE // 2 :], 12)]))
    (line,) = (line for line in found.cells if not line.chance)
    assert line.ratio == pytest.approx(np.median([one.ratio for one in line.seen]), abs=0.06)
    assert line.ratios == (min(one.ratio for one in line.seen), max(one.ratio for one in line.seen))
    assert line.ratios[0] < 14 and 26 < line.ratios[1]


def test_recording_is_filtered_as_other_files(survey, tmp_path):
    x = cell(30, 0.2)
    draw = np.random.default_rng(4)
    noise = draw.standard_normal(len(x)) + 1j * draw.standard_normal(len(x))
    x = x + 30 * ELEMENT * signal.oaconvolve(noise, signal.firwin(257, 740e3, fs=radio.RATE, pass_zero=False), "same")
    assert len(lte_tools.search(radio.to_bytes(LOUD * x))) == 0
    assert lines_of(survey(x)) == [(30, 2)]


# ---- pictures and hints


def view_of(path, **keys):
    options = PictureOptions(path, **keys)
    return picture_view.view_of(options, radio_file.opened(options))


def test_echo_is_no_cell_of_the_picture(tmp_path):
    x = cell(200, 0.1)
    x = with_noise(x + 0.7j * np.concatenate([np.zeros(19), x[:-19]]), 30)
    (tmp_path / "x.ci16").write_bytes(radio.to_bytes(LOUD * x))
    view = view_of(tmp_path / "x.ci16")
    assert len(view.listed) == 2 and [line.identity for line in view.cells] == [200]
    assert [text for text in view.summary() if text.startswith("echo of PCI 200: 9.9 us -3.")]
    assert all(view.cell_of(hit) for hit in view.hits)


def test_carrier_next_to_the_centre(tool, tmp_path):
    draw = np.random.default_rng(4)
    count = 8_000_000 // 4
    noise = draw.standard_normal(count) + 1j * draw.standard_normal(count)
    carrier = signal.oaconvolve(noise, signal.firwin(1_025, 2.25e6, fs=8e6), "same")
    x = 20 * radio.shifted(carrier, 1.5e6, 8e6) + noise
    (tmp_path / "x.cs8").write_bytes(np.round(np.stack([x.real, x.imag], 1)).astype("i1").tobytes())
    text = "a carrier of 5 MHz at +1.5 MHz: --shift 1.5e6"
    run = tool("survey", tmp_path / "x.cs8", "--rate", "8e6", "--jobs", "1")
    assert run.status == 0 and f"The spectrum shows {text}" in run.out
    assert text in view_of(tmp_path / "x.cs8", rate=8e6).summary()


def test_cell_that_is_too_loud_to_be_cancelled(survey):
    x = with_noise(cell(30, 0.2), 35)
    assert survey(x, loud=25).hint is None
    assert "if PCI 30 hides a weaker cell: --deep detects its identity; for its MIB divide the samples by 2, since" in (
        survey(x, loud=40).hint
    )
    seconds = np.arange(len(x)) / radio.RATE
    hint = survey(x * np.exp(400j * np.pi * seconds), loud=20).hint
    assert "for its MIB correct the offset of +" in hint and "divide" not in hint
