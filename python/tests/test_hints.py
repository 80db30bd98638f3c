"""The hint of a survey without a sure cell names the rule that fails in one window; with stored answers."""
import dataclasses
import json
import subprocess

import numpy as np
import pytest

from lte_tools import hints, levels, live, radio, scan, stream, surveying
from lte_tools.cells import SeenCell
from lte_tools.options import SurveyOptions
from lte_tools.radio_file import RadioFile
from lte_tools.rules import ONE_PORT
from lte_tools.sightings import Task, sightings
from tests.conftest import CELL, as_radio

FAST = ("--jobs", "1", "--offset", "0", "--every", "0.05")


@pytest.fixture
def noise():
    draw = np.random.default_rng(93)
    return lambda count: 300 * (draw.standard_normal(count) + 1j * draw.standard_normal(count))


@pytest.fixture
def undecodable(sent, noise):
    """The cell without its broadcast channel: noise in symbols 0 to 3 of slot 1 of each frame."""
    x = sent.copy()
    for start in range(radio.FRAME - CELL["offset"] + 960, len(x), radio.FRAME):
        x[start:][:549] = noise(len(x[start:][:549]))
    return x


def written(path, x):
    path.write_bytes(radio.to_bytes(x))
    return path


def test_survey_of_an_undecodable_cell(tool, undecodable, tmp_path):
    run = tool("survey", written(tmp_path / "x.ci16", undecodable), "--json", *FAST)
    hint = json.loads(run.out)["hint"]
    assert hint.startswith("no sure cell: tried s16 at 1,920,000") and "--scan looks beside. The strongest" in hint
    assert "The strongest detection of the window at 0.00 s is PCI 217: no MIB, the CRC fails" in hint
    assert hint.endswith(" % of the soft values disagree, 25 % are allowed)")


def test_survey_of_noise(tool, noise, tmp_path):
    run = tool("survey", written(tmp_path / "x.ci16", noise(60_000)), *FAST)
    assert "The window at 0.00 s has no PSS detection: no primary signal is 25 % of the energy" in run.out


def test_scan_of_an_undecodable_cell(tool, undecodable, tmp_path):
    (tmp_path / "wide.cu8").write_bytes(as_radio(undecodable, "u8", 1_920_000, 200_000))
    words = (tmp_path / "wide.cu8", "--scan", "--offset", "0", "--jobs", "1", "--json")
    hint = json.loads(tool("survey", *words, "--carrier", "2140e6").out)["hint"]
    assert hint.startswith(
        "no sure cell at any of these frequencies. At 2140.2 MHz the strongest detection of the window"
    )
    assert "PCI 217: no MIB, the CRC fails" in hint
    hint = json.loads(tool("survey", *words).out)["hint"]
    assert "At +0.2 MHz from the centre the strongest detection of the window at 0.00 s is PCI 217: " in hint


@pytest.fixture
def seen(sent, recording):
    """A sighting of the cell, as doubtful as a false detection."""
    (one,) = sightings(Task(RadioFile(recording, "s16", radio.RATE, len(sent), 0, 0), 0, 0.05))
    return dataclasses.replace(one, line=dataclasses.replace(one.line, sib1=None), cost=10, total=100)


def test_window_that_is_asked(seen):
    cell = SeenCell(seen)
    assert hints.next_to(cell, [[], None, [seen], [], []]) == 3
    assert hints.next_to(cell, [[seen], None]) is None and hints.next_to(cell, [[], []]) is None
    assert hints.chosen([cell], [[seen], []], [2, 1]) == (1, hints.Question(217, ONE_PORT))
    assert hints.chosen([cell], [[seen], None], [1, -1]) == (0, hints.Question(listed=(217,)))
    assert hints.chosen([], [[], []], [1, 2]) == (1, hints.Question())


def answer(name, function, tasks):
    """Answers for many windows, of which only the question why is asked."""
    return list(map(function, tasks)) if name == "why" else [1.0 if name == "level" else None for _ in tasks]


def test_doubtful_cell_of_a_survey(seen, undecodable, tmp_path):
    path = written(tmp_path / "x.ci16", undecodable)
    task = Task(RadioFile(path, "s16", radio.RATE, len(undecodable), 0, 0), 0, 0.05)
    hint = surveying.why_none(answer, [task, task], [[seen], []], [SeenCell(seen)])
    assert "--scan looks beside. The window at 0.00 s does not list PCI 217: no MIB, the CRC fails" in hint
    assert hints.sentence(hints.Asked(task, hints.Question(listed=(217,)))) is None


def test_doubtful_cell_of_a_scan(seen, undecodable, tmp_path):
    path = tmp_path / "wide.cu8"
    path.write_bytes(as_radio(undecodable, "u8", 1_920_000, 200_000))
    look = scan.Look(RadioFile(path, "u8", 1_920_000, len(undecodable), 0, 2_140_000_000), 0, 0.05, [1e5, 2e5], 0)
    found = [(look, [[], [seen]]), (look, [[], []])]
    hint = scan.why_none(answer, found, {1e5: [], 2e5: [SeenCell(seen)]})
    assert ". At 2140.2 MHz the window at 0.00 s does not list PCI 217: no MIB, the CRC fails" in hint


def test_window_that_lists_the_cell(sent, recording):
    task = Task(RadioFile(recording, "s16", radio.RATE, len(sent), 0, 0), 0, 0.05)
    assert hints.sentence(hints.Asked(task, hints.Question(217))) is None


def test_samples_that_are_no_numbers(tmp_path):
    np.full(120_000, np.nan, "<f4").tofile(tmp_path / "none.cf32")
    file = RadioFile(tmp_path / "none.cf32", "f32", radio.RATE, 60_000, 0, 0)
    assert hints.sentence(hints.Asked(Task(file, 0, 0.03), hints.Question())) is None
    assert scan.reason_in((scan.Look(file, 0, 0.03, [0.0], 0), hints.Question())) is None


def test_pipe_of_an_undecodable_cell(tool, undecodable, monkeypatch, tmp_path):
    path = written(tmp_path / "x.ci16", undecodable)
    with subprocess.Popen(["cat", path], stdout=subprocess.PIPE) as process:
        monkeypatch.setattr(live, "STDIN", process.stdout.fileno())
        run = tool("survey", "-", "--form", "s16", "--offset", "0", "--wait", "--jobs", "1", "--json")
    hint = json.loads(run.out)["hint"]
    assert hint.startswith(f"{live.NO_CELL}. The strongest detection of the window at 0.00 s is PCI 217: no MIB, ")


def test_doubtful_cell_of_a_pipe(seen, undecodable, tmp_path):
    path = written(tmp_path / "x.ci16", undecodable)
    file = RadioFile(path, "s16", radio.RATE, len(undecodable), 0, 0)
    state = live.Live(SurveyOptions(path), file, stream.Ring(2, False))
    state.add(0.0, 0.0, levels.InWindow([seen], None))
    assert state.survey().hint == live.NO_CELL
    state.empty = Task(file, 0, 0.05)
    assert ". The window at 0.00 s does not list PCI 217: no MIB, the CRC fails" in state.survey().hint


def test_cell_that_cannot_be_cancelled(seen, recording, sent):
    file = RadioFile(recording, "s16", radio.RATE, len(sent), 0, 0)
    one = dataclasses.replace(seen, line=cell_with_sib1(seen, recording, sent), cost=0, offset=3.0)

    def hint(level, offset, of=file):
        return hints.of_cancelling([SeenCell(dataclasses.replace(one, level=level, offset=offset))], of)

    assert hint(-37.5, 59) is None and hint(-20, 900, dataclasses.replace(file, form="u8")) is None
    assert (
        "PCI 217 hides a weaker cell: --deep detects its identity; for its MIB divide the samples by 2, since"
        in hint(-37.3, 0)
    )
    assert "divide the samples by 8 and correct the offset of -100 Hz" in hint(-20, -100)
    assert hints.of_cancelling([SeenCell(one), SeenCell(dataclasses.replace(one, level=-20))], file) is None


def cell_with_sib1(seen, recording, sent):
    (found,) = sightings(Task(RadioFile(recording, "s16", radio.RATE, len(sent), 0, 0), 0, 0.05))
    return found.line


def test_carriers_of_a_window(tmp_path):
    draw = np.random.default_rng(3)
    x = draw.standard_normal(800_000) + 1j * draw.standard_normal(800_000)
    spectrum = np.fft.fft(x)
    hertz = np.fft.fftfreq(len(x), 1 / 8e6)
    wide = np.fft.ifft(np.where(abs(hertz - 1.53e6) < 2.25e6, 10, 1) * spectrum)
    file = RadioFile(written(tmp_path / "x.ci16", 300 * wide), "s16", 8_000_000, len(x), 0, 0)
    assert hints.carriers_of(Task(file, 0, 0.1)) == ("the spectrum shows a carrier of 5 MHz at +1.5 MHz: --shift 1.5e6")
    assert hints.carriers_of(Task(dataclasses.replace(file, shift=1_500_000), 0, 0.1)) is None
    file = RadioFile(written(tmp_path / "y.ci16", 300 * x), "s16", 8_000_000, len(x), 0, 0)
    assert hints.carriers_of(Task(file, 0, 0.1)) is None
