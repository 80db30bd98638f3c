"""The survey's numbers are those that were put in: times, levels, frequency offsets and echoes of three cells in noise.

The file has bytes at 2.4 million samples per second. The cells come and go, and the first has a second path. Each cell
has to be one line, from its first second to its last one, with its echo, each offset within 60 Hz, and the mean levels
of its seconds within 1 dB of each other.
"""
import json
from typing import NamedTuple

import numpy as np
import pytest
from scipy import signal

import lte_tools
from lte_tools import radio
from tests.conftest import EXAMPLES

RATE = 2_400_000
SECONDS = 4
OFFSET = -31_000  # hertz
NOISE = 20  # dB by which it is below a resource element of the strongest cell
ELEMENT = 127 * 16 / 128  # the magnitude of a reference element's wave where the gain is 1
ECHO = (12, -2.5)  # samples of a recording, and dB
LEVELS, OFFSETS = 1, 60  # dB and hertz that are allowed
GAIN = 10


class Put(NamedTuple):
    """A cell that is put in: its level in dB, the second at which it begins, the one at which it ends, and its start."""

    identity: int
    level: float
    first: int
    last: int
    start: int
    has_echo: bool = False


CELLS = (
    Put(30, 0, 0, SECONDS - 2, 0, has_echo=True),
    Put(92, -4, 1, SECONDS, 3_000),
    Put(91, -8, 2, SECONDS, 15_000),
)


def sent(cell, second):
    """Returns a second of a cell, with its path."""
    frames = radio.RATE // radio.FRAME
    plain = json.loads((EXAMPLES / "usual_cell.json").read_text())
    plan = {
        **plain,
        "identity": cell.identity,
        "sfn": second * frames % 1024,
        "offset": cell.start,
        "samples": radio.RATE,
        "gain": [GAIN, 0],
        "sib1": {**plain["sib1"], "cell": 256 * cell.identity},
    }
    x = lte_tools.transmit(plan).samples / GAIN * 10 ** (cell.level / 20)
    later, decibels = ECHO
    return x + 10 ** (decibels / 20) * np.exp(2j) * np.concatenate([x[:later], x[:-later]]) if cell.has_echo else x


def bytes_of_file():
    x = np.zeros(SECONDS * radio.RATE, complex)
    for cell in CELLS:
        for second in range(cell.first, cell.last):
            x[second * radio.RATE :][: radio.RATE] += sent(cell, second)
    x = radio.shifted(signal.resample_poly(x, 5, 4), OFFSET, RATE)
    size = ELEMENT * np.sqrt(128 * RATE / radio.RATE / 2) / 10 ** (NOISE / 20)
    draw = np.random.default_rng(1)
    x = 0.25 * (x + size * (draw.standard_normal(len(x)) + 1j * draw.standard_normal(len(x))))
    parts = np.stack([x.real, x.imag], 1) + 127.5
    return np.clip(np.round(parts), 0, 255).astype("u1").tobytes()


def levels_by_second(line):
    """Returns the mean level of each second."""
    seconds = {int(one.seconds) for one in line.seen}
    return [np.mean([one.level for one in line.seen if int(one.seconds) == second]) for second in sorted(seconds)]


@pytest.mark.slow
@pytest.mark.program
def test_three_cells(tmp_path):
    (tmp_path / "three.cu8").write_bytes(bytes_of_file())
    found = lte_tools.survey(tmp_path / "three.cu8", rate=RATE)
    lines = {line.identity: line for line in found.cells if not line.chance}
    assert sorted(lines) == sorted(cell.identity for cell in CELLS)
    for cell in CELLS:
        line = lines[cell.identity]
        assert line.first == pytest.approx(cell.first, abs=0.3) and line.last == pytest.approx(cell.last, abs=0.5)
        assert [one.offset for one in line.seen if abs(one.offset - OFFSET) > OFFSETS] == []
        assert np.ptp(levels_by_second(line)) <= LEVELS
        delays = [echo.delay for echo in line.echoes]
        assert delays == [pytest.approx(1e6 * ECHO[0] / radio.RATE, abs=0.6)] * cell.has_echo
