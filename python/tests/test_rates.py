"""Lists of recordings at up to 30.72 million samples per second from Python, with the programs' stored answers (stored/)."""
import sys

import numpy as np
import pytest

import lte_tools
from lte_tools import radio, rates, to_ci16
from tests.conftest import WIDE_RATE


def test_list_at_a_rate(wave, wide_file):
    data = wide_file.read_bytes()
    (cell,) = lte_tools.search(data, ports=2, wide_rate=WIDE_RATE)
    assert (cell.identity, cell.bandwidth, cell.sib1.tac, cell.sfn) == (301, "n25", 1, 101)
    assert lte_tools.search(wide_file, rate=WIDE_RATE, ports=2, wide_rate=WIDE_RATE).items == (cell,)
    assert lte_tools.search(wave, rate=WIDE_RATE, ports=2, wide_rate=WIDE_RATE).items[0].sib1 == cell.sib1
    assert lte_tools.hits(data, wide_rate=WIDE_RATE)[0].n2 == 1
    (narrow,) = lte_tools.search(wide_file, rate=WIDE_RATE, ports=2)
    assert (narrow.sib1, narrow.no_sib1) == (None, "bandwidth n25")


@pytest.mark.parametrize(
    "rate, word", [(1.92e6, "1.92"), (3.84e6, "3.84"), (WIDE_RATE, "7.68"), (15.36e6, "15.36"), (30.72e6, "30.72")]
)
def test_arguments_of_a_rate(rate, word):
    assert rates.arguments_of(rate) == ("--rate", word)
    with pytest.raises(
        lte_tools.ProgramRefused, match=f"why 5 --ports 2 --json --format cu8 --rate {word}: .*too short"
    ):
        lte_tools.why(bytes(8), 5, ports=2, format="u8", wide_rate=rate)
    with pytest.raises(lte_tools.ProgramRefused, match=f"tell --json --rate {word}: .*too short"):
        lte_tools.tell(bytes(8), wide_rate=rate)


@pytest.mark.parametrize("rate", (0, 15.36, 2.4e6, -1.92e6, float("nan"), "15.36", 61.44e6))
def test_rates_that_are_refused(monkeypatch, rate):
    monkeypatch.setenv("LTE_CLI", "/nowhere/lte_cli")
    for ask in (lte_tools.search, lte_tools.hits, lte_tools.ids, lte_tools.evidence, lte_tools.tell):
        with pytest.raises(lte_tools.Refused, match="wide_rate .*: 1.92e6, 3.84e6, 7.68e6, 15.36e6 or 30.72e6"):
            ask(bytes(8), wide_rate=rate)


def test_lowest_rates():
    assert [rates.lowest(blocks) / 1.92e6 for blocks in (6, 15, 25, 50, 75, 100)] == [1, 2, 4, 8, 8, 16]
    assert [2 * rates.half_band(blocks) for blocks in (6, 100)] == [1_080_000, 18_000_000]


def test_conversion_keeps_what_a_rate_holds():
    """A tone 2 MHz above the carrier is kept at 7.68 million samples per second."""
    x = np.exp(2j * np.pi * 2.3e6 / 10e6 * np.arange(100_000))
    found = to_ci16.converted(x, 10e6, 0.3e6, WIDE_RATE)
    assert len(found) == 76_800
    tone = np.exp(2j * np.pi * 2e6 / WIDE_RATE * np.arange(len(found)))
    assert abs(np.vdot(tone, found)) / len(found) == pytest.approx(1, abs=0.02)


def test_conversion_by_the_command(command):
    tone = np.exp(2j * np.pi * 1e6 / 2.4e6 * np.arange(600_000)).astype("<c8").tobytes()
    words = (sys.executable, "-m", "lte_tools.to_ci16", "f32", "2.4e6", "2e5")
    found = radio.from_bytes(command(*words, "--to", "3.84", stdin=tone))
    assert len(found) == 768_000 and radio.peak(found) == pytest.approx(radio.FULL / 2, abs=1)
    assert abs(np.vdot(np.exp(2j * np.pi * 8e5 / 3.84e6 * np.arange(len(found))), found)) / len(found) > 15_000
    assert len(command(*words, "0.1", "--to", "1.92", stdin=tone)) == 4 * 288_000
