#!/usr/bin/python3
"""ratio_table.py LTE_CLI [CELLS]

Whether the signal to noise and the level that are given of a cell are those that were put in, with an echo and with an
offset left. Spoils the recordings of CELLS random cells (10) in each row and prints a table: what was put in, the mean
of what the numbers of `evidence` tell (docs/RECORDINGS.md, "What the numbers say") and how far the worst is off, and
the same of the survey, which takes off what is left of the offset. What is put in is the mean of a resource element
over the 72 subcarriers, with its echo. The numbers are drawn with fixed seeds; nothing here is proved.

Debian: python3-numpy, python3-scipy.
"""
import os
import pathlib
import sys
from typing import NamedTuple

import numpy as np

import packages

packages.add()
import impair
from lte_tools import radio
from lte_tools import radio_file
from lte_tools import sightings

ELEMENT = 16 * np.sqrt(impair.ELEMENT) * impair.GAIN / 128  # size of the wave of one element
SUBCARRIERS = np.r_[-36:0, 1:37]


class Row(NamedTuple):
    """The input: Es/N0 in dB, an echo's samples and dB, and an offset in hertz."""

    ratio: float
    later: int = 0
    below: float = 0
    hertz: float = 0

    @property
    def name(self):
        if self.later:
            return f"echo {self.below} dB, {1e6 * self.later / radio.RATE:.1f} us later"
        return f"{self.hertz} Hz off" if self.hertz else "as it is"


ECHOES = [Row(20), *(Row(20, later, -3) for later in (2, 4, 6, 8, 16))]
OFFSETS = [Row(30, hertz=hertz) for hertz in (0, 58, 117, 200, 300, 400, 500, 800)]


class Put(NamedTuple):
    """A spoiled recording, and its level in dBFS."""

    samples: np.ndarray
    level: float


def spoiled(sent, row, draw):
    """A cell's recording with its echo, offset and noise."""
    x, channel = sent.samples, np.ones(len(SUBCARRIERS))
    if row.later:
        gain = 10 ** (row.below / 20) * np.exp(2j * np.pi * draw.random())
        x = x + gain * np.concatenate([np.zeros(row.later), x[: -row.later]])
        channel = 1 + gain * np.exp(-2j * np.pi * SUBCARRIERS * row.later / 128)
    size = ELEMENT * np.sqrt(np.mean(np.abs(channel) ** 2))
    noise = size * np.sqrt(128 / 2 / 10 ** (row.ratio / 10))
    x = radio.shifted(x, row.hertz) + noise * (draw.standard_normal(len(x)) + 1j * draw.standard_normal(len(x)))
    scale = radio.FULL / 2 / radio.peak(x)
    return Put(scale * x, 20 * np.log10(scale * size / (radio.FULL + 1)))


def from_evidence(program, sent, put):
    """Signal to noise and level by the program's numbers, or nothing where the cell is not listed."""
    for line in radio.ask(program, "evidence", put.samples):
        words = line.split()
        if words[0] == sent.line.split()[0] and int(words[2]) == int(sent.line.split()[2]):
            power, noise = (int(words[words.index(key) + 1]) for key in ("power", "noise"))
            return radio.ratio(power, noise), radio.level(power, noise)
    return None


def from_survey(sent, put):
    """Returns the values of the survey."""
    data = radio.to_bytes(put.samples)
    file = radio_file.RadioFile(pathlib.Path("-"), "s16", radio.RATE, len(put.samples), 0, 0, held=data)
    for one in sightings.sightings(sightings.Task(file, 0, file.seconds)):
        if str(one.line.identity) == sent.line.split()[0]:
            return one.ratio, one.level
    return None


def text_of(given, wanted):
    """Returns the mean, and the maximum distance from the input."""
    values = [(value, right) for value, right in zip(given, wanted) if value is not None]
    if not values:
        return "- | -"
    given, wanted = map(np.array, zip(*values))
    worst = np.abs(given - wanted).max()
    missing = f" ({len(values)} given)" if len(values) < len(wanted) else ""
    return f"{given.mean():.1f} | {worst:.1f}{missing}"


def line_of(program, row, seeds):
    """A row of the table."""
    ratios, levels, found = [], [], []
    for seed in seeds:
        draw = np.random.default_rng([seed, 79])
        sent = impair.Sent(program, draw, True)
        put = spoiled(sent, row, draw)
        ratios.append(row.ratio)
        levels.append(put.level)
        found.append([given or (None, None) for given in (from_evidence(program, sent, put), from_survey(sent, put))])
    parts = [text_of([one[by][kind] for one in found], (ratios, levels)[kind]) for by in (0, 1) for kind in (0, 1)]
    return f"| {row.name} | {row.ratio} | {np.mean(levels):.1f} | {' | '.join(parts)} |"


def main(program, count="10"):
    os.environ["LTE_CLI"] = program
    heads = [f"{kind} by {by} | worst" for by in ("`evidence`", "the survey") for kind in ("S/N", "dBFS")]
    print(f"| What | S/N put in | dBFS put in | {' | '.join(heads)} |\n|{'---|' * 11}")
    for row in ECHOES + OFFSETS:
        print(line_of(program, row, range(int(count))), flush=True)


if __name__ == "__main__":
    if not 2 <= len(sys.argv) <= 3:
        sys.exit(__doc__)
    main(*sys.argv[1:])
