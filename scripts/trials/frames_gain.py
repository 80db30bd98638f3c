#!/usr/bin/python3
"""frames_gain.py [TRIALS [PROGRAM]]

What it brings to sum the broadcast channel over the frames of a period: at each signal-to-noise ratio, of so many noisy
recordings (100) of one clean cell each, how many have the cell's hit, how many list it by one frame, and how many at
all, by `hits`, `ids` and `evidence` of PROGRAM (crates/lte_cli/out/lte_cli); and the ratio at which it is listed half
of the time, between the two nearest. Observations, no claim.

The cell is that of scripts/examples/plain_cell.json with gain (5, 2) and 9 frames, another identity, frame number and
offset each time. The noise is Gaussian, of numpy's default_rng (PCG64) with the seed 1: white in the first table, and
in the others without what lies beyond 600 or 540 kHz, as behind a receiver's filter. Samples are rounded and clipped.
The ratio is that of a resource element: the power of a QPSK point, 16,200 times the squared gain, to that of the noise
there. Debian: python3-numpy.
"""
import json
import os
import pathlib
import subprocess
import sys

import numpy as np

SCRIPTS = pathlib.Path(__file__).resolve().parent.parent
GAIN, FRAMES, RATIOS = (5, 2), 8, range(-9, 3)


def run(program, words, data):
    return subprocess.run([program, *words], input=data, capture_output=True, check=True).stdout


def cell(random):
    """A description, and the identity, start and frame number that a search has to find."""
    identity, sfn, offset = int(random.integers(504)), int(random.integers(1024)), int(random.integers(19_200))
    value = json.loads((SCRIPTS / "examples/plain_cell.json").read_text(encoding="ascii"))
    value.update(identity=identity, sfn=sfn, offset=offset, samples=19_200 * (FRAMES + 1), gain=GAIN)
    found = (identity, -offset % 19_200, (sfn + (offset > 0)) % 1024)
    return json.dumps(value).encode(), [str(number) for number in found]


def noisy(random, samples, ratio, edge):
    """Returns the samples with noise of this ratio, up to this frequency in kHz, as the bytes of a recording."""
    power = 16_200 * (GAIN[0] ** 2 + GAIN[1] ** 2) / 10 ** (ratio / 10)
    spectrum = np.fft.fft(random.normal(0, power**0.5, samples.shape) @ (1, 1j))
    spectrum[abs(np.fft.fftfreq(len(samples), 1 / 1920)) > edge] = 0
    noise = np.fft.ifft(spectrum).view(float).reshape(-1, 2)
    return np.clip(np.rint(samples + noise), -32_768, 32_767).astype("<i2").tobytes()


def outcome(program, recording, found):
    """Returns whether a PSS detection gives the cell, and the frame count of its entry, or 0."""
    ids = [line.split() for line in run(program, ["ids"], recording).decode().splitlines()[1:]]
    entries = [line.split() for line in run(program, ["evidence"], recording).decode().splitlines()[1:]]
    counts = [int(entry[entry.index("frames") + 1]) for entry in entries if entry[:3] == found]
    return any([row[1], row[3]] == found[:2] for row in ids), max(counts, default=0)


def half(ratios, counts, trials):
    """The ratio at which a rising count passes one half, on a line between its neighbours."""
    for (a, x), (b, y) in zip(zip(ratios, counts), zip(ratios[1:], counts[1:])):
        if 2 * x < trials <= 2 * y:
            return f"{a + (b - a) * (trials / 2 - x) / (y - x):.1f} dB"
    return "-"


def table(trials, program, edge):
    random, rows = np.random.default_rng(1), []
    print(f"\n| Ratio (dB), noise up to {edge} kHz | hit | listed by one frame | listed |\n| --- | --- | --- | --- |")
    for ratio in RATIOS:
        row = [0, 0, 0]
        for _ in range(trials):
            description, found = cell(random)
            samples = np.frombuffer(run(program, ["transmit"], description), "<i2").astype(float).reshape(-1, 2)
            hit, count = outcome(program, noisy(random, samples, ratio, edge), found)
            row = [row[0] + hit, row[1] + (count == 1), row[2] + (count > 0)]
        rows.append(row)
        print("|", " | ".join(map(str, [ratio, *row])), "|", flush=True)
    print("| half of the time |", " | ".join(half(RATIOS, column, trials) for column in zip(*rows)), "|")


def main(trials, program):
    for edge in (960, 600, 540):
        table(trials, program, edge)


if __name__ == "__main__":
    given = sys.argv[1:] + ["100", ""]
    main(int(given[0]), os.path.abspath(given[1] or SCRIPTS.parent / "crates/lte_cli/out/lte_cli"))
