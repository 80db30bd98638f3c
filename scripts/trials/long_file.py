#!/usr/bin/python3
"""long_file.py [SECONDS] > FILE

Writes a radio's file to try the survey on: bytes (cu8) at 2.4 million samples per second, of 60 seconds where SECONDS
is left out. It has two cells with 6 resource blocks and hardly any traffic: PCI 217 with one antenna port, and from second
20 on PCI 150 with two, 10 dB below. The radio is 25,000 Hz off at the start, and 100 Hz more each second; noise is as
much as 20 dB below a resource element of the stronger cell. All 1,024 frames are made first: some minutes, and 1.5 GB
of memory, by two processes.

    scripts/trials/long_file.py > long.cu8
    lte_survey long.cu8 --rate 2.4e6

Debian: python3-numpy, python3-scipy.
"""
import concurrent.futures
import json
import sys

import numpy as np
from scipy import signal

import packages

packages.add()
from lte_tools import radio
from lte_reference.cell import Frame, FrameOfTwo

RATE = 2_400_000
PLAIN = json.loads((packages.TOP / "scripts/examples/usual_cell.json").read_text())
STRONG = {**PLAIN, "identity": 217, "gain": [1, 0]}
WEAK = {
    **json.loads((packages.TOP / "scripts/examples/weaker_cell.json").read_text()),
    "identity": 150,
    "gain": [1, 0],
    "gain2": [1, 0],
}
LATER, BELOW, OFF, DRIFT, RATIO = 20, 10, 25_000, 100, 20  # seconds, dB, hertz, hertz per second, dB
ELEMENT = 127 * 16 / 128  # the size of a reference element's wave where the gain is 1
CYCLE = 1024  # frames


def frame(number):
    """A frame of both cells: the strong one's samples, and the weak one's through a channel of each port."""
    strong = Frame(STRONG, number).samples()
    first, second = (FrameOfTwo(WEAK, number, port).samples() for port in (0, 1))
    return strong @ (1, 1j), first @ (1, 1j) + second @ (0.6 - 0.7j, 0.7 + 0.6j)


def cycles():
    """All frames of both cells at the radio's rate, in the order of their numbers."""
    with concurrent.futures.ProcessPoolExecutor(2) as pool:
        strong, weak = map(np.concatenate, zip(*pool.map(frame, range(CYCLE), chunksize=16)))
    return [at_rate(strong), at_rate(np.roll(weak, 7_000))]


def at_rate(x):
    """Returns the resampled cycle, with its end in front and its beginning after it."""
    edge = radio.FRAME
    x = signal.resample_poly(np.concatenate([x[-edge:], x, x[:edge]]), 5, 4)
    return x[edge * 5 // 4 : -edge * 5 // 4].astype(np.complex64)


def second(number, strong, weak, draw):
    """The bytes of a second."""
    n = np.arange(RATE) + number * RATE
    time = n / RATE
    gain = 10 ** (-BELOW / 20) if number >= LATER else 0
    x = strong[n % len(strong)] + gain * weak[n % len(weak)]
    x = x * np.exp(2j * np.pi * (OFF * time + DRIFT / 2 * time**2))
    noise = ELEMENT * np.sqrt(128 * RATE / radio.RATE / 2) / 10 ** (RATIO / 20)
    x = 0.2 * (x + noise * (draw.standard_normal(RATE) + 1j * draw.standard_normal(RATE)))
    parts = np.stack([x.real, x.imag], 1) + 127.5
    return np.clip(np.round(parts), 0, 255).astype("u1").tobytes()


def main():
    length = int(sys.argv[1]) if sys.argv[1:] else 60
    waves, draw = cycles(), np.random.default_rng(1)
    for number in range(length):
        sys.stdout.buffer.write(second(number, *waves, draw))


if __name__ == "__main__":
    if len(sys.argv) > 2 or not all(word.isdigit() for word in sys.argv[1:]):
        sys.exit(__doc__)
    main()
