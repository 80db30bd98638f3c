#!/usr/bin/python3
"""python3 -m lte_tools.add_noise RATIO [SEED] < RECORDING > RECORDING

Adds white noise, so that a reference element of the strongest cell has an Es/N0 of RATIO dB.

The element is the one that `lte_cli evidence` measures; the noise that it already has is not counted, and stays. The
same SEED (1) gives the same noise. Each component is rounded and limited to 16 bits; if that changes more than one in
10,000, a note says so.

    python3 -m lte_tools.add_noise 10 < recording.ci16 > noisy.ci16

Debian: python3-numpy. Needs lte_cli (README, "Build").
"""
from __future__ import annotations

import argparse
import sys

import numpy as np

from . import foreign, machine, programs, radio
from .arguments import Parser, number


def element_of(data: bytes) -> float:
    """Returns the energy of a reference element of the strongest cell, as the energy that noise of it has in a sample."""
    signals = [radio.elements(cell.power, cell.noise)[0] for cell in programs.evidence(data)]
    if not signals or max(signals) <= 0:
        raise machine.Refused("no cell in `lte_cli evidence` to measure the ratio by")
    return max(signals) / 16 / 128


def parser() -> argparse.ArgumentParser:
    """Returns the parser of the arguments."""
    parser = Parser(__doc__, brief=True)
    parser.add_argument("ratio", metavar="RATIO", type=number, help="Es/N0 in dB")
    parser.add_argument("seed", metavar="SEED", nargs="?", type=int, default=1)
    return parser


def command() -> None:
    args = parser().parse_args()
    data = foreign.read_input(radio.LONGEST * 4)
    x, draw = radio.from_bytes(data), np.random.default_rng(args.seed)
    size = np.sqrt(element_of(data) / 10 ** (args.ratio / 10) / 2)
    x = x + size * (draw.standard_normal(len(x)) + 1j * draw.standard_normal(len(x)))
    cut = np.mean(np.maximum(np.abs(x.real), np.abs(x.imag)) > radio.FULL)
    if cut > 1e-4:
        machine.note(f"{100 * cut:.2f} % of the samples do not fit 16 bits and are cut")
    sys.stdout.buffer.write(radio.to_bytes(x))


def main() -> None:
    machine.run(command, "numpy")


if __name__ == "__main__":
    main()
