#!/usr/bin/python3
"""python3 -m lte_tools.gr_to_ci16 IN RATE SHIFT OUT [GAIN]

Converts complex float32 samples to a recording for lte_cli by GNU Radio 3.10, without a screen.

IN has RATE samples per second, and the cell SHIFT hertz above the centre. Moves it to 0, filters, resamples to 1.92
million samples per second, and writes interleaved 16-bit numbers; a component of 1.0 becomes 32,767 times GAIN. The
filter's delay costs a few samples: use four frames or more.

    python3 -m lte_tools.gr_to_ci16 x.fc32 10000000 0 x.ci16

Debian: gnuradio.
"""
from __future__ import annotations

import argparse
import math
import os
import pathlib

from . import machine
from .arguments import Parser, number, positive

WANTED = 1_920_000


def parser() -> argparse.ArgumentParser:
    """Returns the parser of the arguments."""
    parser = Parser(__doc__, brief=True)
    parser.add_argument("source", metavar="IN", type=pathlib.Path)
    parser.add_argument("rate", metavar="RATE", type=positive, help="samples per second")
    parser.add_argument("shift", metavar="SHIFT", type=number, help="hertz")
    parser.add_argument("sink", metavar="OUT", type=pathlib.Path)
    parser.add_argument("gain", metavar="GAIN", nargs="?", type=number, default=1.0)
    return parser


def command() -> None:
    args = parser().parse_args()
    machine.check_packages("gnuradio")
    from gnuradio import blocks, filter as filters, gr
    from gnuradio.fft import window
    from gnuradio.filter import firdes

    rate = int(args.rate)
    common = math.gcd(rate, WANTED)
    up, down = WANTED // common, rate // common
    taps = firdes.low_pass(up, rate * up, 600e3, 300e3, window.WIN_HAMMING)
    graph = gr.top_block()
    graph.connect(
        blocks.file_source(gr.sizeof_gr_complex, str(args.source), False),
        blocks.rotator_cc(-2 * math.pi * args.shift / rate),
        filters.rational_resampler_ccf(interpolation=up, decimation=down, taps=taps),
        blocks.multiply_const_cc(args.gain),
        blocks.complex_to_interleaved_short(False, 32767.0),
        blocks.file_sink(gr.sizeof_short, f"{args.sink}.part"),
    )
    graph.run()
    os.replace(f"{args.sink}.part", args.sink)


def main() -> None:
    machine.run(command)


if __name__ == "__main__":
    main()
