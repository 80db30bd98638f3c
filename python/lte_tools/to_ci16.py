#!/usr/bin/python3
"""lte_convert TYPE RATE [SHIFT [START]] [--to R] < FILE > RECORDING

Converts I/Q samples to a recording for lte_cli: removes the mean, shifts SHIFT hertz to 0, resamples to 1.92 million
samples per second, filters to the 1.08 MHz of six resource blocks, scales the peak to half of full scale, and writes at
most one second.

TYPE is u8, s8, s16 or f32 (low byte first), with I and Q interleaved. RATE is the file's sample rate, SHIFT the cell's
frequency in hertz above the file's centre (0 if it is left out), and START the second at which to begin. With --to R, for
`lte_cli search --rate R`, the recording has R million samples per second, above 1.92 without the filter, and at most 0.2
seconds, which is more than a list depends on.

    lte_convert u8 2.4e6 < drive.cu8 > recording.ci16
    lte_convert s16 20e6 --to 15.36 < drive.cs16 > wide.ci16

Debian: python3-numpy, python3-scipy.
"""
from __future__ import annotations

import argparse
import sys
from fractions import Fraction

import numpy as np
from scipy import signal

from . import machine, radio, rates
from .arguments import Parser, form as form_argument, not_negative, number
from .arguments import rate as rate_argument
from .forms import FORMS, is_number

PASS = 600_000  # hertz on either side: six blocks take 540,000
NEAREST, FARTHEST = 0.5e-6, 10_000  # by which a rate may be another one, and a number of a ratio


def ratio_of(rate: float) -> Fraction:
    """Returns the ratio of the smallest numbers that is this rate by 1.92e6, or nearly so."""
    exact = Fraction(rate) / radio.RATE
    for most in (100, 300, 1_000, 3_000, FARTHEST):
        ratio = exact.limit_denominator(most)
        if ratio and abs(ratio / exact - 1) <= NEAREST:
            return ratio
    raise machine.Refused(f"{rate:,} samples per second: nearer to 0 than any ratio to 1.92e6 that is read")


def resampled(x: radio.Complex, ratio: Fraction) -> radio.Complex:
    """Returns samples at a rate that is the `ratio`th part of theirs: each component by itself, in half of the time."""
    components = np.ascontiguousarray(x.view(float).reshape(-1, 2).T)
    parts = signal.resample_poly(components, ratio.denominator, ratio.numerator, axis=1)
    found = np.empty(parts.shape[1], complex)
    found.real, found.imag = parts
    return found


def converted(x: radio.Complex, rate: float, shift: float, to: int = radio.RATE) -> radio.Complex:
    """Returns one second at most of samples, in their own scale, at the rate `to`; the cell is `shift` hertz above the
    centre. At 1.92 million samples per second they are filtered to six resource blocks."""
    x = radio.shifted(x - x.mean(), -shift, rate)
    ratio = ratio_of(rate) * Fraction(radio.RATE, to)
    found = resampled(x, ratio)
    if to == radio.RATE:
        found = signal.oaconvolve(found, signal.firwin(129, PASS, fs=radio.RATE), "same")
    return found[:to]


def form_of(text: str) -> str:
    """Returns a number format; the reason of a refusal names the form of the command, in case the text is a file."""
    if form_argument(text) not in FORMS:
        raise argparse.ArgumentTypeError(
            f"{text!r} is not u8, s8, s16 or f32 (a file is read from standard input: lte_convert u8 2.4e6 < FILE)"
        )
    return form_argument(text)


def parser() -> argparse.ArgumentParser:
    """Returns the parser of the arguments."""
    parser = Parser(__doc__, brief=True)
    says = "number format: u8, s8, s16 or f32"
    parser.add_argument("form", metavar="TYPE", type=form_of, choices=list(FORMS), help=says)
    parser.add_argument("rate", metavar="RATE", type=rate_argument, help="samples per second of the file")
    parser.add_argument(
        "shift",
        metavar="SHIFT",
        nargs="?",
        type=number,
        default=0.0,
        help="the cell's frequency, hertz above the centre (0)",
    )
    parser.add_argument(
        "start", metavar="START", nargs="?", type=not_negative, default=0.0, help="second at which to begin (0)"
    )
    parser.add_argument("--to", choices=list(rates.RATES.values()), help="million samples per second of the recording")
    return parser


def command() -> None:
    args = parser().parse_args()
    form, rate = FORMS[args.form], args.rate
    size = form.width
    source = sys.stdin.buffer
    skip = int(args.start * rate) * size
    while skip > 0 and (gone := len(source.read(min(skip, 1 << 20)))):
        skip -= gone
    seconds = rates.SECONDS if args.to else 1
    data = source.read(int(1.05 * seconds * rate) * size)
    numbers = np.frombuffer(data[: len(data) // size * size], form.numbers)
    if len(numbers) == 0:
        raise machine.Refused("no samples")
    if args.form == "f32" and not np.all(is_number(numbers)):
        raise machine.Refused("not numbers of f32: is it another TYPE?")
    parts = numbers.astype(float) - form.middle
    to = next((one for one, text in rates.RATES.items() if text == args.to), rates.NARROW)
    x = converted(parts[0::2] + 1j * parts[1::2], rate, args.shift, to)
    x = x[: round(seconds * to)]
    sys.stdout.buffer.write(radio.to_bytes(x * (radio.FULL / 2 / (radio.peak(x) or 1))))


def main() -> None:
    machine.run(command, "numpy", "scipy")


if __name__ == "__main__":
    main()
