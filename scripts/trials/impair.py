#!/usr/bin/python3
"""impair.py PROGRAM [CELLS [PATTERN]]

Spoils the recordings of CELLS random cells (20) in the ways of a radio and of the air, searches each, and prints a
table: of how many the list holds the cell, how many have a hit at its place, and how many lines `cell` are of no cell
that was sent. PATTERN is a regular expression that the conditions have to match. Each number is an observation: nothing
here is proved. The numbers are drawn with fixed seeds, so a second run prints the same table.

PROGRAM is lte_cli, and lte_tune stands where its path has that name in place of lte_cli.

A cell is five frames that `transmit` sends, with nothing but signals, the broadcast channel, the control format
indicator and system information; a full carrier is sent with load (`--load N`), a QPSK point at every resource element
that the cell leaves open. Es/N0 is the energy of an element by that of the noise in one. Debian: python3-numpy,
python3-scipy.
"""
import json
import pathlib
import re
import subprocess
import sys

import numpy as np
from scipy import signal

import packages

packages.add()
from lte_tools import radio

GAIN = 20  # what is sent is multiplied by it
ELEMENT = 2 * 90**2  # energy of a QPSK or reference point
TRANSFORM = 16  # a grid value a comes out of a transform of 128 as 16a
NEAR = 24  # samples by which a found cell may stand elsewhere: paths move it
PLAIN = json.loads((pathlib.Path(__file__).resolve().parent.parent / "examples/plain_cell.json").read_text())
LOW_PASS = signal.firwin(129, 600e3, fs=radio.RATE)


class Sent:
    """A random cell's recording, and the words of its line `cell`."""

    def __init__(self, program, draw, full):
        identity, sfn = int(draw.integers(504)), int(draw.integers(1023))
        offset_in_frame = int(draw.integers(200, 19_000))
        duration = ("normal", "extended")[draw.integers(2)]
        resource = ("oneSixth", "half", "one", "two")[draw.integers(4)]
        spare = int(draw.integers(1024))
        plan = {
            **PLAIN,
            "identity": identity,
            "sfn": sfn,
            "offset": offset_in_frame,
            "samples": 5 * radio.FRAME,
            "gain": [GAIN, 0],
            "duration": duration,
            "resource": resource,
            "spare": spare,
        }
        load = ["--load", str(draw.integers(2**32))] if full else []
        done = subprocess.run(
            [program, "transmit", *load], input=json.dumps(plan).encode(), stdout=subprocess.PIPE, check=True
        )
        self.start = radio.FRAME - offset_in_frame
        self.line = (
            f"{identity} sfn {sfn + 1} ports 1 n6 phich {duration} {resource} br {spare // 32} spare {spare % 32}"
        )
        self.half = identity % 3
        self.samples = radio.from_bytes(done.stdout)

    def is_line(self, words):
        """Whether the words after `cell` are this cell's."""
        identity, _, at, *others = words
        return " ".join([identity, *others]) == self.line and abs(int(at) - self.start) <= NEAR

    def has_hit(self, places):
        """Returns whether a PSS detection is at the PSS of subframe 0 or 5."""
        return any(
            n2 == self.half and min((t - self.start - 832) % 9_600, (self.start + 832 - t) % 9_600) <= NEAR
            for t, n2 in places
        )


# ---- what is done to a recording: each takes the samples and a generator


def noise(decibels):
    def apply(x, draw):
        size = GAIN * np.sqrt(TRANSFORM**2 * ELEMENT / 128 / 10 ** (decibels / 10) / 2)
        return x + size * (draw.standard_normal(len(x)) + 1j * draw.standard_normal(len(x)))

    return apply


def filtered(x, _):
    return np.convolve(x, LOW_PASS, "same")


def turned(hertz):
    return lambda x, _: radio.shifted(x, hertz)


def clock(parts_per_million):
    def apply(x, _):
        dense = signal.resample_poly(x, 16, 1)
        at = np.arange(len(x)) * (1 + parts_per_million * 1e-6) * 16
        return np.interp(at, np.arange(len(dense)), dense)

    return apply


def path(samples, decibels):
    def apply(x, draw):
        late = np.concatenate([np.zeros(samples), x[:-samples]])
        return (x + 10 ** (decibels / 20) * np.exp(2j * np.pi * draw.random()) * late) / 2

    return apply


def direct(times):
    def apply(x, draw):
        size = times * np.sqrt(np.mean(np.abs(x) ** 2))
        return x / (1 + times) + size / (1 + times) * np.exp(2j * np.pi * draw.random())

    return apply


def imbalance(decibels, degrees):
    def apply(x, _):
        angle = np.radians(degrees)
        return x.real + 1j * 10 ** (decibels / 20) * (x.imag * np.cos(angle) + x.real * np.sin(angle))

    return apply


def level(top):
    """Peaks of `top` units of 16 bits, in whole ones."""
    return lambda x, _: np.round(x * (top / radio.peak(x)))


def eight_bits(top):
    """Peaks of `top` of 127 as unsigned 8 bits write them, whose middle is 127.5."""

    def apply(x, _):
        x = x * (top / radio.peak(x))
        return 256 * (np.floor(x.real) + 0.5 + 1j * (np.floor(x.imag) + 0.5))

    return apply


def corrected(program):
    def apply(x, _):
        tuner = program.replace("lte_cli", "lte_tune")
        done = subprocess.run([tuner, "apply"], input=radio.to_bytes(x), stdout=subprocess.PIPE, check=True)
        return radio.from_bytes(done.stdout)

    return apply


def conditions(program):
    """Returns pairs of a name and an impairment, for an almost empty carrier and for a full one."""
    tuned = corrected(program)
    both = [("as it is", [])]
    both += [(f"offset {h} Hz", [turned(h)]) for h in (300, 500, 700, 1000, 1250, 1500, 2000, 5000)]
    both += [(f"offset {h} Hz, 10 dB", [turned(h), noise(10)]) for h in (500, 1000, 1500)]
    both += [
        (f"offset {h} Hz, 10 dB, then lte_tune", [turned(h), noise(10), tuned])
        for h in (1000, 5000, 15000, -30000, 45000)
    ]
    both += [(f"clock {p} ppm", [clock(p)]) for p in (2, 10, 50)]
    both += [(f"Es/N0 {d} dB", [noise(d)]) for d in (20, 10, 5, 3, 2, 1, 0, -1, -2, -3, -5)]
    both += [(f"Es/N0 {d} dB, filtered to 1.2 MHz", [noise(d), filtered]) for d in (0, -2, -3, -5)]
    both += [
        (f"second path {s} samples later, {d} dB, Es/N0 10 dB", [path(s, d), noise(10)])
        for s in (1, 2, 4, 8, 12, 20)
        for d in (0, -6)
    ]
    both += [(f"DC {t} times the rms", [direct(t)]) for t in (0.1, 1, 2, 4, 5, 10)]
    both += [("I and Q out by 1 dB and 5 degrees", [imbalance(1, 5)])]
    both += [(f"peak {top} of 32,767", [level(top)]) for top in (32767, 327, 30, 10, 3, 2, 1)]
    both += [("clipped 12 dB above full scale", [level(131_000)])]
    both += [(f"8 bits, peak {top} of 127", [eight_bits(top)]) for top in (127, 30, 10, 3, 1)]
    both += [
        (
            "300 Hz, 1 ppm, Es/N0 10 dB, DC 0.1, 8 bits with peak 60",
            [turned(300), clock(1), noise(10), direct(0.1), eight_bits(60)],
        )
    ]
    return both


def row(program, name, steps, seeds, full, others=()):
    """One line of the table: the first cell, the further ones, hits and lines of none."""
    found, hit, strange = [0] * (1 + len(others)), 0, 0
    for seed in seeds:
        draw = np.random.default_rng([seed, int(full)])
        sent = [Sent(program, draw, full) for _ in range(1 + len(others))]
        x = sum(s.samples * 10 ** (d / 20) for s, d in zip(sent, (0, *others))) / len(sent)
        for step in steps:
            x = step(x, draw)
        lines = radio.cells(program, x)
        for i, one in enumerate(sent):
            found[i] += any(one.is_line(words) for words in lines)
        hit += sent[0].has_hit(radio.hits(program, x))
        strange += sum(not any(one.is_line(words) for one in sent) for words in lines)
    carrier = "full" if full else "empty"
    print(f'| {name} | {carrier} | {", ".join(map(str, found))} of {len(seeds)} | {hit} | {strange} |', flush=True)


def main(program, count="20", pattern=""):
    seeds = range(int(count))
    print("| Condition | Carrier | Found | Hit | Lines of none |\n|---|---|---|---|---|")
    for full in (False, True):
        for name, steps in conditions(program):
            if re.search(pattern, name):
                row(program, name, steps, seeds, full)
    for others in ((0,), (-3,), (-6,), (0, 0)):
        name = "further cell " + " and ".join(f"{d} dB" for d in others) + ", Es/N0 20 dB"
        if re.search(pattern, name):
            row(program, name, [noise(20)], seeds, True, others)


if __name__ == "__main__":
    if not 2 <= len(sys.argv) <= 4:
        sys.exit(__doc__)
    main(*sys.argv[1:])
