"""Recordings as arrays of complex numbers, levels, and questions to lte_cli.

A recording is ci16_le at 1.92 million samples per second (docs/FORMATS.md). Debian: python3-numpy.
"""
from __future__ import annotations

import math
import subprocess

import numpy as np
import numpy.typing as npt

from .rules import ONE_PORT, Rule

Complex = npt.NDArray[np.complex128]
Real = npt.NDArray[np.float64]

RATE = 1_920_000
FRAME = 19_200
LONGEST = RATE  # samples: one second
FULL = 32_767
BLOCK = 1024  # samples
PSS_ROOTS = (25, 29, 34)  # TS 36.211 table 6.11.1.1-1, by the identity within its group


def from_bytes(data: bytes) -> Complex:
    """Returns the samples of ci16_le bytes; an odd end is left out."""
    found: Complex = np.frombuffer(data, "<i2", len(data) // 4 * 2).astype(float).view(complex)
    return found


def to_bytes(x: npt.ArrayLike) -> bytes:
    """Returns the samples as ci16_le bytes, each component rounded and kept within 16 bits."""
    parts = np.round(np.ascontiguousarray(x, complex).view(float))
    found: bytes = np.clip(parts, -FULL - 1, FULL, out=parts).astype("<i2").tobytes()
    return found


def peak(x: Complex) -> float:
    """Returns the maximum absolute value of a component."""
    parts = np.ascontiguousarray(x, complex).view(float)
    return float(max(parts.max(), -parts.min()))


def shifted(x: Complex, hertz: float, rate: float = RATE) -> Complex:
    """Returns the samples moved up in frequency; the phase of each is that of its block plus that within the block."""
    turn = 2j * np.pi * hertz / rate
    blocks = np.exp(turn * BLOCK * np.arange(-(-len(x) // BLOCK)))
    found: Complex = x * np.outer(blocks, np.exp(turn * np.arange(BLOCK))).ravel()[: len(x)]
    return found


def pss(n2: int) -> Complex:
    """Returns the 128 samples of a primary synchronisation signal (TS 36.211 section 6.11.1)."""
    n = np.arange(62)
    turns = np.where(n < 31, n * (n + 1), (n + 1) * (n + 2))
    grid = np.zeros(128, complex)
    grid[np.r_[-31:0, 1:32] % 128] = np.exp(-1j * np.pi * PSS_ROOTS[n2] * turns / 63)
    found: Complex = np.fft.ifft(grid)
    return found


def elements(power: float, noise: float, rule: Rule = ONE_PORT) -> tuple[float, float]:
    """Returns signal and noise of a reference element, the mean of the antenna ports, from two numbers of `evidence`
    (docs/RECORDINGS.md, "What the numbers say")."""
    return power / rule.powers - noise / rule.noises, noise / rule.noises


def decibels(quotient: float) -> float | None:
    """Returns 10 log10, or None where there is none."""
    return 10 * math.log10(quotient) if quotient > 0 else None


def level(power: float, noise: float, full: float = FULL + 1, rule: Rule = ONE_PORT) -> float | None:
    """Returns the level of a reference element in dBFS; `full` is full scale in the recording (docs/RECORDINGS.md)."""
    return decibels(elements(power, noise, rule)[0] / (512 * full) ** 2)


def ratio(power: float, noise: float, rule: Rule = ONE_PORT) -> float | None:
    """Returns the signal to noise of a reference element in dB."""
    signal, rest = elements(power, noise, rule)
    return decibels(signal / rest) if rest > 0 else None


def ask(program: str, word: str, x: npt.ArrayLike) -> list[str]:
    """Returns the lines that the program writes for a recording, without the count in the first."""
    done = subprocess.run([program, word], input=to_bytes(x), stdout=subprocess.PIPE, check=True)
    return done.stdout.decode().splitlines()[1:]


def hits(program: str, x: npt.ArrayLike) -> list[tuple[int, ...]]:
    """Returns the PSS detections of a recording, as pairs of sample and identity within the group."""
    return [tuple(map(int, line.split())) for line in ask(program, "hits", x)]


def cells(program: str, x: npt.ArrayLike) -> list[list[str]]:
    """Returns the lines `cell` of a recording's list, each as a list of words."""
    return [line.split()[1:] for line in ask(program, "search", x) if line.startswith("cell ")]
