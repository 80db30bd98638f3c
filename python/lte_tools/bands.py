"""EARFCN and frequency: the downlinks of the FDD bands, and those that are downlink alone (TS 36.101 table 5.7.3-1).

The number of a carrier is 10 * (its MHz - the band's lowest) + the band's first number: they are 100 kHz apart.
"""
from __future__ import annotations

from typing import NamedTuple

RASTER = 100_000  # hertz


class Band(NamedTuple):
    """A band's lowest frequency in hertz, its first EARFCN, and the first that it does not have any more."""

    number: int
    lowest: int
    first: int
    end: int


# a band, its lowest and highest frequency in units of 100 kHz, and its first EARFCN
# fmt: off
ROWS = (
    (1, 21100, 21700, 0), (2, 19300, 19900, 600), (3, 18050, 18800, 1200), (4, 21100, 21550, 1950),
    (5, 8690, 8940, 2400), (6, 8750, 8850, 2650), (7, 26200, 26900, 2750), (8, 9250, 9600, 3450),
    (9, 18449, 18799, 3800), (10, 21100, 21700, 4150), (11, 14759, 14959, 4750), (12, 7290, 7460, 5010),
    (13, 7460, 7560, 5180), (14, 7580, 7680, 5280), (17, 7340, 7460, 5730), (18, 8600, 8750, 5850),
    (19, 8750, 8900, 6000), (20, 7910, 8210, 6150), (21, 14959, 15109, 6450), (22, 35100, 35900, 6600),
    (23, 21800, 22000, 7500), (24, 15250, 15590, 7700), (25, 19300, 19950, 8040), (26, 8590, 8940, 8690),
    (27, 8520, 8690, 9040), (28, 7580, 8030, 9210), (29, 7170, 7280, 9660), (30, 23500, 23600, 9770),
    (31, 4625, 4675, 9870), (32, 14520, 14960, 9920), (65, 21100, 22000, 65536), (66, 21100, 22000, 66436),
    (67, 7380, 7580, 67336), (68, 7530, 7830, 67536), (69, 25700, 26200, 67836), (70, 19950, 20200, 68336),
    (71, 6170, 6520, 68586), (72, 4610, 4660, 68936), (73, 4600, 4650, 68986), (74, 14750, 15180, 69036),
    (75, 14320, 15170, 69466), (76, 14270, 14320, 70316), (85, 7280, 7460, 70366), (87, 4200, 4250, 70546),
    (88, 4220, 4270, 70596),
)
# fmt: on
BANDS = tuple(Band(number, low * RASTER, first, first + high - low) for number, low, high, first in ROWS)


def frequency_of(earfcn: int) -> int | None:
    """Returns the hertz of a carrier's number, or None where no band has it."""
    for band in BANDS:
        if band.first <= earfcn < band.end:
            return band.lowest + RASTER * (earfcn - band.first)
    return None


def earfcns_of(hertz: float) -> list[tuple[int, int]]:
    """Returns pairs of a band and the number that a frequency has in it."""
    step, beside = divmod(round(hertz), RASTER)
    if beside:
        return []
    steps = [(band, step - band.lowest // RASTER) for band in BANDS]
    return [(band.number, band.first + n) for band, n in steps if 0 <= n < band.end - band.first]
