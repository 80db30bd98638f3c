"""What the name of a recording states: its time, centre frequency and rate, as the programs of radios write them.

    SDRSharp_20260714_101530Z_796000000Hz_IQ.wav     HDSDR_20260714_101530Z_796000kHz_RF.wav
    baseband_796000000Hz_10-15-30_14-07-2026.wav     gqrx_20260714_101530_796000000_2400000_fc.raw
    drive-2026-07-14T10_15_30Z.cu8                   part_20260714_101530.cu8

A time is UTC if the name has a Z after it. The zone of other times is not known: they order files and give the seconds
between them.
"""
from __future__ import annotations

import datetime
import re
from typing import NamedTuple

UTC = datetime.timezone.utc
YEARS = range(1980, 2200)
LOWEST, HIGHEST = 1e6, 1e11  # hertz of a centre frequency
UNITS = {"Hz": 1.0, "kHz": 1e3, "MHz": 1e6, "GHz": 1e9}
CLOCK = r"(?P<hour>\d\d)[-_:]?(?P<minute>\d\d)[-_:]?(?P<second>\d\d)(?P<part>[.,]\d{1,6})?"
STAMPS = (
    rf"(?<!\d)(?P<year>\d{{4}})-?(?P<month>\d\d)-?(?P<day>\d\d)[-_T ]{CLOCK}(?P<zone>Z?)(?!\d)",
    rf"(?<!\d){CLOCK}_(?P<day>\d\d)-(?P<month>\d\d)-(?P<year>\d{{4}})(?P<zone>Z?)(?!\d)",
)
GQRX = r"gqrx_\d{8}_\d{6}_(?P<centre>\d{6,12})_(?P<rate>\d{4,10})_fc\.raw"


class Named(NamedTuple):
    """What a name states: seconds since 1970, as if they were UTC, and whether they are; centre in hertz, 0 if it is not
    known; samples per second and form, where the program always writes them."""

    time: float | None = None
    is_utc: bool = False
    centre: float = 0
    rate: float | None = None
    form: str | None = None


def read(name: str) -> Named:
    """Returns what a file's name states. Its centre counts only for the files of a program that always writes it."""
    time, is_utc = time_in(name)
    if found := re.fullmatch(GQRX, name):
        return Named(time, is_utc, float(found["centre"]), float(found["rate"]), "f32")
    return Named(time, is_utc, centre_in(name))


def time_in(name: str) -> tuple[float | None, bool]:
    """Returns the seconds since 1970 of the time in a name, and whether it is UTC."""
    for stamp in STAMPS:
        for found in re.finditer(stamp, name, re.ASCII):
            parts = [int(found[key]) for key in ("year", "month", "day", "hour", "minute", "second")]
            try:
                time = datetime.datetime(*parts, tzinfo=UTC)  # type: ignore[misc, arg-type]
            except ValueError:
                continue
            if time.year in YEARS:
                return time.timestamp() + float(f"0{(found['part'] or '.0').replace(',', '.')}"), bool(found["zone"])
    return None, False


def centre_in(name: str) -> float:
    """Returns the hertz of the frequency in a name, 0 if it has none."""
    for number, unit in re.findall(r"(?<![\d.])(\d{1,12}(?:\.\d{1,9})?)(Hz|kHz|MHz|GHz)(?![A-Za-z])", name, re.ASCII):
        hertz = float(number) * UNITS[unit]
        if LOWEST <= hertz <= HIGHEST:
            return hertz
    return 0.0


def natural(name: str) -> list[tuple[int, str]]:
    """Returns a key by which numbers in names are in the order of their size."""
    return [(int(part), "") if part.isdigit() else (-1, part) for part in re.split(r"([0-9]{1,18})", name) if part]
