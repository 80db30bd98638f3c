"""Files of a radio, of any length: form, rate and size, and windows of them as recordings.

Debian: python3-numpy, python3-scipy.
"""
from __future__ import annotations

import datetime
import pathlib
from dataclasses import dataclass
from fractions import Fraction
from typing import Any

import numpy as np
import numpy.typing as npt

from . import drives, radio, sources
from .drives import BESIDE as BESIDE  # these names are known by this module too
from .drives import Part as Part
from .drives import Stretch as Stretch
from .forms import FORMS, is_number
from .machine import Refused, note
from .options import FileOptions, checked
from .to_ci16 import converted, ratio_of

LEAST = 57_600  # samples of a recording: three frames


class Spoiled(Refused):
    """Samples of a window are not numbers."""


@dataclass(frozen=True)
class RadioFile:
    """A file of interleaved I and Q; the cell is `shift` hertz above its centre."""

    path: pathlib.Path
    form: str
    rate: float  # samples per second
    count: int  # samples
    shift: float  # hertz, in its first stretch
    carrier: float  # hertz at the cell's centre, 0 where it is not known
    stretches: tuple[Stretch, ...] = ()  # of SigMF's captures, those that have the cell
    begins: int = 0  # bytes before the first sample
    channels: int = 1
    channel: int = 0
    is_exchanged: bool = False  # whether Q comes before I
    parts: tuple[Part, ...] = ()  # of several files that are read as one
    held: bytes | None = None  # its samples themselves, where they are in no file

    @property
    def seconds(self) -> float:
        return self.count / self.rate

    @property
    def rate_error(self) -> float:
        """By how many millionths the rate at which it is read is above that of its samples."""
        return float(1e6 * (ratio_of(self.rate) * radio.RATE / Fraction(self.rate) - 1))

    def time_at(self, second: float) -> str | None:
        """Returns the time of a second of it, as SigMF or --start has it, or None."""
        sample = round(second * self.rate)
        one = next((one for one in self.stretches if one.first <= sample < one.end), None)
        if one is None or one.datetime is None:
            return None
        later = datetime.timedelta(seconds=second - one.first / self.rate)
        return (datetime.datetime.fromisoformat(one.datetime) + later).isoformat(timespec="milliseconds")

    def samples(self, first: int, count: int) -> radio.Complex:
        """Returns samples from `first` on, where 1 is full scale; refuses those that are not numbers."""
        form = FORMS[self.form]
        parts = self.numbers(form.numbers, first, count)
        parts = parts[: len(parts) // (2 * self.channels) * 2 * self.channels].reshape(-1, self.channels, 2)
        parts = parts[:, self.channel]
        if self.form == "f32" and not np.all(is_number(parts)):
            raise Spoiled(f"{self.path}: not numbers of f32 near sample {first}")
        parts = np.ascontiguousarray(parts[:, ::-1] if self.is_exchanged else parts, float)
        if form.middle:
            parts = parts - form.middle
        found: radio.Complex = (parts / form.full).view(complex)[:, 0]
        return found

    def numbers(self, kind: str, first: int, count: int) -> npt.NDArray[Any]:
        """Returns the components of `count` samples of every channel, as they were written."""
        width, count = np.dtype(kind).itemsize, 2 * self.channels * count
        part = self.part_at(first)
        begins = part.begins + 2 * self.channels * width * (first - part.first)
        if self.held is None:
            return np.fromfile(part.path, kind, count, offset=begins)
        return np.frombuffer(self.held, kind, min(count, (len(self.held) - begins) // width), offset=begins)

    def part_at(self, sample: int) -> Part:
        """Returns the file that has a sample, of one file the file itself."""
        itself = Part(self.path, self.path, 0, self.count, self.begins)
        return next((one for one in self.parts if one.first <= sample < one.first + one.count), itself)

    def is_recording(self, rate: int = radio.RATE) -> bool:
        """Returns whether a second of it is a recording at a rate as it is."""
        plain = len(self.stretches) < 2 and not self.is_exchanged
        return plain and (self.form, self.rate, self.shift) == ("s16", rate, 0)

    def recording(self, start: float, seconds: float, offset: float = 0, rate: int = radio.RATE) -> tuple[bytes, float]:
        """Returns the recording of a window that begins at second `start`, and what full scale of the file is in it."""
        if self.is_recording(rate) and offset == 0:
            samples = self.samples(round(start * self.rate), round(seconds * self.rate))
            return radio.to_bytes(samples * (radio.FULL + 1)), radio.FULL + 1
        return self.filtered(start, seconds, offset, rate)

    def filtered(self, start: float, seconds: float, offset: float = 0, rate: int = radio.RATE) -> tuple[bytes, float]:
        """Returns such a recording as `to_ci16.py` makes it of any file: at 1.92 million samples per second filtered to
        six resource blocks."""
        first = round(start * self.rate)
        return self.converted(self.samples(first, round(seconds * self.rate)), first, offset, rate)

    def converted(
        self, samples: radio.Complex, first: int, offset: float = 0, rate: int = radio.RATE
    ) -> tuple[bytes, float]:
        """Returns the recording of samples of the file from `first`, and what full scale of the file is in it."""
        window = converted(samples, self.rate, self.shift_at(first) + offset, rate)
        scale = radio.FULL / 2 / (radio.peak(window) or 1)
        return radio.to_bytes(window * scale), scale

    def shift_at(self, sample: int) -> float:
        """Returns how many hertz the cell is above the centre at a sample."""
        return next((one.shift for one in self.stretches if one.first <= sample < one.end), self.shift)

    def starts(self, at: float, length: float, every: float, until: float | None = None) -> list[tuple[float, float]]:
        """Returns the seconds at which windows begin and how long they are: three frames or more, within one stretch, and up
        to the second `until`."""
        least = LEAST / radio.RATE
        if at + least > self.seconds + 1e-9:
            raise Refused(f"{self.path}: {max(0, self.seconds - at):.4f} s from second {at:g} on, and 0.03 are needed")
        ends = [(one.first / self.rate, one.end / self.rate) for one in self.stretches] or [(0, self.seconds)]
        found: list[tuple[float, float]] = []
        for first, end in ends:
            begin, end = max(at, first), end if until is None else min(end, until)
            count = int((end - least - begin) / every + 1e-9) + 1 if begin + least <= end + 1e-9 else 0
            found += [(begin + i * every, min(length, end - begin - i * every)) for i in range(count)]
        if not found:
            up_to = "on" if until is None else f"to {until:g}"
            raise Refused(f"{self.path}: no stretch of 0.03 s from second {at:g} {up_to}")
        return found

    def check_holds(self, hertz: float, name: str) -> None:
        """Refuses a frequency, in hertz above the centre, that the file does not have."""
        if abs(hertz) + BESIDE > self.rate / 2:
            raise Refused(f"{self.path}: {name} is not in it: {width_text(self.rate)}")


def width_text(rate: float) -> str:
    """Returns which frequencies a file of this rate has."""
    room = rate / 2 - BESIDE
    has = f"cells up to {room / 1e3:,.0f} kHz beside its centre" if room >= 0 else "less than a cell's 1.08 MHz"
    return f"{rate:,.0f} samples per second have {has}"


# ---- files


def opened(options: FileOptions) -> RadioFile:
    """Returns the file that options name, or their files as one."""
    checked(options)
    notes: list[str] = []  # printed only if the file is not refused
    found = drives.in_order([sources.source_of(options, path, notes) for path in options.files], notes)
    file = of_drive(drives.drive_of(options, found, notes), found[0], options)
    is_carrier = options.carrier and options.shift is None
    for shift in {one.shift for one in file.stretches} or {file.shift}:
        file.check_holds(shift, f"{options.carrier:,.0f} Hz" if is_carrier else f"{shift:+,.0f} Hz")
    for one in found:
        sources.check_form(one)
    if options.at + LEAST / radio.RATE <= file.seconds + 1e-9:  # else a window is refused
        for text in notes:
            note(text)
    return file


def of_drive(drive: drives.Drive, first: sources.Source, options: FileOptions) -> RadioFile:
    """Returns files that are read as one, of which this is the first."""
    return RadioFile(
        first.path,
        first.form,
        first.rate,
        drive.count,
        drive.shift,
        drive.carrier,
        drive.stretches,
        first.begins,
        first.channels,
        first.channel,
        options.exchanged,
        drive.parts,
    )
