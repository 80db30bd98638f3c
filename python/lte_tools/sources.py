"""Files of samples one by one: what the name, the header or the meta data of each says of them.

Debian: python3-numpy.
"""
from __future__ import annotations

import pathlib
import stat
from dataclasses import dataclass

import numpy as np

from . import names, radio, sigmf, track, wav
from .arguments import SUFFIXES
from .forms import FORMS, fault_of
from .machine import Refused
from .options import FileOptions
from .sigmf import Capture

PROBES, PROBE = 16, 16_384  # places of a file that are looked at for its form, and components of each
SAME_TIME = 2  # seconds by which the times of a header and of a name are one
SAME_CENTRE = 1_000  # hertz by which their frequencies are one
TEXT = bytes([*range(7, 14), 27, *range(32, 127)])


@dataclass(frozen=True)
class Source:
    """A file: its name as it was given, where its samples are, what they are, and the captures that it has.

    `time` is in seconds since 1970 at the first sample, of a zone that is known if `is_utc`; `is_described` states whether
    SigMF has the captures, which else are one.
    """

    name: pathlib.Path
    path: pathlib.Path
    form: str
    rate: float
    count: int
    captures: tuple[Capture, ...]
    begins: int = 0  # bytes before the first sample
    channels: int = 1
    channel: int = 0
    time: float | None = None
    is_utc: bool = False
    is_described: bool = False

    @property
    def is_plain(self) -> bool:
        """Whether nothing is known of it but its samples."""
        return not self.is_described and self.time is None and not self.captures[0].centre


def source_of(options: FileOptions, path: pathlib.Path, notes: list[str]) -> Source:
    """Returns the file at a path; appends to `notes` what is worth a line."""
    form = options.form or SUFFIXES.get(path.suffix[1:])
    return of_sigmf(options, path, notes) if form == "sigmf" else of_samples(options, path, notes)


def of_samples(options: FileOptions, path: pathlib.Path, notes: list[str]) -> Source:
    """Returns a file of samples alone, or behind the header of WAV."""
    size, named = size_of(path), names.read(path.name)
    if wav.is_wave(path):
        return of_wave(options, path, named, notes)
    if path.suffix.lower() == ".wav" and options.form is None:
        raise Refused(f"{path}: no header of WAV in it; --form names the numbers of samples without one")
    form = options.form or SUFFIXES.get(path.suffix[1:]) or named.form or "s16"
    count = whole_samples(path, size, form, notes)
    rate = whole(options.rate or named.rate or radio.RATE)
    centre = named.centre if named.rate else 0.0
    return Source(path, path, form, rate, count, (Capture(0, centre, None),), time=named.time, is_utc=named.is_utc)


def of_wave(options: FileOptions, path: pathlib.Path, named: names.Named, notes: list[str]) -> Source:
    """Returns a WAV file. Its header's time and frequency count, else those of its name, which notes a contradiction."""
    wave = wav.read(path)
    form = options.form or wave.form
    centre, time, is_utc = wave.centre or named.centre, wave.time, wave.time is not None
    if wave.centre and named.centre and abs(wave.centre - named.centre) > SAME_CENTRE:
        header, name = wave.centre / 1e6, named.centre / 1e6
        notes.append(f"{path}: {header:g} MHz in its header, which counts, and {name:g} MHz in its name")
    if named.time is not None and (time is None or named.is_utc and abs(time - named.time) > SAME_TIME):
        if time is not None:
            both = f"from {track.iso(time)} on by its header, and from {track.iso(named.time)} on by its name, which counts"
            notes.append(f"{path}: {both}")
        time, is_utc = named.time, named.is_utc
    count = whole_samples(path, wave.size, form, notes)
    rate = whole(options.rate or wave.rate)
    return Source(path, path, form, rate, count, (Capture(0, centre, None),), wave.begins, time=time, is_utc=is_utc)


def of_sigmf(options: FileOptions, path: pathlib.Path, notes: list[str]) -> Source:
    """Returns a file that SigMF describes."""
    meta = sigmf.read(path)
    channel = options.channel
    if meta.channels > 1 and channel is None:
        raise Refused(f"{path}: {meta.channels} channels: --channel 0 to {meta.channels - 1} says which")
    if not 0 <= (channel or 0) < meta.channels:
        raise Refused(f"{path}: no channel {channel} of {meta.channels}")
    size = meta.size if meta.is_archive else size_of(meta.data)
    count = whole_samples(meta.data, size, meta.form, notes, meta.channels)
    rate = whole(options.rate or meta.rate)
    captures, time = tuple(meta.captures), meta.captures[0].time
    return Source(
        path, meta.data, meta.form, rate, count, captures, meta.begins, meta.channels, channel or 0, time, True, True
    )


# ---- checks


def whole(rate: float) -> float:
    """Returns a whole number where it is one."""
    return int(rate) if rate == int(rate) else rate


def whole_samples(path: pathlib.Path, size: int, form: str, notes: list[str], channels: int = 1) -> int:
    """Returns how many samples `size` bytes are; the end of one that is cut is left out."""
    width = FORMS[form].width * channels
    if cut := size % width:
        last = "the last byte is" if cut == 1 else f"the last {cut} bytes are"
        notes.append(f"{path}: cut within a sample: {last} left out")
    if size < width:
        raise Refused(f"{path}: no sample in it")
    return size // width


def size_of(path: pathlib.Path) -> int:
    """Returns the bytes of a file that is neither empty nor a text."""
    status = path.stat()
    if not stat.S_ISREG(status.st_mode):
        kinds = {stat.S_IFDIR: "a directory", stat.S_IFIFO: "a pipe"}
        kind = kinds.get(stat.S_IFMT(status.st_mode), "a device")
        raise Refused(f"{path}: {kind}, and a file is read at any place: write the samples to one")
    if status.st_size == 0:
        raise Refused(f"{path}: empty")
    with path.open("rb") as file:
        if not file.read(65_536).translate(None, TEXT):
            raise Refused(f"{path}: a text, not samples")
    return status.st_size


def check_form(source: Source) -> None:
    """Refuses a file whose numbers read like another form's."""
    width = np.dtype(FORMS[source.form].numbers).itemsize
    total = 2 * source.channels * source.count
    places = {total * i // PROBES // 2 * 2 for i in range(PROBES)}
    sizes = [(source.begins + width * place, width * min(PROBE, total - place)) for place in sorted(places)]
    parts = [np.fromfile(source.path, "u1", size, offset=begins) for begins, size in sizes]
    fault = fault_of(np.concatenate(parts), source.form)
    if fault:
        raise Refused(f"{source.path}: read as {source.form}, {fault}")
