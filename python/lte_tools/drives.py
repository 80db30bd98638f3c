"""Several files, or several captures of one, in the order of time, and what is missing between them.

The time of a file is that of SigMF, of its header, or of its name. `core:global_index` counts samples, and so gives what is
missing to the sample; times do that within SLACK, so less than this is nothing.
"""
from __future__ import annotations

import datetime
import pathlib
from dataclasses import dataclass
from typing import NamedTuple, Sequence

from . import names, track
from .machine import Refused
from .options import FileOptions, SurveyOptions
from .sigmf import Capture
from .sources import Source

BESIDE = 540_000  # hertz on either side that a cell's six resource blocks take
SLACK = 1.0  # seconds that a file may begin before the one in front of it ends, and less than which is no gap
EXACT = 0.05  # the same for times with parts of a second


class Stretch(NamedTuple):
    """Samples from `first` up to `end`, with the cell `shift` hertz above their centre, and the time of the first. In front
    of it `missing` seconds are not in the file, None if that is not known, and `later` seconds in all up to here."""

    first: int
    end: int
    shift: float
    datetime: str | None
    missing: float | None = None
    later: float = 0


@dataclass(frozen=True)
class Part:
    """One of the files that are read as one: its name and path, its first sample among all, their count, and the bytes
    before them."""

    name: pathlib.Path
    path: pathlib.Path
    first: int
    count: int
    begins: int


@dataclass(frozen=True)
class Drive:
    """Files as one: the count of samples, the file of each where they are several, the captures that have the cell, where
    the cell is in hertz above the centre in the first of these, and its carrier in hertz."""

    count: int
    parts: tuple[Part, ...]
    stretches: tuple[Stretch, ...]
    shift: float
    carrier: float


class Piece(NamedTuple):
    """Samples of one capture, counted over all files: from `first` up to `end`, and seconds since 1970 of the first."""

    source: Source
    capture: Capture
    first: int
    end: int
    time: float | None

    @property
    def name(self) -> pathlib.Path:
        return self.source.name


# ---- the order of files


def in_order(sources: Sequence[Source], notes: list[str]) -> list[Source]:
    """Returns files in the order of their times, or if one has none in the order in which they were named; numbers in
    names are in the order of their size where a shell put them in that of their digits."""
    without = [one.name for one in sources if one.time is None]
    if not without and len({one.is_utc for one in sources}) == 1:
        return sorted(sources, key=lambda one: one.time or 0)
    if all(one.captures[0].stream_index is not None for one in sources):
        return sorted(sources, key=lambda one: one.captures[0].stream_index or 0)
    if len(sources) > 1:
        why = f"no time in {without[0]}" if without else "times with a zone and without"
        notes.append(f"{why}: the files follow one another in the order in which they are named, gaps are not known")
    given = [str(one.name) for one in sources]
    return sorted(sources, key=lambda one: names.natural(str(one.name))) if given == sorted(given) else list(sources)


def check_alike(sources: Sequence[Source]) -> None:
    """Refuses files whose samples are not of one kind."""
    first = sources[0]
    for one in sources[1:]:
        for key, unit in (("form", ""), ("rate", " samples per second"), ("channels", " channels")):
            own, other = getattr(one, key), getattr(first, key)
            if own != other:
                raise Refused(f"{one.name}: {own}{unit}, and {first.name} has {other}{unit}: not one drive")


# ---- what is missing


def pieces_of(sources: Sequence[Source]) -> list[Piece]:
    """Returns the captures of all files, in their order."""
    found, begin = [], 0
    for source in sources:
        ends = [one.first for one in source.captures[1:]] + [source.count]
        for capture, end in zip(source.captures, ends):
            time = capture.time if source.is_described else source.time
            if capture.first < source.count:
                found.append(Piece(source, capture, begin + capture.first, begin + min(end, source.count), time))
        begin += source.count
    return found


def missing_between(one: Piece, other: Piece, rate: float) -> float | None:
    """Returns the seconds that are missing between two pieces, None if that is not known; refuses those that overlap."""
    count = other.first - one.first
    own, later = one.capture.stream_index, other.capture.stream_index
    if own is not None and later is not None:
        if later - own < count:
            raise Refused(
                f"{other.name}: core:global_index {later} is before the end of the samples in front of it, {own + count}"
            )
        return (later - own - count) / rate
    if one.time is None or other.time is None or one.source.is_utc != other.source.is_utc:
        return None
    seconds = other.time - one.time - count / rate
    if seconds < -SLACK:
        former = one.name if other.name != one.name else "the capture in front of it"
        raise Refused(f"{other.name}: from {track.iso(other.time)} on, {-seconds:,.1f} s before the end of {former}")
    is_exact = other.time % 1 != 0 or one.time % 1 != 0
    return seconds if seconds > (EXACT if is_exact else SLACK) else 0.0


# ---- all as one file


def drive_of(options: FileOptions, sources: Sequence[Source], notes: list[str]) -> Drive:
    """Returns files as one, whose samples follow one another."""
    check_alike(sources)
    parts, count = [], 0
    for one in sources:
        parts.append(Part(one.name, one.path, count, one.count, one.begins))
        count += one.count
    if len(sources) == 1 and sources[0].is_plain:
        return Drive(count, (), (), options.shift or 0, options.carrier)
    pieces = pieces_of(sources)
    if not pieces:
        raise Refused(f"{sources[0].name}: no capture begins within its {count:,} samples")
    stretches = stretches_of(options, sources[0].rate, pieces, notes)
    centre = pieces[-1].capture.centre
    carrier = options.carrier or (centre and centre + (options.shift or 0))
    return Drive(count, tuple(parts) if len(parts) > 1 else (), stretches, stretches[0].shift, carrier)


def stretches_of(options: FileOptions, rate: float, pieces: Sequence[Piece], notes: list[str]) -> tuple[Stretch, ...]:
    """Returns the pieces that have the cell."""
    centres = sorted({one.capture.centre for one in pieces})
    if not options.carrier and len(centres) > 1:
        several = " and ".join(f"{centre / 1e6:,g}" for centre in centres)
        raise Refused(f"{pieces[0].name}: captures at {several} MHz: --carrier HZ says which")
    is_described = any(one.source.is_described for one in pieces)
    if options.carrier and not all(centres) and options.shift is None and is_described:
        notes.append(f"{pieces[0].name}: no core:frequency in it, so the cell is looked for at the centre")
    found, later = list[Stretch](), 0.0
    for i, one in enumerate(pieces):
        missing = missing_between(pieces[i - 1], one, rate) if i else 0.0
        later += missing or 0
        found.append(Stretch(one.first, one.end, shift_of(options, one), time_text(options, one), missing, later))
    held = [one for one in found if abs(one.shift) + BESIDE <= rate / 2]
    if held and len(held) < len(found):
        notes.append(f"{pieces[0].name}: {len(found) - len(held)} of {len(found)} captures do not have this frequency")
    return tuple(held or found[:1])


def shift_of(options: FileOptions, piece: Piece) -> float:
    """Returns how many hertz the cell is above a piece's centre."""
    if options.shift is not None:
        return options.shift
    centre = piece.capture.centre
    return options.carrier - centre if options.carrier and centre else 0


def time_text(options: FileOptions, piece: Piece) -> str | None:
    """Returns the time of a piece's first sample as SigMF writes it, None if its zone is not known. The time of --start
    counts before that of a name or a header."""
    if piece.source.is_described:
        return piece.capture.datetime
    has_start = isinstance(options, SurveyOptions) and options.start is not None
    if piece.time is None or not piece.source.is_utc or has_start:
        return None
    return datetime.datetime.fromtimestamp(piece.time, names.UTC).isoformat()
