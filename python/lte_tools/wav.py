"""WAV files of the programs of radios: SDR#, HDSDR and SDR++ write I as the left channel and Q as the right one.

The chunk `auxi`, which HDSDR and others write, has the time of the first sample and the centre frequency. Its time is read
as UTC. Files of more than 4 GB have the length of their samples in `ds64`, or none that is right: then all is read.
"""
from __future__ import annotations

import datetime
import pathlib
import struct
from typing import BinaryIO, NamedTuple

from .machine import Refused
from .names import UTC, YEARS

RIFF = (b"RIFF", b"RF64", b"BW64")
FORMS = {(1, 8): "u8", (1, 16): "s16", (3, 32): "f32"}  # by WAV's format and the bits of a component
EXTENDED = 0xFFFE  # the format is in the extension
UNKNOWN = 0xFFFFFFFF  # a length that is not known, or that ds64 has
MOST_CHUNKS, MOST_BYTES = 1_000, 65_536  # of a file, and of a chunk that is read
WORD = 1 << 32  # by which a length of 32 bits wraps round


class Wave(NamedTuple):
    """What a header states: form and samples per second, where the samples begin in bytes and their size, the centre in
    hertz (0 if it is not known), and the time of the first sample in seconds since 1970."""

    form: str
    rate: float
    begins: int
    size: int
    centre: float
    time: float | None


class Chunk(NamedTuple):
    """A chunk of a file: its name, where its bytes begin, their count, and those that were read."""

    name: bytes
    begins: int
    size: int
    data: bytes


def is_wave(path: pathlib.Path) -> bool:
    """Returns whether a file begins with the header of WAV, or of one that is larger than 4 GB."""
    with path.open("rb") as file:
        head = file.read(12)
    return head[:4] in RIFF and head[8:] == b"WAVE"


def read(path: pathlib.Path) -> Wave:
    """Returns what the header of a WAV file states; refuses samples other than I and Q in a form that is read."""
    size = path.stat().st_size
    with path.open("rb") as file:
        chunks = {one.name: one for one in reversed(chunks_of(path, file, size))}
    for name in ("fmt ", "data"):
        if name.encode() not in chunks:
            raise Refused(f"{path}: WAV without a chunk {name.strip()!r}: it was cut, or its header is not complete")
    form, rate = form_of(path, chunks[b"fmt "])
    data = chunks[b"data"]
    centre, time = auxiliary(chunks[b"auxi"].data) if b"auxi" in chunks else (0.0, None)
    return Wave(form, rate, data.begins, data.size, centre, time)


def chunks_of(path: pathlib.Path, file: BinaryIO, size: int) -> list[Chunk]:
    """Returns the chunks of a file; the one of the samples ends with the file where its length is not known."""
    found: list[Chunk] = []
    place, long = 12, None
    while place + 8 <= size:
        if len(found) >= MOST_CHUNKS:
            raise Refused(f"{path}: more than {MOST_CHUNKS:,} chunks of WAV")
        file.seek(place)
        name, count = struct.unpack("<4sI", file.read(8))
        place += 8
        data = b"" if name == b"data" else file.read(min(count, MOST_BYTES))
        if name == b"ds64" and len(data) >= 16:
            long = int.from_bytes(data[8:16], "little")
        if name == b"data":
            count = length_of(count, size - place, long)
        found.append(Chunk(name, place, count, data))
        place += count + count % 2
    return found


def length_of(count: int, rest: int, long: int | None) -> int:
    """Returns the bytes of samples by a length of 32 bits, the rest of the file, and the length in ds64."""
    if count == UNKNOWN and long is not None:
        count = long
    return rest if count in (0, UNKNOWN) or count > rest or rest - count >= WORD else count


def form_of(path: pathlib.Path, chunk: Chunk) -> tuple[str, float]:
    """Returns form and rate of a chunk `fmt`."""
    where = f"{path}: WAV, byte {chunk.begins}"
    if len(chunk.data) < 16:
        raise Refused(f"{where}: a chunk 'fmt' of {len(chunk.data)} bytes, and 16 are needed")
    kind, channels, rate, _, _, bits = struct.unpack("<HHIIHH", chunk.data[:16])
    if kind == EXTENDED and len(chunk.data) >= 26:
        (kind,) = struct.unpack("<H", chunk.data[24:26])
    if channels != 2:
        raise Refused(f"{where}: channels {channels}, and I and Q are two")
    if (kind, bits) not in FORMS:
        raise Refused(f"{where}: format {kind} of {bits} bits: integers of 8 or 16 bits, or floats of 32, are read")
    if rate == 0:
        raise Refused(f"{where}: 0 samples per second")
    return FORMS[kind, bits], rate


def auxiliary(data: bytes) -> tuple[float, float | None]:
    """Returns the centre in hertz and the seconds since 1970 of a chunk `auxi`, each if it is there."""
    if len(data) < 36:
        return 0.0, None
    year, month, _, day, hour, minute, second, thousandth = struct.unpack("<8H", data[:16])
    (centre,) = struct.unpack("<I", data[32:36])
    try:
        time = datetime.datetime(year, month, day, hour, minute, second, 1000 * thousandth, UTC)
    except (ValueError, OverflowError):
        return 0.0, None
    return (float(centre), time.timestamp()) if year in YEARS else (0.0, None)
