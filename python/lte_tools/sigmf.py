"""SigMF: what a .sigmf-meta file, or an archive of it and its data, says of samples."""
from __future__ import annotations

import datetime
import pathlib
import tarfile
from typing import Any, NamedTuple

from . import foreign
from .machine import Refused

DATATYPES = {"cu8": "u8", "ci8": "s8", "ci16_le": "s16", "cf32_le": "f32"}
READ = "cu8, ci8, ci16_le, cf32_le"
MOST_BYTES = 16_000_000  # of a .sigmf-meta file
MOST_MEMBERS = 10_000  # of an archive
MOST_CHANNELS = 1_024
FASTEST = 1e12  # samples per second, and hertz


class Capture(NamedTuple):
    """From this sample on the radio was tuned to this frequency in hertz, 0 if it is not known; `stream_index` is the number of
    the sample in the radio's own stream."""

    first: int
    centre: float
    datetime: str | None
    stream_index: int | None = None

    @property
    def time(self) -> float | None:
        """Seconds since 1970 of the first sample, or None. A time without a zone is UTC."""
        if self.datetime is None:
            return None
        time = datetime.datetime.fromisoformat(self.datetime)
        return (time if time.tzinfo else time.replace(tzinfo=datetime.timezone.utc)).timestamp()


class Meta(NamedTuple):
    """Where samples are, and what is said of them."""

    data: pathlib.Path
    form: str
    rate: float
    channels: int
    captures: list[Capture]
    begins: int = 0  # bytes before the samples
    size: int = 0  # bytes of the samples in an archive
    is_archive: bool = False


class NoMeta(Exception):
    """A text does not meet SigMF's requirements."""


def read(path: pathlib.Path) -> Meta:
    """Returns what is said of samples, by the name of either file, or of the archive."""
    return of_archive(path) if path.suffix == ".sigmf" else of_pair(path)


def of_pair(path: pathlib.Path) -> Meta:
    if not path.name:
        raise Refused(f"{path}: a directory: name the .sigmf-meta file")
    meta, data = path.with_suffix(".sigmf-meta"), path.with_suffix(".sigmf-data")
    return of_text(meta, foreign.read(meta, MOST_BYTES), data)


def of_archive(path: pathlib.Path) -> Meta:
    """Returns the meta data of an archive, which is read in place: its data are one run of bytes."""
    try:
        with tarfile.open(path, "r:") as archive:
            members = members_of(path, archive)
            metas = [one for one in members if one.name.endswith(".sigmf-meta")]
            data = [one for one in members if one.name.endswith(".sigmf-data")]
            if (len(metas), len(data)) != (1, 1):
                raise Refused(f"{path}: {len(metas)} files .sigmf-meta and {len(data)} .sigmf-data, not one of each")
            file = archive.extractfile(metas[0])
            if file is None or data[0].sparse is not None:
                raise Refused(f"{path}: not a SigMF archive: a file in it is not stored whole")
            with file:
                text = file.read(MOST_BYTES + 1)
    except (tarfile.TarError, ValueError, OverflowError, EOFError, RecursionError):
        raise Refused(f"{path}: not a SigMF archive") from None
    if len(text) > MOST_BYTES:
        raise Refused(f"{path}: a .sigmf-meta of more than {MOST_BYTES:,} bytes")
    if data[0].offset_data + data[0].size > path.stat().st_size:
        raise Refused(f"{path}: its .sigmf-data ends behind the archive's end: it was cut")
    meta = of_text(path, text, path)
    return meta._replace(begins=data[0].offset_data, size=data[0].size, is_archive=True)


def members_of(path: pathlib.Path, archive: tarfile.TarFile) -> list[tarfile.TarInfo]:
    """Returns the regular files of an archive."""
    found = []
    for count, one in enumerate(archive):
        if count >= MOST_MEMBERS:
            raise Refused(f"{path}: more than {MOST_MEMBERS:,} files in it")
        if one.isfile():
            found.append(one)
    return found


def of_text(path: pathlib.Path, text: bytes, data: pathlib.Path) -> Meta:
    """Returns what a .sigmf-meta text says; `data` is the file of the samples."""
    found = foreign.parsed(text, str(path))
    try:
        whole, captures = object_of(found, "global"), list_of(found, "captures") or [{}]
        if any(isinstance(one, dict) and one.get("core:header_bytes") for one in captures) or "core:dataset" in whole:
            raise Refused(f"{path}: samples of another file or behind headers are not read")
        form = form_of(path, whole["core:datatype"])
        rate, channels = whole["core:sample_rate"], whole.get("core:num_channels", 1)
        stretches = [capture_of(path, number, one) for number, one in enumerate(captures)]
    except (NoMeta, KeyError):
        raise Refused(f"{path}: no datatype, rate and captures of SigMF in it") from None
    if not is_number(rate) or rate <= 0 or not is_count(channels) or not 1 <= channels <= MOST_CHANNELS:
        raise Refused(
            f"{path}: rate {foreign.shown(rate)}, channels {foreign.shown(channels)}: a rate above 0 and a count are needed"
        )
    if any(later.first <= before.first for before, later in zip(stretches, stretches[1:])):
        raise Refused(f"{path}: captures that do not follow one another")
    return Meta(data, form, float(rate) if rate != int(rate) else int(rate), channels, stretches)


def object_of(found: Any, key: str) -> dict[str, Any]:
    value = found.get(key) if isinstance(found, dict) else None
    if not isinstance(value, dict):
        raise NoMeta(key)
    return value


def list_of(found: dict[str, Any], key: str) -> list[Any]:
    value = found.get(key)
    if value is not None and not isinstance(value, list):
        raise NoMeta(key)
    return value or []


def form_of(path: pathlib.Path, datatype: Any) -> str:
    """Returns the form of a datatype."""
    form = DATATYPES.get(datatype) if isinstance(datatype, str) else None
    if form is None:
        raise Refused(f"{path}: datatype {foreign.shown(datatype).strip(chr(39))}: only {READ} are read")
    return form


def is_count(value: Any) -> bool:
    return isinstance(value, int) and not isinstance(value, bool)


def is_number(value: Any) -> bool:
    """Returns whether a value is a number of samples per second or of hertz."""
    return isinstance(value, (int, float)) and not isinstance(value, bool) and -FASTEST <= value <= FASTEST


def capture_of(path: pathlib.Path, number: int, value: Any) -> Capture:
    """Returns a capture, the one of this number."""
    where = f"{path}: captures[{number}]"
    if not isinstance(value, dict):
        raise Refused(f"{where}: {foreign.shown(value)} is not an object")
    first, centre = value.get("core:sample_start", 0), value.get("core:frequency", 0)
    if not is_count(first) or not 0 <= first < 2**62:
        raise Refused(f"{where}: core:sample_start {foreign.shown(first)} is not a sample's number")
    if not is_number(centre) or centre < 0:
        raise Refused(f"{where}: core:frequency {foreign.shown(centre)} is not a number of hertz")
    time, index = value.get("core:datetime"), value.get("core:global_index")
    if time is not None and not is_time(time):
        raise Refused(f"{where}: core:datetime {foreign.shown(time)} is not a time such as 2026-05-01T10:00:00.000Z")
    if index is not None and (not is_count(index) or not 0 <= index < 2**62):
        raise Refused(f"{where}: core:global_index {foreign.shown(index)} is not a sample's number")
    return Capture(first, centre, time, index)


def is_time(text: Any) -> bool:
    """Returns whether it is a time as SigMF writes it, from which some years on are in the calendar too."""
    try:
        return isinstance(text, str) and 1 < datetime.datetime.fromisoformat(text).year < 9_000
    except ValueError:
        return False
