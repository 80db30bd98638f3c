"""A survey as frozen dataclasses, which have the keys of its JSON (docs/FORMATS.md, "The survey") as fields."""
from __future__ import annotations

import datetime
import pathlib
from dataclasses import dataclass, fields
from typing import Any, Optional, Sequence

from . import foreign, records
from .answers import Answer, Sib1, sib1_json, sib1_of
from .machine import Refused


IDENTITY_ONLY = "identity-only"  # in place of the list that has a cell


@dataclass(frozen=True)
class Echo(Answer):
    """Another path: its delay in microseconds, its level in dB by the strongest one's, and the windows that have it."""

    delay: float
    level: float | None
    windows: int


@dataclass(frozen=True)
class Seen(Answer):
    """A cell in a window: its first frame there (second and sample of the file, time, frame number), level in the survey's
    unit, signal to noise in dB, frequency offset and its standard error in hertz, other paths (pairs of microseconds and
    dB), cost and total of `evidence`, MIB and SIB1 in hexadecimal digits, of a track longitude and latitude, and the
    radio's `gain` in dB: `level` and `gain` add up to the level in dBFS."""

    seconds: float
    at: int
    datetime: str | None
    sfn: int
    level: float | None
    ratio: float | None
    offset: float
    error: float
    echoes: tuple[tuple[float, float], ...]
    cost: int
    total: int
    mib: str | None
    sib1_block: str | None
    place: tuple[float, float] | None = None
    gain: float = 0.0

    @property
    def time(self) -> float | None:
        """Seconds since 1970 at which its first frame began, or None."""
        return None if self.datetime is None else timestamp(self.datetime)


@dataclass(frozen=True)
class Detected(Answer):
    """A cell in a window whose lists do not have it, detected over many half-frames (`lte_cli ids --deep`): the first frame
    (second and sample of the file, time), level in the survey's unit, `below`, by how many dB the strongest cell of the
    window is above it, the signs of 124 that match, and `gain` and `place` as those of `Seen`. Nothing else is known.
    """

    seconds: float
    at: int
    datetime: str | None
    level: float | None
    below: float | None
    matches: int
    gain: float = 0.0
    place: tuple[float, float] | None = None

    @property
    def time(self) -> float | None:
        """Seconds since 1970 at which its first frame began, or None."""
        return None if self.datetime is None else timestamp(self.datetime)

    @property
    def ratio(self) -> None:
        """Its signal to noise ratio, which is not known."""
        return None

    def to_json(self, is_placed: bool = True) -> dict[str, Any]:
        """Returns it as the survey's JSON has it; without a track it has no place."""
        return {key: value for key, value in records.to_json(self).items() if is_placed or key != "place"}


@dataclass(frozen=True)
class SurveyIdentity(Answer):
    """A cell of which the identity alone is known: no list has it, and at least two windows detect it at one place of a
    frame. `first` and `last` are seconds of the file, `level` is the maximum in the survey's unit, `below` the median in
    dB, `matches` the maximum."""

    identity: int
    first: float
    last: float
    datetime: str | None
    windows: int
    level: float | None
    below: float | None
    matches: int
    detected: tuple[Detected, ...]

    @property
    def chance(self) -> bool:
        """Whether it is probably a false detection: two windows never are."""
        return False

    @property
    def doubts(self) -> tuple[str, ...]:
        """The words of its doubts: none."""
        return ()

    @property
    def sib1(self) -> None:
        """SIB1, which was not read."""
        return None

    @property
    def rule(self) -> str:
        """What stands in place of the list that has a cell."""
        return IDENTITY_ONLY

    @property
    def ratio(self) -> None:
        """Its signal to noise ratio, which is not known."""
        return None

    @property
    def shift(self) -> None:
        """Its frequency in a scan, which detects none."""
        return None

    @property
    def frequency(self) -> None:
        """Its carrier's frequency in a scan, which detects none."""
        return None

    @property
    def strongest_place(self) -> tuple[float, float] | None:
        """Where it was strongest, of the windows that have a place and a level, else of those with a place."""
        return place_of_strongest(self.detected)

    def to_json(self, is_placed: bool = True) -> dict[str, Any]:
        """Returns it as the survey's JSON has it; with a track its windows have places."""
        return {**records.to_json(self), "detected": [one.to_json(is_placed) for one in self.detected]}


def place_of_strongest(seen: Sequence[Seen | Detected]) -> tuple[float, float] | None:
    """Returns where a cell was strongest, of the windows that have a place and a level, else of those with a place."""
    placed = [one for one in seen if one.place]
    loudest = max(placed, key=lambda one: -1e9 if one.level is None else one.level, default=None)
    return loudest.place if loudest else None


@dataclass(frozen=True)
class SurveyCell(Answer):
    """A cell of a survey: the fields of its list's line, when it was seen, and its numbers.

    `first` and `last` are seconds of the file, `level` is the maximum in the survey's unit, `ratio` the median and `ratios`
    the range in dB, `offset` in hertz and `ppm` in millionths of the carrier are those of its strongest window, `share` is
    the minimum cost by total. `chance` states whether it is probably a false detection, `doubts` has words of DOUBTS
    (columns.py). `repeats` is the number of seconds after which its frame number begins again: 0 if it is the same in every
    window, None if it runs on. For a scan `shift` is in hertz above the file's centre, `frequency` in hertz, and `earfcns`
    has pairs of band and EARFCN. `detected` are the windows of a survey with `deep` whose lists do not have it, and in which
    it is detected all the same.
    """

    identity: int
    rule: str
    rules: tuple[str, ...]
    first: float
    last: float
    datetime: str | None
    windows: int
    ports: int
    bandwidth: str
    duration: str
    resource: str
    br: int
    spare: int
    sib1: Sib1 | None
    no_sib1: str | None
    level: float | None
    ratio: float | None
    offset: float
    ppm: float | None
    echoes: tuple[Echo, ...]
    share: float
    chance: bool
    seen: tuple[Seen, ...]
    shift: float | None = None
    frequency: float | None = None
    earfcns: tuple[tuple[int, int], ...] = ()
    ratios: tuple[float, float] | None = None
    repeats: float | None = None
    doubts: tuple[str, ...] = ()
    detected: tuple[Detected, ...] = ()

    @classmethod
    def from_json(cls, value: dict[str, Any]) -> SurveyCell:
        """Returns a cell of the survey's JSON, which the schema has accepted."""
        sib1, reason = sib1_of(value["sib1"])
        kinds: dict[str, Any] = {"rules": tuple[str, ...], "echoes": tuple[Echo, ...], "seen": tuple[Seen, ...]}
        kinds |= {
            "earfcns": tuple[tuple[int, int], ...],
            "ratios": Optional[tuple[float, float]],
            "doubts": tuple[str, ...],
            "detected": tuple[Detected, ...],
        }
        found: dict[str, Any] = {one.name: value[one.name] for one in fields(cls) if one.name in value}
        found |= {key: records.typed(kind, found[key]) for key, kind in kinds.items() if key in found}
        found["sib1"], found["no_sib1"] = sib1, reason
        return cls(**found)

    def to_json(self, is_placed: bool = False, is_deep: bool = False) -> dict[str, Any]:
        """Returns the cell as the survey's JSON has it: with a track its windows have places, and if `deep` was asked it
        has `detected`."""
        found = {key: value for key, value in records.to_json(self).items() if key not in ("no_sib1", "sib1")}
        del found["detected"]
        if is_deep:
            found["detected"] = [one.to_json(is_placed) for one in self.detected]
        if self.shift is None:
            for key in ("shift", "frequency", "earfcns"):
                del found[key]
        for one in found["seen"] if not is_placed else ():
            del one["place"]
        return {**found, "sib1": sib1_json(self.sib1, self.no_sib1)}

    def to_row(self) -> dict[str, Any]:
        """Returns the fields of one value, with those of SIB1, for a table."""
        sib1 = self.sib1
        more = {"tac": sib1 and sib1.tac, "cell": sib1 and sib1.cell, "band": sib1 and sib1.band}
        return {**super().to_row(), **more, "plmn": " ".join(sib1.networks) if sib1 else None, "no_sib1": self.no_sib1}

    @property
    def echo(self) -> Echo | None:
        """The path that most windows have, of equals the strongest."""
        return max(self.echoes, key=lambda one: (one.windows, one.level or 0)) if self.echoes else None

    @property
    def has_mib(self) -> bool:
        """Whether its MIB is probably no false one."""
        return not self.chance and "mib" not in self.doubts

    @property
    def strongest_place(self) -> tuple[float, float] | None:
        """Where it was strongest, of the windows that have a place and a level, else of those with a place."""
        return place_of_strongest(self.seen)


@dataclass(frozen=True)
class Track(Answer):
    """A track: times of its first and last place, their count, and of each window second, longitude and latitude."""

    first: str
    last: str
    places: int
    windows: tuple[tuple[float, float, float], ...]


@dataclass(frozen=True)
class Part(Answer):
    """One of several files, or captures of SigMF, in the order of time: the second of the survey at which it begins, its
    length in seconds, the time of its first sample, and the seconds that are missing in front of it, None if not known.
    """

    file: str
    first: float
    seconds: float
    datetime: str | None
    missing: float | None


@dataclass(frozen=True)
class Gap(Answer):
    """Missing samples: the seconds of the file between which they are missing, and their number at the file's rate, modulo
    10.24 s. A radio that was restarted has such a gap too."""

    first: float
    last: float
    samples: int


@dataclass(frozen=True)
class Power(Answer):
    """The power of a window that begins at `seconds`, in the survey's unit: of all samples without DC, and of the noise
    floor in 15 kHz; None where all samples are one. `gain` is that of `Seen`."""

    seconds: float
    total: float | None
    noise: float | None
    gain: float = 0.0


@dataclass(frozen=True)
class Step(Answer):
    """A step of the radio's gain, by which the noise and all cells are stronger from a second of the file on, in dB."""

    seconds: float
    decibels: float


@dataclass(frozen=True)
class Spectrum(Answer):
    """The power of a file over frequency: `levels` in dBFS in 15 kHz, the first at `first` hertz, the others `step` hertz
    apart. Frequencies are above the file's centre where that is not known."""

    first: float
    step: float
    levels: tuple[float, ...]


@dataclass(frozen=True)
class Scan(Answer):
    """The frequencies of a scan: first and last in hertz, or above the centre where that is not known, the count, and the
    file's spectrum."""

    first: float
    last: float
    count: int
    spectrum: Optional[Spectrum] = None


@dataclass(frozen=True)
class Live(Answer):
    """A survey of a pipe: windows that were skipped, lines that were forgotten, and seconds behind at most."""

    skipped: int
    forgotten: int
    behind: float


@dataclass(frozen=True)
class Survey(Answer):
    """A survey: the file's name, time, form, rate in samples per second and length in seconds, the windows that were
    looked at, the frequency offsets that were found (pairs of a second and hertz), and the cells.

    `shift` is where the cells stand in hertz above the file's centre, `carrier` their frequency in hertz, `rate_error` in
    millionths, `unit` that of levels, `spoiled` the seconds of windows without numbers, `hint` what may be wrong. Levels
    are those at the gain of the first window, where the radio's gain has `steps`. `identities` are the cells of which the
    identity alone is known, None if they were not asked for (`deep`).
    """

    file: str
    datetime: str | None
    form: str
    exchanged: bool
    rate: float
    rate_error: float
    shift: float
    carrier: float | None
    unit: str
    seconds: float
    window: float
    every: float
    windows: int
    spoiled: tuple[float, ...]
    hint: str | None
    offsets: tuple[tuple[float, float], ...]
    cells: tuple[SurveyCell, ...]
    track: Track | None = None
    scan: Scan | None = None
    live: Live | None = None
    gaps: tuple[Gap, ...] = ()
    powers: tuple[Power, ...] = ()
    steps: tuple[Step, ...] = ()
    parts: tuple[Part, ...] = ()
    identities: Optional[tuple[SurveyIdentity, ...]] = None

    @classmethod
    def read(cls, path: pathlib.Path) -> Survey:
        """Returns the survey that lte_survey --json wrote into a file; refuses another file."""
        return cls.from_json(foreign.parsed(foreign.read(path, foreign.MOST_JSON), str(path)), str(path))

    @classmethod
    def from_json(cls, value: Any, name: str = "survey") -> Survey:
        """Returns the survey of a JSON value; `name` is that of its file in a refusal."""
        foreign.check(value, "survey", name)
        found = records.from_json(cls, value)
        times = [found.datetime, *(one.datetime for one in found.parts), *(line.datetime for line in found.lines)]
        for text in [*times, *(one.datetime for line in found.lines for one in every_seen(line))]:
            try:
                if text is not None:
                    timestamp(text)
            except (ValueError, OverflowError):
                raise Refused(f"{name}: {text!r} is not a time") from None
        return found

    def to_json(self, has_windows: bool = True) -> dict[str, Any]:
        """Returns the survey's JSON, or that without single windows."""
        found: dict[str, Any] = {one.name: records.plain(getattr(self, one.name)) for one in fields(self)}
        is_placed, is_deep = self.track is not None, self.identities is not None
        found["cells"] = [cell.to_json(is_placed, is_deep) for cell in self.cells]
        found["identities"] = [one.to_json(is_placed) for one in self.identities or ()] if is_deep else None
        for key in ("track", "scan", "live", "parts", "identities"):
            if found[key] is None or found[key] == [] and key == "parts":
                del found[key]
        if not has_windows:
            for line in [*found["cells"], *found.get("identities", [])]:
                line.pop("seen", None)
                line.pop("detected", None)
            del found["powers"]
            found.get("track", {}).pop("windows", None)
        return found

    def to_rows(self) -> list[dict[str, Any]]:
        """Returns a row for each cell, for pandas.DataFrame."""
        return [cell.to_row() for cell in self.cells]

    @property
    def lines(self) -> tuple[SurveyCell | SurveyIdentity, ...]:
        """The cells that a list has, then those of which the identity alone is known."""
        return (*self.cells, *(self.identities or ()))

    @property
    def is_placed(self) -> bool:
        """Whether a window has a place."""
        return self.track is not None and bool(self.track.windows)

    @property
    def has_chance(self) -> bool:
        """Whether a cell is probably a false detection."""
        return any(cell.chance for cell in self.cells)


def every_seen(line: SurveyCell | SurveyIdentity) -> tuple[Seen | Detected, ...]:
    """Returns what is known of a cell in each of its windows: first in those that list it, then in those that detect it."""
    return (*line.seen, *line.detected) if isinstance(line, SurveyCell) else line.detected


def timestamp(text: str) -> float:
    """Returns the seconds since 1970 of a time; one without a zone is UTC."""
    time = datetime.datetime.fromisoformat(text)
    return (time if time.tzinfo else time.replace(tzinfo=datetime.timezone.utc)).timestamp()
