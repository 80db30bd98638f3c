"""What the programs answer, as frozen dataclasses: detections, identities, cells, evidence and frequency offsets.

Each has the keys of the program's JSON (docs/FORMATS.md) as fields, `to_json` for that object, and `to_row` for a line
of a table. Samples are those of the recording, 1,920,000 per second, from 0.
"""
from __future__ import annotations

from dataclasses import dataclass
from typing import Any, Optional

from . import records

STEP_HERTZ = 1_920_000 / 128 / 128  # of one phase step of lte_tune
NOT_LISTED = "not listed at "  # begins the reason of a cell that the list at the rate of its bandwidth does not have


class Answer:
    """A part of an answer."""

    def to_json(self) -> dict[str, Any]:
        """Returns the JSON object that the program wrote."""
        found: dict[str, Any] = records.to_json(self)
        return found

    def to_row(self) -> dict[str, Any]:
        """Returns the fields of one value, by name, for a table."""
        return {key: value for key, value in self.to_json().items() if not isinstance(value, (list, dict))}


@dataclass(frozen=True)
class Network(Answer):
    """A network (PLMN) of SIB1: country code of 3 digits or None, network code of 2 or 3, reserved for operator use."""

    mcc: str | None
    mnc: str
    reserved: bool


@dataclass(frozen=True)
class Message(Answer):
    """An entry of SIB1's schedule: its period in frames, and the codes of SIB-Type that it carries."""

    period: int
    sibs: tuple[int, ...]


@dataclass(frozen=True)
class Sib1(Answer):
    """SystemInformationBlockType1 (TS 36.331 section 6.2.2): q_rx in steps of 2 dBm, p_max in dBm, window in ms."""

    band: int
    barred: bool
    cell: int
    csg: bool
    csg_identity: int | None
    extension: bool
    intra: bool
    p_max: int | None
    plmns: tuple[Network, ...]
    q_offset: int | None
    q_rx: int
    scheduling: tuple[Message, ...]
    tac: int
    tag: int
    tdd: tuple[int, int] | None
    window: int

    @property
    def enodeb(self) -> int:
        """The eNodeB's number: the cell identity without its last 8 bits."""
        return self.cell >> 8

    @property
    def sector(self) -> int:
        """The cell's number within its eNodeB, 0 to 255."""
        return self.cell & 255

    @property
    def networks(self) -> tuple[str, ...]:
        """The networks as 262-02; one without a country code has that of the one before."""
        names, country = [], ""
        for network in self.plmns:
            country = network.mcc or country
            names.append(f"{country}-{network.mnc}")
        return tuple(names)


def sib1_of(value: dict[str, Any]) -> tuple[Sib1 | None, str | None]:
    """Returns SIB1, or the reason for which it was not read."""
    return (None, value["none"]) if "none" in value else (records.from_json(Sib1, value), None)


def sib1_json(sib1: Sib1 | None, reason: str | None) -> dict[str, Any]:
    """Returns SIB1, or its reason, as JSON has it."""
    return sib1.to_json() if sib1 else {"none": reason}


@dataclass(frozen=True)
class Hit(Answer):
    """A PSS detection (`lte_cli hits`): sample `t` of its useful part, identity in its group `n2`, and the measures
    `peak` (squared correlation), `energy` (of 128 samples) and `power` (of the signal); no unit but the samples'."""

    energy: int
    n2: int
    peak: int
    power: int
    t: int

    @property
    def ratio(self) -> float:
        """The part of the energy that the signal explains, 0.25 to 1."""
        return self.peak / (self.energy * self.power)


@dataclass(frozen=True)
class Scored(Answer):
    """An SSS candidate: identity group, score, and subframe (0 or 5)."""

    group: int
    score: int
    subframe: int


@dataclass(frozen=True)
class Secondary(Answer):
    """The two best SSS candidates of a detection."""

    best: Scored
    second: Scored


@dataclass(frozen=True)
class Identity(Answer):
    """A PSS detection with its identity (`lte_cli ids`): physical-layer cell identity 0 to 503, frame start `at` in
    samples, subframe (0 or 5) of the detection, and both SSS candidates."""

    at: int
    energy: int
    identity: int
    n2: int
    peak: int
    power: int
    secondary: Secondary
    subframe: int
    t: int

    @property
    def ratio(self) -> float:
        """The part of the energy that the signal explains, 0.25 to 1."""
        return self.peak / (self.energy * self.power)


@dataclass(frozen=True)
class DetectedCell(Answer):
    """A cell that is detected over many half-frames (`lte_cli ids --deep`): physical-layer cell identity 0 to 503, frame
    start `at` in samples, sample `t` of half-frame 0 and `subframe` (0 or 5) of its primary signal there, `matches` of 124
    signs, mean `ratio` of peak to energy in thousandths, and `power`, the sum over 24 reference elements."""

    at: int
    identity: int
    matches: int
    power: int
    ratio: int
    subframe: int
    t: int


@dataclass(frozen=True)
class Deep(Answer):
    """The answer of `lte_cli ids --deep`: the cells, and the number of half-frames over which they are detected."""

    cells: tuple[DetectedCell, ...]
    half_frames: int

    def to_rows(self) -> list[dict[str, Any]]:
        """Returns a row for each cell, for pandas.DataFrame."""
        return [one.to_row() for one in self.cells]


@dataclass(frozen=True)
class Cell(Answer):
    """A line of a cell list (`lte_cli search`): frame start `at` in samples, physical-layer cell identity, frame number
    `sfn`, the MIB, and SIB1 or the reason `no_sib1`; `rule` names the list where all were asked."""

    at: int
    bandwidth: str
    br: int
    duration: str
    identity: int
    ports: int
    resource: str
    sfn: int
    spare: int
    sib1: Sib1 | None = None
    no_sib1: str | None = None
    rule: str | None = None

    @classmethod
    def from_json(cls, value: dict[str, Any]) -> Cell:
        """Returns a line of the program's JSON."""
        readers = records.readers_of(cls)  # type: ignore[arg-type]
        found = {name: read(value[name]) for name, read in readers if name in value and name != "sib1"}
        found["sib1"], found["no_sib1"] = sib1_of(value["sib1"])
        return cls(**found)

    def to_json(self) -> dict[str, Any]:
        """Returns the JSON object that the program wrote."""
        found = {key: value for key, value in records.to_json(self).items() if key not in ("no_sib1", "sib1")}
        if self.rule is None:
            del found["rule"]
        return {**found, "sib1": sib1_json(self.sib1, self.no_sib1)}

    def to_row(self) -> dict[str, Any]:
        """Returns the fields of one value, with tracking area, cell, band and networks of SIB1, for a table."""
        sib1 = self.sib1
        more = {"tac": sib1 and sib1.tac, "cell": sib1 and sib1.cell, "band": sib1 and sib1.band}
        return {**super().to_row(), **more, "plmn": " ".join(sib1.networks) if sib1 else None, "no_sib1": self.no_sib1}


@dataclass(frozen=True)
class Evidence(Answer):
    """What supports a line of a list (`lte_cli evidence`): `cost` of `total` soft bits speak against the MIB, and every
    other MIB costs at least `room` more; `peak` in thousandths, `power` and `noise` sums over reference elements,
    `channel` the reference elements of each antenna port (pairs of real and imaginary part), `values` the soft values,
    `mib` and `sib1_block` hexadecimal digits."""

    at: int
    channel: tuple[tuple[tuple[int, int], ...], ...]
    cost: int
    frame: int
    frames: int
    identity: int
    mib: str | None
    noise: int
    peak: int
    phase: int
    power: int
    room: int
    sfn: int
    sib1_block: str | None
    t: int
    total: int
    values: tuple[tuple[int, int], ...]

    @property
    def share(self) -> float:
        """The cost's ratio to the total, 0 to 0.25; about 0.125 of a false detection."""
        return self.cost / self.total


@dataclass(frozen=True)
class CellEvidence(Cell, Evidence):
    """A line of one of the four lists with what supports it (`lte_cli evidence --all`): the fields of `Cell` with its `rule`,
    and those of `Evidence`."""

    @property
    def cell(self) -> Cell:
        """The line alone."""
        return Cell(**{name: getattr(self, name) for name in Cell.__dataclass_fields__})


@dataclass(frozen=True)
class Offset(Answer):
    """The frequency offset of a recording (`lte_tune tell`): the phase step `turn`, the detections, and the cells that a
    list has once it is corrected."""

    cells: int
    hits: int
    turn: int

    @property
    def hertz(self) -> float:
        """The offset in hertz, a multiple of 117.1875."""
        return self.turn * STEP_HERTZ


@dataclass(frozen=True)
class Candidate(Answer):
    """A frequency offset that `lte_tune tell` tried: coarse step, phase step `turn`, and the PSS measures of it."""

    coarse: int
    energy: int
    peak: int
    power: int
    turn: int

    @property
    def hertz(self) -> float:
        """The offset in hertz, a multiple of 117.1875."""
        return self.turn * STEP_HERTZ


@dataclass(frozen=True)
class Tuning(Answer):
    """The answer of `lte_tune tell`: the candidates that were tried, and the offset, or None without a detection."""

    candidates: tuple[Candidate, ...]
    offset: Offset | None

    @classmethod
    def from_json(cls, value: dict[str, Any]) -> Tuning:
        """Returns the answer of the program's JSON, whose key of the offset is `told`."""
        candidates, offset = value["candidates"], value["told"]
        return cls(records.typed(tuple[Candidate, ...], candidates), records.typed(Optional[Offset], offset))

    def to_json(self) -> dict[str, Any]:
        """Returns the JSON object that the program wrote."""
        return {"candidates": records.plain(self.candidates), "told": records.plain(self.offset)}
