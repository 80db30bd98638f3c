"""A receiver's list of cells in one form, whoever wrote it: what lte_compare holds against our list.

Our own list comes from a survey, in one place: `of_recording` lists a recording, and `of_survey` turns a survey into
cells. A reader of another receiver's output returns `Listed` cells too (compare_forms.py).
"""
from __future__ import annotations

import dataclasses
import re
import statistics
from dataclasses import dataclass
from typing import Iterable, NamedTuple, Sequence, Union

from . import bands, foreign, programs, same_cell
from .machine import Refused
from .options import SurveyOptions
from .survey_data import Detected, Seen, Survey, SurveyCell, SurveyIdentity, timestamp

FRAME = 0.01  # seconds (TS 36.211 section 4.1)
FRAMES = 1024  # frame numbers (TS 36.331 section 6.2.2, MIB and its two bits by position)
GROUPS, MEMBERS = 168, 3  # identity groups, and identities in a group (TS 36.211 section 6.11)
WIDTHS = {1.4: 6, 3: 15, 5: 25, 10: 50, 15: 75, 20: 100}  # MHz and resource blocks (TS 36.101 table 5.6-1)
SINCE_1970 = 1e8  # seconds above which a time is no second of a recording
MOST_CELLS = 500_000  # lines of a list
MEDIAN, STRONGEST, PRIMARY = "median", "strongest", "pss"  # what a list's level is
# the values of Ng (TS 36.331 section 6.2.2) and their other names
RESOURCES = {
    "oneSixth": ("1/6", "onesixth", "sixth", "0", "0.166667", "0.1667", "0.17"),
    "half": ("1/2", "half", "0.5"),
    "one": ("1", "one", "1.0"),
    "two": ("2", "two", "2.0"),
}
NORMAL, EXTENDED = "normal", "extended"


class BadValue(Exception):
    """What is wrong with a value of a list."""


class Frame(NamedTuple):
    """The number of a frame, and the second of the recording at which it begins, or None. With `is_coarse` the number is the
    MIB's eight bits alone: a fourth of the frame number, rounded down."""

    number: int
    seconds: float | None
    is_coarse: bool = False


class Level(NamedTuple):
    """A level in dB of some reference, and the second of the recording at which it was measured, or seconds since 1970 (above
    SINCE_1970), or None."""

    decibels: float
    seconds: float | None = None


@dataclass(frozen=True)
class Listed:
    """A cell of a receiver's list; fields that the list does not have are None or empty.

    `places` say where in the list the cell is, `identity` is the physical-layer cell identity, `frequency` in hertz,
    `blocks` the resource blocks, `start` the second modulo 10 ms at which a frame begins, `plmns` networks as 262-02,
    `levels` are of the `kind` MEDIAN, STRONGEST or PRIMARY. `own` is the line of our survey. `time` is seconds since 1970.
    """

    places: tuple[str, ...] = ()
    identity: int | None = None
    frequency: float | None = None
    blocks: int | None = None
    ports: int | None = None
    prefix: str | None = None
    duration: str | None = None
    resource: str | None = None
    plmns: tuple[str, ...] = ()
    tac: int | None = None
    cell: int | None = None
    band: int | None = None
    start: float | None = None
    frames: tuple[Frame, ...] = ()
    levels: tuple[Level, ...] = ()
    kind: str = MEDIAN
    time: float | None = None
    own: Union[SurveyCell, SurveyIdentity, None] = None

    @property
    def level(self) -> float | None:
        """The median of its levels; of STRONGEST the maximum."""
        values = [one.decibels for one in self.levels]
        if not values:
            return None
        return max(values) if self.kind == STRONGEST else statistics.median(values)

    @property
    def name(self) -> str:
        """How messages name the cell."""
        if self.identity is not None:
            return f"PCI {self.identity}"
        return f"cell {self.cell}" if self.cell is not None else "a cell without identity"


@dataclass(frozen=True)
class CellList:
    """A list: the file's name, the form (compare_forms.py), its cells, and the `unit` of levels, if it is stated. With
    `is_measurements` several lines of one cell are measurements of it."""

    name: str
    form: str
    cells: tuple[Listed, ...]
    unit: str | None = None
    is_measurements: bool = False
    carriers: tuple[float, float] | None = None  # hertz: the first and the last that was looked at
    begin: float | None = None  # seconds since 1970


# ---- values, each checked


def whole(text: str, most: int, name: str) -> int:
    """Returns a whole number from 0 to `most`, decimal or hexadecimal with 0x; 5501.0 is 5501."""
    text = text.strip().strip("'\"")
    if re.fullmatch(r"0[xX][0-9a-fA-F]{1,16}", text):
        value = int(text, 16)
    elif found := re.fullmatch(r"([0-9]{1,18})([.,]0*)?", text):
        value = int(found[1])
    else:
        raise BadValue(f"{name}: {foreign.shown(text)} is not a whole number")
    if value > most:
        raise BadValue(f"{name}: {value} is not between 0 and {most}")
    return value


def real(text: str, low: float, high: float, name: str) -> float:
    """Returns a number between two bounds, with a point or a comma."""
    text = text.strip().strip("'\"")
    if not re.fullmatch(r"[-+]?([0-9]{1,18}([.,][0-9]*)?|[.,][0-9]+)([eE][-+]?[0-9]{1,2})?", text):
        raise BadValue(f"{name}: {foreign.shown(text)} is not a number")
    value = float(text.replace(",", "."))
    if not low <= value <= high:
        raise BadValue(f"{name}: {foreign.shown(text)} is not between {low:g} and {high:g}")
    return value


def identity_of(text: str) -> int:
    """Returns a physical-layer cell identity."""
    return whole(text, GROUPS * MEMBERS - 1, "identity")


def joined_identity(group: int, member: int) -> int:
    """Returns the identity of a group N1 and a member N2 (TS 36.211 section 6.11)."""
    if group >= GROUPS or member >= MEMBERS:
        raise BadValue(f"identity: N1 {group}, N2 {member} are not below {GROUPS} and {MEMBERS}")
    return MEMBERS * group + member


def blocks_of(text: str) -> int:
    """Returns the resource blocks of a width: 50, n50, 50 PRB, or 10 MHz."""
    found = re.fullmatch(r"n?([0-9]{1,3}(?:\.[0-9]{1,3})?)(?:\.0)?\s*(prb|rb|mhz|m)?s?", text.strip().lower())
    value, unit = (float(found[1]), found[2]) if found else (0.0, None)
    is_megahertz = unit in ("mhz", "m") or unit is None and "n" not in text and value in (1.4, 3, 5, 10, 20)
    if is_megahertz and value in WIDTHS:
        return WIDTHS[value]
    if unit in (None, "prb", "rb") and value in WIDTHS.values():
        return int(value)
    raise BadValue(f"width: {foreign.shown(text)} is not a bandwidth of LTE")


def prefix_of(text: str) -> str:
    """Returns the cyclic prefix: normal or extended."""
    word = text.strip().lower()
    if word in ("n", "normal", "short", "0"):
        return NORMAL
    if word in ("e", "ext", "extended", "long", "1"):
        return EXTENDED
    raise BadValue(f"prefix: {foreign.shown(text)} is not normal or extended")


def duration_of(text: str) -> str:
    """Returns the PHICH duration: normal or extended."""
    try:
        return prefix_of(text)
    except BadValue:
        raise BadValue(f"PHICH: {foreign.shown(text)} is not normal or extended") from None


def resource_of(text: str) -> str:
    """Returns the PHICH resource Ng by its name."""
    word = re.sub(r"[\s_-]", "", text.lower())
    for name, others in RESOURCES.items():
        if word in others:
            return name
    raise BadValue(f"PHICH: {foreign.shown(text)} is not 1/6, 1/2, 1 or 2")


def indexed_resource(text: str) -> str:
    """Returns the PHICH resource of its index (TS 36.331 section 6.2.2): 0 to 3."""
    return list(RESOURCES)[whole(text, 3, "PHICH")]


def ports_of(text: str) -> int:
    """Returns the antenna ports: 1, 2 or 4."""
    value = whole(text, 4, "ports")
    if value not in (1, 2, 4):
        raise BadValue(f"ports: {value} is not 1, 2 or 4")
    return value


def carrier_of(earfcn: str) -> float | None:
    """Returns the hertz of a carrier's number, None of one that no FDD downlink has."""
    return bands.frequency_of(whole(earfcn, 262_143, "earfcn"))


def hertz_of(text: str) -> float:
    """Returns the hertz of a frequency in hertz or with a unit; a number below 10,000 is in MHz."""
    found = re.fullmatch(r"\s*([0-9.,eE+]+)\s*([kKmMgG]?)(?:[hH][zZ])?\s*", text)
    if not found:
        raise BadValue(f"frequency: {foreign.shown(text)} is not a frequency")
    value = real(found[1], 0, 1e12, "frequency")
    unit = {"": 1.0, "k": 1e3, "m": 1e6, "g": 1e9}[found[2].lower()]
    value *= 1e6 if not found[2] and value < 10_000 else unit
    if not 1e8 <= value <= 1e10:
        raise BadValue(f"frequency: {foreign.shown(text)} is not between 100 MHz and 10 GHz")
    return value


def network_of(country: str, network: str) -> str:
    """Returns a network as 262-02, of numbers that may have lost their zeros."""
    mcc, mnc = country.strip().strip("'\""), network.strip().strip("'\"")
    mcc, mnc = (re.sub(r"[.,]0*$", "", one) for one in (mcc, mnc))
    if not re.fullmatch(r"[0-9]{1,3}", mcc) or not re.fullmatch(r"[0-9]{1,3}", mnc):
        raise BadValue(f"plmn: {foreign.shown(country)}, {foreign.shown(network)} is not a network")
    return f"{mcc.zfill(3)}-{mnc.zfill(2)}"


def networks_of(text: str) -> tuple[str, ...]:
    """Returns the networks of a text such as 262-02, 26202, or several with spaces between them."""
    found = []
    for word in text.replace(",", " ").replace("/", " ").split():
        match = re.fullmatch(r"([0-9]{3})-?([0-9]{2,3})", word)
        if not match:
            raise BadValue(f"plmn: {foreign.shown(word)} is not a network such as 262-02")
        found.append(f"{match[1]}-{match[2]}")
    return tuple(found)


def is_same_network(one: str, other: str) -> bool:
    """Returns whether two networks are one, where a number may have lost its zeros."""
    return [int(part) for part in one.split("-")] == [int(part) for part in other.split("-")]


def cell_of(text: str) -> int:
    """Returns a cell identity of 28 bits, of one number or of eNodeB and sector (107216-1)."""
    if found := re.fullmatch(r"\s*([0-9]{1,7})\s*[-/:]\s*([0-9]{1,3})\s*", text):
        return 256 * whole(found[1], 2**20 - 1, "eNodeB") + whole(found[2], 255, "sector")
    return whole(text, 2**28 - 1, "cell")


def level_of(text: str) -> float:
    """Returns a level in dB."""
    return real(re.sub(r"\s*dBm?$", "", text.strip(), flags=re.I), -300, 100, "level")


# ---- our own list


def of_recording(given: SurveyOptions) -> Survey:
    """Returns our list of a recording: the only place in which one is made."""
    return programs.surveyed(given)


def of_survey(survey: Survey, name: str | None = None) -> CellList:
    """Returns the cells of a survey; lines that are one cell are one, and false detections are left out."""
    lines = [*same_cell.lines_of(survey), *same_cell.identities_of(survey)]
    cells = tuple(listed_of(one, survey) for one in lines)
    carriers = (survey.carrier, survey.carrier) if survey.carrier is not None else None
    if survey.scan:
        carriers = (survey.scan.first, survey.scan.last) if survey.carrier is not None else None
    begin = timestamp(survey.datetime) if survey.datetime else None
    return CellList(name or survey.file, "ours", cells, survey.unit, True, carriers, begin)


def listed_of(lines: same_cell.Lines, survey: Survey) -> Listed:
    """Returns a cell of our survey."""
    line, sib1 = lines.cells[0], lines.sib1
    place = (f"PCI {line.identity} at {line.first:.2f} s",)
    if isinstance(line, SurveyIdentity):
        found = Listed(place, line.identity, lines.frequency, own=line)
        levels = [Level(one.level, one.seconds) for one in line.detected if one.level is not None]
        return dataclasses.replace(found, levels=tuple(levels), start=second_of(line.detected[0], survey) % FRAME)
    seen = sorted(lines.seen, key=lambda one: one.seconds)
    return Listed(
        places=place,
        identity=line.identity,
        frequency=lines.frequency,
        blocks=blocks_of(line.bandwidth),
        ports=line.ports,
        prefix=EXTENDED if line.rule == "long-prefix" else NORMAL,
        duration=line.duration,
        resource=line.resource,
        plmns=sib1.networks if sib1 else (),
        tac=sib1.tac if sib1 else None,
        cell=sib1.cell if sib1 else None,
        band=sib1.band if sib1 else None,
        start=second_of(seen[0], survey) % FRAME if seen else None,
        frames=tuple(Frame(one.sfn, second_of(one, survey)) for one in seen),
        levels=tuple(Level(one.level, one.seconds) for one in seen if one.level is not None),
        time=seen[0].time if seen else None,
        own=line,
    )


def second_of(one: Seen | Detected, survey: Survey) -> float:
    """Returns the second at which a window's first frame begins, by its sample where the file is one."""
    by_sample = one.at / survey.rate
    return by_sample if abs(by_sample - one.seconds) < 1e-3 else one.seconds


# ---- lines of one cell


def merged(cells: Sequence[Listed]) -> Listed:
    """Returns measurements of one cell as one: of each field the value that most of them have, and all levels."""
    first = cells[0]
    fields = ("frequency", "blocks", "ports", "prefix", "duration", "resource", "tac", "cell", "band", "start", "time")
    found = {name: most_frequent(getattr(one, name) for one in cells) for name in fields}
    plmns = max((one.plmns for one in cells), key=len)
    return dataclasses.replace(
        first,
        **found,
        plmns=plmns,
        places=tuple(place for one in cells for place in one.places),
        frames=tuple(frame for one in cells for frame in one.frames),
        levels=tuple(level for one in cells for level in one.levels),
    )


def most_frequent(values: Iterable[object]) -> object:
    """Returns the value that is there most often, of equals the first; None if there is none."""
    known = [one for one in values if one is not None]
    return statistics.mode(known) if known else None


def measured(cells: Sequence[Listed]) -> tuple[Listed, ...]:
    """Returns a list of measurements with one line for each identity, cell identity and carrier."""
    found: dict[tuple[object, ...], list[Listed]] = {}
    cell_by_identity: dict[tuple[object, ...], int] = {}
    for one in cells:
        if one.cell is not None:
            cell_by_identity.setdefault((one.identity, one.frequency), one.cell)
    for one in cells:
        place = one.identity, one.frequency
        cell = one.cell if one.cell is not None else cell_by_identity.get(place)
        found.setdefault((*place, cell), []).append(one)
    return tuple(merged(lines) for lines in found.values())


def limited(cells: Sequence[Listed], name: str, form: str) -> tuple[Listed, ...]:
    """Returns the cells of a list; refuses one without a cell, or with too many lines."""
    if not cells:
        raise Refused(f"{name}: no cell in it, read as {form}")
    if len(cells) > MOST_CELLS:
        raise Refused(f"{name}: {cells[MOST_CELLS].places[0]}: more than {MOST_CELLS:,} lines of cells")
    return tuple(cells)
