"""A plan of cells, and how a survey differs from it: wrong identity or area, not planned, not heard, identity in use twice.

The plan is a CSV file with a head line, in any order and with any further columns: `identity` (or `pci`), and as far as they
are known `name`, `cell` (of 28 bits, or `enodeb` and `sector`), `tac`, `plmn` (262-02 or 26202), `earfcn`, `lat` and `lon`.
NAMES has other names that are read for these.
A cell whose SIB1 was read is looked for in the plan by its cell identity, and by its network where the plan has one; another
one by its physical-layer identity alone, but is no planned cell whose SIB1 was read with another identity. Two sectors of an
eNodeB are exchanged if one has the planned identity of the other, and its own is detected too.
"""
from __future__ import annotations

import codecs
import csv
import dataclasses
import io
import math
import pathlib
import re
from dataclasses import dataclass
from typing import Iterator, NamedTuple, Sequence

from . import bands, foreign
from .answers import Answer
from .columns import Column
from .ground import distance
from .machine import Refused
from .same_cell import Lines, identities_of, lines_of
from .survey_data import Survey

MOST_BYTES = 64_000_000
MOST_CELLS = 500_000
UTF_16 = (codecs.BOM_UTF16_LE, codecs.BOM_UTF16_BE)  # as spreadsheets write text with tabs
# other names of columns, without the spaces, hyphens and underscores in them
NAMES = {
    "pci": "identity",
    "physicalcellid": "identity",
    "physicalcellidentity": "identity",
    "latitude": "lat",
    "longitude": "lon",
    "long": "lon",
    "site": "name",
    "sitename": "name",
    "cellname": "name",
    "eci": "cell",
    "enb": "enodeb",
    "enbid": "enodeb",
    "enodebid": "enodeb",
    "sectorid": "sector",
    "localcellid": "sector",
    "trackingareacode": "tac",
    "earfcndl": "earfcn",
    "dlearfcn": "earfcn",
    "downlinkearfcn": "earfcn",
}
RANGES = {"identity": 503, "cell": 2**28 - 1, "enodeb": 2**20 - 1, "sector": 255, "tac": 65_535, "earfcn": 262_143}
# words of a finding, the gravest first, and what they mean
FINDINGS = {
    "wrong-identity": "the planned cell has another physical-layer identity",
    "exchanged": "probably this planned cell, without SIB1: a sector of its eNodeB has its planned identity, and it has that one's",
    "wrong-area": "the planned cell has another tracking area",
    "reuse": "another cell of the survey has this physical-layer identity too",
    "not-planned": "the plan does not have this cell",
    "not-heard": "no window lists or detects this planned cell",
    "identity-only": "a planned cell has this identity; SIB1 was not read, or the plan has no cell identity",
    "as-planned": "identity and tracking area are as planned",
}


class Planned(NamedTuple):
    """A planned cell: its line in the file, name, physical-layer identity, cell identity, tracking area, network as 262-02,
    carrier in hertz, longitude and latitude; what the plan does not have is None."""

    line: int
    name: str | None
    identity: int
    cell: int | None
    tac: int | None
    network: str | None
    frequency: float | None
    place: tuple[float, float] | None


# ---- the file


class BadLine(Exception):
    """What is wrong with a line of a plan."""


def read(path: pathlib.Path) -> list[Planned]:
    """Returns the cells of a plan; refuses a file that is none."""
    text = text_of(foreign.read(path, MOST_BYTES))
    rows = csv.reader(io.StringIO(text, newline=""), delimiter=foreign.delimiter_of(text))
    try:
        names = [column_of(name) for name in next(rows, [])]
        if "identity" not in names:
            raise BadLine("no column identity or pci: the first line is identity,cell,tac,lat,lon or the like")
        if twice := next((name for name in names if name in (*RANGES, "lat", "lon") and names.count(name) > 1), None):
            raise BadLine(f"the column {twice} is there twice")
        found = [planned_of(rows.line_num, dict(zip(names, row))) for row in limited(rows) if any(map(str.strip, row))]
    except csv.Error as fault:
        raise Refused(f"{path}: line {rows.line_num}: not CSV: {fault}") from None
    except BadLine as fault:
        raise Refused(f"{path}: line {rows.line_num}: {fault}") from None
    if not found:
        raise Refused(f"{path}: no cell in it")
    return found


def text_of(data: bytes) -> str:
    """Returns the text of a plan in UTF-16 with its mark, in UTF-8, or as spreadsheets of Windows write it."""
    if data.startswith(UTF_16):
        return data.decode("utf-16", errors="replace")
    try:
        return data.decode("utf-8-sig")
    except UnicodeDecodeError:
        return data.decode("cp1252", errors="replace")


def column_of(name: str) -> str:
    """Returns the column that a name in the head line means."""
    plain = re.sub(r"[\s_-]", "", name.lower())
    return NAMES.get(plain, plain)


def limited(rows: Iterator[list[str]]) -> Iterator[list[str]]:
    """Yields the rows; refuses too many."""
    for number, row in enumerate(rows):
        if number >= MOST_CELLS:
            raise BadLine(f"more than {MOST_CELLS:,} cells")
        yield row


def planned_of(line: int, row: dict[str, str]) -> Planned:
    """Returns the cell of a line."""
    numbers = {name: number_of(name, row.get(name, "")) for name in RANGES}
    identity, cell, earfcn = numbers["identity"], numbers["cell"], numbers["earfcn"]
    if identity is None:
        raise BadLine("no identity")
    if cell is None and numbers["enodeb"] is not None and numbers["sector"] is not None:
        cell = 256 * numbers["enodeb"] + numbers["sector"]
    frequency = None if earfcn is None else bands.frequency_of(earfcn)
    if earfcn is not None and frequency is None:
        raise BadLine(f"earfcn: no downlink of an FDD band has {earfcn}")
    name = row.get("name", "").strip() or None
    return Planned(line, name, identity, cell, numbers["tac"], network_of(row), frequency, place_of(row))


def number_of(name: str, text: str) -> int | None:
    """Returns a number of a column, None if it is empty; pandas writes 5501 as 5501.0 below an empty field."""
    text = text.strip()
    if not text:
        return None
    found = re.fullmatch(r"([0-9]{1,9})([.,]0*)?", text)
    if not found or int(found[1]) > RANGES[name]:
        raise BadLine(f"{name}: {foreign.shown(text)} is not a whole number from 0 to {RANGES[name]}")
    return int(found[1])


def network_of(row: dict[str, str]) -> str | None:
    """Returns the network of a row as 262-02, or None."""
    text = row.get("plmn", "").strip()
    if not text:
        return None
    if not (found := re.fullmatch(r"([0-9]{3})-?([0-9]{2,3})", text)):
        raise BadLine(f"plmn: {foreign.shown(text)} is not a network such as 262-02")
    return f"{found[1]}-{found[2]}"


def place_of(row: dict[str, str]) -> tuple[float, float] | None:
    """Returns longitude and latitude of a row, with a point or a comma before the decimals; None if both are empty."""
    texts = row.get("lon", "").strip(), row.get("lat", "").strip()
    if texts == ("", ""):
        return None
    try:
        lon, lat = (float(one.replace(",", ".")) for one in texts)
    except ValueError:
        raise BadLine(f"lat, lon: {foreign.shown(texts[1])}, {foreign.shown(texts[0])} is not a place") from None
    if not (abs(lat) <= 90 and abs(lon) <= 180):
        raise BadLine(f"lat, lon: {lat:g}, {lon:g} is no place on earth")
    return lon, lat


# ---- the comparison


@dataclass(frozen=True)
class Finding(Answer):
    """What a plan and a survey say of a cell: a word of FINDINGS, name, cell identity, planned and detected physical-layer
    identity and tracking area, for a reuse or an exchange the other cell's identity (None if its SIB1 was not read) and name,
    the windows that list it, its maximum level, and the metres from its planned place to where it was strongest, or to the
    nearest window, within some 10 metres, if it is not heard."""

    finding: str
    name: str | None
    cell: int | None
    planned_identity: int | None
    identity: int | None
    planned_tac: int | None
    tac: int | None
    other: int | None
    windows: int
    level: float | None
    metres: float | None
    other_name: str | None = None


def findings_of(survey: Survey, plan: Sequence[Planned]) -> list[Finding]:
    """Returns how a survey and a plan differ, the gravest first, and what is as planned last. Planned cells on carriers that
    the survey did not look at are left out, and so are false detections."""
    detected, order = [*lines_of(survey), *identities_of(survey)], list(FINDINGS)
    plan = [one for one in plan if is_looked_at(one, survey)]
    index = Index(plan, detected)
    found, met = [], set[Planned]()
    for lines in detected:
        probable = index.exchanged_by(lines)
        own = [probable] if probable else index.of(lines)
        met |= set(own)
        found += [about for one in own for about in index.findings(one, lines)] or [finding("not-planned", None, lines)]
        same = [other for other in detected if other is not lines and lines.is_confused_with(other)]
        found += [reuse(lines, other, own, index.of(other)) for other in same]
    way = way_of(survey)
    missing = [not_heard(one, way) for one in plan if one not in met]
    found += sorted(missing, key=lambda one: math.inf if one.metres is None else one.metres)
    return sorted(found, key=lambda one: order.index(one.finding))


def names_of(survey: Survey, plan: Sequence[Planned]) -> dict[int, str]:
    """Returns by the number of a cell among the survey's lines its name in the plan, where one planned cell matches."""
    detected = [*lines_of(survey), *identities_of(survey)]
    index, numbers = Index(plan, detected), {id(cell): number for number, cell in enumerate(survey.lines)}
    matches = ((lines, index.of(lines)) for lines in detected)
    return {
        numbers[id(cell)]: own[0].name
        for lines, own in matches
        if len(own) == 1 and own[0].name
        for cell in lines.cells
    }


def is_looked_at(planned: Planned, survey: Survey) -> bool:
    """Returns whether a survey looked at the carrier of a planned cell, as far as both are known."""
    if planned.frequency is None:
        return True
    if survey.scan:
        return survey.carrier is None or survey.scan.first <= planned.frequency <= survey.scan.last
    return is_carrier(planned, survey.carrier)


def is_carrier(planned: Planned, frequency: float | None) -> bool:
    """Returns whether a planned cell is on a carrier, as far as both are known."""
    return None in (planned.frequency, frequency) or abs((planned.frequency or 0) - (frequency or 0)) < bands.RASTER


class Index:
    """The planned cells by their cell identity, and by their physical-layer identity; those whose SIB1 was read, and those
    that are exchanged with another sector."""

    def __init__(self, plan: Sequence[Planned], detected: Sequence[Lines] = ()) -> None:
        self.by_cell: dict[int, list[Planned]] = {}
        self.by_identity: dict[int, list[Planned]] = {}
        for one in plan:
            self.by_identity.setdefault(one.identity, []).append(one)
            if one.cell is not None:
                self.by_cell.setdefault(one.cell, []).append(one)
        self.known: dict[Planned, Lines] = {}
        self.known = {one: lines for lines in detected if lines.sib1 for one in self.of(lines) if one.cell is not None}
        self.bare = [lines for lines in detected if lines.sib1 is None]
        pairs = ((one, self.partner_of(one, lines)) for one, lines in self.known.items())
        self.partners = {one: other for one, other in pairs if other}

    def of(self, lines: Lines) -> list[Planned]:
        """Returns the planned cell that matches by SIB1, else those of the same physical-layer identity that may be it."""
        like = [one for one in self.by_identity.get(lines.identity, ()) if is_carrier(one, lines.frequency)]
        if lines.sib1 is None:
            return nearest_of([one for one in like if self.identity_of(one) == lines.identity], lines.strongest_place)
        same = [
            one
            for one in self.by_cell.get(lines.sib1.cell, ())
            if one.network is None or one.network in lines.sib1.networks
        ]
        same.sort(key=lambda one: (not is_carrier(one, lines.frequency), one.identity != lines.identity))
        return same[:1] or nearest_of([one for one in like if one.cell is None], lines.strongest_place)

    def identity_of(self, planned: Planned) -> int:
        """Returns the identity with which SIB1 of a planned cell was read, else the planned one."""
        return self.known[planned].identity if planned in self.known else planned.identity

    def partner_of(self, planned: Planned, lines: Lines) -> Planned | None:
        """Returns the sector of a planned cell's eNodeB with which it is exchanged: it has that one's planned identity, and
        its own is that one's, or that of a cell without SIB1 if that one's was not read."""
        if planned.identity == lines.identity or planned.cell is None:
            return None
        others = (one for one in self.by_identity.get(lines.identity, ()) if is_sector_of_same(one, planned))
        return next((one for one in others if self.has(one, planned.identity)), None)

    def has(self, planned: Planned, identity: int) -> bool:
        """Returns whether a planned cell has another identity, as far as SIB1 was read."""
        if planned in self.known:
            return self.known[planned].identity == identity
        return any(one.identity == identity and is_carrier(planned, one.frequency) for one in self.bare)

    def exchanged_by(self, lines: Lines) -> Planned | None:
        """Returns the planned cell that a cell without SIB1 probably is, since another sector has its identity, or None."""
        like = self.by_identity.get(lines.identity, ()) if lines.sib1 is None else ()
        others = (self.partners[one] for one in like if one in self.partners and is_carrier(one, lines.frequency))
        return next((one for one in others if one not in self.known), None)

    def findings(self, planned: Planned, lines: Lines) -> list[Finding]:
        """Returns the findings about a detected cell and the planned one that matches."""
        if lines.sib1 is None and planned.identity != lines.identity:
            other = next(one for one, partner in self.partners.items() if partner == planned)
            return [with_other(finding("exchanged", planned, lines), other)]
        found = findings_about(planned, lines)
        partner = self.partners.get(planned)
        return [with_other(one, partner) if partner and one.finding == "wrong-identity" else one for one in found]


def is_sector_of_same(one: Planned, other: Planned) -> bool:
    """Returns whether two planned cells are sectors of one eNodeB on one carrier, as far as carriers are known."""
    is_same = None not in (one.cell, other.cell) and (one.cell or 0) >> 8 == (other.cell or 0) >> 8
    return is_same and one != other and is_carrier(one, other.frequency)


def with_other(found: Finding, other: Planned) -> Finding:
    """Returns a finding that names another planned cell."""
    return dataclasses.replace(found, other=other.cell, other_name=other.name)


def nearest_of(cells: list[Planned], place: tuple[float, float] | None) -> list[Planned]:
    """Returns the planned cell that is nearest to a place; all of them if a place is not known."""
    away = [distance(one.place, place) for one in cells if one.place and place]
    return [cells[away.index(min(away))]] if away and len(away) == len(cells) else cells


def findings_about(planned: Planned, lines: Lines) -> list[Finding]:
    """Returns the findings about a detected cell and the planned one that matches."""
    if lines.sib1 is None or planned.cell is None:
        return [finding("identity-only", planned, lines)]
    words = []
    if planned.identity != lines.identity:
        words.append("wrong-identity")
    if planned.tac is not None and planned.tac != lines.sib1.tac:
        words.append("wrong-area")
    return [finding(word, planned, lines) for word in words or ["as-planned"]]


def finding(word: str, planned: Planned | None, lines: Lines) -> Finding:
    """Returns a finding about a detected cell."""
    place, strongest = planned and planned.place, lines.strongest_place
    return Finding(
        finding=word,
        name=planned and planned.name,
        cell=lines.sib1.cell if lines.sib1 else None,
        planned_identity=planned and planned.identity,
        identity=lines.identity,
        planned_tac=planned and planned.tac,
        tac=lines.sib1.tac if lines.sib1 else None,
        other=None,
        windows=lines.windows,
        level=lines.level,
        metres=round(distance(place, strongest), 0) if place and strongest else None,
    )


def reuse(lines: Lines, other: Lines, own: Sequence[Planned], others: Sequence[Planned]) -> Finding:
    """Returns that two cells have one physical-layer identity, with the names of the planned cells that they are."""
    planned, name = (own[0] if len(own) == 1 else None), others[0].name if len(others) == 1 else None
    cell = other.sib1.cell if other.sib1 else None
    return dataclasses.replace(finding("reuse", planned, lines), other=cell, other_name=name)


def way_of(survey: Survey) -> list[tuple[float, float]]:
    """Returns the places of windows, those within some 10 metres once."""
    places = survey.track.windows if survey.track else ()
    return list(dict.fromkeys((round(lon, 4), round(lat, 4)) for _, lon, lat in places))


def not_heard(planned: Planned, way: Sequence[tuple[float, float]]) -> Finding:
    """Returns that no window lists a planned cell, and how near the way comes to its place."""
    nearest = min((distance(planned.place, place) for place in way), default=None) if planned.place else None
    return Finding(
        finding="not-heard",
        name=planned.name,
        cell=planned.cell,
        planned_identity=planned.identity,
        identity=None,
        planned_tac=planned.tac,
        tac=None,
        other=None,
        windows=0,
        level=None,
        metres=None if nearest is None else round(nearest, 0),
    )


def summary(findings: Sequence[Finding]) -> str:
    """Returns how many findings of each word there are."""
    counts = {word: sum(one.finding == word for one in findings) for word in FINDINGS}
    return ", ".join(f"{count} {word_of(word)}" for word, count in counts.items() if count) or "no cell"


# ---- the table


def word_of(finding: str) -> str:
    """Returns a word of FINDINGS as the table has it."""
    return finding.replace("-", " ")


def meanings() -> dict[str, str]:
    """Returns what the words of the table mean."""
    return {word_of(finding): meaning for finding, meaning in FINDINGS.items()}


COLUMNS: tuple[Column[Finding, Survey], ...] = (
    Column(
        "finding",
        "plan",
        "",
        None,
        "; ".join(f"`{word}`: {meaning}" for word, meaning in FINDINGS.items()),
        lambda one, _: one.finding,
        lambda one, _: word_of(one.finding),
        is_left=True,
    ),
    Column("name", "name", "", None, "name in the plan", lambda one, _: one.name, is_left=True),
    Column("cell", "cell", "", None, "cell identity, of SIB1 or else of the plan", lambda one, _: one.cell),
    Column("planned_identity", "planned PCI", "", None, "planned identity", lambda one, _: one.planned_identity),
    Column("identity", "PCI", "", None, "the identity that was detected", lambda one, _: one.identity),
    Column("planned_tac", "planned TAC", "", None, "planned tracking area", lambda one, _: one.planned_tac),
    Column("tac", "TAC", "", None, "tracking area of SIB1", lambda one, _: one.tac),
    Column(
        "other",
        "other cell",
        "",
        None,
        "of `reuse`, the other cell of this identity; of exchanged sectors the other sector",
        lambda one, _: one.other,
    ),
    Column(
        "other_name",
        "other name",
        "",
        None,
        "name of that one in the plan",
        lambda one, _: one.other_name,
        is_left=True,
    ),
    Column("windows", "windows", "", None, "windows that list it", lambda one, _: one.windows),
    Column("level", "level", "dBFS", None, "maximum level, in the survey's unit", lambda one, _: one.level),
    Column(
        "metres",
        "metres",
        "m",
        0,
        "from the planned place to where it was strongest, or to the nearest window if it is not heard",
        lambda one, _: one.metres,
    ),
)
