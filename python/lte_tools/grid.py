"""Squares of ground of a survey with places: in each the best server, its RSRP, RSRQ and SINR, and the other cells within
6 dB of it. In a scan each carrier has its own.
"""
from __future__ import annotations

import math
from dataclasses import dataclass
from typing import Any, NamedTuple, Sequence

from . import best_server, quality, survey_diff, survey_windows
from .answers import Answer
from .carriers import Carrier
from .columns import Column, place_text
from .ground import DEGREE
from .quality import Quality, quality_of
from .survey_data import Survey
from .survey_diff import Squares
from .survey_windows import NEAR, InWindow, Window

HALF = 0.5  # of a square's windows with a cell, in which a cell has to be for its best server


@dataclass(frozen=True)
class Square(Answer):
    """A square of ground that the way passes: longitude and latitude of its middle, its side in metres, its windows, and the
    best server, None without a certain cell: of the cells that at least half of its windows with a cell have, the one with
    the greatest median level. RSRP, RSRQ and SINR are its medians, `served` is the windows in which it is the strongest,
    `others` how many other cells have a median within 6 dB, and `identities` are theirs. `group`, `plmn` and `frequency` are
    the carrier's, `letter` is the best server's on the map."""

    place: tuple[float, float]
    side: float
    group: str | None
    plmn: str | None
    frequency: float | None
    windows: int
    letter: str | None
    identity: int | None
    cell: int | None
    served: int
    rsrp: float | None
    rsrq: float | None
    sinr: float | None
    others: int
    identities: tuple[int, ...]


class Typical(NamedTuple):
    """A cell in a square: itself in one window, the windows that have it, and the medians of its quality."""

    one: InWindow
    windows: int
    quality: Quality

    @property
    def level(self) -> float:
        """Its median level, very low if none is known, for an order."""
        return -1e9 if self.quality.rsrp is None else self.quality.rsrp


def squares_of(survey: Survey, side: float) -> list[Square]:
    """Returns the squares of each carrier, from south to north and from west to east; none without places."""
    squares = survey_diff.squares_of(survey, survey, side)
    if squares is None:
        return []
    letters, found = survey_windows.letters_of(survey), []
    for carrier, placed in best_server.along(survey):
        here: dict[tuple[int, int], list[Window]] = {}
        for window in (one.window for one in placed):
            if window.place:
                here.setdefault(squares.of(window.place), []).append(window)
        for key in sorted(here, key=lambda key: key[::-1]):
            found.append(square_of(squares, key, here[key], carrier, survey, letters))
    return found


def square_of(
    squares: Squares,
    key: tuple[int, int],
    windows: Sequence[Window],
    carrier: Carrier,
    survey: Survey,
    letters: dict[int, str],
) -> Square:
    """Returns a square of a carrier, with the windows in it."""
    cells = cells_in(windows, survey)
    least = HALF * sum(bool(window.present) for window in windows)
    often = [one for one in cells if one.windows >= least]
    best = max(often, key=lambda one: one.level, default=None)
    near = [one for one in often if best and one is not best and one.level >= best.level - NEAR]
    sib1 = best.one.cell.sib1 if best else None
    typical = best.quality if best else Quality()
    return Square(
        place=squares.middle(key),
        side=squares.side,
        group=carrier.text if carrier.shift is not None else None,
        plmn=" ".join(sib1.networks) if sib1 else " ".join(carrier.networks) or None,
        frequency=carrier.frequency,
        windows=len(windows),
        letter=letters.get(best.one.number) if best else None,
        identity=best.one.cell.identity if best else None,
        cell=sib1.cell if sib1 else None,
        served=sum(best is not None and is_leader(best.one, window) for window in windows),
        rsrp=typical.rsrp,
        rsrq=typical.rsrq,
        sinr=typical.sinr,
        others=len(near),
        identities=tuple(one.one.cell.identity for one in sorted(near, key=lambda one: -one.level)),
    )


def cells_in(windows: Sequence[Window], survey: Survey) -> list[Typical]:
    """Returns the cells of windows, each with its medians."""
    seen: dict[int, list[tuple[InWindow, Window]]] = {}
    for window in windows:
        for one in window.present:
            seen.setdefault(one.number, []).append((one, window))
    return [
        Typical(pairs[0][0], len(pairs), quality.typical([quality_of(one, window, survey) for one, window in pairs]))
        for pairs in seen.values()
    ]


def is_leader(one: InWindow, window: Window) -> bool:
    """Returns whether a cell is the best server of a window."""
    return window.leader is not None and window.leader.number == one.number


def head_of(found: Sequence[Square], side: float, survey: Survey) -> str:
    """Returns the line above the table."""
    if not survey.is_placed:
        return f"squares of {side:g} m: none without places (--track)"
    holes = sum(one.identity is None for one in found)
    return f"best server in {len(found)} squares of {side:g} m, {holes} without a certain cell; RSRP in {survey.unit}"


def features_of(found: Sequence[Square], unit: str) -> list[dict[str, Any]]:
    """Returns the squares as features of GeoJSON."""
    return [
        {
            "type": "Feature",
            "geometry": {"type": "Polygon", "coordinates": [corners_of(one)]},
            "properties": {"kind": "square", **{k: v for k, v in one.to_json().items() if k != "place"}, "unit": unit},
        }
        for one in found
    ]


def corners_of(one: Square) -> list[list[float]]:
    """Returns the corners of a square against the clock, the first one twice."""
    lon, lat = one.place
    high = one.side / DEGREE / 2
    wide = high / max(math.cos(math.radians(lat)), 1e-6)
    signs = ((-1, -1), (1, -1), (1, 1), (-1, 1), (-1, -1))
    return [[round(lon + x * wide, 7), round(lat + y * high, 7)] for x, y in signs]


# ---- the table


def quality_column(part: int, kind: str) -> Column[Square, Survey]:
    """Returns a column of the quality of a square's best server."""
    one = quality.columns_of(kind)[part]
    return Column(
        one.key,
        one.heading,
        one.unit,
        None,
        one.meaning,
        lambda row, survey: one.of(Quality(row.rsrp, row.rsrq, row.sinr), survey),
    )


COLUMNS: tuple[Column[Square, Survey], ...] = (
    Column("latitude", None, "deg", None, "latitude of the square's middle", lambda one, _: one.place[1]),
    Column("longitude", None, "deg", None, "longitude of the square's middle", lambda one, _: one.place[0]),
    Column(
        None, "middle", "", None, "latitude and longitude", lambda one, _: None, lambda one, _: place_text(one.place)
    ),
    Column("side", None, "m", None, "the square's side", lambda one, _: one.side),
    Column(
        "group", "carrier", "", None, "in a scan, the carrier with its networks", lambda one, _: one.group, is_left=True
    ),
    Column("plmn", None, "", None, "the best server's networks, or the carrier's", lambda one, _: one.plmn),
    Column("frequency", None, "Hz", None, "the carrier's frequency", lambda one, _: one.frequency),
    Column("letter", "map", "", None, "the best server's letter on the map", lambda one, _: one.letter, is_left=True),
    Column("identity", "PCI", "", None, "the best server's identity", lambda one, _: one.identity),
    Column("cell", "cell", "", None, "the cell identity of its SIB1", lambda one, _: one.cell),
    Column("served", "served", "", None, "windows in which it is the strongest", lambda one, _: one.served),
    Column("windows", "of", "", None, "windows of the square", lambda one, _: one.windows),
    *(quality_column(part, "the best server's: the median") for part in range(3)),
    Column(
        "others",
        f"within {NEAR} dB",
        "",
        None,
        f"other cells whose median level is within {NEAR} dB of its",
        lambda one, _: one.others,
    ),
    Column(
        "identities",
        "their PCIs",
        "",
        None,
        "identities of these cells, the strongest first",
        lambda one, _: " ".join(map(str, one.identities)),
        is_left=True,
    ),
)
