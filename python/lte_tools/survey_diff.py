"""What differs between two surveys of one area, by cell and by place: levels, signal to noise, cells that appeared or are
gone.

Cells are the same if network and cell identity of SIB1 are, else if the physical-layer identity is, on one carrier. Where
both surveys have a track, the ground is cut into squares, and only squares that both pass are compared: a cell's level in a
square is its median over the windows there that list it. Without tracks medians over all windows are compared. False
detections are left out.
"""
from __future__ import annotations

import math
from dataclasses import dataclass
from typing import Iterable, NamedTuple, Sequence

from . import same_cell, survey_windows, tables
from .answers import Answer
from .columns import Column
from .ground import Ground
from .machine import Refused
from .same_cell import Lines
from .survey_data import Detected, Seen, Survey
from .survey_windows import Window, median

Square = tuple[int, int]
SQUARE = 50.0  # metres of a square's side
# words of a finding, and what they mean
FINDINGS = {
    "appeared": "only the second survey lists it",
    "gone": "only the first survey lists it",
    "not-passed": "only one survey lists it, where the other one has no window",
    "new-identity": "the cell has another physical-layer identity",
    "both": "both surveys list it",
}


@dataclass(frozen=True)
class Side(Answer):
    """Medians of a level in the survey's unit and of a signal to noise ratio in dB, over so many windows."""

    level: float | None
    ratio: float | None
    windows: int


@dataclass(frozen=True)
class PlaceDifference(Answer):
    """A square: longitude and latitude of its middle, what each survey has there, None without a window that lists the cell,
    and the second level less the first in dB."""

    place: tuple[float, float]
    before: Side | None
    after: Side | None
    difference: float | None


@dataclass(frozen=True)
class CellDifference(Answer):
    """A cell of two surveys: a word of FINDINGS, the identity in each, networks and cell identity of SIB1, what each survey
    has of it over all windows, the median, minimum and maximum over squares with both of the level's difference, the median
    of the ratio's, and the squares with both, with the second survey alone (gained) and with the first alone (lost)."""

    finding: str
    before_identity: int | None
    after_identity: int | None
    plmn: str | None
    cell: int | None
    before: Side | None
    after: Side | None
    difference: float | None
    least: float | None
    greatest: float | None
    ratio_difference: float | None
    squares: int
    gained: int
    lost: int
    places: tuple[PlaceDifference, ...]

    @property
    def identity_text(self) -> str:
        """The identity, or both if they differ."""
        both = [str(one) for one in (self.before_identity, self.after_identity) if one is not None]
        return " -> ".join(dict.fromkeys(both))


@dataclass(frozen=True)
class Difference(Answer):
    """Two surveys: names that tell them apart, the unit of levels, the side of squares in metres and how many both pass,
    None without tracks, the cells, and of each square the strongest cell's numbers in both."""

    before: str
    after: str
    unit: str
    square: float | None
    squares: int | None
    cells: tuple[CellDifference, ...]
    best: tuple[PlaceDifference, ...]


# ---- squares


class Squares(NamedTuple):
    """Squares on a plane, by whole numbers to the east and to the north. The plane's middle is that of square 0, 0: so two
    ways on one straight road are not on two sides of a border."""

    ground: Ground
    side: float

    def of(self, place: tuple[float, float]) -> Square:
        """Returns the square of a place."""
        east, north = self.ground.metres(*place)
        return math.floor(east / self.side + 0.5), math.floor(north / self.side + 0.5)

    def middle(self, square: Square) -> tuple[float, float]:
        """Returns longitude and latitude of a square's middle."""
        east, north = (part * self.side for part in square)
        lon, lat = self.ground.place(east, north)
        return round(lon, 7), round(lat, 7)


class Surveyed:
    """A survey by squares: those it passes, with the strongest cell of each window, and of each cell the squares with its
    windows; none without squares."""

    def __init__(self, survey: Survey, squares: Squares | None) -> None:
        self.squares = squares
        self.best: dict[Square, list[Seen | Detected]] = {}
        self.cells: dict[int, dict[Square, list[Seen | Detected]]] = {}
        for window in survey_windows.windows_of(survey):
            if squares and window.place and not window.is_spoiled:
                self.add(squares.of(window.place), window)

    def add(self, square: Square, window: Window) -> None:
        """Adds a window in a square."""
        here = self.best.setdefault(square, [])
        here += [window.strongest.seen] if window.strongest else []
        for one in window.sure:
            self.cells.setdefault(id(one.cell), {}).setdefault(square, []).append(one.seen)

    def by_square(self, lines: Lines | None) -> dict[Square, list[Seen | Detected]]:
        """Returns by squares what was measured of a cell."""
        found: dict[Square, list[Seen | Detected]] = {}
        for cell in lines.cells if lines else ():
            for square, seen in self.cells.get(id(cell), {}).items():
                found.setdefault(square, []).extend(seen)
        return found


def squares_of(before: Survey, after: Survey, side: float) -> Squares | None:
    """Returns squares on a plane about the middle of both ways, None if a survey has no places."""
    if not (before.is_placed and after.is_placed):
        return None
    places = [(lon, lat) for one in (before, after) if one.track for _, lon, lat in one.track.windows]
    first = places[0][0]
    east = [(lon - first + 180) % 360 - 180 for lon, _ in places]
    lats = [lat for _, lat in places]
    return Squares(Ground(first + (min(east) + max(east)) / 2, (min(lats) + max(lats)) / 2), side)


# ---- the difference


def difference_of(
    before: Survey, after: Survey, side: float = SQUARE, paths: tuple[str, str] | None = None
) -> Difference:
    """Returns what differs; refuses surveys whose levels have two units. If both are of files with one name, the surveys are
    named by `paths`, which are their own."""
    if before.unit != after.unit:
        raise Refused(
            f"{after.file}: levels in {after.unit}, and those of {before.file} in {before.unit}: --gain for both"
        )
    squares = squares_of(before, after, side)
    one, other = Surveyed(before, squares), Surveyed(after, squares)
    common = sorted(one.best.keys() & other.best.keys())
    names = paths if paths and before.file == after.file else (before.file, after.file)
    return Difference(
        before=names[0],
        after=names[1],
        unit=before.unit,
        square=side if squares else None,
        squares=len(common) if squares else None,
        cells=tuple(cell_difference(pair, one, other, common) for pair in pairs_of(before, after)),
        best=tuple(place_difference(squares, square, one.best[square], other.best[square]) for square in common)
        if squares
        else (),
    )


Pair = tuple["Lines | None", "Lines | None"]


def pairs_of(before: Survey, after: Survey) -> list[Pair]:
    """Returns the cells of both surveys, then those of one: those of one key, and of those left the only two of an identity
    on one carrier that may be one cell."""
    first = {lines.key: lines for lines in same_cell.lines_of(before)}
    second = {lines.key: lines for lines in same_cell.lines_of(after)}
    pairs: list[Pair] = [(lines, second.pop(key)) for key, lines in list(first.items()) if key in second]
    taken = {pair[0].key for pair in pairs if pair[0]}
    for lines in [lines for key, lines in first.items() if key not in taken]:
        like = [other for other in second.values() if is_like(lines, other)]
        match = second.pop(like[0].key) if len(like) == 1 else None
        pairs.append((lines, match))
    pairs.sort(key=lambda pair: pair[1] is None)
    return pairs + [(None, lines) for lines in second.values()]


def is_like(one: Lines, other: Lines) -> bool:
    """Returns whether two cells may be one, of which not both have SIB1."""
    is_carrier = None in (one.frequency, other.frequency) or one.frequency == other.frequency
    return one.identity == other.identity and is_carrier and None in (one.sib1, other.sib1)


def cell_difference(pair: Pair, one: Surveyed, other: Surveyed, common: Sequence[Square]) -> CellDifference:
    """Returns what differs of a cell."""
    before, after = pair
    first, second = one.by_square(before), other.by_square(after)
    heard = [square for square in common if square in first or square in second]
    places: tuple[PlaceDifference, ...] = ()
    if one.squares:
        places = tuple(place_difference(one.squares, sq, first.get(sq, []), second.get(sq, [])) for sq in heard)
    lines = after if after and (after.sib1 or not before) else before
    sib1 = lines.sib1 if lines else None
    sides = side_of(before.seen if before else ()), side_of(after.seen if after else ())
    compared = list(places) if one.squares else [PlaceDifference((0, 0), *sides, difference_in(*sides))]
    levels = [place.difference for place in compared if place.difference is not None]
    return CellDifference(
        finding=finding_of(before, after, bool(heard) or not one.squares),
        before_identity=before.identity if before else None,
        after_identity=after.identity if after else None,
        plmn=" ".join(sib1.networks) if sib1 else None,
        cell=sib1.cell if sib1 else None,
        before=sides[0],
        after=sides[1],
        difference=median(levels),
        least=min(levels, default=None),
        greatest=max(levels, default=None),
        ratio_difference=median([ratio_in(place) for place in compared]),
        squares=sum(place.before is not None and place.after is not None for place in places),
        gained=sum(place.before is None for place in places),
        lost=sum(place.after is None for place in places),
        places=places,
    )


def finding_of(before: Lines | None, after: Lines | None, is_passed: bool) -> str:
    """Returns the word of a finding."""
    if before and after:
        return "both" if before.identity == after.identity else "new-identity"
    if not is_passed:
        return "not-passed"
    return "appeared" if after else "gone"


def place_difference(
    squares: Squares, square: Square, before: Sequence[Seen | Detected], after: Sequence[Seen | Detected]
) -> PlaceDifference:
    """Returns what differs in a square."""
    sides = side_of(before), side_of(after)
    return PlaceDifference(squares.middle(square), *sides, difference_in(*sides))


def side_of(seen: Iterable[Seen | Detected]) -> Side | None:
    """Returns the medians over windows, or None without one."""
    every = list(seen)
    if not every:
        return None
    return Side(median([one.level for one in every]), median([one.ratio for one in every]), len(every))


def difference_in(before: Side | None, after: Side | None) -> float | None:
    """Returns the second level less the first, as far as both are known."""
    if before is None or after is None or before.level is None or after.level is None:
        return None
    return round(after.level - before.level, 1) + 0.0


def ratio_in(place: PlaceDifference) -> float | None:
    """Returns the second ratio less the first, as far as both are known."""
    before, after = place.before, place.after
    if before is None or after is None or before.ratio is None or after.ratio is None:
        return None
    return after.ratio - before.ratio


# ---- the tables

COLUMNS: tuple[Column[CellDifference, Difference], ...] = (
    Column(
        "finding",
        "finding",
        "",
        None,
        "; ".join(f"`{word}`: {meaning}" for word, meaning in FINDINGS.items()),
        lambda one, _: one.finding,
        lambda one, _: one.finding.replace("-", " "),
        is_left=True,
    ),
    Column(None, "PCI", "", None, "identity; both if they differ", lambda one, _: one.identity_text),
    Column("before_identity", None, "", None, "identity in the first survey", lambda one, _: one.before_identity),
    Column("after_identity", None, "", None, "identity in the second survey", lambda one, _: one.after_identity),
    Column("plmn", "PLMN", "", None, "networks of SIB1", lambda one, _: one.plmn, is_left=True),
    Column("cell", "cell", "", None, "cell identity of SIB1", lambda one, _: one.cell),
    Column(
        "before_windows",
        "windows before",
        "",
        None,
        "windows of the first survey that list it",
        lambda one, _: one.before.windows if one.before else 0,
    ),
    Column(
        "after_windows",
        "windows after",
        "",
        None,
        "windows of the second survey that list it",
        lambda one, _: one.after.windows if one.after else 0,
    ),
    Column(
        "before_level",
        "level before",
        "dBFS",
        None,
        "median level over all windows of the first survey",
        lambda one, _: one.before.level if one.before else None,
    ),
    Column(
        "after_level",
        "level after",
        "dBFS",
        None,
        "median level over all windows of the second survey",
        lambda one, _: one.after.level if one.after else None,
    ),
    Column(
        "difference",
        "dB",
        "dB",
        None,
        "second level less the first: the median over squares with both, without tracks the difference of the medians",
        lambda one, _: one.difference,
        lambda one, _: signed(one.difference),
    ),
    Column("least", "from", "dB", None, "its minimum", lambda one, _: one.least, lambda one, _: signed(one.least)),
    Column(
        "greatest", "to", "dB", None, "its maximum", lambda one, _: one.greatest, lambda one, _: signed(one.greatest)
    ),
    Column(
        "ratio_difference",
        "S/N dB",
        "dB",
        None,
        "second signal to noise ratio less the first, in the same way",
        lambda one, _: one.ratio_difference,
        lambda one, _: signed(one.ratio_difference),
    ),
    Column("squares", "squares", "", None, "squares in which both list it", lambda one, _: one.squares),
    Column(
        "gained",
        "gained",
        "",
        None,
        "squares of both ways in which only the second lists it",
        lambda one, _: one.gained,
    ),
    Column("lost", "lost", "", None, "squares of both ways in which only the first lists it", lambda one, _: one.lost),
)


class InPlace(NamedTuple):
    """A line of the table by place: a cell, or None for the strongest one, and a square."""

    cell: CellDifference | None
    square: PlaceDifference


def side_column(key: str, side: str, what: str) -> Column[InPlace, Difference]:
    """Returns the column of a number of a side, before or after."""

    def value(line: InPlace, _: Difference) -> float | None:
        found = getattr(line.square, side)
        number: float | None = getattr(found, key) if found else None
        return number

    return Column(f"{side}_{key}", None, "", None, f"{what} there in the {NTH[side]} survey", value)


NTH = {"before": "first", "after": "second"}
PLACE_COLUMNS: tuple[Column[InPlace, Difference], ...] = (
    Column("latitude", None, "deg", None, "the square's middle", lambda line, _: line.square.place[1]),
    Column("longitude", None, "deg", None, "the square's middle", lambda line, _: line.square.place[0]),
    Column(
        "identity",
        None,
        "",
        None,
        "the cell's identity, `strongest` for the strongest cell of each survey",
        lambda line, _: "strongest" if line.cell is None else line.cell.identity_text,
    ),
    Column("cell", None, "", None, "cell identity of SIB1", lambda line, _: line.cell.cell if line.cell else None),
    *(
        side_column(key, side, what)
        for key, what in (("level", "median level"), ("ratio", "median ratio"), ("windows", "windows that list it"))
        for side in NTH
    ),
    Column("difference", None, "dB", None, "second level less the first", lambda line, _: line.square.difference),
)


def signed(value: float | None) -> str:
    return "-" if value is None else f"{value:+.1f}"


def head_of(found: Difference) -> str:
    """Returns the line above the table."""
    names = f"before {found.before}, after {found.after}, levels in {found.unit}"
    if found.square is None:
        return f"{names}: not both have places, so medians over all windows are compared"
    return f"{names}: {found.squares} squares of {found.square:g} m that both pass"


def table_of(found: Difference) -> list[str]:
    """Returns the table by cell as lines of text."""
    return [head_of(found), *(tables.lines_of(COLUMNS, found.cells, found) or ["no cell"])]


def csv_of(found: Difference) -> str:
    """Returns the table by cell for other programs."""
    return tables.csv_of(COLUMNS, found.cells, found)


def csv_of_places(found: Difference) -> str:
    """Returns the table by place for other programs: of the strongest cell, then of each cell."""
    lines = [InPlace(None, square) for square in found.best]
    lines += [InPlace(cell, square) for cell in found.cells for square in cell.places]
    return tables.csv_of(PLACE_COLUMNS, lines, found)
