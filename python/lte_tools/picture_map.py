"""A survey with places as a map without tiles, north up: at each place the strongest cell, its level by size.

Windows one behind the other with the same strongest cell are one mark where they are near, with their median level. A
cell has a letter, a mark and a colour, those of the most windows first; a line that chance explains has none. A scan has
a map for each carrier.

Debian: python3-numpy, python3-matplotlib.
"""
from __future__ import annotations

import itertools
import math
from typing import Any, NamedTuple, Sequence

import numpy as np
from matplotlib import collections, patheffects, pyplot, ticker

from . import carriers, picture_labels, picture_scan, picture_survey, survey_windows
from .carriers import Carrier
from .ground import DEGREE, Ground
from .picture_labels import Point, Sign
from .picture_style import MARKS, WIDTH, fitted, headed, number_text
from .survey_data import Survey, SurveyCell, SurveyIdentity

Windows = Sequence[tuple[float, float, float]]

LEAST = 40  # metres from the map's one side to the other
MARGIN = 1.16  # by which the map is wider than what is on it
APART, NARROW = 1 / 55, 6.1  # of the map's width, of these inches at most: windows within it are one mark
SMALL, GREAT = 9, 110  # square points of marks
LOW, HIGH = 3.4, 6.2  # inches of a map's height
MAP, TABLE = (0.85, 6.1), (7.3, 4.55)  # inches from the left, and of width
HEAD, FOOT, NOTES = 0.75, 0.95, 0.5  # inches above and below the map, and below the table
BETWEEN = 0.35  # inches above each of several maps
BAR = 0.5, 0.65  # inches of the scale's corner beside its bar, and of its height, with the words at the way's ends
ROOM = 1  # inches from a corner, within which no place is where an arrow is drawn
ALONE = 7.2  # inches of a map without a table
FEW = 9  # cells whose table is beside the map; that of more is below it, a line for each
BROAD, COLUMNS, LINE = 10.9, 3, 0.175  # inches of a map's width above its table, columns of that, and inches of a line
HALO = [patheffects.withStroke(linewidth=2.5, foreground="white")]
NOTHING = "#808080"


# ---- what stands where


class Spot(NamedTuple):
    """A place in metres, and the cell that is strongest there with its level, or nothing."""

    east: float
    north: float
    cell: int | None
    level: float | None


def ground_of(windows: Windows) -> Ground:
    """Returns the plane in the middle of all windows."""
    first = windows[0][1]
    east = [(lon - first + 180) % 360 - 180 for _, lon, _ in windows]
    lats = [lat for _, _, lat in windows]
    return Ground(first + (min(east) + max(east)) / 2, (min(lats) + max(lats)) / 2)


def windows_of(found: Survey) -> Windows:
    return found.track.windows if found.track else ()


def strongest_of(found: Survey) -> dict[int, tuple[int, float]]:
    """Returns by the number of a window with a place its strongest sure cell, by its number, and that one's level."""
    best = survey_windows.strongest_of(found)
    placed = enumerate(second for second, _, _ in windows_of(found))
    return {
        i: (best[second].number, -math.inf if best[second].seen.level is None else best[second].level)
        for i, second in placed
        if second in best
    }


def spots_of(found: Survey) -> tuple[list[Spot], Ground]:
    """Returns each window that has a place, and the plane that they are in."""
    windows, best = windows_of(found), strongest_of(found)
    ground = ground_of(windows)
    spots = []
    for i, (_, lon, lat) in enumerate(windows):
        cell, level = best.get(i, (None, None))
        spots.append(Spot(*ground.metres(lon, lat), cell, level))
    return spots, ground


def marks_of(spots: Sequence[Spot], apart: float) -> list[Spot]:
    """Returns the spots, those within so many metres one behind the other that have one strongest cell as one."""
    groups: list[list[Spot]] = []
    for spot in spots:
        first = groups[-1][0] if groups else None
        if first and spot.cell == first.cell and math.dist(spot[:2], first[:2]) <= apart:
            groups[-1].append(spot)
        else:
            groups.append([spot])
    return [middle_of(group) for group in groups]


def middle_of(group: Sequence[Spot]) -> Spot:
    """Returns the spot in a group's middle with the median level."""
    levels = [spot.level for spot in group if spot.level is not None and spot.level > -math.inf]
    return group[len(group) // 2]._replace(level=float(np.median(levels)) if levels else None)


# ---- the map


class Frame:
    """Axes of so many inches over places in metres on a plane."""

    def __init__(
        self, ground: Ground, spots: Sequence[tuple[float, float]], width: float, highest: float = HIGH
    ) -> None:
        self.ground, self.places = ground, list(spots)
        east, north = (np.array(values) for values in zip(*spots))
        wide, tall = (MARGIN * max(float(np.ptp(values)), LEAST / MARGIN) for values in (east, north))
        self.width, self.height = width, min(highest, max(LOW, width * tall / wide))
        self.metres = max(wide / self.width, tall / self.height)  # of an inch

    @property
    def limits(self) -> tuple[tuple[float, float], tuple[float, float]]:
        wide, tall = self.metres * self.width / 2, self.metres * self.height / 2
        return (-wide, wide), (-tall, tall)

    @property
    def scale_corner(self) -> tuple[int, int]:
        """The corner of the scale: the first of four in which no place is where the bar is, below on the left, below on the
        right, above on the left, above on the right, or the one with the fewest: 1 or -1 to the east, and to the north.
        """
        (_, right), (_, high) = self.limits
        wide, tall = round_below(self.metres * self.width / 4) + BAR[0] * self.metres, BAR[1] * self.metres

        def places_at(corner: tuple[int, int]) -> int:
            east, north = corner
            return sum(east * x > right - wide and north * y > high - tall for x, y in self.places)

        return min(((-1, -1), (1, -1), (-1, 1), (1, 1)), key=places_at)

    @property
    def free_corner(self) -> tuple[int, int]:
        """The first of three corners with room, above on the right, above on the left, and below on the right, or the one
        with the most: 1 or -1 to the east, and to the north."""
        (_, right), (_, high) = self.limits
        corners = ((1, 1), (-1, 1), (1, -1))
        room = [min(math.dist(place, (x * right, y * high)) for place in self.places) for x, y in corners]
        return next(
            (one for one, metres in zip(corners, room) if metres > ROOM * self.metres), corners[np.argmax(room)]
        )

    @property
    def near(self) -> float:
        """Metres within which windows are one mark."""
        return APART * self.metres * min(self.width, NARROW)


class Map(Frame):
    """What is drawn of a survey's places, for axes of so many inches."""

    def __init__(self, found: Survey, width: float, highest: float = HIGH) -> None:
        self.found = found
        self.spots, ground = spots_of(found)
        super().__init__(ground, [spot[:2] for spot in self.spots], width, highest)
        self.marks = marks_of(self.spots, self.near)
        self.levels = [mark.level for mark in self.marks if mark.level is not None]
        self.low, self.high = picture_survey.bounds(self.levels)
        self.points = [self.point(mark) for mark in self.marks]
        self.signs = picture_labels.signs_of(survey_windows.leaders_of(found), self.points)

    def area(self, level: float | None) -> float:
        """Returns the square points of a mark."""
        part = 0 if level is None else (level - self.low) / (self.high - self.low)
        return SMALL + (GREAT - SMALL) * part

    def point(self, mark: Spot) -> Point:
        """Returns a mark in points on the paper."""
        points = 72 / self.metres
        return Point(points * mark.east, points * mark.north, math.sqrt(self.area(mark.level)) / 2, mark.cell)

    def name(self, number: int) -> str:
        cell = self.found.lines[number]
        if isinstance(cell, SurveyIdentity):
            return f"{picture_survey.name_of(cell)}, identity only"
        where = f", {cell.frequency / 1e6:.1f} MHz" if cell.frequency and self.found.scan else ""
        return f"{picture_survey.name_of(cell)}{picture_survey.number_of(cell)}{where}"


def draw_map(ax: Any, drawn: Map, name: str = "") -> None:
    """Draws the way, the marks and letters on it, the scale, north and degrees; `name` is put in front of the title."""
    xlim, ylim = drawn.limits
    ax.set(xlim=xlim, ylim=ylim)
    ax.spines[["top", "right"]].set_visible(True)
    draw_way(ax, drawn)
    draw_best(ax, drawn)
    for number, (_, mark, colour) in drawn.signs.items():
        marks = [one for one in drawn.marks if one.cell == number]
        areas = [drawn.area(one.level) for one in marks]
        keys = {"marker": mark, "color": colour, "edgecolors": "white", "linewidths": 0.4, "zorder": 4}
        ax.scatter([one.east for one in marks], [one.north for one in marks], areas, **keys)
    draw_letters(ax, drawn)
    draw_scale(ax, drawn)
    draw_degrees(ax, drawn)
    if drawn.signs:
        ax.set_title(f"{name}Strongest cell, by letter, mark and colour; its level in {drawn.found.unit} by size")
    else:
        ax.set_title(f"{name}No cell is certain at any place")


def draw_way(ax: Any, drawn: Map) -> None:
    """Draws a thin line where windows follow each other, rings where none has a cell, and where it begins and ends."""
    windows = windows_of(drawn.found)
    lines: list[list[tuple[float, float]]] = [[]]
    for i, spot in enumerate(drawn.spots):
        if i and not survey_windows.are_next(drawn.found, windows[i - 1][0], windows[i][0]):
            lines.append([])
        lines[-1].append((spot.east, spot.north))
    for line in lines:
        ax.plot(*zip(*line), color="#bbbbbb", lw=0.8, zorder=2)
    none = [spot[:2] for spot in drawn.marks if spot.cell is None]
    if none:
        ax.scatter(*zip(*none), 22, facecolors="white", edgecolors=NOTHING, linewidths=0.9, zorder=3)
    keys = {"fontsize": 7.5, "color": "#444444", "path_effects": HALO, "zorder": 6, "ha": "center", "va": "center"}
    away = 18 * drawn.metres / 72
    words: tuple[tuple[str, list[Spot]], ...] = (("begin", drawn.marks), ("end", drawn.marks[::-1]))
    if math.dist(drawn.marks[0][:2], drawn.marks[-1][:2]) < away:
        words = (("begin and end", drawn.marks),)
    for word, marks in words:
        ax.text(*beside(marks[0], marks[min(3, len(marks) - 1)], -away, 0), word, **keys)


def beside(mark: Spot, other: Spot, ahead: float, left: float) -> tuple[float, float]:
    """Returns a place so many metres ahead and to the left of a mark, seen towards another, or towards the north."""
    east, north = other.east - mark.east, other.north - mark.north
    size = math.hypot(east, north)
    east, north = (east / size, north / size) if size else (0, 1)
    return mark.east + ahead * east - left * north, mark.north + ahead * north + left * east


def draw_best(ax: Any, drawn: Map) -> None:
    """Draws the way in the colour of the strongest cell, as far as one is certain."""
    windows = windows_of(drawn.found)
    lines: dict[str, list[Any]] = {}
    for i, (one, other) in enumerate(zip(drawn.spots, drawn.spots[1:])):
        is_next = survey_windows.are_next(drawn.found, windows[i][0], windows[i + 1][0])
        if one.cell is not None and one.cell == other.cell and is_next:
            lines.setdefault(drawn.signs[one.cell][2], []).append((one[:2], other[:2]))
    for colour, parts in lines.items():
        ax.add_collection(collections.LineCollection(parts, colors=colour, linewidths=3, alpha=0.4, zorder=2.5))


def draw_letters(ax: Any, drawn: Map) -> None:
    """Draws a letter beside the longest run of marks of each cell, and beside others that have room for one."""
    points = drawn.metres / 72
    names = {number: letter for number, (letter, _, _) in drawn.signs.items()}
    for label in picture_labels.labels_of(drawn.points, names, (72 * drawn.width, 72 * drawn.height)):
        letter, _, colour = drawn.signs[label.cell]
        place, mark = (points * label.x, points * label.y), (points * label.mark.x, points * label.mark.y)
        if label.has_line:
            ax.plot(*zip(mark, place), color=colour, lw=0.6, zorder=5)
        keys = {"ha": "center", "va": "center", "fontweight": "bold", "path_effects": HALO, "zorder": 7}
        ax.text(*place, letter, fontsize=9, color=colour, **keys)


def round_below(value: float) -> float:
    """Returns the greatest of 1, 2 and 5 times a power of ten that is not above a value."""
    power: float = 10 ** math.floor(math.log10(value))
    return max(step * power for step in (1, 2, 5) if step * power <= value)


def metres_text(metres: float) -> str:
    return f"{metres / 1000:g} km" if metres >= 1000 else f"{metres:g} m"


def draw_scale(ax: Any, drawn: Frame) -> None:
    """Draws a bar of metres and an arrow to the north, in two corners where there is room."""
    length = round_below(drawn.metres * drawn.width / 4)
    (left, right), (low, high) = drawn.limits
    inch = drawn.metres
    east, north = drawn.scale_corner
    x = left + 0.2 * inch if east < 0 else right - 0.2 * inch - length
    y = low + 0.2 * inch if north < 0 else high - 0.35 * inch
    tick = 0.05 * inch
    ax.plot([x, x, x, x + length, x + length, x + length], [y + tick, y - tick, y, y, y - tick, y + tick], "k-", lw=1.2)
    keys = {"ha": "center", "path_effects": HALO, "zorder": 6}
    ax.text(x + length / 2, y + 0.06 * inch, metres_text(length), fontsize=8, va="bottom", **keys)
    is_shared = drawn.free_corner == drawn.scale_corner
    east, north = drawn.free_corner
    x, y = east * (right - 0.25 * inch), high - 0.2 * inch if north > 0 else low + 0.8 * inch
    y -= north * BAR[1] * inch * is_shared
    arrow = {"arrowstyle": "-|>", "color": "black", "lw": 1.2, "shrinkA": 0, "shrinkB": 0}
    ax.annotate("", (x, y), (x, y - 0.45 * inch), arrowprops=arrow, zorder=6)
    ax.text(x, y - 0.5 * inch, "N", fontsize=9, va="top", fontweight="bold", **keys)


def draw_degrees(ax: Any, drawn: Frame) -> None:
    """Draws ticks at whole steps of degrees."""
    (left, right), (low, high) = drawn.limits
    stretch = DEGREE * max(math.cos(math.radians(drawn.ground.lat)), 1e-6)
    for axis, middle, ends, scale, names in (
        (ax.xaxis, drawn.ground.lon, (left, right), stretch, "EW"),
        (ax.yaxis, drawn.ground.lat, (low, high), DEGREE, "NS"),
    ):
        degrees = ticker.MaxNLocator(4).tick_values(*(middle + end / scale for end in ends))
        inside = [value for value in degrees if ends[0] <= (value - middle) * scale <= ends[1]]
        digits = next(n for n in range(9) if np.allclose(np.round(degrees, n), degrees, atol=1e-9, rtol=0))
        axis.set_ticks([(value - middle) * scale for value in inside], [degrees_text(v, digits, names) for v in inside])


def degrees_text(value: float, digits: int, names: str) -> str:
    value = (value + 180) % 360 - 180
    return f"{abs(value):.{digits}f}\N{DEGREE SIGN} {names[int(value < 0)]}"


def draw_sizes(ax: Any, drawn: Map) -> None:
    """Draws what sizes and rings stand for, below the map."""
    for level in (drawn.high, (drawn.high + drawn.low) / 2, drawn.low) if drawn.levels else ():
        label = f"{level:g} {drawn.found.unit}"
        ax.scatter([], [], drawn.area(level), color="#555555", edgecolors="white", linewidths=0.4, label=label)
    if any(spot.cell is None for spot in drawn.marks):
        ax.scatter([], [], 22, facecolors="white", edgecolors=NOTHING, linewidths=0.9, label="no sure cell")
    keys = {"loc": "upper left", "borderaxespad": 0, "frameon": False, "handletextpad": 0.2, "columnspacing": 1.4}
    ax.legend(bbox_to_anchor=(0, -0.36 / drawn.height), ncol=4, fontsize=8, **keys)
    text = f"Windows within {metres_text(float(f'{drawn.near:.1g}'))} are one mark"
    if drawn.signs:
        text += ", of their median level. A cell without a letter is strongest nowhere"
    ax.text(0, -0.66 / drawn.height, f"{text}.", transform=ax.transAxes, fontsize=7.5, color="#555555", va="top")


def in_order(found: Survey, signs: dict[int, Sign]) -> list[SurveyCell | SurveyIdentity]:
    """Returns the cells with letters by these, then the others."""
    others = [i for i in range(len(found.lines)) if i not in signs]
    return [found.lines[i] for i in (*signs, *others)]


def map_sheet(found: Survey, title: str | None = None) -> Any:
    """Returns the map, with the table of a few cells beside it, or that of many below; of a scan the map of each carrier."""
    every = carriers.carriers_of(found)
    if every[1:]:
        return sheet_of_carriers(found, every, title)
    return (sheet_beside if len(found.lines) <= FEW else sheet_below)(found, title)


def sheet_of_carriers(found: Survey, every: Sequence[Carrier], title: str | None) -> Any:
    """Returns the map of each carrier, one below the other, and beside it a table of the cells that are the strongest."""
    own = [carriers.on_carrier(found, one) for one in every]
    maps = [Map(one, MAP[1]) for one in own]
    tall = HEAD + sum(drawn.height + FOOT + BETWEEN for drawn in maps)
    figure, top = pyplot.figure(figsize=(WIDTH, tall)), HEAD + BETWEEN
    headed(figure, title or found.file, picture_survey.facts_line(found, title)).set(y=1 - 0.12 / tall, va="top")
    for carrier, part, drawn in zip(every, own, maps):
        ax = axes_at(figure, MAP[0], top, MAP[1], drawn.height)
        draw_map(ax, drawn, f"{carrier.text}: ")
        draw_sizes(ax, drawn)
        cells = in_order(part, drawn.signs)[:FEW]
        signs = {id(part.lines[number]): sign for number, sign in drawn.signs.items()}
        height = max(picture_survey.ROW, min(picture_survey.TALL * len(cells), drawn.height))
        picture_survey.draw_table(axes_at(figure, TABLE[0], top, TABLE[1], height), part, cells, signs)
        top += drawn.height + FOOT + BETWEEN
    return figure


def sheet_beside(found: Survey, title: str | None) -> Any:
    """Returns the map, and beside it the table of the cells."""
    drawn = Map(found, MAP[1])
    cells = in_order(found, drawn.signs)
    table = max(picture_survey.ROW, min(picture_survey.TALL * len(cells), drawn.height))
    tall = max(drawn.height + FOOT, table + 0.75) + HEAD
    figure = pyplot.figure(figsize=(WIDTH, tall))
    headed(figure, title or found.file, picture_survey.facts_line(found, title)).set(y=1 - 0.12 / tall, va="top")
    draw_map(axes_at(figure, MAP[0], HEAD, MAP[1], drawn.height), drawn)
    draw_sizes(figure.axes[0], drawn)
    signs = {id(found.lines[number]): sign for number, sign in drawn.signs.items()}
    ax = axes_at(figure, TABLE[0], HEAD + 0.3, TABLE[1], table)
    picture_survey.draw_table(ax, found, cells, signs)
    if not cells:
        ax.text(0.05, 1, "No cell.\n" + fitted(found.hint or "", 60, 12), va="top", transform=ax.transAxes)
    picture_survey.draw_notes(ax, found, (0.05, -0.06 / table), "top")
    return figure


def sheet_below(found: Survey, title: str | None) -> Any:
    """Returns the map over the full width, and below it the table of the cells, a line for each."""
    drawn = Map(found, BROAD, BROAD)
    cells = in_order(found, drawn.signs)
    rows = math.ceil(len(cells) / COLUMNS)
    table = LINE * (rows + 1)
    tall = HEAD + drawn.height + FOOT + table + NOTES
    figure = pyplot.figure(figsize=(WIDTH, tall))
    headed(figure, title or found.file, picture_survey.facts_line(found, title)).set(y=1 - 0.12 / tall, va="top")
    draw_map(axes_at(figure, MAP[0], HEAD, drawn.width, drawn.height), drawn)
    draw_sizes(figure.axes[0], drawn)
    ax = axes_at(figure, 0.3, HEAD + drawn.height + FOOT, WIDTH - 0.5, table)
    draw_lines(ax, found, [cells[i : i + rows] for i in range(0, len(cells), rows)], drawn)
    picture_survey.draw_notes(ax, found, (0, -0.1 / table), "top")
    return figure


# heads of the lines' parts, and where each is in a column
LINES = (
    (0.03, "left", ""),
    (0.09, "left", "PCI"),
    (0.2, "left", "PLMN, TAC; eNodeB, cell"),
    (0.67, "right", "windows"),
)
LEVELS = ((0.81, "right", "{}"), (0.94, "right", "S/N dB"))


def draw_lines(ax: Any, found: Survey, columns: Sequence[Sequence[SurveyCell | SurveyIdentity]], drawn: Map) -> None:
    """Draws a line for each cell, in columns: letter and mark, identity, network, windows, level and signal to noise."""
    ax.axis("off")
    rows = max(map(len, columns))
    ax.set(xlim=(0, COLUMNS), ylim=(rows + 0.5, -0.5))
    signs = {id(found.lines[number]): sign for number, sign in drawn.signs.items()}
    for left, cells in enumerate(columns):
        for place, side, head in (*LINES, *LEVELS):
            ax.text(left + place, 0, head.format(found.unit), fontsize=7, color="#555555", ha=side, va="center")
        for row, cell in enumerate(cells, 1):
            letter, mark, colour = signs.get(id(cell), ("", "", ""))
            if mark:
                ax.plot([left + 0.012], [row], mark, color=colour, ms=5, clip_on=False)
            texts = [letter, picture_survey.name_of(cell).removeprefix("PCI "), network_of(cell)]
            texts += [str(cell.windows), number_text(cell.level), number_text(cell.ratio)]
            for (place, side, _), text in zip((*LINES, *LEVELS), texts):
                weight = "bold" if place < LINES[2][0] else "normal"
                ax.text(left + place, row, text, fontsize=7, ha=side, va="center", fontweight=weight)


def network_of(cell: SurveyCell | SurveyIdentity) -> str:
    """Returns network, area, eNodeB and cell in one line, or why they are not known."""
    if isinstance(cell, SurveyIdentity):
        return "identity only"
    sib1 = cell.sib1
    if sib1 is None:
        return f"no SIB1: {cell.no_sib1}"[:34]
    return f"{' '.join(sib1.networks[:1])}, {sib1.tac}; {sib1.enodeb}, {sib1.sector}"


def time_sheet(found: Survey, title: str | None = None) -> Any:
    """Returns the cells over time, of a scan over frequency; where there is a map, those at the front of it have its
    letters, marks and colours."""
    if found.scan:
        return picture_scan.scan_sheet(found, title)
    signs = Map(found, ALONE).signs if found.is_placed else {}
    some = itertools.islice(signs.items(), len(MARKS))
    return picture_survey.survey_sheet(found, title, {id(found.lines[number]): sign for number, sign in some})


def map_alone(found: Survey) -> Any:
    """Returns the map with the names of its cells below."""
    drawn = Map(found, ALONE - 1)
    columns = 2 if len(drawn.signs) <= 2 * FEW else 3
    rows = math.ceil(len(drawn.signs) / columns)
    names = 0.19 * rows
    figure = pyplot.figure(figsize=(ALONE, drawn.height + FOOT + names + 0.35))
    ax = axes_at(figure, 0.85, 0.3, drawn.width, drawn.height)
    draw_map(ax, drawn)
    draw_sizes(ax, drawn)
    handles = [
        ax.plot([], [], mark, color=colour, ms=6, label=f"{letter}  {drawn.name(number)}")[0]
        for number, (letter, mark, colour) in drawn.signs.items()
    ]
    keys = {
        "loc": "upper left",
        "borderaxespad": 0,
        "frameon": False,
        "ncol": columns,
        "fontsize": 8.5 if columns < 3 else 7,
    }
    ax.add_artist(ax.get_legend())  # that of the sizes, in place of which the next one comes
    ax.legend(handles=handles, bbox_to_anchor=(0, -0.9 / drawn.height), **keys)
    return figure


def axes_at(figure: Any, left: float, top: float, width: float, height: float) -> Any:
    """Returns axes by inches from the left and from the top."""
    wide, tall = figure.get_size_inches()
    return figure.add_axes((left / wide, 1 - (top + height) / tall, width / wide, height / tall))
