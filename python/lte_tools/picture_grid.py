"""Squares of a survey on maps without tiles, north up: by the class of the best server's level, and by how many other cells
are within 6 dB of it; the planned sites too.

Debian: python3-matplotlib.
"""
from __future__ import annotations

from typing import Any, Mapping, Sequence

from matplotlib import patches, pyplot

from . import classes, picture_map
from .grid import Square
from .ground import Ground
from .picture_map import FOOT, Frame, axes_at
from .picture_style import WIDTH
from .survey_windows import NEAR

COLOURS = ("#1a7a3c", "#7bbf4a", "#f2d03b", "#f0902d", "#d1332e", "#7d1d5a", "#4a1036", "#2b0a20")  # strong to weak
COUNTS = ("#1a7a3c", "#f2d03b", "#f0902d", "#d1332e")  # no other cell, 1, 2, 3 or more
NOTHING = "#bbbbbb"
LEFT, WIDE, GAP, TOP = 0.75, 4.75, 0.95, 0.35  # inches to the left of the maps, of their width, between and above them


def sheet(found: Sequence[Square], unit: str, sites: Sequence[tuple[float, float]] = ()) -> Any:
    """Returns both maps of the squares of one carrier; `sites` are longitudes and latitudes of planned cells."""
    ground = picture_map.ground_of([(0.0, *one.place) for one in found])
    places = [ground.metres(*one.place) for one in found]
    half = found[0].side / 2
    edges = [(x + a * half, y + b * half) for x, y in places for a, b in ((-1, -1), (1, 1))]
    frame = Frame(ground, edges, WIDE)
    tall = TOP + frame.height + FOOT
    figure = pyplot.figure(figsize=(WIDTH, tall))
    limits = limits_of(found, unit)
    level = {id(one): number_of(one.rsrp, limits) for one in found if one.rsrp is not None}
    count = {id(one): min(one.others, len(COUNTS) - 1) for one in found if one.identity is not None}
    names = [f"from {limit:g}" for limit in limits] + [f"below {limits[-1]:g}"] if limits else []
    parts = (
        (f"RSRP of the best server in {unit}", level, COLOURS, names),
        (f"other cells within {NEAR} dB of it", count, COUNTS, ["none", "1", "2", "3 or more"]),
    )
    for i, (title, values, colours, labels) in enumerate(parts):
        ax = axes_at(figure, LEFT + i * (WIDE + GAP), TOP, WIDE, frame.height)
        draw_squares(ax, frame, [(place, values.get(id(one))) for place, one in zip(places, found)], half, colours)
        draw_sites(ax, ground, sites, frame)
        picture_map.draw_scale(ax, frame)
        picture_map.draw_degrees(ax, frame)
        ax.set_title(title)
        draw_names(ax, values, colours, labels, frame)
    return figure


def limits_of(found: Sequence[Square], unit: str) -> Sequence[float]:
    """Returns the limits of the classes of level, the highest first, at most one less than there are colours."""
    known = [one.rsrp for one in found if one.rsrp is not None]
    return classes.limits_of(known, "rsrp", unit)[: len(COLOURS) - 1] if known else ()


def number_of(value: float, limits: Sequence[float]) -> int:
    """Returns the number of a value's class."""
    return next((i for i, limit in enumerate(limits) if value >= limit), len(limits))


def draw_squares(
    ax: Any,
    frame: Frame,
    squares: Sequence[tuple[tuple[float, float], int | None]],
    half: float,
    colours: Sequence[str],
) -> None:
    """Draws the squares by the numbers of their colours, those without a certain cell grey."""
    xlim, ylim = frame.limits
    ax.set(xlim=xlim, ylim=ylim)
    ax.spines[["top", "right"]].set_visible(True)
    for (x, y), number in squares:
        colour = NOTHING if number is None else colours[number]
        ax.add_patch(patches.Rectangle((x - half, y - half), 2 * half, 2 * half, color=colour, lw=0, zorder=3))


def draw_sites(ax: Any, ground: Ground, sites: Sequence[tuple[float, float]], frame: Frame) -> None:
    """Draws the planned sites that are on the map."""
    (left, right), (low, high) = frame.limits
    places = [ground.metres(*site) for site in dict.fromkeys(sites)]
    inside = [(x, y) for x, y in places if left <= x <= right and low <= y <= high]
    if inside:
        ax.scatter(*zip(*inside), 30, marker="^", color="black", edgecolors="white", linewidths=0.6, zorder=5)


def draw_names(ax: Any, values: Mapping[int, int], colours: Sequence[str], names: Sequence[str], frame: Frame) -> None:
    """Draws what the colours mean, below the map."""
    for number in sorted(set(values.values())):
        ax.scatter([], [], 40, marker="s", color=colours[number], label=names[number])
    ax.scatter([], [], 40, marker="s", color=NOTHING, label="no certain cell")
    keys = {"loc": "upper left", "borderaxespad": 0, "frameon": False, "handletextpad": 0.2, "columnspacing": 1.2}
    ax.legend(bbox_to_anchor=(0, -0.36 / frame.height), ncol=4, fontsize=8, **keys)
