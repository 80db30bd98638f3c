"""Two surveys on a map: how much the strongest cell's level has changed in each square, and where only one has a cell.

Debian: python3-numpy, python3-matplotlib.
"""
from __future__ import annotations

from typing import Any

from matplotlib import pyplot

from . import picture_map, survey_diff, tables
from .ground import Ground
from .page import saved
from .picture_map import Frame
from .picture_style import WIDTH, begin, headed
from .survey_diff import Difference, PlaceDifference

LEAST = 3.0  # dB of the scale's ends
MOST = 28  # cells that are listed
LEFT = 7.9  # inches to the left of the table
SIZE = 42  # square points of a mark
COLUMNS = ("PCI", "cell", "dB", "S/N dB", "squares", "gained", "lost", "finding")
# what a square without a difference has: its mark, colour, and name
OTHERS = (("^", "#2f8f4e", "cell only after"), ("v", "#b8383d", "cell only before"), ("o", "#bbbbbb", "no cell"))


def drawn(found: Difference, form: str) -> bytes:
    """Returns the bytes of the map, with the table of the cells next to it."""
    begin()
    places = [square.place for square in found.best]
    ground = ground_of(places)
    spots = [ground.metres(*place) for place in places]
    frame = picture_map.Frame(ground, spots or [(0.0, 0.0)], picture_map.MAP[1])
    tall = max(frame.height + picture_map.FOOT, 0.2 * (min(len(found.cells), MOST) + 2)) + picture_map.HEAD
    figure = pyplot.figure(figsize=(WIDTH, tall))
    headed(figure, "What has changed", survey_diff.head_of(found)).set(y=1 - 0.12 / tall, va="top")
    ax = picture_map.axes_at(figure, picture_map.MAP[0], picture_map.HEAD, frame.width, frame.height)
    draw_squares(figure, ax, found, spots, frame)
    draw_cells(figure, found, tall)
    return saved(figure, form)


def ground_of(places: list[tuple[float, float]]) -> Ground:
    """Returns the plane in the middle of all positions."""
    return picture_map.ground_of([(0.0, *place) for place in places or [(0.0, 0.0)]])


def draw_squares(figure: Any, ax: Any, found: Difference, spots: list[tuple[float, float]], frame: Frame) -> None:
    """Draws a mark for each square, by colour the difference, and the scale, north and degrees."""
    xlim, ylim = frame.limits
    ax.set(xlim=xlim, ylim=ylim)
    ax.spines[["top", "right"]].set_visible(True)
    both = [(spot, one.difference) for spot, one in zip(spots, found.best) if one.difference is not None]
    end = max([LEAST, *(abs(value) for _, value in both)])
    if both:
        east, north = zip(*(spot for spot, _ in both))
        keys = {"cmap": "RdYlBu", "vmin": -end, "vmax": end, "edgecolors": "#444444", "linewidths": 0.4, "zorder": 4}
        marks = ax.scatter(east, north, SIZE, [value for _, value in both], marker="s", **keys)
        right = picture_map.MAP[0] + frame.width
        place = picture_map.axes_at(figure, right + 0.12, picture_map.HEAD, 0.12, frame.height / 2)
        bar = figure.colorbar(marks, cax=place)
        bar.set_label("dB, after less before", fontsize=8)
    for kind, (mark, colour, name) in enumerate(OTHERS):
        some = [spot for spot, one in zip(spots, found.best) if one.difference is None and kind_of(one) == kind]
        if some:
            ax.scatter(*zip(*some), SIZE, marker=mark, color=colour, edgecolors="#444444", linewidths=0.4, label=name)
    if ax.get_legend_handles_labels()[0]:
        keys = {"loc": "upper left", "bbox_to_anchor": (0, -0.36 / frame.height), "frameon": False, "borderaxespad": 0}
        ax.legend(ncol=3, fontsize=8, **keys)
    picture_map.draw_scale(ax, frame)
    picture_map.draw_degrees(ax, frame)
    ax.set_title(f"Level of the strongest cell in squares of {found.square:g} m")


def kind_of(one: PlaceDifference) -> int:
    """Returns the place in OTHERS of a square without a difference."""
    return (
        0 if one.before is None and one.after is not None else 1 if one.after is None and one.before is not None else 2
    )


def draw_cells(figure: Any, found: Difference, tall: float) -> None:
    """Draws the table of the cells."""
    rows = tables.texts_of(survey_diff.COLUMNS, found.cells[:MOST], found)
    ax = picture_map.axes_at(figure, LEFT, picture_map.HEAD, WIDTH - LEFT - 0.1, tall - picture_map.HEAD - 0.2)
    ax.axis("off")
    lines = tables.aligned([{name: row[name] for name in COLUMNS if name in row} for row in rows], ("finding",))
    more = len(found.cells) - MOST
    text = "\n".join([*lines, *([f"{more} further cells"] if more > 0 else [])])
    ax.text(0, 1, text, va="top", family="monospace", fontsize=6.8, linespacing=1.5, transform=ax.transAxes)
