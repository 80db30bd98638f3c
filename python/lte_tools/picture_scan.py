"""A scan as a picture: the file's spectrum with its carriers named in it, and below it a row for each cell.

Debian: python3-numpy, python3-matplotlib.
"""
from __future__ import annotations

from typing import Any, NamedTuple, Sequence

import numpy as np
from matplotlib import pyplot

from . import picture_survey
from .columns import earfcn_text
from .picture_style import COLOURS, WIDTH, headed
from .picture_survey import bounds, facts_line, megahertz, name_of
from .survey_data import Survey, SurveyCell

BLOCK = 0.18  # MHz of a resource block
SAME = 0.05  # MHz within which cells are of one carrier
LETTER, LINE = 0.066, 0.145  # inches of a letter of the names, and of a line
SPECTRUM, ROW = 2.6, 0.52  # inches of the spectrum's height, and of a cell's row
LEFT, RIGHT, HEAD, FOOT, BETWEEN = 0.75, 0.3, 0.75, 0.55, 1.0  # inches about the panels
TABLE = 5.6  # inches of the table's width
EMPTY = 6  # dB below the spectrum and above it


class Carrier(NamedTuple):
    """The cells of one carrier: its frequency and its width in MHz, and its name in lines."""

    middle: float
    width: float
    cells: list[SurveyCell]

    @property
    def lines(self) -> list[str]:
        cell = self.cells[0]
        earfcn, *others = earfcn_text(cell).split() or [""]
        sign = "" if cell.frequency else "+"
        number = [f"EARFCN {earfcn}{f' +{len(others)}' if others else ''}"] if earfcn else []
        names = ", ".join(name_of(one).removeprefix("PCI ") for one in self.cells)
        return [f"{self.middle:{sign}.1f} MHz", *number, f"PCI {names}"]


class Name(NamedTuple):
    """A carrier's name, how far up it is in lines, and where it begins and ends in MHz."""

    carrier: Carrier
    up: int
    first: float
    last: float


def carriers_of(found: Survey) -> list[Carrier]:
    """Returns the carriers that have a cell, in the order of frequency; a cell that may be a false detection counts only
    where no other one is."""
    groups: list[list[SurveyCell]] = []
    for cell in sorted(found.cells, key=megahertz):
        if groups and megahertz(cell) - megahertz(groups[-1][0]) <= SAME:
            groups[-1].append(cell)
        else:
            groups.append([cell])
    sure = [[cell for cell in group if not cell.chance] or group for group in groups]
    return [Carrier(megahertz(one[0]), BLOCK * max(int(cell.bandwidth[1:]) for cell in one), one) for one in sure]


def names_of(carriers: Sequence[Carrier], limits: tuple[float, float], inches: float) -> list[Name]:
    """Returns where the carriers' names are above a spectrum of so many inches, each on none of the others."""
    letter = LETTER * (limits[1] - limits[0]) / inches
    found: list[Name] = []
    for one in carriers:
        half = letter * (max(map(len, one.lines)) + 1) / 2
        middle = min(max(one.middle, limits[0] + half), limits[1] - half)
        beside = [name for name in found if name.last > middle - half and middle + half > name.first]
        up = 0
        while any(up < name.up + len(name.carrier.lines) and name.up < up + len(one.lines) for name in beside):
            up += 1
        found.append(Name(one, up, middle - half, middle + half))
    return found


def scan_sheet(found: Survey, title: str | None = None) -> Any:
    """Returns the picture of a scan."""
    cells, wide = found.cells[: picture_survey.MOST], WIDTH - LEFT - RIGHT
    limits = limits_of(found)
    names = names_of(carriers_of(found), limits, wide)
    above = LINE * max([name.up + len(name.carrier.lines) for name in names], default=0) + 0.1
    rows = ROW * max(len(cells), 1)
    tall = HEAD + above + SPECTRUM + BETWEEN + rows + FOOT
    figure = pyplot.figure(figsize=(WIDTH, tall))
    more = len(found.cells) - len(cells)
    facts = facts_line(found, title) + (f"; {more} further cells" if more else "")
    headed(figure, title or found.file, facts).set(y=1 - 0.12 / tall, va="top")

    def axes(left: float, top: float, width: float, height: float) -> Any:
        return figure.add_axes((left / WIDTH, 1 - (top + height) / tall, width / WIDTH, height / tall))

    ax = axes(LEFT, HEAD + above, wide, SPECTRUM)
    draw_spectrum(ax, found, names, limits)
    top, each = HEAD + above + SPECTRUM + BETWEEN, (wide - TABLE - 0.9) / 2
    table = axes(LEFT, top, TABLE, rows)
    picture_survey.draw_table(table, found, cells, {})
    if not cells:
        table.text(0, 1, f"No cell.\n{found.hint or ''}", va="top", fontsize=8, wrap=True, transform=table.transAxes)
    picture_survey.draw_notes(table, found, (0.05, -0.06 / rows), "top")
    for i, (key, name) in enumerate(
        (("level", f"Level, {found.unit}"), ("ratio", "Signal to noise, dB")) if cells else ()
    ):
        ax = axes(LEFT + TABLE + 0.45 + i * (each + 0.35), top, each, rows)
        draw_ranges(ax, cells, key)
        ax.set_title(name)
    return figure


def limits_of(found: Survey) -> tuple[float, float]:
    """Returns the frequencies in MHz from which to which the picture goes."""
    assert found.scan is not None
    spectrum = found.scan.spectrum
    if spectrum is None:
        return found.scan.first / 1e6 - 0.6, found.scan.last / 1e6 + 0.6
    return spectrum.first / 1e6, (spectrum.first + spectrum.step * (len(spectrum.levels) - 1)) / 1e6


def draw_spectrum(ax: Any, found: Survey, names: Sequence[Name], limits: tuple[float, float]) -> None:
    """Draws the power over frequency, the carriers and their names, and the cells' levels."""
    spectrum = found.scan.spectrum if found.scan else None
    levels = [one.level for one in found.cells if one.level is not None and found.unit == "dBFS"]
    if spectrum:
        ax.plot(np.linspace(*limits, len(spectrum.levels)), spectrum.levels, lw=0.8, color="#444444", zorder=3)
        levels += [min(spectrum.levels), max(spectrum.levels)]
    low, high = (min(levels) - EMPTY, max(levels) + EMPTY) if levels else (-100, 0)
    ax.set(xlim=limits, ylim=(low, high), ylabel="dBFS in 15 kHz")
    ax.set_xlabel("MHz" if found.carrier else "MHz beside the centre")
    for i, name in enumerate(names):
        one, colour = name.carrier, COLOURS[i % len(COLOURS)]
        ax.axvspan(one.middle - one.width / 2, one.middle + one.width / 2, color=colour, alpha=0.16, lw=0, zorder=1)
        values = [cell.level for cell in one.cells if cell.level is not None and found.unit == "dBFS"]
        ax.plot([one.middle] * len(values), values, "o", ms=4, color=colour, zorder=4)
        draw_name(ax, name, colour)


def draw_name(ax: Any, name: Name, colour: str) -> None:
    """Draws a carrier's name above the spectrum, and a line from it to the carrier."""
    one, lift = name.carrier, 1 + (0.05 + LINE * name.up) / SPECTRUM
    keys = {"transform": ax.get_xaxis_transform(), "clip_on": False}
    ax.plot([one.middle, one.middle], [0, lift], lw=0.6, color=colour, zorder=2, **keys)
    text = "\n".join(one.lines)
    box = {"facecolor": "white", "edgecolor": "none", "pad": 0.5}
    keys |= {"ha": "center", "va": "bottom", "fontsize": 7, "linespacing": 1.2, "color": colour, "bbox": box}
    ax.text((name.first + name.last) / 2, lift, text, **keys)


def draw_ranges(ax: Any, cells: Sequence[SurveyCell], key: str) -> None:
    """Draws a row for each cell: the range of its windows' values, and their median."""
    every = [[value for one in cell.seen if (value := getattr(one, key)) is not None] for cell in cells]
    low, high = bounds([value for values in every for value in values])
    for i, values in enumerate(every):
        if values:
            ax.plot(
                [min(values), max(values)],
                [i + 0.5] * 2,
                "-",
                lw=4,
                alpha=0.35,
                color=COLOURS[0],
                solid_capstyle="round",
            )
            ax.plot([float(np.median(values))], [i + 0.5], "o", ms=5, color=COLOURS[0], clip_on=False)
        ax.axhline(i + 1, color="#cccccc", lw=0.6)
    ax.set(xlim=(low, high), ylim=(max(1, len(cells)), 0), yticks=[])
