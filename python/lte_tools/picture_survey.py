"""A survey as a picture: each cell a row, with its level and signal to noise over time.

Debian: python3-numpy, python3-matplotlib.
"""
from __future__ import annotations

import math
import textwrap
from typing import Any, Mapping, Sequence

import numpy as np
from matplotlib import pyplot

from . import columns, survey_table
from .picture_style import COLOURS, MARKS, WIDTH, facts_of, headed, number_text
from .radio import Real
from .survey_data import Survey, SurveyCell, SurveyIdentity

Signs = Mapping[int, tuple[str, str, str]]  # letter, mark and colour of a cell, by its identity as an object

ROW, TALL = 0.48, 0.9  # inches of a cell's row, of many cells and of few
MOST = 100  # rows
NOTES, WRAP = 8, 76  # lines of notes, and characters of one
GREY = "#707070"
TOP, BOTTOM = 0.1, 0.82  # of a row, between which its values stand; below are the windows that list it


def survey_sheet(found: Survey, title: str | None = None, signs: Signs | None = None) -> Any:
    """Cells over time: level, signal to noise, offset, and when each was seen; with the letter, mark and colour that
    some cells have, by their identity as objects, else the strongest with marks of their own."""
    cells = found.cells[:MOST]
    room = max(ROW * len(cells), min(TALL * len(cells), 3.6), ROW)
    figure = pyplot.figure(figsize=(WIDTH, 3.5 + room), layout="constrained")
    more = len(found.cells) - len(cells)
    headed(figure, title or found.file, facts_line(found, title) + (f"; {more} further cells" if more else ""))
    keys = {"width_ratios": (4.1, 4.2, 3.4), "height_ratios": (2, room + 0.35)}
    share = "none" if found.scan else "col"
    (names, levels, offsets), (table, *lanes) = figure.subplots(2, 3, sharex=share, gridspec_kw=keys)
    marked = zip(strong_first(cells), MARKS, COLOURS)
    strongest = signs or {id(cell): ("", mark, colour) for cell, mark, colour in marked}
    draw_together(levels, found, cells, strongest, "level")
    draw_together(offsets, found, cells, strongest, "offset")
    draw_powers(levels, found)
    levels.set(title="Level of a reference element", ylabel=found.unit)
    offsets.set(title="Frequency offset that was taken off", ylabel="Hz")
    offsets.ticklabel_format(axis="y", useOffset=False)
    draw_names(names, found, cells, strongest)
    draw_notes(names, found, (0, 0), "bottom")
    draw_table(table, found, cells, strongest)
    for ax, key, name in zip(lanes, ("level", "ratio"), (f"level, {found.unit}", "signal to noise, dB")):
        draw_lanes(ax, found, cells, key)
        ax.set(title=f"Each cell: {name}; ticks: it is listed", xlabel="seconds of the file", xlim=(0, found.seconds))
    return figure


def facts_line(found: Survey, title: str | None) -> str:
    facts = facts_of(found.form, found.rate, found.carrier, found.shift)
    if found.datetime:
        facts.append(f"from {found.datetime} on")
    windows = f"{survey_table.windows_text(found.windows)} of {found.window:g} s"
    if found.windows > 1 and found.every > 1.5 * found.window:
        windows += f", one every {found.every:g} s"
    return ", ".join([found.file] * bool(title) + facts + [f"{found.seconds:,.2f} s", windows])


def strong_first(cells: Sequence[SurveyCell]) -> list[SurveyCell]:
    """Returns the cells that are drawn together, the strongest first."""
    sure = [cell for cell in cells if not cell.chance and cell.level is not None]
    return sorted(sure, key=lambda cell: -(cell.level or 0))[: len(MARKS)]


def name_of(cell: SurveyCell | SurveyIdentity) -> str:
    return f"PCI {cell.identity}" + "?" * (cell.chance or bool(cell.doubts))


def number_of(cell: SurveyCell) -> str:
    """Returns the eNodeB and its cell in brackets, where SIB1 was read."""
    return f" ({cell.sib1.enodeb}, {cell.sib1.sector})" if cell.sib1 else ""


def draw_together(ax: Any, found: Survey, cells: Sequence[SurveyCell], strongest: Signs, key: str) -> None:
    """Draws a value of all cells over time, of a scan over frequency: the strongest by marks of their own."""
    for cell in cells:
        _, mark, colour = strongest.get(id(cell), ("", ".", "#b0b0b0"))
        places, values = seen_of(cell, found, key)
        if found.scan:
            places = np.full(len(places), megahertz(cell))
        every = max(1, len(values) // 12)
        size, lead = (3 if mark == "." else 5), id(cell) in strongest
        ax.plot(places, values, ls="-" if lead else "", lw=0.9, color=colour, zorder=3 if lead else 2)
        some = slice(0, None, every if lead else 1)
        ax.plot(places[some], values[some], mark, ms=size, color=colour, mfc=colour, zorder=3 if lead else 2)
    ax.tick_params(labelbottom=True)
    if found.scan:
        first, last = found.scan.first / 1e6, found.scan.last / 1e6
        ax.set(xlabel="MHz" if found.carrier else "MHz beside the centre", xlim=(first - 0.5, last + 0.5))


def draw_powers(ax: Any, found: Survey) -> None:
    """Draws total power and noise floor over time, with marks where the radio's gain steps and where samples are missing."""
    seconds = [one.seconds for one in found.powers]
    for key, name in (("total", "all samples"), ("noise", "noise floor in 15 kHz")) if seconds else ():
        values = [math.nan if value is None else value for value in (getattr(one, key) for one in found.powers)]
        ax.plot(seconds, values, lw=0.9, ls="-" if key == "total" else ":", color=GREY, zorder=1)
        last = next((value for value in reversed(values) if math.isfinite(value)), 0)
        ax.text(1, last, name, fontsize=6.5, color=GREY, ha="right", va="bottom", transform=ax.get_yaxis_transform())
    keys: dict[str, Any] = {"fontsize": 6.5, "va": "bottom", "ha": "center", "transform": ax.get_xaxis_transform()}
    for step in found.steps:
        ax.axvline(step.seconds, lw=0.8, ls="--", color=GREY)
        ax.text(step.seconds, 0.01, f"{step.decibels:+.1f} dB", **keys)
    for gap in found.gaps if not found.scan else ():
        ax.axvline((gap.first + gap.last) / 2, lw=0.8, ls=":", color="black")
        ax.text((gap.first + gap.last) / 2, 0.01, "gap", **keys)


def megahertz(cell: SurveyCell) -> float:
    """Returns a scanned cell's frequency in MHz, above the file's centre where that is not known."""
    return ((cell.shift or 0) if cell.frequency is None else cell.frequency) / 1e6


def seen_of(cell: SurveyCell, found: Survey, key: str) -> tuple[Real, Real]:
    """Returns seconds and values of the windows that list a cell, with a gap where windows between do not."""
    places: list[float] = []
    values: list[float] = []
    for one in cell.seen:
        if places and one.seconds - places[-1] > 1.5 * found.every + 0.02:
            places.append(math.nan)
            values.append(math.nan)
        value = getattr(one, key)
        places.append(one.seconds)
        values.append(math.nan if value is None else value)
    return np.array(places), np.array(values)


def draw_names(ax: Any, found: Survey, cells: Sequence[SurveyCell], strongest: Signs) -> None:
    """Draws the meaning of the marks."""
    ax.axis("off")
    marked = [cell for cell in cells if id(cell) in strongest]
    for cell in sorted(marked, key=lambda cell: -(cell.level or 0)):
        letter, mark, colour = strongest[id(cell)]
        text = f"{letter} {name_of(cell)}{number_of(cell)}: {number_text(cell.level)} at its strongest".lstrip()
        ax.plot([], [], ls="-", marker=mark, ms=5, lw=0.9, color=colour, label=text)
    if len(marked) < len(cells):
        ax.plot([], [], ls="", marker=".", ms=3, color="#b0b0b0", label="the others")
    if cells:
        ax.legend(loc="upper left", bbox_to_anchor=(0, 1), frameon=False, fontsize=8, borderaxespad=0)
    else:
        ax.text(0, 1, "no cell", va="top", fontsize=12, transform=ax.transAxes)
        hint = "\n".join(textwrap.wrap(found.hint or "", 56))
        ax.text(0, 0.85, hint, va="top", fontsize=8, transform=ax.transAxes).set_in_layout(False)


# places of the table's columns, and their heads
COLUMNS = (
    (0.05, "PCI\nrule"),
    (0.26, "PLMN, TAC\ncell (eNodeB, its cell)"),
    (0.69, "windows\nseconds"),
    (0.99, "{}\nS/N dB"),
)


def draw_table(ax: Any, found: Survey, cells: Sequence[SurveyCell | SurveyIdentity], strongest: Signs) -> None:
    """Draws what is known of each cell, beside its row: with its letter, mark and colour where it has them."""
    ax.axis("off")
    ax.set(xlim=(0, 1), ylim=(max(1, len(cells)), 0))
    keys: dict[str, Any] = {"va": "center", "linespacing": 1.35, "fontsize": 7, "clip_on": False}
    for place, head in COLUMNS if cells else ():
        side = "right" if place > 0.9 else "left"
        ax.text(place, -0.05, head.format(found.unit), **{**keys, "va": "bottom"}, ha=side, color="#555555")
    for i, cell in enumerate(cells):
        letter, mark, colour = strongest.get(id(cell), ("", "", ""))
        ax.plot(0.015, i + 0.5, mark or "", ms=5, color=colour or None, clip_on=False)
        ax.text(
            0.05,
            i + 0.5,
            f"{letter} {name_of(cell)}\n".lstrip(),
            **{**keys, "fontsize": 8.5, "linespacing": 1.1},
            fontweight="bold",
        )
        ax.text(0.05, i + 0.5, f"\n{cell.rule}", **keys)
        ax.text(0.26, i + 0.5, "\n".join(identity_lines(cell)), **keys)
        seconds = f"{cell.first:.1f} to {cell.last:.1f}"
        ax.text(0.69, i + 0.5, f"{cell.windows} of {found.windows}\n{seconds}", **keys)
        ax.text(0.99, i + 0.5, f"{number_text(cell.level)}\n{number_text(cell.ratio)}", **keys, ha="right")
        ax.axhline(i + 1, color="#cccccc", lw=0.6, clip_on=False)


def draw_notes(ax: Any, found: Survey, place: tuple[float, float], side: str) -> None:
    """Draws sentences on marks, gaps, loops and gain steps, with their `side` (top or bottom) at a place of axes."""
    lines = [line for note in survey_table.notes_of(found) for line in textwrap.wrap(note, WRAP)]
    text = "\n".join(lines[:NOTES])
    ax.text(*place, text, va=side, fontsize=6.5, clip_on=False, transform=ax.transAxes).set_in_layout(False)


def identity_lines(cell: SurveyCell | SurveyIdentity) -> list[str]:
    """Returns network, area and cell of SIB1, or why there is none; of a scan the carrier; and the echo."""
    if isinstance(cell, SurveyIdentity):
        return ["no MIB", f"{number_text(cell.below)} dB below the strongest cell"]
    sib1, echo = cell.sib1, max(cell.echoes, key=lambda one: one.level or 0) if cell.echoes else None
    if sib1 is None:
        lines = [f"no SIB1: {cell.no_sib1}"]
    else:
        names = sib1.networks
        more = f" +{len(names) - 2}" if names[2:] else ""
        lines = [f"{' '.join(names[:2])}{more}, TAC {sib1.tac}", f"{sib1.cell}{number_of(cell)}"]
    if cell.shift is not None:
        earfcn, *others = columns.earfcn_text(cell).split()
        number = f"{earfcn} +{len(others)}" if others else f"EARFCN {earfcn}"
        lines.append(f"{columns.megahertz_text(cell)} MHz, {number}")
    return lines + ([f"echo {echo.delay} us, {echo.level} dB"] if echo else [])


def draw_lanes(ax: Any, found: Survey, cells: Sequence[SurveyCell], key: str) -> None:
    """Draws a row for each cell, all of one scale; ticks below its values are the windows that list it."""
    every = [getattr(one, key) for cell in cells for one in cell.seen]
    low, high = bounds([value for value in every if value is not None])
    ticks: list[float] = []
    labels: list[str] = []
    for i, cell in enumerate(cells):
        places, values = seen_of(cell, found, key)
        heights = i + TOP + (BOTTOM - TOP) * (high - values) / (high - low)
        ax.plot(places, heights, "-", marker=".", ms=2.5, lw=0.8, color=COLOURS[0])
        ax.plot(places, np.full(len(places), i + 0.93), "|", ms=3.5, mew=0.8, color="#444444")
        ticks += [i + TOP, i + BOTTOM]
        labels += [f"{high:g}", f"{low:g}"]
        ax.axhline(i + 1, color="#888888", lw=0.6)
    ax.set_yticks(ticks, labels, fontsize=6)
    ax.set_ylim(max(1, len(cells)), 0)


def bounds(values: Sequence[float]) -> tuple[float, float]:
    """Returns tens around all values."""
    if not values:
        return 0, 10
    low, high = 10 * math.floor(min(values) / 10), 10 * math.ceil(max(values) / 10)
    return low, max(high, low + 10)
