"""Level and quality of a cell in a window under the names of TS 36.214: RSRP, RSRQ and SINR.

RSRP is the level of a reference element, in the survey's unit; SINR is its signal-to-noise ratio (RS-SINR). RSRQ is N times
RSRP by the power of N resource blocks (RSSI). The standard takes RSSI from symbols with reference signals; here it is the
power of all samples, less the noise outside the carrier, so RSRQ is an estimate: a fully loaded cell alone has -10.8 dB.
A file that may hold other carriers too has none, nor has a scan.
"""
from __future__ import annotations

import math
from typing import NamedTuple, Sequence

from .columns import Column, Value
from .rates import SPACING, SUBCARRIERS
from .survey_data import Survey, SurveyCell
from .survey_windows import InWindow, Line, Window, median

BLOCK = SPACING * SUBCARRIERS  # hertz of a resource block
ROOM = 2  # times a carrier's width up to which a file has no room for another one


class Quality(NamedTuple):
    """RSRP in the survey's unit, RSRQ and SINR in dB; None is what is not known."""

    rsrp: float | None = None
    rsrq: float | None = None
    sinr: float | None = None


def quality_of(one: InWindow, window: Window, survey: Survey) -> Quality:
    """Returns the quality of a cell in a window."""
    return Quality(one.seen.level, rsrq_of(one, window, survey), one.seen.ratio)


def typical(qualities: Sequence[Quality]) -> Quality:
    """Returns the medians over windows."""
    return Quality(*(median([getattr(one, name) for one in qualities]) for name in Quality._fields))


def rsrq_of(one: InWindow, window: Window, survey: Survey) -> float | None:
    """Returns RSRQ in dB, or None."""
    level, power, width = one.seen.level, window.power, width_of(one, survey)
    if level is None or width is None or power is None or power.total is None or power.noise is None:
        return None
    inside = held(width, survey)
    noise = max(survey.rate - inside, 0) / SPACING * 10 ** (power.noise / 10)
    rssi = 10 ** (power.total / 10) - noise
    if inside < BLOCK or rssi <= 0:
        return None
    return round(10 * math.log10(inside / BLOCK) + level - 10 * math.log10(rssi), 1) + 0.0


def width_of(one: InWindow, survey: Survey) -> float | None:
    """Returns the hertz of a cell's resource blocks, of an identity alone those of the widest cell; None in a scan, and if
    the file has room for another carrier."""
    cells = [one.cell] if isinstance(one.cell, SurveyCell) else survey.cells
    blocks = [int(cell.bandwidth[1:]) for cell in cells if isinstance(cell, SurveyCell) and cell.has_mib]
    width = BLOCK * max(blocks, default=0)
    return float(width) if width and survey.scan is None and survey.rate <= ROOM * width else None


def held(width: float, survey: Survey) -> float:
    """Returns how many hertz of a carrier a file holds."""
    low, high = max(survey.shift - width / 2, -survey.rate / 2), min(survey.shift + width / 2, survey.rate / 2)
    return max(high - low, 0.0)


def columns_of(kind: str) -> tuple[Column[Quality, Survey], ...]:
    """Returns the columns of the quality of a row; `kind` says of what it is, as "the best server's, the median"."""
    return (
        Column("rsrp", "RSRP", "dBm", None, f"RSRP in the survey's unit, {kind}", lambda one, _: one.rsrp),
        Column("rsrq", "RSRQ", "dB", None, f"RSRQ, an estimate, {kind}", lambda one, _: one.rsrq),
        Column("sinr", "SINR", "dB", None, f"SINR of a reference element, {kind}", lambda one, _: one.sinr),
    )


def window_column(part: int) -> Column[Line, Survey]:
    """Returns a column of the table by window."""
    one = columns_of("in the window")[part]

    def value(line: Line, survey: Survey) -> Value:
        return one.of(quality_of(line.found, line.window, survey), survey) if line.found else None

    return Column(one.key, None, one.unit, None, one.meaning, value)


WINDOW_COLUMNS = tuple(map(window_column, range(3)))
