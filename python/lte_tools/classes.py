"""Coverage of a survey by classes of the best server's RSRP, RSRQ and SINR: windows and way of each class, and of windows
without a certain cell. In dBFS, whose zero is the file's, the classes of RSRP are steps of 10 dB down from the maximum.
"""
from __future__ import annotations

import math
from dataclasses import dataclass
from typing import NamedTuple, Sequence

from . import best_server
from .answers import Answer
from .best_server import Placed
from .carriers import Carrier
from .columns import Column
from .quality import Quality, quality_of
from .survey_data import Survey

LIMITS = {"rsrp": (-80.0, -90.0, -100.0, -110.0, -120.0), "rsrq": (-10.0, -15.0, -20.0), "sinr": (20.0, 13.0, 0.0)}
NAMES = {"rsrp": "RSRP", "rsrq": "RSRQ", "sinr": "SINR"}
STEP = 10.0  # dB of a class of levels in dBFS
UNKNOWN, NO_CELL = "unknown", "no-cell"


@dataclass(frozen=True)
class Class(Answer):
    """A class of a measure ("rsrp", "rsrq" or "sinr"): from `least` up to below `most` (None: no end), or without a limit
    "unknown", where the best server's is not known, or "no-cell"; how many windows it has and their share, and metres of the
    way and their share, None without a track. `group`, `plmn` and `frequency` are the carrier's."""

    group: str | None
    plmn: str | None
    frequency: float | None
    measure: str
    least: float | None
    most: float | None
    word: str | None
    windows: int
    share: float
    metres: float | None
    way: float | None

    def text(self, unit: str) -> str:
        """Returns the class in words; levels are in this unit."""
        if self.word:
            return "no certain cell" if self.word == NO_CELL else f"{NAMES[self.measure]} not known"
        name, unit = NAMES[self.measure], unit if self.measure == "rsrp" else "dB"
        if self.most is None:
            return f"{name} at least {self.least or 0:g} {unit}"
        return (
            f"{name} below {self.most:g} {unit}"
            if self.least is None
            else f"{name} {self.least:g} to {self.most:g} {unit}"
        )


class Sample(NamedTuple):
    """The quality of a window's best server, None without a certain cell, and the metres that the window stands for."""

    quality: Quality | None
    metres: float | None


def classes_of(survey: Survey) -> list[Class]:
    """Returns the classes of each carrier and measure, the best first; measures that are nowhere known are left out."""
    found = []
    for carrier, placed in best_server.along(survey):
        samples = [sample_of(one, survey) for one in placed]
        for measure in LIMITS:
            if any(one.quality and getattr(one.quality, measure) is not None for one in samples):
                found += classes_in(samples, measure, carrier, survey.unit)
    return found


def sample_of(one: Placed, survey: Survey) -> Sample:
    best = one.window.leader
    return Sample(quality_of(best, one.window, survey) if best else None, one.metres)


def limits_of(values: Sequence[float], measure: str, unit: str) -> Sequence[float]:
    """Returns the limits of classes, the highest first."""
    if measure != "rsrp" or unit == "dBm":
        return LIMITS[measure]
    highest, lowest = (STEP * math.floor(end / STEP) for end in (max(values), min(values)))
    return [highest - STEP * i for i in range(round((highest - lowest) / STEP) + 1)]


def classes_in(samples: Sequence[Sample], measure: str, carrier: Carrier, unit: str) -> list[Class]:
    """Returns the classes of a measure, those of the highest values first, then that of windows without a certain cell."""
    values = [None if one.quality is None else getattr(one.quality, measure) for one in samples]
    limits = limits_of([value for value in values if value is not None], measure, unit)
    is_open = measure != "rsrp" or unit == "dBm"
    ends: list[float | None] = [None, *limits, *([None] * is_open)]
    total = sum(one.metres or 0 for one in samples)

    def row(least: float | None, most: float | None, word: str | None, inside: Sequence[bool]) -> Class:
        metres = [one.metres for one, is_in in zip(samples, inside) if is_in and one.metres is not None]
        has_way = any(one.metres is not None for one in samples)
        return Class(
            group=carrier.text if carrier.shift is not None else None,
            plmn=" ".join(carrier.networks) or None,
            frequency=carrier.frequency,
            measure=measure,
            least=least,
            most=most,
            word=word,
            windows=sum(inside),
            share=round(sum(inside) / len(samples), 4),
            metres=round(sum(metres), 1) if has_way else None,
            way=round(sum(metres) / total, 4) if total else None,
        )

    found = [
        row(least, most, None, [value is not None and is_between(value, least, most) for value in values])
        for most, least in zip(ends, ends[1:])
    ]
    is_unknown = [value is None and one.quality is not None for value, one in zip(values, samples)]
    words = [row(None, None, UNKNOWN, is_unknown)] * any(is_unknown)
    return [*found, *words, row(None, None, NO_CELL, [one.quality is None for one in samples])]


def is_between(value: float, least: float | None, most: float | None) -> bool:
    """Returns whether a value is in a class."""
    return (least is None or value >= least) and (most is None or value < most)


# ---- the table


def percent(share: float | None) -> str:
    return "-" if share is None else f"{100 * share:.1f}"


COLUMNS: tuple[Column[Class, Survey], ...] = (
    Column(
        "group", "carrier", "", None, "in a scan, the carrier with its networks", lambda one, _: one.group, is_left=True
    ),
    Column("plmn", None, "", None, "the carrier's networks", lambda one, _: one.plmn),
    Column("frequency", None, "Hz", None, "the carrier's frequency", lambda one, _: one.frequency),
    Column("measure", None, "", None, "`rsrp`, `rsrq` or `sinr`, of the best server", lambda one, _: one.measure),
    Column("least", None, "dB", None, "the class's values are not below it", lambda one, _: one.least),
    Column("most", None, "dB", None, "the class's values are below it", lambda one, _: one.most),
    Column(
        "word",
        None,
        "",
        None,
        "`no-cell`: without a certain cell; `unknown`: the measure is not known",
        lambda one, _: one.word,
    ),
    Column(
        None,
        "class",
        "",
        None,
        "the class",
        lambda one, _: None,
        lambda one, survey: one.text(survey.unit),
        is_left=True,
    ),
    Column("windows", "windows", "", None, "windows of the class", lambda one, _: one.windows),
    Column(
        "share",
        "windows %",
        "",
        None,
        "their fraction of all",
        lambda one, _: one.share,
        lambda one, _: percent(one.share),
    ),
    Column("metres", "metres", "m", 0, "how much of the way that is", lambda one, _: one.metres),
    Column(
        "way", "way %", "", None, "its fraction of the way", lambda one, _: one.way, lambda one, _: percent(one.way)
    ),
)
