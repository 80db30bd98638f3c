"""Best server and pilot pollution along a survey's way: stretches of windows that follow each other with one strongest cell,
and those in which several cells are within 6 dB of it. In a scan each carrier has its own.
"""
from __future__ import annotations

import itertools
from dataclasses import dataclass
from typing import Callable, Hashable, Iterator, NamedTuple, Sequence

from . import carriers, coverage, quality, survey_windows
from .answers import Answer
from .carriers import Carrier
from .columns import Column, place_text
from .quality import Quality, quality_of
from .survey_data import Survey
from .survey_table import windows_text
from .survey_windows import NEAR, InWindow, Window, are_next


@dataclass(frozen=True)
class Stretch(Answer):
    """Windows that follow each other and have one best server, the strongest listed cell, else the strongest detected one:
    its identity and SIB1's cell identity (None where there is no certain cell), and its letter on the map. `group`, `plmn`
    and `frequency` are the carrier's, `first` and `last` seconds at which its windows begin, `begin` and `end` their
    longitude and latitude, `metres` the way that the windows stand for. RSRP, RSRQ and SINR are medians, `others` is how many
    other cells are within 6 dB at most, and `identities` has those that are in some window."""

    group: str | None
    plmn: str | None
    frequency: float | None
    letter: str | None
    identity: int | None
    cell: int | None
    first: float
    last: float
    windows: int
    metres: float | None
    begin: tuple[float, float] | None
    end: tuple[float, float] | None
    rsrp: float | None
    rsrq: float | None
    sinr: float | None
    others: int
    identities: tuple[int, ...]


class Placed(NamedTuple):
    """A window with the cells of one carrier alone, and the metres that it stands for."""

    window: Window
    metres: float | None


def near_of(window: Window) -> list[InWindow]:
    """Returns the other cells of a window within 6 dB of its strongest one; cells that are detected alone count too."""
    best, *others = window.present or (None,)
    return [one for one in others if best is not None and one.level >= best.level - NEAR]


def along(survey: Survey) -> Iterator[tuple[Carrier, list[Placed]]]:
    """Yields each carrier with its windows in the order of time, without those whose samples are not numbers."""
    windows = [window for window in survey_windows.windows_of(survey) if not window.is_spoiled]
    lengths: Sequence[float | None] = coverage.lengths_of(windows, survey) or (None,) * len(windows)
    for carrier in carriers.every_of(survey):
        yield carrier, [Placed(*pair) for pair in zip(survey_windows.of_carrier(windows, carrier.shift), lengths)]


def stretches_of(survey: Survey, key: Callable[[Window], Hashable]) -> list[Stretch]:
    """Returns the stretches of windows with one value of a key, in the order of carriers and of time."""
    letters, found = survey_windows.letters_of(survey), []
    for carrier, placed in along(survey):
        for run in runs_of(placed, key, survey):
            found.append(stretch_of(carrier, run, survey, letters))
    return found


def runs_of(placed: Sequence[Placed], key: Callable[[Window], Hashable], survey: Survey) -> list[list[Placed]]:
    """Returns windows as runs that follow each other and have one value of a key."""
    runs: list[list[Placed]] = []
    for one in placed:
        last = runs[-1][-1].window if runs else None
        if last and key(last) == key(one.window) and are_next(survey, last.seconds, one.window.seconds):
            runs[-1].append(one)
        else:
            runs.append([one])
    return runs


def stretch_of(carrier: Carrier, run: Sequence[Placed], survey: Survey, letters: dict[int, str]) -> Stretch:
    """Returns the stretch of windows that follow each other."""
    windows = [one.window for one in run]
    best = windows[0].leader
    known = [quality_of(one.leader, one, survey) for one in windows if one.leader]
    typical = quality.typical(known) if known else Quality()
    metres = [one.metres for one in run if one.metres is not None]
    places = [one.place for one in windows if one.place]
    near = [near_of(one) for one in windows]
    sib1 = best.cell.sib1 if best else None
    return Stretch(
        group=carrier.text if carrier.shift is not None else None,
        plmn=" ".join(sib1.networks) if sib1 else " ".join(carrier.networks) or None,
        frequency=carrier.frequency,
        letter=letters.get(best.number) if best else None,
        identity=best.cell.identity if best else None,
        cell=sib1.cell if sib1 else None,
        first=windows[0].seconds,
        last=windows[-1].seconds,
        windows=len(windows),
        metres=round(sum(metres), 1) if metres else None,
        begin=places[0] if places else None,
        end=places[-1] if places else None,
        rsrp=typical.rsrp,
        rsrq=typical.rsrq,
        sinr=typical.sinr,
        others=max(map(len, near)),
        identities=tuple(dict.fromkeys(one.cell.identity for one in itertools.chain.from_iterable(near))),
    )


def servers_of(survey: Survey) -> list[Stretch]:
    """Returns the stretches with one best server, also those without a certain cell."""
    return stretches_of(survey, lambda window: window.leader.number if window.leader else None)


def polluted(survey: Survey, least: int) -> list[Stretch]:
    """Returns the stretches with one best server in which at least so many cells are within 6 dB of the strongest one, itself
    included."""

    def key(window: Window) -> int | None:
        return window.leader.number if window.leader and len(near_of(window)) + 1 >= least else None

    return [one for one in stretches_of(survey, key) if one.others + 1 >= least]


def head_of_servers(found: Sequence[Stretch], unit: str) -> str:
    """Returns the line above the table of best servers."""
    names = {(one.group, one.identity, one.cell) for one in found if one.identity is not None}
    holes = sum(one.identity is None for one in found)
    stretches = f"{len(found) - holes} stretches of {len(names)} cells, {holes} without a certain cell"
    return f"best server along the way: {stretches}; RSRP in {unit}"


def head_of_pollution(found: Sequence[Stretch], least: int, unit: str) -> str:
    """Returns the line above the table of pilot pollution."""
    windows, metres = sum(one.windows for one in found), [one.metres for one in found if one.metres is not None]
    way = f" and {sum(metres):,.0f} m of the way" if metres else ""
    return f"pilot pollution, {least} cells or more within {NEAR} dB: {windows_text(windows)}{way}; RSRP in {unit}"


# ---- the tables


def quality_column(place: int, kind: str) -> Column[Stretch, Survey]:
    """Returns a column of the quality of a stretch."""
    one = quality.columns_of(kind)[place]
    value = one.of
    return Column(
        one.key,
        one.heading,
        one.unit,
        None,
        one.meaning,
        lambda row, whole: value(Quality(row.rsrp, row.rsrq, row.sinr), whole),
    )


def degrees(name: str, end: str, part: int) -> Column[Stretch, Survey]:
    """Returns a column of the latitude or longitude at which a stretch begins or ends."""

    def value(row: Stretch, _: Survey) -> float | None:
        place = row.begin if end == "begin" else row.end
        return place[part] if place else None

    return Column(
        f"{end}_{name}", None, "deg", None, f"{name} of the {'first' if end == 'begin' else 'last'} window", value
    )


COLUMNS: tuple[Column[Stretch, Survey], ...] = (
    Column(
        "group", "carrier", "", None, "in a scan, the carrier with its networks", lambda one, _: one.group, is_left=True
    ),
    Column("plmn", None, "", None, "the networks of the cell, or of the carrier", lambda one, _: one.plmn),
    Column("frequency", None, "Hz", None, "the carrier's frequency", lambda one, _: one.frequency),
    Column("letter", "map", "", None, "the cell's letter on the map", lambda one, _: one.letter, is_left=True),
    Column(
        "identity",
        "PCI",
        "",
        None,
        "the best server's identity; none without a certain cell",
        lambda one, _: one.identity,
    ),
    Column("cell", "cell", "", None, "the cell identity of its SIB1", lambda one, _: one.cell),
    Column("first", "first s", "s", 2, "second at which the first window begins", lambda one, _: one.first),
    Column("last", "last s", "s", 2, "second at which the last window begins", lambda one, _: one.last),
    Column("windows", "windows", "", None, "windows of the stretch", lambda one, _: one.windows),
    Column("metres", "metres", "m", 0, "how much of the way that is", lambda one, _: one.metres),
    *(quality_column(place, "the best server's: the median") for place in range(3)),
    Column(
        "others",
        f"within {NEAR} dB",
        "",
        None,
        f"other cells within {NEAR} dB of it, at most",
        lambda one, _: one.others,
    ),
    Column(
        "identities",
        "their PCIs",
        "",
        None,
        "identities of these cells, in any window of the stretch",
        lambda one, _: " ".join(map(str, one.identities)),
        is_left=True,
    ),
    *(degrees(name, end, part) for end in ("begin", "end") for part, name in ((1, "latitude"), (0, "longitude"))),
    Column(
        None,
        "from",
        "",
        None,
        "latitude and longitude of the first window",
        lambda one, _: None,
        lambda one, _: place_text(one.begin),
    ),
)
