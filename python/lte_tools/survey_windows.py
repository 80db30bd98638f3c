"""The windows of a survey, each with its place, its power and its cells, those without a cell too; and their table."""
from __future__ import annotations

import bisect
import collections
import dataclasses
import itertools
import math
import statistics
import string
from dataclasses import dataclass
from typing import Iterator, NamedTuple, Sequence

from . import carriers, tables, track
from .arguments import SHORTEST
from .columns import BY_KEY, Column, Value, value_of
from .survey_data import Detected, Power, Seen, Survey, SurveyCell, SurveyIdentity, every_seen, timestamp

MOST = 2_000_000  # windows whose begins are reckoned, where the survey does not name them
SLACK = 1e-4  # seconds to which the survey's seconds are rounded
ROUNDED = 0.002  # seconds by which the survey's times may be off, since they are rounded
NEAR = 6  # dB below the strongest cell within which another one counts
FOLLOWS = 1.5  # times the seconds from one window to the next up to which windows follow each other


class InWindow(NamedTuple):
    """A cell in a window: its number among the survey's lines, the cell, and what was measured of it there."""

    number: int
    cell: SurveyCell | SurveyIdentity
    seen: Seen | Detected

    @property
    def level(self) -> float:
        """Its level, very low if none is known, for an order."""
        return -1e9 if self.seen.level is None else self.seen.level

    @property
    def rank(self) -> tuple[float, float]:
        """Its order in the window: by level, and by signal to noise where the gain steps, so that no cell has a level."""
        return self.level, -1e9 if self.seen.ratio is None else self.seen.ratio


@dataclass(frozen=True)
class Window:
    """A window: the second at which it begins, its time in seconds since 1970, longitude and latitude, and power, each
    None if it is not known, whether its samples are not numbers, and its cells, the strongest first."""

    seconds: float
    time: float | None
    place: tuple[float, float] | None
    power: Power | None
    is_spoiled: bool
    cells: tuple[InWindow, ...]

    @property
    def present(self) -> tuple[InWindow, ...]:
        """The cells that are not false detections, also those that are detected and not listed, the strongest first."""
        return tuple(one for one in self.cells if not one.cell.chance)

    @property
    def sure(self) -> tuple[InWindow, ...]:
        """The listed cells that are not false detections, the strongest first."""
        return tuple(one for one in self.present if isinstance(one.seen, Seen))

    @property
    def strongest(self) -> InWindow | None:
        """The strongest listed cell that is not a false detection, or None."""
        return next(iter(self.sure), None)

    @property
    def bests(self) -> tuple[InWindow, ...]:
        """The strongest listed cell of each carrier that is not a false detection."""
        first: dict[float | None, InWindow] = {}
        for one in self.sure:
            first.setdefault(one.cell.shift, one)
        return tuple(first.values())

    @property
    def leader(self) -> InWindow | None:
        """The strongest listed cell, else the strongest one that is detected, or None."""
        return next(iter((*self.sure, *self.present)), None)


def windows_of(survey: Survey) -> list[Window]:
    """Returns the windows of a survey in the order of time."""
    places = {second: (lon, lat) for second, lon, lat in (survey.track.windows if survey.track else ())}
    powers = {one.seconds: one for one in survey.powers}
    starts = starts_of(survey)
    seen: dict[float, dict[int, InWindow]] = {start: {} for start in starts}
    for number, cell in enumerate(survey.lines):
        for one in every_seen(cell):
            found, here = InWindow(number, cell, one), seen.setdefault(start_of(one, starts, survey.window), {})
            here[number] = max(here.get(number, found), found, key=lambda pair: pair.rank)
    times = Times(survey)
    return [
        Window(
            start,
            times.at(start),
            places.get(start) or next((one.seen.place for one in cells.values() if one.seen.place), None),
            powers.get(start),
            start in survey.spoiled,
            tuple(sorted(cells.values(), key=lambda one: one.rank, reverse=True)),
        )
        for start, cells in sorted(seen.items())
    ]


def of_carrier(windows: Sequence[Window], *shifts: float | None) -> list[Window]:
    """Returns windows with the cells of some carriers of a scan alone, by hertz above the file's centre."""
    return [
        dataclasses.replace(one, cells=tuple(each for each in one.cells if each.cell.shift in shifts))
        for one in windows
    ]


def starts_of(survey: Survey) -> list[float]:
    """Returns the seconds at which windows begin: by their powers and places; if these are not of all windows, one after
    the other from the first known one or the file's begin."""
    placed = {second for second, _, _ in survey.track.windows} if survey.track else set[float]()
    known = {one.seconds for one in survey.powers} | placed | set(survey.spoiled)
    is_whole = survey.powers or survey.live or len(known) >= survey.windows
    if not is_whole and survey.windows <= MOST and survey.every >= SHORTEST:
        first = min(known, default=0.0) % survey.every
        numbers = set(range(survey.windows)) - {round((start - first) / survey.every) for start in known}
        known |= {round(first + i * survey.every, 6) for i in numbers}
    return sorted(known)


def start_of(one: Seen | Detected, starts: Sequence[float], length: float) -> float:
    """Returns the second at which the window of a frame begins; its own if no window is known there."""
    i = bisect.bisect_right(starts, one.seconds + SLACK) - 1
    return starts[i] if i >= 0 and one.seconds < starts[i] + length else one.seconds


class Times:
    """The time at each second of a survey: by the begin of the file or capture, or by the last frame from there up to the
    second if that frame has another."""

    def __init__(self, survey: Survey) -> None:
        self.length = survey.window
        begins = [(one.first, one.datetime) for one in survey.parts] or [(0.0, survey.datetime)]
        times = [(first, None if text is None else timestamp(text)) for first, text in begins]
        self.begins = sorted(times, key=lambda pair: pair[0])
        seen = (one for cell in survey.cells for one in cell.seen)
        self.known = sorted((one.seconds, time) for one in seen if (time := one.time) is not None)

    def at(self, start: float) -> float | None:
        """Returns the seconds since 1970 at which a window begins, or None."""
        part = max(bisect.bisect_right(self.begins, start + SLACK, key=lambda pair: pair[0]), 1)
        first, begin = self.begins[part - 1]
        time = None if begin is None else begin + start - first
        ends = (pair[0] - SLACK for pair in self.begins[part : part + 1])
        i = bisect.bisect_left(self.known, (min([start + self.length, *ends]),)) - 1
        if i >= 0 and self.known[i][0] >= first - SLACK:
            second, known = self.known[i]
            own = known + start - second
            time = own if time is None or abs(own - time) > ROUNDED else time
        return time if time is not None and track.FIRST <= time <= track.LAST else None


def are_next(survey: Survey, one: float, other: float) -> bool:
    """Returns whether windows that begin at two seconds follow each other: they are near, counting the seconds that are
    missing between files or captures, which are known."""
    begins = [part.first for part in survey.parts]
    between = survey.parts[bisect.bisect_right(begins, one + SLACK) : bisect.bisect_right(begins, other + SLACK)]
    gaps = [math.inf if part.missing is None else part.missing for part in between]
    return other - one + sum(gaps) <= FOLLOWS * survey.every


def strongest_of(survey: Survey) -> dict[float, InWindow]:
    """Returns by the second at which a window begins its strongest listed cell that is not a false detection; if there is
    none, the strongest cell that is detected."""
    return {window.seconds: window.leader for window in windows_of(survey) if window.leader}


def leaders_of(survey: Survey) -> list[int]:
    """Returns the cells that are the strongest at some position of the track, by number, those at most positions first."""
    best, placed = strongest_of(survey), survey.track.windows if survey.track else ()
    count = collections.Counter(best[second].number for second, _, _ in placed if second in best)
    return sorted(count, key=lambda number: (-count[number], number))


def letters_of(survey: Survey) -> dict[int, str]:
    """Returns by the numbers of cells the letters that they have on the map, in a scan on that of their carrier."""
    numbers, found = {id(cell): number for number, cell in enumerate(survey.lines)}, dict[int, str]()
    for one in carriers.by_carrier(survey):
        found |= {numbers[id(one.lines[number])]: letter for number, letter in zip(leaders_of(one), letters())}
    return found


def letters() -> Iterator[str]:
    """Yields A to Z, AA to ZZ, and so on."""
    for count in itertools.count(1):
        yield from map("".join, itertools.product(string.ascii_uppercase, repeat=count))


# ---- the table


class Line(NamedTuple):
    """A line of the table: a window, and a cell in it, or None in the only line of a window without a cell."""

    window: Window
    found: InWindow | None


def lines_of(survey: Survey) -> list[Line]:
    """Returns a line for each cell in each window, and one for each window without a cell."""
    return [Line(window, one) for window in windows_of(survey) for one in window.cells or (None,)]


def of_cell(key: str) -> Column[Line, Survey]:
    """Returns the survey's column of this key, as one of the table by window."""

    def value(line: Line, survey: Survey) -> Value:
        return value_of(key, line.found.cell, survey) if line.found else None

    return Column(key, None, BY_KEY[key].unit, None, BY_KEY[key].meaning, value)


def of_seen(key: str, unit: str, meaning: str) -> Column[Line, Survey]:
    """Returns a column of what was measured in the window."""

    def value(line: Line, survey: Survey) -> Value:
        found: Value = getattr(line.found.seen, key, None) if line.found else None
        return found

    return Column(key, None, unit, None, meaning, value)


def below_of(line: Line) -> float | None:
    """Returns by how many dB a cell is below the strongest one on its carrier in its window, or None."""
    if line.found is None or line.found.seen.level is None:
        return None
    shift = line.found.cell.shift
    others = [one for one in line.window.present if one.cell.shift == shift and one.seen.level is not None]
    return round(others[0].level - line.found.seen.level, 1) + 0.0 if others else None


def equal_modulo(modulus: int) -> Column[Line, Survey]:
    """Returns the column of the other cells in the window whose identities are equal modulo a number."""

    def value(line: Line, survey: Survey) -> Value:
        if line.found is None or line.found not in line.window.present:
            return None
        cell = line.found.cell
        others = (one.cell for one in line.window.present if one.number != line.found.number)
        return " ".join(
            str(other.identity)
            for other in others
            if other.shift == cell.shift and (other.identity - cell.identity) % modulus == 0
        )

    meaning = (
        f"identities of the other cells on its carrier in the window that are equal to the cell's modulo {modulus}"
    )
    return Column(f"mod{modulus}", None, "", None, meaning, value)


def median(values: Sequence[float | None]) -> float | None:
    """Returns the median of the values that are known, in a tenth, or None."""
    known = [value for value in values if value is not None]
    return round(statistics.median(known), 1) + 0.0 if known else None


COLUMNS: tuple[Column[Line, Survey], ...] = (
    Column("file", None, "", None, "the file's name", lambda line, survey: survey.file),
    Column("window", None, "s", None, "second at which the window begins", lambda line, survey: line.window.seconds),
    Column(
        "datetime",
        None,
        "",
        None,
        "time of `window`",
        lambda line, survey: None if line.window.time is None else track.iso(line.window.time),
    ),
    Column(
        "latitude", None, "deg", None, "the window's place", lambda line, _: line.window.place and line.window.place[1]
    ),
    Column(
        "longitude", None, "deg", None, "the window's place", lambda line, _: line.window.place and line.window.place[0]
    ),
    of_cell("frequency"),
    of_cell("identity"),
    *map(of_cell, ("plmn", "tac", "cell", "enodeb", "sector", "chance", "doubts")),
    of_seen("level", "dBFS", "level of a reference element in the window"),
    Column("unit", None, "", None, "the unit of levels, dBFS or dBm", lambda line, survey: survey.unit),
    Column(
        "below",
        None,
        "dB",
        None,
        "by how much it is below the strongest cell on its carrier in the window; false detections do not count",
        lambda line, survey: below_of(line),
    ),
    of_seen("ratio", "dB", "signal to noise of a reference element in the window"),
    of_seen("offset", "Hz", "frequency offset in the window"),
    of_seen("error", "Hz", "its standard error"),
    of_seen("gain", "dB", "gain steps of the radio up to here, which are not in `level`"),
    of_seen("seconds", "s", "second of the cell's first frame in the window"),
    of_seen("sfn", "", "that frame's number"),
    Column(
        "noise",
        None,
        "dBFS",
        None,
        "noise floor in 15 kHz",
        lambda line, survey: line.window.power.noise if line.window.power else None,
    ),
    Column(
        "total",
        None,
        "dBFS",
        None,
        "power of all samples",
        lambda line, survey: line.window.power.total if line.window.power else None,
    ),
    Column(
        "spoiled",
        None,
        "",
        None,
        "`yes` if the window's samples are not numbers",
        lambda line, survey: "yes" if line.window.is_spoiled else "no",
    ),
)


# of a survey with cells that are detected and not listed
DEEP_COLUMNS: tuple[Column[Line, Survey], ...] = (
    Column(
        "detected",
        None,
        "",
        None,
        "`yes` if the cell is detected in the window (`--deep`), and no list of it has the cell",
        lambda line, survey: None if line.found is None else "no" if isinstance(line.found.seen, Seen) else "yes",
    ),
    of_seen("matches", "", "the signs of 124 that match"),
    Column(
        "near",
        None,
        "",
        None,
        f"`yes` if the cell is within {NEAR} dB of the strongest cell on its carrier in the window",
        lambda line, survey: None if (below := below_of(line)) is None else "yes" if below <= NEAR else "no",
    ),
    *map(equal_modulo, (3, 30)),
)


def csv_of(survey: Survey) -> str:
    """Returns the table by window for other programs."""
    from .quality import WINDOW_COLUMNS

    more = () if survey.identities is None else DEEP_COLUMNS
    return tables.csv_of((*COLUMNS, *WINDOW_COLUMNS, *more), lines_of(survey), survey)
