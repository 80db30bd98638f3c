"""Coverage of a survey: in how many windows, and on how much of the way, the strongest cell has a level and a signal to
noise ratio, which cell is the strongest, and how many others are within 6 dB of it. In a scan this is told apart for each
carrier with its networks, and for each network that has several.

A window stands for half of the way to the window before it and half of that to the next one, where these follow each other
and have places; one without a place stands for none of it. Windows without numbers do not count, nor do false detections.
"""
from __future__ import annotations

import itertools
from dataclasses import dataclass
from typing import Callable, NamedTuple, Sequence

from . import survey_windows
from .answers import Answer
from .carriers import Carrier, carriers_of, networks_of
from .columns import Column
from .ground import distance
from .survey_data import Survey, SurveyCell, SurveyIdentity
from .survey_table import windows_text
from .survey_windows import NEAR, Window, are_next


class Limits(NamedTuple):
    """What covers a place: a level at least, in the survey's unit, and a signal to noise ratio at least, in dB."""

    level: float
    ratio: float


@dataclass(frozen=True)
class Part(Answer):
    """A part of the windows: `what` is "all", "cell" (any), "level", "ratio", "both", "strongest" (the cell of an identity,
    and of SIB1's cell identity if it was read), or "others" (so many within 6 dB of the strongest: `value`, for a level or
    a ratio the limit). Windows and their share, metres of the way and their share, None without a track, the number of
    stretches without a break, and the metres of the longest. In a scan all but "all" are of a `group`: a carrier with its
    networks, its `frequency` in hertz and `shift` above the file's centre, or all carriers of a network. `plmn` has the
    group's networks, or that of the "strongest" cell."""

    what: str
    value: float | None
    identity: int | None
    cell: int | None
    windows: int
    share: float
    metres: float | None
    way: float | None
    stretches: int
    longest: float | None
    group: str | None = None
    plmn: str | None = None
    frequency: float | None = None
    shift: float | None = None

    def text(self, unit: str) -> str:
        """Returns what the part is, in words, after its group; levels are in this unit."""
        return f"{self.group}: {self.words(unit)}" if self.group else self.words(unit)

    def words(self, unit: str) -> str:
        """Returns what the part is, in words."""
        if self.what == "strongest":
            of = f" of {self.plmn}" if self.plmn and not self.group else ""
            return f"strongest: PCI {self.identity}" + ("" if self.cell is None else f", cell {self.cell}{of}")
        if self.what == "others":
            count = int(self.value or 0)
            return f"{count or 'no'} other cell{'s' * (count > 1)} within {NEAR} dB of the strongest"
        texts = {
            "all": "all windows",
            "cell": "a certain cell",
            "level": f"level at least {self.value or 0:g} {unit}",
            "ratio": f"S/N at least {self.value or 0:g} dB",
            "both": "both",
        }
        return texts[self.what]


class Kind(NamedTuple):
    """Which windows a part has."""

    what: str
    has: Callable[[Window], bool]
    value: float | None = None
    identity: int | None = None
    cell: int | None = None
    plmn: str | None = None


class Group(NamedTuple):
    """A carrier of a scan, or all carriers of a network: its name, and the hertz above the file's centre of its cells. The
    group of another survey has no name, and all cells."""

    name: str | None = None
    plmn: str | None = None
    frequency: float | None = None
    shift: float | None = None
    shifts: frozenset[float | None] = frozenset({None})

    def windows(self, windows: Sequence[Window]) -> list[Window]:
        """Returns windows with the cells of this group alone."""
        return survey_windows.of_carrier(windows, *self.shifts)


def groups_of(survey: Survey) -> list[Group]:
    """Returns the networks that have several carriers, then the carriers; of a survey that is no scan one group."""
    every = carriers_of(survey)
    if all(one.shift is None for one in every):
        return [Group()]
    networks = [group_of(network, every) for network in networks_of(survey)]
    return [*(one for one in networks if len(one.shifts) > 1), *map(group_of_carrier, every)]


def group_of(network: str, carriers: Sequence[Carrier]) -> Group:
    """Returns the group of all carriers of a network."""
    shifts = frozenset(one.shift for one in carriers if network in one.networks)
    return Group(network, network, shifts=shifts)


def group_of_carrier(one: Carrier) -> Group:
    """Returns the group of a carrier."""
    return Group(one.text, " ".join(one.networks) or None, one.frequency, one.shift, frozenset({one.shift}))


def coverage_of(survey: Survey, limits: Limits) -> list[Part]:
    """Returns the parts of a survey's windows."""
    windows = [window for window in survey_windows.windows_of(survey) if not window.is_spoiled]
    whole, first, *further = Whole(windows, lengths_of(windows, survey)), *kinds_of(limits)
    found = [whole.part(first, Group(), windows)]
    for group in groups_of(survey):
        own = group.windows(windows)
        found += [whole.part(kind, group, own) for kind in (*further, *servers(own), *others(own))]
    return found


def lengths_of(windows: Sequence[Window], survey: Survey) -> list[float] | None:
    """Returns the metres of the way that each window stands for, None if no window has a place."""
    if not any(window.place for window in windows):
        return None
    found = [0.0] * len(windows)
    for i, (one, other) in enumerate(zip(windows, windows[1:])):
        if one.place and other.place and are_next(survey, one.seconds, other.seconds):
            half = distance(one.place, other.place) / 2
            found[i], found[i + 1] = found[i] + half, found[i + 1] + half
    return found


# ---- which windows a part has


def kinds_of(limits: Limits) -> list[Kind]:
    """Returns the parts that are in each survey."""

    def has_level(window: Window) -> bool:
        best = window.strongest
        return best is not None and best.level >= limits.level

    def has_ratio(window: Window) -> bool:
        ratio = window.strongest.seen.ratio if window.strongest else None
        return ratio is not None and ratio >= limits.ratio

    return [
        Kind("all", lambda window: True),
        Kind("cell", lambda window: bool(window.sure)),
        Kind("level", has_level, limits.level),
        Kind("ratio", has_ratio, limits.ratio),
        Kind("both", lambda window: has_level(window) and has_ratio(window)),
    ]


def servers(windows: Sequence[Window]) -> list[Kind]:
    """Returns a part for each cell that is the strongest somewhere, those of most windows first."""
    best = [window.strongest for window in windows if window.strongest]
    counts: dict[int, int] = {}
    for one in best:
        counts[one.number] = counts.get(one.number, 0) + 1
    cells = {one.number: one.cell for one in best}
    order = sorted(counts, key=lambda number: (-counts[number], number))
    return [server(number, cells[number]) for number in order]


def server(number: int, cell: SurveyCell | SurveyIdentity) -> Kind:
    """Returns the part in which the cell of a number is the strongest."""

    def has(window: Window) -> bool:
        return window.strongest is not None and window.strongest.number == number

    sib1 = cell.sib1
    plmn = " ".join(sib1.networks) if sib1 else None
    return Kind("strongest", has, identity=cell.identity, cell=sib1.cell if sib1 else None, plmn=plmn)


def others(windows: Sequence[Window]) -> list[Kind]:
    """Returns a part for each number of cells within 6 dB of the strongest, up to the greatest."""
    most = max((count for window in windows if (count := others_in(window)) is not None), default=-1)
    return [with_others(count) for count in range(most + 1)]


def with_others(count: int) -> Kind:
    """Returns the part with so many cells within 6 dB of the strongest."""
    return Kind("others", lambda window: others_in(window) == count, count)


def others_in(window: Window) -> int | None:
    """Returns how many cells are within 6 dB of the strongest one on its carrier, None without a cell; cells that are
    detected and not listed count too."""
    if not window.present:
        return None
    best, *others = window.present
    return sum(one.cell.shift == best.cell.shift and one.level >= best.level - NEAR for one in others)


class Whole(NamedTuple):
    """The windows of a survey, and the metres of the way that each stands for, None if no window has a place."""

    windows: Sequence[Window]
    lengths: Sequence[float] | None

    def part(self, kind: Kind, group: Group, windows: Sequence[Window]) -> Part:
        """Returns how much of the windows a part has, whose cells are those of a group."""
        inside = [kind.has(window) for window in windows]
        runs = [[i for i, _ in run] for has, run in itertools.groupby(enumerate(inside), lambda pair: pair[1]) if has]
        metres = None if self.lengths is None else [sum(self.lengths[i] for i in run) for run in runs]
        total = sum(self.lengths or ())
        return Part(
            what=kind.what,
            value=kind.value,
            identity=kind.identity,
            cell=kind.cell,
            windows=sum(inside),
            share=round(sum(inside) / len(windows), 4) if windows else 0.0,
            metres=None if metres is None else round(sum(metres), 1),
            way=round(sum(metres) / total, 4) if metres is not None and total else None,
            stretches=len(runs),
            longest=None if metres is None else round(max(metres, default=0.0), 1),
            group=group.name,
            plmn=kind.plmn or group.plmn,
            frequency=group.frequency,
            shift=group.shift,
        )


def head_of(survey: Survey, parts: Sequence[Part]) -> str:
    """Returns the line above the table: of how many windows and how much of the way it is."""
    metres, left_out = parts[0].metres, len(survey.spoiled)
    way = "" if metres is None else f" and {metres / 1000:.2f} km of the way"
    spoiled = f", {left_out} without numbers left out" if left_out else ""
    return f"coverage of {windows_text(parts[0].windows)}{way}{spoiled}"


# ---- the table


def percent(share: float | None) -> str:
    return "-" if share is None else f"{100 * share:.1f}"


COLUMNS: tuple[Column[Part, Survey], ...] = (
    Column(
        "what",
        None,
        "",
        None,
        "`all`, `cell`, `level`, `ratio`, `both`, `strongest` or `others`",
        lambda one, _: one.what,
    ),
    Column(
        "value",
        None,
        "",
        None,
        "the limit of `level` or `ratio`; of `others` how many cells are within 6 dB of the strongest",
        lambda one, _: one.value,
    ),
    Column("group", None, "", None, "in a scan, the carrier with its networks, or a network", lambda one, _: one.group),
    Column("plmn", None, "", None, "the group's networks, or that of the strongest cell", lambda one, _: one.plmn),
    Column("frequency", None, "Hz", None, "the carrier's frequency in a scan", lambda one, _: one.frequency),
    Column("shift", None, "Hz", None, "the same above the file's centre", lambda one, _: one.shift),
    Column("identity", None, "", None, "of `strongest`, the cell's identity", lambda one, _: one.identity),
    Column("cell", None, "", None, "of `strongest`, the cell identity of SIB1", lambda one, _: one.cell),
    Column(
        None, "coverage", "", None, "which windows are counted", lambda one, survey: one.text(survey.unit), is_left=True
    ),
    Column("windows", "windows", "", None, "how many windows these are", lambda one, _: one.windows),
    Column(
        "share",
        "windows %",
        "",
        None,
        "their fraction of all",
        lambda one, _: one.share,
        lambda one, _: percent(one.share),
    ),
    Column("metres", "metres", "m", 0, "how much of the way that is", lambda one, _: one.metres),
    Column(
        "way", "way %", "", None, "its fraction of the way", lambda one, _: one.way, lambda one, _: percent(one.way)
    ),
    Column("stretches", "stretches", "", None, "stretches of windows without a break", lambda one, _: one.stretches),
    Column("longest", "longest m", "m", 0, "metres of the longest stretch", lambda one, _: one.longest),
)
