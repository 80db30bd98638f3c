"""Clashes: for each cell of a survey the others on its carrier that are nearly as strong in the same windows.

Two cells whose identities are equal modulo 3 have the same primary synchronisation signal, and reference signals at the
same resource elements with two antenna ports; modulo 6, with one port too; modulo 30, the same groups of uplink reference
signals (TS 36.211 sections 6.11.1.1, 6.10.1.2 and 5.5.1.3). Two cells of one identity cannot be told apart by a phone.
"""
from __future__ import annotations

import math
import statistics
from dataclasses import dataclass
from typing import Mapping, NamedTuple, Sequence

from . import survey_windows
from .answers import Answer
from .columns import Column
from .survey_data import Detected, Seen, Survey, SurveyCell, SurveyIdentity
from .survey_windows import Window

MODULI = (3, 6, 30)
# what a word of the table means
MEANINGS = {
    "PCI": "both cells have this identity, so a phone cannot tell them apart",
    "mod 3": "one primary signal and, with two or four ports, reference signals at the same resource elements",
    "mod 6": "one primary signal, and reference signals at the same resource elements",
    "mod 30": "as modulo 6, and the same groups of uplink reference signals",
}
FRAME = 0.01  # seconds


@dataclass(frozen=True)
class Clash(Answer):
    """A cell and another one on its carrier: identities, letters on the map or None, cell identities of SIB1 or None, the
    carrier in hertz or None, the moduli of MODULI by which the identities are equal, the windows that list both within the
    limit, those that list both, and medians over the former: the other's level above the cell's in dB, and the
    microseconds from the begin of a frame of the cell to the nearest begin of one of the other."""

    identity: int
    letter: str | None
    cell: int | None
    other: int
    other_letter: str | None
    other_cell: int | None
    frequency: float | None
    moduli: tuple[int, ...]
    windows: int
    together: int
    difference: float | None
    time: float | None

    @property
    def word(self) -> str:
        """What clashes: "PCI" if the identities are the same, else the greatest modulus, or nothing."""
        return "PCI" if self.identity == self.other else f"mod {self.moduli[-1]}" if self.moduli else ""


class Pair(NamedTuple):
    """The values of two cells in a window."""

    one: Seen | Detected
    other: Seen | Detected

    @property
    def difference(self) -> float | None:
        """By how many dB the other one is above the first."""
        known = self.one.level is not None and self.other.level is not None
        return (self.other.level or 0) - (self.one.level or 0) if known else None

    def time(self, rate: float) -> float:
        """Returns the seconds from a frame of the first one to the nearest frame of the other, -0.005 to 0.005."""
        return ((self.other.at - self.one.at) / rate + FRAME / 2) % FRAME - FRAME / 2


def clashes_of(survey: Survey, within: float) -> list[Clash]:
    """Returns the clashes within so many dB, those in most windows first for each cell; of two cells of one identity even
    if no window has both. False detections do not count."""
    pairs = pairs_of(survey_windows.windows_of(survey))
    numbers: dict[int, set[int]] = {}
    for number, other in [*pairs, *namesakes(survey.lines)]:
        numbers.setdefault(number, set()).add(other)
    found, clashing = [], Clashing(survey, within, survey_windows.letters_of(survey))
    for number in sorted(numbers):
        cell, others = survey.lines[number], [(other, survey.lines[other]) for other in sorted(numbers[number])]
        same = [(other, one) for other, one in others if one.shift == cell.shift]
        own = [clashing.clash((number, other), pairs.get((number, other), [])) for other, _ in same]
        found += sorted((one for one in own if one.windows or one.word == "PCI"), key=lambda one: -one.windows)
    return found


def namesakes(cells: Sequence[SurveyCell | SurveyIdentity]) -> list[tuple[int, int]]:
    """Returns pairs of numbers of cells that have one identity, each pair both ways round."""
    by_identity: dict[int, list[int]] = {}
    for number, cell in enumerate(cells):
        if not cell.chance:
            by_identity.setdefault(cell.identity, []).append(number)
    return [(one, other) for same in by_identity.values() for one in same for other in same if one != other]


def pairs_of(windows: Sequence[Window]) -> dict[tuple[int, int], list[Pair]]:
    """Returns by the numbers of two cells what the windows have that list or detect both."""
    found: dict[tuple[int, int], list[Pair]] = {}
    for window in windows:
        for one in window.present:
            for other in window.present:
                if one is not other:
                    found.setdefault((one.number, other.number), []).append(Pair(one.seen, other.seen))
    return found


class Clashing(NamedTuple):
    """A survey whose cells are compared, the decibels within which they clash, and its cells' letters by their numbers."""

    survey: Survey
    within: float
    letters: Mapping[int, str]

    def clash(self, numbers: tuple[int, int], pairs: Sequence[Pair]) -> Clash:
        """Returns what two cells have in common, by their numbers and the windows that list both."""
        cell, other = (self.survey.lines[number] for number in numbers)
        letter, other_letter = (self.letters.get(number) for number in numbers)
        near = [pair for pair in pairs if pair.difference is not None and abs(pair.difference) <= self.within]
        return Clash(
            identity=cell.identity,
            letter=letter,
            cell=cell.sib1.cell if cell.sib1 else None,
            other=other.identity,
            other_letter=other_letter,
            other_cell=other.sib1.cell if other.sib1 else None,
            frequency=self.survey.carrier if cell.shift is None else cell.frequency,
            moduli=tuple(modulus for modulus in MODULI if cell.identity % modulus == other.identity % modulus),
            windows=len(near),
            together=len(pairs),
            difference=survey_windows.median([pair.difference for pair in near]),
            time=time_of(near, self.survey.rate),
        )


def time_of(pairs: Sequence[Pair], rate: float) -> float | None:
    """Returns the median microseconds between frames; where they are about half a frame, all have the first one's sign."""
    if not pairs:
        return None
    first = pairs[0].time(rate)
    away = statistics.median((pair.time(rate) - first + FRAME / 2) % FRAME - FRAME / 2 for pair in pairs)
    found = 1e6 * (first + away)
    return round(found, 1) + 0.0 if math.isfinite(found) else None


# ---- the table


def modulus_column(place: int) -> Column[Clash, Survey]:
    """Returns the column of a modulus."""
    modulus = MODULI[place]
    meaning = f"`yes` if the identities are equal modulo {modulus}"
    return Column(f"mod{modulus}", None, "", None, meaning, lambda one, _: "yes" if modulus in one.moduli else "no")


COLUMNS: tuple[Column[Clash, Survey], ...] = (
    Column("letter", "map", "", None, "the cell's letter on the map", lambda one, _: one.letter, is_left=True),
    Column("identity", "PCI", "", None, "the cell's identity", lambda one, _: one.identity),
    Column("cell", "cell", "", None, "the cell identity of its SIB1", lambda one, _: one.cell),
    Column(
        "other_letter",
        "other map",
        "",
        None,
        "letter on the map of another cell on its carrier",
        lambda one, _: one.other_letter,
        is_left=True,
    ),
    Column("other", "other PCI", "", None, "the identity of that one", lambda one, _: one.other),
    Column("other_cell", "other cell", "", None, "the cell identity of that one's SIB1", lambda one, _: one.other_cell),
    Column("frequency", None, "Hz", None, "the carrier's frequency", lambda one, _: one.frequency),
    *map(modulus_column, range(len(MODULI))),
    Column(
        "clash",
        "clash",
        "",
        None,
        "`PCI` if both have one identity, else the greatest of 3, 6 and 30 modulo which the identities are equal",
        lambda one, _: one.word,
        is_left=True,
    ),
    Column(
        "windows",
        "windows",
        "",
        None,
        "windows in which both are listed and their levels differ by at most the given dB",
        lambda one, _: one.windows,
    ),
    Column("together", "of", "", None, "windows that list both", lambda one, _: one.together),
    Column(
        "difference",
        "dB above",
        "dB",
        None,
        "the other's level above the cell's, the median over `windows`",
        lambda one, _: one.difference,
    ),
    Column(
        "time",
        "later us",
        "us",
        None,
        "from the begin of a frame of the cell to the nearest begin of one of the other, -5000 to 5000; the median",
        lambda one, _: one.time,
    ),
)
