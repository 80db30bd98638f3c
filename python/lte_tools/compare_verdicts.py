"""Two lists of cells held against each other: which lines are one cell, what differs, and what is no difference.

Cells are one if identity and carrier are equal; of several the one whose SIB1, frame start and further fields are equal.
Cells that are left on both sides are one in spite of their identities if SIB1 is equal, or if the identities differ as a
slip makes them and no other field differs. Levels, frame starts and frame numbers are compared after one constant for the
whole list, which is stated once.
"""
from __future__ import annotations

import bisect
import dataclasses
import statistics
from collections import Counter
from dataclasses import dataclass
from typing import Any, Callable, Iterable, NamedTuple, Sequence, TypeVar

from . import bands, compare_lists
from .answers import Answer
from .compare_lists import EXTENDED, FRAME, FRAMES, GROUPS, MEMBERS, PRIMARY, STRONGEST, CellList, Frame, Level, Listed
from .survey_data import SurveyCell

T = TypeVar("T", Frame, Level)
TOLERANCE = 2.0  # dB by which a level may differ from the list's constant (own)
# seconds of the cyclic prefix in the symbols after a slot's first (TS 36.211 section 6.12), and a sample at 1.92 MHz
PREFIXES = {False: 144 / 30.72e6, True: 512 / 30.72e6}
SAMPLE = 1 / 1.92e6
NEAR = 0.2  # seconds between a level of theirs and the one of ours that it is compared with
FEWEST = 3  # cells with a level for a constant
MOST_TRIED = 200  # lines of one identity that are tried for the best match
ALIKE = 3  # equal fields that make cells of two identities one
# words of a verdict, and what they mean
VERDICTS = {
    "agree": "both lists have the cell, and all fields that both have are equal",
    "differ": "both lists have the cell, and this field differs",
    "two-lines": "their list has the cell in several lines",
    "theirs-only": "only their list has the cell",
    "ours-only": "only our list has the cell",
    "not-in-recording": "their list has the cell on a carrier that our list did not look at",
}
DIFFERENCES = ("differ", "two-lines", "theirs-only", "ours-only")


@dataclass(frozen=True)
class Verdict(Answer):
    """A line of the comparison: a word of VERDICTS, the `field` that differs, the cell's identity, cell identity and carrier
    in hertz (ours if both have it), both values as texts, the `fields` that were compared and agree, a `note`, the
    `places` in their list, and of a cell that only theirs has the `case` (compare_reasons.py), if it was asked for."""

    verdict: str
    field: str | None
    identity: int | None
    cell: int | None
    frequency: float | None
    ours: str | None
    theirs: str | None
    fields: tuple[str, ...]
    note: str
    places: tuple[str, ...]
    case: str | None = None


@dataclass(frozen=True)
class Levels(Answer):
    """The level of a cell in their list relative to ours, after the constant, in dB: median, minimum and maximum of so many
    pairs of levels."""

    identity: int | None
    cell: int | None
    count: int
    median: float
    least: float
    greatest: float


@dataclass(frozen=True)
class Constants(Answer):
    """What their whole list has more than ours: dB, seconds of frame start, frame numbers; None if it is not compared."""

    level: float | None
    start: float | None
    sfn: int | None


@dataclass(frozen=True)
class Comparison(Answer):
    """Two lists: their names, the form of theirs, the cells of each, the fields that were compared, the constants, the
    verdicts, the levels of each cell and of all, and notes on what was not compared."""

    ours: str
    theirs: str
    form: str
    our_cells: int
    their_cells: int
    fields: tuple[str, ...]
    constants: Constants
    verdicts: tuple[Verdict, ...]
    levels: tuple[Levels, ...]
    all_levels: Levels | None
    notes: tuple[str, ...]

    @property
    def agrees(self) -> bool:
        """Whether nothing differs."""
        return not any(one.verdict in DIFFERENCES for one in self.verdicts)


class Pair(NamedTuple):
    """A cell of both lists, and what makes the two lines one cell if their identities differ."""

    ours: Listed
    theirs: Listed
    basis: str = ""


class Compared(NamedTuple):
    """A field of a cell that both lists have: whether it is equal, both values as texts, and a note."""

    is_equal: bool
    ours: str
    theirs: str
    note: str = ""


# ---- fields


def simple(name: str, text: Callable[[Any], str] = str) -> Callable[[Listed, Listed], Compared | None]:
    """Returns the comparison of a field that is equal or not."""

    def compare(ours: Listed, theirs: Listed) -> Compared | None:
        one, other = getattr(ours, name), getattr(theirs, name)
        return None if None in (one, other) else Compared(one == other, text(one), text(other))

    return compare


def carrier_field(ours: Listed, theirs: Listed) -> Compared | None:
    """Compares carriers, to within the raster."""
    if ours.frequency is None or theirs.frequency is None:
        return None
    texts = [f"{one.frequency / 1e6:.1f} MHz" for one in (ours, theirs) if one.frequency]
    return Compared(is_carrier(ours, theirs), texts[0], texts[1])


def identity_field(ours: Listed, theirs: Listed) -> Compared | None:
    """Compares physical-layer cell identities."""
    if ours.identity is None or theirs.identity is None:
        return None
    note = "" if ours.identity == theirs.identity else slip_of(ours.identity, theirs.identity) or ""
    return Compared(ours.identity == theirs.identity, str(ours.identity), str(theirs.identity), note)


def ports_field(ours: Listed, theirs: Listed) -> Compared | None:
    """Compares antenna ports."""
    found = simple("ports")(ours, theirs)
    note = "no difference if theirs counts the ports that it used" if theirs.ports == 1 else ""
    return found and found._replace(note="" if found.is_equal else note)


def plmn_field(ours: Listed, theirs: Listed) -> Compared | None:
    """Compares networks: each of theirs has to be one of ours."""
    if not ours.plmns or not theirs.plmns:
        return None
    is_equal = all(any(compare_lists.is_same_network(one, other) for other in ours.plmns) for one in theirs.plmns)
    return Compared(is_equal, " ".join(ours.plmns), " ".join(theirs.plmns))


def tac_field(ours: Listed, theirs: Listed) -> Compared | None:
    """Compares tracking area codes."""
    found = simple("tac")(ours, theirs)
    if found and ours.tac is not None and theirs.tac == 256 * (ours.tac % 256) + ours.tac // 256:
        return found._replace(note="" if found.is_equal else "theirs has the two bytes exchanged")
    return found


def cell_field(ours: Listed, theirs: Listed) -> Compared | None:
    """Compares cell identities of 28 bits."""
    return simple("cell", lambda value: f"{value} ({value >> 8}-{value & 255})")(ours, theirs)


def band_field(ours: Listed, theirs: Listed) -> Compared | None:
    """Compares bands; bands that overlap at the carrier are equal."""
    found = simple("band")(ours, theirs)
    if found and ours.frequency and theirs.band in dict(bands.earfcns_of(ours.frequency)):
        return found._replace(is_equal=True)
    return found


Field = Callable[[Listed, Listed], "Compared | None"]
SIMPLE: dict[str, Field] = {
    "identity": identity_field,
    "carrier": carrier_field,
    "width": simple("blocks", lambda value: f"{value} RB"),
    "ports": ports_field,
    "prefix": simple("prefix"),
    "phich-duration": simple("duration"),
    "phich-resource": simple("resource"),
    "plmn": plmn_field,
    "tac": tac_field,
    "cell": cell_field,
    "band": band_field,
}
FIELDS = (*SIMPLE, "sfn", "start", "level")
MIB_FIELDS = ("width", "phich-duration", "phich-resource", "ports", "sfn")
SIB1_FIELDS = ("plmn", "tac", "cell", "band")


def is_carrier(ours: Listed, theirs: Listed) -> bool:
    """Returns whether two cells are on one carrier, as far as both are known."""
    if ours.frequency is None or theirs.frequency is None:
        return True
    return abs(ours.frequency - theirs.frequency) < bands.RASTER


def slip_of(ours: int, theirs: int) -> str | None:
    """Returns how an identity differs from ours if a receiver's slip makes it so, else None."""
    (group, member), (other_group, other_member) = divmod(ours, MEMBERS), divmod(theirs, MEMBERS)
    if group == other_group:
        return f"N1 is equal, N2 is {other_member} in place of {member}"
    if abs(ours - theirs) == GROUPS:
        return f"theirs is {GROUPS} {'more' if theirs > ours else 'less'}"
    if theirs in (group + GROUPS * member, MEMBERS * member + group):
        return "N1 and N2 are joined in another way"
    return None


# ---- constants


def difference_of_starts(ours: Listed, theirs: Listed) -> float | None:
    """Returns the frame start of theirs relative to ours in seconds, within half a frame, or None."""
    if ours.start is None or theirs.start is None:
        return None
    return (theirs.start - ours.start + FRAME / 2) % FRAME - FRAME / 2


def constant_start(pairs: Sequence[Pair]) -> float | None:
    """Returns the frame start of their list relative to ours: that of the cell which is nearest to all others; 0 for fewer
    than three cells, None without one."""
    found = [
        one for one in (difference_of_starts(pair.ours, pair.theirs) for pair in pairs[:MOST_TRIED]) if one is not None
    ]
    if len(found) < FEWEST:
        return 0.0 if found else None

    def away(one: float) -> float:
        return sum(min(abs(one - other), FRAME - abs(one - other), 1e-4) for other in found)

    return min(found, key=away)


def difference_of_numbers(ours: Listed, theirs: Listed) -> tuple[int, bool] | None:
    """Returns by how many frames the numbers of theirs are more than ours, modulo 1024 from -512 on, and whether times of
    both are known; None if they cannot be compared."""
    if not ours.frames or not theirs.frames:
        return None
    found = []
    for one in theirs.frames:
        seconds = one.seconds
        nearest = nearest_of(ours.frames, seconds or 0.0)
        steps = ((seconds or 0) - (nearest.seconds or 0)) / FRAME
        expected = nearest.number + (round(steps) if seconds is not None else -int((nearest.seconds or 0) / FRAME))
        more = 4 * (one.number - expected % FRAMES // 4) if one.is_coarse else one.number - expected
        found.append((more + FRAMES // 2) % FRAMES - FRAMES // 2)
    return statistics.mode(found), all(one.seconds is not None for one in theirs.frames)


def constant_number(pairs: Sequence[Pair]) -> int | None:
    """Returns by how many frames the numbers of their list are more than ours: what more than half of the cells have. Without
    such a number it is 0 if times are known, or a cell has 0, else None: nothing can be compared."""
    found = [one for one in (difference_of_numbers(pair.ours, pair.theirs) for pair in pairs) if one is not None]
    if not found:
        return None
    number, count = Counter(one for one, _ in found).most_common(1)[0]
    if count >= 2 and 2 * count > len(found):
        return number
    return 0 if all(is_timed for _, is_timed in found) or any(one == 0 for one, _ in found) else None


def nearest_of(timed: Sequence[T], seconds: float) -> T:
    """Returns the item whose second is nearest; items are in the order of time."""
    place = bisect.bisect_left(timed, seconds, key=lambda one: one.seconds or 0.0)
    return min(timed[max(place - 1, 0) : place + 1], key=lambda one: abs((one.seconds or 0.0) - seconds))


def differences_of_levels(ours: Listed, theirs: Listed, begin: float | None) -> list[float]:
    """Returns the levels of theirs relative to ours in dB: by their times, else medians, or maxima where theirs has these."""
    found, known = [], [own for own in ours.levels if own.seconds is not None]
    for one in theirs.levels if theirs.kind != STRONGEST else ():
        seconds = one.seconds
        if seconds is not None and seconds > compare_lists.SINCE_1970:
            seconds = None if begin is None else seconds - begin
        if seconds is not None and known:
            nearest = nearest_of(known, seconds)
            if abs((nearest.seconds or 0) - seconds) <= NEAR:
                found.append(one.decibels - nearest.decibels)
    if found or not ours.levels or theirs.level is None:
        return found
    own = [level.decibels for level in ours.levels]
    return [theirs.level - (max(own) if theirs.kind == STRONGEST else statistics.median(own))]


# ---- which lines are one cell


class Lists:
    """Two lists with their constants: the pairs, lines that are there twice, and what one list alone has."""

    def __init__(self, ours: CellList, theirs: CellList) -> None:
        self.ours, self.theirs = ours, theirs
        self.pairs: list[Pair] = []
        self.twice: dict[int, list[Listed]] = {}  # by the place of a pair
        self.start: float | None = constant_start(list(self.alone()))
        self.pair_identities()
        self.our_rest = self.rest(ours.cells, (pair.ours for pair in self.pairs))
        self.their_rest = self.rest(theirs.cells, (*(pair.theirs for pair in self.pairs), *self.every_twice()))
        self.pair_others()
        self.start = constant_start(self.pairs)
        self.number = constant_number(self.pairs)

    def alone(self) -> Iterable[Pair]:
        """Yields the cells whose identity each list has once."""
        ours, theirs = by_identity(self.ours.cells), by_identity(self.theirs.cells)
        for identity, own in ours.items():
            other = theirs.get(identity, [])
            if identity is not None and len(own) == len(other) == 1 and is_carrier(own[0], other[0]):
                yield Pair(own[0], other[0])

    def every_twice(self) -> Iterable[Listed]:
        return (one for lines in self.twice.values() for one in lines)

    @staticmethod
    def rest(cells: Iterable[Listed], taken: Iterable[Listed]) -> list[Listed]:
        """Returns the cells that are not taken."""
        known = {id(one) for one in taken}
        return [one for one in cells if id(one) not in known]

    def likeness(self, ours: Listed, theirs: Listed) -> int:
        """Returns how many fields of two cells are equal, less those that differ; cell identity and frame start count most."""
        found = 0
        for name, field in SIMPLE.items():
            if one := field(ours, theirs):
                found += (1 if one.is_equal else -1) * (8 if name == "cell" else 1)
        return found + 4 * (self.is_start(ours, theirs) is True)

    def is_start(self, ours: Listed, theirs: Listed) -> bool | None:
        """Returns whether frame starts are equal after the constant, to within the cyclic prefix; None if one is not known."""
        more = difference_of_starts(ours, theirs)
        if more is None:
            return None
        more = abs(more - (self.start or 0))
        return min(more, FRAME - more) <= PREFIXES[ours.prefix == EXTENDED] + SAMPLE

    def pair_identities(self) -> None:
        """Pairs the lines of each identity, the most alike first, and finds further lines of one cell."""
        theirs = by_identity(self.theirs.cells)
        by_cell: dict[int | None, list[Listed]] = {}
        for one in theirs.get(None, []):
            by_cell.setdefault(one.cell, []).append(one)
        for identity, own in by_identity(self.ours.cells).items():
            others = [
                *theirs.get(identity, []),
                *(one for line in own if line.cell for one in by_cell.get(line.cell, [])),
            ]
            self.pair_lines(own, others)

    def pair_lines(self, own: Sequence[Listed], others: Sequence[Listed]) -> None:
        """Pairs lines of one identity."""
        tried = [
            (-self.likeness(one, other), i, j)
            for i, one in enumerate(own)
            for j, other in enumerate(others[:MOST_TRIED])
            if is_carrier(one, other)
        ]
        mine: dict[int, int] = {}
        taken: set[int] = set()
        for _, i, j in sorted(tried):
            if i not in mine and j not in taken:
                mine[i] = len(self.pairs)
                taken.add(j)
                self.pairs.append(Pair(own[i], others[j]))
        for j, other in enumerate(others):
            first = next((i for i in mine if is_carrier(own[i], other) and not is_other_cell(own[i], other)), None)
            if j not in taken and first is not None:
                self.twice.setdefault(mine[first], []).append(other)

    def pair_others(self) -> None:
        """Pairs cells that are left in both lists and are one all the same, if there is only one way to do so."""
        if len(self.our_rest) * len(self.their_rest) > 200_000:
            return
        found = [
            (one, other, basis)
            for one in self.our_rest
            for other in self.their_rest
            if (basis := self.basis(one, other))
        ]
        ours, theirs = Counter(id(one) for one, _, _ in found), Counter(id(other) for _, other, _ in found)
        for one, other, basis in found:
            if ours[id(one)] == 1 and theirs[id(other)] == 1:
                self.pairs.append(Pair(one, other, basis))
        self.our_rest = self.rest(self.our_rest, (pair.ours for pair in self.pairs))
        self.their_rest = self.rest(self.their_rest, (pair.theirs for pair in self.pairs))

    def basis(self, ours: Listed, theirs: Listed) -> str:
        """Returns what makes two cells one whose identity or carrier differs, or nothing."""
        if ours.cell is not None and ours.cell == theirs.cell:
            network = plmn_field(ours, theirs)
            return "one cell by its cell identity" if network is None or network.is_equal else ""
        if ours.identity is None or theirs.identity is None or not slip_of(ours.identity, theirs.identity):
            return ""
        compared = {name: field(ours, theirs) for name, field in SIMPLE.items() if name != "identity"}
        equal = [name for name, one in compared.items() if one and one.is_equal]
        is_start = self.is_start(ours, theirs)
        equal += ["start"] if is_start else []
        if is_start is False or any(one and not one.is_equal for one in compared.values()) or len(equal) < ALIKE:
            return ""
        return f"taken as one cell, since these are equal: {', '.join(equal)}"


def by_identity(cells: Iterable[Listed]) -> dict[int | None, list[Listed]]:
    """Returns the cells of each identity."""
    found: dict[int | None, list[Listed]] = {}
    for one in cells:
        found.setdefault(one.identity, []).append(one)
    return found


def is_other_cell(ours: Listed, theirs: Listed) -> bool:
    """Returns whether two lines have different cell identities."""
    return None not in (ours.cell, theirs.cell) and ours.cell != theirs.cell


# ---- the comparison


def comparison_of(
    ours: CellList, theirs: CellList, fields: Sequence[str] = FIELDS, tolerance: float = TOLERANCE
) -> Comparison:
    """Returns what two lists have and what differs, in the fields that are named."""
    lists = Lists(ours, theirs)
    levels = LevelRule(lists, tolerance)
    verdicts = []
    for place, pair in enumerate(lists.pairs):
        verdicts += verdicts_of(pair, lists, levels, fields)
        if place in lists.twice:
            verdicts.append(twice(pair, lists.twice[place]))
    verdicts += [theirs_only(one, ours) for one in lists.their_rest]
    verdicts += [ours_only(one, ours) for one in lists.our_rest]
    compared = [name for name in fields if any(name in one.fields or name == one.field for one in verdicts)]
    return Comparison(
        ours=ours.name,
        theirs=theirs.name,
        form=theirs.form,
        our_cells=len(ours.cells),
        their_cells=len(theirs.cells),
        fields=tuple(compared),
        constants=Constants(
            levels.constant if "level" in compared else None,
            lists.start if "start" in compared else None,
            lists.number if "sfn" in compared else None,
        ),
        verdicts=tuple(sorted(verdicts, key=lambda one: list(VERDICTS).index(one.verdict))),
        levels=tuple(levels.of_cells) if "level" in fields else (),
        all_levels=levels.of_all if "level" in fields else None,
        notes=tuple(notes_of(lists, levels, fields)),
    )


def verdicts_of(pair: Pair, lists: Lists, levels: LevelRule, fields: Sequence[str]) -> list[Verdict]:
    """Returns the verdicts on a cell of both lists: one for each field that differs, or one that all agree."""
    compared: dict[str, Compared | None] = {name: field(pair.ours, pair.theirs) for name, field in SIMPLE.items()}
    compared["sfn"], compared["start"] = number_field(pair, lists), start_field(pair, lists)
    compared["level"] = levels.field(pair)
    found = {name: one for name in fields if (one := compared[name])}
    equal = tuple(name for name, one in found.items() if one.is_equal)
    differ = [
        verdict("differ", pair, name, one, equal, note=note_of(name, one, pair))
        for name, one in found.items()
        if not one.is_equal
    ]
    return differ or [verdict("agree", pair, None, None, equal)]


def verdict(
    word: str, pair: Pair, field: str | None, one: Compared | None, fields: tuple[str, ...], note: str = ""
) -> Verdict:
    """Returns a verdict on a cell of both lists."""
    ours, theirs = pair.ours, pair.theirs
    return Verdict(
        verdict=word,
        field=field,
        identity=ours.identity if ours.identity is not None else theirs.identity,
        cell=ours.cell if ours.cell is not None else theirs.cell,
        frequency=ours.frequency or theirs.frequency,
        ours=one.ours if one else None,
        theirs=one.theirs if one else None,
        fields=fields,
        note=note,
        places=theirs.places[:PLACES],
    )


PLACES = 5  # that a verdict names


def note_of(name: str, one: Compared, pair: Pair) -> str:
    """Returns the note on a field that differs: how, what makes the lines one cell, and what supports ours."""
    own, parts = pair.ours.own, [one.note]
    if name in ("identity", "carrier"):
        parts.append(pair.basis)
    if isinstance(own, SurveyCell):
        if name in MIB_FIELDS:
            parts.append(mib_text(own))
        if name in SIB1_FIELDS and own.sib1:
            parts.append(sib1_text(own))
    return "; ".join(part for part in parts if part)


def mib_text(own: SurveyCell) -> str:
    """Returns what supports the MIB of ours."""
    block = next((one.mib for one in own.seen if one.mib), None)
    windows = f"{own.windows} window{'s' * (own.windows != 1)}"
    return f"our MIB {block or 'unknown'}, CRC passed in {windows}, lowest cost {100 * own.share:.1f} %"


def sib1_text(own: SurveyCell) -> str:
    """Returns what supports SIB1 of ours."""
    blocks = [one.sib1_block for one in own.seen if one.sib1_block]
    count = len(blocks)
    return (
        f"our SIB1 {blocks[0]}, CRC passed in {count} window{'s' * (count != 1)}" if blocks else "our SIB1 was decoded"
    )


def number_field(pair: Pair, lists: Lists) -> Compared | None:
    """Compares frame numbers after the constant; without the times of theirs, one more or less is no difference."""
    found = difference_of_numbers(pair.ours, pair.theirs)
    if found is None or lists.number is None:
        return None
    more, is_timed = found
    beside = (more - lists.number + FRAMES // 2) % FRAMES - FRAMES // 2
    theirs = pair.theirs.frames[0]
    ours = (theirs.number - (beside // 4 if theirs.is_coarse else beside)) % (256 if theirs.is_coarse else FRAMES)
    note = f"theirs is {abs(beside)} {'more' if beside > 0 else 'less'}"
    if theirs.is_coarse:
        note += ", in the eight bits that theirs has"
    return Compared(abs(beside) <= (0 if is_timed else 1), str(ours), str(theirs.number), note)


def start_field(pair: Pair, lists: Lists) -> Compared | None:
    """Compares frame starts after the constant, to within the cyclic prefix."""
    is_equal = lists.is_start(pair.ours, pair.theirs)
    if is_equal is None or pair.ours.start is None or pair.theirs.start is None:
        return None
    own = (pair.ours.start + (lists.start or 0)) % FRAME
    more = (pair.theirs.start - own + FRAME / 2) % FRAME - FRAME / 2
    texts = [f"{1e6 * one:.1f} us" for one in (own, pair.theirs.start)]
    note = f"theirs is {abs(1e6 * more):.1f} us {'later' if more > 0 else 'earlier'}, modulo 10 ms"
    return Compared(is_equal, texts[0], texts[1], note)


def twice(pair: Pair, others: Sequence[Listed]) -> Verdict:
    """Returns that their list has a cell in several lines."""
    places = [place for one in (pair.theirs, *others) for place in one.places]
    note = f"{1 + len(others)} lines of theirs are this cell"
    found = verdict("two-lines", pair, None, None, (), note)
    return dataclasses.replace(found, places=tuple(places[:PLACES]))


def theirs_only(theirs: Listed, ours: CellList) -> Verdict:
    """Returns that only their list has a cell."""
    is_outside = theirs.frequency is not None and ours.carriers is not None
    if is_outside and ours.carriers and theirs.frequency:
        is_outside = not ours.carriers[0] - bands.RASTER < theirs.frequency < ours.carriers[1] + bands.RASTER
    word = "not-in-recording" if is_outside else "theirs-only"
    note = f"on {(theirs.frequency or 0) / 1e6:.1f} MHz" if is_outside else ""
    return verdict(word, Pair(Listed(), theirs), None, None, (), note)


def ours_only(ours: Listed, whole: CellList) -> Verdict:
    """Returns that only our list has a cell, and what supports it."""
    own, parts = ours.own, []
    if ours.levels:
        parts.append(f"level {maximum(ours):.1f} {whole.unit or 'dB'}{under_text(ours, whole)}")
    if isinstance(own, SurveyCell):
        parts += [f"S/N {own.ratio:.1f} dB"] if own.ratio is not None else []
        parts.append(mib_text(own))
        parts += [sib1_text(own)] if own.sib1 else [f"no SIB1: {own.no_sib1}"]
    elif own is not None:
        parts.append(f"identity only: {own.matches} of 124 signs match in {own.windows} windows")
    return verdict("ours-only", Pair(ours, Listed()), None, None, (), "; ".join(parts))


def maximum(ours: Listed) -> float:
    """Returns a cell's maximum level."""
    return max(one.decibels for one in ours.levels)


def under_text(ours: Listed, whole: CellList) -> str:
    """Returns by how much the strongest cell of our list on the carrier is stronger, if another one is."""
    others = [one for one in whole.cells if one.levels and is_carrier(ours, one)]
    strongest = max(others, key=maximum)
    return "" if strongest is ours else f", {maximum(strongest) - maximum(ours):.1f} dB below {strongest.name}"


# ---- levels


class LevelRule:
    """The constant of levels and what is left of each cell's level after it; levels of primary signals by order alone."""

    def __init__(self, lists: Lists, tolerance: float) -> None:
        self.tolerance = tolerance
        begin = lists.ours.begin
        found = [(pair, differences_of_levels(pair.ours, pair.theirs, begin)) for pair in lists.pairs]
        self.differences = {id(pair.theirs): each for pair, each in found if each}
        self.measured = [(pair, each) for pair, each in found if each]
        medians = [statistics.median(each) for _, each in self.measured]
        self.is_order = any(pair.theirs.kind == PRIMARY for pair, _ in self.measured)
        is_unit = lists.theirs.unit is not None and lists.theirs.unit == lists.ours.unit
        self.constant: float | None = round(statistics.median(medians), 2) if medians else None
        if len(medians) < FEWEST:
            self.constant = 0.0 if medians and is_unit else None

    @property
    def of_cells(self) -> list[Levels]:
        """The levels of each cell after the constant."""
        return [
            levels_of(pair.ours, [one - self.constant for one in each])
            for pair, each in self.measured
            if self.constant is not None and not self.is_order
        ]

    @property
    def of_all(self) -> Levels | None:
        """The medians of all cells after the constant."""
        found = [one.median for one in self.of_cells]
        return levels_of(Listed(), found) if found else None

    def field(self, pair: Pair) -> Compared | None:
        """Compares the level of a cell."""
        if id(pair.theirs) not in self.differences or pair.theirs.level is None or not pair.ours.levels:
            return None
        if self.is_order:
            return self.by_order(pair)
        if self.constant is None:
            return None
        beside = statistics.median(self.differences[id(pair.theirs)]) - self.constant
        note = f"theirs is {abs(beside):.1f} dB {'more' if beside > 0 else 'less'} than the list's constant"
        theirs = pair.theirs.level
        ours = theirs - self.constant - beside
        return Compared(abs(beside) <= self.tolerance, f"{ours:.1f} dB", f"{theirs:.1f} dB", note)

    def by_order(self, pair: Pair) -> Compared | None:
        """Compares a level of primary signals: whether it has another order than ours with more than half of the cells."""
        others = [other for other, _ in self.measured if other is not pair]
        if len(others) < FEWEST - 1:
            return None
        wrong = sum(self.is_inverted(pair, other) for other in others)
        texts = [f"{one:.1f} dB" for one in (pair.ours.level or 0, pair.theirs.level or 0)]
        note = f"another order by level than ours with {wrong} of {len(others)} cells"
        return Compared(2 * wrong <= len(others), texts[0], texts[1], note)

    def is_inverted(self, pair: Pair, other: Pair) -> bool:
        """Returns whether two cells have another order by level in their list, each time by more than the tolerance."""
        own = (pair.ours.level or 0) - (other.ours.level or 0)
        theirs = (pair.theirs.level or 0) - (other.theirs.level or 0)
        return own * theirs < 0 and min(abs(own), abs(theirs)) > self.tolerance


def levels_of(ours: Listed, values: Sequence[float]) -> Levels:
    """Returns median, minimum and maximum of values in tenths of dB."""
    numbers = (statistics.median(values), min(values), max(values))
    return Levels(ours.identity, ours.cell, len(values), *(round(one, 1) + 0.0 for one in numbers))


def notes_of(lists: Lists, levels: LevelRule, fields: Sequence[str]) -> list[str]:
    """Returns what was not compared, and constants of the whole list."""
    found = []
    if "level" in fields and levels.measured and levels.constant is None and not levels.is_order:
        found.append(
            f"levels: fewer than {FEWEST} cells in both lists have one, so a constant is unknown: not compared"
        )
    if "level" in fields and levels.is_order:
        found.append("levels: theirs are of the primary signal, so they are compared by order alone")
    if "level" in fields and levels.constant and not levels.is_order:
        found.append(f"levels: theirs are {levels.constant:+.1f} dB relative to ours")
    if "start" in fields and lists.start and abs(lists.start) > SAMPLE:
        found.append(f"frame starts: theirs are {1e6 * lists.start:+.1f} us relative to ours, modulo 10 ms")
    if "sfn" in fields and lists.number:
        found.append(f"frame numbers: theirs are {lists.number:+d} relative to ours")
    has_numbers = any(difference_of_numbers(pair.ours, pair.theirs) for pair in lists.pairs)
    if "sfn" in fields and has_numbers and lists.number is None:
        found.append("frame numbers: theirs have no time, and no two cells have the same shift: not compared")
    if "sfn" in fields and any(one.is_coarse for pair in lists.pairs for one in pair.theirs.frames):
        found.append("frame numbers: theirs have eight bits, so they are compared modulo 4")
    return found
