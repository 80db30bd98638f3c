"""The cells of a window of a radio's file: what lte_cli and lte_tune answer of it, with its frequency offset corrected.

Debian: python3-numpy, python3-scipy. Needs lte_cli and lte_tune.
"""
from __future__ import annotations

import dataclasses
import functools
import itertools
from dataclasses import dataclass
from typing import Iterable, Iterator, Mapping, NamedTuple, Sequence

import numpy as np

from . import neighbours, pilots, programs, radio, spectrum
from .answers import STEP_HERTZ, Cell, Evidence
from .radio_file import LEAST, RadioFile, Spoiled
from .rules import BY_NAME, Rule, reads

WINDOW = 17 * radio.FRAME / radio.RATE  # seconds: what a list depends on
CYCLE = 1024 * radio.FRAME  # samples until a frame number repeats
NEAR = 9  # samples by which one cell's frames may differ in a list (docs/DEFINITION.md, rule 12)
ECHO = 40  # samples by which a path of a cell may be later than its strongest one, or earlier
SAME_OFFSET, DRIFT = 1_000, 200  # hertz, and hertz per second, by which the offset of one cell may change
TURNS = 3  # times that a window is corrected by what is left
FINE = 8  # hertz that may be left
VAGUE = 250  # hertz of error from which on pilots do not give an offset
LOW_RATIO = 16  # dB of signal to noise below which another cell may be at a cell's pilots
DEAR = 0.07  # cost by total from which on a line that was seen once is probably a false detection
REPEATED = 0.01  # of cost and of total by which they differ in windows of the same samples, at most
PARTS, PART = (3, 6, 9, 12), 4  # frames of a window from which on pilots are read again, and how many frames that takes


@dataclass(frozen=True)
class Task:
    """A window of a file, in seconds, and the offset in hertz to correct at first."""

    file: RadioFile
    start: float
    length: float
    offset: float = 0

    @property
    def first(self) -> int:
        """The sample of the file at which it begins."""
        return round(self.start * self.file.rate)

    def second_of(self, sample: int) -> float:
        """Returns the second of the file at a sample of the window's recording."""
        return self.first / self.file.rate + sample / radio.RATE

    def bare(self) -> Task:
        """Returns the window without the samples that it may hold."""
        return dataclasses.replace(self, file=dataclasses.replace(self.file, held=None))

    def with_offset(self, offset: float) -> Task:
        return dataclasses.replace(self, offset=offset)


# ---- recordings


class Window(NamedTuple):
    """A window as a recording, what full scale of its file is in it, and hertz that were corrected."""

    data: bytes
    full: float
    offset: float

    @property
    def recording(self) -> programs.Recording:
        return programs.Recording(self.data)

    def turned(self, hertz: float) -> Window:
        """Returns the window with `hertz` more corrected."""
        x = radio.shifted(radio.from_bytes(self.data), -hertz)
        scale = radio.FULL / 2 / (radio.peak(x) or 1)
        return Window(radio.to_bytes(scale * x), self.full * scale, self.offset + hertz)

    def part(self, frame: int) -> Window:
        """Returns some frames from `frame` on."""
        size = 4 * radio.FRAME
        return self._replace(data=self.data[frame * size : (frame + PART) * size])


def samples_of(task: Task) -> radio.Complex:
    """Returns a window's samples, where 1 is full scale."""
    return task.file.samples(task.first, round(task.length * task.file.rate))


def window_of(task: Task, samples: radio.Complex | None = None) -> Window:
    """Returns a window with the task's offset corrected, if there is one; its samples are read unless they are given."""
    offset, x = task.offset if abs(task.offset) > FINE else 0, samples_of(task) if samples is None else samples
    return Window(*task.file.converted(x, task.first, offset), offset)


def energy(task: Task) -> float:
    """Returns the mean energy of ten milliseconds in the window's middle, -1 where there are no numbers."""
    first, count = round((task.start + task.length / 2) * task.file.rate), round(task.file.rate / 100)
    try:
        x = task.file.samples(min(first, task.file.count - count), count)
    except Spoiled:
        return -1.0
    return float(np.mean(np.abs(x - x.mean()) ** 2))


# ---- detections of a window


@dataclass(frozen=True)
class Detection:
    """A line of a window's list, and what `evidence` says of it, of some frames of the window."""

    line: Cell
    evidence: tuple[Evidence, ...]
    paths: tuple[int, ...] = ()  # samples by which other paths of its cell are later, of which the list has lines too

    @property
    def rule(self) -> Rule:
        return BY_NAME[str(self.line.rule)]

    @property
    def share(self) -> float:
        """Cost by total."""
        return self.evidence[0].share

    @functools.cached_property
    def measured(self) -> pilots.Measured:
        return pilots.measured(self.evidence, self.rule, self.paths)

    @property
    def is_unsure(self) -> bool:
        """Whether its pilots do not say what is left of the offset."""
        return self.measured.error > FINE

    def with_further(self, further: Sequence[Further]) -> Detection:
        """Returns it with what the evidence of further frames says of it."""
        more = (matching(self.line, by_rule[self.rule], frame) for frame, by_rule in further)
        return dataclasses.replace(self, evidence=(*self.evidence, *itertools.chain.from_iterable(more)))


class Further(NamedTuple):
    """Evidence of a part of a window that begins with one of its frames, by the rules that were asked."""

    frame: int
    by_rule: Mapping[Rule, Iterable[Evidence]]


def detections_in(window: Window) -> list[Detection]:
    """Returns the lines of a window's lists."""
    found = programs.every_evidence(window.recording)
    lines = [one.cell for one in found]
    return [Detection(line, (one,), paths_of(line, lines)) for line, one in zip(lines, found)]


def paths_of(line: Cell, found: Sequence[Cell]) -> tuple[int, ...]:
    """Returns by how many samples lines of the same cell are later, except those that are another rule's."""
    half, place = CYCLE // 2, epoch_of(line)
    later = {(epoch_of(one) - place + half) % CYCLE - half for one in found if is_of_one_cell(one, line)}
    return tuple(sorted(delay for delay in later if NEAR < abs(delay) <= ECHO))


def matching(line: Cell, support: Iterable[Evidence], frame: int = 0) -> list[Evidence]:
    """Returns what of the evidence of a window's part, from `frame` on, is about this line's cell."""
    place = epoch_of(line)
    return [
        one
        for one in support
        if one.identity == line.identity and distance(epoch_of(one) + radio.FRAME * frame, place) <= NEAR
    ]


def settled(window: Window) -> tuple[Window, list[Detection]]:
    """Returns a window corrected until its surest cell is at 0, as far as pilots say, and its detections then."""
    found = detections_in(window)
    for _ in range(TURNS):
        hertz = to_correct(found)
        if not hertz:
            break
        turned = window.turned(hertz)
        if not (then := detections_in(turned)):
            break
        window, found = turned, then
    return window, found


def to_correct(found: list[Detection]) -> float:
    """Returns the hertz that are left of the surest cell, 0 where that is little or not sure."""
    hertz, error = left_of_surest(found)
    return hertz if abs(hertz) > max(FINE, 2 * error) else 0


def left_of_surest(found: list[Detection]) -> tuple[float, float]:
    """Returns its hertz, and their error."""
    every = [one.measured for one in found]
    return min(((one.hertz, one.error) for one in every), key=lambda left: left[1], default=(0, VAGUE))


def with_evidence(window: Window, found: Sequence[Detection]) -> list[Detection]:
    """Returns detections with pilots of further frames where those of one do not say what is left."""
    rules = {one.rule for one in found if one.is_unsure}
    further = list(further_evidence(window, rules)) if rules else []
    return [one.with_further(further) if one.is_unsure else one for one in found]


def further_evidence(window: Window, rules: set[Rule]) -> Iterator[Further]:
    """Yields the evidence of rules of parts of a window."""
    for frame in PARTS:
        part = window.part(frame)
        if len(part.data) >= 4 * LEAST:
            yield Further(frame, {rule: programs.evidence_of(part.recording, rule) for rule in rules})


def by_itself(window: Window, one: Detection) -> tuple[Window, Detection]:
    """Returns a line with its own offset corrected, where that is sure to differ, and the window for it."""
    left = one.measured
    if abs(left.hertz) > max(FINE, 3 * left.error):
        turned = window.turned(left.hertz)
        if own := matching(one.line, programs.evidence_of(turned.recording, one.rule)):
            window = turned
            (one,) = with_evidence(window, [dataclasses.replace(one, evidence=tuple(own))])
    return window, one


# ---- the offset of a window


def offset_in(task: Task, samples: radio.Complex | None = None) -> float | None:
    """Returns the offset of a window in hertz, if a cell is listed in it: `lte_tune` asks the list of one port alone, so
    where that has none each of its candidates is asked of all lists."""
    try:
        window = window_of(task, samples)
    except Spoiled:
        return None
    answer = programs.tell(window.data)
    if answer.offset and answer.offset.cells:
        return offset_of(*settled(turned_by(window, answer.offset.turn)))
    for one in answer.candidates:
        turned, found = settled(turned_by(window, one.turn))
        if any(detection.share < DEAR for detection in found):
            return offset_of(turned, found)
    return None


def turned_by(window: Window, turn: int) -> Window:
    return window.turned(turn * STEP_HERTZ) if turn else window


def offset_of(window: Window, found: list[Detection]) -> float:
    """Returns the offset by the pilots of its surest cell, else what was corrected."""
    hertz, error = left_of_surest(found)
    return window.offset + (hertz if error < VAGUE else 0)


# ---- sightings


@dataclass(frozen=True)
class Sighting:
    """A cell in a window: a line of its list, and numbers of `evidence` of that list."""

    task: Task
    line: Cell
    rules: tuple[str, ...]
    level: float | None  # dBFS
    ratio: float | None  # dB
    cost: int
    total: int
    peak: int
    taken: float  # hertz that were corrected
    offset: float  # hertz, by its pilots
    error: float  # hertz
    others: tuple[tuple[float, int], ...]  # where frame 0 begins on other paths, and their peaks
    mib: str | None  # hexadecimal digits of the MIB's bits
    sib1_block: str | None  # and of those of SIB1's transport block, where it was read
    neighbour: int | None = None  # the identity of a cell whose pilots are at the same resource elements
    beside: float | None = None  # dBFS in 15 kHz outside the middle 1.08 MHz, where the MIB states 6 resource blocks
    missing: float = 0  # samples of a recording that are missing before it in the file
    gain: float = 0  # dB of the radio's gain, which its level includes
    unread: str | None = None  # why SIB1 was not read at the cell's bandwidth, if that was asked (wide.py)
    is_wide: bool = False  # whether SIB1 was read at the cell's bandwidth

    @functools.cached_property
    def fixed(self) -> Cell:
        """What stays of its line from window to window."""
        return dataclasses.replace(self.line, at=0, sfn=0)

    @property
    def seconds(self) -> float:
        """When its first whole frame begins."""
        return self.task.second_of(self.line.at)

    @property
    def epoch(self) -> float:
        """Where frame number 0 begins, in samples of a recording, modulo the cycle; with those that are missing."""
        return (self.begin + self.missing) % CYCLE

    @property
    def begin(self) -> float:
        """Where frame number 0 begins in the file."""
        return (self.seconds * radio.RATE - radio.FRAME * self.line.sfn) % CYCLE

    @property
    def evened(self) -> float | None:
        """The level without the radio's gain, or None."""
        return None if self.level is None else self.level - self.gain

    @property
    def strength(self) -> float:
        """The level without the radio's gain, very low if none is known, for an order."""
        return -1e9 if self.evened is None else self.evened

    def has_offset_of(self, later: Sighting) -> bool:
        """Returns whether a later sighting has this offset, as far as that of a radio drifts."""
        apart = min(abs(self.taken - later.taken), abs(self.offset - later.offset))
        return apart <= SAME_OFFSET + DRIFT * (later.seconds - self.seconds)

    @property
    def share(self) -> float:
        """Cost by total."""
        return self.cost / self.total

    def is_repeated_by(self, other: Sighting) -> bool:
        """Returns whether another sighting may be of the same samples: cost and total are the same, nearly."""
        pairs = (self.cost, other.cost), (self.total, other.total)
        return all(abs(one - another) <= REPEATED * max(one, another) for one, another in pairs)

    @property
    def echoes(self) -> list[tuple[float, float]]:
        """Pairs of the microseconds by which a path is later than the strongest one, and its decibels by that."""
        half, found = CYCLE / 2, list[tuple[float, float]]()
        for place, peak in sorted(self.others):
            later = (place - self.begin + half) % CYCLE - half
            if abs(later) > NEAR and all(abs(later - other) > NEAR for other, _ in found):
                found.append((later, radio.decibels(peak / self.peak) or 0.0))
        return [(1e6 * later / radio.RATE, level) for later, level in found]

    def later(self, samples: float) -> Sighting:
        """Returns the sighting with further samples that are missing before it."""
        return dataclasses.replace(self, missing=self.missing + samples)

    def bare(self) -> Sighting:
        """Returns the sighting without the samples that its task may hold."""
        return dataclasses.replace(self, task=self.task.bare())


def sightings(task: Task) -> list[Sighting] | None:
    """Returns the cells of a window, each with the rules that list it; None where its samples are not numbers."""
    try:
        return sightings_in(task, samples_of(task))
    except Spoiled:
        return None


def sightings_in(task: Task, samples: radio.Complex) -> list[Sighting]:
    """Returns the cells of a window with these samples, each with the rules that list it."""
    return sightings_of(task, samples, *settled(window_of(task, samples)))


def sightings_of(task: Task, samples: radio.Complex, window: Window, detections: list[Detection]) -> list[Sighting]:
    """Returns the cells of a window with these samples, each with the rules that list it, by its detections."""
    found: list[Sighting] = []
    for one in with_evidence(window, detections):
        add_line(found, sighting_of(task, *by_itself(window, one)))
    return [with_beside(one, samples) if is_narrow(one.line) else one for one in found]


def is_narrow(line: Cell) -> bool:
    """Returns whether a line has 6 resource blocks by its MIB alone."""
    return line.bandwidth == "n6" and line.sib1 is None


def with_beside(one: Sighting, samples: radio.Complex) -> Sighting:
    """Returns a sighting with the power outside its 6 resource blocks, in the samples of its window."""
    file = one.task.file
    centre = file.shift_at(one.task.first) + one.taken
    power = spectrum.beside(samples - samples.mean(), file.rate, centre)
    return dataclasses.replace(one, beside=radio.decibels(power))


def neighbour_of(window: Window, one: Detection) -> int | None:
    """Returns the identity of another cell at the pilots of a detection, or None."""
    ratio = one.measured.ratio
    if ratio is None or ratio > LOW_RATIO or one.share >= DEAR:
        return None
    begin = 4 * one.line.at
    samples = radio.from_bytes(window.data[begin : begin + 4 * neighbours.LENGTH])
    return neighbours.in_pilots(samples, one.line.identity, one.rule)


def sighting_of(task: Task, window: Window, one: Detection) -> Sighting:
    first, left = one.evidence[0], one.measured
    return Sighting(
        task=task,
        line=one.line,
        rules=(one.rule.name,),
        level=left.level(window.full),
        ratio=left.ratio,
        cost=first.cost,
        total=first.total,
        peak=first.peak,
        taken=window.offset,
        offset=window.offset + (left.hertz if left.error < VAGUE else 0),
        error=left.error,
        others=(),
        mib=first.mib,
        sib1_block=first.sib1_block,
        neighbour=neighbour_of(window, one),
    )


def place_of(line: Cell | Evidence) -> tuple[int, int, int]:
    return line.identity, line.at, line.sfn


def epoch_of(line: Cell | Evidence) -> int:
    """Returns where frame number 0 of a line begins."""
    return line.at - radio.FRAME * line.sfn


def distance(a: float, b: float, cycle: int = CYCLE) -> float:
    """Returns the distance between two places of a cycle."""
    return min((a - b) % cycle, (b - a) % cycle)


def add_line(found: list[Sighting], new: Sighting) -> None:
    """Adds a line of a window: to the same cell by another rule or on another path where there is one."""
    for i, old in enumerate(found):
        apart = distance(old.epoch, new.epoch)
        if old.line.identity == new.line.identity and apart <= ECHO:
            if apart <= NEAR:
                found[i] = by_another_rule(old, new)
                return
            if is_alike(old.line, new.line):
                found[i] = on_another_path(old, new)
                return
    found.append(new)


def by_another_rule(old: Sighting, new: Sighting) -> Sighting:
    """Returns the line that says more, with both rules."""
    more = max(old, new, key=lambda sighting: saying(sighting.line))
    return dataclasses.replace(more, rules=old.rules + new.rules, others=old.others + new.others)


def on_another_path(old: Sighting, new: Sighting) -> Sighting:
    """Returns the line of the stronger path, or of the first of equals."""
    strong, weak = (old, new) if old.peak >= new.peak else (new, old)
    others = strong.others + weak.others + ((weak.begin, weak.peak),)
    return dataclasses.replace(strong, others=others, rules=tuple(sorted({*old.rules, *new.rules})))


def is_of_one_cell(one: Cell, other: Cell) -> bool:
    return one.identity == other.identity and is_alike(one, other)


def is_alike(one: Cell, other: Cell) -> bool:
    """Returns whether lines have the same MIB and SIB1, as far as both have one."""
    same = all(
        getattr(one, key) == getattr(other, key)
        for key in ("ports", "bandwidth", "duration", "resource", "br", "spare")
    )
    return same and (one.sib1 is None or other.sib1 is None or one.sib1 == other.sib1)


def saying(line: Cell) -> tuple[bool, bool]:
    """Returns how much a line says: SIB1, else a MIB of the antenna ports that its rule is made for."""
    return line.sib1 is not None, reads(str(line.rule), line.ports)
