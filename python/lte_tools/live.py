"""A radio's samples as they come on standard input, in several processes: each cell is reported as it is found.

`lte_tune tell` gives the offset until a cell is detected, and again where none was for LOST windows; between, it is
that of the surest cell. A window waits in a ring for a processor, where it is skipped and counted if there is none in time.
Of a cell the first and the strongest sighting and the last KEPT are kept, of one not seen for FORGET seconds the last
alone, and a line that chance explains is forgotten then: so memory stays the same however long it goes on. The last window
without a cell is kept for the question why (hints.py).

Debian: python3-numpy, python3-scipy. Needs lte_cli and lte_tune.
"""
from __future__ import annotations

import collections
import dataclasses
import datetime
import math
import multiprocessing
import os
import signal
import stat
import sys
import time
from types import FrameType
from typing import Any, Callable, NamedTuple

import numpy as np

from . import (
    gpsd,
    hints,
    identities,
    levels,
    places,
    radio,
    radio_file,
    sources,
    stream,
    survey_data,
    survey_table,
    wide,
)
from .cells import SeenCell, add_sighting, in_windows_order
from .continuity import Jump, as_one
from .forms import FORMS, fault_of
from .machine import Refused, note
from .options import Gain, SurveyOptions
from .radio_file import RadioFile, Spoiled
from .sightings import VAGUE, WINDOW, Sighting, Task, offset_in, samples_of, saying
from .summary import Looked, survey_of_cells
from .survey_data import Power, Survey
from .track import Track

STDIN = 0
WAITING = 2  # windows in the ring for each process
LOST = 6  # windows without a sure cell after which the offset is asked anew
KEPT = 300  # sightings of a cell
MOST_POWERS = 20_000  # windows whose power is kept
FORGET = 60  # seconds
ENDING = 10  # seconds that a signal leaves for what is being looked at
PROBE = 1 << 19  # bytes that are looked at for their form
NO_CELL = "no sure cell: --form, --rate, --shift, --offset and --exchanged say other samples than were looked for"


def opened(options: SurveyOptions) -> RadioFile:
    """Returns standard input as a file without samples: its form and rate are those of the options."""
    if options.form == "sigmf":
        raise Refused("-: SigMF is read from a file: --form says how its samples are written")
    try:
        os.fstat(STDIN)
    except OSError:
        raise Refused("-: standard input is closed, and samples are read from a pipe") from None
    if os.isatty(STDIN):
        raise Refused("-: standard input is a terminal, and samples are read from a pipe")
    form, rate = options.form or "s16", sources.whole(options.rate or radio.RATE)
    file = RadioFile(options.file, form, rate, 0, options.shift or 0, options.carrier, is_exchanged=options.exchanged)
    file.check_holds(file.shift, f"{file.shift:+,.0f} Hz")
    return file


# ---- one window, in a process of its own


class Known(NamedTuple):
    """What is known for a window: whether its offset is, the identities whose SIB1 is not asked again, and whether cells
    that no list has are asked for."""

    has_offset: bool
    informed: frozenset[int] = frozenset()
    is_deep: bool = False


def look(task: Task, known: Known) -> levels.InWindow:
    """Returns what is in a window, without its samples. SIB1 is asked at the bandwidth of cells that have none yet."""
    try:
        samples = samples_of(task)
    except Spoiled:
        return levels.InWindow(None, None)
    offset = task.offset if known.has_offset else offset_in(task, samples)
    found = (
        levels.InWindow([], None)
        if offset is None
        else levels.cells_in(task.with_offset(offset), samples, known.is_deep)
    )
    more = [one if one.line.identity in known.informed else wide.informed(one) for one in found.listed or ()]
    listed, detected = [one.bare() for one in more], identities.unlisted(found.detected, more)
    return levels.InWindow(listed, levels.power_of(task, samples), tuple(one.bare() for one in detected))


def begin_process() -> None:
    """Keeps a signal from the terminal from a process and its programs: what they have begun is still reported."""
    os.setpgrp()
    signal.signal(signal.SIGINT, signal.SIG_IGN)
    signal.signal(signal.SIGTERM, signal.SIG_DFL)


# ---- all windows


class LiveCell(SeenCell):
    """All counts of a cell, and the sightings that are kept."""

    def __init__(self, first: Sighting) -> None:
        super().__init__(first)
        self.count, self.least, self.is_old = 1, first.share, False
        self.has_sib1, self.asked = first.line.sib1 is not None, int(first.unread is not None)

    @property
    def is_informed(self) -> bool:
        """Whether SIB1 was read, or asked as often as it is at the cell's bandwidth."""
        return not self.is_old and (self.has_sib1 or self.asked >= wide.WINDOWS)

    def take(self, other: SeenCell) -> None:
        super().take(other)
        if isinstance(other, LiveCell):
            self.has_sib1, self.asked = self.has_sib1 or other.has_sib1, self.asked + other.asked
        self.count, self.least = self.count + other.windows, min(self.least, other.share)

    def add(self, one: Sighting) -> None:
        self.count += one.task.start != self.seen[-1].task.start
        self.least, self.is_old = min(self.least, one.share), False
        self.has_sib1, self.asked = self.has_sib1 or one.line.sib1 is not None, self.asked + (one.unread is not None)
        self.seen.append(one)
        if len(self.seen) >= 2 * KEPT:
            self.keep(KEPT)

    def give(self, new: Sighting) -> list[Sighting]:
        given = super().give(new)
        self.count -= len({one.task.start for one in given})
        return given

    def keep(self, last: int) -> None:
        """Keeps the first, the strongest, one that says most, and `last` of the last."""
        most = max(self.seen, key=lambda one: (saying(one.line), one.unread is not None))
        kept = {id(one) for one in (self.seen[0], self.strongest, most, *self.seen[-last:])}
        self.seen = [one for one in self.seen if id(one) in kept]

    @property
    def windows(self) -> int:
        return self.count

    @property
    def share(self) -> float:
        return self.least


class Live:
    """What was detected until now, and what is known for the windows to come."""

    def __init__(self, options: SurveyOptions, file: RadioFile, ring: stream.Ring) -> None:
        self.options, self.file, self.ring = options, file, ring
        self.offset, self.is_known, self.without = options.offset or 0.0, options.offset is not None, 0
        self.cells: list[LiveCell] = []
        self.spoiled: list[float] = []
        self.offsets: list[tuple[float, float]] = [] if options.offset is None else [(0, options.offset)]
        self.windows, self.skipped, self.forgotten, self.behind = 0, 0, 0, 0.0
        self.jumps: list[Jump] = []
        self.powers: collections.deque[Power] = collections.deque(maxlen=MOST_POWERS)
        self.detected: collections.deque[identities.DeepSighting] = collections.deque(maxlen=MOST_POWERS)
        self.starts: collections.deque[float] = collections.deque(maxlen=MOST_POWERS)
        self.pauses = 0  # that were reported
        self.empty: Task | None = None  # the last window that lists nothing

    @property
    def informed(self) -> frozenset[int]:
        """The identities of cells whose SIB1 is not asked again."""
        return frozenset(cell.seen[-1].line.identity for cell in self.cells if cell.is_informed)

    def task(self, window: stream.Window) -> Task:
        """Returns a window as a file of its own, which begins where the window does."""
        width = width_of(self.file)
        count = len(window.data) // width
        first = window.first
        file = dataclasses.replace(self.file, held=window.data, begins=-width * first, count=first + count)
        return Task(file, window.first / file.rate, count / file.rate, self.offset)

    @property
    def known(self) -> Known:
        """What is known for the next window."""
        return Known(self.is_known, self.informed, self.options.deep)

    def add(self, start: float, came: float, window: levels.InWindow) -> None:
        """Adds what was found in a window that begins at second `start` and came at time `came`."""
        found = window.listed
        behind = time.monotonic() - came
        self.windows, self.behind = self.windows + 1, max(self.behind, behind)
        self.starts.append(start)
        self.report_pauses()
        self.report_skipped(start)
        if found is None:
            self.spoiled = [*self.spoiled, round(start, 6)][-KEPT:]
            return
        if window.power is not None:
            self.powers.append(window.power)
        self.detected += window.detected
        missing, count, sure = sum(jump.samples for jump in self.jumps), len(self.cells), []
        for one in found:
            cell = add_sighting(self.cells, one.later(missing), LiveCell)
            if not cell.is_chance(self.cells):
                sure.append(one)
            if self.options.follow:
                self.report(line_of(one, cell, self.cells, self.options.gain) + f"  {behind:.1f} s behind")
        if len(self.cells) > count:
            self.join()
        self.learn(start, sure)
        self.forget(start)

    def join(self) -> None:
        """Joins lines that are one cell, and reports samples that are missing."""
        self.cells, jumps = as_one(self.cells)
        self.cells.sort(key=lambda cell: cell.seen[-1].seconds)
        self.jumps += jumps
        for jump in jumps if self.options.follow else ():
            self.report(f"{jump.last:10.3f} s  {survey_table.gap_text(jump.gap(self.file.rate), self.file.rate)}")

    def learn(self, start: float, sure: list[Sighting]) -> None:
        """Sets the offset for the windows to come, by the surest cell found that is no false detection."""
        surest = min(sure, key=lambda one: one.error, default=None)
        self.without = 0 if sure else self.without + 1
        if self.options.offset is not None:
            return
        if surest and surest.error < VAGUE:
            if not self.is_known:
                self.offsets = [*self.offsets, (round(start, 6), round(surest.offset, 1))][-KEPT:]
            self.offset, self.is_known = surest.offset, True
        elif self.without >= LOST:
            self.offset, self.is_known = 0, False

    def forget(self, now: float) -> None:
        """Forgets a false detection, and most of a cell, that was not seen for a while."""
        for cell in [one for one in self.cells if not one.is_old and now - one.seen[-1].seconds > FORGET]:
            if cell.is_chance(self.cells):
                self.cells.remove(cell)
                self.forgotten += 1
            else:
                cell.keep(1)
                cell.is_old = True

    def report_skipped(self, start: float) -> None:
        count = self.ring.skipped - self.skipped
        if count and self.options.follow:
            self.report(f"{start:10.3f} s  no time for {count} window{'s' if count > 1 else ''} behind it")
        self.skipped = self.ring.skipped

    def report_pauses(self) -> None:
        pauses, width = self.ring.pauses, width_of(self.file)
        for one in pauses[self.pauses :] if self.options.follow else ():
            second = one.place / width / self.file.rate
            self.report(f"{second:10.3f} s  samples came again after {one.seconds:.1f} s without any")
        self.pauses = len(pauses)

    def report(self, line: str) -> None:
        """Writes a line at once, on standard error if the table is for other programs."""
        print(line, file=sys.stderr if self.options.json or self.options.csv else sys.stdout, flush=True)

    def survey(self) -> Survey:
        """Returns the survey."""
        count, cells = self.ring.size // width_of(self.file), in_windows_order(self.cells)
        others = identities.joined(self.detected, cells, self.jumps)
        others, cells = identities.confirmed(others, cells)
        rounding = levels.rounding_of(self.file)
        powers, steps = levels.even(cells, list(self.powers), self.options.gain, rounding, others)
        hint = self.hint(cells) if all(cell.is_chance(cells) for cell in cells) else None
        file = begun(self, count)
        asked = others if self.options.deep else None
        looked = Looked(self.windows, self.spoiled, self.offsets, self.jumps, powers, steps, asked)
        found = survey_of_cells(self.options, file, cells, looked, hint)
        ended = survey_data.Live(self.ring.skipped, self.forgotten, round(self.behind, 2))
        return dataclasses.replace(found, live=ended)

    def hint(self, cells: list[LiveCell]) -> str:
        """Returns what may be wrong where no cell is sure, and which rule fails in the last window without one."""
        if self.empty is None:
            return NO_CELL
        question = hints.about(min(cells, key=hints.order)) if cells else hints.Question()
        reason = hints.sentence(hints.Asked(self.empty, question))
        return hints.added(NO_CELL, hints.carriers_of(self.empty), reason)


def begun(live: Live, count: int) -> RadioFile:
    """Returns the stream as a file of `count` samples, with the time at which it began unless it is a file's, and those at
    which samples came again after a pause."""
    file, start, ring = dataclasses.replace(live.file, count=count), live.options.start, live.ring
    if ring.waits or ring.begun is None:
        return places.begun(file, start)
    first = start or datetime.datetime.fromtimestamp(ring.begun, datetime.timezone.utc)
    begins = [(0, 0.0, 0.0)] + [
        (one.place // width_of(file), one.time - ring.begun, one.seconds) for one in ring.pauses
    ]
    ends = [sample for sample, _, _ in begins[1:]] + [count]
    stretches = tuple(
        radio_file.Stretch(
            sample, end, file.shift, (first + datetime.timedelta(seconds=later)).isoformat(), round(gap, 3)
        )
        for (sample, later, gap), end in zip(begins, ends)
        if sample < end
    )
    return dataclasses.replace(file, stretches=stretches)


def with_places(live: Live, receiver: gpsd.Receiver | None, found: Survey) -> Survey:
    """Returns the survey with the places of its windows. What was surveyed is not lost if there are none: a line says why."""
    options, file = live.options, begun(live, live.ring.size // width_of(live.file))
    try:
        track: Track | None
        if receiver:
            track = receiver.track()
            places.check_span(options.file, file, track, receiver.path)
        else:
            track = places.track_of(options, file)
        if track:
            found = places.with_places(found, file, track, list(live.starts))
    except (Refused, OSError) as fault:
        note(f"no places: {fault}")
    return found


def width_of(file: RadioFile) -> int:
    """Returns the bytes of a sample."""
    return FORMS[file.form].width


def line_of(one: Sighting, cell: LiveCell, cells: list[LiveCell], gain: Gain) -> str:
    """Returns a cell in a window as a line, with its SIB1 once that was read."""
    sib1 = cell.line.sib1
    level, ratio = (f"{value:6.1f}" if value is not None else "     -" for value in (one.level, one.ratio))
    if one.level is not None and gain is not None:
        level = f"{one.level - levels.gains_of(gain).at(one.seconds):6.1f}"
    names = f"  {' '.join(sib1.networks)} TAC {sib1.tac} cell {sib1.cell}" if sib1 else ""
    return (
        f"{one.seconds:10.3f} s  PCI {one.line.identity:3}  SFN {one.line.sfn:4}  "
        f"{level} {'dBFS' if gain is None else 'dBm'}  {ratio} dB  {one.offset:+9,.0f} Hz"
        f"{names}{'  ?' if cell.is_chance(cells) else ''}"
    )


# ---- to the end


def survey(options: SurveyOptions, file: RadioFile) -> Survey:
    """Looks at standard input until it ends, or a signal comes, and returns the survey."""
    waits = options.wait or stat.S_ISREG(os.fstat(STDIN).st_mode)
    ring = stream.Ring(WAITING * options.jobs, waits, options.follow and is_named_pipe())
    live, receiver = Live(options, file, ring), None
    if options.track:
        places.check_track(options.track)
    if options.gpsd:
        receiver = gpsd.Receiver(options.gpsd)
    shape = stream.Shape(
        width_of(file), options.at * file.rate, round(WINDOW * file.rate), options.every * file.rate, least_of(file)
    )
    with multiprocessing.Pool(options.jobs, begin_process) as pool:
        signals = [signal.signal(kind, ending(ring)) for kind in (signal.SIGINT, signal.SIGTERM)]
        stream.reading(STDIN, ring, shape)
        look_at_all(live, pool, options.jobs)
    for kind, before in zip((signal.SIGINT, signal.SIGTERM), signals):
        signal.signal(kind, before)
    if not live.windows:
        raise Refused(f"-: {ring.size} bytes came, and no window of 0.03 s was looked at")
    found = live.survey()
    return with_places(live, receiver, found) if options.has_places else found


def is_named_pipe() -> bool:
    """Returns whether standard input is a pipe with a name, which may get another writer."""
    try:
        is_named = not os.readlink(f"/proc/self/fd/{STDIN}").startswith("pipe:")
    except OSError:
        return False
    return is_named and stat.S_ISFIFO(os.fstat(STDIN).st_mode)


def least_of(file: RadioFile) -> int:
    return math.ceil(radio_file.LEAST / radio.RATE * file.rate - 1e-6)


def ending(ring: stream.Ring) -> Callable[[int, FrameType | None], None]:
    """Returns what a signal does: what is looked at is still reported; the next signal ends at once."""

    def end(kind: int, _: FrameType | None) -> None:
        ring.is_ended = ring.is_stopped = True
        signal.signal(kind, signal.default_int_handler)

    return end


def look_at_all(live: Live, pool: Any, jobs: int) -> None:
    """Gives windows to processes, and takes what they find in the order of time."""
    ring, last = live.ring, None
    asked: collections.deque[tuple[stream.Window, Any]] = collections.deque()
    while True:
        if ring.is_stopped:
            ring.drop()
            last = last or time.monotonic() + ENDING
        while len(asked) < jobs and (window := ring.take()):
            check_form(live, window)
            answer = pool.apply_async(look, (live.task(window), live.known), callback=ring.wake)
            asked.append((window, answer))
        if asked and asked[0][1].ready():
            window, answer = asked.popleft()
            found = answer.get()
            if found.listed == []:
                live.empty = live.task(window)
            live.add(window.first / live.file.rate, window.came, found)
        elif last is not None and time.monotonic() > last:
            ring.skipped += len(asked)
            return
        elif not asked and ring.is_over():
            return
        else:
            ring.wait(0.1)


def check_form(live: Live, window: stream.Window) -> None:
    """Refuses a stream whose first numbers read like another form's."""
    if window.first == round(live.options.at * live.file.rate):
        if fault := fault_of(np.frombuffer(window.data[:PROBE], "u1"), live.file.form):
            raise Refused(f"-: read as {live.file.form}, {fault}")
